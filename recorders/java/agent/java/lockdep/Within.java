package java.lockdep;

import java.lang.annotation.ElementType;
import java.lang.annotation.Retention;
import java.lang.annotation.RetentionPolicy;
import java.lang.annotation.Target;

/**
 * A method that is always compiled into those that call it. Otherwise the JVM compiles it by itself too, once for each
 * of its compilers, since it is called as often as they are. (The build makes the JDK's own annotation of it.)
 */
@Retention(RetentionPolicy.RUNTIME)
@Target(ElementType.METHOD)
@interface Within {
}
