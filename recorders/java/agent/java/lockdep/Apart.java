package java.lockdep;

import java.lang.annotation.ElementType;
import java.lang.annotation.Retention;
import java.lang.annotation.RetentionPolicy;
import java.lang.annotation.Target;

/**
 * A method that isn't compiled into those that call it. Otherwise what is seldom needed is compiled into each method of
 * the program that takes a lock, and to compile it so often costs more than the calls. (The build makes the JDK's own
 * annotation of it, which isn't for others.)
 */
@Retention(RetentionPolicy.RUNTIME)
@Target(ElementType.METHOD)
@interface Apart {
}
