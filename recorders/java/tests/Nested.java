/** Constructors that make another object of their own class: each is known by where it is made. */
public class Nested {
    private Nested kid;

    Nested(int depth) {
        if (depth > 0) kid = new Nested(depth - 1);
    }

    synchronized void up() {
        kid.down();
    }

    synchronized void down() {
    }

    /** Its monitor is taken by the class above it alone. */
    static class Below extends Nested {
        Below(Below kid) {
            super(0);
            super.kid = kid;
        }

        Below() {
            this(new Below(null));
        }
    }

    public static void main(String[] words) {
        new Below().up();
        new Nested(1).up();
    }
}
