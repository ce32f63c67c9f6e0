/** Classes within classes, and what they capture. */
public class Inner {
    private int count = 1;

    class Counter {
        private final int by;

        Counter(int by) {
            this.by = by;
        }

        int next() {
            count += by;
            return count;
        }
    }

    interface Named {
        String name();

        default String shout() {
            return name().toUpperCase() + "!";
        }

        static Named of(String text) {
            return new Named() {
                public String name() {
                    return text;
                }
            };
        }
    }

    public static void main(String[] words) {
        Inner outer = new Inner();
        Counter counter = outer.new Counter(3);
        counter.next();
        System.out.println(Named.of("a" + counter.next()).shout());
    }
}
