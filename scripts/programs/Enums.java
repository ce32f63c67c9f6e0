/** An enum whose constants have bodies. */
public class Enums {
    enum Shape {
        DOT {
            int size(int n) { return 1; }
        },
        LINE {
            int size(int n) { return n; }
        },
        SQUARE {
            int size(int n) { return n * n; }
        };

        abstract int size(int n);
    }

    public static void main(String[] words) {
        int total = 0;
        for (Shape shape : Shape.values()) {
            total = total * 100 + shape.size(7);
            switch (shape) {
                case LINE: total++; break;
                default: break;
            }
        }
        System.out.println(Shape.valueOf("LINE") + " " + total);
    }
}
