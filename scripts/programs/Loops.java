/** Jumps out of nested loops, and many locals. */
public class Loops {
    static int many(int seed) {
        int a = seed, b = a + 1, c = b * 2, d = c - a, e = d ^ b, f = e | c, g = f & 0xff, h = g << 2;
        long i = h, j = i * 3, k = j - b, l = k + c;
        double m = l / 7.0, n = m * m;
        outer:
        for (int x = 0; x < 50; x++) {
            for (int y = 0; y < 50; y++) {
                if ((x ^ y) == h % 17) {
                    continue outer;
                }
                if (x * y > 900) {
                    break outer;
                }
                a += x - y;
            }
        }
        do {
            a -= 300;
        } while (a > 1000);
        return (int) (a + b + c + d + e + f + g + h + i + j + k + l + m + n);
    }

    public static void main(String[] words) {
        System.out.println(many(5) + " " + many(-12345));
    }
}
