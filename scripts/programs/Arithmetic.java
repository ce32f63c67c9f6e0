/** Numbers of every kind. */
public class Arithmetic {
    static final long MASK = 0x7FFF_FFFF_FFFFL;
    static final double HALF = 0.5;
    static final float THIRD = 1f / 3;

    static long mix(int a, long b, float c, double d) {
        long sum = a * 31L + (b & MASK);
        sum ^= Float.floatToIntBits(c * THIRD);
        return sum + (long) (d * HALF) + (char) a + (byte) b + (short) (a << 3) + (b >>> 5) % 7;
    }

    public static void main(String[] words) {
        long total = 0;
        for (int i = -3; i < 300; i += 7) {
            total += mix(i, total, i / 2f, i * 1e3);
        }
        System.out.println(total + " " + (total > 0 ? 1.0 : -1.0) + " " + Double.compare(HALF, THIRD));
    }
}
