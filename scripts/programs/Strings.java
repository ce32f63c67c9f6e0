/** Texts with characters of one, two and three bytes, and one that stands alone. */
public class Strings {
    static final String ZERO = "a\0b";
    static final String WIDE = "\u00fcber \u20ac \ud83d\ude00";
    static final String LONE = "\ud800";

    static int sum(String text) {
        int sum = 0;
        for (char unit : text.toCharArray()) {
            sum = sum * 31 + unit;
        }
        return sum;
    }

    public static void main(String[] words) {
        System.out.println(sum(ZERO) + " " + sum(WIDE) + " " + sum(LONE) + " " + (ZERO + WIDE).length());
    }
}
