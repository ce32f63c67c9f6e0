/** Dense and sparse switches, and one over texts. */
public class Switches {
    static String dense(int n) {
        switch (n) {
            case 1: return "one";
            case 2: return "two";
            case 3: case 4: return "some";
            default: return "many";
        }
    }

    static int sparse(int n) {
        switch (n) {
            case -1000: return 1;
            case 7: n++;
            case 70000: return n;
            default: return 0;
        }
    }

    static int text(String s) {
        switch (s) {
            case "Aa": return 1;
            case "BB": return 2;
            default: return s.length();
        }
    }

    public static void main(String[] words) {
        StringBuilder out = new StringBuilder();
        for (int i = 0; i < 6; i++) {
            out.append(dense(i)).append(' ').append(sparse(i * 7 - 7 * (i % 2))).append(' ');
        }
        System.out.println(out.append(text("Aa")).append(text("BB")).append(text("CCC")));
    }
}
