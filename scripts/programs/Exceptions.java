import java.io.IOException;

/** Ranges, handlers, and what a method declares to throw. */
public class Exceptions {
    static class Broken extends Exception {
        final int place;

        Broken(int place) {
            super("broken at " + place);
            this.place = place;
        }
    }

    static int step(int n) throws Broken, IOException {
        if (n % 3 == 0) {
            throw new Broken(n);
        }
        if (n % 5 == 0) {
            throw new IOException("io " + n);
        }
        return n;
    }

    static String run(int n) {
        String said = "";
        try {
            said += step(n);
        } catch (Broken broken) {
            said += broken.getMessage() + broken.place;
        } catch (IOException | RuntimeException other) {
            said += other.getMessage();
        } finally {
            said += ";";
        }
        return said;
    }

    public static void main(String[] words) {
        for (int n = 1; n < 8; n++) {
            System.out.print(run(n));
        }
        System.out.println();
    }
}
