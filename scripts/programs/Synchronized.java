/** Monitors, volatile and transient fields, and a static initializer. */
public class Synchronized {
    static volatile int shared;
    transient long unused = 9;
    static final Object LOCK = new Object();

    static {
        shared = 40;
    }

    static synchronized int add(int... more) {
        for (int n : more) {
            synchronized (LOCK) {
                shared += n;
            }
        }
        return shared;
    }

    public static void main(String[] words) throws InterruptedException {
        Thread thread = new Thread(() -> add(1, 2));
        thread.start();
        thread.join();
        System.out.println(add() + new Synchronized().unused);
    }
}
