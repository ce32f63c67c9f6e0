import java.util.Comparator;
import java.util.Iterator;
import java.util.NoSuchElementException;

/** Bridges, bounds and wildcards. */
public class Generics {
    static class Chain<T extends Comparable<T>> implements Iterable<T>, Comparator<T> {
        private final T head;
        private final Chain<T> tail;

        Chain(T head, Chain<T> tail) {
            this.head = head;
            this.tail = tail;
        }

        @Override
        public int compare(T a, T b) {
            return b.compareTo(a);
        }

        @Override
        public Iterator<T> iterator() {
            return new Iterator<T>() {
                Chain<T> at = Chain.this;

                public boolean hasNext() {
                    return at != null;
                }

                public T next() {
                    if (at == null) {
                        throw new NoSuchElementException();
                    }
                    T found = at.head;
                    at = at.tail;
                    return found;
                }
            };
        }
    }

    public static void main(String[] words) {
        Chain<String> chain = new Chain<>("b", new Chain<>("a", new Chain<>("c", null)));
        String best = null;
        for (String text : chain) {
            best = best == null || chain.compare(text, best) < 0 ? text : best;
        }
        System.out.println(best);
    }
}
