import java.util.ArrayList;
import java.util.List;
import java.util.function.Function;
import java.util.function.Supplier;

/** Call sites that are linked when they run. */
public class Lambdas {
    static <A, B> List<B> map(List<A> items, Function<? super A, ? extends B> f) {
        List<B> out = new ArrayList<>();
        for (A item : items) {
            out.add(f.apply(item));
        }
        return out;
    }

    public static void main(String[] words) {
        int base = 10;
        Supplier<List<Integer>> make = ArrayList::new;
        List<Integer> items = make.get();
        for (int i = 0; i < 5; i++) {
            items.add(i);
        }
        System.out.println(map(map(items, n -> n * n + base), Integer::toHexString));
    }
}
