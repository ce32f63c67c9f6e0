import java.lang.annotation.Annotation;
import java.lang.annotation.ElementType;
import java.lang.annotation.Retention;
import java.lang.annotation.RetentionPolicy;
import java.lang.annotation.Target;
import java.lang.reflect.Method;
import java.util.Arrays;

/** Annotations on a class, its members and their parameters, with values of every kind. */
@Annotated.Mark(name = "class", numbers = {1, 2, 3}, kind = String[].class, inner = @Annotated.Inner(7))
public class Annotated {
    @Retention(RetentionPolicy.RUNTIME)
    @interface Inner {
        int value();
    }

    @Retention(RetentionPolicy.RUNTIME)
    @Target({ElementType.TYPE, ElementType.METHOD, ElementType.PARAMETER, ElementType.FIELD})
    @interface Mark {
        String name() default "none";
        int[] numbers() default {};
        Class<?> kind() default void.class;
        Inner inner() default @Inner(0);
        ElementType where() default ElementType.FIELD;
        double part() default 0.25;
        long far() default 1L << 40;
        char letter() default 'x';
        boolean yes() default true;
    }

    @Retention(RetentionPolicy.CLASS)
    @interface Hidden {}

    @Mark(letter = '\u00e9')
    @Hidden
    static final String FIELD = "value";

    @Mark(name = "method", where = ElementType.METHOD)
    static void method(int plain, @Mark(name = "parameter") @Hidden String text) {}

    public static void main(String[] words) throws Exception {
        Mark mark = Annotated.class.getAnnotation(Mark.class);
        Method method = Annotated.class.getDeclaredMethod("method", int.class, String.class);
        Annotation[][] parameters = method.getParameterAnnotations();
        System.out.println(mark.name() + Arrays.toString(mark.numbers()) + mark.kind() + mark.inner().value());
        System.out.println(method.getAnnotation(Mark.class).where() + " " + parameters.length + " "
                + ((Mark) parameters[1][0]).name() + " "
                + (int) Annotated.class.getDeclaredField("FIELD").getAnnotation(Mark.class).letter());
    }
}
