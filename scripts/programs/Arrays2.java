/** Arrays of arrays. */
public class Arrays2 {
    public static void main(String[] words) {
        int[][] table = new int[4][5];
        long[][][] cube = new long[2][3][];
        cube[1][2] = new long[] {1, 2, 3};
        boolean[] flags = {true, false};
        char[] letters = {'a', '\uD800'};
        for (int i = 0; i < table.length; i++) {
            for (int j = 0; j < table[i].length; j++) {
                table[i][j] = i * j - (flags[j % 2] ? 1 : letters[i % 2]);
            }
        }
        Object copy = table.clone();
        int[][] other = (int[][]) copy;
        System.out.println(other[3][4] + " " + cube[1][2].length + " " + (copy instanceof Object[]));
    }
}
