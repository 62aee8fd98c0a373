/** A class to be covered: its `main` prints the absolute value of each word. */
public final class Calc {
    static int abs(int i) {
        return i < 0 ? -i : i;
    }

    public static void main(String[] words) {
        for (String word : words) {
            System.out.println(abs(Integer.parseInt(word)));
        }
    }
}
