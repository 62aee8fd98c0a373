package shop.text;

public class MoneyTest {
    public static void main(String[] words) {
        System.out.println(Money.show(-205));
    }
}
