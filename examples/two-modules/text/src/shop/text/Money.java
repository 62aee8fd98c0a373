package shop.text;

public class Money {
    public static String show(int cents) {
        String sign = cents < 0 ? "-" : "";
        int all = Math.abs(cents);
        return sign + all / 100 + "." + all % 100 / 10 + all % 10;
    }
}
