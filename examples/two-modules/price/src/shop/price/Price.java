package shop.price;

public class Price {
    public static int reduced(int cents, int percent) {
        if (percent < 0 || percent > 100) {
            throw new IllegalArgumentException("percent: " + percent);
        }
        return cents - cents * percent / 100;
    }
}
