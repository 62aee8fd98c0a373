package shop.tests;

import shop.price.Price;
import shop.text.Money;

public class PriceTest {
    public static void main(String[] words) {
        System.out.println(Money.show(Price.reduced(1995, 20)));
    }
}
