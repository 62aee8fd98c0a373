/**
 * Ids that fall into one bucket: usage: java OneBucket.java COUNT BITS
 *
 * Prints COUNT numbers of 64 bits, one a line, whose hashes have the same low BITS bits. The hash is the one with which the kit's
 * maps find a number of eight bytes; its seed is fixed.
 */
class OneBucket {
    private static final long SEED = 0x243f6a8885a308d3L;
    private static final long MULTIPLIER = 0x9e3779b97f4a7c15L ^ 16;

    private static long hash(long id) {
        long number = id ^ SEED;
        long high = Math.multiplyHigh(number, MULTIPLIER) + (number >> 63 & MULTIPLIER) + (MULTIPLIER >> 63 & number);
        long joined = number * MULTIPLIER ^ high;
        return joined ^ joined >>> 32;
    }

    public static void main(String[] words) {
        int count = Integer.parseInt(words[0]);
        long mask = (1L << Integer.parseInt(words[1])) - 1;
        StringBuilder lines = new StringBuilder();
        for (long id = 1; count > 0; id++) {
            if ((hash(id) & mask) == 0) {
                lines.append(id).append('\n');
                count--;
            }
        }
        System.out.print(lines);
    }
}
