/** Methods whose stack map frames have each form: loops, switches, handlers, calls of `super` behind a condition. */
class Frames {
    int count;

    Frames(boolean which) {
        this(which ? 1 : 2, which ? 3L : 4L);
    }

    Frames(int least, long most) {
        super();
        for (int k = 0; k < least; k++) {
            count += most > k ? k : new Frames(k > 2).count;
        }
    }

    static class Below extends Frames {
        final Object held;

        Below(Object object, double x) {
            super(object == null ? (int) x : object.hashCode(), x > 2 ? 7L : object instanceof String ? 8L : 9L);
            held = object == null ? this : object;
        }

        Below(boolean[] marks) {
            this(marks.length > 0 && marks[0] || marks.length > 4 ? new Below(null, 1.5) : null, marks.length);
        }
    }

    static long longs(long a, double b, int n, String[] words) {
        long sum = 0;
        double factor = b;
        for (String word : words) {
            long size = word.length();
            if (size > a) {
                double y = size * factor;
                sum += (long) y;
            } else {
                sum -= n > 3 ? size : a;
            }
        }
        while (n-- > 0) {
            float f = n;
            sum += f > 2.5f ? 1 : 0;
        }
        return sum;
    }

    static String switches(Object o, int k) {
        String s;
        switch (k) {
            case 1:
                s = "a";
                break;
            case 2:
                s = "b";
                break;
            case 3:
                s = o == null ? "n" : o.toString();
                break;
            case 1000:
                return null;
            default:
                s = new String(k > 7 ? "x" : "y");
        }
        switch (s) {
            case "a":
                return "1";
            case "b":
                return "2";
            default:
                return s;
        }
    }

    static int lookup(int k) {
        switch (k) {
            case -1000000:
                k++;
            case 0:
                return k;
            case 77:
            case 1 << 30:
                while (k > 9) {
                    k /= 10;
                }
        }
        return -k;
    }

    static String handlers(String s, int k) {
        try {
            if (k > 1) {
                throw new IllegalStateException(s);
            }
            k = Integer.parseInt(s);
        } catch (NumberFormatException | IllegalStateException e) {
            k = 3;
        } catch (RuntimeException e) {
            k = 4;
        } finally {
            s += k;
        }
        synchronized (s) {
            int[][] grid = new int[k][];
            for (int[] row : grid) {
                if (row != null) {
                    s += row.length;
                }
            }
        }
        return s;
    }

    static Object arrays(Object[][][] cube, long at, boolean none) {
        Object[][] plane = none ? null : cube[(int) at];
        Object found = plane == null ? cube : plane.length > 3 ? plane[3] : plane;
        for (long k = at, n = k * 2; k < n; k++) {
            byte b = (byte) k;
            char c = (char) n;
            found = b < c ? found : (Object) plane;
        }
        return found;
    }

    static boolean flags(boolean a, boolean b, short c, float d, double e) {
        return a ? b : c > 3 && d < 1f || e >= 2d;
    }

    static void wide(double d00, double d01, double d02, double d03, long l04, long l05) {
        double s = 0;
        for (int k = 0; k < 300; k++) {
            if (k % 2 == 0) {
                long q = l04;
                if (q > l05) {
                    double r = d03;
                    while (r > s) {
                        r /= 2;
                    }
                    s += r;
                } else {
                    int q2 = k;
                    do {
                        q2--;
                    } while (q2 > 0);
                }
            }
        }
    }
}
