// java compare/Leaves.java N: reads what compare/leaves.c writes, and compares it with java.lang.StrictMath, all NaNs equal.
// sin and cos are NaN above 524,288 (document 01).
import java.io.BufferedInputStream;
import java.io.DataInputStream;

public class Leaves {
    static final byte[] bytes = new byte[24];
    static DataInputStream in;
    static int shown = 0;

    static double at(int i) {
        long b = 0;
        for (int k = 7; k >= 0; k--) b = b << 8 | (bytes[8 * i + k] & 0xff);
        return Double.longBitsToDouble(b);
    }

    static long differs(String name, double ours, double theirs) {
        if (Double.doubleToLongBits(ours) == Double.doubleToLongBits(theirs)) return 0;
        if (shown++ < 10) System.out.println(name + " of " + at(0) + " " + at(1) + ": " + ours + ", StrictMath " + theirs);
        return 1;
    }

    public static void main(String[] args) throws Exception {
        long n = Long.parseLong(args[0]), sin = 0, cos = 0, atan2 = 0;
        in = new DataInputStream(new BufferedInputStream(System.in, 1 << 20));
        for (long i = 0; i < n; i++) {
            in.readFully(bytes);
            double x = at(0);
            boolean held = Math.abs(x) <= 524288.0;
            sin += differs("sin", at(1), held ? StrictMath.sin(x) : Double.NaN);
            cos += differs("cos", at(2), held ? StrictMath.cos(x) : Double.NaN);
        }
        for (long i = 0; i < n; i++) {
            in.readFully(bytes);
            atan2 += differs("atan2", at(2), StrictMath.atan2(at(0), at(1)));
        }
        System.out.println("sin " + n + " compared, " + sin + " differ");
        System.out.println("cos " + n + " compared, " + cos + " differ");
        System.out.println("atan2 " + n + " compared, " + atan2 + " differ");
        if (sin + cos + atan2 != 0) System.exit(1);
    }
}
