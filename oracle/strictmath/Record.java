// Writes the recorded answers of sin, cos and atan2 by java.lang.StrictMath, which gives fdlibm 5.3's results.
// java oracle/strictmath/Record.java DIR writes DIR/sincos and DIR/atan2, always the same bytes: the inputs come from a fixed seed.
import java.io.PrintStream;
import java.util.Random;

public class Record {
    static final Random random = new Random(20130423);
    static PrintStream out;

    static double d(long bits) { return Double.longBitsToDouble(bits); }
    static long b(double x) { return Double.doubleToLongBits(x); }
    static double unit() { return random.nextDouble(); }
    static double either(double x) { return random.nextBoolean() ? x : -x; }
    // x moved by n units in the last place; an x at 0 or a NaN stays in the format's range
    static double near(double x, int n) { return d((b(x) & Long.MIN_VALUE) | Math.max(0, (b(x) & Long.MAX_VALUE) + n)); }
    static String word(double x) { return String.format("%016x", x != x ? 0x7ff8000000000000L : b(x)); }

    // upper words at which k_sin, k_cos, rem_pio2, s_atan and e_atan2 change branch, and both ends of the format
    static final int[] switches = {
        0x3e400000, 0x3fd33333, 0x3fe90000, 0x3fe90001, 0x3fe921fb, 0x3fe921fc, 0x3ff921fb, 0x3ff921fc, 0x4002d97c, 0x41200000,
        0x413921fb, 0x3e200000, 0x3fdc0000, 0x3fe60000, 0x3ff30000, 0x40038000, 0x44100000, 0x3ff00000, 0x00000000, 0x00100000,
        0x7fe00000, 0x7ff00000,
    };
    static final int[] npio2 = {
        0x3FF921FB, 0x400921FB, 0x4012D97C, 0x401921FB, 0x401F6A7A, 0x4022D97C, 0x4025FDBB, 0x402921FB, 0x402C463A, 0x402F6A7A,
        0x4031475C, 0x4032D97C, 0x40346B9C, 0x4035FDBB, 0x40378FDB, 0x403921FB, 0x403AB41B, 0x403C463A, 0x403DD85A, 0x403F6A7A,
        0x40407E4C, 0x4041475C, 0x4042106C, 0x4042D97C, 0x4043A28C, 0x40446B9C, 0x404534AC, 0x4045FDBB, 0x4046C6CB, 0x40478FDB,
        0x404858EB, 0x404921FB,
    };

    // Arguments at which a small change of fdlibm's text changes a result. Each was found by a search.
    // sin and cos: the last place of S3, S4, C3, C4, pio2_1t, pio2_3; the word of qx; 17 for 16 lost digits; the switch 0x3fd33333 of k_cos;
    // n below 33 for 32 before npio2_hw is asked; npio2_hw never asked, from above and from below
    static final long[] aimed = {
        0x3fe0dce4d27724b1L, 0x3fe73100c8b83a3eL, 0x3fe47659ad73357cL, 0x3fe79f59b99d453eL, 0x40bd5d0a9ed6e030L, 0x40f4f3c75128f204L,
        0x3fdfa0664bf7eca7L, 0x40ea40698698a0c5L, 0x3fd333332826019cL, 0x404921fc44eedf7fL, 0x402c463b40c062beL, 0x403c46383125dfb0L,
    };
    // atan: the last place of aT[2] to aT[8]; the switches 0x3ff30000 and 0x3fdc0000
    static final long[] aimedTangents = {
        0x3fdbf682bf85e048L, 0x3fd6071c4f366628L, 0x3fdaf8d52a4d8da1L, 0x3fdb0573cddcdfabL, 0x3fdbf1a30b2508adL, 0x3fdbc3005488566fL,
        0x3fdaf4192db138fdL, 0x3ff300004e5eb031L, 0x3fdc0000f6e35ab0L,
    };

    // Document 01: NaN for infinities, NaN and sizes above 524,288.
    static void angle(double x) {
        boolean held = Math.abs(x) <= 524288.0;
        out.print(word(x) + " " + word(held ? StrictMath.sin(x) : Double.NaN) + " " + word(held ? StrictMath.cos(x) : Double.NaN) + "\n");
    }

    static void angles(double x) { angle(x); angle(-x); }

    static void pair(double y, double x) { out.print(word(y) + " " + word(x) + " " + word(StrictMath.atan2(y, x)) + "\n"); }

    static void quadrants(double y, double x) { pair(y, x); pair(-y, x); pair(y, -x); pair(-y, -x); }

    static void sincos() {
        for (int s : switches) for (int n = -8; n <= 8; n++) angles(near(d((long) s << 32), n));
        for (int s : switches) for (int n = 0; n < 8; n++) angles(d(((long) s << 32) | (random.nextInt() & 0xffffffffL)));
        for (int s : npio2) for (int n = 0; n < 32; n++) angles(d(((long) (s - 1 + n % 3) << 32) | (random.nextInt() & 0xffffffffL)));
        angles(Double.NaN);
        angles(Double.MIN_VALUE);
        for (int k = 1; k <= 600; k++) for (int n = -1; n <= 1; n++) angles(near(k * (Math.PI / 4), n));
        for (int k = 0; k < 2000; k++) angles(near((1 + random.nextInt(333772)) * (Math.PI / 2), random.nextInt(5) - 2));
        for (int k = 0; k < 500; k++) angles((1 + random.nextInt(40)) * (Math.PI / 2) + (unit() - 0.5) * Math.scalb(1.0, -random.nextInt(50)));
        for (int k = 0; k < 500; k++) angles(d(random.nextLong() & 0x000fffffffffffffL));
        for (int k = 0; k < 1000; k++) angles(Math.scalb(1 + unit(), random.nextInt(60) - 40));
        for (int k = 0; k < 1000; k++) angles(unit() * Math.PI);
        for (int k = 0; k < 1500; k++) angles(unit() * 524288.0);
        for (int k = 0; k < 1000; k++) angle(d(random.nextLong()));
        for (long x : aimed) angles(d(x));
    }

    static void atan2() {
        double[] some = { 0.0, Double.MIN_VALUE, d(0x000fffffffffffffL), Double.MIN_NORMAL, 1e-300, 1e-10, 0.4375, 0.5, 0.6875, 1.0, near(1.0, 1),
            near(1.0, -1), 1.1875, 1.5, 2.0, 2.4375, 3.0, 1e10, 0x1p60, 0x1p66, 1e300, Double.MAX_VALUE, Double.POSITIVE_INFINITY, Double.NaN };
        for (double y : some) for (double x : some) quadrants(y, x);
        for (int s : switches) for (int n = -6; n <= 6; n++) { double y = near(d((long) s << 32), n); pair(y, 1.0); pair(-y, 1.0); }
        // the quotient near each switch of s_atan, in every quadrant
        double[] at = { 0.4375, 0.6875, 1.1875, 2.4375, 0x1p66, 0x1p-29, 1.0 };
        for (double t : at) for (int k = 0; k < 60; k++) { double x = Math.scalb(1 + unit(), random.nextInt(80) - 40); quadrants(near(x * t, random.nextInt(7) - 3), x); }
        // the exponents' difference near 60 and -60, and every ratio from 2^-70 to 2^70
        for (int k : new int[] { 59, 60, 61, 62, -59, -60, -61, -62 }) for (int n = 0; n < 40; n++) {
            double x = Math.scalb(1 + unit(), random.nextInt(100) - 50);
            quadrants(near(Math.scalb(x, k), random.nextInt(3) - 1), x);
        }
        for (int k = -70; k <= 70; k++) for (int n = 0; n < 5; n++) { double x = 1 + unit(); quadrants(Math.scalb(1 + unit(), k), x); }
        for (int k = 0; k < 700; k++) quadrants(unit(), unit());
        for (int k = 0; k < 700; k++) quadrants(unit() * 1000, unit());
        for (int k = 0; k < 400; k++) quadrants(d(random.nextLong() & 0x000fffffffffffffL), d(random.nextLong() & 0x003fffffffffffffL));
        for (int k = 0; k < 5000; k++) pair(d(random.nextLong()), d(random.nextLong()));
        for (long t : aimedTangents) quadrants(d(t), 1.0);
    }

    public static void main(String[] args) throws Exception {
        out = new PrintStream(new java.io.BufferedOutputStream(new java.io.FileOutputStream(args[0] + "/sincos")), false, "US-ASCII");
        sincos();
        out.close();
        out = new PrintStream(new java.io.BufferedOutputStream(new java.io.FileOutputStream(args[0] + "/atan2")), false, "US-ASCII");
        atan2();
        out.close();
    }
}
