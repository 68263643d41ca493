/* leaves N SEED: calls godf's sin, cos, atan2 and sqrt on N inputs each. Compares the root with the processor's, and writes
 * the rest to standard output for Leaves.java: N rows x, sin, cos and N rows y, x, atan2 of little-endian doubles. */
#include <inttypes.h>
#include <math.h>
#include <stdio.h>
#include <stdlib.h>
#include "../include/godf.h"
#include "random.h"

static double either(double x) { return next() & 1 ? x : -x; }
static double near(double x, int n) { return d(b(x) + next() % (2 * n + 1) - n); }

/* upper words at which fdlibm changes branch */
static double at_switch(void) {
    static const uint32_t words[] = {0x3e400000, 0x3fd33333, 0x3fe90000, 0x3fe90001, 0x3fe921fb, 0x3fe921fc, 0x3ff921fb, 0x3ff921fc, 0x4002d97c,
        0x41200000, 0x3e200000, 0x3fdc0000, 0x3fe60000, 0x3ff30000, 0x40038000, 0x44100000, 0x3ff00000, 0x00100000, 0x7fe00000};
    uint64_t w = (uint64_t)words[next() % (sizeof words / 4)] << 32;
    return either(next() & 1 ? near(d(w), 8) : d(w | (next() & 0xffffffff)));
}

static double angle(void) {
    switch (next() % 8) {
    case 0: return d(next());
    case 1: return either(unit() * 524288.0);
    case 2: return either(near((double)(1 + next() % 333772) * M_PI_2, 4));
    case 3: return either((double)(next() % 40) * M_PI_2 + (unit() - 0.5) * exp2(-(double)(next() % 50)));
    case 4: return either(near((double)(1 + next() % 64) * M_PI_4, 32));
    case 5: return either(unit() * M_PI);
    case 6: return either(unit() * exp2((double)(next() % 40) - 20.0));
    default: return at_switch();
    }
}

static double any(void) {
    switch (next() % 6) {
    case 0: return d(next());
    case 1: return at_switch();
    case 2: return either(unit() * 1000.0);
    case 3: return either(unit() * exp2((double)(next() % 200) - 100.0));
    case 4: { static const double some[] = {0.0, 1.0, 2.0, 3.0, 0.5, 1e-300, 1e300, 5e-324, INFINITY, NAN, 1e-308}; return either(some[next() % 11]); }
    default: return either(unit());
    }
}

static double square(void) {
    switch (next() % 6) {
    case 0: return d(next());
    case 1: return d(next() >> 1);
    case 2: return d(next() >> 12 >> next() % 50);
    case 3: { double n = (double)(next() >> (11 + next() % 30)); return near(n * n, 2); }
    case 4: { double n = (double)(0x2000000 + next() % 0x2000000); return d(b(near(n * n, 1)) - (next() % 400 << 53)); }
    default: return near(d((next() % 2047) << 52), 3);
    }
}

int main(int count, char **words) {
    long n = count > 1 ? atol(words[1]) : 200000;
    uint64_t seed = count > 2 ? strtoull(words[2], 0, 0) : 1;
    long differ = 0;
    state = seed;
    for (long i = 0; i < n; i++) {
        double x = square(), r = godf_sqrt(x), h = hardware(x);
        if (!same(r, h) && differ++ < 5) fprintf(stderr, "sqrt of %016" PRIx64 ": %016" PRIx64 ", processor %016" PRIx64 "\n", b(x), b(r), b(h));
    }
    fprintf(stderr, "sqrt %ld compared, %ld differ\n", n, differ);
    state = seed + 1;
    for (long i = 0; i < n; i++) {
        double x = angle(), row[3] = {x, godf_sin(x), godf_cos(x)};
        fwrite(row, 8, 3, stdout);
    }
    state = seed + 2;
    for (long i = 0; i < n; i++) {
        double y = any(), x = any();
        switch (next() % 6) {
        case 0: y = x * exp2((double)(next() % 140) - 70.0) * (1.0 + unit()); break;
        case 1: y = x * (unit() * 4.0); break;
        case 2: x = 1.0; break;
        }
        double row[3] = {y, x, godf_atan2(y, x)};
        fwrite(row, 8, 3, stdout);
    }
    return differ != 0;
}
