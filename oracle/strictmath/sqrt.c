/* Writes the recorded answers of the processor's square root (sqrtsd) to standard output, always the same bytes: the inputs come from a fixed seed. */
#include <inttypes.h>
#include <stdio.h>
#include "../../compare/random.h"

static uint64_t word(double x) { return x != x ? 0x7ff8000000000000 : b(x); }
static void one(double x) { printf("%016" PRIx64 " %016" PRIx64 "\n", word(x), word(hardware(x))); }
/* the pattern and its neighbours */
static void three(double x) { one(d(b(x) - 1)); one(x); one(d(b(x) + 1)); }

int main(void) {
    state = 20130423;
    const uint64_t ends[] = {0, 1, 2, 3, 4, 0x000fffffffffffff, 0x0010000000000000, 0x0010000000000001, 0x3ff0000000000000,
        0x7fefffffffffffff, 0x7ff0000000000000, 0x7ff8000000000000};
    for (unsigned i = 0; i < sizeof ends / 8; i++) { one(d(ends[i])); one(d(ends[i] | 0x8000000000000000)); }
    for (int k = -1074; k < 1024; k++) three(k < -1022 ? d(UINT64_C(1) << (k + 1074)) : d((uint64_t)(k + 1023) << 52));
    /* exact squares: of every odd number below 2000, of numbers of 26 digits, and these by powers of four */
    for (int n = 1; n < 2000; n += 2) three((double)n * n);
    for (int i = 0; i < 1500; i++) { double n = (double)(0x2000000 + next() % 0x2000000); double s = n * n; three(d(b(s) + (next() % 400 << 53))); three(d(b(s) - (next() % 400 << 53))); }
    /* squares of numbers of 27 digits, rounded: the root lies next to a double */
    for (int i = 0; i < 500; i++) { double n = (double)(0x4000000 + next() % 0x4000000); three(n * n); }
    for (int i = 0; i < 2500; i++) one(d(next() >> 12 >> next() % 50));
    for (int i = 0; i < 3000; i++) one(d(next()));
    for (int i = 0; i < 3000; i++) one(d((0x3fe0000000000000 | next() >> 11) & 0x7fffffffffffffff));
    return 0;
}
