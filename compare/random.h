/* Seeded numbers (splitmix64) and bit patterns of doubles, for the C programs of compare/, bench/leaves and oracle/strictmath. */
#ifndef RANDOM_H
#define RANDOM_H

#include <stdint.h>
#include <string.h>

static uint64_t state;

static inline uint64_t next(void) {
    uint64_t z = state += 0x9e3779b97f4a7c15;
    z = (z ^ z >> 30) * 0xbf58476d1ce4e5b9;
    z = (z ^ z >> 27) * 0x94d049bb133111eb;
    return z ^ z >> 31;
}

/* from 0 up to 1 */
static inline double unit(void) { return (double)(next() >> 11) * 0x1p-53; }

static inline double d(uint64_t b) { double x; memcpy(&x, &b, 8); return x; }
static inline uint64_t b(double x) { uint64_t u; memcpy(&u, &x, 8); return u; }

/* equal bits, all NaNs counting as one */
static inline int same(double x, double y) { return b(x) == b(y) || (x != x && y != y); }

/* the processor's root */
static inline double hardware(double x) { double r; __asm__("sqrtsd %1, %0" : "=x"(r) : "x"(x)); return r; }

#endif
