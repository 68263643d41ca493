/* Times libgodf.a's leaves beside fdlibm in C and the platform's functions: nanoseconds a call, the best of 60 rounds of 100,000 calls,
 * the three taking turns in each round. First compares godf with fdlibm in C on the same inputs. */
#define _POSIX_C_SOURCE 199309L
#include <math.h>
#include <stdio.h>
#include <time.h>
#include "../../compare/random.h"
#include "../../include/godf.h"

double fdlibm_sin(double), fdlibm_cos(double), fdlibm_atan2(double, double);

enum { N = 100000, ROUNDS = 60 };
static double xs[N], ys[N];
static volatile double sink;

static double now(void) { struct timespec t; clock_gettime(CLOCK_MONOTONIC, &t); return (double)t.tv_sec * 1e9 + (double)t.tv_nsec; }

static double two_sqrt(double y, double x) { (void)y; return sqrt(x); }
static double two_godf_sqrt(double y, double x) { (void)y; return godf_sqrt(x); }
#define TWO(name) static double two_##name(double y, double x) { (void)y; return name(x); }
TWO(godf_sin) TWO(fdlibm_sin) TWO(sin) TWO(godf_cos) TWO(fdlibm_cos) TWO(cos)

typedef double function(double, double);
static double round_of(function *f) {
    double s = 0.0, t = now();
    for (int i = 0; i < N; i++) s += f(ys[i], xs[i]);
    t = now() - t;
    sink = s;
    return t / N;
}

static void line(const char *name, double range, function *ours, function *theirs, function *platform) {
    double best[3] = {1e9, 1e9, 1e9};
    long differ = 0;
    for (int i = 0; i < N; i++) { xs[i] = (2.0 * unit() - 1.0) * range; ys[i] = (2.0 * unit() - 1.0) * range; }
    if (!theirs) for (int i = 0; i < N; i++) xs[i] = fabs(xs[i]);
    if (theirs) for (int i = 0; i < N; i++) differ += !same(ours(ys[i], xs[i]), theirs(ys[i], xs[i]));
    for (int k = 0; k < ROUNDS; k++) {
        double t = round_of(ours);
        if (t < best[0]) best[0] = t;
        if (theirs) { t = round_of(theirs); if (t < best[1]) best[1] = t; }
        t = round_of(platform);
        if (t < best[2]) best[2] = t;
    }
    if (theirs) printf("| %s, size to %g | %.1f | %.1f | %.1f | %.2f | %ld |\n", name, range, best[0], best[1], best[2], best[0] / best[1], differ);
    else printf("| %s, to %g | %.1f | | %.1f | | |\n", name, range, best[0], best[2]);
}

int main(void) {
    state = 1;
    puts("| | godf, ns | fdlibm in C, ns | platform, ns | godf / C | differ |\n|---|---|---|---|---|---|");
    const double ranges[] = {0.7, 3.141592653589793, 50.0, 1e5};
    for (int i = 0; i < 4; i++) line("sin", ranges[i], two_godf_sin, two_fdlibm_sin, two_sin);
    for (int i = 0; i < 4; i++) line("cos", ranges[i], two_godf_cos, two_fdlibm_cos, two_cos);
    line("atan2", 1.0, godf_atan2, fdlibm_atan2, atan2);
    line("atan2", 1e5, godf_atan2, fdlibm_atan2, atan2);
    line("sqrt", 1.0, two_godf_sqrt, 0, two_sqrt);
    line("sqrt", 1e300, two_godf_sqrt, 0, two_sqrt);
    return 0;
}
