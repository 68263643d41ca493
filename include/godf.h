/* SPDX-License-Identifier: MIT
 *
 * godf: cross fields for triangle floors. The calls of libgodf.a, for C and C++ on x86-64 Linux.
 *
 *   cc program.c libgodf.a          no other library is needed
 *
 * dist/libgodf.a is a built archive; ./install puts it and these headers in place. Related headers: godf_words.h has refusals in words,
 * godf_floor.h a solve with structs instead of 21 parameters, godf.hpp a C++ wrapper that owns its memory.
 *
 * Calls. Functions keep no state and write only through the pointers you pass. They allocate nothing and use less than 16 KB of stack.
 * Any input is accepted, or refused with a number. Calls on several threads are independent as long as none writes to an array that
 * another call uses.
 *
 * Pointers. A pointer must be valid for its length and aligned as C aligns its type. It may be NULL only if its length is 0. An array
 * that is written must not overlap anything else that is passed. Lengths count array elements: 3 n for n points, 3 T for T triangles.
 *
 * Coordinates. The floor lies in x and y. z is never used; godf_refine copies it. An engine with y up passes (x, z, y). Angles are in
 * radians, from the x axis towards the y axis.
 *
 * Floating-point mode. Calls need round to nearest and MXCSR's FTZ and DAZ off, as a C program starts. Games often set FTZ and DAZ, and
 * so does gcc's -ffast-math; results may then differ. Save and restore the mode around a call: _mm_getcsr() and _mm_setcsr(0x1f80) of
 * <xmmintrin.h>. godf_floor.h and godf.hpp do that for you. Where a result is NaN, its sign and payload are not specified.
 */
#ifndef GODF_H
#define GODF_H

#include <stddef.h>
#include <stdint.h>

#ifdef __cplusplus
extern "C" {
#endif

/* ---- version */

/* 10000 * major + 100 * minor + patch of this header. */
#define GODF_VERSION 200

/* The same number for the archive. Before 1.0 a new minor version may change parameters, so compare once at start:
 *   if (godf_version() != GODF_VERSION) ... the archive does not belong to this header */
uint32_t godf_version(void);

/* ---- elementary functions */

/* fdlibm 5.3's sine and cosine of x radians, bit for bit, for |x| up to 524288. NaN for larger |x|, infinities and NaN. */
double godf_sin(double x);
double godf_cos(double x);

/* fdlibm 5.3's atan2, bit for bit: the angle of the point (x, y), from -pi to pi. NaN if x or y is NaN. */
double godf_atan2(double y, double x);

/* IEEE 754's square root: the nearest double, ties to even. Zeros of either sign and +infinity are returned as they are. NaN for
 * negative numbers, -infinity and NaN. */
double godf_sqrt(double x);

/* ---- refusals
 * The numbers that godf_solve and godf_refine return where they do not accept a call; 0 means accepted. Conditions are tested in the
 * order of the list, and the first that holds is returned. Within a condition the lowest place is reported. Points and triangles count
 * from 0.
 *
 * The list is written by tools/words from words.txt, as godf_words.h is:
 *  1  a length of points or triangles is not a multiple of 3, or there are over 16,384 points or 32,768 triangles
 *  2  iterations is 0
 *  3  there are no points
 *  4  there are no triangles
 *  5  the number of sizes, or of angles to refine by, is not the number of points
 *  6  x or y of a point is not finite (place: the point)
 *  7  a size is not finite and positive (place: the point)
 *  8  a corner of a triangle is not the number of a point (place: the triangle)
 *  9  holomorphic is not in -1 to 1
 * 10  anisotropy is not finite and positive
 * 11  the anisotropy angle is not finite
 * 12  the threshold is not finite, or is negative
 * 13  the weight of the weak boundary is not finite, or is negative; or the boundary mode is unknown
 * 14  the guidance weight is not finite, or is negative
 * 15  the number of guidance angles is not the number of points
 * 16  a guidance angle is not finite (place: the point)
 * 17  the anisotropy angle or a guidance angle is over 131,072 in absolute value (place: the point, or n)
 * 18  a result or work array is too short
 * 19  the area of a triangle is not finite, or at most 1e-14 of its longest edge squared (place: the triangle)
 * 20  a point is in no triangle, or the areas around it add up to infinity; remove points that no triangle uses (place: the point)
 * 21  the size gradient at a point is not finite (place: the point)
 * 22  the mean size of an edge is not finite (place, other: its ends)
 * 23  a boundary mode is set, and no edge is in exactly one triangle
 * 24  the solver gave up
 *     for one of these reasons:
 *      1  the trace of the energy matrix is not positive
 *      2  the trace of the mass matrix is not positive
 *      3  the norm of the right-hand side is 0
 *      4  a diagonal entry of the energy matrix is not positive (place: the point)
 *      5  the first residual is not positive
 *      6  the matrix is not positive definite; `accurate`, or smoother sizes, may help
 *      7  the matrix is no longer positive definite
 *      8  the linear solver did not converge
 *      9  the mass of the iterate is not positive
 *     10  the denominator of the Rayleigh quotient is not positive
 *     11  the estimate of the eigenvalue is not finite
 *     12  the field did not converge in the iterations given; more of them, or scaling up a tiny floor, may help
 *     13  an angle of the field is not finite
 * end of the list
 *
 * Notes:
 *  5  godf_refine tests the number of its angles after 8.
 * 13  A boundary mode is unknown if it is none of the three below.
 * 17  Angles are tested whether they are used or not. Place n (the number of points) means the anisotropy angle.
 * 19 to 24 may come from pass 1 or pass 2, see godf_report.pass. In pass 2 the numbers are those of the refined floor.
 * 20  Engines that share one vertex buffer between meshes meet this: copy the points that the floor uses to a buffer of their own, and
 *     renumber the corners (godf_compact of godf_floor.h). 20 and 21 are tested point by point.
 * 23  A weak boundary of weight 0 does not count as a mode that is set.
 * 24  Reasons 1 and 2 are tested before 23.
 *     Reason 6 is the usual one: rough sizes without `accurate`. Set `accurate`, or smooth the sizes.
 *     Reason 12: 100 iterations do for most floors. The test of convergence is not scale-free: without boundary mode, guidance and
 *     anisotropy, a floor whose edges are near 1e-8 or shorter is refused for reason 12, however many iterations it gets. Scale such a
 *     floor up.
 *     Refused in pass 2: a call with threshold 0 still gives the first pass's field.
 */

/* ---- refinement
 * Splits the triangles on which a field turns too far. The variation along an edge is the difference of the angles at its ends, up to
 * quarter turns; it is 0 if one of the angles, or their difference, is not finite. A triangle is flagged if the variation along one of
 * its edges is above the threshold (radians). Every edge of a flagged triangle is cut at its midpoint, and every triangle with a cut edge
 * is split.
 *
 * In: points (x, y, z each), triangles (three corners each, as numbers of points), a size and an angle for each point.
 *
 * Out: points 0 to n - 1 are those given. Point n + k is the midpoint of cut edge k; edges are numbered in the order in which they are
 * first seen. A midpoint has half the sum of its ends' x, y and size, which may overflow to infinity. Its z is 0: to set heights,
 * interpolate between the points cut_ends[2 k] and cut_ends[2 k + 1]. A triangle with k cut edges becomes k + 1 triangles; they follow
 * the order of the triangles given. A triangle with two cut edges may have pieces of the other winding. The refined floor has no cracks,
 * as long as each triangle has three different corners and no two triangles have the same three corners.
 *
 * Lengths, with n points and T triangles: new_points 3 (n + 3 T), new_sizes n + 3 T, new_triangles 12 T, cut_ends 8 T (two numbers for
 * each cut edge). These arrays also serve as scratch space. If the call is accepted, the front of each array is filled, as far as the
 * report says, and the rest is unchanged. If it is refused, they are not written.
 *
 * At most report_count values of the report are written, of these four:
 *   accepted: the numbers of points, triangles, flagged triangles and cut edges
 *   refused:  the place, 0, 0, 0 (place 0 if the refusal has none)
 *
 * Returns 0, or a refusal: 1, 3 to 8, 12 or 18. */
uint64_t godf_refine(const double *points, size_t point_numbers, const uint32_t *triangles, size_t corners,
                     const double *sizes, size_t size_count, const double *angles, size_t angle_count, double threshold,
                     double *new_points, size_t new_point_numbers, double *new_sizes, size_t new_size_count,
                     uint32_t *new_triangles, size_t new_corners, uint32_t *cut_ends, size_t cut_end_count,
                     uint64_t *report, size_t report_count);

/* ---- solve
 * The cross field of a floor: an angle in [0, pi/2) at each point, along which quads are laid. Pass 1 solves the floor as given. If the
 * threshold is above 0 and a triangle is flagged, the floor is refined as by godf_refine, and pass 2 solves the refined floor.
 *
 * Memory. The caller provides four arrays: coarse (n angles), fine, work and numbers. The three functions below return the lengths that
 * the last three need. They take the number of points, the number of triangles and the threshold. Above the limits of refusal 1 they
 * return 0: such a call is always refused. What work and numbers contain before a call does not matter.
 *
 * Pass exactly these lengths. Longer arrays are allowed, but all of work and numbers is cleared, and that costs time: with the arrays of
 * the largest floor, a solve of 121 points took 180 times as long as with its own in one measurement, and 407 times in another.
 *
 * All four arrays together, and the time of one call:
 *
 *   points  triangles  threshold  memory   boundary none  tangent         weak
 *      121        200  0          0.15 MB
 *                      above 0    0.73 MB
 *    1,089      2,048  0           1.4 MB  3 to 9 ms      1 ms            2 ms
 *                      above 0     7.4 MB  4 to 57 ms     9 to 10 ms      2 to 16 ms
 *    4,225      8,192  0           5.6 MB  24 to 71 ms    7 to 9 ms       12 to 14 ms
 *                      above 0      29 MB  26 to 370 ms   62 to 70 ms     14 to 130 ms
 *   16,384     32,258  0            22 MB  190 to 500 ms  50 to 61 ms     91 to 113 ms
 *                      above 0     116 MB  0.19 to 3.4 s  0.45 to 0.53 s  0.1 to 1.1 s
 *   16,384     32,768  0            22 MB
 *                      above 0     117 MB
 *
 * Measured on one core of a shared AMD EPYC server, in each boundary mode, without guidance and anisotropy (docs/PERFORMANCE.md has the
 * floors and the noise). The spread comes from the sizes, and from how much is refined: the threshold was 0.2 divided by the points on
 * one side of the floor.
 *
 * Keep the arrays between calls, a set for each thread. Fresh memory is slow: with newly allocated arrays a solve of 12,321 points with a
 * threshold, in which nothing was flagged, took twice as long.
 *
 * A call cannot be interrupted. Without boundary mode, guidance and anisotropy its time grows with `iterations`, without limit, where
 * the field does not converge; 100 will do for most floors. */
size_t godf_fine_count(size_t n, size_t triangles, double threshold); /* n + 3 T if the threshold is above 0, otherwise 0 */
size_t godf_work_f64(size_t n, size_t triangles, double threshold);   /* 64 n' + 32 t'; if the threshold is above 0, n' = n + 3 T */
size_t godf_work_u32(size_t n, size_t triangles, double threshold);   /* 16 n' + 32 t'  and t' = 4 T, otherwise n' = n and t' = T */

/* Options, each a double. */
typedef struct godf_options {
    double accurate;         /* not 0: curvature-aware integrals (the paper's Appendix D); 0: flat limits. For rough sizes: set it */
    double holomorphic;      /* 0: Dirichlet energy; up to 1: holomorphic, with fewer singularities; down to -1: anti-holomorphic */
    double anisotropy;       /* ratio of axes a: pulls the field towards the angle below with weight (a + 1/a - 2)^2; 1: no pull */
    double anisotropy_angle; /* radians from the x axis */
    double boundary;         /* GODF_BOUNDARY_NONE, GODF_BOUNDARY_TANGENT or GODF_BOUNDARY_WEAK; anything else is refusal 13 */
    double boundary_weight;  /* weight of the weak mode; not read in the others */
    double adaptive;         /* the threshold in radians; 0: one pass */
} godf_options;

#define GODF_BOUNDARY_NONE 0.0    /* the boundary is free */
#define GODF_BOUNDARY_TANGENT 1.0 /* the field is tangent to the boundary */
#define GODF_BOUNDARY_WEAK 2.0    /* the field is pulled towards the boundary's direction by the weight */

/* godf_options o = GODF_OPTIONS_DEFAULT; */
#define GODF_OPTIONS_DEFAULT {0.0, 0.0, 1.0, 0.0, GODF_BOUNDARY_NONE, 0.0, 0.0}

/* The result of a solve. Every call writes all seven; a value that does not apply is 0. */
typedef struct godf_report {
    uint64_t number;  /* 0: accepted; otherwise the refusal */
    uint64_t place;   /* where: a point, a triangle, or one end of an edge; godf_place_kind of godf_words.h says which */
    uint64_t other;   /* refusal 22: the other end of the edge */
    uint64_t pass;    /* refusals 19 to 24: the pass, 1 or 2; in pass 2 places are those of the refined floor */
    uint64_t reason;  /* refusal 24: why the solver gave up */
    uint64_t flagged; /* accepted: flagged triangles */
    uint64_t cut;     /* accepted: cut edges; the refined floor has n + cut points */
} godf_report;

/* Solves a floor. Returns report->number: 0, or a refusal.
 *
 * In: points (x, y, z each; z is never read), triangles (three corners each, as numbers of points), a size for each point, options,
 * guidance, and the largest number of outer iterations. If `guided` is not 0, guidance is an angle for each point, with one weight;
 * otherwise neither is read.
 *
 * Written: if the call is accepted, coarse[0 .. n - 1] is the field of pass 1. If a triangle was flagged as well, fine[0 .. n + cut - 1]
 * is the field of pass 2: the points given, then the midpoints. The rest of both arrays is unchanged. If the call is refused, both are
 * unchanged. Refusals 1 to 18 leave work and numbers unchanged; in all other cases both end as zeros, over their whole length.
 *
 * `options` and `report` must not be NULL.
 *
 *   size_t n = 3, t = 1;
 *   double points[] = {0, 0, 0, 1, 0, 0, 0, 1, 0}, sizes[] = {1, 1, 1};
 *   uint32_t triangles[] = {0, 1, 2};
 *   godf_options o = GODF_OPTIONS_DEFAULT;
 *   o.boundary = GODF_BOUNDARY_TANGENT;
 *   o.adaptive = 0.1;
 *   size_t fine = godf_fine_count(n, t, o.adaptive), reals = godf_work_f64(n, t, o.adaptive), words = godf_work_u32(n, t, o.adaptive);
 *   double *coarse_angles = malloc(n * sizeof(double)), *fine_angles = malloc(fine * sizeof(double));
 *   double *work = malloc(reals * sizeof(double));
 *   uint32_t *numbers = malloc(words * sizeof(uint32_t));
 *   godf_report r;
 *   if (godf_solve(points, 3 * n, triangles, 3 * t, sizes, n, NULL, 0, 0, 0, &o, 100, coarse_angles, n, fine_angles, fine,
 *                  work, reals, numbers, words, &r) == 0) {
 *       size_t count;
 *       const double *angles = godf_answer(coarse_angles, n, fine_angles, fine, n, r.flagged, &count) ? fine_angles : coarse_angles;
 *       for (size_t i = 0; i < count; i++) printf("%.17g\n", angles[i]);
 *   }
 */
uint64_t godf_solve(const double *points, size_t point_numbers, const uint32_t *triangles, size_t corners,
                    const double *sizes, size_t size_count, const double *guidance, size_t guidance_count, uint32_t guided,
                    double weight, const godf_options *options, size_t iterations, double *coarse, size_t coarse_count,
                    double *fine, size_t fine_count, double *work, size_t work_count, uint32_t *numbers, size_t number_count,
                    godf_report *report);

/* Where the field of an accepted solve is. `flagged` is godf_report.flagged. Returns 0: the first *count angles of coarse; or 1: the
 * first *count angles of fine. *count is n, or 0 if that array is shorter than n. */
uint32_t godf_answer(const double *coarse, size_t coarse_count, const double *fine, size_t fine_count, size_t n, size_t flagged,
                     size_t *count);

/* ---- reading a field
 * Points, triangles and angles as above; z is never read. The limits of refusal 1 do not apply. These calls have return values of
 * their own. */

/* The cross angle at (x, y), in [0, pi/2), interpolated in the first triangle of the list that contains the point. alpha has the field's
 * angle at each point of the floor.
 *   0  *angle is the angle
 *   1  refused: point_numbers or corners is not a multiple of 3
 *   2  no angle: alphas != n, an angle of alpha is not finite, no triangle contains (x, y), or the interpolated direction vanishes
 *   3  refused: an angle of alpha is over 131072 in absolute value
 * *angle is written only where 0 is returned. A NaN in x or y counts as inside the first triangle that is tested, and the angle is
 * then 0. */
uint32_t godf_interp_angle(const double *alpha, size_t alphas, const double *points, size_t point_numbers,
                           const uint32_t *triangles, size_t corners, double x, double y, double *angle);

/* Counts singular triangles: those of positive charge (three quads meet) and of negative charge (five quads meet). Triangles with a
 * corner that has no angle, or one that is not finite, are skipped.
 *   0  *valence_3 and *valence_5 are the counts
 *   1  refused, and nothing is written: corners is not a multiple of 3 */
uint32_t godf_count_singularities(const double *alpha, size_t alphas, const uint32_t *triangles, size_t corners,
                                  size_t *valence_3, size_t *valence_5);

/* ---- the matrix product, one vertex at a time
 * For a product that is spread over cores. The matrix is Hermitian: a row and a column for each of n vertices, a real diagonal, and a
 * complex entry for each edge. Edge e joins two different vertices. Entry off[e] is in row from[e], column to[e]; its conjugate is in row
 * to[e], column from[e]. If several edges join the same two vertices, their entries add up. All other entries are 0. In `off` and in the
 * vector x a complex number is two doubles, re and im; an odd last double is not read.
 *
 * Build the lists once for a graph. Then ask for vertices in any order, on any threads. The product at a vertex starts with the
 * diagonal term and adds the terms of the vertex's edges in the order of their numbers; every operation is rounded once. The solver's
 * own product has the same order at each vertex, so the bits are the same, however the vertices are spread over cores.
 * examples/product.c spreads a product over threads. */

/* Writes the list of the edges at each vertex. `edges` is the length of `from`, `ends` that of `to`; both are the number of edges, m.
 *   lists[0 .. n]    for each vertex, the number of entries before its list; lists[n] is 2 m
 *   lists[n + 1 ..]  2 m entries: the lists of vertices 0, 1, .. n - 1, one after the other. The list of a vertex has the numbers of
 *                    the edges that end there, in rising order
 * The list of vertex v has lists[v + 1] - lists[v] entries, and the first of them is lists[n + 1 + lists[v]].
 *   0  the first n + 1 + 2 m numbers of `lists` are written, and the rest is unchanged
 *   1  refused, and nothing is written: edges != ends, list_numbers < n + 1 + 2 m, 2 m is 2^32 or more, an end is not below n, or
 *      both ends of an edge are the same vertex
 * Call it on one thread, and start the products when it has returned. */
uint32_t godf_vertex_lists(size_t n, const uint32_t *from, size_t edges, const uint32_t *to, size_t ends, uint32_t *lists,
                           size_t list_numbers);

/* The product of the matrix and x at one vertex. Each edge e of the vertex's list adds off[e] times x[to[e]] if from[e] is the vertex,
 * and otherwise the conjugate of off[e] times x[from[e]].
 *   0  *re and *im are the product
 *   1  refused, and nothing is written: the vertex is not below n or not in x; `lists` has fewer than n + 1 numbers; the vertex's list is
 *      not within `lists`, or ends before it begins; the number of an edge in the list is not in `from`, `to` or `off`; or the other end
 *      of such an edge is not in x
 * Every index is tested before it is used, so damaged lists are refused or give another sum, and nothing worse. Lists that
 * godf_vertex_lists has written, for the same n, from and to, are never refused if the vertex is below n, `off` has m entries and x has
 * n.
 *
 * The arrays are only read. Any number of threads may use the same arrays at once, as long as none writes to them and each call has
 * its own *re and *im. */
uint32_t godf_vertex_product(const double *diagonal, size_t n, const double *off, size_t off_numbers, const uint32_t *from, size_t edges,
                             const uint32_t *to, size_t ends, const uint32_t *lists, size_t list_numbers,
                             const double *x, size_t x_numbers, size_t vertex, double *re, double *im);

#ifdef __cplusplus
}
#endif

#endif
