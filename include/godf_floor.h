/* SPDX-License-Identifier: MIT
 *
 * godf_solve with structs, for C99 and C++: inline, over libgodf.a. godf.h says what each value means, what is refused, and how much memory
 * and time a solve takes.
 *
 *   godf_floor floor = {points, triangles, sizes, n, t};
 *   godf_options options = GODF_OPTIONS_DEFAULT;
 *   options.boundary = GODF_BOUNDARY_TANGENT;
 *   void *block = malloc(godf_memory_bytes(n, t, options.adaptive));
 *   godf_memory memory = godf_memory_in(block, n, t, options.adaptive);
 *   godf_report report;
 *   if (godf_solve_floor(&floor, NULL, &options, 100, &memory, &report) == 0)
 *       use(godf_field(&floor, &memory, &report), n);
 *   free(block);
 *
 * godf_solve_floor sets the floating-point mode that the library needs, and puts back the caller's.
 */
#ifndef GODF_FLOOR_H
#define GODF_FLOOR_H

#include "godf.h"

#if defined(__x86_64__)
#include <xmmintrin.h>
#endif

/* The floating-point mode that the library needs: round to nearest, FTZ and DAZ off, no traps. */
#define GODF_MXCSR 0x1f80u

/* A floor: point_count points (x, y, z each) with a size each, and triangle_count triangles (three corners each). */
typedef struct godf_floor {
    const double *points;
    const uint32_t *triangles;
    const double *sizes;
    size_t point_count, triangle_count;
} godf_floor;

/* Guidance: an angle for each point, and one weight. */
typedef struct godf_guidance {
    const double *angles;
    double weight;
} godf_guidance;

/* The four arrays that the caller provides, with their lengths. They can be used again for the next solve, with the lengths for its
 * floor. */
typedef struct godf_memory {
    double *coarse, *fine, *work;
    uint32_t *numbers;
    size_t coarse_count, fine_count, work_count, number_count;
} godf_memory;

/* Sets the library's floating-point mode. Returns the mode that was set before, for godf_mode_restore. */
static inline uint32_t godf_mode_set(void) {
#if defined(__x86_64__)
    uint32_t before = _mm_getcsr();
    _mm_setcsr(GODF_MXCSR);
    return before;
#else
    return 0;
#endif
}

static inline void godf_mode_restore(uint32_t before) {
#if defined(__x86_64__)
    _mm_setcsr(before);
#else
    (void)before;
#endif
}

/* The number of bytes that the four arrays take together. 0 for a floor above the limits, which is always refused. */
static inline size_t godf_memory_bytes(size_t points, size_t triangles, double threshold) {
    size_t reals = godf_work_f64(points, triangles, threshold);
    if (reals == 0) return 0;
    reals += points + godf_fine_count(points, triangles, threshold);
    return reals * sizeof(double) + godf_work_u32(points, triangles, threshold) * sizeof(uint32_t);
}

/* The four arrays in one block of godf_memory_bytes or more, aligned for doubles as malloc aligns. All arrays have length 0 if the block
 * is NULL or the floor is above the limits. */
static inline godf_memory godf_memory_in(void *block, size_t points, size_t triangles, double threshold) {
    godf_memory memory = {NULL, NULL, NULL, NULL, 0, 0, 0, 0};
    if (block == NULL || godf_memory_bytes(points, triangles, threshold) == 0) return memory;
    memory.coarse_count = points;
    memory.fine_count = godf_fine_count(points, triangles, threshold);
    memory.work_count = godf_work_f64(points, triangles, threshold);
    memory.number_count = godf_work_u32(points, triangles, threshold);
    memory.coarse = (double *)block;
    memory.fine = memory.coarse + memory.coarse_count;
    memory.work = memory.fine + memory.fine_count;
    memory.numbers = (uint32_t *)(void *)(memory.work + memory.work_count);
    return memory;
}

/* Leaves out the points that no triangle uses, which a solve refuses (20): writes the points that are used and their sizes in their order,
 * and the triangles with new corners. new_numbers gets the new number of each point, or UINT32_MAX if it is left out. The arrays have the
 * floor's lengths, and may be the floor's own. Returns the number of points that are used. A corner that is not a point stays as it is. */
static inline size_t godf_compact(const godf_floor *floor, double *points, double *sizes, uint32_t *triangles, uint32_t *new_numbers) {
    size_t i, k, used = 0;
    for (i = 0; i < floor->point_count; i++) new_numbers[i] = UINT32_MAX;
    for (i = 0; i < 3 * floor->triangle_count; i++)
        if (floor->triangles[i] < floor->point_count) new_numbers[floor->triangles[i]] = 0;
    for (i = 0; i < floor->point_count; i++) {
        if (new_numbers[i] == UINT32_MAX) continue;
        new_numbers[i] = (uint32_t)used;
        for (k = 0; k < 3; k++) points[3 * used + k] = floor->points[3 * i + k];
        sizes[used++] = floor->sizes[i];
    }
    for (i = 0; i < 3 * floor->triangle_count; i++) {
        uint32_t corner = floor->triangles[i];
        triangles[i] = corner < floor->point_count ? new_numbers[corner] : corner;
    }
    return used;
}

/* godf_solve. `guidance` may be NULL: none. Returns report->number: 0, or a refusal. */
static inline uint64_t godf_solve_floor(const godf_floor *floor, const godf_guidance *guidance, const godf_options *options,
                                        size_t iterations, const godf_memory *memory, godf_report *report) {
    uint32_t before = godf_mode_set();
    uint64_t number = godf_solve(floor->points, 3 * floor->point_count, floor->triangles, 3 * floor->triangle_count, floor->sizes,
                                 floor->point_count, guidance ? guidance->angles : NULL, guidance ? floor->point_count : 0,
                                 guidance ? 1 : 0, guidance ? guidance->weight : 0, options, iterations, memory->coarse,
                                 memory->coarse_count, memory->fine, memory->fine_count, memory->work, memory->work_count,
                                 memory->numbers, memory->number_count, report);
    godf_mode_restore(before);
    return number;
}

/* The angles of an accepted solve at the floor's points; NULL after a refusal. */
static inline const double *godf_field(const godf_floor *floor, const godf_memory *memory, const godf_report *report) {
    size_t count;
    uint32_t of_fine;
    if (report->number != 0) return NULL;
    of_fine = godf_answer(memory->coarse, memory->coarse_count, memory->fine, memory->fine_count, floor->point_count,
                          (size_t)report->flagged, &count);
    return count == 0 ? NULL : of_fine ? memory->fine : memory->coarse;
}

#endif
