/* A solve through C: the lengths of the arrays, a solve, its field, and a refusal in words.
 *
 *   gcc -std=c99 -Wall -Iinclude examples/solve.c dist/libgodf.a -lm -o solve && ./solve
 */
#include "godf.h"
#include "godf_words.h"

#include <stdio.h>
#include <stdlib.h>

/* A fan of SECTORS triangles around point 0. */
enum { SECTORS = 12, POINTS = SECTORS + 1, ITERATIONS = 100 };

struct fan {
    double points[3 * POINTS], sizes[POINTS];
    uint32_t triangles[3 * SECTORS];
};

static void make(struct fan *fan) {
    for (size_t i = 0; i < POINTS; i++) {
        double turn = 6.283185307179586 * (double)i / SECTORS;
        fan->points[3 * i] = i == 0 ? 0 : godf_cos(turn);
        fan->points[3 * i + 1] = i == 0 ? 0 : godf_sin(turn);
        fan->points[3 * i + 2] = 0;
        fan->sizes[i] = 1;
    }
    for (uint32_t i = 0; i < SECTORS; i++) {
        fan->triangles[3 * i] = 0;
        fan->triangles[3 * i + 1] = i + 1;
        fan->triangles[3 * i + 2] = (i + 1) % SECTORS + 1;
    }
}

/* The arrays of a solve. They can be used again for the next one. */
struct arrays {
    double *coarse, *fine, *work;
    uint32_t *numbers;
    size_t coarse_count, fine_count, work_count, number_count;
};

/* Allocates the lengths that the library asks for. Returns 0 if memory is short; free_arrays is needed even then. A byte more than asked, since
 * malloc(0) may return NULL. */
static int allocate(struct arrays *arrays, size_t points, size_t triangles, double threshold) {
    arrays->coarse_count = points;
    arrays->fine_count = godf_fine_count(points, triangles, threshold);
    arrays->work_count = godf_work_f64(points, triangles, threshold);
    arrays->number_count = godf_work_u32(points, triangles, threshold);
    arrays->coarse = malloc(arrays->coarse_count * sizeof(double) + 1);
    arrays->fine = malloc(arrays->fine_count * sizeof(double) + 1);
    arrays->work = malloc(arrays->work_count * sizeof(double) + 1);
    arrays->numbers = malloc(arrays->number_count * sizeof(uint32_t) + 1);
    return arrays->coarse && arrays->fine && arrays->work && arrays->numbers;
}

static void free_arrays(struct arrays *arrays) {
    free(arrays->coarse);
    free(arrays->fine);
    free(arrays->work);
    free(arrays->numbers);
}

/* Returns 0, or a refusal, which is printed. */
static uint64_t solve(const struct fan *fan, const godf_options *options, const struct arrays *arrays, godf_report *report) {
    uint64_t number = godf_solve(fan->points, 3 * POINTS, fan->triangles, 3 * SECTORS, fan->sizes, POINTS, NULL, 0, 0, 0, options,
                                 ITERATIONS, arrays->coarse, arrays->coarse_count, arrays->fine, arrays->fine_count, arrays->work,
                                 arrays->work_count, arrays->numbers, arrays->number_count, report);
    if (number != 0) {
        printf("refusal %u: %s", (unsigned)number, godf_words(number));
        if (report->reason != 0) printf(": %s", godf_reason_words(report->reason));
        if (godf_place_kind(number, report->reason) != GODF_PLACE_NONE) printf(" (place %u)", (unsigned)report->place);
        printf("\n");
    }
    return number;
}

/* Solves a fan and prints its field; then a fan with a size that is negative, which is refused. Returns 1 if all is as expected. */
static int run(struct fan *fan, const godf_options *options, const struct arrays *arrays) {
    godf_report report;
    if (solve(fan, options, arrays, &report) != 0) return 0;
    printf("%u triangles flagged, %u edges cut\n", (unsigned)report.flagged, (unsigned)report.cut);

    /* the field is the front of one of the two arrays */
    size_t count;
    uint32_t of_fine = godf_answer(arrays->coarse, arrays->coarse_count, arrays->fine, arrays->fine_count, POINTS, (size_t)report.flagged, &count);
    const double *angles = of_fine ? arrays->fine : arrays->coarse;
    for (size_t i = 0; i < count; i++) printf("angle at point %u: %.4f\n", (unsigned)i, angles[i]);
    size_t threes = 0, fives = 0;
    godf_count_singularities(angles, count, fan->triangles, 3 * SECTORS, &threes, &fives);
    printf("singularities: %u of valence 3, %u of valence 5\n", (unsigned)threes, (unsigned)fives);

    fan->sizes[5] = -1;
    return count == POINTS && solve(fan, options, arrays, &report) == GODF_REFUSED_SIZE && report.place == 5;
}

int main(void) {
    if (godf_version() != GODF_VERSION) {
        fputs("libgodf.a does not belong to godf.h\n", stderr);
        return 1;
    }
    struct fan fan;
    make(&fan);
    /* crosses along the rim, and a second pass where the field turns by more than 0.3 on a triangle */
    godf_options options = GODF_OPTIONS_DEFAULT;
    options.boundary = GODF_BOUNDARY_TANGENT;
    options.adaptive = 0.3;
    struct arrays arrays;
    int good = allocate(&arrays, POINTS, SECTORS, options.adaptive);
    if (good)
        good = run(&fan, &options, &arrays);
    else
        fputs("out of memory\n", stderr);
    free_arrays(&arrays);
    return good ? 0 : 1;
}
