/* A solve through the struct call: a square of 5 by 5 points that a strong guidance turns, in one block of memory, and a refusal.
 *
 *   gcc -std=c99 -Wall -Iinclude examples/floor.c dist/libgodf.a -lm -o floor && ./floor
 */
#include "godf_floor.h"
#include "godf_words.h"

#include <stdio.h>
#include <stdlib.h>

enum { SIDE = 5, POINTS = SIDE * SIDE, TRIANGLES = 2 * (SIDE - 1) * (SIDE - 1), ITERATIONS = 100 };

static double points[3 * POINTS], sizes[POINTS], angles[POINTS];
static uint32_t triangles[3 * TRIANGLES];

static void make(void) {
    uint32_t *corner = triangles;
    for (uint32_t i = 0; i < POINTS; i++) {
        points[3 * i] = i % SIDE;
        points[3 * i + 1] = i / SIDE;
        sizes[i] = 1;
        angles[i] = 0.02 * (double)(i / SIDE); /* 0 at the bottom, turning by 0.02 from row to row */
        if (i % SIDE == SIDE - 1 || i / SIDE == SIDE - 1) continue;
        const uint32_t two[] = {i, i + 1, i + SIDE + 1, i, i + SIDE + 1, i + SIDE};
        for (size_t k = 0; k < 6; k++) *corner++ = two[k];
    }
}

int main(void) {
    make();
    godf_floor floor = {points, triangles, sizes, POINTS, TRIANGLES};
    godf_guidance guidance = {angles, 1e6};
    godf_options options = GODF_OPTIONS_DEFAULT;
    void *block = malloc(godf_memory_bytes(POINTS, TRIANGLES, options.adaptive));
    if (!block) {
        fputs("out of memory\n", stderr);
        return 1;
    }
    godf_memory memory = godf_memory_in(block, POINTS, TRIANGLES, options.adaptive);
    godf_report report;
    int good = godf_solve_floor(&floor, &guidance, &options, ITERATIONS, &memory, &report) == 0;
    if (good) {
        const double *field = godf_field(&floor, &memory, &report);
        for (size_t i = 0; i < POINTS; i += SIDE) printf("angle in row %u: %.4f\n", (unsigned)(i / SIDE), field[i]);
        for (size_t i = 0; i < POINTS; i++) good = good && field[i] > angles[i] - 1e-3 && field[i] < angles[i] + 1e-3;
    } else {
        printf("refused: %s\n", godf_words(report.number));
    }

    /* a triangle without area */
    triangles[1] = triangles[0];
    uint64_t number = godf_solve_floor(&floor, &guidance, &options, ITERATIONS, &memory, &report);
    printf("refused: %s (triangle %u)\n", godf_words(number), (unsigned)report.place);
    good = good && number == GODF_REFUSED_AREA && report.place == 0 && godf_field(&floor, &memory, &report) == NULL;
    free(block);
    return good ? 0 : 1;
}
