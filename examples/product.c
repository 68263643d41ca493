/* A matrix product spread over threads: the lists are built once, then every thread takes a run of vertices and writes its own part of
 * the result. The bits are those of one thread.
 *
 *   gcc -std=c99 -Wall -Iinclude examples/product.c dist/libgodf.a -pthread -lm -o product && ./product
 */
#include "godf.h"

#include <pthread.h>
#include <stdio.h>
#include <stdlib.h>
#include <string.h>

/* A square grid of triangles: each vertex has an edge to the right, one upwards and one across. */
enum { SIDE = 64, VERTICES = SIDE * SIDE, EDGES = 2 * SIDE * (SIDE - 1) + (SIDE - 1) * (SIDE - 1), THREADS = 4 };
enum { LIST_NUMBERS = VERTICES + 1 + 2 * EDGES };

/* Read by every thread, and written by none of them. */
static double diagonal[VERTICES], off[2 * EDGES], x[2 * VERTICES];
static uint32_t from[EDGES], to[EDGES], lists[LIST_NUMBERS];

/* Numbers from -1 to 1 that look random, the same in every run. */
static double number(void) {
    static uint32_t state = 1;
    state = 1664525u * state + 1013904223u;
    return (double)state / 2147483648.0 - 1.0;
}

static void put_edge(size_t e, size_t a, size_t b) {
    from[e] = (uint32_t)a;
    to[e] = (uint32_t)b;
    off[2 * e] = number();
    off[2 * e + 1] = number();
}

static void make(void) {
    size_t e = 0;
    for (size_t v = 0; v < VERTICES; v++) {
        int right = v % SIDE < SIDE - 1, up = v / SIDE < SIDE - 1;
        diagonal[v] = number();
        x[2 * v] = number();
        x[2 * v + 1] = number();
        if (right)
            put_edge(e++, v, v + 1);
        if (up)
            put_edge(e++, v, v + SIDE);
        if (right && up)
            put_edge(e++, v, v + SIDE + 1);
    }
}

/* A thread's share: the vertices from `first` up to `end`, and where their products go. */
struct share {
    size_t first, end;
    double *y;
    uint32_t refused;
};

static void *multiply(void *of) {
    struct share *share = of;
    share->refused = 0;
    for (size_t v = share->first; v < share->end; v++)
        share->refused |= godf_vertex_product(diagonal, VERTICES, off, 2 * EDGES, from, EDGES, to, EDGES, lists, LIST_NUMBERS, x,
                                              2 * VERTICES, v, &share->y[2 * v], &share->y[2 * v + 1]);
    return NULL;
}

/* The product, spread over `threads` threads. Returns 0 where a vertex is refused or a thread cannot be started. */
static int spread(size_t threads, double *y) {
    pthread_t thread[THREADS];
    struct share share[THREADS];
    size_t started = 0;
    int good = 1;
    for (size_t k = 0; k < threads && good; k++) {
        share[k].first = VERTICES * k / threads;
        share[k].end = VERTICES * (k + 1) / threads;
        share[k].y = y;
        good = pthread_create(&thread[k], NULL, multiply, &share[k]) == 0;
        started += (size_t)good;
    }
    for (size_t k = 0; k < started; k++) {
        pthread_join(thread[k], NULL);
        good = good && share[k].refused == 0;
    }
    return good;
}

int main(void) {
    static double one[2 * VERTICES], many[2 * VERTICES];
    make();
    if (godf_vertex_lists(VERTICES, from, EDGES, to, EDGES, lists, LIST_NUMBERS) != 0) {
        fputs("an edge without two different ends\n", stderr);
        return 1;
    }
    if (!spread(1, one) || !spread(THREADS, many)) {
        fputs("no product\n", stderr);
        return 1;
    }
    int same = memcmp(one, many, sizeof one) == 0;
    printf("%d vertices, %d edges, %d threads: %s\n", VERTICES, EDGES, THREADS,
           same ? "the bits of one thread" : "other bits than one thread's");
    return same ? 0 : 1;
}
