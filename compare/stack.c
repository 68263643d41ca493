/* How much stack the calls of libgodf.a take: each is made on the largest floor, 16,384 points and 32,768 triangles, in a thread of its own whose stack of
 * 256 KB is painted before it starts; what is not painted any more at its end was used, by the call, by this file's function and by the thread's own
 * set-up, which a thread that does nothing measures. Fails where a call takes more than 16 KB, as include/godf.h promises. */
#define _POSIX_C_SOURCE 200809L
#include "../include/godf.h"
#include <pthread.h>
#include <stdio.h>
#include <stdlib.h>
#include <string.h>

#define SIDE 128
#define N (SIDE * SIDE)
#define T 32768
#define EDGES (3 * T)
#define STACK (256 * 1024)
#define MOST (16 * 1024)
#define PAINT 0xa5

static double points[3 * N], sizes[N], angles[N], coarse[N], fine[N + 3 * T], *work;
static double new_points[3 * (N + 3 * T)], new_sizes[N + 3 * T];
static uint32_t triangles[3 * T], new_triangles[12 * T], cut_ends[8 * T], *numbers;
static size_t work_count, number_count;
static uint64_t report[4], told;
static godf_report solved;
static double sum;
static double diagonal[N], entries[2 * EDGES], vector[2 * N];
static uint32_t from[EDGES], to[EDGES], lists[N + 1 + 2 * EDGES];

/* A grid of 128 by 128 points has 32,258 triangles; the rest are its first ones again. The angles turn by more than any small threshold on every side. */
static void make_floor(void) {
    for (int i = 0; i < N; i++) {
        points[3 * i] = i % SIDE;
        points[3 * i + 1] = i / SIDE;
        sizes[i] = 1;
        angles[i] = 0.7 * (i % 2 + i / SIDE % 2 * 0.5);
    }
    int t = 0;
    while (t < T)
        for (int i = 0; i < N && t < T; i++) {
            if (i % SIDE == SIDE - 1 || i / SIDE == SIDE - 1) continue;
            uint32_t a = (uint32_t)i, b = a + 1, c = a + SIDE, d = c + 1;
            uint32_t two[] = {a, b, d, a, d, c};
            for (int k = 0; k < 2 && t < T; k++, t++) memcpy(triangles + 3 * t, two + 3 * k, sizeof(uint32_t) * 3);
        }
}

/* Every side of every triangle, as an edge of its own: as many edges as a floor can have. */
static void make_matrix(void) {
    for (int e = 0; e < EDGES; e++) {
        from[e] = triangles[e];
        to[e] = triangles[e % 3 == 2 ? e - 2 : e + 1];
        entries[2 * e] = entries[2 * e + 1] = 0.5;
    }
    for (int i = 0; i < N; i++) diagonal[i] = vector[2 * i] = vector[2 * i + 1] = 1;
}

static void nothing(void) {}

static void refine(void) {
    told = godf_refine(points, 3 * N, triangles, 3 * T, sizes, N, angles, N, 0.01, new_points, 3 * (N + 3 * T), new_sizes, N + 3 * T, new_triangles,
                       12 * T, cut_ends, 8 * T, report, 4);
}

static void solve(void) {
    godf_options o = GODF_OPTIONS_DEFAULT;
    o.adaptive = 1e-9;
    o.boundary = GODF_BOUNDARY_TANGENT;
    told = godf_solve(points, 3 * N, triangles, 3 * T, sizes, N, NULL, 0, 0, 0, &o, 2, coarse, N, fine, N + 3 * T, work, work_count, numbers,
                      number_count, &solved);
}

static void solve_smooth(void) {
    godf_options o = GODF_OPTIONS_DEFAULT;
    o.adaptive = 1e-9;
    o.accurate = 1;
    told = godf_solve(points, 3 * N, triangles, 3 * T, sizes, N, angles, N, 1, 0.5, &o, 2, coarse, N, fine, N + 3 * T, work, work_count, numbers,
                      number_count, &solved);
}

static void answer(void) {
    size_t count;
    told = godf_answer(coarse, N, fine, N + 3 * T, N, 1, &count);
}

static void lengths(void) { sum += (double)(godf_version() + godf_fine_count(N, T, 1) + godf_work_f64(N, T, 1) + godf_work_u32(N, T, 1)); }

static void probe(void) {
    double angle;
    told = godf_interp_angle(angles, N, points, 3 * N, triangles, 3 * T, 126.5, 126.5, &angle);
}

static void singularities(void) {
    size_t three, five;
    told = godf_count_singularities(angles, N, triangles, 3 * T, &three, &five);
}

static void vertex_lists(void) { told = godf_vertex_lists(N, from, EDGES, to, EDGES, lists, N + 1 + 2 * EDGES); }

static void vertex_product(void) {
    double re, im;
    told = godf_vertex_product(diagonal, N, entries, 2 * EDGES, from, EDGES, to, EDGES, lists, N + 1 + 2 * EDGES, vector, 2 * N, SIDE + 1, &re, &im);
    sum += re + im;
}

static void leaves(void) { sum += godf_sin(400000.5) + godf_cos(-400000.5) + godf_atan2(1e-300, -1e10) + godf_sqrt(5e-324); }

static void *run(void *call) {
    ((void (*)(void))(size_t)call)();
    return NULL;
}

static size_t used(void (*call)(void)) {
    unsigned char *stack;
    if (posix_memalign((void **)&stack, 4096, STACK)) exit(2);
    memset(stack, PAINT, STACK);
    pthread_attr_t attributes;
    pthread_t thread;
    pthread_attr_init(&attributes);
    if (pthread_attr_setstack(&attributes, stack, STACK) || pthread_create(&thread, &attributes, run, (void *)(size_t)call)) exit(2);
    pthread_join(thread, NULL);
    size_t low = 0;
    while (low < STACK && stack[low] == PAINT) low++;
    free(stack);
    return STACK - low;
}

int main(void) {
    static const struct {
        const char *name;
        void (*call)(void);
    } calls[] = {{"godf_refine", refine},       {"godf_solve, tangent", solve}, {"godf_solve, guided", solve_smooth}, {"godf_answer", answer},
                 {"version and lengths", lengths},       {"godf_interp_angle", probe},   {"godf_count_singularities", singularities}, {"leaves", leaves},
                 {"godf_vertex_lists", vertex_lists}, {"godf_vertex_product", vertex_product}};
    make_floor();
    make_matrix();
    work_count = godf_work_f64(N, T, 1);
    number_count = godf_work_u32(N, T, 1);
    work = malloc(work_count * sizeof *work);
    numbers = malloc(number_count * sizeof *numbers);
    if (!work || !numbers) return 2;
    size_t idle = used(nothing), most = 0;
    int wrong = 0;
    for (size_t i = 0; i < sizeof calls / sizeof *calls; i++) {
        size_t bytes = used(calls[i].call) - idle;
        if (bytes > most) most = bytes;
        printf("%-26s %6zu bytes of stack\n", calls[i].name, bytes);
        if (i == 0 && (told != 0 || report[2] != T)) {
            printf("godf_refine was to flag every triangle: %d, %d flagged\n", (int)told, (int)report[2]);
            wrong = 1;
        }
        if (i == 2 && (told != 0 || solved.flagged != T)) {
            printf("the guided solve was to flag every triangle: %d, %d flagged\n", (int)told, (int)solved.flagged);
            wrong = 1;
        }
        if ((calls[i].call == vertex_lists || calls[i].call == vertex_product) && told != 0) {
            printf("%s was refused\n", calls[i].name);
            wrong = 1;
        }
    }
    printf("most %zu bytes, allowed %d\n", most, MOST);
    return wrong || most > MOST;
}
