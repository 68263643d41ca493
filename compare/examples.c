/* Document 01's table through C: its base floor, and its example of each of the 24 rows, changed from that floor. Then what lengths
 * and answers libgodf.a tells, what a call leaves where it is not to write, and the struct call of godf_floor.h. Prints how many answers differ. */
#include "../include/godf_floor.h"
#include <math.h>
#include <stdio.h>
#include <string.h>

#define MARK (-7.5)
#define ROOM 2048

static double points[64], sizes[16], guidance[16], coarse[ROOM], fine[ROOM], work[ROOM];
static uint32_t triangles[64], numbers[ROOM];
static size_t point_numbers, corners, size_count, guidance_count, iterations, coarse_count, fine_count, work_count, number_count;
static uint32_t guided;
static double weight;
static godf_options options;
static godf_report report;
static int tried, differ;

static void expect(const char *what, int holds) {
    tried++;
    if (!holds) {
        differ++;
        printf("%s differs: number %d, place %d and %d, pass %d, reason %d, flagged %d, cut %d\n", what, (int)report.number,
               (int)report.place, (int)report.other, (int)report.pass, (int)report.reason, (int)report.flagged, (int)report.cut);
    }
}

/* The base floor, and lent arrays that are just long enough. */
static void base(void) {
    static const double floor[] = {0, 0, 0, 1, 0, 0, 0, 1, 0};
    memcpy(points, floor, sizeof floor);
    for (int i = 0; i < 3; i++) {
        triangles[i] = (uint32_t)i;
        sizes[i] = 1;
    }
    point_numbers = 9;
    corners = 3;
    size_count = 3;
    guidance_count = 0;
    guided = 0;
    weight = 0;
    iterations = 10;
    options = (godf_options)GODF_OPTIONS_DEFAULT;
    coarse_count = 3;
    fine_count = 0;
    work_count = godf_work_f64(3, 1, 0);
    number_count = godf_work_u32(3, 1, 0);
}

static void guide(double a, double b, double c, double w) {
    guidance[0] = a;
    guidance[1] = b;
    guidance[2] = c;
    guidance_count = 3;
    guided = 1;
    weight = w;
}

static uint64_t solve(void) {
    for (int i = 0; i < ROOM; i++) {
        coarse[i] = fine[i] = work[i] = MARK;
        numbers[i] = 777;
    }
    memset(&report, 0x55, sizeof report);
    return godf_solve(points, point_numbers, triangles, corners, sizes, size_count, guidance, guidance_count, guided, weight, &options,
                      iterations, coarse, coarse_count, fine, fine_count, work, work_count, numbers, number_count, &report);
}

/* Whether the work is as it was, or zeros as far as lent, and the angle arrays hold the mark from so many angles on. */
static int left(int wiped, size_t angles, size_t fine_angles) {
    for (size_t i = 0; i < ROOM; i++) {
        if (i >= angles && coarse[i] != MARK) return 0;
        if (i >= fine_angles && fine[i] != MARK) return 0;
        if (work[i] != (wiped && i < work_count ? 0 : MARK)) return 0;
        if (numbers[i] != (wiped && i < number_count ? 0 : 777)) return 0;
    }
    return 1;
}

/* The struct call gives the bits of the call before it in any floating-point mode, and puts that mode back. */
static void struct_call(void) {
    godf_floor floor = {points, triangles, sizes, point_numbers / 3, corners / 3};
    double before[ROOM], fine_before[ROOM];
    memcpy(before, coarse, sizeof before);
    memcpy(fine_before, fine, sizeof fine_before);
    godf_report told = report;
    for (int i = 0; i < ROOM; i++) coarse[i] = fine[i] = MARK;
    godf_memory memory = {coarse, fine, work, numbers, coarse_count, fine_count, work_count, number_count};
#if defined(__x86_64__)
    const unsigned flags = 0x3f, odd = GODF_MXCSR | 0x8040u | 0x4000u; /* FTZ, DAZ, round up */
    _mm_setcsr(odd);
#endif
    uint64_t number = godf_solve_floor(&floor, NULL, &options, iterations, &memory, &report);
#if defined(__x86_64__)
    unsigned after = _mm_getcsr();
    _mm_setcsr(GODF_MXCSR);
    expect("the struct call's mode", (after & ~flags) == odd);
#endif
    expect("the struct call", number == told.number && memcmp(&told, &report, sizeof told) == 0 && memcmp(before, coarse, sizeof before) == 0
        && memcmp(fine_before, fine, sizeof fine_before) == 0);
    expect("the struct call's field", godf_field(&floor, &memory, &report) == (report.flagged ? fine : coarse));
}

static void refused(const char *what, uint64_t number, uint64_t place, uint64_t other, uint64_t pass, uint64_t reason) {
    uint64_t told = solve();
    godf_report want = {number, place, other, pass, reason, 0, 0};
    expect(what, told == number && memcmp(&report, &want, sizeof want) == 0 && left(number > 18, 0, 0));
    base();
}

int main(void) {
    base();
    expect("the base floor", solve() == 0 && report.number == 0 && report.flagged == 0 && left(1, 3, 0) && coarse[2] != MARK);
    point_numbers = 4;
    refused("row 1", 1, 0, 0, 0, 0);
    iterations = 0;
    refused("row 2", 2, 0, 0, 0, 0);
    point_numbers = 0;
    refused("row 3", 3, 0, 0, 0, 0);
    corners = 0;
    refused("row 4", 4, 0, 0, 0, 0);
    size_count = 2;
    refused("row 5", 5, 0, 0, 0, 0);
    points[3] = INFINITY;
    refused("row 6", 6, 1, 0, 0, 0);
    sizes[1] = 0;
    refused("row 7", 7, 1, 0, 0, 0);
    triangles[2] = 3;
    refused("row 8", 8, 0, 0, 0, 0);
    options.holomorphic = 1.5;
    refused("row 9", 9, 0, 0, 0, 0);
    options.anisotropy = 0;
    refused("row 10", 10, 0, 0, 0, 0);
    options.anisotropy_angle = INFINITY;
    refused("row 11", 11, 0, 0, 0, 0);
    options.adaptive = -1;
    refused("row 12", 12, 0, 0, 0, 0);
    options.boundary = GODF_BOUNDARY_WEAK;
    options.boundary_weight = -1;
    refused("row 13", 13, 0, 0, 0, 0);
    options.boundary = 3;
    options.boundary_weight = 1;
    refused("row 13, no such boundary", 13, 0, 0, 0, 0);
    options.boundary = NAN;
    refused("row 13, a boundary that is no number", 13, 0, 0, 0, 0);
    guide(0, 0, 0, -1);
    refused("row 14", 14, 0, 0, 0, 0);
    guide(0, 0, 0, 1);
    guidance_count = 2;
    refused("row 15", 15, 0, 0, 0, 0);
    guide(0, NAN, 0, 1);
    refused("row 16", 16, 1, 0, 0, 0);
    options.anisotropy_angle = 131073;
    refused("row 17, the anisotropy angle", 17, 3, 0, 0, 0);
    guide(0, 0, -131073, 1);
    refused("row 17, a guidance angle", 17, 2, 0, 0, 0);
    coarse_count = 2;
    refused("row 18, coarse", 18, 0, 0, 0, 0);
    work_count--;
    refused("row 18, f64 work", 18, 0, 0, 0, 0);
    number_count--;
    refused("row 18, u32 work", 18, 0, 0, 0, 0);
    triangles[1] = 0;
    triangles[2] = 1;
    refused("row 19", 19, 0, 0, 1, 0);
    point_numbers = 12;
    points[9] = points[10] = points[11] = 2;
    sizes[3] = 1;
    size_count = coarse_count = 4;
    work_count = godf_work_f64(4, 1, 0);
    number_count = godf_work_u32(4, 1, 0);
    refused("row 20", 20, 3, 0, 1, 0);
    points[3] = points[7] = 1e-160;
    refused("row 21", 21, 0, 0, 1, 0);
    sizes[0] = sizes[1] = sizes[2] = 1.7e308;
    refused("row 22", 22, 0, 1, 1, 0);
    for (int i = 0; i < 3; i++) triangles[3 + i] = (uint32_t)i;
    corners = 6;
    options.boundary = GODF_BOUNDARY_TANGENT;
    work_count = godf_work_f64(3, 2, 0);
    number_count = godf_work_u32(3, 2, 0);
    refused("row 23", 23, 0, 0, 1, 0);
    options.boundary = GODF_BOUNDARY_WEAK;
    options.boundary_weight = 5e-324;
    refused("row 24", 24, 0, 0, 1, 3);

    /* the header's example, which refines; guidance that is not given is not read */
    options.boundary = GODF_BOUNDARY_TANGENT;
    options.adaptive = 0.1;
    weight = NAN;
    guidance_count = 2;
    fine_count = godf_fine_count(3, 1, 0.1);
    work_count = godf_work_f64(3, 1, 0.1);
    number_count = godf_work_u32(3, 1, 0.1);
    expect("the example", solve() == 0 && report.flagged == 1 && report.cut == 3 && left(1, 3, 6) && fine[5] != MARK);
    struct_call();
    size_t count = 9;
    uint32_t which = godf_answer(coarse, 3, fine, 6, 3, report.flagged, &count);
    expect("the answer, refined", which == 1 && count == 3);
    expect("the answer, not refined", godf_answer(coarse, 3, fine, 6, 3, 0, &count) == 0 && count == 3);
    expect("the answer, too short", godf_answer(coarse, 3, fine, 2, 3, 1, &count) == 1 && count == 0);
    fine_count--;
    refused("row 18, fine", 18, 0, 0, 0, 0);
    expect("lengths", godf_fine_count(16384, 32768, 0) == 0 && godf_fine_count(16384, 32768, 1e-9) == 114688
        && godf_work_f64(16384, 32768, 1e-9) == 64 * 114688 + 32 * 131072 && godf_work_u32(3, 1, NAN) == 16 * 3 + 32);
    expect("lengths over the limits", godf_fine_count(16385, 1, 1) == 0 && godf_work_f64(1, 32769, 0) == 0 && godf_work_u32(16385, 1, 0) == 0);
    /* two points that no triangle uses are left out, in place and beside; the corner that is none stays */
    double five[] = {9, 9, 9, 0, 1, 2, 8, 8, 8, 3, 4, 5, 6, 7, 8}, five_sizes[] = {1, 2, 3, 4, 5}, kept[15], kept_sizes[5];
    uint32_t of_five[] = {4, 1, 3, 1, 3, 5}, renumbered[6], places[5];
    const uint32_t want_corners[] = {2, 0, 1, 0, 1, 5}, want_places[] = {UINT32_MAX, 0, UINT32_MAX, 1, 2};
    const double want_points[] = {0, 1, 2, 3, 4, 5, 6, 7, 8}, want_sizes[] = {2, 4, 5};
    godf_floor shared = {five, of_five, five_sizes, 5, 2};
    expect("compacted", godf_compact(&shared, kept, kept_sizes, renumbered, places) == 3 && memcmp(kept, want_points, sizeof want_points) == 0
        && memcmp(kept_sizes, want_sizes, sizeof want_sizes) == 0 && memcmp(renumbered, want_corners, sizeof want_corners) == 0
        && memcmp(places, want_places, sizeof want_places) == 0);
    expect("compacted in place", godf_compact(&shared, five, five_sizes, of_five, places) == 3 && memcmp(five, want_points, sizeof want_points) == 0
        && memcmp(five_sizes, want_sizes, sizeof want_sizes) == 0 && memcmp(of_five, want_corners, sizeof want_corners) == 0);
    double block[ROOM];
    godf_memory memory = godf_memory_in(block, 3, 1, 0.1);
    expect("one block", godf_memory_bytes(3, 1, 0.1) == (3 + 6 + godf_work_f64(3, 1, 0.1)) * sizeof(double) + godf_work_u32(3, 1, 0.1) * sizeof(uint32_t)
        && (char *)(memory.numbers + memory.number_count) == (char *)block + godf_memory_bytes(3, 1, 0.1) && memory.work == block + 9);
    expect("no block over the limits", godf_memory_bytes(16385, 1, 0) == 0 && godf_memory_in(block, 16385, 1, 0).coarse_count == 0);
    expect("the version", godf_version() == GODF_VERSION);
    printf("examples %d compared, %d differ\n", tried, differ);
    return differ != 0;
}
