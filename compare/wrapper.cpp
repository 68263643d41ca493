// The C++ wrapper, godf.hpp: refusals by number, place and words, the limits, the workspace used again, and the floating-point mode. Prints how many
// answers differ.
#include "../include/godf.hpp"

#include <cmath>
#include <cstdio>
#include <cstring>

namespace {

int tried = 0, differ = 0;

void expect(const char *what, bool holds) {
    tried++;
    if (holds) return;
    differ++;
    std::printf("%s differs\n", what);
}

godf::Floor triangle(double x, double y) {
    godf::Floor floor;
    floor.points = {{{0, 0, 0}}, {{x, 0, 0}}, {{0, y, 0}}};
    floor.triangles = {{{0, 1, 2}}};
    floor.sizes = {1, 1, 1};
    return floor;
}

template <typename Call> void refused(const char *what, std::uint64_t number, const std::string &words, Call call) {
    try {
        call();
        expect(what, false);
    } catch (const godf::Refusal &refusal) {
        expect(what, refusal.number() == number && words == refusal.what());
    }
}

} // namespace

int main() {
    const godf::Floor floor = triangle(1, 1);
    godf::Floor changed;
    godf::Options options;

    refused("no points", 3, godf_words(3), [&] { godf::solve(godf::Floor()); });
    godf::Floor large = floor;
    large.points.resize(16385);
    large.sizes.assign(16385, 1);
    options.adaptive = 0.1;
    refused("too many points", 1, godf_words(1), [&] { godf::solve(large, options); });
    refused("too many points to refine", 1, godf_words(1), [&] { godf::refine(large, large.sizes, 0.1); });
    changed = floor;
    changed.sizes.pop_back();
    refused("too few sizes", 5, godf_words(5), [&] { godf::solve(changed); });
    changed = floor;
    changed.sizes[1] = 0;
    refused("a point", 7, std::string(godf_words(7)) + " (point 1)", [&] { godf::solve(changed); });
    changed = floor;
    changed.triangles[0][2] = 3;
    refused("a triangle", 8, std::string(godf_words(8)) + " (triangle 0)", [&] { godf::solve(changed); });
    changed = floor;
    changed.sizes.assign(3, 1.7e308);
    refused("an edge", 22, std::string(godf_words(22)) + " (edge 0 to 1)", [&] { godf::solve(changed); });
    options = godf::Options();
    options.anisotropy_angle = 131073;
    refused("the anisotropy angle", 17, std::string(godf_words(17)) + " (the anisotropy angle)", [&] { godf::solve(floor, options); });
    const godf::Guidance guidance = {{0, 0, -131073}, 1};
    refused("a guidance angle", 17, std::string(godf_words(17)) + " (point 2)", [&] { godf::solve(floor, godf::Options(), &guidance); });
    options = godf::Options();
    options.boundary = godf::Boundary::weak;
    options.boundary_weight = 5e-324;
    refused("a reason", 24, std::string(godf_words(24)) + ": " + godf_reason_words(3), [&] { godf::solve(floor, options); });
    changed.points = {{{1, 0, 0}}, {{1, 1, 0}}, {{0, 0, 0}}};
    changed.sizes = {0.4, 4, 0.45};
    options = godf::Options();
    options.holomorphic = -1;
    options.adaptive = 1e-9;
    refused("pass 2", 24, std::string("on the refined floor, ") + godf_words(24) + ": " + godf_reason_words(4) + " (point 2)",
            [&] { godf::solve(changed, options, nullptr, 5); });

    bool thrown = false;
    try {
        godf::probe({131073, 0, 0}, floor, 0.2, 0.2);
    } catch (const std::domain_error &) {
        thrown = true;
    }
    expect("an angle that is too large", thrown);
    expect("no angle", std::isnan(godf::probe({0, 0}, floor, 0.2, 0.2)) && godf::probe({0.25, 0.25, 0.25}, floor, 0.2, 0.2) == 0.25);

    // the same bits again: after a solve of another floor, with the memory given back, and in another rounding mode, which stays
    options = godf::Options();
    options.boundary = godf::Boundary::tangent;
    options.adaptive = 0.1;
    godf::Workspace workspace;
    const godf::Field first = workspace.solve(floor, options);
    expect("a field", first.flagged == 1 && first.cut == 3 && first.angles.size() == 3 && first.refined_angles.size() == 6);
    workspace.solve(triangle(1, 3));
    expect("a workspace used again", workspace.solve(floor, options).refined_angles == first.refined_angles);
    workspace.clear();
    expect("a workspace cleared", workspace.solve(floor, options).refined_angles == first.refined_angles);
#if defined(__x86_64__)
    const unsigned odd = GODF_MXCSR | 0x8040u | 0x4000u, flags = 0x3f; // FTZ, DAZ, round up
    _mm_setcsr(odd);
    const bool can = (_mm_getcsr() & ~flags) == odd; // not under valgrind, which has no FTZ and DAZ
    const std::vector<double> again = workspace.solve(floor, options).refined_angles;
    const unsigned after = _mm_getcsr();
    _mm_setcsr(GODF_MXCSR);
    if (can)
        expect("another mode", again == first.refined_angles && (after & ~flags) == odd);
    else
        std::printf("the floating-point mode cannot be changed here: left out\n");
#endif
    std::printf("wrapper %d compared, %d differ\n", tried, differ);
    return differ != 0;
}
