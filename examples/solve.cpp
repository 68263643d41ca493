// A solve, a refinement, a probe and a refusal through C++11.
//
//   g++ -std=c++11 -Wall -Iinclude examples/solve.cpp dist/libgodf.a -lm -o solve && ./solve
#include "godf.hpp"

#include <cmath>
#include <cstdio>

namespace {

// A fan of triangles around point 0, all sizes 1.
godf::Floor fan(std::uint32_t sectors) {
    godf::Floor floor;
    floor.points.push_back({{0, 0, 0}});
    for (std::uint32_t i = 0; i < sectors; i++) {
        const double turn = 6.283185307179586 * (i + 1) / sectors;
        floor.points.push_back({{godf_cos(turn), godf_sin(turn), 0}});
        floor.triangles.push_back({{0, i + 1, (i + 1) % sectors + 1}});
    }
    floor.sizes.assign(floor.points.size(), 1);
    return floor;
}

} // namespace

int main() {
    godf::Floor floor = fan(12);
    godf::Options options;
    options.boundary = godf::Boundary::tangent;
    options.adaptive = 0.3;
    godf::Workspace workspace;
    const godf::Field field = workspace.solve(floor, options);
    std::printf("%zu triangles flagged, %zu edges cut\n", field.flagged, field.cut);
    for (std::size_t i = 0; i < field.angles.size(); i++) std::printf("angle at point %zu: %.4f\n", i, field.angles[i]);
    const godf::Singularities found = godf::singularities(field.angles, floor.triangles);
    std::printf("singularities: %zu of valence 3, %zu of valence 5\n", found.valence_3, found.valence_5);

    // the floor of the second pass, by the first pass's angles
    const godf::Refined refined = godf::refine(floor, field.first_angles, options.adaptive);
    bool good = refined.flagged == field.flagged && refined.cut_edges.size() == field.cut && refined.floor.points.size() == field.refined_angles.size();
    std::printf("refined: %zu points, %zu triangles\n", refined.floor.points.size(), refined.floor.triangles.size());

    // at a point of the floor the probe gives the angle there, and outside of the floor none
    const double there = godf::probe(field.angles, floor, 1, 0);
    good = good && std::fabs(std::sin(2 * (there - field.angles[12]))) < 1e-9 && std::isnan(godf::probe(field.angles, floor, 5, 5));

    floor.sizes[5] = -1;
    try {
        workspace.solve(floor, options);
        good = false;
    } catch (const godf::Refusal &refusal) {
        std::printf("refusal %u: %s\n", static_cast<unsigned>(refusal.number()), refusal.what());
        good = good && refusal.number() == GODF_REFUSED_SIZE && refusal.place() == 5;
    }
    return good ? 0 : 1;
}
