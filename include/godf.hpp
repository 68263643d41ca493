// SPDX-License-Identifier: MIT
//
// godf for C++11: cross fields for triangle floors, with memory that is owned and refusals as exceptions. godf.h says what each value
// means, what is refused, and how much memory and time a solve takes.
//
//   godf::Floor floor;
//   floor.points = {{{0, 0, 0}}, {{1, 0, 0}}, {{0, 1, 0}}};
//   floor.triangles = {{{0, 1, 2}}};
//   floor.sizes = {1, 1, 1};
//   godf::Options options;
//   options.boundary = godf::Boundary::tangent;
//   godf::Workspace workspace;
//   std::vector<double> angles = workspace.solve(floor, options).angles;
//
// Every call sets the floating-point mode that the library needs, and puts back the caller's.
#ifndef GODF_HPP
#define GODF_HPP

#include "godf.h"
#include "godf_floor.h"
#include "godf_words.h"

#include <array>
#include <cstddef>
#include <cstdint>
#include <limits>
#include <stdexcept>
#include <string>
#include <vector>

namespace godf {

using Point = std::array<double, 3>;           // x, y, z; z is never read
using Triangle = std::array<std::uint32_t, 3>; // three corners, as numbers of points
using Edge = std::array<std::uint32_t, 2>;     // two points, the lower first
static_assert(sizeof(Point) == 3 * sizeof(double), "points are passed as numbers in a row");
static_assert(sizeof(Triangle) == 3 * sizeof(std::uint32_t), "triangles are passed as numbers in a row");
static_assert(sizeof(Edge) == 2 * sizeof(std::uint32_t), "edges are passed as numbers in a row");

// A floor: a size for each point.
struct Floor {
    std::vector<Point> points;
    std::vector<Triangle> triangles;
    std::vector<double> sizes;
};

// Guidance: an angle for each point, and one weight.
struct Guidance {
    std::vector<double> angles;
    double weight;
};

enum class Boundary { none, tangent, weak };

// godf_options, with its defaults.
struct Options {
    bool accurate = false;
    double holomorphic = 0;
    double anisotropy = 1;
    double anisotropy_angle = 0;
    Boundary boundary = Boundary::none;
    double boundary_weight = 0; // of the weak mode
    double adaptive = 0;        // the threshold in radians; 0: one pass
};

// A refused call. what() says it in words, with its place.
class Refusal : public std::runtime_error {
  public:
    explicit Refusal(const godf_report &report, std::size_t points) : std::runtime_error(text(report, points)), report_(report) {}
    std::uint64_t number() const { return report_.number; } // godf_refusal in godf_words.h has names for it
    std::uint64_t place() const { return report_.place; }
    std::uint64_t other() const { return report_.other; }   // refusal 22: the other end of the edge
    std::uint64_t pass() const { return report_.pass; }     // refusals 19 to 24: 1 or 2
    std::uint64_t reason() const { return report_.reason; } // refusal 24: why the solver gave up
    godf_place place_kind() const { return godf_place_kind(number(), reason()); }

  private:
    godf_report report_;

    static std::string at(const char *what, std::uint64_t place) { return std::string(" (") + what + " " + std::to_string(place) + ")"; }

    static std::string where(const godf_report &report, std::size_t points) {
        switch (godf_place_kind(report.number, report.reason)) {
            case GODF_PLACE_POINT: return at("point", report.place);
            case GODF_PLACE_TRIANGLE: return at("triangle", report.place);
            case GODF_PLACE_EDGE: return " (edge " + std::to_string(report.place) + " to " + std::to_string(report.other) + ")";
            case GODF_PLACE_ANGLE: return report.place == points ? " (the anisotropy angle)" : at("point", report.place);
            case GODF_PLACE_NONE: break;
        }
        return "";
    }

    static std::string text(const godf_report &report, std::size_t points) {
        std::string text = report.pass == 2 ? "on the refined floor, " : "";
        text += godf_words(report.number);
        if (report.reason != 0) text += std::string(": ") + godf_reason_words(report.reason);
        return text + where(report, points);
    }
};

namespace detail {

// The library's floating-point mode, as long as this lives. Throws std::logic_error if the archive does not belong to this header.
class Mode {
  public:
    Mode() : before_(godf_mode_set()) {
        if (godf_version() == GODF_VERSION) return;
        godf_mode_restore(before_);
        throw std::logic_error("godf: library version " + std::to_string(godf_version()) + ", header version " +
                               std::to_string(GODF_VERSION));
    }
    ~Mode() { godf_mode_restore(before_); }
    Mode(const Mode &) = delete;
    Mode &operator=(const Mode &) = delete;

  private:
    std::uint32_t before_;
};

// Numbers one after the other; NULL if there are none.
inline const double *numbers(const std::vector<Point> &points) { return points.empty() ? nullptr : points[0].data(); }
inline const std::uint32_t *numbers(const std::vector<Triangle> &triangles) { return triangles.empty() ? nullptr : triangles[0].data(); }

// The first `length` places of a vector, which grows if it is shorter.
template <typename T> T *front(std::vector<T> &of, std::size_t length) {
    if (of.size() < length) of.resize(length);
    return of.data();
}

} // namespace detail

// The field of a solve.
struct Field {
    std::vector<double> angles;         // at each point of the floor: pass 2's where the floor was refined
    std::vector<double> first_angles;   // pass 1's, at each point of the floor
    std::vector<double> refined_angles; // at each point of the refined floor; empty if no triangle was flagged
    std::size_t flagged, cut;           // flagged triangles, cut edges
};

// Memory for solves, used again from call to call. One for each thread.
class Workspace {
  public:
    // Throws Refusal; std::bad_alloc where memory is short.
    Field solve(const Floor &floor, const Options &options = Options(), const Guidance *guidance = nullptr,
                std::size_t iterations = 100) {
        detail::Mode mode;
        const std::size_t n = floor.points.size(), t = floor.triangles.size();
        // reals is 0 above the limits: then no memory is provided, and the call is refused
        const std::size_t reals = godf_work_f64(n, t, options.adaptive), words = godf_work_u32(n, t, options.adaptive);
        const std::size_t coarse = reals == 0 ? 0 : n, fine = godf_fine_count(n, t, options.adaptive);
        const godf_options values = {options.accurate ? 1.0 : 0.0, options.holomorphic, options.anisotropy, options.anisotropy_angle,
                                     static_cast<double>(options.boundary), options.boundary_weight, options.adaptive};
        godf_report report;
        godf_solve(detail::numbers(floor.points), 3 * n, detail::numbers(floor.triangles), 3 * t, floor.sizes.data(), floor.sizes.size(),
                   guidance ? guidance->angles.data() : nullptr, guidance ? guidance->angles.size() : 0, guidance ? 1 : 0,
                   guidance ? guidance->weight : 0, &values, iterations, detail::front(coarse_, coarse), coarse,
                   detail::front(fine_, fine), fine, detail::front(work_, reals), reals, detail::front(numbers_, words), words, &report);
        if (report.number != 0) throw Refusal(report, n);
        Field field;
        field.flagged = static_cast<std::size_t>(report.flagged);
        field.cut = static_cast<std::size_t>(report.cut);
        field.first_angles.assign(coarse_.begin(), coarse_.begin() + static_cast<std::ptrdiff_t>(n));
        if (field.flagged != 0) field.refined_angles.assign(fine_.begin(), fine_.begin() + static_cast<std::ptrdiff_t>(n + field.cut));
        std::size_t count = 0;
        const bool of_fine = godf_answer(coarse_.data(), n, fine_.data(), fine, n, field.flagged, &count) != 0;
        const double *angles = of_fine ? fine_.data() : coarse_.data();
        field.angles.assign(angles, angles + count);
        return field;
    }

    // Gives the memory back.
    void clear() { *this = Workspace(); }

  private:
    std::vector<double> coarse_, fine_, work_;
    std::vector<std::uint32_t> numbers_;
};

// One solve, with memory of its own. For many solves keep a Workspace.
inline Field solve(const Floor &floor, const Options &options = Options(), const Guidance *guidance = nullptr,
                   std::size_t iterations = 100) {
    return Workspace().solve(floor, options, guidance, iterations);
}

// A refined floor. Its first points are those of the floor given; each cut edge has one new point, its midpoint, whose z is 0.
struct Refined {
    Floor floor;
    std::vector<Edge> cut_edges; // the new points, in their order
    std::size_t flagged;
};

// godf_refine. Throws Refusal.
inline Refined refine(const Floor &floor, const std::vector<double> &angles, double threshold) {
    detail::Mode mode;
    const std::size_t n = floor.points.size(), t = floor.triangles.size();
    const bool fits = godf_work_f64(n, t, 0) != 0; // otherwise the call is refused before its arrays are looked at
    const std::size_t points = fits ? n + 3 * t : 0, pieces = fits ? 4 * t : 0;
    Refined refined;
    refined.floor.points.resize(points);
    refined.floor.sizes.resize(points);
    refined.floor.triangles.resize(pieces);
    refined.cut_edges.resize(pieces);
    std::uint64_t counts[4] = {0, 0, 0, 0};
    godf_report report = {0, 0, 0, 0, 0, 0, 0};
    report.number = godf_refine(detail::numbers(floor.points), 3 * n, detail::numbers(floor.triangles), 3 * t, floor.sizes.data(),
                                floor.sizes.size(), angles.data(), angles.size(), threshold,
                                points ? refined.floor.points[0].data() : nullptr, 3 * points, refined.floor.sizes.data(), points,
                                pieces ? refined.floor.triangles[0].data() : nullptr, 3 * pieces,
                                pieces ? refined.cut_edges[0].data() : nullptr, 2 * pieces, counts, 4);
    report.place = counts[0];
    if (report.number != 0) throw Refusal(report, n);
    refined.floor.points.resize(static_cast<std::size_t>(counts[0]));
    refined.floor.sizes.resize(static_cast<std::size_t>(counts[0]));
    refined.floor.triangles.resize(static_cast<std::size_t>(counts[1]));
    refined.cut_edges.resize(static_cast<std::size_t>(counts[3]));
    refined.flagged = static_cast<std::size_t>(counts[2]);
    return refined;
}

// The field's angle at (x, y), in [0, pi/2). NaN if there is none: no triangle contains the point, angles.size() != n, an angle is not
// finite, or the interpolated direction vanishes. Throws std::domain_error if an angle is over 131072 in absolute value.
inline double probe(const std::vector<double> &angles, const Floor &floor, double x, double y) {
    detail::Mode mode;
    double angle = std::numeric_limits<double>::quiet_NaN();
    const std::uint32_t answer = godf_interp_angle(angles.data(), angles.size(), detail::numbers(floor.points), 3 * floor.points.size(),
                                                   detail::numbers(floor.triangles), 3 * floor.triangles.size(), x, y, &angle);
    if (answer == 3) throw std::domain_error("godf: an angle is over 131072 in absolute value");
    return angle;
}

// Singular triangles, by how many quads meet there.
struct Singularities {
    std::size_t valence_3, valence_5;
};

inline Singularities singularities(const std::vector<double> &angles, const std::vector<Triangle> &triangles) {
    detail::Mode mode;
    Singularities found = {0, 0};
    godf_count_singularities(angles.data(), angles.size(), detail::numbers(triangles), 3 * triangles.size(), &found.valence_3,
                             &found.valence_5);
    return found;
}

} // namespace godf

#endif
