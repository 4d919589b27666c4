// Tests of trirast_shade.hpp, or trirast_shade.h, against exact edge functions, and against the picture by its
// definition (reference.hpp).
//
//     main [--seeds 2]
//     main --points 200
//
// Every line says what was counted. Exit status 1 if a count is another than it has to be. --points prints weights of
// eight times as many points, with what they are made of.
#include <cmath>
#include <cstdio>
#include <cstdlib>
#include <cstring>
#include <set>
#include <string>
#include <thread>
#include <tuple>
#include <vector>

#include "reference.hpp"

namespace {

int failures = 0;

void expect(bool holds, const char *what, const std::string &where) {
    if (holds) return;
    failures++;
    std::printf("FAILED %s: %s\n", where.c_str(), what);
}

const char *name_of(At rate) { return rate == At::pixel ? "pixel" : rate == At::centre ? "centre" : "sample"; }

trirast::Canvas canvas_of(std::uint32_t width, std::uint32_t height, std::uint32_t samples,
                          trirast::Origin origin = {}) {
    trirast::CanvasOptions options;
    options.width = width, options.height = height, options.samples = samples, options.origin = origin;
    return trirast::Canvas(options);
}

// ---- Weights

struct Triangles {
    std::vector<trirast_vertex> vertices;
    std::vector<float> w;
    std::vector<std::uint32_t> indices;
};

Triangles triangles_of(scene::Numbers &numbers) {
    Triangles found;
    const double size = std::pow(2, numbers.within(3, 23));
    for (std::uint32_t k = 0; k < 24; k++) {
        const auto place = [&] {
            return static_cast<std::int32_t>(std::clamp(numbers.within(-size, size), -8388608.0, 8388607.0));
        };
        trirast_vertex vertex{};
        vertex.x = place(), vertex.y = place();
        found.vertices.push_back(vertex), found.w.push_back(static_cast<float>(std::pow(10, numbers.within(-2, 2))));
        found.indices.push_back(k);
    }
    return found;
}

// Weights by their definition, in 64 bits of a long double, and their sum before the division.
struct Exact {
    long double weight[3], sum;
};

Exact exact(const Triangles &given, std::size_t first, std::int64_t x, std::int64_t y) {
    const reference::Edges e =
        reference::edges(given.vertices[first], given.vertices[first + 1], given.vertices[first + 2], x, y);
    Exact found{{static_cast<long double>(e.a) / given.w[first], static_cast<long double>(e.b) / given.w[first + 1],
                 static_cast<long double>(e.c) / given.w[first + 2]},
                0};
    found.sum = found.weight[0] + found.weight[1] + found.weight[2];
    for (long double &weight : found.weight) weight /= found.sum;
    return found;
}

struct Worst {
    double weight = 0, sum = 0, step = 0;
    std::size_t points = 0, edges_equal = 0, ahead = 0, back = 0;
};

// Differences: by the definition, at the pixel on the side that is taken.
void add_steps(const Triangles &given, const Eight &at, std::size_t lane, const Exact &here, Worst &worst) {
    const std::size_t first = 3 * lane;
    for (int down = 0; down < 2; down++) {
        const int dx = down ? 0 : 256, dy = down ? 256 : 0;
        Exact next = exact(given, first, at.x[lane] + dx, at.y[lane] + dy);
        int sign = 1;
        if (std::fabs(static_cast<double>(next.sum / here.sum) - 0.5) < 1e-4) continue;
        if (next.sum / here.sum < 0.5) next = exact(given, first, at.x[lane] - dx, at.y[lane] - dy), sign = -1;
        (sign > 0 ? worst.ahead : worst.back)++;
        // The sizes of the steps of the edge functions by w, by the sum there.
        long double size = 0;
        for (std::size_t c = 0; c < 3; c++) {
            const trirast_vertex &p = given.vertices[first + (c + 1) % 3], &q = given.vertices[first + (c + 2) % 3];
            const std::int64_t edge = down ? std::int64_t{q.x} - p.x : std::int64_t{q.y} - p.y;
            size += 256 * std::fabs(static_cast<long double>(edge)) / given.w[first + c];
        }
        const double r = static_cast<double>(std::fabs(size / next.sum));
        for (std::size_t c = 0; c < 3; c++) {
            const double got = (down ? at.down : at.right)[c][lane],
                         wanted = static_cast<double>(sign * (next.weight[c] - here.weight[c]));
            worst.step = std::max(worst.step, std::fabs(got - wanted) / (r * (1 + r)));
        }
    }
}

void add_point(const Triangles &given, const Eight &at, std::size_t lane, Worst &worst) {
    const Exact here = exact(given, 3 * lane, at.x[lane], at.y[lane]);
    double total = 0;
    worst.points++;
    for (std::size_t c = 0; c < 3; c++) {
        const double got = at.weight[c][lane];
        total += got;
        if (here.weight[c] > 0)
            worst.weight =
                std::max(worst.weight, static_cast<double>(std::fabs(got - here.weight[c]) / here.weight[c]));
        else
            expect(got == 0, "a weight of a corner across from an edge through the point", "weights");
        expect(got >= 0, "a negative weight inside of a triangle", "weights");
    }
    worst.sum = std::max(worst.sum, std::fabs(total - 1));
    add_steps(given, at, lane, here, worst);
}

// A point of each of eight triangles, most of them in it.
Eight points_in(const Triangles &given, scene::Numbers &numbers) {
    Eight at{};
    for (std::size_t lane = 0; lane < 8; lane++) {
        const trirast_vertex *corner = &given.vertices[3 * lane];
        double a = numbers.unit(), b = numbers.unit();
        if (a + b > 1) a = 1 - a, b = 1 - b;
        at.id[lane] = static_cast<std::int32_t>(lane);
        at.x[lane] =
            static_cast<std::int32_t>(std::floor(a * corner[0].x + b * corner[1].x + (1 - a - b) * corner[2].x));
        at.y[lane] =
            static_cast<std::int32_t>(std::floor(a * corner[0].y + b * corner[1].y + (1 - a - b) * corner[2].y));
    }
    return at;
}

// A point with corners, w, weights and differences, for references in other languages.
void print_point(const Triangles &given, const Eight &at, std::size_t lane) {
    for (std::size_t k = 3 * lane; k < 3 * lane + 3; k++)
        std::printf("%d %d %a ", given.vertices[k].x, given.vertices[k].y, double{given.w[k]});
    std::printf("%d %d", at.x[lane], at.y[lane]);
    for (const auto *each : {&at.weight, &at.right, &at.down})
        for (const auto &of_corner : *each) std::printf(" %a", double{of_corner[lane]});
    std::printf("\n");
}

void print_points(int rounds) {
    scene::Numbers numbers(11);
    for (int round = 0; round < rounds; round++) {
        const Triangles given = triangles_of(numbers);
        Eight at = points_in(given, numbers);
        weigh_eight(given.vertices, given.w, given.indices, at);
        for (std::size_t lane = 0; lane < 8; lane++) print_point(given, at, lane);
    }
}

void weights(int rounds) {
    scene::Numbers numbers(5);
    Worst worst;
    for (int round = 0; round < rounds; round++) {
        const Triangles given = triangles_of(numbers);
        Eight at = points_in(given, numbers);
        const EdgesOfEight edges = weigh_eight(given.vertices, given.w, given.indices, at);
        for (std::size_t lane = 0; lane < 8; lane++) {
            const trirast_vertex &a = given.vertices[3 * lane], &b = given.vertices[3 * lane + 1],
                                 &c = given.vertices[3 * lane + 2];
            const trirast_corners corners{a.x, a.y, b.x, b.y, c.x, c.y};
            trirast_edges wanted;
            expect(trirast_edges_at_point(&corners, at.x[lane], at.y[lane], &wanted) == TRIRAST_STATUS_OK, "a position",
                   "weights");
            worst.edges_equal += edges.of_corner[0][lane] == static_cast<float>(wanted.a) &&
                                 edges.of_corner[1][lane] == static_cast<float>(wanted.b) &&
                                 edges.of_corner[2][lane] == static_cast<float>(wanted.c);
            const reference::Edges e = reference::edges(a, b, c, at.x[lane], at.y[lane]);
            if (e.area > 0 && e.a >= 0 && e.b >= 0 && e.c >= 0) add_point(given, at, lane, worst);
        }
    }
    const std::size_t all = 8 * static_cast<std::size_t>(rounds);
    std::printf("edge functions: %zu of %zu points have those of the library\n", worst.edges_equal, all);
    std::printf("weights at %zu points: relative error at most 2^%.2f (bound 2^-20), sum off by 2^%.2f (bound 2^-21), "
                "differences by "
                "2^%.2f r (1 + r) (bound 2^-19); %zu ahead, %zu back\n",
                worst.points, std::log2(worst.weight), std::log2(worst.sum), std::log2(worst.step), worst.ahead,
                worst.back);
    expect(worst.edges_equal == all, "an edge function", "weights");
    expect(worst.weight < 0x1p-20, "weights beyond their bound", "weights");
    expect(worst.sum < 0x1p-21, "the sum of weights beyond its bound", "weights");
    expect(worst.step < 0x1p-19, "differences beyond their bound", "weights");
    expect(worst.ahead * 100 > all && worst.back * 100 > all, "one side alone was taken", "weights");
}

// w of a triangle may be any positive floats: what lies more than 2^72 above the least changes no weight by 2^-24, but
// on the edge across from that corner.
void far_apart(int rounds) {
    scene::Numbers numbers(17);
    std::size_t points = 0, cut_off = 0;
    for (int round = 0; round < rounds; round++) {
        Triangles given = triangles_of(numbers);
        for (float &w : given.w)
            w = static_cast<float>(std::ldexp(numbers.within(1, 2), static_cast<int>(numbers.within(-148, 127))));
        Eight at = points_in(given, numbers);
        // A corner, and a point on an edge.
        at.x[0] = given.vertices[0].x, at.y[0] = given.vertices[0].y;
        given.vertices[4] = given.vertices[3], given.vertices[4].x ^= 2;
        at.x[1] = (given.vertices[3].x + given.vertices[4].x) / 2, at.y[1] = given.vertices[3].y;
        weigh_eight(given.vertices, given.w, given.indices, at);
        for (std::size_t lane = 0; lane < 8; lane++) {
            const trirast_vertex *corner = &given.vertices[3 * lane];
            const float *w = &given.w[3 * lane];
            const reference::Edges e = reference::edges(corner[0], corner[1], corner[2], at.x[lane], at.y[lane]);
            if (e.area == 0 || e.a < 0 || e.b < 0 || e.c < 0) continue;
            const std::size_t least = static_cast<std::size_t>(std::min_element(w, w + 3) - w);
            const Exact wanted = exact(given, 3 * lane, at.x[lane], at.y[lane]);
            float sum = 0;
            for (std::size_t c = 0; c < 3; c++) {
                const float got = at.weight[c][lane];
                sum += got, cut_off += w[c] > 0x1p72f * w[least];
                expect(got >= 0, "a negative weight, or no number", "w far apart");
                expect(std::isfinite(at.right[c][lane]) && std::isfinite(at.down[c][lane]), "an infinite difference",
                       "w far apart");
                if (wanted.weight[least] > 0)
                    expect(std::fabs(got - wanted.weight[c]) < 0x1p-20L, "a weight beyond its bound", "w far apart");
            }
            expect(std::fabs(sum - 1) < 0x1p-21f, "the sum of the weights", "w far apart");
            points++;
        }
    }
    std::printf("w far apart: %zu points, %zu w cut off\n", points, cut_off);
    expect(cut_off > points && cut_off < 2 * points, "few w are cut off, or most", "w far apart");
}

// ---- Lanes

// Each comparison of each pair of these numbers, in each lane.
template <class Number>
void compare_pairs(const Number (&numbers)[8], const char *where) {
    for (std::size_t turn = 0; turn < 8; turn++) {
        Number other[8];
        for (std::size_t k = 0; k < 8; k++) other[k] = numbers[(k + turn) % 8];
        const Compared got = compare_eight(numbers, other);
        for (std::size_t k = 0; k < 8; k++) {
            const Number a = numbers[k], b = other[k];
            const bool wanted[6] = {a < b, a <= b, a > b, a >= b, a == b, a != b};
            for (std::size_t by = 0; by < 6; by++)
                expect(got.by[by][k] == (wanted[by] ? -1 : 0), "a comparison", where);
        }
    }
}

void comparisons() {
    compare_pairs<float>({0.0f, -0.0f, 1.0f, 0x1.000002p0f, -1.0f, INFINITY, -INFINITY, NAN}, "floats");
    compare_pairs<std::int32_t>({0, -1, 1, 2, 7, 7, INT32_MAX, INT32_MIN}, "integers");
}

// Whole numbers are not above the numbers, on both sides of 0: a texture that repeats does not show it.
void floors() {
    const float numbers[8] = {-2.75f, -2, -0.25f, 0, 0.25f, 0.75f, 3, 1000.5f};
    float whole[8];
    std::int32_t integers[8];
    floors_of(numbers, whole, integers);
    for (std::size_t lane = 0; lane < 8; lane++)
        expect(whole[lane] == std::floor(numbers[lane]) &&
                   integers[lane] == static_cast<std::int32_t>(std::floor(numbers[lane])),
               "the whole number below a number", "floors");
}

// ---- Which points are shaded

// Each place that Rate::pixel may take lies in the triangle of any three of its samples, and the patterns are those of
// the rules.
void patterns() {
    for (std::uint32_t samples : {1u, 2u, 4u, 8u, 16u}) {
        const std::vector<reference::Place> wanted = reference::places(samples);
        std::size_t outside = 0;
        for (std::uint32_t s = 0; s < samples; s++) {
            std::int32_t x, y;
            place_of(samples, s, x, y);
            expect(x == wanted[s].x && y == wanted[s].y, "where a sample lies", "patterns");
        }
        for (std::uint32_t mask = 1; mask < 1u << samples; mask++) {
            std::vector<bool> shown;
            for (std::uint32_t s = 0; s < samples; s++) shown.push_back(mask >> s & 1);
            const reference::Place middle = reference::middle(wanted, shown);
            // It is outside of the hull if all samples lie on one side of a line through it and a sample, and one does
            // not lie on it.
            for (std::uint32_t q = 0; q < samples; q++) {
                if (!shown[q] || (wanted[q].x == middle.x && wanted[q].y == middle.y)) continue;
                std::int64_t least = INT64_MAX, most = INT64_MIN;
                bool beyond = false;
                for (std::uint32_t s = 0; s < samples; s++) {
                    if (!shown[s]) continue;
                    const std::int64_t ax = wanted[q].x - middle.x, ay = wanted[q].y - middle.y,
                                       bx = wanted[s].x - middle.x, by = wanted[s].y - middle.y;
                    const std::int64_t side = ax * by - ay * bx;
                    least = std::min(least, side), most = std::max(most, side);
                    beyond = beyond || ax * bx + ay * by < 0;
                }
                outside += (least == 0 && most == 0 && !beyond) ? 1 : 0;
                outside += !beyond && (least > 0 || most < 0) ? 1 : 0;
            }
        }
        expect(outside == 0, "a middle outside of its samples", "patterns");
    }
}

// A shader that records what it is asked: each pixel and triangle once, as the ids say, in the place that the rate
// says.
void pairs(const char *name, At rate, std::uint32_t samples) {
    constexpr std::uint32_t side = 100;
    const std::string where = std::string(name) + " " + name_of(rate) + " of " + std::to_string(samples);
    const scene::Scene given = scene::made(name, 9, 1);
    const Frame frame(given, side, side);
    trirast::Canvas canvas = canvas_of(side, side, samples);
    frame.draw_ids(canvas);
    const std::vector<reference::Place> offsets = reference::places(samples);
    std::vector<std::vector<std::uint32_t>> ids;
    for (std::uint32_t s = 0; s < samples; s++) ids.push_back(canvas.ids(s));
    // The last triangles are not known: their samples get the background. The first one of these is seen.
    std::size_t known = 0;
    for (const std::uint32_t id : ids[0])
        if (id < frame.mesh().sources.size() / 8 * 7) known = std::max<std::size_t>(known, id);
    using Point = std::tuple<std::int64_t, std::int64_t, std::uint32_t>;
    std::multiset<Point> wanted, asked;
    std::size_t shown = 0;
    for (std::uint32_t p = 0; p < side * side; p++) {
        std::vector<reference::Sample> pixel(samples);
        for (std::uint32_t s = 0; s < samples; s++) pixel[s].id = ids[s][p];
        std::set<std::uint32_t> met;
        for (std::uint32_t s = 0; s < samples; s++) {
            if (pixel[s].id >= known) continue;
            shown++;
            if (rate != At::sample && !met.insert(pixel[s].id).second) continue;
            const reference::Place at = reference::shaded_at(offsets, pixel.data(), s, rate);
            wanted.insert({256 * (p % side) + at.x, 256 * (p / side) + at.y, pixel[s].id});
        }
    }
    std::size_t calls = 0, outside = 0, unused = 0, foreign = 0;
    frame.shade_by(canvas, rate, {1, 2, 3}, known, [&](const Eight &at, float(&colors)[3][8]) {
        calls++;
        for (std::size_t lane = 0; lane < 8; lane++) {
            colors[0][lane] = colors[1][lane] = colors[2][lane] = 77;
            unused += !at.used[lane];
            foreign += static_cast<std::size_t>(at.id[lane]) >= known;
            // Blocks that reach beyond the canvas are shaded as a whole.
            constexpr std::int32_t end = 256 * side;
            if (!at.used[lane] || at.x[lane] >= end || at.y[lane] >= end) continue;
            asked.insert({at.x[lane], at.y[lane], static_cast<std::uint32_t>(at.id[lane])});
            for (const auto &weight : at.weight) outside += weight[lane] < 0;
        }
    });
    std::size_t kept = 0, background = 0;
    for (std::uint32_t s = 0; s < samples; s++) {
        const std::vector<std::uint8_t> colors = canvas.colors(s, TRIRAST_FORMAT_RGB8);
        for (std::size_t p = 0; p < side * side; p++) {
            const std::uint8_t *c = &colors[3 * p];
            kept += ids[s][p] < known && c[0] == 77 && c[1] == 77 && c[2] == 77;
            background += ids[s][p] >= known && c[0] == 1 && c[1] == 2 && c[2] == 3;
        }
    }
    std::printf("pairs, %-18s %6zu wanted, %6zu asked in %5zu calls with %5zu lanes to spare, %zu weights below 0; %zu "
                "samples shaded, %zu of "
                "the background\n",
                where.c_str(), wanted.size(), asked.size(), calls, unused, outside, kept, background);
    expect(wanted == asked, "the points that are shaded", where);
    expect(foreign == 0, "a triangle that is not known", where);
    expect(kept == shown && kept + background == samples * side * side && shown > 1000, "a sample that kept its id",
           where);
    expect(unused < calls * 4, "half of the lanes are spare", where);
    if (samples > 1)
        expect(rate == At::centre ? outside > 0 : outside == 0, "a point outside of its triangle, or none", where);
}

// What a shader gives becomes the nearest byte.
void bytes() {
    const scene::Scene given = scene::made("ring", 9, 1);
    const Frame frame(given, 64, 64);
    const float rows[6][2] = {{-1e30f, 0}, {0.49f, 0}, {0.5f, 1}, {254.4f, 254}, {1e30f, 255}, {NAN, 0}};
    for (const float(&row)[2] : rows) {
        trirast::Canvas canvas = canvas_of(64, 64, 1);
        frame.draw_ids(canvas);
        const std::vector<std::uint32_t> ids = canvas.ids(0);
        frame.shade_by(canvas, At::pixel, {9, 9, 9}, frame.mesh().sources.size(),
                       [&](const Eight &, float(&colors)[3][8]) {
                           for (std::size_t lane = 0; lane < 8; lane++)
                               colors[0][lane] = 3, colors[1][lane] = row[0], colors[2][lane] = 200.25f;
                       });
        const std::vector<std::uint8_t> got = canvas.colors(0, TRIRAST_FORMAT_RGB8);
        std::size_t wrong = 0, shown = 0;
        for (std::size_t p = 0; p < ids.size(); p++) {
            if (ids[p] == NO_TRIANGLE) continue;
            shown++, wrong +=
                     got[3 * p] != 3 || got[3 * p + 1] != static_cast<std::uint8_t>(row[1]) || got[3 * p + 2] != 200;
        }
        expect(shown > 100 && wrong == 0, "a byte of a float", "bytes");
    }
}

std::vector<std::array<scene::Vertex, 3>> corners_of(const scene::Scene &given, const trirast::Clipped &mesh) {
    const auto vertex = [&](std::uint32_t index) {
        if (index < mesh.first_cut) return given.mesh.vertices[index];
        const trirast::Cut &cut = mesh.cuts[index - mesh.first_cut];
        const std::uint32_t *at = &given.mesh.indices[3 * std::size_t{cut.triangle}];
        const scene::Vertex &a = given.mesh.vertices[at[0]], &b = given.mesh.vertices[at[1]],
                            &c = given.mesh.vertices[at[2]];
        const auto sum = [&](float scene::Vertex::*member) {
            return static_cast<float>(cut.weights[0] * a.*member + cut.weights[1] * b.*member +
                                      cut.weights[2] * c.*member);
        };
        using V = scene::Vertex;
        return V{sum(&V::x), sum(&V::y), sum(&V::z), sum(&V::u), sum(&V::v), sum(&V::nx), sum(&V::ny), sum(&V::nz)};
    };
    std::vector<std::array<scene::Vertex, 3>> found;
    for (std::size_t k = 0; k < mesh.indices.size(); k += 3)
        found.push_back({vertex(mesh.indices[k]), vertex(mesh.indices[k + 1]), vertex(mesh.indices[k + 2])});
    return found;
}

// Numbers of corners, also of those that a cut made: by weights and by their differences.
void normals() {
    constexpr std::size_t width = 250, height = 200;
    const scene::Scene given = scene::made("front", 6, 1.25);
    const Frame frame(given, width, height);
    const std::vector<std::array<scene::Vertex, 3>> corners = corners_of(given, frame.mesh());
    for (const int by : {0, 1, 2}) {
        const float size = by ? 4000 : 127;
        trirast::Canvas canvas = canvas_of(width, height, 1);
        frame.draw_ids(canvas);
        const std::vector<std::uint32_t> ids = canvas.ids(0);
        frame.shade_normals(canvas, by, size);
        const std::vector<std::uint8_t> got = canvas.colors(0, TRIRAST_FORMAT_RGB8);
        std::size_t wrong = 0, between = 0;
        for (std::size_t p = 0; p < ids.size(); p++) {
            const std::int64_t x = static_cast<std::int64_t>(256 * (p % width) + 128),
                               y = static_cast<std::int64_t>(256 * (p / width) + 128);
            const reference::Steps steps = reference::steps(frame.mesh(), ids[p], x, y, by);
            if (steps.tie) continue;
            const auto value = [&](float scene::Vertex::*member) {
                double sum = 127.5;
                for (std::size_t c = 0; c < 3; c++) sum += double{size} * steps.k[c] * corners[ids[p]][c].*member;
                return sum;
            };
            const double wanted[3] = {value(&scene::Vertex::nx), value(&scene::Vertex::ny), value(&scene::Vertex::nz)};
            for (std::size_t c = 0; c < 3; c++) {
                wrong += std::abs(int{got[3 * p + c]} - int{reference::byte_of(wanted[c])}) > 1;
                between += wanted[c] > 0 && wanted[c] < 255 && std::fabs(wanted[c] - 127.5) > 4;
            }
        }
        std::printf("normals, %d: %zu of %zu wrong, %zu neither cut off nor 0\n", by, wrong, 3 * ids.size(), between);
        expect(wrong == 0 && between * 4 > ids.size(), "a number of the corners", "normals");
    }
}

// ---- Pictures

struct Picture {
    std::vector<std::vector<std::uint8_t>> samples;
    std::vector<std::vector<std::uint16_t>> depths;
    std::vector<std::uint8_t> resolved;
};

Picture drawn(const Frame &frame, trirast::Canvas canvas, std::uint32_t samples, At rate) {
    Picture found;
    frame.draw_ids(canvas);
    for (std::uint32_t s = 0; s < samples; s++) found.depths.push_back(canvas.depths(s));
    frame.shade(canvas, rate);
    for (std::uint32_t s = 0; s < samples; s++)
        expect(found.depths[s] == canvas.depths(s), "shading changed a depth", name_of(rate));
    frame.draw_glass(canvas);
    for (std::uint32_t s = 0; s < samples; s++) found.samples.push_back(canvas.colors(s, TRIRAST_FORMAT_RGB8));
    found.resolved = canvas.pixels(TRIRAST_FORMAT_RGB8);
    return found;
}

struct Total {
    std::size_t samples = 0, shown = 0, equal = 0, one = 0, far = 0, ties = 0, far_ties = 0, cuts = 0;
};

void compare(const Picture &got, reference::Picture &wanted, const char *name, Total &total) {
    const int count = static_cast<int>(wanted.samples);
    for (std::size_t p = 0; p < wanted.all.size() / wanted.samples; p++) {
        int sums[3] = {count / 2, count / 2, count / 2};
        for (std::size_t s = 0; s < wanted.samples; s++) {
            const reference::Sample &sample = wanted.all[p * wanted.samples + s];
            total.samples++, total.shown += sample.id != NO_TRIANGLE, total.ties += sample.tie;
            int off = 0;
            for (std::size_t c = 0; c < 3; c++) {
                off = std::max(off, std::abs(int{got.samples[s][3 * p + c]} - sample.color[c]));
                sums[c] += got.samples[s][3 * p + c];
            }
            total.equal += off == 0, total.one += off == 1, total.far += off > 1,
                total.far_ties += off > 1 && sample.tie;
            expect(got.depths[s][p] == sample.depth, "a depth", name);
        }
        for (std::size_t c = 0; c < 3; c++)
            expect(got.resolved[3 * p + c] == sums[c] / count, "a resolved colour is not the mean of the samples",
                   name);
    }
}

void scene_by_reference(const char *name, int seeds, std::uint32_t samples, At rate) {
    constexpr std::uint32_t width = 160, height = 120;
    Total total;
    for (int seed = 0; seed < seeds; seed++) {
        const scene::Scene given =
            scene::made(name, 100 + static_cast<std::uint64_t>(seed), static_cast<double>(width) / height);
        const Frame frame(given, width, height);
        total.cuts += frame.mesh().cuts.size();
        const Picture got = drawn(frame, canvas_of(width, height, samples), samples, rate);
        reference::Picture wanted = reference::picture(given, frame.mesh(), frame.glass(),
                                                       corners_of(given, frame.mesh()), width, height, samples, rate);
        compare(got, wanted, name, total);
    }
    std::printf("%-6s %2u samples, at each %-7s %8zu, %8zu of the model: %8zu equal, %5zu off by 1, %zu further; ties "
                "%zu, of them further %zu; "
                "cuts %zu\n",
                name, samples, name_of(rate), total.samples, total.shown, total.equal, total.one, total.far, total.ties,
                total.far_ties, total.cuts);
    expect(total.far == total.far_ties, "a sample is off by more than 1", name);
    expect(total.ties * 1000 <= total.samples, "more than a thousandth of the samples are ties", name);
    expect(total.shown * 20 > total.samples, "little of the model is seen", name);
    expect(total.equal * 100 > total.samples * 99, "more than a hundredth of the samples is off by 1", name);
    expect(std::string(name) != "front" || total.cuts > 0, "nothing was cut", name);
}

// ---- Windows, threads and cleared tiles

// A window of the screen, and tiles by several threads, show the same samples.
// By parts the vertices are projected by other code. Where products are fused, one may move by 1/256 pixel by it, so a
// pixel at an edge may show another triangle (docs/shading.md, pitfalls); else all bytes are the same.
bool are_alike(const std::vector<std::uint8_t> &parts, const std::vector<std::uint8_t> &whole) {
    if (!are_products_fused()) return parts == whole;
    std::size_t different = 0;
    for (std::size_t k = 0; k < whole.size(); k++) different += parts[k] != whole[k];
    std::printf("by parts %zu of %zu bytes differ\n", different, whole.size());
    return parts.size() == whole.size() && 1000 * different < whole.size();
}

void windows() {
    const scene::Scene given = scene::made("front", 6, 1.25);
    const Frame frame(given, 250, 200);
    for (const At rate : {At::pixel, At::sample}) {
        const Picture whole = drawn(frame, canvas_of(250, 200, 4), 4, rate),
                      window = drawn(frame, canvas_of(90, 70, 4, {101, 67}), 4, rate);
        std::size_t equal = 0;
        for (std::size_t s = 0; s < 4; s++)
            for (std::size_t y = 0; y < 70; y++)
                for (std::size_t x = 0; x < 90; x++)
                    equal += !std::memcmp(&window.samples[s][3 * (90 * y + x)],
                                          &whole.samples[s][3 * (250 * (y + 67) + x + 101)], 3);
        std::printf("window at each %-7s %zu of %d samples equal to those of the whole\n", name_of(rate), equal,
                    4 * 70 * 90);
        expect(equal == 4 * 70 * 90, "a sample of a window", name_of(rate));
        for (std::uint32_t threads = 1; threads <= 4; threads++) {
            trirast::Canvas canvas = canvas_of(250, 200, 4);
            frame.draw_ids(canvas);
            std::vector<std::thread> all;
            for (std::uint32_t k = 0; k < threads; k++)
                all.emplace_back([&, k] { frame.shade_tiles(canvas, rate, k, threads); });
            for (std::thread &thread : all) thread.join();
            frame.draw_glass(canvas);
            expect(canvas.pixels(TRIRAST_FORMAT_RGB8) == whole.resolved, "a picture by several threads", name_of(rate));
            frame.draw_parts(canvas, rate, threads);
            expect(are_alike(canvas.pixels(TRIRAST_FORMAT_RGB8), whole.resolved), "a picture by parts", name_of(rate));
        }
        // Rows of the screen do not begin where tile rows of the canvas do.
        for (unsigned threads : {1u, 3u}) {
            trirast::Canvas canvas = canvas_of(90, 70, 4, {101, 67});
            frame.draw_parts(canvas, rate, threads);
            expect(are_alike(canvas.pixels(TRIRAST_FORMAT_RGB8), window.resolved), "a window by parts", name_of(rate));
        }
    }
}

// Tiles that are unchanged since they were cleared: to no triangle, and to one.
void cleared() {
    const scene::Scene given = scene::made("ring", 6, 1);
    const Frame frame(given, 100, 70);
    for (const std::uint32_t samples : {1u, 4u})
        for (const bool is_white : {true, false}) {
            trirast::Canvas canvas = canvas_of(100, 70, samples);
            trirast::Clear to;
            to.red = is_white ? 255 : 3, to.green = to.blue = is_white ? 255 : 0, to.depth = 1234;
            canvas.clear(to);
            std::size_t asked = 0;
            frame.shade_by(canvas, At::sample, {5, 6, 7}, 100, [&](const Eight &at, float(&colors)[3][8]) {
                for (std::size_t lane = 0; lane < 8; lane++)
                    asked += at.used[lane] && at.id[lane] == 3,
                        colors[0][lane] = colors[1][lane] = colors[2][lane] = 50;
            });
            // Blocks beside the canvas are not shaded: 13 by 9 blocks have a pixel of it.
            expect(asked == (is_white ? 0 : samples * 13 * 9 * 64), "the points of a cleared tile", "cleared");
            const std::vector<std::uint8_t> got = canvas.colors(samples - 1, TRIRAST_FORMAT_RGB8);
            const std::uint8_t wanted[2][3] = {{50, 50, 50}, {5, 6, 7}};
            for (std::size_t p = 0; p < 100 * 70; p++)
                expect(!std::memcmp(&got[3 * p], wanted[is_white], 3), "the colour of a cleared tile", "cleared");
            expect(canvas.depths(samples - 1) == std::vector<std::uint16_t>(100 * 70, 1234),
                   "the depth of a cleared tile", "cleared");
        }
}

void run(int seeds) {
    weights(seeds == 1 ? 10000 : 100000);
    far_apart(2000);
    patterns(), comparisons(), floors();
    for (const std::uint32_t samples : {4u, 1u, 2u, 8u, 16u})
        for (const At rate : {At::pixel, At::centre, At::sample}) pairs("ring", rate, samples);
    pairs("front", At::pixel, 16); // where a triangle is all that many pixels show
    bytes(), normals(), windows(), cleared();
    for (const At rate : {At::pixel, At::sample}) {
        for (const char *name : {"ring", "front", "dust"}) scene_by_reference(name, seeds, 4, rate);
        for (const std::uint32_t samples : {1u, 2u, 8u, 16u}) scene_by_reference("ring", 1, samples, rate);
    }
}

} // namespace

int main(int count, char **arguments) {
    std::setvbuf(stdout, nullptr, _IOLBF, 0);
    try {
        const int number = count == 3 ? std::atoi(arguments[2]) : 2;
        if (count == 3 && !std::strcmp(arguments[1], "--points")) return print_points(number), 0;
        run(number);
    } catch (const std::exception &error) {
        expect(false, error.what(), "an exception");
    }
    std::printf(failures ? "%d failures\n" : "no failures\n", failures);
    return failures ? 1 : 0;
}
