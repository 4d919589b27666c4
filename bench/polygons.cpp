// Times frames of polygons on a canvas, by cairo, AGG and FreeType, and counts pixels that are wrong
// along shared edges. bench/polygons.py writes the scenes and runs it. FreeType has no line for a scene
// that it cannot draw.
//
//     polygons time SCENE THREADS TURNS      a line for each renderer: seconds of the wall and of the processor, the
//                                            least of its turns
//     polygons seams SCENE                   a line for each renderer: pixels that are not white if all polygons are
#include "trirast.hpp"

#include <agg_pixfmt_rgba.h>
#include <agg_rasterizer_scanline_aa.h>
#include <agg_renderer_base.h>
#include <agg_renderer_scanline.h>
#include <agg_scanline_u.h>
#include <cairo.h>
#include <ft2build.h>
#include FT_FREETYPE_H
#include FT_OUTLINE_H

#include <algorithm>
#include <array>
#include <atomic>
#include <cstdio>
#include <cstdlib>
#include <functional>
#include <string>
#include <thread>
#include <time.h>
#include <vector>

namespace {

constexpr int GROUND[3] = {0x80, 0x40, 0x20};

struct Scene {
    std::int32_t width, height, left, top, rule, corner_count, ring_count, polygon_count;
    std::vector<trirast_corner> corners;
    std::vector<std::uint32_t> ring_ends, polygon_ends;
    std::vector<std::array<std::uint8_t, 4>> colors;

    explicit Scene(const char *path) {
        std::FILE *file = std::fopen(path, "rb");
        if (!file) std::perror(path), std::exit(2);
        std::int32_t head[8];
        read(file, head, 8);
        width = head[0], height = head[1], left = head[2], top = head[3], rule = head[4];
        corners.resize(head[5]), ring_ends.resize(head[6]), polygon_ends.resize(head[7]), colors.resize(head[7]);
        read(file, corners.data(), corners.size()), read(file, ring_ends.data(), ring_ends.size());
        read(file, polygon_ends.data(), polygon_ends.size()), read(file, colors.data(), colors.size());
        std::fclose(file);
    }

    template <class T>
    static void read(std::FILE *file, T *to, std::size_t count) {
        if (std::fread(to, sizeof(T), count, file) != count)
            std::fputs("a scene ends too soon\n", stderr), std::exit(2);
    }

    trirast_polygons in_c() const {
        trirast_polygons found{};
        found.fill_rule = rule;
        found.corners = corners.data(), found.corner_count = corners.size();
        found.ring_ends = ring_ends.data(), found.ring_count = ring_ends.size();
        found.polygon_ends = polygon_ends.data(), found.polygon_count = polygon_ends.size();
        found.colors = reinterpret_cast<const std::uint8_t(*)[4]>(colors.data()), found.color_count = colors.size();
        const bool is_blended =
            std::any_of(colors.begin(), colors.end(), [](const auto &color) { return color[3] < 255; });
        if (is_blended) found.state.blend = TRIRAST_BLEND_OVER;
        return found;
    }

    struct Box {
        int left = 1 << 30, top = 1 << 30, right = -(1 << 30), bottom = -(1 << 30);
    };
    using Boxes = std::vector<Box>;

    // Whether polygons are left out by their boxes: those outside of a thread's rows or of a window.
    bool leaves_out(int threads) const { return threads > 1 || is_window; }

    // The boxes of polygons, by which cairo and AGG leave out some. A frame finds them, as it does for a canvas. There
    // are none where nothing is left out.
    Boxes boxes(int threads) const {
        Boxes found;
        if (!leaves_out(threads)) return found;
        found.resize(polygon_ends.size());
        each(0, found.size(), [&found](std::size_t polygon, const trirast_corner *corner, std::size_t count) {
            Box &box = found[polygon];
            for (std::size_t k = 0; k < count; k++) {
                box.left = std::min(box.left, corner[k].x), box.right = std::max(box.right, corner[k].x);
                box.top = std::min(box.top, corner[k].y), box.bottom = std::max(box.bottom, corner[k].y);
            }
        });
        return found;
    }

    // Whether a polygon lies outside of some rows of pixels, by its box.
    bool is_outside(const Box &box, int first, int end) const {
        return box.bottom <= 256 * (top + first) || box.top >= 256 * (top + end) || box.right <= 256 * left ||
               box.left >= 256 * (left + width);
    }

    // Whether the picture is a window, outside of which some polygons lie.
    bool is_window = true;

    void find_window() {
        const Boxes all = boxes(1);
        is_window =
            std::any_of(all.begin(), all.end(), [this](const Box &box) { return is_outside(box, 0, height); });
    }

    // Calls ring(polygon, corners, count) for each ring of some polygons.
    template <class Ring>
    void each(std::size_t first, std::size_t end, const Ring &ring) const {
        for (std::size_t polygon = first; polygon < end; polygon++)
            for (std::uint32_t k = polygon ? polygon_ends[polygon - 1] : 0; k < polygon_ends[polygon]; k++) {
                const std::uint32_t begin = k ? ring_ends[k - 1] : 0;
                if (begin < ring_ends[k]) ring(polygon, corners.data() + begin, ring_ends[k] - begin);
            }
    }
};

using Pixels = std::vector<std::uint8_t>;

// Calls rows(first, end) on as many threads, each with a part of the rows of pixels.
void share(int height, int threads, const std::function<void(int, int)> &rows) {
    std::vector<std::thread> started;
    for (int k = 1; k < threads; k++) started.emplace_back(rows, height * k / threads, height * (k + 1) / threads);
    rows(0, height / threads);
    for (std::thread &thread : started) thread.join();
}

class Ours {
public:
    Ours(const Scene &scene, std::uint32_t samples)
        : scene_(scene), canvas_(options(scene, samples)), pixels_(4ull * scene.width * scene.height) {}

    const Pixels &frame(int threads) {
        trirast_polygons polygons = scene_.in_c();
        std::vector<trirast_box> boxes;
        if (scene_.leaves_out(threads)) boxes = trirast::polygon_boxes(polygons);
        polygons.boxes = boxes.data(), polygons.box_count = boxes.size();
        trirast::Clear ground;
        ground.red = GROUND[0], ground.green = GROUND[1], ground.blue = GROUND[2];
        canvas_.share(threads, [&](trirast::TileRows &part) {
            part.clear(ground);
            part.draw_polygons(polygons);
            const std::size_t row = 4ull * scene_.width;
            part.resolve(TRIRAST_FORMAT_RGBA8, {pixels_.data() + row * part.top(), row * part.height()});
        });
        return pixels_;
    }

private:
    static trirast::CanvasOptions options(const Scene &scene, std::uint32_t samples) {
        trirast::CanvasOptions found;
        found.width = scene.width, found.height = scene.height, found.samples = samples;
        found.origin = {scene.left, scene.top};
        return found;
    }

    const Scene &scene_;
    trirast::Canvas canvas_;
    Pixels pixels_;
};

class Cairo {
public:
    explicit Cairo(const Scene &scene) : scene_(scene), pixels_(4ull * scene.width * scene.height) {}

    const Pixels &frame(int threads) {
        const Scene::Boxes boxes = scene_.boxes(threads);
        share(scene_.height, threads, [&](int first, int end) { rows(boxes, first, end); });
        return pixels_;
    }

private:
    void rows(const Scene::Boxes &boxes, int first, int end) {
        const int stride = 4 * scene_.width;
        cairo_surface_t *surface = cairo_image_surface_create_for_data(
            pixels_.data() + std::size_t(first) * stride, CAIRO_FORMAT_RGB24, scene_.width, end - first, stride);
        cairo_t *cairo = cairo_create(surface);
        cairo_set_source_rgb(cairo, GROUND[0] / 255.0, GROUND[1] / 255.0, GROUND[2] / 255.0);
        cairo_paint(cairo);
        cairo_translate(cairo, -scene_.left, -(scene_.top + first));
        cairo_set_fill_rule(cairo, scene_.rule ? CAIRO_FILL_RULE_WINDING : CAIRO_FILL_RULE_EVEN_ODD);
        for (std::size_t polygon = 0; polygon < scene_.colors.size(); polygon++) {
            if (!boxes.empty() && scene_.is_outside(boxes[polygon], first, end)) continue;
            const auto &color = scene_.colors[polygon];
            cairo_set_source_rgba(cairo, color[0] / 255.0, color[1] / 255.0, color[2] / 255.0, color[3] / 255.0);
            scene_.each(polygon, polygon + 1, [cairo](std::size_t, const trirast_corner *corner, std::size_t count) {
                cairo_move_to(cairo, corner[0].x / 256.0, corner[0].y / 256.0);
                for (std::size_t k = 1; k < count; k++) cairo_line_to(cairo, corner[k].x / 256.0, corner[k].y / 256.0);
                cairo_close_path(cairo);
            });
            cairo_fill(cairo);
        }
        cairo_surface_flush(surface);
        cairo_destroy(cairo);
        cairo_surface_destroy(surface);
    }

    const Scene &scene_;
    Pixels pixels_;
};

class Agg {
public:
    explicit Agg(const Scene &scene) : scene_(scene), pixels_(4ull * scene.width * scene.height) {}

    const Pixels &frame(int threads) {
        const Scene::Boxes boxes = scene_.boxes(threads);
        share(scene_.height, threads, [&](int first, int end) { rows(boxes, first, end); });
        return pixels_;
    }

private:
    void rows(const Scene::Boxes &boxes, int first, int end) {
        const int stride = 4 * scene_.width, x = 256 * scene_.left, y = 256 * (scene_.top + first);
        agg::rendering_buffer buffer(pixels_.data() + std::size_t(first) * stride, scene_.width, end - first, stride);
        agg::pixfmt_rgba32 format(buffer);
        agg::renderer_base<agg::pixfmt_rgba32> base(format);
        base.clear(agg::rgba8(GROUND[0], GROUND[1], GROUND[2], 255));
        agg::rasterizer_scanline_aa<> raster;
        agg::scanline_u8 line;
        raster.clip_box(0, 0, scene_.width, end - first);
        raster.filling_rule(scene_.rule ? agg::fill_non_zero : agg::fill_even_odd);
        for (std::size_t polygon = 0; polygon < scene_.colors.size(); polygon++) {
            if (!boxes.empty() && scene_.is_outside(boxes[polygon], first, end)) continue;
            const auto &color = scene_.colors[polygon];
            raster.reset();
            scene_.each(polygon, polygon + 1, [&](std::size_t, const trirast_corner *corner, std::size_t count) {
                raster.move_to(corner[0].x - x, corner[0].y - y);
                for (std::size_t k = 1; k < count; k++) raster.line_to(corner[k].x - x, corner[k].y - y);
                raster.close_polygon();
            });
            agg::render_scanlines_aa_solid(raster, line, base, agg::rgba8(color[0], color[1], color[2], color[3]));
        }
    }

    const Scene &scene_;
    Pixels pixels_;
};

// FreeType's smooth rasterizer. It rounds corners to 1/64 pixel, and calls back for spans of pixels with
// the same coverage.
class FreeType {
public:
    // Whether no polygon has more corners or rings than FreeType counts, in 16 bits.
    static bool can_draw(const Scene &scene) {
        std::uint32_t ring = 0, corner = 0;
        for (std::uint32_t end : scene.polygon_ends) {
            const std::uint32_t last = end ? scene.ring_ends[end - 1] : 0;
            if (end - ring > MOST || last - corner > MOST) return false;
            ring = end, corner = last;
        }
        return true;
    }

    explicit FreeType(const Scene &scene)
        : scene_(scene), pixels_(4ull * scene.width * scene.height) {}

    ~FreeType() {
        for (FT_Library library : libraries_) FT_Done_FreeType(library);
    }

    FreeType(const FreeType &) = delete;

    const Pixels &frame(int threads) {
        while (libraries_.size() < std::size_t(threads)) libraries_.push_back(new_library());
        const Scene::Boxes boxes = scene_.boxes(threads);
        std::atomic<std::size_t> next{0};
        share(scene_.height, threads, [&](int first, int end) {
            rows(libraries_[next++], boxes, first, end);
        });
        return pixels_;
    }

private:
    static constexpr std::uint32_t MOST = 32767;

    // The rows of one thread, and the polygon that is drawn there.
    struct Part {
        std::uint32_t *pixels;
        std::size_t width;
        std::uint32_t color, alpha;
    };

    // An outline's arrays, kept from polygon to polygon.
    struct Corners {
        std::vector<FT_Vector> points;
        std::vector<short> ends;
        std::vector<char> tags;
    };

    static FT_Library new_library() {
        FT_Library found;
        if (FT_Init_FreeType(&found)) std::fputs("FreeType does not start\n", stderr), std::exit(2);
        return found;
    }

    // Takes a polygon's corners, as seen from the first pixel of some rows.
    FT_Outline outline(Corners &corners, std::size_t polygon, int first) const {
        const int x = 256 * scene_.left, y = 256 * (scene_.top + first);
        corners.points.clear(), corners.ends.clear();
        const auto take_ring = [&](std::size_t, const trirast_corner *corner, std::size_t count) {
            for (std::size_t k = 0; k < count; k++)
                corners.points.push_back({(corner[k].x - x + 2) >> 2, (corner[k].y - y + 2) >> 2});
            corners.ends.push_back(short(corners.points.size() - 1));
        };
        scene_.each(polygon, polygon + 1, take_ring);
        corners.tags.resize(std::max(corners.tags.size(), corners.points.size()), FT_CURVE_TAG_ON);
        FT_Outline found{};
        found.n_contours = short(corners.ends.size()), found.contours = corners.ends.data();
        found.n_points = short(corners.points.size()), found.points = corners.points.data();
        found.tags = corners.tags.data();
        found.flags = scene_.rule ? 0 : FT_OUTLINE_EVEN_ODD_FILL;
        return found;
    }

    // The outline's box, cut to some rows of the picture. FreeType goes through all pixels of its clip box.
    FT_BBox clip_box(const FT_Outline &outline, int height) const {
        FT_BBox box;
        FT_Outline_Get_CBox(&outline, &box);
        box.xMin = std::max<FT_Pos>(box.xMin >> 6, 0);
        box.yMin = std::max<FT_Pos>(box.yMin >> 6, 0);
        box.xMax = std::min<FT_Pos>((box.xMax + 63) >> 6, scene_.width);
        box.yMax = std::min<FT_Pos>((box.yMax + 63) >> 6, height);
        return box;
    }

    void rows(FT_Library library, const Scene::Boxes &boxes, int first, int end) {
        const std::size_t width = std::size_t(scene_.width);
        Part part{reinterpret_cast<std::uint32_t *>(pixels_.data()) + first * width, width, 0, 0};
        std::fill(part.pixels, part.pixels + (end - first) * width, packed(GROUND));
        Corners corners;
        for (std::size_t polygon = 0; polygon < scene_.colors.size(); polygon++) {
            if (!boxes.empty() && scene_.is_outside(boxes[polygon], first, end)) continue;
            part.color = packed(scene_.colors[polygon]), part.alpha = scene_.colors[polygon][3];
            FT_Outline drawn = outline(corners, polygon, first);
            FT_Raster_Params params{};
            params.flags = FT_RASTER_FLAG_AA | FT_RASTER_FLAG_DIRECT | FT_RASTER_FLAG_CLIP;
            params.gray_spans = blend_spans, params.user = &part;
            const FT_BBox box = params.clip_box = clip_box(drawn, end - first);
            if (box.xMin >= box.xMax || box.yMin >= box.yMax) continue;
            if (const int error = FT_Outline_Render(library, &drawn, &params)) {
                std::fprintf(stderr, "FreeType: error %d at polygon %zu\n", error, polygon);
                std::exit(2);
            }
        }
    }

    template <class Color>
    static std::uint32_t packed(const Color &color) {
        return color[0] | color[1] << 8 | color[2] << 16 | 0xff000000u;
    }

    // Blends spans of a row of pixels by how much of each the polygon covers.
    static void blend_spans(int y, int count, const FT_Span *span, void *user) {
        const Part &part = *static_cast<Part *>(user);
        std::uint32_t *row = part.pixels + std::size_t(y) * part.width;
        for (const FT_Span *end = span + count; span < end; span++)
            blend(row + span->x, span->len, part.color, span->coverage * part.alpha);
    }

    // Blends a color over some pixels. Its share of them is of 255 * 255.
    static void blend(std::uint32_t *pixels, int count, std::uint32_t color, std::uint32_t share) {
        std::uint32_t part = (share + (share >> 8) + 1) >> 8;
        if (part == 255) {
            std::fill(pixels, pixels + count, color);
            return;
        }
        part += part >> 7;
        const std::uint32_t odd = (color >> 8 & 0xff00ff) * part, even = (color & 0xff00ff) * part;
        const std::uint32_t rest = 256 - part;
        for (int k = 0; k < count; k++) {
            const std::uint32_t under = pixels[k];
            pixels[k] = (((under & 0xff00ff) * rest + even + 0x800080) >> 8 & 0xff00ff) |
                        (((under >> 8 & 0xff00ff) * rest + odd + 0x800080) & 0xff00ff00);
        }
    }

    const Scene &scene_;
    Pixels pixels_;
    std::vector<FT_Library> libraries_;
};

double now(clockid_t clock) {
    timespec time;
    clock_gettime(clock, &time);
    return double(time.tv_sec) + 1e-9 * double(time.tv_nsec);
}

struct Renderer {
    std::string name;
    std::function<const Pixels &(int)> frame;
    double wall = 1e9, processor = 1e9;
};

void time_frames(std::vector<Renderer> &renderers, int threads, int turns) {
    for (int turn = 0; turn < turns; turn++)
        for (Renderer &each : renderers) {
            const double wall = now(CLOCK_MONOTONIC), processor = now(CLOCK_PROCESS_CPUTIME_ID);
            each.frame(threads);
            each.wall = std::min(each.wall, now(CLOCK_MONOTONIC) - wall);
            each.processor = std::min(each.processor, now(CLOCK_PROCESS_CPUTIME_ID) - processor);
        }
    for (const Renderer &each : renderers) std::printf("%s %.6f %.6f\n", each.name.c_str(), each.wall, each.processor);
}

void count_seams(const std::vector<Renderer> &renderers) {
    for (const Renderer &each : renderers) {
        const Pixels &pixels = each.frame(1);
        std::size_t wrong = 0;
        for (std::size_t k = 0; k < pixels.size(); k += 4)
            wrong += pixels[k] != 255 || pixels[k + 1] != 255 || pixels[k + 2] != 255;
        std::printf("%s %zu\n", each.name.c_str(), wrong);
    }
}

}  // namespace

int main(int count, char **words) {
    if (count < 3) return 2;
    const bool is_timed = std::string(words[1]) == "time";
    Scene scene(words[2]);
    if (!is_timed) std::fill(scene.colors.begin(), scene.colors.end(), std::array<std::uint8_t, 4>{255, 255, 255, 255});
    scene.find_window();
    Cairo cairo(scene);
    Agg agg(scene);
    FreeType freetype(scene);
    Ours few(scene, 4), many(scene, 16);
    std::vector<Renderer> renderers = {
        {"cairo", [&](int threads) -> const Pixels & { return cairo.frame(threads); }},
        {"agg", [&](int threads) -> const Pixels & { return agg.frame(threads); }},
        {"4", [&](int threads) -> const Pixels & { return few.frame(threads); }},
        {"16", [&](int threads) -> const Pixels & { return many.frame(threads); }},
    };
    if (FreeType::can_draw(scene)) {
        const auto frame = [&](int threads) -> const Pixels & { return freetype.frame(threads); };
        renderers.push_back({"freetype", frame});
    }
    if (is_timed) time_frames(renderers, std::atoi(words[3]), std::atoi(words[4]));
    else count_seams(renderers);
}
