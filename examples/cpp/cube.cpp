// A turned cube with checks, in perspective: drawn by ids, and shaded. Writes a PPM file; the angle is its argument.
#include <cmath>
#include <cstdio>
#include <cstdlib>
#include <vector>
#include <trirast_shade.hpp>

struct Vertex {
    float x, y, z, u, v, light; // -1 to 1; texture coordinates; how bright the face is
};

std::vector<Vertex> cube() {
    std::vector<Vertex> found;
    const float lights[6] = {1, 0.55f, 0.9f, 0.65f, 0.8f, 0.45f};
    for (int face = 0; face < 6; face++)
        for (int corner = 0; corner < 4; corner++) {
            const float side = face % 2 ? -1.0f : 1.0f, u = corner == 1 || corner == 2 ? 1.0f : 0.0f,
                        v = corner > 1 ? 1.0f : 0.0f;
            float place[3]; // by `side` the corners of each face run counter-clockwise as seen from outside
            place[face / 2] = side, place[(face / 2 + 1) % 3] = 2 * u - 1;
            place[(face / 2 + 2) % 3] = side * (2 * v - 1);
            found.push_back({place[0], place[1], place[2], 4 * u, 4 * v, lights[face]});
        }
    return found;
}

// Where the camera at (0, 1, 3.5) sees a point of the cube, which is turned about the vertical axis. z / w is 0 at the
// near plane.
trirast::ClipPosition seen_from_camera(const Vertex &v, float turn, float aspect) {
    const float near_plane = 0.1f, far_plane = 20, zoom = 1.5f, scale = far_plane / (far_plane - near_plane);
    const float x = v.x * std::cos(turn) + v.z * std::sin(turn), z = v.z * std::cos(turn) - v.x * std::sin(turn);
    const float up = v.y - 1, ahead = 3.5f - z, level = std::cos(0.28f), down = std::sin(0.28f); // it looks down
    const float distance = level * ahead - down * up, height = level * up + down * ahead;
    return {zoom / aspect * x, zoom * height, scale * (distance - near_plane), distance};
}

// The shader: it is called for eight fragments at a time. Floats are eight numbers, on which operators work one by one.
void shade_checks(const trirast::Attributes<3> &attributes, const trirast::Fragments &at, trirast::Colors &out) {
    const auto corner = attributes.of(at.id);
    const trirast::Floats u = at.value(corner[0]), v = at.value(corner[1]), light = at.value(corner[2]);
    const trirast::Floats check = choose(((floor_to_integers(u) + floor_to_integers(v)) & 1) == 1, 1.0f, 0.35f);
    out.red = 255.0f * light * check, out.green = 210.0f * light * check, out.blue = 90.0f * light;
}

int main(int count, char **words) {
    const float turn = count > 1 ? static_cast<float>(std::atof(words[1])) : 0.6f;
    const std::uint32_t width = 400, height = 300;
    std::vector<std::uint32_t> indices;
    for (std::uint32_t face = 0; face < 24; face += 4)
        for (std::uint32_t corner : {0, 1, 2, 0, 2, 3}) indices.push_back(face + corner);

    // What stays from frame to frame.
    trirast::CanvasOptions options;
    options.width = width, options.height = height, options.samples = 4;
    trirast::Canvas canvas(options);
    trirast::State nearest;
    nearest.depth_test = TRIRAST_DEPTH_LESS, nearest.depth_write = true;
    trirast::Clip clip{};
    clip.width = width, clip.height = height;
    trirast::Clipped seen;

    // What is known of each vertex: its place in clip space, and what the shader looks up.
    std::vector<trirast::ClipPosition> positions;
    std::vector<trirast::Attributes<3>::Values> values;
    for (const Vertex &v : cube()) {
        positions.push_back(seen_from_camera(v, turn, 4.0f / 3));
        values.push_back({v.u, v.v, v.light});
    }

    // A frame. Clip and project; then what shading looks up of each triangle.
    trirast::clip_triangles(clip, positions, indices, seen);
    const trirast::ShadeTriangles triangles(seen);
    const trirast::Attributes<3> attributes(seen, indices, values);

    // Ids: the canvas is cleared to white, which is the id of no triangle.
    canvas.clear({255, 255, 255});
    canvas.draw_ids(seen.vertices, seen.indices, 0, nearest);

    // Colours in place of the ids, and the background where there is no triangle.
    const auto shader = [&](const trirast::Fragments &at, trirast::Colors &out) { shade_checks(attributes, at, out); };
    trirast::shade(canvas, triangles, trirast::Rate::pixel, {24, 24, 32}, shader);

    // Pixels.
    const std::vector<std::uint8_t> pixels = canvas.pixels(TRIRAST_FORMAT_RGB8);
    std::printf("P6\n%u %u\n255\n", width, height);
    std::fwrite(pixels.data(), 1, pixels.size(), stdout);
}
