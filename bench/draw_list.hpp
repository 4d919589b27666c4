// Draw lists for the C++ programs of the benchmark: the parts of the format that bench/scenes.py uses, from JSON text.
//
// The text is trusted: a list that trirast refuses is not refused here. Nothing of it is proved.

#pragma once

#include <array>
#include <cstdint>
#include <cstdio>
#include <cstdlib>
#include <string>
#include <vector>

struct Vertex {
    int32_t x, y;
    uint16_t z;
    uint8_t rgba[4];
};

struct Sample {
    uint8_t c[3];
    uint16_t z;
};

enum class Test { Never, Less, Equal, LessEqual, Greater, NotEqual, GreaterEqual, Always };
enum class Cull { None, Front, Back };

struct State {
    Cull cull = Cull::None;
    Test test = Test::Always;
    bool depth_write = false;
    bool over = false;
    bool write[3] = {true, true, true};
    int mask = 15;
    int scissor[4] = {0, 0, 4096, 4096};
};

struct Draw {
    State state;
    std::vector<Vertex> vertices;
    std::vector<std::array<uint32_t, 3>> triangles;
};

struct Scene {
    int width = 0, height = 0, samples = 1;
    Sample clear = {{0, 0, 0}, 65535};
    std::vector<Draw> draws;
};

[[noreturn]] inline void fail(const char* why) {
    std::fprintf(stderr, "bench: %s\n", why);
    std::exit(1);
}

// ---- Reading
// ---------------------------------------------------------------------------------------------------------

class Reader {
public:
    explicit Reader(const std::string& text) : at_(text.data()), end_(text.data() + text.size()) {}

    char peek() {
        while (at_ < end_ && (*at_ == ' ' || *at_ == '\n' || *at_ == '\r' || *at_ == '\t')) ++at_;
        return at_ < end_ ? *at_ : '\0';
    }

    void want(char c) {
        if (peek() != c) fail("this list is not one that the benchmark's reader takes");
        ++at_;
    }

    bool take(char c) {
        if (peek() != c) return false;
        ++at_;
        return true;
    }

    int64_t number() {
        bool negative = take('-');
        int64_t value = 0;
        peek();
        const char* first = at_;
        while (at_ < end_ && *at_ >= '0' && *at_ <= '9') value = value * 10 + (*at_++ - '0');
        if (at_ == first) fail("a whole number was wanted");
        return negative ? -value : value;
    }

    std::string word() {
        want('"');
        const char* first = at_;
        while (at_ < end_ && *at_ != '"') ++at_;
        std::string found(first, at_);
        want('"');
        return found;
    }

    bool truth() {
        bool yes = peek() == 't';
        at_ += yes ? 4 : 5;
        return yes;
    }

    template <class Each>
    void array(Each each) {
        want('[');
        if (take(']')) return;
        do each();
        while (take(','));
        want(']');
    }

    template <class Each>
    void object(Each each) {
        want('{');
        if (take('}')) return;
        do {
            std::string key = word();
            want(':');
            each(key);
        } while (take(','));
        want('}');
    }

private:
    const char* at_;
    const char* end_;
};

inline Test test_of(const std::string& name) {
    static const char* const names[] = {"never",   "less",      "equal",         "less_equal",
                                        "greater", "not_equal", "greater_equal", "always"};
    for (int k = 0; k < 8; ++k)
        if (name == names[k]) return static_cast<Test>(k);
    fail("no depth test of this name");
}

inline Cull cull_of(const std::string& name) {
    return name == "front" ? Cull::Front : name == "back" ? Cull::Back : Cull::None;
}

inline Draw read_draw(Reader& in) {
    Draw draw;
    State& state = draw.state;
    in.object([&](const std::string& key) {
        int n = 0;
        if (key == "cull") state.cull = cull_of(in.word());
        else if (key == "depth_test") state.test = test_of(in.word());
        else if (key == "depth_write") state.depth_write = in.truth();
        else if (key == "blend") state.over = in.word() == "over";
        else if (key == "write") in.array([&] { state.write[n++] = in.truth(); });
        else if (key == "sample_mask") state.mask = static_cast<int>(in.number());
        else if (key == "scissor") in.array([&] { state.scissor[n++] = static_cast<int>(in.number()); });
        else if (key == "vertices") {
            in.array([&] {
                int64_t v[7];
                int k = 0;
                in.array([&] { v[k++] = in.number(); });
                Vertex vertex = {
                    static_cast<int32_t>(v[0]), static_cast<int32_t>(v[1]), static_cast<uint16_t>(v[2]), {}};
                for (int c = 0; c < 4; ++c) vertex.rgba[c] = static_cast<uint8_t>(v[3 + c]);
                draw.vertices.push_back(vertex);
            });
        } else if (key == "triangles") {
            in.array([&] {
                std::array<uint32_t, 3> t{};
                int k = 0;
                in.array([&] { t[k++] = static_cast<uint32_t>(in.number()); });
                draw.triangles.push_back(t);
            });
        } else fail(("only plain triangles in colour are drawn, and no list with the key " + key).c_str());
    });
    return draw;
}

inline Scene read_scene(const std::string& text) {
    Scene scene;
    Reader in(text);
    in.object([&](const std::string& key) {
        int n = 0;
        if (key == "width") scene.width = static_cast<int>(in.number());
        else if (key == "height") scene.height = static_cast<int>(in.number());
        else if (key == "samples") scene.samples = static_cast<int>(in.number());
        else if (key == "clear") in.array([&] { scene.clear.c[n++] = static_cast<uint8_t>(in.number()); });
        else if (key == "clear_depth") scene.clear.z = static_cast<uint16_t>(in.number());
        else if (key == "draws") in.array([&] { scene.draws.push_back(read_draw(in)); });
        else fail(("only plain triangles in colour are drawn, and no list with the key " + key).c_str());
    });
    return scene;
}

inline Scene read_standard_input() {
    std::string text;
    char piece[1 << 16];
    for (size_t n; (n = std::fread(piece, 1, sizeof piece, stdin)) > 0;) text.append(piece, n);
    return read_scene(text);
}
