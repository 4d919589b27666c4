// What a triangle makes of the samples of a block of 8 by 8 pixels: sixteen at once, or one by one where it is steep.

#pragma once

#include <cstdint>
#include <vector>

#include "lanes.hpp"
#include "planes.hpp"
#include "triangle.hpp"

// One sample of each pixel of a block.
struct alignas(64) Samples {
    uint16_t depth[64];
    uint8_t colour[3][64];
};

// Two rows of a block at one sample of each pixel.
struct Group {
    int first;                       // its first pixel in the block
    int64_t x, y;                    // the sample of that pixel
    Halves mask;
    uint64_t heights[Attributes];    // of the planes at that sample
};

enum class Depths { None, Flat, Plane };
enum class Colours { Flat, Plane, SurePlane };

template <Depths depths_, Colours colours_, bool over_, bool whole_>
struct Mode {
    static constexpr Depths depths = depths_;
    static constexpr Colours colours = colours_;
    static constexpr bool over = over_;
    static constexpr bool whole = whole_;   // every pixel of the block is covered
    static constexpr bool stores_all = whole_ && depths_ == Depths::None;
    // The attributes that have a plane are those from `first` to before `end`.
    static constexpr int first = depths_ == Depths::Plane ? Depth : Red;
    static constexpr int end = colours_ == Colours::Flat ? Red : over_ ? Attributes : Alpha;
};

#ifdef COUNT_GROUPS
// How many groups were met in a mode, of how many some sample was drawn, and how many samples these were;
// by one thread alone.
struct GroupCount {
    Depths depths;
    Colours colours;
    bool over, whole, stores_depth;
    uint64_t met = 0, drawn = 0, samples = 0;
};

inline std::vector<GroupCount>& group_counts() {
    static std::vector<GroupCount> counts;
    return counts;
}

template <class Mode>
GroupCount& count_of(const State& state) {
    for (GroupCount& count : group_counts())
        if (count.depths == Mode::depths && count.colours == Mode::colours && count.over == Mode::over &&
            count.whole == Mode::whole && count.stores_depth == state.depth_write)
            return count;
    group_counts().push_back({Mode::depths, Mode::colours, Mode::over, Mode::whole, state.depth_write});
    return group_counts().back();
}
#endif

inline Halves passes(Test test, const Halves& fresh, const Halves& old) {
    switch (test) {
    case Test::Never: return halves_of(0);
    case Test::Less: return ~(old <= fresh);
    case Test::Equal: return fresh == old;
    case Test::LessEqual: return fresh <= old;
    case Test::Greater: return ~(fresh <= old);
    case Test::NotEqual: return ~(fresh == old);
    case Test::GreaterEqual: return old <= fresh;
    case Test::Always: break;
    }
    return halves_of(-1);
}

// (source * alpha + stored * (255 - alpha) + 127) / 255, without a division.
ALWAYS_INLINE Halves blended(const Halves& source, const Halves& alpha, const Halves& stored) {
    Halves sum = source * alpha + stored * (halves_of(255) - alpha) + halves_of(127);
    return (sum + halves_of(1) + (sum >> 8)) >> 8;
}

ALWAYS_INLINE Words height_lanes(const Planes& planes, const Group& group, int attribute) {
    return planes.of[attribute].lanes + static_cast<uint32_t>(group.heights[attribute] >> 32);
}

ALWAYS_INLINE Halves depths_of_plane(const Triangle& t, const Planes& planes, const Group& group) {
    Words height = height_lanes(planes, group, Depth);
    Halves depths = upper(height, 16);
    if (__builtin_expect(any_below(height << 16, error_units << 16), 0))
        return corrected(planes.of[Depth], t.area, group.x, group.y, depths);
    return depths;
}

// Which samples pass the depth test. Their depths are stored if the draw asks for it.
template <class Mode>
ALWAYS_INLINE Halves test_depths(const Triangle& t, const Planes& planes, const Group& group, Samples& samples) {
    Halves fresh = Mode::depths == Depths::Flat ? halves_of(t.values[Depth][0]) : depths_of_plane(t, planes, group);
    Halves old = load_halves(samples.depth + group.first);
    Halves mask = passes(t.state->test, fresh, old);
    if (!Mode::whole) mask = mask & group.mask;
    if (t.state->depth_write) store(samples.depth + group.first, select(mask, fresh, old));
    return mask;
}

template <class Mode>
ALWAYS_INLINE void colours_of_planes(const Triangle& t, const Planes& planes, const Group& group, Halves* values) {
    Words fractions = each<Words>([](int) { return _mm_set1_epi32(-1); });
    for (int attribute = Red; attribute < Mode::end; ++attribute) {
        Words height = height_lanes(planes, group, attribute);
        values[attribute] = upper(height, 24);
        fractions = least(fractions, height << 8);
    }
    if (Mode::colours == Colours::SurePlane || __builtin_expect(!any_below(fractions, error_units << 8), 1)) return;
    for (int attribute = Red; attribute < Mode::end; ++attribute)
        values[attribute] = corrected(planes.of[attribute], t.area, group.x, group.y, values[attribute]);
}

template <class Mode>
ALWAYS_INLINE void put_colours(const Triangle& t, const Halves* values, const Halves& mask, int first,
                               Samples& samples) {
    Bytes lanes = narrow_mask(mask);
    for (int channel = 0; channel < 3; ++channel) {
        if (!t.state->write[channel]) continue;
        uint8_t* stored = samples.colour[channel] + first;
        Bytes old = load_bytes(stored);
        const Halves& value = values[Red + channel];
        Bytes fresh = narrow(Mode::over ? blended(value, values[Alpha], widen(old)) : value);
        store(stored, Mode::stores_all ? fresh : select(lanes, fresh, old));
    }
}

template <class Mode>
ALWAYS_INLINE void draw_group(const Triangle& t, const Planes& planes, const Group& group, Samples& samples) {
    Halves mask = group.mask, values[Attributes];
#ifdef COUNT_GROUPS
    ++count_of<Mode>(*t.state).met;
#endif
    if (Mode::depths != Depths::None) {
        mask = test_depths<Mode>(t, planes, group, samples);
        if (!any(mask)) return;
    }
#ifdef COUNT_GROUPS
    ++count_of<Mode>(*t.state).drawn;
    count_of<Mode>(*t.state).samples += static_cast<uint64_t>(__builtin_popcount(bits_of(mask)));
#endif
    if (Mode::colours == Colours::Flat)
        for (int attribute = Red; attribute < (Mode::over ? Attributes : Alpha); ++attribute)
            values[attribute] = halves_of(t.values[attribute][0]);
    else colours_of_planes<Mode>(t, planes, group, values);
    put_colours<Mode>(t, values, mask, group.first, samples);
}

template <class Mode>
ALWAYS_INLINE void draw_groups(const Triangle& t, const Planes& planes, Group& group, uint64_t mask, Samples& samples) {
    for (group.first = 0; group.first < 64; group.first += 16) {
        unsigned bits = static_cast<unsigned>(mask >> group.first) & 0xffff;
        if (Mode::whole || bits) {
            group.mask = Mode::whole ? halves_of(-1) : mask_of(bits);
            draw_group<Mode>(t, planes, group, samples);
        }
        group.y += 512;
        for (int attribute = Mode::first; attribute < Mode::end; ++attribute)
            group.heights[attribute] += 512 * planes.of[attribute].height.down;
    }
}

// The block's upper left pixel is at `left`, `top`; each sample has a mask of its pixels.
template <class Mode>
void draw_block(const Triangle& t, const Planes& planes, const Pattern& pattern, int left, int top,
                const uint64_t* masks, Samples* samples) {
    uint64_t corner[Attributes];
    for (int attribute = Mode::first; attribute < Mode::end; ++attribute)
        corner[attribute] = planes.of[attribute].height.at(256 * left, 256 * top);
    for (int s = 0; s < pattern.count; ++s) {
        if (!(t.state->mask >> s & 1) || !masks[s]) continue;
        Group group;
        group.x = 256 * left + pattern.places[s][0];
        group.y = 256 * top + pattern.places[s][1];
        for (int attribute = Mode::first; attribute < Mode::end; ++attribute)
            group.heights[attribute] = corner[attribute] + planes.of[attribute].samples[s];
        draw_groups<Mode>(t, planes, group, masks[s], samples[s]);
    }
}

using BlockDrawer = void (*)(const Triangle&, const Planes&, const Pattern&, int, int, const uint64_t*, Samples*);

template <Depths depths, Colours colours, bool whole>
BlockDrawer drawer_of_merge(const Triangle& t) {
    return t.state->over ? draw_block<Mode<depths, colours, true, whole>>
                         : draw_block<Mode<depths, colours, false, whole>>;
}

template <Depths depths, bool whole>
BlockDrawer drawer_of_colours(const Triangle& t, const Planes& planes) {
    if (t.has_flat_colour()) return drawer_of_merge<depths, Colours::Flat, whole>(t);
    if (planes.sure) return drawer_of_merge<depths, Colours::SurePlane, whole>(t);
    return drawer_of_merge<depths, Colours::Plane, whole>(t);
}

template <bool whole>
BlockDrawer drawer(const Triangle& t, const Planes& planes) {
    if (!t.uses_depth()) return drawer_of_colours<Depths::None, whole>(t, planes);
    if (t.is_flat(Depth)) return drawer_of_colours<Depths::Flat, whole>(t, planes);
    return drawer_of_colours<Depths::Plane, whole>(t, planes);
}

// ---- Steep triangles
// -------------------------------------------------------------------------------------------------

inline uint32_t value_at(const Triangle& t, const Planes& planes, int attribute, int64_t x, int64_t y) {
    if (t.is_flat(attribute)) return t.values[attribute][0];
    return static_cast<uint32_t>(planes.of[attribute].number.at(x, y) / static_cast<uint64_t>(t.area));
}

inline bool passes(Test test, uint32_t fresh, uint32_t old) {
    return static_cast<int>(test) >> (fresh < old ? 0 : fresh == old ? 1 : 2) & 1;
}

inline void draw_sample(const Triangle& t, const Planes& planes, int64_t x, int64_t y, int pixel, Samples& samples) {
    if (t.uses_depth()) {
        uint32_t depth = value_at(t, planes, Depth, x, y);
        if (!passes(t.state->test, depth, samples.depth[pixel])) return;
        if (t.state->depth_write) samples.depth[pixel] = static_cast<uint16_t>(depth);
    }
    uint32_t alpha = t.state->over ? value_at(t, planes, Alpha, x, y) : 255;
    for (int channel = 0; channel < 3; ++channel) {
        uint8_t& stored = samples.colour[channel][pixel];
        if (!t.state->write[channel]) continue;
        uint32_t value = value_at(t, planes, Red + channel, x, y);
        stored = static_cast<uint8_t>(t.state->over ? (value * alpha + stored * (255 - alpha) + 127) / 255 : value);
    }
}

inline void draw_steep_block(const Triangle& t, const Planes& planes, const Pattern& pattern, int left, int top,
                             const uint64_t* masks, Samples* samples) {
    for (int s = 0; s < pattern.count; ++s) {
        if (!(t.state->mask >> s & 1)) continue;
        for (uint64_t mask = masks[s]; mask; mask &= mask - 1) {
            int pixel = __builtin_ctzll(mask);
            int64_t x = 256 * (left + pixel % 8) + pattern.places[s][0],
                    y = 256 * (top + pixel / 8) + pattern.places[s][1];
            draw_sample(t, planes, x, y, pixel, samples[s]);
        }
    }
}
