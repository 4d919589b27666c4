// Sixteen lanes of 8, 16 or 32 bits each in SSE registers: two rows of a block of 8 by 8 pixels, the upper row first.

#pragma once

#include <smmintrin.h>

#include <cstdint>

#define ALWAYS_INLINE inline __attribute__((always_inline))

// 8 bits a lane.
struct Bytes {
    __m128i all;
};

// 16 bits a lane.
struct Halves {
    __m128i part[2];
};

// 32 bits a lane.
struct Words {
    __m128i part[4];
};

template <class Lanes, class Each>
ALWAYS_INLINE Lanes each(Each make) {
    Lanes made;
    constexpr int parts = sizeof made.part / sizeof made.part[0];
    for (int k = 0; k < parts; ++k) made.part[k] = make(k);
    return made;
}

// ---- Bytes
// -----------------------------------------------------------------------------------------------------------

ALWAYS_INLINE Bytes load_bytes(const uint8_t* from) {
    return {_mm_loadu_si128(reinterpret_cast<const __m128i*>(from))};
}
ALWAYS_INLINE void store(uint8_t* to, Bytes lanes) { _mm_storeu_si128(reinterpret_cast<__m128i*>(to), lanes.all); }
ALWAYS_INLINE Bytes select(Bytes mask, Bytes yes, Bytes no) { return {_mm_blendv_epi8(no.all, yes.all, mask.all)}; }

// ---- Halves
// ----------------------------------------------------------------------------------------------------------

ALWAYS_INLINE Halves load_halves(const uint16_t* from) {
    return each<Halves>([&](int k) { return _mm_loadu_si128(reinterpret_cast<const __m128i*>(from) + k); });
}

ALWAYS_INLINE void store(uint16_t* to, const Halves& lanes) {
    for (int k = 0; k < 2; ++k) _mm_storeu_si128(reinterpret_cast<__m128i*>(to) + k, lanes.part[k]);
}

ALWAYS_INLINE Halves halves_of(int value) {
    return each<Halves>([&](int) { return _mm_set1_epi16(static_cast<int16_t>(value)); });
}

// All bits of a lane are set where its bit is.
ALWAYS_INLINE Halves mask_of(unsigned bits) {
    const __m128i low = _mm_setr_epi16(1, 2, 4, 8, 16, 32, 64, 128);
    const __m128i lane[2] = {low, _mm_slli_epi16(low, 8)};
    const __m128i all = _mm_set1_epi16(static_cast<int16_t>(bits));
    return each<Halves>([&](int k) { return _mm_cmpeq_epi16(_mm_and_si128(all, lane[k]), lane[k]); });
}

ALWAYS_INLINE Bytes narrow_mask(const Halves& mask) { return {_mm_packs_epi16(mask.part[0], mask.part[1])}; }
ALWAYS_INLINE unsigned bits_of(const Halves& mask) {
    return static_cast<unsigned>(_mm_movemask_epi8(narrow_mask(mask).all));
}
ALWAYS_INLINE bool any(const Halves& mask) { return bits_of(mask) != 0; }
ALWAYS_INLINE Bytes narrow(const Halves& lanes) { return {_mm_packus_epi16(lanes.part[0], lanes.part[1])}; }

ALWAYS_INLINE Halves widen(Bytes lanes) {
    const __m128i zero = _mm_setzero_si128();
    return {{_mm_unpacklo_epi8(lanes.all, zero), _mm_unpackhi_epi8(lanes.all, zero)}};
}

ALWAYS_INLINE Halves operator&(const Halves& a, const Halves& b) {
    return each<Halves>([&](int k) { return _mm_and_si128(a.part[k], b.part[k]); });
}

ALWAYS_INLINE Halves operator~(const Halves& a) {
    return each<Halves>([&](int k) { return _mm_xor_si128(a.part[k], _mm_set1_epi16(-1)); });
}

ALWAYS_INLINE Halves operator+(const Halves& a, const Halves& b) {
    return each<Halves>([&](int k) { return _mm_add_epi16(a.part[k], b.part[k]); });
}

ALWAYS_INLINE Halves operator-(const Halves& a, const Halves& b) {
    return each<Halves>([&](int k) { return _mm_sub_epi16(a.part[k], b.part[k]); });
}

ALWAYS_INLINE Halves operator*(const Halves& a, const Halves& b) {
    return each<Halves>([&](int k) { return _mm_mullo_epi16(a.part[k], b.part[k]); });
}

ALWAYS_INLINE Halves operator>>(const Halves& a, int bits) {
    return each<Halves>([&](int k) { return _mm_srli_epi16(a.part[k], bits); });
}

ALWAYS_INLINE Halves operator==(const Halves& a, const Halves& b) {
    return each<Halves>([&](int k) { return _mm_cmpeq_epi16(a.part[k], b.part[k]); });
}

ALWAYS_INLINE Halves operator<=(const Halves& a, const Halves& b) {
    return each<Halves>([&](int k) { return _mm_cmpeq_epi16(_mm_min_epu16(a.part[k], b.part[k]), a.part[k]); });
}

ALWAYS_INLINE Halves select(const Halves& mask, const Halves& yes, const Halves& no) {
    return each<Halves>([&](int k) { return _mm_blendv_epi8(no.part[k], yes.part[k], mask.part[k]); });
}

// ---- Words
// -----------------------------------------------------------------------------------------------------------

ALWAYS_INLINE Words operator+(const Words& lanes, uint32_t value) {
    return each<Words>(
        [&](int k) { return _mm_add_epi32(lanes.part[k], _mm_set1_epi32(static_cast<int32_t>(value))); });
}

ALWAYS_INLINE Words operator<<(const Words& lanes, int bits) {
    return each<Words>([&](int k) { return _mm_slli_epi32(lanes.part[k], bits); });
}

ALWAYS_INLINE Words least(const Words& a, const Words& b) {
    return each<Words>([&](int k) { return _mm_min_epu32(a.part[k], b.part[k]); });
}

// The upper bits of each lane, those from `bits` on, which have to be 16 or fewer.
ALWAYS_INLINE Halves upper(const Words& lanes, int bits) {
    return each<Halves>([&](int k) {
        return _mm_packus_epi32(_mm_srli_epi32(lanes.part[2 * k], bits), _mm_srli_epi32(lanes.part[2 * k + 1], bits));
    });
}

ALWAYS_INLINE bool any_below(const Words& lanes, uint32_t limit) {
    const __m128i pair[2] = {_mm_min_epu32(lanes.part[0], lanes.part[1]), _mm_min_epu32(lanes.part[2], lanes.part[3])};
    const __m128i all = _mm_min_epu32(pair[0], pair[1]), most = _mm_set1_epi32(static_cast<int32_t>(limit - 1));
    return _mm_movemask_epi8(_mm_cmpeq_epi32(_mm_min_epu32(all, most), all)) != 0;
}

ALWAYS_INLINE unsigned negative_bits(const Words& lanes) {
    const __m128i upper = _mm_packs_epi32(lanes.part[0], lanes.part[1]),
                  lower = _mm_packs_epi32(lanes.part[2], lanes.part[3]);
    return static_cast<unsigned>(_mm_movemask_epi8(_mm_packs_epi16(upper, lower)));
}

// What a value grows by from the first pixel to each: `right` a pixel, and `down` for the second row.
ALWAYS_INLINE Words growth(int32_t right, int32_t down) {
    const __m128i first = _mm_mullo_epi32(_mm_set1_epi32(right), _mm_setr_epi32(0, 1, 2, 3));
    const __m128i second = _mm_add_epi32(first, _mm_set1_epi32(4 * right)), below = _mm_set1_epi32(down);
    return {{first, second, _mm_add_epi32(first, below), _mm_add_epi32(second, below)}};
}

// The upper halves of the same growth in 64 bits, modulo 2^64.
ALWAYS_INLINE Words upper_growth(uint64_t right, uint64_t down) {
    const __m128i two = _mm_set1_epi64x(static_cast<int64_t>(2 * right)),
                  below = _mm_set1_epi64x(static_cast<int64_t>(down));
    __m128i pair[4] = {_mm_set_epi64x(static_cast<int64_t>(right), 0)};
    for (int k = 1; k < 4; ++k) pair[k] = _mm_add_epi64(pair[k - 1], two);
    return each<Words>([&](int k) {
        __m128i left = pair[2 * (k & 1)], next = pair[2 * (k & 1) + 1];
        if (k > 1) left = _mm_add_epi64(left, below), next = _mm_add_epi64(next, below);
        return _mm_castps_si128(
            _mm_shuffle_ps(_mm_castsi128_ps(left), _mm_castsi128_ps(next), _MM_SHUFFLE(3, 1, 3, 1)));
    });
}
