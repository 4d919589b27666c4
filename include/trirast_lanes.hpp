/* trirast_lanes.hpp: eight numbers at a time, for the shaders of trirast_shade.hpp. For C++17 and later.
 *
 * Floats and Integers are eight numbers of 32 bits, the lanes. Operators and functions act on each lane by itself, so
 * that a formula reads as it does for one number:
 *
 *     trirast::Floats length = sqrt(x * x + y * y);
 *     trirast::Floats light = choose(length > 0.5f, 1.0f, 0.25f);      // of each lane one or the other
 *
 * By GCC 12, clang 14 or later ones they are vectors: one of 256 bits with AVX, else two of 128 bits (SSE2, NEON). By
 * any other compiler, or if TRIRAST_SCALAR is defined, they are eight plain numbers. +, -, *, / and sqrt are those of
 * IEEE 754, rounded to the nearest, so each way gives the same bits as long as the compiler does not fuse a product
 * with a sum: GCC does by itself for processors that can (-ffp-contract=off). Do not use -ffast-math.
 *
 * A comparison gives Integers: -1 in the lanes where it holds, else 0. Such masks are taken by choose, any and bits,
 * and joined by &, | and ~. Lanes are not set by themselves: store, change the array, and load.
 * docs/how-to/textures.md has a table of all operators and functions. */
#ifndef TRIRAST_LANES_HPP
#define TRIRAST_LANES_HPP

#include <cmath>
#include <cstddef>
#include <cstdint>
#include <cstring>
#include <type_traits>
#include <utility>

#if !defined(TRIRAST_SCALAR) && defined(__clang__)
#define TRIRAST_VECTORS (__clang_major__ >= 14)
#elif !defined(TRIRAST_SCALAR) && defined(__GNUC__)
#define TRIRAST_VECTORS (__GNUC__ >= 12)
#else
#define TRIRAST_VECTORS 0
#endif

#if TRIRAST_VECTORS && defined(__SSE2__)
#include <immintrin.h>
#endif

#if defined(__GNUC__)
#define TRIRAST_INLINE inline __attribute__((always_inline))
#define TRIRAST_NOINLINE __attribute__((noinline))
#elif defined(_MSC_VER)
#define TRIRAST_INLINE __forceinline
#define TRIRAST_NOINLINE __declspec(noinline)
#else
#define TRIRAST_INLINE inline
#define TRIRAST_NOINLINE
#endif

namespace trirast {

inline constexpr std::size_t lane_count = 8;

/* ---- Parts: what the compiler's vectors hold. What is in `detail` may change. ---- */

namespace detail {

#if TRIRAST_VECTORS && defined(__AVX__)
inline constexpr std::size_t part_lanes = 8, double_part_lanes = 4;
using FloatPart = float __attribute__((vector_size(32)));
using IntegerPart = std::int32_t __attribute__((vector_size(32)));
using DoublePart = double __attribute__((vector_size(32)));
using FourIntegers = std::int32_t __attribute__((vector_size(16)));
#elif TRIRAST_VECTORS
inline constexpr std::size_t part_lanes = 4, double_part_lanes = 2;
using FloatPart = float __attribute__((vector_size(16)));
using IntegerPart = std::int32_t __attribute__((vector_size(16)));
using DoublePart = double __attribute__((vector_size(16)));
using HalfPart = float __attribute__((vector_size(8)));
#else
inline constexpr std::size_t part_lanes = 1, double_part_lanes = 1;
using FloatPart = float;
using IntegerPart = std::int32_t;
using DoublePart = double;
#endif

/* Eight numbers in parts. */
template <class Part, std::size_t lanes_of_part>
struct Parts {
    static constexpr std::size_t count = lane_count / lanes_of_part;
    using Numbers = std::make_index_sequence<count>;

    Part part[count];
};

template <class To>
TRIRAST_INLINE To loaded(const void *from) noexcept {
    To found;
    std::memcpy(&found, from, sizeof found);
    return found;
}

/* Eight numbers from memory, and to it, part by part: moved as a whole they go through memory once more. */
template <class To>
TRIRAST_INLINE To parts_from(const void *eight) noexcept {
    To found;
    const unsigned char *bytes = static_cast<const unsigned char *>(eight);
    for (std::size_t k = 0; k < To::count; k++)
        std::memcpy(&found.part[k], bytes + k * sizeof found.part[k], sizeof found.part[k]);
    return found;
}
template <class From>
TRIRAST_INLINE void parts_to(const From &from, void *eight) noexcept {
    unsigned char *bytes = static_cast<unsigned char *>(eight);
    for (std::size_t k = 0; k < From::count; k++)
        std::memcpy(bytes + k * sizeof from.part[k], &from.part[k], sizeof from.part[k]);
}

/* Part k of what an operation makes of parts k. */
template <std::size_t k, class Operation, class... From>
TRIRAST_INLINE auto part_of(Operation operation, const From &...from) noexcept {
    return operation(from.part[k]...);
}

template <class To, class Operation, std::size_t... k, class... From>
TRIRAST_INLINE To each_part(std::index_sequence<k...>, Operation operation, const From &...from) noexcept {
    To found;
    ((found.part[k] = part_of<k>(operation, from...)), ...);
    return found;
}

/* Eight numbers, made part by part. */
template <class To, class Operation, class... From>
TRIRAST_INLINE To made(Operation operation, const From &...from) noexcept {
    return each_part<To>(typename To::Numbers{}, operation, from...);
}

/* A comparison as a mask: the compiler's vectors compare to -1 and 0 by themselves. */
TRIRAST_INLINE IntegerPart mask_of(IntegerPart holds) noexcept { return holds; }
#if !TRIRAST_VECTORS
TRIRAST_INLINE IntegerPart mask_of(bool holds) noexcept { return holds ? -1 : 0; }
#endif

} // namespace detail

/* ---- Eight numbers ---- */

/* Eight integers of 32 bits. Those that are not initialized are unspecified. */
struct Integers : detail::Parts<detail::IntegerPart, detail::part_lanes> {
    Integers() = default;

    /* This number in each lane. */
    TRIRAST_INLINE Integers(std::int32_t all) noexcept {
        for (detail::IntegerPart &each : part) each = all - detail::IntegerPart{};
    }

    static TRIRAST_INLINE Integers load(const void *eight) noexcept { return detail::parts_from<Integers>(eight); }
    TRIRAST_INLINE void store(void *eight) const noexcept { detail::parts_to(*this, eight); }

    /* The first four and the last four numbers each from a place of their own, and to it. */
    static TRIRAST_INLINE Integers load_halves(const void *first, const void *last) noexcept {
        Integers found;
#if TRIRAST_VECTORS && defined(__AVX__)
        found.part[0] = __builtin_shufflevector(detail::loaded<detail::FourIntegers>(first),
                                                detail::loaded<detail::FourIntegers>(last), 0, 1, 2, 3, 4, 5, 6, 7);
#else
        std::memcpy(found.part, first, 16), std::memcpy(found.part + count / 2, last, 16);
#endif
        return found;
    }
    TRIRAST_INLINE void store_halves(void *first, void *last) const noexcept {
#if TRIRAST_VECTORS && defined(__AVX__)
        const detail::FourIntegers low = __builtin_shufflevector(part[0], part[0], 0, 1, 2, 3),
                                   high = __builtin_shufflevector(part[0], part[0], 4, 5, 6, 7);
        std::memcpy(first, &low, 16), std::memcpy(last, &high, 16);
#else
        std::memcpy(first, part, 16), std::memcpy(last, part + count / 2, 16);
#endif
    }

    TRIRAST_INLINE std::int32_t operator[](std::size_t lane) const noexcept {
#if TRIRAST_VECTORS
        return part[lane / detail::part_lanes][lane % detail::part_lanes];
#else
        return part[lane];
#endif
    }
};

/* Eight floats. Those that are not initialized are unspecified. */
struct Floats : detail::Parts<detail::FloatPart, detail::part_lanes> {
    Floats() = default;

    /* This number in each lane. */
    TRIRAST_INLINE Floats(float all) noexcept {
        for (detail::FloatPart &each : part) each = all - detail::FloatPart{};
    }

    static TRIRAST_INLINE Floats load(const void *eight) noexcept { return detail::parts_from<Floats>(eight); }
    TRIRAST_INLINE void store(void *eight) const noexcept { detail::parts_to(*this, eight); }

    TRIRAST_INLINE float operator[](std::size_t lane) const noexcept {
#if TRIRAST_VECTORS
        return part[lane / detail::part_lanes][lane % detail::part_lanes];
#else
        return part[lane];
#endif
    }
};

static_assert(sizeof(Floats) == 32 && sizeof(Integers) == 32, "eight numbers of 32 bits");

namespace detail {

/* Eight doubles: for products of integers of 25 bits, which are exact in them. */
struct Doubles : Parts<DoublePart, double_part_lanes> {};

} // namespace detail

#define TRIRAST_OPERATOR(type, symbol)                                                                                 \
    TRIRAST_INLINE type operator symbol(const type &a, const type &b) noexcept {                                       \
        return detail::made<type>([](auto x, auto y) { return x symbol y; }, a, b);                                    \
    }
#define TRIRAST_ASSIGNMENT(type, symbol)                                                                               \
    TRIRAST_OPERATOR(type, symbol)                                                                                     \
    TRIRAST_INLINE type &operator symbol##=(type &a, const type &b) noexcept { return a = a symbol b; }
#define TRIRAST_COMPARISON(type, symbol)                                                                               \
    TRIRAST_INLINE Integers operator symbol(const type &a, const type &b) noexcept {                                   \
        return detail::made<Integers>([](auto x, auto y) { return detail::mask_of(x symbol y); }, a, b);               \
    }

TRIRAST_ASSIGNMENT(Floats, +)
TRIRAST_ASSIGNMENT(Floats, -)
TRIRAST_ASSIGNMENT(Floats, *)
TRIRAST_ASSIGNMENT(Floats, /)
TRIRAST_ASSIGNMENT(Integers, +)
TRIRAST_ASSIGNMENT(Integers, -)
TRIRAST_ASSIGNMENT(Integers, *)
TRIRAST_ASSIGNMENT(Integers, &)
TRIRAST_ASSIGNMENT(Integers, |)
TRIRAST_ASSIGNMENT(Integers, ^)
TRIRAST_COMPARISON(Floats, <)
TRIRAST_COMPARISON(Floats, <=)
TRIRAST_COMPARISON(Floats, >)
TRIRAST_COMPARISON(Floats, >=)
TRIRAST_COMPARISON(Floats, ==)
TRIRAST_COMPARISON(Floats, !=)
TRIRAST_COMPARISON(Integers, <)
TRIRAST_COMPARISON(Integers, <=)
TRIRAST_COMPARISON(Integers, >)
TRIRAST_COMPARISON(Integers, >=)
TRIRAST_COMPARISON(Integers, ==)
TRIRAST_COMPARISON(Integers, !=)

namespace detail {

TRIRAST_OPERATOR(Doubles, +)
TRIRAST_OPERATOR(Doubles, -)
TRIRAST_OPERATOR(Doubles, *)

} // namespace detail

#undef TRIRAST_OPERATOR
#undef TRIRAST_ASSIGNMENT
#undef TRIRAST_COMPARISON

TRIRAST_INLINE Floats operator-(const Floats &v) noexcept {
    return detail::made<Floats>([](auto x) { return -x; }, v);
}
TRIRAST_INLINE Integers operator-(const Integers &v) noexcept {
    return detail::made<Integers>([](auto x) { return -x; }, v);
}
TRIRAST_INLINE Integers operator~(const Integers &v) noexcept {
    return detail::made<Integers>([](auto x) { return ~x; }, v);
}

/* Shifts by 0 to 31 bits, the same in each lane; to the right the sign comes in. For 2^n of each lane see bits_of. */
TRIRAST_INLINE Integers operator>>(const Integers &v, int bits) noexcept {
    return detail::made<Integers>([bits](auto x) { return x >> bits; }, v);
}
TRIRAST_INLINE Integers operator<<(const Integers &v, int bits) noexcept {
#if TRIRAST_VECTORS
    return detail::made<Integers>([bits](auto x) { return x << bits; }, v);
#else
    const auto shifted = [bits](std::int32_t x) {
        return static_cast<std::int32_t>(static_cast<std::uint32_t>(x) << bits);
    };
    return detail::made<Integers>(shifted, v);
#endif
}

/* ---- Conversions ---- */

/* The bits of floats, and back. (bits_of(v) >> 23) - 127 is the exponent of a positive v, the floor of its logarithm to
 * base 2 from 2^-126 on, and floats_of_bits((n + 127) << 23) is 2^n, for n from -126 to 127. */
TRIRAST_INLINE Integers bits_of(const Floats &v) noexcept {
    return detail::made<Integers>([](auto x) { return detail::loaded<detail::IntegerPart>(&x); }, v);
}
TRIRAST_INLINE Floats floats_of_bits(const Integers &v) noexcept {
    return detail::made<Floats>([](auto x) { return detail::loaded<detail::FloatPart>(&x); }, v);
}

/* Rounded to the nearest float. */
TRIRAST_INLINE Floats to_floats(const Integers &v) noexcept {
#if TRIRAST_VECTORS
    return detail::made<Floats>([](auto x) { return __builtin_convertvector(x, detail::FloatPart); }, v);
#else
    return detail::made<Floats>([](std::int32_t x) { return static_cast<float>(x); }, v);
#endif
}

/* Without what stands behind the point. Numbers have to be within -2^31 to below 2^31. */
TRIRAST_INLINE Integers to_integers(const Floats &v) noexcept {
#if TRIRAST_VECTORS
    return detail::made<Integers>([](auto x) { return __builtin_convertvector(x, detail::IntegerPart); }, v);
#else
    return detail::made<Integers>([](float x) { return static_cast<std::int32_t>(x); }, v);
#endif
}

/* The greatest integers that are not above the numbers, which have to be within -2^31 to below 2^31. */
TRIRAST_INLINE Integers floor_to_integers(const Floats &v) noexcept {
    const Integers cut = to_integers(v);
    return cut + (v < to_floats(cut));
}

namespace detail {

#if TRIRAST_VECTORS && defined(__AVX__)
/* By intrinsics, as below: GCC 12 makes single moves of the conversion of a half. */
TRIRAST_INLINE Doubles to_doubles(const Integers &v) noexcept {
    const __m256i x = __m256i(v.part[0]);
    return {{DoublePart(_mm256_cvtepi32_pd(_mm256_castsi256_si128(x))),
             DoublePart(_mm256_cvtepi32_pd(_mm256_extractf128_si256(x, 1)))}};
}
TRIRAST_INLINE Floats to_floats(const Doubles &v) noexcept {
    const __m128 low = _mm256_cvtpd_ps(__m256d(v.part[0])), high = _mm256_cvtpd_ps(__m256d(v.part[1]));
    Floats found;
    found.part[0] = FloatPart(_mm256_insertf128_ps(_mm256_castps128_ps256(low), high, 1));
    return found;
}
#elif TRIRAST_VECTORS
#if defined(__SSE2__)
TRIRAST_INLINE DoublePart low_doubles(IntegerPart x) noexcept { return DoublePart(_mm_cvtepi32_pd(__m128i(x))); }
TRIRAST_INLINE DoublePart high_doubles(IntegerPart x) noexcept {
    return DoublePart(_mm_cvtepi32_pd(_mm_shuffle_epi32(__m128i(x), 0xEE)));
}
#else
TRIRAST_INLINE DoublePart low_doubles(IntegerPart x) noexcept {
    return __builtin_convertvector(__builtin_shufflevector(x, x, 0, 1), DoublePart);
}
TRIRAST_INLINE DoublePart high_doubles(IntegerPart x) noexcept {
    return __builtin_convertvector(__builtin_shufflevector(x, x, 2, 3), DoublePart);
}
#endif
TRIRAST_INLINE FloatPart joined(DoublePart low, DoublePart high) noexcept {
    const HalfPart a = __builtin_convertvector(low, HalfPart), b = __builtin_convertvector(high, HalfPart);
    return __builtin_shufflevector(a, b, 0, 1, 2, 3);
}
TRIRAST_INLINE Doubles to_doubles(const Integers &v) noexcept {
    return {{low_doubles(v.part[0]), high_doubles(v.part[0]), low_doubles(v.part[1]), high_doubles(v.part[1])}};
}
TRIRAST_INLINE Floats to_floats(const Doubles &v) noexcept {
    Floats found;
    found.part[0] = joined(v.part[0], v.part[1]), found.part[1] = joined(v.part[2], v.part[3]);
    return found;
}
#else
TRIRAST_INLINE Doubles to_doubles(const Integers &v) noexcept {
    return made<Doubles>([](std::int32_t x) { return static_cast<double>(x); }, v);
}
TRIRAST_INLINE Floats to_floats(const Doubles &v) noexcept {
    return made<Floats>([](double x) { return static_cast<float>(x); }, v);
}
#endif

} // namespace detail

/* ---- Masks ---- */

/* Of each lane `first` where the mask is -1, and `other` where it is 0. */
TRIRAST_INLINE Integers choose(const Integers &mask, const Integers &first, const Integers &other) noexcept {
    return (mask & first) | (~mask & other);
}
TRIRAST_INLINE Floats choose(const Integers &mask, const Floats &first, const Floats &other) noexcept {
    return floats_of_bits(choose(mask, bits_of(first), bits_of(other)));
}
TRIRAST_INLINE Floats choose(const Integers &mask, float first, float other) noexcept {
    return choose(mask, Floats(first), Floats(other));
}
TRIRAST_INLINE Integers choose(const Integers &mask, std::int32_t first, std::int32_t other) noexcept {
    return choose(mask, Integers(first), Integers(other));
}

/* Bit k is 1 where lane k of the mask is -1. */
TRIRAST_INLINE unsigned bits(const Integers &mask) noexcept {
#if TRIRAST_VECTORS && defined(__AVX__)
    return static_cast<unsigned>(_mm256_movemask_ps(detail::loaded<__m256>(&mask)));
#elif TRIRAST_VECTORS && defined(__SSE2__)
    return static_cast<unsigned>(_mm_movemask_ps(detail::loaded<__m128>(&mask.part[0]))) |
           static_cast<unsigned>(_mm_movemask_ps(detail::loaded<__m128>(&mask.part[1]))) << 4;
#else
    unsigned found = 0;
    for (std::size_t lane = 0; lane < lane_count; lane++) found |= static_cast<unsigned>(mask[lane] < 0) << lane;
    return found;
#endif
}

/* Whether the mask is -1 in a lane. */
TRIRAST_INLINE bool any(const Integers &mask) noexcept { return bits(mask) != 0; }

/* Whether all lanes are the same number. */
TRIRAST_INLINE bool are_alike(const Integers &v) noexcept { return bits(v == v[0]) == (1u << lane_count) - 1; }

namespace detail {

/* The first lane whose bit is 1, of which there is one. */
TRIRAST_INLINE std::size_t first_lane(unsigned bits) noexcept {
#if defined(__GNUC__)
    return static_cast<std::size_t>(__builtin_ctz(bits));
#else
    std::size_t lane = 0;
    while (!(bits >> lane & 1)) lane++;
    return lane;
#endif
}

} // namespace detail

/* ---- Functions ---- */

/* The lesser and the greater number of each lane; b if one is not a number. */
TRIRAST_INLINE Floats min(const Floats &a, const Floats &b) noexcept {
#if TRIRAST_VECTORS && defined(__AVX__)
    const auto of = [](auto x, auto y) { return detail::FloatPart(_mm256_min_ps(__m256(x), __m256(y))); };
    return detail::made<Floats>(of, a, b);
#elif TRIRAST_VECTORS && defined(__SSE2__)
    const auto of = [](auto x, auto y) { return detail::FloatPart(_mm_min_ps(__m128(x), __m128(y))); };
    return detail::made<Floats>(of, a, b);
#else
    return choose(a < b, a, b);
#endif
}
TRIRAST_INLINE Floats max(const Floats &a, const Floats &b) noexcept {
#if TRIRAST_VECTORS && defined(__AVX__)
    const auto of = [](auto x, auto y) { return detail::FloatPart(_mm256_max_ps(__m256(x), __m256(y))); };
    return detail::made<Floats>(of, a, b);
#elif TRIRAST_VECTORS && defined(__SSE2__)
    const auto of = [](auto x, auto y) { return detail::FloatPart(_mm_max_ps(__m128(x), __m128(y))); };
    return detail::made<Floats>(of, a, b);
#else
    return choose(b < a, a, b);
#endif
}

/* The greatest whole numbers that are not above the numbers, which have to be within -2^31 to below 2^31. */
TRIRAST_INLINE Floats floor(const Floats &v) noexcept {
#if TRIRAST_VECTORS && defined(__AVX__)
    return detail::made<Floats>([](auto x) { return detail::FloatPart(_mm256_floor_ps(__m256(x))); }, v);
#elif TRIRAST_VECTORS && defined(__SSE4_1__)
    return detail::made<Floats>([](auto x) { return detail::FloatPart(_mm_floor_ps(__m128(x))); }, v);
#else
    /* -0 stays what it is. */
    return floats_of_bits(bits_of(to_floats(floor_to_integers(v))) | (bits_of(v) & INT32_MIN));
#endif
}

TRIRAST_INLINE Floats sqrt(const Floats &v) noexcept {
    Floats found;
#if TRIRAST_VECTORS && defined(__AVX__)
    const __m256 root = _mm256_sqrt_ps(detail::loaded<__m256>(&v));
    std::memcpy(&found, &root, sizeof found);
#elif TRIRAST_VECTORS && defined(__SSE2__)
    const __m128 roots[2] = {_mm_sqrt_ps(detail::loaded<__m128>(&v.part[0])),
                             _mm_sqrt_ps(detail::loaded<__m128>(&v.part[1]))};
    std::memcpy(&found, roots, sizeof found);
#else
    float numbers[lane_count];
    v.store(numbers);
    for (float &number : numbers) number = std::sqrt(number);
    found = Floats::load(numbers);
#endif
    return found;
}

/* ---- From arrays ---- */

/* Of each lane the number of this index. Indices are not negative. Tables of floats are looked up by their bits, which
 * floats_of_bits turns back, or by take_four. */
TRIRAST_INLINE Integers gather(const std::uint32_t *from, const Integers &index) noexcept {
    const auto at = [&](std::size_t lane) {
        return static_cast<std::int32_t>(from[static_cast<std::uint32_t>(index[lane])]);
    };
    const std::int32_t found[lane_count] = {at(0), at(1), at(2), at(3), at(4), at(5), at(6), at(7)};
#if TRIRAST_VECTORS && defined(__AVX__)
    Integers joined;
    joined.part[0] =
        detail::IntegerPart{found[0], found[1], found[2], found[3], found[4], found[5], found[6], found[7]};
    return joined;
#elif TRIRAST_VECTORS
    Integers joined;
    joined.part[0] = detail::IntegerPart{found[0], found[1], found[2], found[3]};
    joined.part[1] = detail::IntegerPart{found[4], found[5], found[6], found[7]};
    return joined;
#else
    return Integers::load(found);
#endif
}

/* Of each lane the one of eight numbers whose index, 0 to 7, it has. */
TRIRAST_INLINE Integers look_up(const Integers &eight, const Integers &index) noexcept {
#if TRIRAST_VECTORS && defined(__AVX2__)
    const auto of = [](auto x, auto y) {
        return detail::IntegerPart(_mm256_permutevar8x32_epi32(__m256i(x), __m256i(y)));
    };
    return detail::made<Integers>(of, eight, index);
#else
    std::uint32_t numbers[lane_count];
    eight.store(numbers);
    return gather(numbers, index);
#endif
}

namespace detail {

#if TRIRAST_VECTORS
/* Rows of four numbers as four vectors, one for each column; of parts with eight lanes the rows of both halves. */
template <class Part>
TRIRAST_INLINE void turn(Part &a, Part &b, Part &c, Part &d) noexcept {
#if defined(__AVX__)
    const Part ab = __builtin_shufflevector(a, b, 0, 8, 1, 9, 4, 12, 5, 13),
               cd = __builtin_shufflevector(c, d, 0, 8, 1, 9, 4, 12, 5, 13),
               ab_high = __builtin_shufflevector(a, b, 2, 10, 3, 11, 6, 14, 7, 15),
               cd_high = __builtin_shufflevector(c, d, 2, 10, 3, 11, 6, 14, 7, 15);
    a = __builtin_shufflevector(ab, cd, 0, 1, 8, 9, 4, 5, 12, 13);
    b = __builtin_shufflevector(ab, cd, 2, 3, 10, 11, 6, 7, 14, 15);
    c = __builtin_shufflevector(ab_high, cd_high, 0, 1, 8, 9, 4, 5, 12, 13);
    d = __builtin_shufflevector(ab_high, cd_high, 2, 3, 10, 11, 6, 7, 14, 15);
#else
    const Part ab = __builtin_shufflevector(a, b, 0, 4, 1, 5), ab_high = __builtin_shufflevector(a, b, 2, 6, 3, 7),
               cd = __builtin_shufflevector(c, d, 0, 4, 1, 5), cd_high = __builtin_shufflevector(c, d, 2, 6, 3, 7);
    a = __builtin_shufflevector(ab, cd, 0, 1, 4, 5), b = __builtin_shufflevector(ab, cd, 2, 3, 6, 7);
    c = __builtin_shufflevector(ab_high, cd_high, 0, 1, 4, 5);
    d = __builtin_shufflevector(ab_high, cd_high, 2, 3, 6, 7);
#endif
}
#endif

/* take_four of numbers of one kind, of which `Lanes` are eight. */
template <class Number, class Lanes>
TRIRAST_INLINE void take_four_of(const Number *rows, std::size_t stride, const Integers &row, std::size_t first,
                                 Lanes *found) noexcept {
    std::uint32_t index[lane_count]; /* through memory: single lanes are slow to take out of a vector */
    row.store(index);
    /* In bytes, so that the places of rows are computed once if more of them is taken. */
    const unsigned char *bytes = reinterpret_cast<const unsigned char *>(rows) + first * sizeof(Number);
    const auto from = [&](std::size_t lane) { return bytes + stride * sizeof(Number) * index[lane]; };
#if TRIRAST_VECTORS && defined(__AVX__)
    using Part = std::decay_t<decltype(found->part[0])>;
    for (std::size_t k = 0; k < 4; k++)
        found[k].part[0] = Part(_mm256_insertf128_ps(
            _mm256_castps128_ps256(loaded<__m128>(from(k))), loaded<__m128>(from(k + 4)), 1));
    turn(found[0].part[0], found[1].part[0], found[2].part[0], found[3].part[0]);
#elif TRIRAST_VECTORS
    using Part = std::decay_t<decltype(found->part[0])>;
    for (std::size_t half = 0; half < 2; half++) {
        for (std::size_t k = 0; k < 4; k++) found[k].part[half] = loaded<Part>(from(4 * half + k));
        turn(found[0].part[half], found[1].part[half], found[2].part[half], found[3].part[half]);
    }
#else
    for (std::size_t k = 0; k < 4; k++)
        for (std::size_t lane = 0; lane < lane_count; lane++)
            std::memcpy(&found[k].part[lane], from(lane) + k * sizeof(Number), sizeof(Number));
#endif
}

/* Of each eight bits the numbers of those that are 1, in their order, and the last one again behind them. */
struct LaneOrders {
    std::uint8_t of[1 << lane_count][lane_count];

    constexpr LaneOrders() : of() {
        for (std::size_t bits = 0; bits < 1 << lane_count; bits++)
            for (std::size_t lane = 0, n = 0; lane < lane_count; lane++)
                if (bits >> lane & 1)
                    for (std::size_t k = n++; k < lane_count; k++) of[bits][k] = static_cast<std::uint8_t>(lane);
    }
};
inline constexpr LaneOrders lane_orders;

/* The lanes whose bits are 1, by their numbers: look_up moves what they have to the front. */
TRIRAST_INLINE Integers lanes_of(unsigned bits) noexcept {
    std::int32_t found[lane_count];
    for (std::size_t k = 0; k < lane_count; k++) found[k] = lane_orders.of[bits][k];
    return Integers::load(found);
}

} // namespace detail

/* Takes four numbers from each of eight rows: found[k] has number `first + k` of the row of each lane. A row begins
 * `stride` numbers behind the one before; rows are not negative. */
TRIRAST_INLINE void take_four(const float *rows, std::size_t stride, const Integers &row, std::size_t first,
                              Floats *found) noexcept {
    detail::take_four_of(rows, stride, row, first, found);
}
TRIRAST_INLINE void take_four(const std::uint32_t *rows, std::size_t stride, const Integers &row, std::size_t first,
                              Integers *found) noexcept {
    detail::take_four_of(rows, stride, row, first, found);
}

} // namespace trirast

#endif
