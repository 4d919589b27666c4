// The factors of blend equations, and what each interface calls them. conformance/driver.py reads this table too.
#pragma once

#include <cstdint>

// A row has Direct3D 11's number of a factor; its number for alpha, since factors of colours are none for alpha there;
// its name in Vulkan without VK_BLEND_FACTOR_; and OpenGL's number.
// generated: factors
#define FACTORS(ROW)                        \
    ROW(1, 1, ZERO, 0x0000)                 \
    ROW(2, 2, ONE, 0x0001)                  \
    ROW(3, 5, SRC_COLOR, 0x0300)            \
    ROW(4, 6, ONE_MINUS_SRC_COLOR, 0x0301)  \
    ROW(5, 5, SRC_ALPHA, 0x0302)            \
    ROW(6, 6, ONE_MINUS_SRC_ALPHA, 0x0303)  \
    ROW(7, 7, DST_ALPHA, 0x0304)            \
    ROW(8, 8, ONE_MINUS_DST_ALPHA, 0x0305)  \
    ROW(9, 7, DST_COLOR, 0x0306)            \
    ROW(10, 8, ONE_MINUS_DST_COLOR, 0x0307) \
    ROW(11, 11, SRC_ALPHA_SATURATE, 0x0308) \
    ROW(14, 14, CONSTANT_COLOR, 0x8001)     \
    ROW(15, 15, ONE_MINUS_CONSTANT_COLOR, 0x8002)
// end of factors

// Direct3D 11's number of a factor for alpha, or 0 if there is no factor of this number.
inline uint32_t alpha_factor(uint32_t factor) {
    switch (factor) {
#define ROW(number, alpha, name, opengl) \
    case number: return alpha;
        FACTORS(ROW)
#undef ROW
    }
    return 0;
}
