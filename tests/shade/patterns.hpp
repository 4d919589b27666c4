// Where samples lie in a pixel: docs/rules.md.
#ifndef PATTERNS_HPP
#define PATTERNS_HPP

// For 1, 2, 4, 8 and 16 samples: right of and below the centre, in 1/16 pixel.
inline constexpr signed char PATTERNS[5][16][2] = {
    {{0, 0}},
    {{4, 4}, {-4, -4}},
    {{-2, -6}, {6, -2}, {-6, 2}, {2, 6}},
    {{1, -3}, {-1, 3}, {5, 1}, {-3, -5}, {-5, 5}, {-7, -1}, {3, 7}, {7, -7}},
    {{1, 1}, {-1, -3}, {-3, 2}, {4, -1}, {-5, -2}, {2, 5}, {5, 3}, {3, -5}, {-2, 6}, {0, -7}, {-4, -6}, {-6, 4},
     {-8, 0}, {7, -4}, {6, 7}, {-7, -8}}};

#endif
