#include "guarded.h"

// splitmix64 (Steele, Lea and Flood, 2014).
uint64_t next(numbers *from) {
    uint64_t z = from->state += 0x9E3779B97F4A7C15u;
    z = (z ^ z >> 30) * 0xBF58476D1CE4E5B9u;
    z = (z ^ z >> 27) * 0x94D049BB133111EBu;
    return z ^ z >> 31;
}

uint32_t below(numbers *from, uint32_t count) { return (uint32_t)(next(from) % count); }

int64_t between(numbers *from, int64_t least, int64_t greatest) {
    return least + (int64_t)(next(from) % (uint64_t)(greatest - least + 1));
}

int one_in(numbers *from, uint32_t times) { return below(from, times) == 0; }
