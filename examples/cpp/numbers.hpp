// Numbers by a seed, the same on every machine.
#ifndef NUMBERS_HPP
#define NUMBERS_HPP

#include <cstdint>

namespace scene {

// SplitMix64 (Steele, Lea and Flood, OOPSLA 2014).
class Numbers {
public:
    explicit Numbers(std::uint64_t seed) : state_(seed) {}
    std::uint64_t next() {
        std::uint64_t z = state_ += 0x9E3779B97F4A7C15u;
        z = (z ^ z >> 30) * 0xBF58476D1CE4E5B9u;
        z = (z ^ z >> 27) * 0x94D049BB133111EBu;
        return z ^ z >> 31;
    }
    double unit() { return static_cast<double>(next() >> 11) * 0x1p-53; }
    double within(double least, double greatest) { return least + (greatest - least) * unit(); }
    std::uint32_t below(std::uint32_t count) { return static_cast<std::uint32_t>(next() % count); }

private:
    std::uint64_t state_;
};

} // namespace scene

#endif
