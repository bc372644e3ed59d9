// Frames to measure on. The generator is a fixed linear congruence, so that every implementation and every machine sees the same frames.
#pragma once
#include <cstddef>
#include <cstdint>
#include <utility>
#include <vector>

struct Frame {
    std::vector<uint32_t> numbers;
    std::vector<uint64_t> turnovers;
    std::vector<uint32_t> randoms;

    size_t size() const { return turnovers.size(); }
};

// Knuth's MMIX constants; the high half is used, the low bits of such a generator being poor.
class Lcg {
public:
    explicit Lcg(uint64_t seed) : state_(seed) {}

    uint32_t below(uint32_t limit) {
        state_ = state_ * 6364136223846793005u + 1442695040888963407u;
        return static_cast<uint32_t>((state_ >> 32) * limit >> 32);
    }

private:
    uint64_t state_;
};

enum class Shape {
    Uniform,  // turnovers and random numbers uniform
    Skewed,   // turnovers as 1/k, as carriers are: a take-all group, and a long tail
    Equal,    // equal turnovers and four random numbers: nearly every comparison is a tie
    Falling,  // equal turnovers, random numbers falling with the unit number: each unit beats all before it
    Steady,   // one unit just short of take-all, which no start moves out: a rotation with f = 1,000 tries every step
};

constexpr Shape kShapes[] = {Shape::Uniform, Shape::Skewed, Shape::Equal, Shape::Falling, Shape::Steady};

inline const char* name(Shape shape) {
    switch (shape) {
    case Shape::Uniform: return "uniform";
    case Shape::Skewed: return "skewed";
    case Shape::Equal: return "equal";
    case Shape::Falling: return "falling";
    case Shape::Steady: return "steady";
    }
    return "?";
}

// A frame of `units` units that no refusal stops, for panels of `z`.
inline Frame make_frame(Shape shape, uint32_t units, uint32_t z, uint64_t seed) {
    constexpr uint32_t kRange = 1000000;
    constexpr uint64_t kTotal = 900000000000;  // within 10^12, with room for rounding
    const uint64_t even = kTotal / units;
    Lcg lcg(seed);
    Frame frame;
    uint32_t number = 0;
    for (uint32_t i = 0; i < units; i++) {
        number += 1 + lcg.below(9);
        uint64_t turnover = even;
        uint32_t random = lcg.below(kRange);
        switch (shape) {
        case Shape::Uniform: turnover = 1 + lcg.below(static_cast<uint32_t>(even)); break;
        case Shape::Skewed: turnover = 1 + 80000000000 / (i + 1); break;
        case Shape::Equal: random = lcg.below(4) * 250000; break;
        case Shape::Falling: random = kRange - 1 - i * (kRange / units); break;
        case Shape::Steady: turnover = 1 + lcg.below(static_cast<uint32_t>(even) / 4); break;
        }
        frame.numbers.push_back(number);
        frame.turnovers.push_back(turnover);
        frame.randoms.push_back(random);
    }
    if (shape == Shape::Skewed) {  // shuffled, so that size does not follow the unit number
        for (uint32_t i = units; i > 1; i--) std::swap(frame.turnovers[i - 1], frame.turnovers[lcg.below(i)]);
    }
    if (shape == Shape::Steady && units > z && z > 1) {
        // With n = z, n × t must stay below X = others + t: the largest such t is (others − 1) / (n − 1). One less keeps it sampled.
        uint64_t others = 0;
        for (uint32_t i = 1; i < units; i++) others += frame.turnovers[i];
        frame.turnovers[0] = (others - 1) / (z - 1);
        frame.randoms[0] = kRange / 2 + 499;  // never 999,999 after a shift by whole thousands
    }
    return frame;
}
