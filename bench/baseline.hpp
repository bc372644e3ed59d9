// Draw, rotation and import as a C++ programmer would write them: 128-bit cross products, std::nth_element, a pass that judges and one that writes. What the proved code is timed against.
#pragma once
#include <string>

#include "frames.hpp"

// A refusal's number, or 0 with n, the rest turnover X, and the panel in rising order with its base weights.
struct Panel {
    int refusal = 0;
    uint64_t n = 0;
    uint64_t rest = 0;
    std::vector<uint32_t> numbers;
    std::vector<uint64_t> weights;
};

// The previous draw's n and X, and the unit numbers of births.
struct Births {
    size_t n = 0;
    uint64_t rest = 0;
    std::vector<uint32_t> units;
};

// A refusal's number, or 0 with the step, the new start and the leavers by falling turnover.
struct Turn {
    int refusal = 0;
    uint32_t step = 0;
    uint32_t start = 0;
    std::vector<uint32_t> leavers;
};

struct Unit {
    uint32_t number;
    uint64_t turnover;
    uint32_t random;
};

// A refusal's number, or 0 with the count; the offset of the first bad line with 34. Three lists or a list of units, as long as they were lent.
struct Import {
    int refusal = 0;
    uint64_t count = 0;
    uint64_t offset = 0;
    Frame lists;
    std::vector<Unit> units;
};

namespace baseline {
Panel draw(const Frame& frame, size_t z, uint32_t start);
Turn rotate(const Frame& frame, size_t z, uint32_t start, const std::vector<uint32_t>& old_panel, uint32_t fraction, const Births& births);
Panel draw_poisson(const Frame& frame, size_t z, uint32_t start);
Turn rotate_poisson(const Frame& frame, size_t z, uint32_t start, const std::vector<uint32_t>& old_panel, uint32_t fraction, const Births& births);
Import import_lines(const std::string& text, size_t places);
Import import_units(const std::string& text, size_t places);
}
