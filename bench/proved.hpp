// The proved library, called through its C interface, as an engine of the benchmark.
#pragma once
#include "../include/vougecress.h"
#include "baseline.hpp"

namespace proved {

template <class Call>
Panel drawn_by(Call call, const Frame& frame, size_t z, uint32_t start) {
    Panel p;
    p.numbers.resize(z);
    p.weights.resize(z);
    const vougecress_drawn answer = call(frame.numbers.data(), frame.numbers.size(), frame.turnovers.data(), frame.turnovers.size(),
                                         frame.randoms.data(), frame.randoms.size(), z, start, p.numbers.data(), z, p.weights.data(), z);
    p.refusal = static_cast<int>(answer.refusal);
    p.n = answer.n;
    p.rest = answer.rest;
    return p;
}

inline Panel draw(const Frame& frame, size_t z, uint32_t start) {
    return drawn_by(vougecress_draw, frame, z, start);
}

inline Panel draw_poisson(const Frame& frame, size_t z, uint32_t start) {
    return drawn_by(vougecress_draw_poisson, frame, z, start);
}

template <class Call>
Turn turned_by(Call call, const Frame& frame, size_t z, uint32_t start, const std::vector<uint32_t>& old_panel, uint32_t fraction, const Births& births) {
    Turn t;
    t.leavers.resize(old_panel.size() + births.units.size());
    const vougecress_rotated answer = call(frame.numbers.data(), frame.numbers.size(), frame.turnovers.data(), frame.turnovers.size(),
                                           frame.randoms.data(), frame.randoms.size(), z, start, old_panel.data(), old_panel.size(),
                                           fraction, births.n, births.rest, births.units.data(), births.units.size(), t.leavers.data(), t.leavers.size());
    t.refusal = static_cast<int>(answer.refusal);
    t.step = answer.k;
    t.start = answer.start;
    t.leavers.resize(answer.count);
    return t;
}

inline Turn rotate(const Frame& frame, size_t z, uint32_t start, const std::vector<uint32_t>& old_panel, uint32_t fraction, const Births& births) {
    return turned_by(vougecress_rotate, frame, z, start, old_panel, fraction, births);
}

inline Turn rotate_poisson(const Frame& frame, size_t z, uint32_t start, const std::vector<uint32_t>& old_panel, uint32_t fraction, const Births& births) {
    return turned_by(vougecress_rotate_poisson, frame, z, start, old_panel, fraction, births);
}

inline Import import_lines(const std::string& text, size_t places) {
    Import result;
    result.lists.numbers.resize(places);
    result.lists.turnovers.resize(places);
    result.lists.randoms.resize(places);
    const vougecress_register answer = vougecress_import(reinterpret_cast<const uint8_t*>(text.data()), text.size(), result.lists.numbers.data(), places,
                                                         result.lists.turnovers.data(), places, result.lists.randoms.data(), places);
    result.refusal = static_cast<int>(answer.refusal);
    result.count = answer.count;
    result.offset = answer.offset;
    return result;
}

inline Import import_units(const std::string& text, size_t places) {
    static_assert(sizeof(Unit) == sizeof(vougecress_unit), "one layout");
    Import result;
    result.units.resize(places);
    const vougecress_register answer = vougecress_import_units(reinterpret_cast<const uint8_t*>(text.data()), text.size(),
                                                               reinterpret_cast<vougecress_unit*>(result.units.data()), places);
    result.refusal = static_cast<int>(answer.refusal);
    result.count = answer.count;
    result.offset = answer.offset;
    return result;
}

}  // namespace proved
