// A draw with two previous take-all lists of 100 beside the base draw of the same frame (document 02, [9]), by turns in one run. The answer is held against
// a plain C++ reckoning of the group that is kept.
#pragma once
#include <algorithm>
#include <cstdio>
#include <set>

#include "baseline.hpp"
#include "proved.hpp"

namespace kept {

using Numbers = std::vector<uint32_t>;

inline Panel draw(const Frame& frame, size_t z, uint32_t start, uint32_t threshold, const Numbers& first, const Numbers& second) {
    Panel p;
    p.numbers.resize(z);
    p.weights.resize(z);
    const vougecress_drawn answer =
        vougecress_draw_kept(frame.numbers.data(), frame.numbers.size(), frame.turnovers.data(), frame.turnovers.size(), frame.randoms.data(), frame.randoms.size(), z,
                             start, threshold, first.data(), first.size(), second.data(), second.size(), p.numbers.data(), z, p.weights.data(), z);
    p.refusal = static_cast<int>(answer.refusal);
    p.n = answer.n;
    p.rest = answer.rest;
    return p;
}

// n and X of the enlarged group, and that every kept unit is in the panel: n and X of the base draw, the listed units near the border, the largest n of them.
inline bool agrees(const Frame& frame, const Panel& base, const Panel& panel, uint32_t threshold, const Numbers& first, const Numbers& second) {
    std::set<uint32_t> listed(first.begin(), first.end());
    listed.insert(second.begin(), second.end());
    std::vector<std::pair<uint64_t, uint32_t>> near;
    for (size_t i = 0; i < frame.size(); i++)
        if (listed.count(frame.numbers[i]) && base.n * frame.turnovers[i] < base.rest && 1000 * base.n * frame.turnovers[i] >= threshold * base.rest)
            near.push_back({~frame.turnovers[i], frame.numbers[i]});
    std::sort(near.begin(), near.end());
    near.resize(std::min<size_t>(near.size(), base.n));
    uint64_t rest = base.rest;
    for (const auto& [turnover, number] : near) {
        rest -= ~turnover;
        if (!std::binary_search(panel.numbers.begin(), panel.numbers.end(), number)) return false;
    }
    return panel.refusal == 0 && panel.n == base.n - near.size() && panel.rest == (panel.n == 0 ? 0 : rest);
}

// The unit numbers of `count` units of the frame, from the `from`-th largest on.
inline Numbers largest(const Frame& frame, size_t from, size_t count) {
    std::vector<uint32_t> order(frame.size());
    for (uint32_t i = 0; i < order.size(); i++) order[i] = i;
    std::stable_sort(order.begin(), order.end(), [&](uint32_t a, uint32_t b) { return frame.turnovers[a] > frame.turnovers[b]; });
    Numbers numbers;
    for (size_t k = from; k < from + count; k++) numbers.push_back(frame.numbers[order[k]]);
    std::sort(numbers.begin(), numbers.end());
    return numbers;
}

// The middle of as many times, in microseconds, by turns.
template <class Base, class Kept>
void compare(const std::string& what, Base base, Kept with, bool same, int& faults) {
    std::vector<double> times[2];
    const auto timed = [](auto call, std::vector<double>& into) {
        const auto from = std::chrono::steady_clock::now();
        call();
        const std::chrono::duration<double, std::micro> took = std::chrono::steady_clock::now() - from;
        into.push_back(took.count());
    };
    for (int k = 0; k < 301; k++) {
        timed(base, times[0]);
        timed(with, times[1]);
    }
    for (auto& each : times) std::sort(each.begin(), each.end());
    if (!same) faults++;
    std::printf("%s  base %10.1f us  kept   %10.1f us  ratio %.2f (fastest %.2f)  %s\n", what.c_str(), times[0][150], times[1][150], times[1][150] / times[0][150],
                times[1].front() / times[0].front(), same ? "same answer" : "ANSWERS DIFFER");
}

// Two lists of 100, of the largest units and of those behind them, with a threshold that keeps all who are listed and one that keeps some; and no lists.
inline void measure(int& faults) {
    constexpr size_t z = 100;
    for (Shape shape : kShapes) {
        const Frame frame = make_frame(shape, 16384, z, 20160018);
        const Numbers first = largest(frame, 0, 100), second = largest(frame, 50, 100), none;
        const Panel base = proved::draw(frame, z, 123456);
        for (uint32_t threshold : {1u, 800u}) {
            char what[80];
            std::snprintf(what, sizeof what, "kept    %-8s  16384 units γ = %3u", name(shape), threshold);
            const bool same = agrees(frame, base, draw(frame, z, 123456, threshold, first, second), threshold, first, second);
            compare(what, [&] { return proved::draw(frame, z, 123456); }, [&] { return draw(frame, z, 123456, threshold, first, second); }, same, faults);
        }
    }
}

}  // namespace kept
