// Document 01, "Frame and weights", "Draw" and "Rotation", and document 02, [1], [2], [8] and [14], in plain C++.
#include "baseline.hpp"

#include <algorithm>

namespace {

constexpr uint32_t kRange = 1000000;
constexpr uint64_t kMostTurnover = 1000000000000;
constexpr size_t kMostFrame = 16384;
constexpr size_t kMostPanel = 100;
constexpr uint32_t kSteps = 1000;

bool rising(const std::vector<uint32_t>& numbers) {
    for (size_t i = 1; i < numbers.size(); i++) {
        if (numbers[i] <= numbers[i - 1]) return false;
    }
    return true;
}

bool bad_turnovers(const std::vector<uint64_t>& turnovers) {
    uint64_t total = 0;
    for (uint64_t t : turnovers) {
        if (t == 0 || t > kMostTurnover - total) return true;
        total += t;
    }
    return false;
}

// Refusals 1 to 5.
int judge(const Frame& f, size_t z, uint32_t start) {
    const size_t units = f.size();
    if (f.numbers.size() != units || f.randoms.size() != units || units == 0 || units > kMostFrame) return 1;
    if (!rising(f.numbers)) return 2;
    if (bad_turnovers(f.turnovers)) return 3;
    for (uint32_t r : f.randoms) {
        if (r >= kRange) return 4;
    }
    if (start >= kRange) return 4;
    if (z == 0 || z > kMostPanel || z > units) return 5;
    return 0;
}

// The take-all group: a mark for each unit, n and X.
struct Group {
    std::vector<uint8_t> marks;
    uint64_t n = 0;
    uint64_t rest = 0;
};

Group take_all(const std::vector<uint64_t>& turnovers, size_t z) {
    std::vector<uint32_t> order(turnovers.size());
    for (uint32_t i = 0; i < order.size(); i++) order[i] = i;
    const auto larger = [&](uint32_t a, uint32_t b) {
        return turnovers[a] != turnovers[b] ? turnovers[a] > turnovers[b] : a < b;
    };
    std::partial_sort(order.begin(), order.begin() + z, order.end(), larger);
    uint64_t rest = 0;
    for (uint64_t t : turnovers) rest += t;
    // "(z − q) × turnover ≥ X holds for at most q units": it fails for the (q + 1)-th largest.
    size_t q = 0;
    while (q < z && (z - q) * turnovers[order[q]] >= rest) rest -= turnovers[order[q++]];
    Group g;
    g.marks.assign(turnovers.size(), 0);
    for (size_t k = 0; k < q; k++) g.marks[order[k]] = 1;
    g.n = z - q;
    g.rest = g.n == 0 ? 0 : rest;
    return g;
}

uint64_t shifted(uint32_t random, uint32_t start) {
    return random < start ? random + kRange - start : random - start;
}

// A unit outside take-all and its Pareto key. The gap X − n × turnover does not depend on the start.
struct Pareto {
    uint64_t num;
    uint64_t den;
    uint64_t gap;
    uint64_t turnover;
    uint32_t random;
    uint32_t unit;

    static Pareto of(const Group& g, uint64_t t, uint32_t random, uint32_t unit) { return {0, 0, g.rest - g.n * t, t, random, unit}; }

    void move_to(uint32_t start) {
        const uint64_t r = shifted(random, start);
        num = r * gap;
        den = (kRange - r) * turnover;
    }

    bool operator<(const Pareto& other) const {
        const auto left = static_cast<unsigned __int128>(num) * other.den;
        const auto right = static_cast<unsigned __int128>(other.num) * den;
        return left != right ? left < right : unit < other.unit;
    }
};

// The same with its sequential Poisson key, r over turnover: a cross product is below 10^18 and fits 64 bits.
struct Poisson {
    uint64_t r;
    uint64_t turnover;
    uint32_t random;
    uint32_t unit;

    static Poisson of(const Group&, uint64_t t, uint32_t random, uint32_t unit) { return {0, t, random, unit}; }

    void move_to(uint32_t start) { r = shifted(random, start); }

    bool operator<(const Poisson& other) const {
        const uint64_t left = r * other.turnover;
        const uint64_t right = other.r * turnover;
        return left != right ? left < right : unit < other.unit;
    }
};

template <class Candidate>
std::vector<Candidate> candidates(const Frame& f, const Group& g) {
    std::vector<Candidate> all;
    all.reserve(f.size());
    for (uint32_t i = 0; i < f.size(); i++) {
        if (!g.marks[i]) all.push_back(Candidate::of(g, f.turnovers[i], f.randoms[i], i));
    }
    return all;
}

// 25 and 26, in this order; 0 if neither applies.
int judge_births(const Frame& f, const Births& b) {
    if (b.n > kMostPanel || b.rest > kMostTurnover || (b.rest == 0 && b.n != 0)) return 25;
    if (b.units.size() > kMostFrame || !rising(b.units)) return 26;
    return std::includes(f.numbers.begin(), f.numbers.end(), b.units.begin(), b.units.end()) ? 0 : 26;
}

// Members by unit: old panel units in the frame and not take-all now, and the births outside take-all that join. All lists rise.
std::vector<uint32_t> members_of(const Frame& f, const Group& g, uint32_t start, const std::vector<uint32_t>& old_panel, const Births& b) {
    std::vector<uint32_t> members;
    members.reserve(old_panel.size() + b.units.size());
    size_t old = 0, born = 0;
    for (uint32_t i = 0; i < f.size(); i++) {
        while (old < old_panel.size() && old_panel[old] < f.numbers[i]) old++;
        while (born < b.units.size() && b.units[born] < f.numbers[i]) born++;
        if (g.marks[i]) continue;
        if (old < old_panel.size() && old_panel[old] == f.numbers[i]) {
            members.push_back(i);
        } else if (born < b.units.size() && b.units[born] == f.numbers[i]) {
            const auto left = static_cast<unsigned __int128>(shifted(f.randoms[i], start)) * b.rest;
            const auto right = static_cast<unsigned __int128>(kRange) * b.n * f.turnovers[i];
            if (left < right) members.push_back(i);
        }
    }
    return members;
}

// Brings the n with the smallest keys to the front; equal keys by lower unit number.
template <class Candidate>
void select(std::vector<Candidate>& all, size_t n, uint32_t start) {
    for (Candidate& c : all) c.move_to(start);
    if (n < all.size()) std::nth_element(all.begin(), all.begin() + n, all.end());
}

template <class Candidate>
Panel draw_by(const Frame& f, size_t z, uint32_t start) {
    Panel panel;
    panel.refusal = judge(f, z, start);
    if (panel.refusal != 0) return panel;
    const Group g = take_all(f.turnovers, z);
    std::vector<uint8_t> drawn = g.marks;
    if (g.n > 0) {
        std::vector<Candidate> all = candidates<Candidate>(f, g);
        select(all, g.n, start);
        for (size_t k = 0; k < g.n; k++) drawn[all[k].unit] = 1;
    }
    panel.n = g.n;
    panel.rest = g.rest;
    for (size_t i = 0; i < f.size(); i++) {
        if (!drawn[i]) continue;
        panel.numbers.push_back(f.numbers[i]);
        panel.weights.push_back(g.n == 0 ? f.turnovers[i] : g.marks[i] ? g.n * f.turnovers[i] : g.rest);
    }
    return panel;
}

template <class Candidate>
Turn rotate_by(const Frame& f, size_t z, uint32_t start, const std::vector<uint32_t>& old_panel, uint32_t fraction, const Births& births) {
    Turn turn;
    turn.refusal = judge(f, z, start);
    if (turn.refusal != 0) return turn;
    if (fraction > 1000 || old_panel.size() > kMostPanel || !rising(old_panel)) {
        turn.refusal = 7;
        return turn;
    }
    turn.refusal = judge_births(f, births);
    if (turn.refusal != 0) return turn;
    const Group g = take_all(f.turnovers, z);
    std::vector<uint32_t> members = members_of(f, g, start, old_panel, births);
    const size_t wanted = (fraction * members.size() + 999) / 1000;
    std::vector<Candidate> all;
    if (g.n > 0) all = candidates<Candidate>(f, g);
    std::vector<uint8_t> sampled(f.size());
    for (uint32_t step = 0; step < kSteps; step++) {
        const uint32_t at = (start + 1000 * step) % kRange;
        std::fill(sampled.begin(), sampled.end(), 0);
        if (g.n > 0) {
            select(all, g.n, at);
            for (size_t k = 0; k < g.n; k++) sampled[all[k].unit] = 1;
        }
        size_t leaving = 0;
        for (uint32_t unit : members) leaving += !sampled[unit];
        if (leaving < wanted) continue;
        turn.step = step;
        turn.start = at;
        members.erase(std::remove_if(members.begin(), members.end(), [&](uint32_t unit) { return sampled[unit] != 0; }), members.end());
        // By falling turnover, equal turnovers by lower unit number.
        std::sort(members.begin(), members.end(), [&](uint32_t a, uint32_t b) {
            return f.turnovers[a] != f.turnovers[b] ? f.turnovers[a] > f.turnovers[b] : a < b;
        });
        for (uint32_t unit : members) turn.leavers.push_back(f.numbers[unit]);
        return turn;
    }
    turn.refusal = 8;
    return turn;
}

}  // namespace

Panel baseline::draw(const Frame& f, size_t z, uint32_t start) {
    return draw_by<Pareto>(f, z, start);
}

Turn baseline::rotate(const Frame& f, size_t z, uint32_t start, const std::vector<uint32_t>& old_panel, uint32_t fraction, const Births& births) {
    return rotate_by<Pareto>(f, z, start, old_panel, fraction, births);
}

Panel baseline::draw_poisson(const Frame& f, size_t z, uint32_t start) {
    return draw_by<Poisson>(f, z, start);
}

Turn baseline::rotate_poisson(const Frame& f, size_t z, uint32_t start, const std::vector<uint32_t>& old_panel, uint32_t fraction, const Births& births) {
    return rotate_by<Poisson>(f, z, start, old_panel, fraction, births);
}

// ---- document 02, [14]: registers as comma lines

namespace {

using Byte = unsigned char;

bool is_digit(Byte c) {
    return static_cast<unsigned>(c - '0') <= 9;
}

// A field of 1 to 20 digits that is at most `most`: the byte after it, or null. 19 digits cannot wrap, so only a twentieth is tested.
const Byte* read_field(const Byte* p, const Byte* end, uint64_t most, uint64_t& value) {
    const Byte* const from = p;
    const Byte* const safe = end - p > 19 ? p + 19 : end;
    uint64_t v = 0;
    while (p < safe && is_digit(*p)) v = v * 10 + (*p++ - '0');
    if (p == from) return nullptr;
    if (p - from == 19 && p < end && is_digit(*p)) {
        const unsigned digit = *p++ - '0';
        if (v > (UINT64_MAX - digit) / 10) return nullptr;
        v = v * 10 + digit;
        if (p < end && is_digit(*p)) return nullptr;
    }
    if (v > most) return nullptr;
    value = v;
    return p;
}

struct Line {
    uint64_t number, turnover, random;
};

// A line and its end: the byte after it, or null.
const Byte* read_line(const Byte* p, const Byte* end, Line& line) {
    p = read_field(p, end, UINT32_MAX, line.number);
    if (p == nullptr || p == end || *p != ',') return nullptr;
    p = read_field(p + 1, end, UINT64_MAX, line.turnover);
    if (p == nullptr || p == end || *p != ',') return nullptr;
    p = read_field(p + 1, end, UINT32_MAX, line.random);
    if (p == nullptr || p == end) return p;
    if (*p == '\n') return p + 1;
    return *p == '\r' && end - p > 1 && p[1] == '\n' ? p + 2 : nullptr;
}

// Judges all lines, then stores each.
template <class Store>
void import_with(Import& result, const std::string& text, size_t places, Store store) {
    const Byte* const from = reinterpret_cast<const Byte*>(text.data());
    const Byte* const end = from + text.size();
    Line line;
    size_t lines = 0;
    for (const Byte* p = from; p < end; lines++) {
        const Byte* const next = read_line(p, end, line);
        if (next == nullptr) {
            result.refusal = 34;
            result.offset = static_cast<uint64_t>(p - from);
            return;
        }
        p = next;
    }
    if (lines > places) {
        result.refusal = 35;
        return;
    }
    const Byte* p = from;
    for (size_t i = 0; i < lines; i++) {
        p = read_line(p, end, line);
        store(i, line);
    }
    result.count = lines;
}

}  // namespace

Import baseline::import_lines(const std::string& text, size_t places) {
    Import result;
    result.lists.numbers.resize(places);
    result.lists.turnovers.resize(places);
    result.lists.randoms.resize(places);
    import_with(result, text, places, [&](size_t i, const Line& line) {
        result.lists.numbers[i] = static_cast<uint32_t>(line.number);
        result.lists.turnovers[i] = line.turnover;
        result.lists.randoms[i] = static_cast<uint32_t>(line.random);
    });
    return result;
}

Import baseline::import_units(const std::string& text, size_t places) {
    Import result;
    result.units.resize(places);
    import_with(result, text, places, [&](size_t i, const Line& line) {
        result.units[i] = {static_cast<uint32_t>(line.number), line.turnover, static_cast<uint32_t>(line.random)};
    });
    return result;
}
