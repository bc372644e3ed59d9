// Times the proved draw, rotation and import against the C++ ones, by turns in one run, and compares the answers.
// `bench check` runs document 01's cases K1 to K6 and K9, and a sequential Poisson draw and rotation, instead.
#include <algorithm>
#include <chrono>
#include <cstdio>
#include <cstring>
#include <string>

#include "baseline.hpp"
#include "kept.hpp"
#include "proved.hpp"

namespace {

int faults = 0;

struct Engine {
    const char* name;
    Panel (*draw)(const Frame&, size_t, uint32_t);
    Turn (*rotate)(const Frame&, size_t, uint32_t, const std::vector<uint32_t>&, uint32_t, const Births&);
    Panel (*draw_poisson)(const Frame&, size_t, uint32_t);
    Turn (*rotate_poisson)(const Frame&, size_t, uint32_t, const std::vector<uint32_t>&, uint32_t, const Births&);
    Import (*import_lines)(const std::string&, size_t);
    Import (*import_units)(const std::string&, size_t);
};

const Engine engines[2] = {
    {"c++", baseline::draw, baseline::rotate, baseline::draw_poisson, baseline::rotate_poisson, baseline::import_lines, baseline::import_units},
    {"rattle", proved::draw, proved::rotate, proved::draw_poisson, proved::rotate_poisson, proved::import_lines, proved::import_units}};

// ---- what two implementations must agree on, as one number

uint64_t mixed(uint64_t sum, uint64_t value) {
    return (sum ^ value) * 1099511628211u;
}

uint64_t digest(const Panel& p) {
    uint64_t sum = mixed(mixed(mixed(14695981039346656037u, p.refusal), p.n), p.rest);
    for (uint32_t number : p.numbers) sum = mixed(sum, number);
    for (uint64_t weight : p.weights) sum = mixed(sum, weight);
    return sum;
}

uint64_t digest(const Turn& t) {
    uint64_t sum = mixed(mixed(mixed(14695981039346656037u, t.refusal), t.step), t.start);
    for (uint32_t number : t.leavers) sum = mixed(sum, number);
    return sum;
}

uint64_t digest(const Import& result) {
    uint64_t sum = mixed(mixed(mixed(14695981039346656037u, result.refusal), result.count), result.offset);
    for (uint32_t number : result.lists.numbers) sum = mixed(sum, number);
    for (uint64_t turnover : result.lists.turnovers) sum = mixed(sum, turnover);
    for (uint32_t random : result.lists.randoms) sum = mixed(sum, random);
    for (const Unit& unit : result.units) sum = mixed(mixed(mixed(sum, unit.number), unit.turnover), unit.random);
    return sum;
}

// ---- timing

// The fastest and the middle time of an engine's calls, in microseconds, and the digest of its answer.
struct Timing {
    std::vector<double> times;
    uint64_t answer = 0;

    double fastest() const { return times.front(); }
    double middle() const { return times[times.size() / 2]; }
};

template <class Call>
void once(Timing& timing, Call call) {
    const auto from = std::chrono::steady_clock::now();
    const auto result = call();
    const std::chrono::duration<double, std::micro> took = std::chrono::steady_clock::now() - from;
    timing.times.push_back(took.count());
    timing.answer = digest(result);
}

// Both engines by turns on the same question, so that a busy machine slows both; one line with the ratio of the middle times.
template <class Call>
void compare(const std::string& what, int runs, Call call) {
    Timing timings[2];
    for (const Engine& engine : engines) call(engine);
    for (int k = 0; k < runs; k++)
        for (int e = 0; e < 2; e++) once(timings[e], [&] { return call(engines[e]); });
    for (Timing& timing : timings) std::sort(timing.times.begin(), timing.times.end());
    const bool same = timings[0].answer == timings[1].answer;
    if (!same) faults++;
    std::printf("%s  %s %10.1f us  %s %10.1f us  ratio %.2f (fastest %.2f)  %s\n", what.c_str(), engines[0].name, timings[0].middle(), engines[1].name,
                timings[1].middle(), timings[1].middle() / timings[0].middle(), timings[1].fastest() / timings[0].fastest(), same ? "same answer" : "ANSWERS DIFFER");
}

std::string row(const char* what, Shape shape, uint32_t units, size_t z) {
    char text[80];
    std::snprintf(text, sizeof text, "%-14s %-8s %6u units z = %3zu", what, name(shape), units, z);
    return text;
}

// ---- registers

// A frame as comma lines, every second one with a carriage return.
std::string lines_of(const Frame& frame) {
    std::string text;
    for (size_t i = 0; i < frame.size(); i++) {
        text += std::to_string(frame.numbers[i]) + ',' + std::to_string(frame.turnovers[i]) + ',' + std::to_string(frame.randoms[i]);
        text += i % 2 == 0 ? "\n" : "\r\n";
    }
    return text;
}

// A whole frame; and 100 MB that are refused, for the lines or for the last one.
void measure_import() {
    constexpr size_t places = 16384;
    const std::string whole = lines_of(make_frame(Shape::Skewed, places, 100, 20160018));
    std::string large;
    while (large.size() < 100000000) large += whole;
    const std::string broken = large + "1,2,3\r";
    compare("import  16,384 lines              ", 101, [&](const Engine& engine) { return engine.import_lines(whole, places); });
    compare("import  16,384 lines into units   ", 101, [&](const Engine& engine) { return engine.import_units(whole, places); });
    compare("import  100 MB, 35                ", 5, [&](const Engine& engine) { return engine.import_lines(large, places); });
    compare("import  100 MB, 34 at the last one", 5, [&](const Engine& engine) { return engine.import_lines(broken, places); });
}

// 10,000 births in a whole frame, of which X' lets a few hundred or nearly all join: a few starts, and all 1,000 of a steady panel.
void measure_births() {
    constexpr size_t z = 100;
    constexpr uint32_t units = 16384;
    for (Shape shape : {Shape::Skewed, Shape::Steady})
        for (const bool all : {false, true}) {
            const Frame frame = make_frame(shape, units, z, 20160018);
            uint64_t total = 0;
            for (uint64_t t : frame.turnovers) total += t;
            Births births = {z, all ? total / 10000000 + 1 : total / 5, {}};
            for (uint32_t i = 0; i < units; i++)
                if ((i + 1) * 10000 / units > i * 10000 / units) births.units.push_back(frame.numbers[i]);
            const std::vector<uint32_t> old_panel = baseline::draw(frame, z, 0).numbers;
            const uint32_t fraction = shape == Shape::Steady ? 1000 : all ? 991 : 700;
            const std::string what = row("births", shape, units, z) + (all ? ", nearly all join" : ", a few join    ");
            compare(what, 5, [&](const Engine& engine) { return engine.rotate(frame, z, 0, old_panel, fraction, births); });
        }
}

void measure() {
    for (uint32_t units : {1024u, 16384u})
        for (size_t z : {40u, 100u})
            for (Shape shape : kShapes) {
                const Frame frame = make_frame(shape, units, z, 20160018);
                compare(row("draw", shape, units, z), 101, [&](const Engine& engine) { return engine.draw(frame, z, 123456); });
                compare(row("draw poisson", shape, units, z), 101, [&](const Engine& engine) { return engine.draw_poisson(frame, z, 123456); });
            }
    // Half of the members leave soon; all of a steady panel never do, and every one of the 1,000 starts is tried.
    constexpr size_t z = 100;
    for (Shape shape : {Shape::Skewed, Shape::Steady}) {
        const Frame frame = make_frame(shape, 16384, z, 20160018);
        const std::vector<uint32_t> old_panel = baseline::draw(frame, z, 0).numbers;
        const uint32_t fraction = shape == Shape::Steady ? 1000 : 500;
        compare(row("rotate", shape, 16384, z), 3, [&](const Engine& engine) { return engine.rotate(frame, z, 0, old_panel, fraction, {}); });
        const std::vector<uint32_t> other_panel = baseline::draw_poisson(frame, z, 0).numbers;
        compare(row("rotate poisson", shape, 16384, z), 3,
                [&](const Engine& engine) { return engine.rotate_poisson(frame, z, 0, other_panel, fraction, {}); });
    }
    measure_births();
    kept::measure(faults);
    measure_import();
}

// ---- document 01's reference cases

void expect(bool holds, const Engine& engine, const char* which) {
    if (holds) return;
    std::printf("%s: %s differs\n", engine.name, which);
    faults++;
}

void check(const Engine& engine) {
    using Numbers = std::vector<uint32_t>;
    const Frame a = {{11, 12, 13, 14, 15}, {70000000, 10000000, 8000000, 7000000, 5000000}, {300000, 500000, 200000, 900000, 100000}};
    const Panel k1 = engine.draw(a, 3, 0);
    expect(k1.n == 2 && k1.rest == 30000000 && k1.numbers == Numbers{11, 13, 15}, engine, "K1");
    expect(k1.weights == std::vector<uint64_t>{140000000, 30000000, 30000000}, engine, "K1 weights");
    Frame b = a;
    b.randoms[4] = 220000;
    expect(engine.draw(b, 3, 0).numbers == Numbers{11, 12, 13}, engine, "K2");
    const Frame three = {{1, 2, 3}, {20, 10, 10}, {0, 0, 0}};
    expect(engine.draw(three, 2, 0).n == 1, engine, "K3");
    const Frame none = {{1, 2, 3}, {19, 11, 10}, {0, 0, 0}};
    expect(engine.draw(none, 2, 0).n == 2, engine, "K4");
    const Panel k5 = engine.draw({{7}, {10}, {5}}, 1, 0);
    expect(k5.n == 0 && k5.rest == 0 && k5.weights == std::vector<uint64_t>{10}, engine, "K5");
    const Turn k6 = engine.rotate(a, 3, 0, {13, 15}, 500, {});
    expect(k6.step == 101 && k6.leavers == Numbers{15}, engine, "K6");
    expect(engine.draw(a, 3, k6.start).numbers == Numbers{11, 12, 13}, engine, "K6 new panel");
    const Frame tie = {{1, 2, 3}, {10, 10, 10}, {500000, 500000, 500000}};
    expect(engine.draw(tie, 1, 0).numbers == Numbers{1}, engine, "K9");
    const Frame four = {{1, 2, 3, 4}, {50, 20, 50, 20}, {400000, 700000, 0, 100000}};
    expect(engine.draw_poisson(four, 2, 0).numbers == Numbers{3, 4}, engine, "the sequential Poisson draw");
    expect(engine.rotate_poisson(four, 2, 0, {1, 3}, 500, {}).leavers == Numbers{1}, engine, "the sequential Poisson rotation");
}

}  // namespace

int main(int argc, char** argv) {
    if (argc > 1 && std::strcmp(argv[1], "check") == 0) {
        for (const Engine& engine : engines) check(engine);
        std::printf("%d of the reference cases differ\n", faults);
    } else {
        measure();
    }
    return faults == 0 ? 0 : 1;
}
