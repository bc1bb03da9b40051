#include "stimuli.h"

#include <algorithm>

#include "contract.h"

namespace {

constexpr unsigned FEW_BITS = 13;          // so many input bits are run through
constexpr size_t MOST_COMBINATIONS = 4096; // of numbers
constexpr size_t SAMPLED_DIGITS = 150000;
constexpr unsigned POWER_UPS = 10;

// Numbers that look random and are the same in every run (splitmix64).
class Random {
    uint64_t state;

  public:
    explicit Random(uint64_t seed) : state(seed) {}
    uint64_t next() {
        uint64_t z = state += 0x9e3779b97f4a7c15u;
        z = (z ^ (z >> 30)) * 0xbf58476d1ce4e5b9u;
        z = (z ^ (z >> 27)) * 0x94d049bb133111ebu;
        return z ^ (z >> 31);
    }
    size_t below(size_t n) { return size_t(next() % n); }
    Bits bits(size_t n) {
        Bits result(n);
        for (size_t k = 0; k < n; k++) result.set(k, next() & 1);
        return result;
    }
};

// A start whose inputs move right behind it, whose gap varies, and which now and then is cut off by a reset.
Stimulus stimulus(const Bits &inputs, Random &random) {
    Stimulus s;
    s.step.inputs = inputs;
    s.meaning = meaning_of(inputs);
    s.step.then = random.below(2) ? inputs.inverse() : random.bits(CONTRACT.bits);
    s.step.gap = unsigned(random.below(4));
    if (s.meaning.said.size() > 1 && random.below(20) == 0) s.step.reset_at = int(1 + random.below(s.meaning.said.size() - 1));
    return s;
}

void shuffle(std::vector<Stimulus> &list, size_t from, Random &random) {
    for (size_t k = list.size(); k > from + 1; k--) std::swap(list[k - 1], list[from + random.below(k - from)]);
}

// Every vector in order and not cut off, then all of them again in another order.
Stimuli every_input(Random &random) {
    Stimuli all;
    size_t count = size_t(1) << CONTRACT.bits;
    for (size_t pass = 0; pass < 2; pass++)
        for (size_t k = 0; k < count; k++) {
            Bits inputs(CONTRACT.bits);
            inputs.put(0, CONTRACT.bits, k);
            all.list.push_back(stimulus(inputs, random));
            if (pass == 0) all.list.back().step.reset_at = -1;
        }
    shuffle(all.list, count, random);
    all.every = true;
    all.power_up_every = count;
    return all;
}

// Values of a run's elements that the library takes where all others are 0.
Run good_values(const Field &field, size_t index, const std::vector<size_t> &numbers, size_t n) {
    Run good;
    std::vector<Run> runs(CONTRACT.fields.size());
    runs[index] = Run(n, 0);
    long low = field.is_signed ? -(1l << (field.width - 1)) : 0, high = low + (1l << field.width) - 1;
    if (field.dtx_at >= 0) high = DTX;
    for (long value = low; value <= high && n; value++) {
        runs[index][0] = int32_t(value);
        if (!meaning_of(vector_of(numbers, runs, Bits(CONTRACT.bits))).refused) good.push_back(int32_t(value));
    }
    return good.empty() ? Run{0} : good;
}

// One content of a run. The first rounds are plain ones: all alike, then one that differs.
Run content(size_t n, const Run &good, size_t round, Random &random) {
    if (round < good.size()) return Run(n, good[round]);
    Run run(n, round % 2 ? good[0] : good.back());
    if (n && round % 4 == 2) run[random.below(n)] = good[random.below(good.size())];
    if (round % 4 == 2) return run;
    for (int32_t &element : run) element = good[random.below(good.size())];
    return run;
}

// Each combination of the numbers on the pins, or a sample where they are too many.
std::vector<std::vector<size_t>> combinations(Random &random) {
    std::vector<std::vector<size_t>> all{{}};
    for (const Field &field : CONTRACT.fields) {
        std::vector<std::vector<size_t>> longer;
        size_t values = field.kind == Field::NUMBER ? size_t(1) << std::min(field.width, 16u) : 1;
        for (const std::vector<size_t> &before : all)
            for (size_t value = 0; value < values; value++) {
                longer.push_back(before);
                longer.back().push_back(value);
            }
        while (longer.size() > MOST_COMBINATIONS) {
            std::swap(longer[random.below(longer.size())], longer.back());
            longer.pop_back();
        }
        all = longer;
    }
    return all;
}

void add_sample(Stimuli &all, const std::vector<size_t> &numbers, size_t round, Random &random) {
    std::vector<Run> runs;
    for (size_t k = 0; k < CONTRACT.fields.size(); k++) {
        const Field &field = CONTRACT.fields[k];
        size_t n = field.kind == Field::NUMBER ? 0 : length_of(numbers, k);
        runs.push_back(n ? content(n, good_values(field, k, numbers, n), round, random) : Run{});
        if (n && field.kind == Field::NUMBERS && random.below(20) == 0) runs.back()[random.below(n)] = int32_t(random.below(1u << field.width));
    }
    all.list.push_back(stimulus(vector_of(numbers, runs, random.bits(CONTRACT.bits)), random));
}

Stimuli sample(Random &random) {
    Stimuli all;
    std::vector<std::vector<size_t>> taken;
    size_t digits = 0;
    for (const std::vector<size_t> &numbers : combinations(random)) {
        add_sample(all, numbers, 0, random);
        if (all.list.back().meaning.refused) continue;
        taken.push_back(numbers);
        digits += all.list.back().meaning.said.size();
    }
    size_t rounds = std::max<size_t>(4, SAMPLED_DIGITS / std::max<size_t>(1, digits));
    for (size_t round = 1; round < rounds; round++)
        for (const std::vector<size_t> &numbers : taken) add_sample(all, numbers, round, random);
    shuffle(all.list, 0, random);
    all.power_up_every = all.list.size() / POWER_UPS + 1;
    return all;
}

}  // namespace

Stimuli judges_stimuli() {
    Random random(25211);
    return CONTRACT.bits <= FEW_BITS ? every_input(random) : sample(random);
}
