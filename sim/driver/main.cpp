// The driver: asked line by line on its standard input, it answers each with one line. judging/driver.py is its other end. A step is
// written INPUTS/THEN/GAP/RESET, vectors in hexadecimal, - for none; mutant 0 is the original.
//
//     bench FILE             reads a bench                     -> lines COUNT
//     stimuli                the judge's own list              -> stimuli COUNT every|sample LONGEST
//     kill MUTANT            runs the bench                    -> survived | killed LINE FAULT
//     line MUTANT LINE       runs one line of the bench, from 1
//     search MUTANT          runs the list                     -> none COUNT PINS | fault COUNT POWER STEP... (the last one shows it)
//     history COUNT          -> the steps of the list up to that one, from the power-up before it on
//     plain MUTANT           runs each of the list by itself, as a bench drives it: zeros on pins that mean nothing, inputs held
//                                                              -> none COUNT | fault COUNT STEP
//     try MUTANT POWER STEP...                                 -> good | bad INDEX FAULT PLACE GAVE
//     show STEP              -> TEXT, the bits that mean something, what the standard says, the call and its answer; tabs between
//     step TEXT              -> the step of a line
#include <cstdio>
#include <cstdlib>
#include <fstream>
#include <iostream>
#include <sstream>

#include "contract.h"
#include "device.h"
#include "stimuli.h"

namespace {

const char *const FAULTS[] = {"none", "digit", "length", "not-refused", "refused", "reset", "start"};

std::vector<Line> bench;
Stimuli stimuli;
std::vector<std::vector<Pins>> original;   // the pins of the original for each stimulus

// Which pins differ, in the widest sense that a comparison of all of them sees: in idle cycles, in the bit under DTX, or in what is
// defined but at another time.
struct PinDifference {
    bool idle = false, dtx = false, defined = false;
    void add(const std::vector<Pins> &a, const std::vector<Pins> &b) {
        for (size_t k = 0; k < a.size() && k < b.size(); k++) {
            bool value = a[k].value != b[k].value, silent = a[k].dtx != b[k].dtx;
            if (a[k].valid != b[k].valid || a[k].refused != b[k].refused) defined = true;
            else if (!a[k].valid) idle |= value || silent;
            else if (silent) defined = true;
            else if (a[k].dtx) dtx |= value;
            else defined |= value;
        }
    }
    const char *word() const { return defined ? "time" : dtx ? "dtx" : idle ? "idle" : "same"; }
};

std::string step_text(const Step &step) {
    return step.inputs.hex() + "/" + (step.then.size() ? step.then.hex() : "-") + "/" + std::to_string(step.gap) + "/" +
           (step.reset_at < 0 ? "-" : std::to_string(step.reset_at));
}

Step step_of(const std::string &text) {
    std::istringstream in(text);
    std::string inputs, then, gap, reset_at;
    std::getline(in, inputs, '/');
    std::getline(in, then, '/');
    std::getline(in, gap, '/');
    std::getline(in, reset_at, '/');
    Step step;
    step.inputs = Bits::of_hex(CONTRACT.bits, inputs);
    if (then != "-") step.then = Bits::of_hex(CONTRACT.bits, then);
    step.gap = unsigned(std::stoul(gap));
    step.reset_at = reset_at == "-" ? -1 : std::stoi(reset_at);
    return step;
}

const Line &named(const std::string &name) {
    for (const Line &line : bench)
        if (line.name == name) return line;
    std::fprintf(stderr, "the bench has no line %s\n", name.c_str());
    std::exit(2);
}

// One step of a pair, and the first thing that is wrong with it.
Fault run_step(Pair &pair, const Step &step, const Meaning &m, bool refused, const Run &expected, unsigned idle, Gave &gave) {
    Fault start;
    gave = pair.run(step, m, start);
    gave.after_reset += idle;
    Fault fault = fault_of(step, refused, expected, gave);
    return fault.kind == Fault::NONE ? start : fault;
}

// The line on the circuit as it is now, after the one that it says comes before it.
Fault run_line(Pair &pair, const Line &line, unsigned idle) {
    if (!line.after.empty()) {
        Fault before = run_line(pair, named(line.after), idle);
        if (before.kind != Fault::NONE) return before;
    }
    Gave gave;
    return run_step(pair, line.step, meaning_of(line.step.inputs), line.refused, line.expected, idle, gave);
}

Fault run_alone(unsigned mutant, const Line &line) {
    Pair pair(mutant, line.power);
    return run_line(pair, line, pair.reset());
}

void read_bench(const std::string &path) {
    bench.clear();
    std::ifstream in(path);
    for (std::string text; std::getline(in, text);)
        if (text.find_first_not_of(" \t") != std::string::npos && text[0] != '#') bench.push_back(line_of(text));
    std::cout << "lines " << bench.size();
}

void say_lines(unsigned mutant, size_t from, size_t to) {
    for (size_t k = from; k < to && k < bench.size(); k++) {
        Fault fault = run_alone(mutant, bench[k]);
        if (fault.kind == Fault::NONE) continue;
        std::cout << "killed " << (bench[k].name.empty() ? std::to_string(k + 1) : bench[k].name) << " " << FAULTS[fault.kind];
        return;
    }
    std::cout << "survived";
}

void say_stimuli() {
    stimuli = judges_stimuli();
    size_t longest = 0;
    for (const Stimulus &s : stimuli.list) longest = std::max(longest, s.meaning.said.size());
    std::cout << "stimuli " << stimuli.list.size() << (stimuli.every ? " every " : " sample ") << longest;
}

size_t power_of(size_t at) { return at / stimuli.power_up_every; }

void say_steps(size_t from, size_t to) {
    for (size_t k = from; k <= to; k++) std::cout << " " << step_text(stimuli.list[k].step);
}

void say_found(size_t at) {
    std::cout << "fault " << at + 1 << " " << power_of(at);
    say_steps(std::max(power_of(at) * stimuli.power_up_every, at < 3 ? 0 : at - 3), at);
}

void search(unsigned mutant) {
    std::unique_ptr<Pair> pair;
    PinDifference pins;
    if (mutant == 0) original.clear();
    for (size_t k = 0; k < stimuli.list.size(); k++) {
        const Stimulus &s = stimuli.list[k];
        unsigned idle = 0;
        if (k % stimuli.power_up_every == 0) {
            pair = std::make_unique<Pair>(mutant, unsigned(k / stimuli.power_up_every));
            idle = pair->reset();
        }
        Gave gave;
        if (run_step(*pair, s.step, s.meaning, s.meaning.refused, s.meaning.said, idle, gave).kind != Fault::NONE) return say_found(k);
        if (mutant == 0) original.push_back(gave.pins);
        else pins.add(original[k], gave.pins);
    }
    std::cout << "none " << stimuli.list.size() << " " << pins.word();
}

// The stimulus with zeros on the pins that mean nothing, inputs held, and no reset.
Step in_plain_manner(const Stimulus &s) {
    Step step;
    step.inputs = s.step.inputs;
    for (size_t k = 0; k < CONTRACT.bits; k++)
        if (!s.meaning.used[k]) step.inputs.set(k, false);
    return step;
}

void search_plain(unsigned mutant) {
    for (size_t k = 0; k < stimuli.list.size(); k++) {
        const Stimulus &s = stimuli.list[k];
        Step step = in_plain_manner(s);
        Pair pair(mutant, 0);
        Gave gave;
        unsigned idle = pair.reset();
        if (run_step(pair, step, s.meaning, s.meaning.refused, s.meaning.said, idle, gave).kind == Fault::NONE) continue;
        std::cout << "fault " << k + 1 << " " << step_text(step);
        return;
    }
    std::cout << "none " << stimuli.list.size();
}

void try_steps(unsigned mutant, unsigned power, std::istringstream &words) {
    Pair pair(mutant, power);
    unsigned idle = pair.reset();
    std::string text;
    for (size_t k = 0; words >> text; k++) {
        Step step = step_of(text);
        Meaning m = meaning_of(step.inputs);
        Gave gave;
        Fault fault = run_step(pair, step, m, m.refused, m.said, idle, gave);
        if (fault.kind == Fault::NONE) continue;
        std::cout << "bad " << k << " " << FAULTS[fault.kind] << " " << fault.place << " " << run_text(gave.digits, CONTRACT.numbers);
        return;
    }
    std::cout << "good";
}

void show(const Step &step) {
    Meaning m = meaning_of(step.inputs);
    std::cout << text_of(step) << "\t" << m.used.hex() << "\t" << (m.refused ? "refused" : run_text(m.said, CONTRACT.numbers)) << "\t"
              << answer_words(m);
}

void answer(const std::string &command, std::istringstream &words) {
    unsigned mutant = 0, power = 0;
    size_t line = 0;
    std::string text;
    if (command == "bench" && words >> text) read_bench(text);
    else if (command == "stimuli") say_stimuli();
    else if (command == "kill" && words >> mutant) say_lines(mutant, 0, bench.size());
    else if (command == "line" && words >> mutant >> line) say_lines(mutant, line - 1, line);
    else if (command == "search" && words >> mutant) search(mutant);
    else if (command == "history" && words >> line) say_steps(power_of(line - 1) * stimuli.power_up_every, line - 1);
    else if (command == "plain" && words >> mutant) search_plain(mutant);
    else if (command == "try" && words >> mutant >> power) try_steps(mutant, power, words);
    else if (command == "show" && words >> text) show(step_of(text));
    else if (command == "step" && std::getline(words, text)) std::cout << step_text(line_of(text).step);
    else std::cout << "no such command";
}

}  // namespace

int main() {
    for (std::string request; std::getline(std::cin, request);) {
        std::istringstream words(request);
        std::string command;
        words >> command;
        answer(command, words);
        std::cout << std::endl;
    }
}
