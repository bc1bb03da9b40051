#include "line.h"

#include <algorithm>
#include <cstdio>
#include <cstdlib>
#include <sstream>

#include "contract.h"

namespace {

[[noreturn]] void wrong(const std::string &text, const std::string &why) {
    std::fprintf(stderr, "not a line of a bench (%s): %s\n", why.c_str(), text.c_str());
    std::exit(2);
}

const std::string DIGITS = "01-?";

// The count of {n} at a place of the text, which moves behind it; 1 where none stands there.
size_t repeats(const std::string &text, size_t &at) {
    if (at >= text.size() || text[at] != '{') return 1;
    size_t end = text.find('}', at);
    if (end == std::string::npos) wrong(text, "a brace is open");
    size_t count = std::strtoul(text.c_str() + at + 1, nullptr, 10);
    at = end + 1;
    return count;
}

Run digits_of(const std::string &text) {
    Run run;
    for (size_t at = 0; at < text.size();) {
        size_t digit = DIGITS.find(text[at++]);
        if (digit == std::string::npos) wrong(text, "a digit is 0, 1, - or ?");
        run.insert(run.end(), repeats(text, at), int32_t(digit));
    }
    return run;
}

Run numbers_of(const std::string &text) {
    Run run;
    std::istringstream items(text);
    for (std::string item; std::getline(items, item, ',');) {
        size_t used = 0;
        int32_t number = item == "?" ? INT32_MAX : int32_t(std::stol(item, &used));
        if (item == "?") used = 1;
        run.insert(run.end(), repeats(item, used), number);
    }
    return run;
}

Run run_of(const std::string &text, bool numbers) {
    if (text == ".") return {};
    return numbers ? numbers_of(text) : digits_of(text);
}

Bits vector_option(const std::string &value, const Bits &inputs) {
    if (value == "ones") return Bits(CONTRACT.bits, true);
    if (value == "inverse") return inputs.inverse();
    return Bits::of_hex(CONTRACT.bits, value);
}

void option(Line &line, std::string &unused, std::string &then, const std::string &word) {
    size_t equals = word.find('=');
    std::string name = word.substr(0, equals), value = equals == std::string::npos ? "" : word.substr(equals + 1);
    if (name == "unused") unused = value;
    else if (name == "then") then = value;
    else if (name == "gap") line.step.gap = unsigned(std::stoul(value));
    else if (name == "reset") line.step.reset_at = std::stoi(value);
    else if (name == "after") line.after = value;
    else if (name == "power") line.power = unsigned(std::stoul(value));
    else wrong(line.text, "no option " + name);
}

void take_fields(std::istringstream &words, std::string word, const std::string &text, std::vector<size_t> &numbers,
                 std::vector<Run> &runs) {
    for (const Field &field : CONTRACT.fields) {
        if (word.empty() && !(words >> word)) wrong(text, "a field is missing");
        numbers.push_back(field.kind == Field::NUMBER ? std::stoul(word) : 0);
        runs.push_back(field.kind == Field::NUMBER ? Run{} : run_of(word, field.kind == Field::NUMBERS));
        word.clear();
    }
    for (size_t k = 0; k < runs.size(); k++)
        if (CONTRACT.fields[k].kind != Field::NUMBER && runs[k].size() != length_of(numbers, k))
            wrong(text, std::string("length of ") + CONTRACT.fields[k].name);
}

std::string number_text(int32_t number) { return number == INT32_MAX ? "?" : std::to_string(number); }

std::string vector_text(const Bits &bits) {
    return bits == Bits(CONTRACT.bits, true) ? "ones" : bits.hex();
}

}  // namespace

std::string run_text(const Run &run, bool numbers) {
    std::string text;
    for (size_t at = 0; at < run.size();) {
        size_t end = at;
        while (end < run.size() && run[end] == run[at]) end++;
        std::string item = numbers ? number_text(run[at]) : std::string(1, DIGITS[size_t(run[at])]);
        bool braces = end - at > 4;
        for (size_t k = 0; k < (braces ? 1 : end - at); k++) text += (numbers && !text.empty() ? "," : "") + item;
        if (braces) text += "{" + std::to_string(end - at) + "}";
        at = end;
    }
    return text.empty() ? "." : text;
}

Line line_of(const std::string &text) {
    Line line;
    line.text = text;
    std::istringstream words(text);
    std::string word, unused = "0", then;
    if (!(words >> word)) wrong(text, "nothing stands there");
    if (word.back() == ':') {
        line.name = word.substr(0, word.size() - 1);
        word.clear();
    }
    std::vector<size_t> numbers;
    std::vector<Run> runs;
    take_fields(words, word, text, numbers, runs);
    std::string equals, expected;
    if (!(words >> equals >> expected) || equals != "=") wrong(text, "= and what is expected");
    line.refused = expected == "refused";
    if (!line.refused) line.expected = run_of(expected, CONTRACT.numbers);
    while (words >> word) {
        if (word[0] == '#') break;
        option(line, unused, then, word);
    }
    line.step.inputs = vector_of(numbers, runs, vector_option(unused, Bits(CONTRACT.bits)));
    if (!then.empty()) line.step.then = vector_option(then, line.step.inputs);
    return line;
}

std::string text_of(const Step &step) {
    Meaning m = meaning_of(step.inputs);
    std::string text;
    for (size_t k = 0; k < CONTRACT.fields.size(); k++) {
        const Field &field = CONTRACT.fields[k];
        text += field.kind == Field::NUMBER ? std::to_string(m.numbers[k]) : run_text(m.runs[k], field.kind == Field::NUMBERS);
        text += " ";
    }
    text += "= " + (m.refused ? "refused" : run_text(m.said, CONTRACT.numbers));
    Bits unused = step.inputs, all = step.inputs;
    for (size_t k = 0; k < unused.size(); k++) {
        if (m.used[k]) unused.set(k, false);
        if (m.used[k]) all.set(k, true);
    }
    if (unused.hex() != "0") text += " unused=" + (vector_text(all) == "ones" ? "ones" : unused.hex());
    if (step.then.size()) text += " then=" + (step.then == step.inputs.inverse() ? "inverse" : vector_text(step.then));
    if (step.gap != 3) text += " gap=" + std::to_string(step.gap);
    if (step.reset_at >= 0) text += " reset=" + std::to_string(step.reset_at);
    return text;
}
