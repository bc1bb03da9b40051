#include "meaning.h"

#include <cstdio>
#include <cstdlib>
#include <cstring>

#include "contract.h"
#include "slt.h"

namespace {

[[noreturn]] void wrong_contract(const std::string &why) {
    std::fprintf(stderr, "the contract of %s: %s\n", CONTRACT.circuit, why.c_str());
    std::exit(2);
}

const sim_call &call() {
    static const sim_call *found = sim_call_named(CONTRACT.call);
    if (!found) wrong_contract(std::string("no call is named ") + CONTRACT.call);
    return *found;
}

unsigned index_of(const char *const *names, const char *name) {
    for (unsigned k = 0; names[k]; k++)
        if (std::strcmp(names[k], name) == 0) return k;
    wrong_contract(std::string(CONTRACT.call) + " has nothing that is named " + name);
}

// The call's numbers: those on the pins, and those that the contract fixes.
std::vector<size_t> of_call(const std::vector<size_t> &numbers) {
    std::vector<size_t> values(SIM_NUMBERS, 0);
    for (const Fixed &fixed : CONTRACT.fixed) values[index_of(call().numbers, fixed.name)] = fixed.value;
    for (size_t k = 0; k < numbers.size(); k++)
        if (CONTRACT.fields[k].kind == Field::NUMBER) values[index_of(call().numbers, CONTRACT.fields[k].name)] = numbers[k];
    return values;
}

struct Lengths {
    unsigned refusal;
    size_t of_run[SIM_RUNS];
};

const Lengths &lengths(const std::vector<size_t> &values) {
    static std::map<std::vector<size_t>, Lengths> known;
    auto found = known.find(values);
    if (found != known.end()) return found->second;
    Lengths result{0, {0, 0, 0, 0}};
    size_t asked[SIM_RUNS] = {SIM_ASK, SIM_ASK, SIM_ASK, SIM_ASK};
    for (const Field &field : CONTRACT.fields)
        if (field.kind != Field::NUMBER && field.length >= 0) asked[index_of(call().runs, field.name)] = size_t(field.length);
    result.refusal = sim_lengths(&call(), values.data(), asked);
    for (unsigned k = 0; k < SIM_RUNS && result.refusal == 0; k++) result.of_run[k] = asked[k];
    return known[values] = result;
}

bool in_circuit(const std::vector<size_t> &numbers) {
    for (size_t k = 0; k < numbers.size(); k++) {
        const Field &field = CONTRACT.fields[k];
        if (field.kind == Field::NUMBER && (long(numbers[k]) < field.low || long(numbers[k]) > field.high)) return false;
    }
    return true;
}

int32_t element(const Bits &inputs, const Field &field, size_t k) {
    if (field.kind == Field::DIGITS && field.dtx_at >= 0 && inputs[size_t(field.dtx_at) + k]) return DTX;
    int32_t value = int32_t(inputs.get(field.at + k * field.width, field.width));
    if (field.is_signed && value >> (field.width - 1) & 1) value -= 1 << field.width;
    return value;
}

void mark(Bits &used, const Field &field, size_t k, int32_t value) {
    if (field.dtx_at >= 0) used.set(size_t(field.dtx_at) + k, true);
    if (field.kind == Field::DIGITS && value == DTX) return;
    for (unsigned w = 0; w < field.width; w++) used.set(field.at + k * field.width + w, true);
}

void take_run(Meaning &m, const Bits &inputs, const Field &field, size_t n) {
    Run run;
    for (size_t k = 0; k < n; k++) {
        run.push_back(element(inputs, field, k));
        mark(m.used, field, k, run.back());
    }
    m.runs.push_back(run);
}

// A run as the library takes it: bytes, or int32_t where the call is wide.
std::vector<int32_t> lent(const Run *run, size_t n) {
    std::vector<int32_t> memory(n + 1, 0);
    auto *bytes = reinterpret_cast<uint8_t *>(memory.data());
    for (size_t k = 0; run && k < n; k++) {
        if (call().wide) memory[k] = (*run)[k];
        else bytes[k] = uint8_t((*run)[k]);
    }
    return memory;
}

void ask(Meaning &m, const Lengths &length) {
    std::vector<std::vector<int32_t>> memory(SIM_RUNS);
    std::vector<const Run *> given(SIM_RUNS, nullptr);
    for (size_t k = 0; k < CONTRACT.fields.size(); k++)
        if (CONTRACT.fields[k].kind != Field::NUMBER) given[index_of(call().runs, CONTRACT.fields[k].name)] = &m.runs[k];
    sim_run runs[SIM_RUNS];
    for (unsigned k = 0; k < SIM_RUNS; k++) {
        memory[k] = lent(given[k], length.of_run[k]);
        runs[k] = {memory[k].data(), length.of_run[k]};
    }
    m.answer = call().ask(of_call(m.numbers).data(), runs);
    m.refused = SLT_NUMBER(m.answer) != SLT_DONE;
    unsigned out = index_of(call().runs, CONTRACT.out[0] ? CONTRACT.out : call().out);
    auto *bytes = static_cast<uint8_t *>(runs[out].at);
    for (size_t k = 0; k < runs[out].n && !m.refused; k++) m.said.push_back(call().wide ? memory[out][k] : bytes[k]);
}

}  // namespace

size_t length_of(const std::vector<size_t> &numbers, size_t field) {
    if (!in_circuit(numbers)) return 0;
    const Lengths &found = lengths(of_call(numbers));
    if (found.refusal) return 0;
    size_t length = found.of_run[index_of(call().runs, CONTRACT.fields[field].name)];
    if (length > CONTRACT.fields[field].room) wrong_contract(std::string("the pin is too narrow for ") + CONTRACT.fields[field].name);
    return length;
}

Meaning meaning_of(const Bits &inputs) {
    Meaning m;
    m.used = Bits(CONTRACT.bits);
    for (const Field &field : CONTRACT.fields) {
        m.numbers.push_back(field.kind == Field::NUMBER ? inputs.get(field.at, field.width) : 0);
        if (field.kind == Field::NUMBER) mark(m.used, field, 0, 0);
    }
    for (size_t k = 0; k < CONTRACT.fields.size(); k++) {
        const Field &field = CONTRACT.fields[k];
        take_run(m, inputs, field, field.kind == Field::NUMBER ? 0 : length_of(m.numbers, k));
    }
    m.by_contract = !in_circuit(m.numbers);
    const Lengths &found = lengths(of_call(m.numbers));
    if (m.by_contract || found.refusal) {
        m.refused = true;
        m.answer = found.refusal;
    } else {
        ask(m, found);
    }
    if (m.refused && !CONTRACT.has_refused) wrong_contract("it has no pin for a refusal, and " + answer_words(m));
    return m;
}

Bits vector_of(const std::vector<size_t> &numbers, const std::vector<Run> &runs, const Bits &unused) {
    Bits inputs = unused;
    for (size_t k = 0; k < CONTRACT.fields.size(); k++) {
        const Field &field = CONTRACT.fields[k];
        if (field.kind == Field::NUMBER) inputs.put(field.at, field.width, numbers[k]);
        for (size_t i = 0; i < runs[k].size(); i++) {
            bool silent = field.kind == Field::DIGITS && runs[k][i] == DTX;
            if (field.dtx_at >= 0) inputs.set(size_t(field.dtx_at) + i, silent);
            if (!silent) inputs.put(field.at + i * field.width, field.width, uint64_t(int64_t(runs[k][i])));
        }
    }
    return inputs;
}

std::string answer_words(const Meaning &m) {
    std::string text = std::string(CONTRACT.call) + "(";
    bool first = true;
    std::vector<size_t> values = of_call(m.numbers);
    for (unsigned k = 0; call().numbers[k]; k++, first = false)
        text += (first ? "" : ", ") + std::string(call().numbers[k]) + " " + std::to_string(values[k]);
    for (unsigned k = 0; call().runs[k]; k++, first = false) text += (first ? "" : ", ") + std::string(call().runs[k]);
    unsigned number = SLT_NUMBER(m.answer);
    if (m.by_contract && number == 0) return text + ") has an answer, but the circuit's contract refuses it";
    return text + ") answers " + std::to_string(number) + (number ? ", place " + std::to_string(SLT_PLACE(m.answer)) : "");
}
