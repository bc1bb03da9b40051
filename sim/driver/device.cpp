#include "device.h"

#include "contract.h"

Device::Device(unsigned mutant, unsigned power) : model(power_up(mutant, power)) {
    model->start(false);
    model->put(Bits(CONTRACT.bits));
}

void Device::cycle(Gave &gave, bool behind_reset) {
    model->edge();
    Pins now = model->pins();
    gave.pins.push_back(now);
    if (behind_reset) {
        gave.after_reset += now.valid + now.refused;
        return;
    }
    if (now.valid) gave.digits.push_back(now.dtx ? DTX : now.value);
    gave.refusals += now.refused;
}

Gave Device::reset() {
    Gave lost, gave;
    model->reset(true);
    cycle(lost, true);
    cycle(lost, true);
    model->reset(false);
    cycle(gave, true);
    cycle(gave, true);
    return gave;
}

// As many cycles as the standard's digits take, and the gap. A circuit that streams on is still at it when the next start comes.
Gave Device::run(const Step &step, const Meaning &m) {
    Gave gave;
    model->put(step.inputs);
    model->start(true);
    cycle(gave, false);
    model->start(false);
    if (step.then.size()) model->put(step.then);
    size_t cycles = CONTRACT.first - 1 + (m.refused ? 1 : m.said.size()) + step.gap;
    for (size_t k = 0; k < cycles; k++) {
        if (step.reset_at < 0 || k != CONTRACT.first - 1 + size_t(step.reset_at)) {
            cycle(gave, false);
            continue;
        }
        model->reset(true);
        cycle(gave, true);
        model->reset(false);
        for (unsigned idle = 0; idle < step.gap; idle++) cycle(gave, true);
        break;
    }
    return gave;
}

namespace {

bool looked_at(int32_t expected) { return expected != INT32_MAX && (CONTRACT.numbers || expected != NOT_LOOKED_AT); }

}  // namespace

Fault fault_of(const Step &step, bool refused, const Run &expected, const Gave &gave) {
    if (gave.after_reset) return {Fault::RESET, 0};
    if (refused) {
        if (gave.digits.size() || !gave.refusals) return {Fault::NOT_REFUSED, 0};
        return {};
    }
    if (gave.refusals) return {Fault::REFUSED, 0};
    size_t asked = step.reset_at < 0 ? expected.size() : std::min(expected.size(), size_t(step.reset_at));
    for (size_t k = 0; k < asked && k < gave.digits.size(); k++)
        if (looked_at(expected[k]) && gave.digits[k] != expected[k]) return {Fault::DIGIT, k};
    if (gave.digits.size() != asked) return {Fault::LENGTH, std::min(gave.digits.size(), asked)};
    return {};
}

Pair::Pair(unsigned number, unsigned power) : mutant(number, power) {
    if (CONTRACT.rest_pin) original = std::make_unique<Device>(0, power);
}

unsigned Pair::reset() {
    if (original) original->reset();
    return mutant.reset().after_reset;
}

Gave Pair::run(const Step &step, const Meaning &meaning, Fault &start) {
    Gave gave = mutant.run(step, meaning);
    if (!original) return gave;
    Gave right = original->run(step, meaning);
    for (size_t k = 0; k < gave.pins.size() && start.kind == Fault::NONE; k++)
        if (gave.pins[k].rest != right.pins[k].rest) start = {Fault::START, k};
    return gave;
}
