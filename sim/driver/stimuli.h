// The judge's own stimuli, the same in every run: every input of the circuit where these are few, else a sample that has every
// combination of the numbers.
#pragma once

#include <vector>

#include "line.h"

struct Stimulus {
    Step step;
    Meaning meaning;
};

struct Stimuli {
    std::vector<Stimulus> list;
    bool every = false;          // each input vector of the circuit is there, in one power-up
    size_t power_up_every = 1;   // so many stimuli, then a new power-up with the next seed; the first has zeros
};

Stimuli judges_stimuli();
