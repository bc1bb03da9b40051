// What a vector of inputs means, and what the standard says to it. The expectation comes from the library alone.
#pragma once

#include <cstdint>
#include <map>
#include <string>
#include <vector>

#include "bits.h"
#include "calls.h"

using Run = std::vector<int32_t>;    // digits 0, 1, 2 for DTX; or numbers
constexpr int32_t DTX = 2;
constexpr int32_t NOT_LOOKED_AT = 3; // a digit that a bench leaves open

struct Meaning {
    std::vector<size_t> numbers;     // of the fields, in the contract's order
    std::vector<Run> runs;
    bool refused = false;
    uint64_t answer = 0;             // the library's
    bool by_contract = false;        // refused because the circuit does not have it, though the standard may
    Run said;                        // what must be streamed where nothing is refused
    Bits used;                       // the bits of the vector that mean something
};

// Of the contract's fields, those that are numbers and those that are runs keep their places in these lists; the other list has an
// empty place there.
Meaning meaning_of(const Bits &inputs);

// The vector with these numbers and runs on it; bits that mean nothing hold those of unused.
Bits vector_of(const std::vector<size_t> &numbers, const std::vector<Run> &runs, const Bits &unused);

// How long a field's run is for these numbers; 0 where they are refused.
size_t length_of(const std::vector<size_t> &numbers, size_t field);

// The library's call, and what it answered, in words.
std::string answer_words(const Meaning &meaning);
