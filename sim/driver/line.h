// A line of a bench, and its text:
//
//     [NAME:] FIELD... = EXPECTED [OPTION...]
//
// A field is a number or a run, in the contract's order. A run of digits is written 01-, where - is DTX; one of numbers with commas;
// {n} repeats what stands before it, and . is a run of nothing. What is expected is a run, with ? for a digit that is not looked at, or
// the word refused. Options:
//
//     unused=HEX    what the pins that mean nothing hold: a vector of all inputs, of which only those bits count; 'ones'; else 0
//     then=HEX      what all inputs hold from the cycle behind the start on; 'ones', 'inverse'; else they stay as they were
//     gap=N         idle cycles behind the stream or its reset, 3 if not said
//     reset=N       a reset comes at digit N and ends the stream
//     after=NAME    that line comes right before it
//     power=N       the registers hold a random state of seed N before the reset, else zeros
//
// Every line is a run of its own: the circuit is powered up and reset, then come the line that stands before it and itself.
#pragma once

#include <string>

#include "bits.h"
#include "meaning.h"

struct Step {                  // one start of a circuit
    Bits inputs;
    Bits then;                 // empty: the inputs stay
    unsigned gap = 3;
    int reset_at = -1;         // the digit at which a reset comes
};

struct Line {
    std::string name, text;
    Step step;
    bool refused = false;
    Run expected;
    std::string after;         // the name of a line, or nothing
    unsigned power = 0;
};

Line line_of(const std::string &text);   // ends the program where it is not a line
std::string text_of(const Step &step);   // with what the standard says as what is expected
std::string run_text(const Run &run, bool numbers);
