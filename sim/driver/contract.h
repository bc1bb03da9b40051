// What the driver knows of a circuit: the contract file as a table, written by judging/model.py. All inputs of a circuit but
// clock, reset and start stand side by side in one vector of bits, in the order of the contract.
#pragma once

#include <vector>

struct Field {
    enum Kind { NUMBER, DIGITS, NUMBERS };
    const char *name;        // as the library's call has it
    Kind kind;
    unsigned at;             // first bit in the vector
    unsigned width;          // bits of a number, or of one element of a run
    unsigned room;           // elements that the pin has
    int dtx_at;              // digits: first bit of the pin that says DTX; -1 where there is none
    bool is_signed;
    long low, high;          // a number that the circuit takes; it refuses others
    long length;             // of a run, where the call leaves it open; -1: the library says
};

struct Fixed {
    const char *name;        // a number of the call that is no pin
    unsigned long value;
};

struct Contract {
    const char *circuit, *call, *out;  // out: the call's run that the circuit streams
    std::vector<Field> fields;
    std::vector<Fixed> fixed;
    unsigned bits;           // of the vector
    unsigned first;          // cycles from the start to the first digit
    bool numbers;            // the circuit streams numbers, not digits
    bool has_refused;
    bool rest_pin;           // a pin says when a start may come
};

extern const Contract CONTRACT;
