// A circuit under the judge: a verilated netlist of one circuit with all its mutants, driven as the contract says.
#pragma once

#include <cstdint>
#include <memory>
#include <vector>

#include "line.h"

struct Pins {
    bool valid, dtx, refused, rest;
    int32_t value;              // the bit, or the number
};

// What model.cpp, which judging/model.py writes, gives for the netlist: one power-up of it.
class Model {
  public:
    virtual ~Model() = default;
    virtual void reset(bool on) = 0;
    virtual void start(bool on) = 0;
    virtual void put(const Bits &inputs) = 0;
    virtual void edge() = 0;
    virtual Pins pins() = 0;
};
std::unique_ptr<Model> power_up(unsigned mutant, unsigned seed);  // seed 0: all registers hold 0

struct Gave {                    // what a circuit did after a start
    Run digits;
    unsigned refusals = 0;       // cycles with a refusal
    unsigned after_reset = 0;    // digits and refusals behind a reset that came in midst of the stream
    std::vector<Pins> pins;      // of every cycle
};

class Device {
    std::unique_ptr<Model> model;
    void cycle(Gave &gave, bool behind_reset);

  public:
    Device(unsigned mutant, unsigned power);
    Gave reset();                // nothing may come behind it
    Gave run(const Step &step, const Meaning &meaning);
};

// Did the circuit do what is asked? Which of the faults it has first, and where.
struct Fault {
    enum Kind { NONE, DIGIT, LENGTH, NOT_REFUSED, REFUSED, RESET, START };
    Kind kind = NONE;
    size_t place = 0;
};
Fault fault_of(const Step &step, bool refused, const Run &expected, const Gave &gave);

// A mutant, and the original beside it where a pin says when a start may come: that is not the standard's, so the original's word counts.
class Pair {
    Device mutant;
    std::unique_ptr<Device> original;

  public:
    Pair(unsigned number, unsigned power);
    unsigned reset();            // digits and refusals behind it
    Gave run(const Step &step, const Meaning &meaning, Fault &start);
};
