/* What DPCH slots and frames share in C: the tables, and the copies of one slot. */
#ifndef DPCH_H
#define DPCH_H

#include <string.h>

#include "parts.h"

enum { SLOTS = 15, FORMAT_COUNT = 17 };

struct format {
    uint16_t data1, data2, tpc, tfci, pilot, slot;
};

static const struct format FORMATS[FORMAT_COUNT] = {
    {0, 4, 2, 0, 4, 10},       {0, 2, 2, 2, 4, 10},       {2, 14, 2, 0, 2, 20},     {2, 12, 2, 2, 2, 20},
    {2, 12, 2, 0, 4, 20},      {2, 10, 2, 2, 4, 20},      {2, 8, 2, 0, 8, 20},      {2, 6, 2, 2, 8, 20},
    {6, 28, 2, 0, 4, 40},      {6, 26, 2, 2, 4, 40},      {6, 24, 2, 0, 8, 40},     {6, 22, 2, 2, 8, 40},
    {12, 48, 4, 8, 8, 80},     {28, 112, 4, 8, 8, 160},   {56, 232, 8, 8, 16, 320}, {120, 488, 8, 8, 16, 640},
    {248, 1000, 8, 8, 16, 1280},
};

static const uint8_t PILOT[SLOTS][16] = {
    {1, 1, 1, 1, 1, 1, 1, 0, 1, 1, 1, 1, 1, 1, 1, 0}, {1, 1, 0, 0, 1, 1, 1, 0, 1, 1, 1, 1, 1, 1, 0, 0},
    {1, 1, 0, 1, 1, 1, 0, 1, 1, 1, 1, 0, 1, 1, 0, 0}, {1, 1, 0, 0, 1, 1, 0, 0, 1, 1, 0, 1, 1, 1, 1, 0},
    {1, 1, 1, 0, 1, 1, 0, 1, 1, 1, 1, 1, 1, 1, 1, 1}, {1, 1, 1, 1, 1, 1, 1, 0, 1, 1, 0, 1, 1, 1, 0, 1},
    {1, 1, 1, 1, 1, 1, 0, 0, 1, 1, 1, 0, 1, 1, 1, 1}, {1, 1, 1, 0, 1, 1, 0, 0, 1, 1, 1, 0, 1, 1, 0, 0},
    {1, 1, 0, 1, 1, 1, 1, 0, 1, 1, 0, 0, 1, 1, 1, 1}, {1, 1, 1, 1, 1, 1, 1, 1, 1, 1, 0, 0, 1, 1, 1, 1},
    {1, 1, 0, 1, 1, 1, 0, 1, 1, 1, 1, 1, 1, 1, 1, 0}, {1, 1, 1, 0, 1, 1, 1, 1, 1, 1, 0, 0, 1, 1, 1, 0},
    {1, 1, 1, 0, 1, 1, 0, 0, 1, 1, 0, 1, 1, 1, 0, 1}, {1, 1, 0, 0, 1, 1, 1, 1, 1, 1, 0, 0, 1, 1, 0, 0},
    {1, 1, 0, 0, 1, 1, 1, 1, 1, 1, 1, 0, 1, 1, 0, 1},
};

static inline size_t data_of(const struct format *f) {
    return (size_t)f->data1 + f->data2;
}

static inline const uint8_t *pilot_of(const struct format *f, size_t slot) {
    return f->pilot == 2 ? PILOT[slot] + 2 : PILOT[slot];
}

static inline void write_fields(const struct format *f, const uint8_t *pilot, size_t tpc, const uint8_t *data,
                                const uint8_t *tfci, uint8_t *out) {
    memcpy(out, data, f->data1);
    out += f->data1;
    memset(out, (int)tpc, f->tpc);
    out += f->tpc;
    memcpy(out, tfci, f->tfci);
    out += f->tfci;
    memcpy(out, data + f->data1, f->data2);
    out += f->data2;
    memcpy(out, pilot, f->pilot);
}

static inline void write_slot(const struct format *f, size_t slot, size_t tpc, const uint8_t *data, const uint8_t *tfci,
                              uint8_t *out) {
    write_fields(f, pilot_of(f, slot), tpc, data, tfci, out);
}

static inline void take_fields(const struct format *f, const uint8_t *run, uint8_t *data, uint8_t *tfci) {
    memcpy(data, run, f->data1);
    memcpy(data + f->data1, run + f->data1 + f->tpc + f->tfci, f->data2);
    memcpy(tfci, run + f->data1 + f->tpc, f->tfci);
}

/* The fields of a frame's slot, which is the i-th of those that are transmitted. */
static inline void take_slot(const struct format *f, const uint8_t *frame, size_t slot, size_t i, uint8_t *data, uint8_t *tfci,
                             uint8_t *commands) {
    const uint8_t *run = frame + slot * f->slot;
    take_fields(f, run, data + i * data_of(f), tfci + i * f->tfci);
    commands[i] = run[f->data1];
}

#endif
