/* Each mapper of slt.h behind the one form of calls.h. A row here is all that a new mapper needs. */
#include "calls.h"

#include <string.h>

#include "slt.h"

#define BYTES(k) (uint8_t *)r[k].at, r[k].n
#define WIDE(k) (int32_t *)r[k].at, r[k].n
#define ASK(name) static uint64_t name(const size_t *v, const struct sim_run *r)

ASK(slot_map) { return slt_slot_map(v[0], v[1], v[2], BYTES(0), BYTES(1), BYTES(2)); }
ASK(slot_map_antenna) { return slt_slot_map_antenna(v[0], v[1], v[2], v[3], BYTES(0), BYTES(1), BYTES(2)); }
ASK(frame_map) { return slt_frame_map(v[0], BYTES(0), BYTES(1), BYTES(2), BYTES(3)); }
ASK(compressed_map) { return slt_compressed_map(v[0], v[1], v[2], v[3], BYTES(0), BYTES(1), BYTES(2), BYTES(3)); }
ASK(dpdch_map) { return slt_dpdch_map(v[0], BYTES(0), BYTES(1)); }
ASK(dpdch_frame_map) { return slt_dpdch_frame_map(v[0], BYTES(0), BYTES(1)); }
ASK(dpcch_map) { return slt_dpcch_map(v[0], v[1], v[2], BYTES(0), BYTES(1), BYTES(2)); }
ASK(dpcch_frame_map) { return slt_dpcch_frame_map(v[0], BYTES(0), BYTES(1), BYTES(2), BYTES(3)); }
ASK(pich_map) { return slt_pich_map(v[0], BYTES(0), BYTES(1)); }
ASK(pccpch_map) { (void)v; return slt_pccpch_map(BYTES(0), BYTES(1), BYTES(2)); }
ASK(hspdsch_map) { return slt_hspdsch_map(v[0], BYTES(0), BYTES(1), BYTES(2)); }
ASK(sttd_digits) { (void)v; return slt_sttd_digits(BYTES(0), BYTES(1)); }
ASK(sttd_values) { (void)v; return slt_sttd_values(WIDE(0), WIDE(1)); }
ASK(aich_map) { (void)v; return slt_aich_map(WIDE(0), WIDE(1)); }
ASK(aich_map_available) { return slt_aich_map_available((uint16_t)v[0], WIDE(0), WIDE(1)); }

static const struct sim_call calls[] = {
    {"slt_slot_map", {"format", "slot", "tpc"}, {"data", "tfci", "out"}, "out", 0, slot_map},
    {"slt_slot_map_antenna", {"format", "slot", "antenna", "tpc"}, {"data", "tfci", "out"}, "out", 0, slot_map_antenna},
    {"slt_frame_map", {"format"}, {"data", "tfci", "out", "commands"}, "out", 0, frame_map},
    {"slt_compressed_map", {"format", "kind", "first", "missing"}, {"data", "tfci", "out", "commands"}, "out", 0, compressed_map},
    {"slt_dpdch_map", {"format"}, {"data", "out"}, "out", 0, dpdch_map},
    {"slt_dpdch_frame_map", {"format"}, {"data", "out"}, "out", 0, dpdch_frame_map},
    {"slt_dpcch_map", {"format", "slot", "tpc"}, {"tfci", "fbi", "out"}, "out", 0, dpcch_map},
    {"slt_dpcch_frame_map", {"format"}, {"tfci", "fbi", "out", "commands"}, "out", 0, dpcch_frame_map},
    {"slt_pich_map", {"np"}, {"indicators", "frame"}, "frame", 0, pich_map},
    {"slt_pccpch_map", {0}, {"data", "antenna1", "antenna2"}, "antenna1", 0, pccpch_map},
    {"slt_hspdsch_map", {"format"}, {"data", "antenna1", "antenna2"}, "antenna1", 0, hspdsch_map},
    {"slt_sttd_digits", {0}, {"input", "out"}, "out", 0, sttd_digits},
    {"slt_sttd_values", {0}, {"input", "out"}, "out", 1, sttd_values},
    {"slt_aich_map", {0}, {"indicators", "values"}, "values", 1, aich_map},
    {"slt_aich_map_available", {"available"}, {"indicators", "values"}, "values", 1, aich_map_available},
};

const struct sim_call *sim_call_named(const char *name) {
    for (size_t k = 0; k < sizeof calls / sizeof *calls; k++)
        if (strcmp(calls[k].name, name) == 0) return &calls[k];
    return NULL;
}
