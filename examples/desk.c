/* Load on the random access channel: seven handsets ring at once, and the base station can take two in each access slot. Who is told no
 * rings again in the next slot. The desk decides whom to take, so that nobody waits longer than 16/n slots. docs/DESK.md. */
#include <stdio.h>

#include "slt.h"

enum { TAKEN = 2, SIGNATURES = 16 };

/* The signatures of one indicator, +1 or -1, as a set of bits; prints them. */
static uint16_t those(const char *name, const int32_t *indicators, int32_t which) {
    uint16_t set = 0;
    printf("  %s", name);
    for (unsigned s = 0; s < SIGNATURES; s++) {
        if (indicators[s] == which) {
            set |= (uint16_t)(1u << s);
            printf(" %u", s);
        }
    }
    printf("%s", set == 0 ? " nobody" : "");
    return set;
}

int main(void) {
    const uint16_t available = 0x7fff; /* the cell does not offer signature 15 */
    uint16_t heard = 0xa2d6;           /* 1, 2, 4, 6, 7, 9, 13, and 15, which nobody should use */
    size_t last = SLT_DESK_FRESH;      /* the desk is this one number */
    int32_t values[32], indicators[SIGNATURES];

    for (unsigned slot = 0; (heard & available) != 0; slot++) {
        if (slt_desk_serve(&last, heard, available, TAKEN, values, 32) != SLT_DONE) {
            return 1;
        }
        /* The 32 values are what the antenna sends. A handset reads its own indicator from them; here all are read at once. */
        if (slt_aich_read_available(available, values, 32, indicators, SIGNATURES) != SLT_DONE) {
            return 1;
        }
        printf("slot %u", slot);
        heard &= (uint16_t)~those("taken", indicators, 1); /* they send their message now */
        those("told no", indicators, -1);
        printf("  desk %zu\n", last);
    }

    /* When things happen: chips from the preamble to the answer and to the message, for each AICH_Transmission_Timing. */
    for (size_t timing = 0; timing < 2; timing++) {
        printf("timing %zu: answer after %u chips, message after %u\n", timing, SLT_VALUE(slt_desk_to_aich(timing)),
               SLT_VALUE(slt_desk_to_message(timing)));
    }

    /* A base station that answers the signature which it does not offer: its values are refused, and which signature it was is told. */
    for (unsigned s = 0; s < SIGNATURES; s++) {
        indicators[s] = s == 15 ? -1 : 0;
    }
    uint64_t answer = slt_aich_map_available(available, indicators, SIGNATURES, values, 32);
    printf("an answer to 15: refused %u, signature %u\n", SLT_NUMBER(answer), SLT_PLACE(answer));
    return 0;
}
