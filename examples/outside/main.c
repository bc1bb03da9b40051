/* A program of another project. It knows the mapper only by what pkg-config says of it:
 *
 *     cc main.c $(pkg-config --cflags --libs slt) -o main
 */
#include <stdio.h>

#include <slt.h>

static void print_digits(const char *what, const uint8_t *digits, size_t n) {
    printf("%s ", what);
    for (size_t i = 0; i < n; i++) {
        putchar(digits[i] == 2 ? '-' : '0' + digits[i]);
    }
    putchar('\n');
}

/* Says why a call was refused. Answers whether it was done. */
static int done(const char *call, uint64_t answer) {
    if (SLT_NUMBER(answer) == SLT_DONE) {
        return 1;
    }
    printf("%s: refused %u at %lu\n", call, SLT_NUMBER(answer), (unsigned long)SLT_PLACE(answer));
    return 0;
}

/* Pages the group of PI 5 in frame 1: 18 indicators, one of them set. */
static int page(void) {
    uint8_t indicators[18] = {0}, frame[300];
    uint64_t q = slt_pich_q(18, 5, 1);
    if (!done("slt_pich_q", q)) {
        return 0;
    }
    indicators[SLT_VALUE(q)] = 1;
    if (!done("slt_pich_map", slt_pich_map(18, indicators, sizeof indicators, frame, sizeof frame))) {
        return 0;
    }
    printf("indicator %u\n", SLT_VALUE(q));
    print_digits("frame", frame, sizeof frame);
    return 1;
}

/* A slot of format 1, read back, as it was sent and with a pilot digit lost on the way. */
static int transmit(void) {
    const uint8_t data[2] = {1, 0}, tfci[2] = {0, 1};
    uint8_t slot[10], data_back[2], tfci_back[2];
    if (!done("slt_slot_map", slt_slot_map(1, 1, 1, data, sizeof data, tfci, sizeof tfci, slot, sizeof slot))) {
        return 0;
    }
    print_digits("slot", slot, sizeof slot);

    uint64_t read = slt_slot_read(1, 1, slot, sizeof slot, data_back, sizeof data_back, tfci_back, sizeof tfci_back);
    if (!done("slt_slot_read", read)) {
        return 0;
    }
    printf("command %u\n", SLT_VALUE(read));
    print_digits("data", data_back, sizeof data_back);
    print_digits("tfci", tfci_back, sizeof tfci_back);

    slot[7] = 2;
    return !done("slt_slot_read",
                 slt_slot_read(1, 1, slot, sizeof slot, data_back, sizeof data_back, tfci_back, sizeof tfci_back));
}

int main(void) {
    return page() && transmit() ? 0 : 1;
}
