/* The yardsticks of the program slotline: the same program in C. It reads the whole job file at once from standard input, and prints
 * its lines from a buffer that is written where a line may not fit. It is included once in each of two files, which say by MAPPED
 * whose calls it makes and by LETTER how a digit is printed. */
#include <stdio.h>

#include "dpch.h"
#include "pich.h"
#include "yardsticks.h"

enum { LONGEST_1 = 65535, LONGEST_2 = 1048576, MARK = 3, VERSION = 4, KIND_AICH = 1, KIND_PICH = 2, KIND_DPCH = 3 };

/* What can be wrong with the file itself. */
enum { OVER_LONG = 20, WRONG_MARK, UNKNOWN_VERSION, UNKNOWN_KIND, ENDS_EARLY, BYTES_AFTER };

/* No line is longer than that of format 16, which has 1292 bytes. */
enum { LINE = 1292, ROOM = 1 << 16 };

static uint8_t file[LONGEST_2 + 1];
static char text[ROOM];
static size_t used;

/* Where reading stops, at the file's end or at the limit, and the refusal of a byte that is looked for there. */
static size_t end;
static uint64_t stopped;

static void write_text(void) {
    fwrite(text, 1, used, stdout);
    used = 0;
}

static void put_text(const char *s) {
    size_t n = strlen(s);
    memcpy(text + used, s, n);
    used += n;
}

static void put_number(int64_t number) {
    char digits[24];
    size_t at = sizeof digits;
    uint64_t rest = number < 0 ? (uint64_t)-number : (uint64_t)number;
    do {
        digits[--at] = (char)('0' + rest % 10);
        rest /= 10;
    } while (rest > 0);
    if (number < 0) digits[--at] = '-';
    memcpy(text + used, digits + at, sizeof digits - at);
    used += sizeof digits - at;
}

static void put_digits(const uint8_t *run, size_t n) {
    for (size_t i = 0; i < n; i++) text[used + i] = LETTER(run[i]);
    used += n;
}

/* Each record answers a refusal, or 0 after its line. *at moves on to the next record. */

static uint64_t aich(size_t *at) {
    int32_t indicators[16], values[32];
    if (end - *at < 16) return stopped;
    for (size_t s = 0; s < 16; s++) {
        uint8_t byte = file[*at + s];
        indicators[s] = byte == 2 ? -1 : byte;
    }
    uint64_t refusal = MAPPED(aich_map)(indicators, 16, values, 32);
    if (refusal) return refusal;
    put_text("AICH");
    for (size_t j = 0; j < 32; j++) {
        put_text(" ");
        put_number(values[j]);
    }
    *at += 16;
    return 0;
}

static uint64_t pich(size_t *at) {
    uint8_t frame[PICH_FRAME];
    if (*at == end) return stopped;
    size_t np = file[(*at)++];
    if (!is_np(np)) return refuse(8, 0);
    if (end - *at < np) return stopped;
    uint64_t refusal = MAPPED(pich_map)(np, file + *at, np, frame, PICH_FRAME);
    if (refusal) return refusal;
    put_text("PICH ");
    put_number((int64_t)np);
    put_text(" ");
    put_digits(frame, PICH_FRAME);
    *at += np;
    return 0;
}

static uint64_t dpch(size_t *at) {
    uint8_t out[1280];
    if (*at == end) return stopped;
    size_t format = file[(*at)++];
    if (format > 16) return refuse(1, 0);
    const struct format *f = &FORMATS[format];
    size_t n_data = data_of(f), n_tfci = f->tfci;
    if (end - *at < 2 + n_tfci + n_data) return stopped;
    size_t slot = file[*at], tpc = file[*at + 1];
    const uint8_t *tfci = file + *at + 2, *data = tfci + n_tfci;
    uint64_t refusal = MAPPED(slot_map)(format, slot, tpc, data, n_data, tfci, n_tfci, out, f->slot);
    if (refusal) return refusal;
    put_text("DPCH ");
    put_number((int64_t)format);
    put_text(" ");
    put_number((int64_t)slot);
    put_text(" ");
    put_digits(out, f->slot);
    *at += 2 + n_tfci + n_data;
    return 0;
}

static uint64_t record(size_t *at) {
    if (*at == end) return stopped;
    switch (file[(*at)++]) {
    case KIND_AICH: return aich(at);
    case KIND_PICH: return pich(at);
    case KIND_DPCH: return dpch(at);
    default: return refuse(UNKNOWN_KIND, *at - 1);
    }
}

/* Mark and version; of version 1 the length; the bytes of the count. */
static uint64_t header(size_t n) {
    static const uint8_t right[VERSION] = {'S', 'L', 'T', 0};
    for (size_t i = 0; i < sizeof right; i++) {
        if (i == n) return refuse(ENDS_EARLY, n);
        if (file[i] != right[i]) return refuse(i < MARK ? WRONG_MARK : UNKNOWN_VERSION, i);
    }
    if (n == VERSION) return refuse(ENDS_EARLY, n);
    if (file[VERSION] != 1 && file[VERSION] != 2) return refuse(UNKNOWN_VERSION, VERSION);
    if (file[VERSION] == 1 && n > LONGEST_1) return refuse(OVER_LONG, LONGEST_1);
    return n <= VERSION + (size_t)file[VERSION] ? refuse(ENDS_EARLY, n) : 0;
}

static uint64_t lines(size_t n) {
    uint64_t refusal = header(n);
    if (refusal) return refusal;
    unsigned version = file[VERSION];
    unsigned count = version == 1 ? file[VERSION + 1] : file[VERSION + 1] * 256u + file[VERSION + 2];
    size_t at = VERSION + 1 + version;
    end = n > LONGEST_2 ? LONGEST_2 : n;
    stopped = n > LONGEST_2 ? refuse(OVER_LONG, LONGEST_2) : refuse(ENDS_EARLY, n);
    put_text("SLT ");
    put_number(version);
    put_text(" ");
    put_number(count);
    put_text("\n");
    for (unsigned k = 0; k < count; k++) {
        if (ROOM - used < LINE) write_text();
        refusal = record(&at);
        if (refusal) return refusal;
        put_text("\n");
    }
    if (at == n) return 0;
    return at == LONGEST_2 ? stopped : refuse(BYTES_AFTER, at);
}

int main(void) {
    uint64_t refusal = lines(fread(file, 1, sizeof file, stdin));
    if (ROOM - used < LINE) write_text();
    if (refusal) {
        put_text("refused ");
        put_number((int64_t)(refusal & 0xffff));
        put_text(" ");
        put_number((int64_t)(refusal >> 16));
        put_text("\n");
    }
    write_text();
    return ferror(stdout) || fflush(stdout) != 0 ? 1 : 0;
}
