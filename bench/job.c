#include "job.h"

#include <string.h>

#include "dpch.h"

enum { AICH_RECORD = 17 };

static uint8_t *job;
static size_t used;

static void put(uint8_t byte) {
    job[used++] = byte;
}

static void put_aich(void) {
    put(1);
    for (unsigned s = 0; s < 16; s++) put((uint8_t)((used + s) % 3));
}

static void put_pich(unsigned np) {
    put(2);
    put((uint8_t)np);
    for (unsigned q = 0; q < np; q++) put((uint8_t)(q * 5 % 2));
}

static size_t dpch_record(size_t format) {
    return 4 + FORMATS[format].tfci + data_of(&FORMATS[format]);
}

static void put_dpch(size_t format) {
    size_t n_tfci = FORMATS[format].tfci, n_data = data_of(&FORMATS[format]);
    put(3);
    put((uint8_t)format);
    put((uint8_t)(used % 15));
    put((uint8_t)(used % 2));
    for (size_t i = 0; i < n_tfci; i++) put((uint8_t)(i & 1));
    for (size_t i = 0; i < n_data; i++) put((uint8_t)(i * 7 % 3));
}

/* A mix of all kinds and formats, then the longest formats that leave room for seven records of AICH, and at the end as
 * many of AICH and of format 0 (17 and 8 bytes) as fill the file to its last byte. */
void make_job(uint8_t bytes[JOB_BYTES]) {
    unsigned count = 0;
    job = bytes;
    memcpy(job, "SLT\0\1", 5);
    used = JOB_HEADER;
    for (size_t format = 0; format < FORMAT_COUNT; format++, count += 3) {
        put_aich();
        put_pich(144);
        put_dpch(format);
    }
    for (size_t format = FORMAT_COUNT; format-- > 0;) {
        for (; dpch_record(format) + 7 * AICH_RECORD <= JOB_BYTES - used; count++) put_dpch(format);
    }
    for (; (JOB_BYTES - used) % dpch_record(0) != 0; count++) put_aich();
    for (; used < JOB_BYTES; count++) put_dpch(0);
    job[JOB_HEADER - 1] = (uint8_t)count;
}

/* AICH, PICH and the formats 0 to 7 in turn: records of 16 bytes on the whole, since so many longer ones do not fit. */
size_t make_many(uint8_t bytes[MANY_BYTES]) {
    job = bytes;
    memcpy(job, "SLT\0\2\xff\xff", MANY_HEADER);
    used = MANY_HEADER;
    for (unsigned k = 0; k < MANY_RECORDS; k++) {
        switch (k % 10) {
        case 8: put_aich(); break;
        case 9: put_pich(18); break;
        default: put_dpch(k % 10);
        }
    }
    return used;
}
