/* Jobs of all kinds: the longest of version 1, and one of version 2 of as many records as a file can count. */
#ifndef JOB_H
#define JOB_H

#include <stddef.h>
#include <stdint.h>

enum { JOB_BYTES = 65535, JOB_HEADER = 6, MANY_RECORDS = 65535, MANY_BYTES = 1048576, MANY_HEADER = 7 };

/* The byte of the header that counts the records is its last. */
void make_job(uint8_t job[JOB_BYTES]);

/* Gives how many bytes the job has. */
size_t make_many(uint8_t job[MANY_BYTES]);

#endif
