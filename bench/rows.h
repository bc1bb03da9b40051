/* The rows of each channel, each in a file of its own. */
#ifndef ROWS_H
#define ROWS_H

void bench_dpch(void);
void bench_antenna(void);
void bench_frame(void);
void bench_compressed(void);
void bench_dpdch(void);
void bench_dpcch(void);
void bench_pich(void);
void bench_wake(void);
void bench_pccpch(void);
void bench_hspdsch(void);
void bench_lengths(void);
void bench_sttd(void);
void bench_aich(void);
void bench_desk(void);
void bench_sample(void);
void bench_bank(void);

/* The rows of the program, given the paths of slotline, of the tight and of the plain C program. */
void bench_slotline(const char *slotline, const char *tight, const char *plain);

#endif
