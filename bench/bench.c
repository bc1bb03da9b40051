/* Ratios of the library to tight C, to plain C and to memcpy. Nothing fails by its numbers, but it fails where one of the
 * three answers or writes anything else than the others. */
#include "rows.h"

/* With three paths, of slotline and of its two yardsticks, the program is timed as well. */
int main(int n_arguments, char **arguments) {
    bench_dpch();
    bench_antenna();
    bench_frame();
    bench_compressed();
    bench_dpdch();
    bench_dpcch();
    bench_pich();
    bench_wake();
    bench_pccpch();
    bench_hspdsch();
    bench_lengths();
    bench_sttd();
    bench_aich();
    bench_desk();
    bench_sample();
    bench_bank();
    if (n_arguments == 4) bench_slotline(arguments[1], arguments[2], arguments[3]);
    return 0;
}
