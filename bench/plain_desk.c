/* The random access desk in plain C. */
#include "aich.h"
#include "yardsticks.h"

uint64_t plain_desk_serve(size_t *last, uint16_t heard, uint16_t available, size_t n, int32_t *values, size_t n_values) {
    int32_t indicators[SIGNATURES] = {0};
    if (n_values != VALUES) return refuse(3, 0);
    if (n < 1 || n > SIGNATURES) return refuse(11, 0);
    if (*last >= SIGNATURES) return refuse(11, 2);
    size_t start = *last + 1, served = 0;
    for (size_t place = 0; place < SIGNATURES; place++) {
        size_t s = (start + place) % SIGNATURES;
        if ((heard >> s & 1) == 0 || (available >> s & 1) == 0) continue;
        if (served < n) {
            indicators[s] = 1;
            *last = s;
            served++;
        } else {
            indicators[s] = -1;
        }
    }
    write_pairs(indicators, values);
    return 0;
}

uint64_t plain_desk_to_aich(size_t timing) {
    if (timing > 1) return refuse(11, 1);
    return (uint64_t)(timing == 0 ? 7680 : 12800) << 48;
}

uint64_t plain_desk_to_message(size_t timing) {
    if (timing > 1) return refuse(11, 1);
    return (uint64_t)(timing == 0 ? 15360 : 20480) << 48;
}
