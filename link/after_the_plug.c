/* A filter of order 3 at R = 4 runs, the encoder's plug is pulled and pushed back, the rate is set anew, and the outputs that may be
 * believed are printed. */
#include "mittenload.h"
#include <stdio.h>

int main(void)
{
    ml_cic filter;
    uint32_t refused = ml_cic_new(&filter, 3, 1, 3);
    if (refused != 0)
        return (int)refused;
    ml_cic_output y;
    ml_cic_decimate(&filter, 1000, &y);

    ml_cic_set_rate(&filter, filter.rate);
    int32_t samples[28], out[28];
    for (int i = 0; i < 28; i++)
        samples[i] = 7;
    ml_written w;
    refused = ml_cic_decimate_block(&filter, samples, 28, out, 28, &w);
    if (refused != 0)
        return (int)refused;
    uint64_t first, n;
    refused = ml_cic_settled(out, 28, &w, &first, &n);
    if (refused != 0)
        return (int)refused;
    printf("%u of %u outputs may be believed:", (unsigned)n, (unsigned)w.count);
    for (uint64_t i = 0; i < n; i++)
        printf(" %d", (int)out[first + i]);
    printf("; the first came with input %u\n", (unsigned)(w.number + first * (filter.rate + 1)));

    filter.countdown = 70000;
    printf("a damaged state is refused with %u", (unsigned)ml_cic_decimate(&filter, 1, &y));
    filter.countdown = 0;
    printf(", a short slice with %u, an order of 9 with %u\n", (unsigned)ml_cic_decimate_block(&filter, samples, 28, out, 1, &w),
           (unsigned)ml_cic_new(&filter, 9, 1, 3));
    return 0;
}
