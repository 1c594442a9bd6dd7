/* SPDX-License-Identifier: MIT */
/* There and back from C, through both libraries: an HLG row goes into a PQ programme and comes out again under a peak of 1,000. White,
   a grey that comes back one code lower and document 002's red, each printed as HLG, PQ and HLG again; then a refused sample.
     tools/build pq_hlg hlg_pq
     gcc -O2 -Wall -Werror -Iinclude tests/host/return_example.c target/staticlib/libhlg_pq.a target/staticlib/libpq_hlg.a \
         -o target/host/return_example_c
     target/host/return_example_c */
#include <inttypes.h>
#include <stdio.h>

#include "hlg_pq.h"
#include "pq_hlg.h"

#if HLG_PQ_ABI != 1 || PQ_HLG_ABI != 2
#error "written for version 1 of hlg_pq.h and version 2 of pq_hlg.h"
#endif

enum { PIXELS = 3, BYTES = 6 * PIXELS };

static const unsigned INSERT[PIXELS][3] = {{940, 940, 940}, {600, 600, 600}, {976, 64, 64}};

static void print_pixel(const uint8_t *row, size_t pixel, const char *after) {
    const uint8_t *at = row + 6 * pixel;
    printf("%u %u %u%s", 256u * at[0] + at[1], 256u * at[2] + at[3], 256u * at[4] + at[5], after);
}

int main(void) {
    uint8_t hlg[BYTES], pq[BYTES], back[BYTES];
    for (size_t i = 0; i < 3 * PIXELS; i++) {
        unsigned code = INSERT[i / 3][i % 3];
        hlg[2 * i] = (uint8_t)(code >> 8);
        hlg[2 * i + 1] = (uint8_t)(code & 255);
    }
    if (hlg_pq_convert_row(hlg, BYTES, pq, BYTES, 0, PIXELS) || pq_hlg_convert_row(1000, 0, pq, BYTES, back, BYTES, 0, PIXELS))
        return 1;
    for (size_t pixel = 0; pixel < PIXELS; pixel++) {
        print_pixel(hlg, pixel, " -> ");
        print_pixel(pq, pixel, " -> ");
        print_pixel(back, pixel, "\n");
    }

    hlg[10] = 4;        /* the last sample of the second pixel becomes 1,112 */
    uint64_t number = hlg_pq_convert_row(hlg, BYTES, pq, BYTES, 1, PIXELS);
    printf("refused %" PRIu64 " at sample %" PRIu64 "\n", number % 256, number / 256);
    return 0;
}
