/* SPDX-License-Identifier: MIT */
/* The row calls from C: a grey of 1,004 cd/m2 under a peak of 1,000 and a red of the same code, as RGB and as Y'CbCr, then a
   refused sample, then the grey and the red of a twelve-bit source, first in narrow and then in full range, then linear values: a
   grey and a red of 1,000 cd/m2, and a refused one.
     tools/build pq_hlg
     gcc -O2 -Wall -Werror -Iinclude tests/host/example.c target/staticlib/libpq_hlg.a -o target/host/example_c
     target/host/example_c */
#include <inttypes.h>
#include <math.h>
#include <stdio.h>

#include "pq_hlg.h"

#if PQ_HLG_ABI != 2
#error "written for version 2 of the interface"
#endif

static void put_sample(uint8_t *row, size_t i, unsigned code) {
    row[2 * i] = (uint8_t)(code >> 8);
    row[2 * i + 1] = (uint8_t)(code & 255);
}

static unsigned sample(const uint8_t *row, size_t i) {
    return 256u * row[2 * i] + row[2 * i + 1];
}

static void print_answer(uint64_t number, const uint8_t *dst) {
    printf("%" PRIu64 "\n", number);
    for (size_t j = 0; j < 2; j++)
        printf("%u %u %u\n", sample(dst, 3 * j), sample(dst, 3 * j + 1), sample(dst, 3 * j + 2));
}

/* A grey pixel of a code, then a red one of the same code. */
static void put_pixels(uint8_t *row, unsigned code, unsigned black) {
    for (size_t i = 0; i < 6; i++)
        put_sample(row, i, i < 4 ? code : black);
}

int main(void) {
    uint8_t row[12], dst[12] = {0};
    put_pixels(row, 723, 64);
    uint64_t number = pq_hlg_convert_row(1000, 0, row, sizeof row, dst, sizeof dst, 0, 2);
    print_answer(number, dst);
    number = pq_hlg_convert_row_ycbcr(1000, 0, row, sizeof row, dst, sizeof dst, 0, 2);
    print_answer(number, dst);

    put_sample(row, 4, 1020);
    number = pq_hlg_convert_row(1000, 0, row, sizeof row, dst, sizeof dst, 1, 2);
    printf("refused %" PRIu64 " at sample %" PRIu64 "\n", number % 256, number / 256);

    put_pixels(row, 2891, 256);
    number = pq_hlg_convert_row(1000, PQ_HLG_TWELVE_BITS, row, sizeof row, dst, sizeof dst, 0, 2);
    print_answer(number, dst);
    put_pixels(row, 3079, 0);
    number = pq_hlg_convert_row(1000, PQ_HLG_TWELVE_BITS | PQ_HLG_FULL_RANGE, row, sizeof row, dst, sizeof dst, 0, 2);
    print_answer(number, dst);

    float values[6] = {1000, 1000, 1000, 1000, 0, -1};      /* what is below 0 counts as 0 */
    number = pq_hlg_convert_row_linear(1000, values, 6, dst, sizeof dst, 0, 2);
    print_answer(number, dst);
    values[4] = NAN;
    number = pq_hlg_convert_row_linear(1000, values, 6, dst, sizeof dst, 1, 2);
    printf("refused %" PRIu64 " at value %" PRIu64 "\n", number % 256, number / 256);
    return 0;
}
