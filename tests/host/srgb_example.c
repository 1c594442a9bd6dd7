/* SPDX-License-Identifier: MIT */
/* Captions from C: white, black, the primaries and their sums, each printed as sRGB and as HLG; then a destination that is too short.
     tools/build srgb_hlg
     gcc -O2 -Wall -Werror -Iinclude tests/host/srgb_example.c target/staticlib/libsrgb_hlg.a -o target/host/srgb_example_c
     target/host/srgb_example_c */
#include <inttypes.h>
#include <stdio.h>

#include "srgb_hlg.h"

#if SRGB_HLG_ABI != 1
#error "written for version 1 of the interface"
#endif

enum { PIXELS = 8 };

static const uint8_t ROW[3 * PIXELS] = {255, 255, 255, 0, 0, 0, 255, 0, 0, 0, 255, 0, 0, 0, 255, 255, 255, 0, 0, 255, 255, 255, 0, 255};

int main(void) {
    uint8_t dst[6 * PIXELS];
    if (srgb_hlg_convert_row(ROW, sizeof ROW, dst, sizeof dst, 0, PIXELS))
        return 1;
    for (size_t pixel = 0; pixel < PIXELS; pixel++) {
        const uint8_t *from = ROW + 3 * pixel, *to = dst + 6 * pixel;
        printf("%u %u %u -> %u %u %u\n", from[0], from[1], from[2], 256u * to[0] + to[1], 256u * to[2] + to[3], 256u * to[4] + to[5]);
    }

    uint64_t number = srgb_hlg_convert_row(ROW, sizeof ROW, dst, sizeof ROW, 0, PIXELS);
    printf("refused %" PRIu64 "\n", number);
    return 0;
}
