/* Times single calls on few pixels: what a call costs beside its pixels.
 *
 *     calls PEAK PICTURE
 *
 * A call converts a row of so many pixels, which lie one after the other in the
 * picture; the calls of a round start at places evenly spread over it. All ways
 * take the same pixels in turns; a time is the median of ROUNDS, in CPU time.
 * The tables of C are filled once before; what that costs is shown apart.
 */
#include "doubles.h"
#include "pq_hlg.h"
#include "timing.h"

#include <stdio.h>
#include <stdlib.h>

enum { CALLS = 1000, WAYS = 3, SIZES = 5 };

static const size_t PIXELS[SIZES] = { 0, 1, 16, 64, 256 };

static double peak;
static struct tables tables;

static void convert(int way, const uint8_t *row, uint8_t *dst, size_t pixels)
{
    if (way == 0) {
        if (pq_hlg_convert_row((uint64_t)peak, 0, row, 6 * pixels, dst, 6 * pixels, 0, pixels))
            stop("the row call refused a row");
    } else if (way == 1) {
        convert_by_libm(peak, row, dst, pixels);
    } else {
        convert_by_tables(&tables, row, dst, pixels);
    }
}

/* Nanoseconds of one call, over CALLS of them. */
static double time_calls(int way, const uint8_t *picture, uint8_t *dst, size_t pixels)
{
    size_t last = (size_t)WIDTH * HEIGHT - pixels;
    double start = now();
    for (size_t i = 0; i < CALLS; i++)
        convert(way, picture + 6 * (i * last / CALLS), dst, pixels);
    return 1e9 * (now() - start) / CALLS;
}

/* Nanoseconds of filling the tables of C. */
static double time_filling(void)
{
    double times[ROUNDS];
    for (int round = 0; round < ROUNDS; round++) {
        double start = now();
        fill_tables(&tables, peak);
        times[round] = 1e9 * (now() - start);
    }
    return median_of(times);
}

int main(int count, char **paths)
{
    if (count != 3)
        stop("usage: calls PEAK PICTURE");
    peak = atof(paths[1]);
    uint8_t *picture = read_picture(paths[2]), *dst = touched_bytes();
    double filling = time_filling();
    printf("calls peak %.0f picture %s\n", peak, name_of(paths[2]));
    for (int size = 0; size < SIZES; size++) {
        double times[WAYS][ROUNDS], median[WAYS];
        for (int way = 0; way < WAYS; way++)
            time_calls(way, picture, dst, PIXELS[size]);
        for (int round = 0; round < ROUNDS; round++)
            for (int way = 0; way < WAYS; way++)
                times[way][round] = time_calls(way, picture, dst, PIXELS[size]);
        for (int way = 0; way < WAYS; way++)
            median[way] = median_of(times[way]);
        printf("pixels %zu: row_call %.0f ns/call, libm %.0f, tables %.0f; row_call %.4f of libm\n",
               PIXELS[size], median[0], median[1], median[2], median[0] / median[1]);
    }
    printf("tables of C filled: %.0f ns\n", filling);
    free(picture);
    free(dst);
    return 0;
}
