/* Times the row calls, RGB and Y'CbCr, beside C in double precision and a plain copy.
 *
 *     bench PEAK PICTURE...
 *
 * All ways convert the same rows in the same run on one thread, in turns; a
 * way's time is the median of ROUNDS, in CPU time of this process. Every
 * buffer has been written to before, so that no page is new. Of a picture only
 * as many rows are taken, evenly spread, as keep the run short. Pictures are of
 * ten-bit narrow range; formats.c times the others.
 */
#include "doubles.h"
#include "pq_hlg.h"
#include "timing.h"

#include <stdio.h>
#include <stdlib.h>
#include <string.h>

enum { WAYS = 5, LIBM = 2, COPY = 4 };

static const double SECONDS = 24;       /* for all pictures together, about */
static const char *const NAMES[WAYS] = { "row_call", "ycbcr_row_call", "libm", "tables", "copy" };

static double peak;
static struct tables tables;

static void convert(int way, const uint8_t *row, uint8_t *dst)
{
    if (way == 0) {
        if (pq_hlg_convert_row((uint64_t)peak, 0, row, ROW, dst, ROW, 0, WIDTH))
            stop("the row call refused a row");
    } else if (way == 1) {
        if (pq_hlg_convert_row_ycbcr((uint64_t)peak, 0, row, ROW, dst, ROW, 0, WIDTH))
            stop("the Y'CbCr row call refused a row");
    } else if (way == LIBM) {
        convert_by_libm(peak, row, dst, WIDTH);
    } else if (way < COPY) {
        convert_by_tables(&tables, row, dst, WIDTH);
    } else {
        memcpy(dst, row, ROW);
    }
}

/* Nanoseconds a pixel over so many rows, spread over the picture. */
static double time_rows(int way, const uint8_t *picture, uint8_t *dst, int rows)
{
    double start = now();
    for (int i = 0; i < rows; i++)
        convert(way, picture + (size_t)(i * HEIGHT / rows) * ROW, dst + (size_t)i * ROW);
    return 1e9 * (now() - start) / rows / WIDTH;
}

int main(int count, char **paths)
{
    uint8_t *dst[WAYS];
    if (count < 3)
        stop("usage: bench PEAK PICTURE...");
    peak = atof(paths[1]);
    fill_tables(&tables, peak);
    for (int way = 0; way < WAYS; way++)
        dst[way] = touched_bytes();
    for (int i = 2; i < count; i++) {
        uint8_t *picture = read_picture(paths[i]);
        double pilot = 0, times[WAYS][ROUNDS], median[WAYS], share;
        int largest;
        for (int way = 0; way < WAYS; way++)
            pilot += time_rows(way, picture, dst[way], 10);
        double affordable = SECONDS / (count - 2) / ROUNDS / (1e-9 * pilot * WIDTH);
        int rows = affordable < HEIGHT ? (int)affordable : HEIGHT;
        rows = rows < 1 ? 1 : rows;
        for (int round = 0; round < ROUNDS; round++)
            for (int way = 0; way < WAYS; way++)
                times[way][round] = time_rows(way, picture, dst[way], rows);
        printf("peak %.0f picture %s rows %d\n", peak, name_of(paths[i]), rows);
        for (int way = 0; way < WAYS; way++)
            median[way] = median_of(times[way]);
        for (int way = 0; way < WAYS; way++)
            printf("%s %.2f ns/pixel, %.4f of libm (rounds %.2f to %.2f)\n", NAMES[way],
                   median[way], median[way] / median[LIBM], times[way][0], times[way][ROUNDS - 1]);
        for (int way = LIBM; way < COPY; way++) {
            compare(dst[0], dst[way], rows, &share, &largest);
            printf("codes of %s other than the row call's: %.3f %%, by at most %d\n", NAMES[way], share, largest);
        }
        fflush(stdout);
        free(picture);
    }
    return 0;
}
