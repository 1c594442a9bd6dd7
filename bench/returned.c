/* Times the return path's row call beside the call to HLG and C in double precision.
 *
 *     returned PICTURE...
 *
 * Pictures are PQ. The HLG picture is what the call to HLG makes of one under a
 * peak of 1,000; the return path takes that, and the call to HLG the PQ picture.
 * All ways take the same rows in turns; a time is the median of ROUNDS, in CPU
 * time. No page is new.
 */
#include "doubles.h"
#include "hlg_pq.h"
#include "pq_hlg.h"
#include "timing.h"

#include <stdio.h>
#include <stdlib.h>

enum { WAYS = 3, RETURN_CALL = 0, ROW_CALL = 1, LIBM = 2, PEAK = 1000 };

static const double SECONDS = 16;       /* for all pictures together, about */
static const char *const NAMES[WAYS] = { "return_call", "row_call", "return_libm" };

static void convert(int way, const uint8_t *row, uint8_t *dst)
{
    if (way == RETURN_CALL) {
        if (hlg_pq_convert_row(row, ROW, dst, ROW, 0, WIDTH))
            stop("the return path refused a row");
    } else if (way == ROW_CALL) {
        if (pq_hlg_convert_row(PEAK, 0, row, ROW, dst, ROW, 0, WIDTH))
            stop("the row call refused a row");
    } else {
        convert_back_by_libm(row, dst, WIDTH);
    }
}

/* Nanoseconds a pixel over so many rows, spread over the picture. */
static double time_rows(int way, const uint8_t *picture, uint8_t *dst, int rows)
{
    double start = now();
    for (int i = 0; i < rows; i++)
        convert(way, picture + (size_t)(i * HEIGHT / rows) * ROW, dst + (size_t)i * ROW);
    return 1e9 * (now() - start) / rows / WIDTH;
}

/* How many of the codes differ, in percent. */
static double share_of_others(const uint8_t *x, const uint8_t *y, int rows)
{
    size_t codes = (size_t)rows * WIDTH * 3, different = 0;
    for (size_t i = 0; i < codes; i++)
        different += x[2 * i] != y[2 * i] || x[2 * i + 1] != y[2 * i + 1];
    return 100.0 * (double)different / (double)codes;
}

int main(int count, char **paths)
{
    uint8_t *hlg = touched_bytes(), *dst[WAYS];
    if (count < 2)
        stop("usage: returned PICTURE...");
    for (int way = 0; way < WAYS; way++)
        dst[way] = touched_bytes();
    for (int i = 1; i < count; i++) {
        uint8_t *pq = read_picture(paths[i]), *pictures[WAYS] = { hlg, pq, hlg };
        double pilot = 0, times[WAYS][ROUNDS], median[WAYS];
        for (int y = 0; y < HEIGHT; y++)
            convert(ROW_CALL, pq + (size_t)y * ROW, hlg + (size_t)y * ROW);
        for (int way = 0; way < WAYS; way++)
            pilot += time_rows(way, pictures[way], dst[way], 10);
        double affordable = SECONDS / (count - 1) / ROUNDS / (1e-9 * pilot * WIDTH);
        int rows = affordable < HEIGHT ? (int)affordable : HEIGHT;
        rows = rows < 1 ? 1 : rows;
        for (int round = 0; round < ROUNDS; round++)
            for (int way = 0; way < WAYS; way++)
                times[way][round] = time_rows(way, pictures[way], dst[way], rows);
        printf("returned picture %s rows %d\n", name_of(paths[i]), rows);
        for (int way = 0; way < WAYS; way++)
            median[way] = median_of(times[way]);
        for (int way = 0; way < WAYS; way++)
            printf("%s %.2f ns/pixel, %.4f of return_libm (rounds %.2f to %.2f)\n", NAMES[way], median[way], median[way] / median[LIBM],
                   times[way][0], times[way][ROUNDS - 1]);
        printf("codes of return_libm other than the return call's: %.3f %%\n", share_of_others(dst[RETURN_CALL], dst[LIBM], rows));
        fflush(stdout);
        free(pq);
    }
    return 0;
}
