/* Times the row call on sRGB beside C in double precision and a plain copy.
 *
 *     srgb PICTURE...
 *
 * Pictures are eight-bit sRGB, three bytes a pixel; what is written has six. The
 * copy gives each byte sixteen bits. All ways take the same rows in turns; a time
 * is the median of ROUNDS, in CPU time. No page is new.
 */
#include "doubles.h"
#include "srgb_hlg.h"
#include "timing.h"

#include <stdio.h>
#include <stdlib.h>

enum { WAYS = 4, SRGB_CALL = 0, LIBM = 1, TABLES = 2, COPY = 3 };

static const double SECONDS = 16;       /* for all pictures together, about */
static const char *const NAMES[WAYS] = { "srgb_call", "srgb_libm", "srgb_tables", "srgb_copy" };

static struct srgb_tables tables;

static void convert(int way, const uint8_t *row, uint8_t *dst)
{
    if (way == SRGB_CALL) {
        if (srgb_hlg_convert_row(row, SRGB_ROW, dst, ROW, 0, WIDTH))
            stop("the sRGB call refused a row");
    } else if (way == LIBM) {
        convert_srgb_by_libm(row, dst, WIDTH);
    } else if (way == TABLES) {
        convert_srgb_by_tables(&tables, row, dst, WIDTH);
    } else {
        for (size_t i = 0; i < SRGB_ROW; i++) {
            dst[2 * i] = 0;
            dst[2 * i + 1] = row[i];
        }
    }
}

/* Nanoseconds a pixel over so many rows, spread over the picture. */
static double time_rows(int way, const uint8_t *picture, uint8_t *dst, int rows)
{
    double start = now();
    for (int i = 0; i < rows; i++)
        convert(way, picture + (size_t)(i * HEIGHT / rows) * SRGB_ROW, dst + (size_t)i * ROW);
    return 1e9 * (now() - start) / rows / WIDTH;
}

int main(int count, char **paths)
{
    uint8_t *dst[WAYS];
    if (count < 2)
        stop("usage: srgb PICTURE...");
    fill_srgb_tables(&tables);
    for (int way = 0; way < WAYS; way++)
        dst[way] = touched_bytes();
    for (int i = 1; i < count; i++) {
        uint8_t *picture = read_srgb_picture(paths[i]);
        double pilot = 0, times[WAYS][ROUNDS], median[WAYS], share;
        int largest;
        for (int way = 0; way < WAYS; way++)
            pilot += time_rows(way, picture, dst[way], 10);
        double affordable = SECONDS / (count - 1) / ROUNDS / (1e-9 * pilot * WIDTH);
        int rows = affordable < HEIGHT ? (int)affordable : HEIGHT;
        rows = rows < 1 ? 1 : rows;
        for (int round = 0; round < ROUNDS; round++)
            for (int way = 0; way < WAYS; way++)
                times[way][round] = time_rows(way, picture, dst[way], rows);
        printf("srgb picture %s rows %d\n", name_of(paths[i]), rows);
        for (int way = 0; way < WAYS; way++)
            median[way] = median_of(times[way]);
        for (int way = 0; way < WAYS; way++)
            printf("%s %.2f ns/pixel, %.4f of srgb_libm (rounds %.2f to %.2f)\n", NAMES[way], median[way], median[way] / median[LIBM],
                   times[way][0], times[way][ROUNDS - 1]);
        for (int way = LIBM; way < COPY; way++) {
            compare(dst[SRGB_CALL], dst[way], rows, &share, &largest);
            printf("codes of %s other than the sRGB call's: %.3f %%, by at most %d\n", NAMES[way], share, largest);
        }
        fflush(stdout);
        free(picture);
    }
    return 0;
}
