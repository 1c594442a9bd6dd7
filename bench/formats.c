/* Times the RGB row call in each format of the samples: ten and twelve bits, narrow and full range.
 *
 *     formats PEAK PICTURE...
 *
 * Pictures are of ten-bit narrow range. In the other formats they are the same
 * picture coded anew: twelve bits get two more below the ten, drawn by lot once
 * for a run of equal pixels and all its components, so that flat areas stay
 * flat, greys grey and blacks black; full range is the code nearest to the
 * signal. All formats take the same rows in turns; a time is the median of
 * ROUNDS, in CPU time. No page is new.
 */
#include "pq_hlg.h"
#include "timing.h"

#include <stdio.h>
#include <stdlib.h>
#include <string.h>

enum { WAYS = 4 };

static const double SECONDS = 16;       /* for all pictures together, about */
static const uint64_t FORMATS[WAYS] = { 0, PQ_HLG_TWELVE_BITS, PQ_HLG_FULL_RANGE, PQ_HLG_TWELVE_BITS | PQ_HLG_FULL_RANGE };
static const char *const NAMES[WAYS] = { "ten_narrow", "twelve_narrow", "ten_full", "twelve_full" };

static uint64_t peak;

/* Two bits by lot; Marsaglia's xorshift, so that every run draws the same. */
static int draw(void)
{
    static uint32_t state = 2463534242u;
    state ^= state << 13;
    state ^= state >> 17;
    state ^= state << 5;
    return (int)(state >> 30);
}

static int clipped(int code, int least, int most)
{
    return code < least ? least : code > most ? most : code;
}

/* The full-range code, up to `most`, whose signal is nearest to that of a narrow one; black and the nominal peak are the latter's. */
static int full_code(int code, int black, int nominal, int most)
{
    int span = nominal - black;
    return (2 * (clipped(code, black, nominal) - black) * most + span) / (2 * span);
}

/* A ten-bit narrow code in another format; `low` are the two bits below it. */
static int coded(uint64_t format, int code, int low)
{
    int twelve = clipped(4 * code + (code > 64 ? low : 0), 16, 4079);
    if (format == 0)
        return code;
    if (format == PQ_HLG_TWELVE_BITS)
        return twelve;
    return format == PQ_HLG_FULL_RANGE ? full_code(code, 64, 940, 1023) : full_code(twelve, 256, 3760, 4095);
}

/* The picture in a format. */
static uint8_t *code_anew(const uint8_t *picture, uint64_t format)
{
    uint8_t *bytes = touched_bytes();
    int low = 0;
    for (size_t p = 0; p < (size_t)WIDTH * HEIGHT; p++) {
        const uint8_t *pixel = picture + 6 * p;
        if (p == 0 || memcmp(pixel, pixel - 6, 6) != 0)
            low = draw();
        for (size_t i = 0; i < 6; i += 2) {
            int code = coded(format, pixel[i] << 8 | pixel[i + 1], low);
            bytes[6 * p + i] = (uint8_t)(code >> 8);
            bytes[6 * p + i + 1] = (uint8_t)code;
        }
    }
    return bytes;
}

/* Nanoseconds a pixel over so many rows, spread over the picture. */
static double time_rows(uint64_t format, const uint8_t *picture, uint8_t *dst, int rows)
{
    double start = now();
    for (int i = 0; i < rows; i++)
        if (pq_hlg_convert_row(peak, format, picture + (size_t)(i * HEIGHT / rows) * ROW, ROW, dst + (size_t)i * ROW, ROW, 0, WIDTH))
            stop("the row call refused a row");
    return 1e9 * (now() - start) / rows / WIDTH;
}

int main(int count, char **paths)
{
    if (count < 3)
        stop("usage: formats PEAK PICTURE...");
    peak = strtoull(paths[1], NULL, 10);
    uint8_t *dst = touched_bytes();
    for (int i = 2; i < count; i++) {
        uint8_t *picture = read_picture(paths[i]), *pictures[WAYS];
        double pilot = 0, times[WAYS][ROUNDS], median[WAYS];
        for (int way = 0; way < WAYS; way++) {
            pictures[way] = code_anew(picture, FORMATS[way]);
            pilot += time_rows(FORMATS[way], pictures[way], dst, 10);
        }
        double affordable = SECONDS / (count - 2) / ROUNDS / (1e-9 * pilot * WIDTH);
        int rows = affordable < HEIGHT ? (int)affordable : HEIGHT;
        rows = rows < 1 ? 1 : rows;
        for (int round = 0; round < ROUNDS; round++)
            for (int way = 0; way < WAYS; way++)
                times[way][round] = time_rows(FORMATS[way], pictures[way], dst, rows);
        printf("formats peak %llu picture %s rows %d\n", (unsigned long long)peak, name_of(paths[i]), rows);
        for (int way = 0; way < WAYS; way++)
            median[way] = median_of(times[way]);
        for (int way = 0; way < WAYS; way++)
            printf("%s %.2f ns/pixel, %.4f of %s (rounds %.2f to %.2f)\n", NAMES[way], median[way], median[way] / median[0], NAMES[0],
                   times[way][0], times[way][ROUNDS - 1]);
        fflush(stdout);
        for (int way = 0; way < WAYS; way++)
            free(pictures[way]);
        free(picture);
    }
    free(dst);
    return 0;
}
