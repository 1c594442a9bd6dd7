/* Times the row call on linear values beside the call on PQ codes and C in double precision.
 *
 *     linear PEAK PICTURE...
 *
 * Pictures are PQ. The linear picture has the lights of their codes as floats,
 * in cd/m2, times a grain of up to a 512th part to either side, which is drawn
 * once for a run of equal pixels and all its components: flat areas stay flat,
 * greys grey and blacks black, and values are no codes' lights. The call on PQ
 * codes takes the PQ picture. All ways take the same rows in turns; a time is
 * the median of ROUNDS, in CPU time. No page is new.
 */
#include "doubles.h"
#include "pq_hlg.h"
#include "timing.h"

#include <stdio.h>
#include <stdlib.h>
#include <string.h>

enum { WAYS = 4, LINEAR_CALL = 0, ROW_CALL = 1, LIBM = 2, TABLES = 3, FLOATS = 3 * WIDTH };

static const double SECONDS = 12;       /* for all pictures together, about */
static const char *const NAMES[WAYS] = { "linear_call", "row_call", "linear_libm", "linear_tables" };

static double peak;
static struct linear_tables tables;

static void convert(int way, const uint8_t *codes, const float *lights, uint8_t *dst)
{
    if (way == LINEAR_CALL) {
        if (pq_hlg_convert_row_linear((uint64_t)peak, lights, FLOATS, dst, ROW, 0, WIDTH))
            stop("the call on linear values refused a row");
    } else if (way == ROW_CALL) {
        if (pq_hlg_convert_row((uint64_t)peak, 0, codes, ROW, dst, ROW, 0, WIDTH))
            stop("the row call refused a row");
    } else if (way == LIBM) {
        convert_linear_by_libm(peak, lights, dst, WIDTH);
    } else {
        convert_linear_by_tables(&tables, lights, dst, WIDTH);
    }
}

/* Nanoseconds a pixel over so many rows, spread over the picture. */
static double time_rows(int way, const uint8_t *codes, const float *lights, uint8_t *dst, int rows)
{
    double start = now();
    for (int i = 0; i < rows; i++) {
        size_t y = (size_t)(i * HEIGHT / rows);
        convert(way, codes + y * ROW, lights + y * FLOATS, dst + (size_t)i * ROW);
    }
    return 1e9 * (now() - start) / rows / WIDTH;
}

/* From -1/512 up to 1/512 by lot; Marsaglia's xorshift, so that every run draws the same. */
static double draw(void)
{
    static uint32_t state = 2463534242u;
    state ^= state << 13;
    state ^= state >> 17;
    state ^= state << 5;
    return ((double)state / 2147483648.0 - 1) / 512;
}

/* The picture in linear values. */
static void make_linear(const uint8_t *codes, float *lights)
{
    static double light[1024];
    double grain = 0;
    for (unsigned code = 0; code < 1024; code++)
        light[code] = light_of_code(code);
    for (size_t p = 0; p < (size_t)WIDTH * HEIGHT; p++) {
        const uint8_t *pixel = codes + 6 * p;
        if (p == 0 || memcmp(pixel, pixel - 6, 6) != 0)
            grain = draw();
        for (size_t i = 0; i < 3; i++)
            lights[3 * p + i] = (float)(light[pixel[2 * i] << 8 | pixel[2 * i + 1]] * (1 + grain));
    }
}

/* How many of the codes differ, in percent. */
static double share_of_others(const uint8_t *x, const uint8_t *y, int rows)
{
    size_t codes = (size_t)rows * WIDTH * 3, different = 0;
    for (size_t i = 0; i < codes; i++)
        different += x[2 * i] != y[2 * i] || x[2 * i + 1] != y[2 * i + 1];
    return 100.0 * (double)different / (double)codes;
}

int main(int count, char **paths)
{
    uint8_t *dst[WAYS];
    float *lights = malloc(sizeof(float) * FLOATS * HEIGHT);
    if (count < 3 || !lights)
        stop("usage: linear PEAK PICTURE...");
    peak = atof(paths[1]);
    fill_linear_tables(&tables, peak);
    for (int way = 0; way < WAYS; way++)
        dst[way] = touched_bytes();
    for (int i = 2; i < count; i++) {
        uint8_t *codes = read_picture(paths[i]);
        double pilot = 0, times[WAYS][ROUNDS], median[WAYS];
        make_linear(codes, lights);
        for (int way = 0; way < WAYS; way++)
            pilot += time_rows(way, codes, lights, dst[way], 10);
        double affordable = SECONDS / (count - 2) / ROUNDS / (1e-9 * pilot * WIDTH);
        int rows = affordable < HEIGHT ? (int)affordable : HEIGHT;
        rows = rows < 1 ? 1 : rows;
        for (int round = 0; round < ROUNDS; round++)
            for (int way = 0; way < WAYS; way++)
                times[way][round] = time_rows(way, codes, lights, dst[way], rows);
        printf("linear peak %.0f picture %s rows %d\n", peak, name_of(paths[i]), rows);
        for (int way = 0; way < WAYS; way++)
            median[way] = median_of(times[way]);
        for (int way = 0; way < WAYS; way++)
            printf("%s %.2f ns/pixel, %.4f of linear_libm (rounds %.2f to %.2f)\n", NAMES[way], median[way], median[way] / median[LIBM],
                   times[way][0], times[way][ROUNDS - 1]);
        for (int way = LIBM; way < WAYS; way++)
            printf("codes of %s other than the linear call's: %.3f %%\n", NAMES[way], share_of_others(dst[LINEAR_CALL], dst[way], rows));
        fflush(stdout);
        free(codes);
    }
    free(lights);
    return 0;
}
