/* Times the exact hlg_codes of one or more trees by itself, all in turns.
 *
 * Built by exact.py, which says in EACH(X) which trees there are. Of tree n two
 * functions are linked: exact_codes_n gives the sum of the three codes,
 * exact_step_n reads one step, for which a tree that keeps the step table as a
 * constant fills it.
 *
 * A component is drawn by lot from 0 to 1,000 cd/m2 and halved up to 19 times,
 * each number of times alike. A time is the median of ROUNDS, in CPU time.
 */
#include "timing.h"

#include <stdio.h>

#define DECLARE(n) \
    uint64_t exact_codes_##n(uint64_t red, uint64_t green, uint64_t blue); \
    uint64_t exact_step_##n(uint64_t code);
#define CODES(n) exact_codes_##n,
#define STEP(n) exact_step_##n,
EACH(DECLARE)

enum { PIXELS = 20000, HALVINGS = 20, ONE = 7, WAYS = 3 };

static const char *const NAMES[WAYS] = { "pixels drawn by lot", "one pixel, again and again", "one step" };
static uint64_t (*const codes[])(uint64_t, uint64_t, uint64_t) = { EACH(CODES) };
static uint64_t (*const step[])(uint64_t) = { EACH(STEP) };
enum { TREES = sizeof(codes) / sizeof(codes[0]) };

static uint64_t pixels[PIXELS][3];

/* Marsaglia's xorshift, so that every compiler and machine draws the same. */
static uint64_t draw(void)
{
    static uint64_t state = 88172645463325252u;
    state ^= state << 13;
    state ^= state >> 7;
    state ^= state << 17;
    return state;
}

static uint64_t draw_component(void)
{
    uint64_t light = draw() % 16777216001u;
    return light >> draw() % HALVINGS;
}

static uint64_t convert(int tree, int way, size_t i)
{
    const uint64_t *p = pixels[way == 0 ? i : ONE];
    return way == 2 ? step[tree](i % 1024) : codes[tree](p[0], p[1], p[2]);
}

/* Nanoseconds of one call, over all pixels; the sum of what the calls gave. */
static double time_calls(int tree, int way, uint64_t *sum)
{
    double start = now();
    *sum = 0;
    for (size_t i = 0; i < PIXELS; i++)
        *sum += convert(tree, way, i);
    return 1e9 * (now() - start) / PIXELS;
}

int main(void)
{
    for (size_t i = 0; i < PIXELS; i++)
        for (int c = 0; c < 3; c++)
            pixels[i][c] = draw_component();
    for (int way = 0; way < WAYS; way++) {
        double times[TREES][ROUNDS];
        uint64_t sums[TREES];
        for (int round = 0; round < ROUNDS; round++)
            for (int tree = 0; tree < TREES; tree++) {
                times[tree][round] = time_calls(tree, way, &sums[tree]);
                if (sums[tree] != sums[0])
                    stop("two trees give different codes");
            }
        printf("%s:", NAMES[way]);
        for (int tree = 0; tree < TREES; tree++) {
            double median = median_of(times[tree]);
            printf(" %.0f ns (%.0f to %.0f)", median, times[tree][0], times[tree][ROUNDS - 1]);
        }
        printf("\n");
    }
    return 0;
}
