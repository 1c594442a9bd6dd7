/* How much of its thread's stack each of the row calls uses, those to HLG in any format, and that it isn't more than LIMIT.
 *
 * A thread gets a stack that has been painted; after its calls the lowest byte
 * of another colour shows how deep they wrote. Long frames are touched page by
 * page as they are made, so what is reserved and never written counts too.
 */
#include <pthread.h>
#include <stdio.h>
#include <stdlib.h>
#include <string.h>
#include <sys/mman.h>

#include "hlg_pq.h"
#include "pq_hlg.h"
#include "srgb_hlg.h"

enum { STACK = 1 << 20, COLOUR = 0xA5, LIMIT = 72 * 1024, LONGEST = 8192 };

static const uint64_t PEAKS[] = {1, 1000, 1001, 4000, 10000};
static const uint64_t FORMATS[] = {0, PQ_HLG_TWELVE_BITS, PQ_HLG_FULL_RANGE, PQ_HLG_TWELVE_BITS | PQ_HLG_FULL_RANGE};
static const size_t LENGTHS[] = {0, 1, 32, 33, LONGEST};

/* Pixels of ten-bit narrow range that no guess settles, so that the exact comparison makes their codes: four under a peak of
   1,000, four under 4,000, three under 10,000. */
static const unsigned EXACT[][3] = {{660, 236, 539}, {287, 268, 136}, {657, 582, 933}, {843, 523, 211},
                                    {690, 628, 823}, {413, 606, 933}, {562, 776, 695}, {452, 935, 872},
                                    {378, 645, 337}, {765, 907, 650}, {782, 604, 865}};

/* HLG colours that are delicate on the way back, of which a light lies at the threshold of a code or a unit below one; and the
   brightest. */
static const unsigned DELICATE[][3] = {{140, 436, 503}, {172, 677, 247}, {213, 744, 155}, {177, 557, 248}, {527, 488, 513},
                                       {373, 641, 882}, {995, 928, 337}, {1019, 1019, 1019}};

/* Linear values by their bits, of which a code has just gone up: four under a peak of 1,000, four under 4,000, four under 10,000. */
static const uint32_t AT_STEPS[][3] = {
    {0x439b6b3a, 0x439b6b3a, 0x40e6036f}, {0x4479fffd, 0x4479fffd, 0x3fd6fe17}, {0x447a0001, 0x447a0001, 0x42b5a627},
    {0x452dcff7, 0x442ac8a5, 0x452dcff7}, {0x43970528, 0x42f38d2e, 0x457a0003}, {0x447a0002, 0x447a0002, 0x43d4e82a},
    {0x43443473, 0x446189de, 0x457a00a6}, {0x43874e78, 0x43874e78, 0x4155c022}, {0x3d0a0420, 0x44382f2d, 0x3f9997c6},
    {0x42c8a55c, 0x4478fee4, 0x4478fee4}, {0x39d3a000, 0x3fdea6bd, 0x45b93dc6}, {0x42fb1f1c, 0x44a6f247, 0x44f9ce63}};

/* sRGB colours of which a scene light lies nearest to a step of HLG, on either side, and white. */
static const uint8_t BESIDE_STEPS[][3] = {{6, 107, 50}, {129, 56, 21}, {177, 55, 183}, {218, 78, 98}, {17, 20, 67}, {98, 20, 232},
                                          {143, 189, 194}, {63, 43, 3}, {2, 11, 35}, {17, 6, 41}, {0, 0, 32}, {255, 255, 255}};

enum {
    EXACTS = sizeof EXACT / sizeof *EXACT,
    DELICATES = sizeof DELICATE / sizeof *DELICATE,
    STEPS = sizeof AT_STEPS / sizeof *AT_STEPS,
    CAPTIONS = sizeof BESIDE_STEPS / sizeof *BESIDE_STEPS
};

typedef uint64_t row_call(uint64_t, uint64_t, const uint8_t *, size_t, uint8_t *, size_t, size_t, size_t);

/* The return path's call, which takes neither peak nor format. */
static uint64_t convert_back(uint64_t peak, uint64_t format, const uint8_t *from, size_t from_len, uint8_t *to, size_t to_len,
                             size_t first, size_t end) {
    (void)peak, (void)format;
    return hlg_pq_convert_row(from, from_len, to, to_len, first, end);
}

static row_call *measured;
static uint8_t *stack, row[6 * LONGEST], dst[6 * LONGEST];
static float values[3 * LONGEST];

/* The call on linear values, which takes no format: a float stands for two bytes of a row. */
static uint64_t convert_linear(uint64_t peak, uint64_t format, const uint8_t *from, size_t from_len, uint8_t *to, size_t to_len,
                               size_t first, size_t end) {
    (void)format, (void)from;
    return pq_hlg_convert_row_linear(peak, values, from_len / 2, to, to_len, first, end);
}

/* The call on sRGB, which takes neither peak nor format: a value stands for two bytes of a row. */
static uint64_t convert_srgb(uint64_t peak, uint64_t format, const uint8_t *from, size_t from_len, uint8_t *to, size_t to_len,
                             size_t first, size_t end) {
    (void)peak, (void)format;
    return srgb_hlg_convert_row(from, from_len / 2, to, to_len, first, end);
}

static size_t deepest;

static void stop(const char *why) {
    fprintf(stderr, "stack: %s\n", why);
    exit(1);
}

static void put_sample(size_t i, unsigned code) {
    row[2 * i] = (uint8_t)(code >> 8);
    row[2 * i + 1] = (uint8_t)(code & 255);
}

static void convert(uint64_t peak, uint64_t format, size_t pixels) {
    if (measured(peak, format, row, 6 * pixels, dst, 6 * pixels, 0, pixels))
        stop("a row call refused a row");
}

/* Codes drawn evenly from 16 to 1,019, which every format takes, and of twelve bits up to 4,079. */
static void draw_row(uint64_t format) {
    uint32_t lot = 1;
    for (size_t i = 0; i < 3 * LONGEST; i++) {
        lot = 1664525 * lot + 1013904223;
        put_sample(i, 16 + (lot >> 8) % (format & PQ_HLG_TWELVE_BITS ? 4064 : 1004));
    }
}

/* sRGB values drawn evenly. */
static void draw_bytes(void) {
    uint32_t lot = 1;
    for (size_t i = 0; i < 3 * LONGEST; i++) {
        lot = 1664525 * lot + 1013904223;
        row[i] = (uint8_t)(lot >> 24);
    }
}

/* Linear values from 2^-25 to above 10,000 cd/m2, about as many of each power of two, every sixteenth negative. */
static void draw_values(void) {
    uint32_t lot = 1;
    for (size_t i = 0; i < 3 * LONGEST; i++) {
        lot = 1664525 * lot + 1013904223;
        uint32_t bits = 0x33000000 + (lot >> 4) % 0x13800000 + (lot >> 28 == 0 ? 0x80000000 : 0);
        memcpy(values + i, &bits, sizeof bits);
    }
}

static void *make_calls(void *nothing) {
    uint8_t *here = __builtin_frame_address(0);
    size_t formats = measured == pq_hlg_convert_row || measured == pq_hlg_convert_row_ycbcr ? sizeof FORMATS / sizeof *FORMATS : 1;
    draw_values();
    for (size_t f = 0; f < formats; f++) {
        draw_row(FORMATS[f]);
        if (measured == convert_srgb)
            draw_bytes();
        for (size_t i = 0; i < sizeof PEAKS / sizeof *PEAKS; i++)
            for (size_t j = 0; j < sizeof LENGTHS / sizeof *LENGTHS; j++)
                convert(PEAKS[i], FORMATS[f], LENGTHS[j]);
    }
    for (size_t i = 0; i < 3 * EXACTS; i++)
        put_sample(i, EXACT[i / 3][i % 3]);
    for (size_t i = 0; i < sizeof PEAKS / sizeof *PEAKS; i++)
        convert(PEAKS[i], 0, EXACTS);
    for (size_t i = 0; i < 3 * DELICATES; i++)
        put_sample(i, DELICATE[i / 3][i % 3]);
    convert(1000, 0, DELICATES);
    memcpy(values, AT_STEPS, sizeof AT_STEPS);
    for (size_t i = 0; measured == convert_linear && i < sizeof PEAKS / sizeof *PEAKS; i++)
        convert(PEAKS[i], 0, STEPS);
    if (measured == convert_srgb) {
        memcpy(row, BESIDE_STEPS, sizeof BESIDE_STEPS);
        convert(1000, 0, CAPTIONS);
    }
    uint8_t *lowest = stack;
    while (*lowest == COLOUR)
        lowest++;
    deepest = (size_t)(here - lowest);
    return nothing;
}

/* The stack that one of the calls uses, in KiB. */
static double stack_of(row_call *call) {
    pthread_attr_t attributes;
    pthread_t thread;
    measured = call;
    memset(stack, COLOUR, STACK);
    if (pthread_attr_init(&attributes) || pthread_attr_setstack(&attributes, stack, STACK)
        || pthread_create(&thread, &attributes, make_calls, NULL) || pthread_join(thread, NULL))
        stop("no thread");
    if (deepest > LIMIT)
        stop("a call uses more than 72 KiB");
    return (double)deepest / 1024;
}

int main(void) {
    stack = mmap(NULL, STACK, PROT_READ | PROT_WRITE, MAP_PRIVATE | MAP_ANONYMOUS, -1, 0);
    if (stack == MAP_FAILED)
        stop("no memory");
    double rgb = stack_of(pq_hlg_convert_row), ycbcr = stack_of(pq_hlg_convert_row_ycbcr), back = stack_of(convert_back);
    double linear = stack_of(convert_linear), srgb = stack_of(convert_srgb);
    printf("a call uses %.1f KiB of stack in RGB, %.1f KiB in Y'CbCr, %.1f KiB on the return path, %.1f KiB on linear values, %.1f KiB on sRGB\n", rgb,
           ycbcr, back, linear, srgb);
    return 0;
}
