/* Answers a stream of row calls, so that a program which shares nothing with
 * the engine can say what each answer should have been.
 *
 * Standard input: calls one after the other. A call is seven 64-bit numbers in
 * the machine's order (struct call), then the row's bytes; bits of its options
 * choose between the RGB call, the Y'CbCr call, that of the return path and that
 * on sRGB, which take neither peak nor format, and that on linear values, which takes no format
 * and counts its row in floats of the machine's order. Standard output: for each call the number, what was harmed (0 if nothing), then every byte of
 * the destination. A row or destination longer than LONGEST has no bytes in
 * the stream: its pointer leads to memory that must not be touched.
 *
 * A row and a destination lie in pages of their own, right before or right
 * behind a page that traps. The rest of their pages holds guard bytes, which
 * are looked at after each call. With -DHEAP=COUNT both lie in blocks of the
 * heap instead, with so many guard bytes on either side.
 */
#include "hlg_pq.h"
#include "pq_hlg.h"
#include "srgb_hlg.h"

#include <stdio.h>
#include <stdlib.h>
#include <string.h>
#include <sys/mman.h>

enum { LONGEST = 102400, TRAP = 65536, GUARD = 0x5A };      /* the longest is a whole number of pages, so that floats lie as they must */

/* Bits of `options`; its lowest eight are the destination's first byte. */
enum { ROW_AT_START = 256, DST_AT_START = 512, ROW_NULL = 1024, DST_NULL = 2048, YCBCR = 4096, RETURN = 8192, LINEAR = 16384, SRGB = 32768 };

/* Bits of `harm`. */
enum { ROW_CHANGED = 1, GUARD_OF_ROW = 2, GUARD_OF_DST = 4 };

struct call {
    uint64_t peak, format, row_len, dst_len, first, end, options;
};

struct answer {
    uint64_t number, harm;
};

static void stop(const char *why)
{
    fprintf(stderr, "compare: %s\n", why);
    exit(2);
}

/* Memory that traps when it is touched. */
static uint8_t *map_trap(size_t bytes)
{
    void *at = mmap(NULL, bytes, PROT_NONE, MAP_PRIVATE | MAP_ANONYMOUS | MAP_NORESERVE, -1, 0);
    if (at == MAP_FAILED)
        stop("no memory");
    return at;
}

#ifdef HEAP

static const size_t MARGIN = HEAP;

/* So many bytes in a block of their own, with guard bytes on either side. */
static uint8_t *place(uint8_t **block, size_t bytes, int at_start)
{
    (void)at_start;
    free(*block);
    *block = malloc(MARGIN + bytes + MARGIN);
    if (!*block)
        stop("no memory");
    memset(*block, GUARD, MARGIN + bytes + MARGIN);
    return *block + MARGIN;
}

static int guards_stand(uint8_t *const *block, const uint8_t *at, size_t bytes)
{
    for (size_t i = 0; i < MARGIN; i++)
        if ((*block)[i] != GUARD || at[bytes + i] != GUARD)
            return 0;
    return 1;
}

#else

static uint8_t guards[LONGEST];

/* So many bytes at one end of LONGEST usable ones, the others guard bytes. */
static uint8_t *place(uint8_t **block, size_t bytes, int at_start)
{
    if (!*block) {
        *block = map_trap(TRAP + LONGEST + TRAP) + TRAP;
        if (mprotect(*block, LONGEST, PROT_READ | PROT_WRITE))
            stop("no memory");
        memset(guards, GUARD, LONGEST);
    }
    memset(*block, GUARD, LONGEST);
    return at_start ? *block : *block + LONGEST - bytes;
}

static int guards_stand(uint8_t *const *block, const uint8_t *at, size_t bytes)
{
    size_t before = (size_t)(at - *block);
    return !memcmp(*block, guards, before)
        && !memcmp(at + bytes, guards, LONGEST - before - bytes);
}

#endif

/* The call that the options choose. */
static uint64_t convert(const struct call *call, const uint8_t *row, uint8_t *dst)
{
    if (call->options & LINEAR)
        return pq_hlg_convert_row_linear(call->peak, (const float *)(const void *)row, call->row_len, dst, call->dst_len, call->first, call->end);
    if (call->options & RETURN)
        return hlg_pq_convert_row(row, call->row_len, dst, call->dst_len, call->first, call->end);
    if (call->options & SRGB)
        return srgb_hlg_convert_row(row, call->row_len, dst, call->dst_len, call->first, call->end);
    return (call->options & YCBCR ? pq_hlg_convert_row_ycbcr : pq_hlg_convert_row)(
        call->peak, call->format, row, call->row_len, dst, call->dst_len, call->first, call->end);
}

static int read_whole(void *to, size_t bytes)
{
    return fread(to, 1, bytes, stdin) == bytes;
}

static void write_whole(const void *from, size_t bytes)
{
    if (fwrite(from, 1, bytes, stdout) != bytes)
        stop("cannot write");
}

int main(void)
{
    static uint8_t kept[LONGEST], *row_block, *dst_block;
    uint8_t *nowhere = map_trap((size_t)1 << 34);
    struct call call;

    while (read_whole(&call, sizeof call)) {
        size_t row_bytes = call.row_len * (call.options & LINEAR ? sizeof(float) : 1);
        int row_here = row_bytes <= LONGEST, dst_here = call.dst_len <= LONGEST;
        uint8_t *row = nowhere, *dst = nowhere;
        struct answer answer = { 0, 0 };

        if (row_here) {
            row = place(&row_block, row_bytes, !!(call.options & ROW_AT_START));
            if (!read_whole(row, row_bytes))
                stop("a call is cut short");
            memcpy(kept, row, row_bytes);
        }
        if (dst_here) {
            dst = place(&dst_block, call.dst_len, !!(call.options & DST_AT_START));
            for (size_t i = 0; i < call.dst_len; i++)
                dst[i] = (uint8_t)(call.options + i);
        }
        answer.number = convert(&call, call.options & ROW_NULL && !call.row_len ? NULL : row,
                                call.options & DST_NULL && !call.dst_len ? NULL : dst);
        if (row_here && memcmp(kept, row, row_bytes))
            answer.harm |= ROW_CHANGED;
        if (row_here && !guards_stand(&row_block, row, row_bytes))
            answer.harm |= GUARD_OF_ROW;
        if (dst_here && !guards_stand(&dst_block, dst, call.dst_len))
            answer.harm |= GUARD_OF_DST;
        write_whole(&answer, sizeof answer);
        if (dst_here)
            write_whole(dst, call.dst_len);
        if (fflush(stdout))
            stop("cannot write");
    }
    return ferror(stdin) ? 2 : 0;
}
