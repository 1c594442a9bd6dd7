/* SPDX-License-Identifier: MIT */
/* The return path for hosts in C: HLG rows, as a display of 1,000 cd/m2 shows them, to PQ, both of ten bits and narrow range, RGB.
   Link target/staticlib/libhlg_pq.a, made by `tools/build hlg_pq` (x86-64 Linux). A program may link libpq_hlg.a (pq_hlg.h), the
   way from PQ to HLG, as well. */
#ifndef HLG_PQ_H
#define HLG_PQ_H

#include <stddef.h>
#include <stdint.h>

/* Version of this interface, counted apart from that of pq_hlg.h. It grows when a host written for the last one must change: other
   parameters, or another meaning of a number given or returned. CHANGELOG.md says what changed. */
#define HLG_PQ_ABI 1

#ifdef __cplusplus
extern "C" {
#endif

/* Converts the span of pixels from first up to, but not including, end. Each goes to its own place in dst; all bytes of dst
   outside the span remain.

   A pixel is six bytes: red, green and blue as 16-bit samples, each with its high byte first. row holds HLG codes, at most 8,192
   pixels; dst gets PQ codes from 64 to 779 in the same layout. Samples from 4 to 1,019 are taken, and those below 64 read as 64;
   those above 940 mean what they say, up to 1,811 cd/m2 for a white of 1,019. There is no peak to declare. An empty span (first
   equal to end) is accepted.

   Returns 0, or a refusal plus 256 times its place (number % 256 and number / 256). A refused call leaves all of dst. The
   tests are made in this order:
     6  row_len is no multiple of 6, or above 49,152
     7  dst_len differs from row_len
     8  first is above end, or end above the row's count of pixels
     9  the span has a sample that is not from 4 to 1,019; the place says which one comes first, 0 being the row's first
        sample
   The place is 0 for 6 to 8. Samples outside the span are not looked at.

   A pointer may be null only where its length is 0, and needs no alignment. row and dst must not overlap. The library has no
   global state and no heap: nothing is kept between calls, and calls may run at the same time, also on one row, as long as no
   call's dst overlaps a row or dst of another. An accepted call uses 3.4 KiB of stack, measured on the compiled library by
   tests/host/stack.c, and the tests allow 72 KiB at most. The library needs memset from outside. */
uint64_t hlg_pq_convert_row(const uint8_t *row, size_t row_len,
                            uint8_t *dst, size_t dst_len,
                            size_t first, size_t end);

#ifdef __cplusplus
}
#endif

#endif
