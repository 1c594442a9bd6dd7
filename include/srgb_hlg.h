/* SPDX-License-Identifier: MIT */
/* Captions for hosts in C: rows of eight-bit sRGB to HLG of ten bits and narrow range, RGB in BT.2020 primaries. White, 255 255 255,
   becomes 721 721 721, three quarters of HLG's nominal range. Link target/staticlib/libsrgb_hlg.a, made by `tools/build srgb_hlg`
   (x86-64 Linux). A program may link libpq_hlg.a (pq_hlg.h) and libhlg_pq.a (hlg_pq.h) as well. */
#ifndef SRGB_HLG_H
#define SRGB_HLG_H

#include <stddef.h>
#include <stdint.h>

/* Version of this interface, counted apart from those of pq_hlg.h and hlg_pq.h. It grows when a host written for the last one must
   change: other parameters, or another meaning of a number given or returned. CHANGELOG.md says what changed. */
#define SRGB_HLG_ABI 1

#ifdef __cplusplus
extern "C" {
#endif

/* Converts the span of pixels from first up to, but not including, end. Each goes to its own place in dst; all bytes of dst
   outside the span remain.

   A pixel of row is three bytes, the sRGB values of red, green and blue; row holds at most 8,192 pixels. A pixel of dst is six bytes:
   red, green and blue as 16-bit samples, each with its high byte first. dst gets HLG codes from 64 to 721. Every value is taken. An
   empty span (first equal to end) is accepted.

   Returns 0, or a refusal. A refused call leaves all of dst. The tests are made in this order:
     18  row_len is no multiple of 3, or above 24,576
      7  dst_len differs from 2 * row_len
      8  first is above end, or end above the row's count of pixels
   The place of a refusal, which other row calls add 256 times, is 0 for all of these.

   A pointer may be null only where its length is 0, and needs no alignment. row and dst must not overlap. The library has no
   global state and no heap: nothing is kept between calls, and calls may run at the same time, also on one row, as long as no
   call's dst overlaps a row or dst of another. An accepted call uses 0.3 KiB of stack, measured on the compiled library by
   tests/host/stack.c, and the tests allow 72 KiB at most. The library needs nothing from outside. */
uint64_t srgb_hlg_convert_row(const uint8_t *row, size_t row_len,
                              uint8_t *dst, size_t dst_len,
                              size_t first, size_t end);

#ifdef __cplusplus
}
#endif

#endif
