/* SPDX-License-Identifier: MIT */
/* The converter for hosts in C: PQ rows of ten or twelve bits, narrow or full range, to HLG for a display of 1,000 cd/m2, ten
   bits, narrow range, as RGB or as Y'CbCr; and rows of linear floats to the same RGB.
   Link target/staticlib/libpq_hlg.a, made by `tools/build pq_hlg` (x86-64 Linux). */
#ifndef PQ_HLG_H
#define PQ_HLG_H

#include <stddef.h>
#include <stdint.h>

/* Version of this interface. It grows when a host written for the last one must change: other parameters, or another
   meaning of a number given or returned. CHANGELOG.md has a heading for each. */
#define PQ_HLG_ABI 2

/* Bits 3 and 4 of a format: the depth of the row's samples is twelve bits where the first stands, else ten; their range is full
   where the second stands, else narrow. A card has the same two bits in its bit map. */
#define PQ_HLG_TWELVE_BITS 8
#define PQ_HLG_FULL_RANGE 16

#ifdef __cplusplus
extern "C" {
#endif

/* Converts the span of pixels from first up to, but not including, end. Each goes to its own place in dst; all bytes of dst
   outside the span remain.

   A pixel is six bytes: red, green and blue as 16-bit samples, each with its high byte first. row holds PQ codes of the given
   format, at most 8,192 pixels; dst gets HLG codes from 64 to 1,019 in the same layout, ten bits and narrow range in every
   case. None is farther than 9/16 of a code from what the published formulas give unrounded, bent or not; of full-range
   samples one and a half codes. The peak is the one that the title declares, in whole cd/m2. An empty span (first equal to
   end) is accepted.

   Of format only bits 3 and 4 are read; the other 62 may be anything. Each format takes these samples, and reads those below
   its black or above its nominal peak as that:
     format  samples                    taken         black  nominal peak
     0       ten bits, narrow range     4 to 1,019    64     940
     8       twelve bits, narrow range  16 to 4,079   256    3,760
     16      ten bits, full range       0 to 1,023    0      1,023
     24      twelve bits, full range    0 to 4,095    0      4,095

   Returns 0, or a refusal plus 256 times its place (number % 256 and number / 256). A refused call leaves all of dst. The
   tests are made in this order:
     5  the peak is 0 or above 10,000
     6  row_len is no multiple of 6, or above 49,152
     7  dst_len differs from row_len
     8  first exceeds end, or end exceeds the row's pixels
     9  the span has a sample that the format does not take; the place says which one comes first, 0 being the row's first
        sample
   The place is 0 for 5 to 8. Samples outside the span are not looked at.

   A pointer may be null only where its length is 0, and needs no alignment. row and dst must not overlap. The library has no
   global state and no heap: nothing is kept between calls, and calls may run at the same time, also on one row, as long as no
   call's dst overlaps a row or dst of another. An accepted call, this or the next, uses 1.7 KiB of stack, measured on the
   compiled library by tests/host/stack.c, and the tests allow 72 KiB at most. The library needs memset from outside. */
uint64_t pq_hlg_convert_row(uint64_t peak, uint64_t format,
                            const uint8_t *row, size_t row_len,
                            uint8_t *dst, size_t dst_len,
                            size_t first, size_t end);

/* The same in Y'CbCr: dst gets luma, Cb and Cr in the places of red, green and blue, made of the HLG codes that
   pq_hlg_convert_row writes. They have ten bits and narrow range in every case too: luma from 64 to 1,019, Cb and Cr from 24 to
   1,000, both 512 where the pixel is grey. All else is as for pq_hlg_convert_row, the refusals and their order included. */
uint64_t pq_hlg_convert_row_ycbcr(uint64_t peak, uint64_t format,
                                  const uint8_t *row, size_t row_len,
                                  uint8_t *dst, size_t dst_len,
                                  size_t first, size_t end);

/* Converts linear values: three 32-bit floats a pixel, red, green and blue, display light in cd/m2, at most 8,192 pixels. row_len
   counts floats, dst_len bytes: dst gets two bytes for each float, HLG codes as pq_hlg_convert_row writes them, whatever the depth
   and range of the title. first and end count pixels; the span and what remains of dst are as there.

   A value below 0 counts as 0 (minus zero is no such value), one above 10,000 as 10,000. Under a peak up to 1,000, and when the
   brightest value lies a whole code below the knee of the curve, no code is farther than 9/16 of a code from what the published
   formulas give unrounded of the values so counted; elsewhere none is farther than one and a half codes.

   Returns 0, or a refusal plus 256 times its place. A refused call leaves all of dst. The tests are made in this order:
      5  the peak is 0 or above 10,000
     15  row_len is no multiple of 3, or above 24,576
      7  dst_len is not twice row_len
      8  first exceeds end, or end exceeds the row's pixels
     16  the span has a value that is infinite or not a number; the place says which one comes first, 0 being the row's first float
   The place is 0 for all but 16. Values outside the span are not looked at.

   row lies as floats must, at a multiple of 4 bytes. An accepted call uses 1.6 KiB of stack. All else is as for
   pq_hlg_convert_row. */
uint64_t pq_hlg_convert_row_linear(uint64_t peak,
                                   const float *row, size_t row_len,
                                   uint8_t *dst, size_t dst_len,
                                   size_t first, size_t end);

#ifdef __cplusplus
}
#endif

#endif
