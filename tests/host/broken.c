/* Engines with one fault each, made of the right one: broken.py renames the
 * libraries' calls to right_row, right_ycbcr, right_return, right_linear and
 * right_srgb and builds this with -DWRONG_ROW=NAME_OF_A_FAULT, or with
 * -DWRONG_YCBCR=NAME where the fault's heading has YCBCR_CALL, with
 * -DWRONG_RETURN=NAME where it has RETURN_CALL, with -DWRONG_LINEAR=NAME where it
 * has LINEAR_CALL, with -DWRONG_SRGB=NAME where it has SRGB_CALL.
 */
#include "hlg_pq.h"
#include "pq_hlg.h"
#include "srgb_hlg.h"

#include <math.h>
#include <string.h>

#ifndef WRONG_ROW
#define WRONG_ROW right_row
#endif
#ifndef WRONG_YCBCR
#define WRONG_YCBCR right_ycbcr
#endif
#ifndef WRONG_RETURN
#define WRONG_RETURN right_return
#endif
#ifndef WRONG_LINEAR
#define WRONG_LINEAR right_linear
#endif
#ifndef WRONG_SRGB
#define WRONG_SRGB right_srgb
#endif

#define CALL uint64_t peak, uint64_t format, const uint8_t *row, size_t row_len, uint8_t *dst, size_t dst_len, size_t first, size_t end
#define YCBCR_CALL CALL
#define GIVEN peak, format, row, row_len, dst, dst_len, first, end
#define RETURN_CALL const uint8_t *row, size_t row_len, uint8_t *dst, size_t dst_len, size_t first, size_t end
#define RETURNED row, row_len, dst, dst_len, first, end
#define LINEAR_CALL uint64_t peak, const float *row, size_t row_len, uint8_t *dst, size_t dst_len, size_t first, size_t end
#define LINEAR peak, row, row_len, dst, dst_len, first, end
#define SRGB_CALL RETURN_CALL
#define CAPTIONS RETURNED

uint64_t right_row(CALL);
uint64_t right_ycbcr(CALL);
uint64_t right_return(RETURN_CALL);
uint64_t right_linear(LINEAR_CALL);
uint64_t right_srgb(SRGB_CALL);

static int peak_sound(uint64_t peak)
{
    return 1 <= peak && peak <= 10000;
}

/* 7 is tested before 6. */
static uint64_t destination_before_row(CALL)
{
    return peak_sound(peak) && dst_len != row_len ? 7 : right_row(GIVEN);
}

/* 8 is tested before 7. */
static uint64_t span_before_destination(CALL)
{
    uint64_t number = right_row(GIVEN);
    return number == 7 && (first > end || end > row_len / 6) ? 8 : number;
}

/* 5 is tested after the others; a call that would be converted is not. */
static uint64_t peak_tested_last(CALL)
{
    if (peak_sound(peak))
        return right_row(GIVEN);
    if (row_len % 6 || row_len > 49152)
        return 6;
    return dst_len != row_len ? 7 : 5;
}

/* The product 6 * end is tested instead of end, and wraps round. */
static uint64_t span_wraps(CALL)
{
    uint64_t number = right_row(GIVEN);
    return number == 8 && first <= end && 6 * end <= row_len ? 0 : number;
}

/* Peaks are cut to 32 bits. */
static uint64_t peak_cut_short(CALL)
{
    return right_row((uint32_t)peak, format, row, row_len, dst, dst_len, first, end);
}

/* The place is counted from the span's first pixel. */
static uint64_t place_in_span(CALL)
{
    uint64_t number = right_row(GIVEN);
    return number % 256 == 9 ? number - 256 * 3 * first : number;
}

static uint64_t refuses_highest_peak(CALL)
{
    return peak == 10000 ? 5 : right_row(GIVEN);
}

/* A refusal of a sample leaves one byte written. */
static uint64_t refused_call_writes(CALL)
{
    uint64_t number = right_row(GIVEN);
    if (number % 256 == 9)
        dst[6 * first] ^= 1;
    return number;
}

static uint64_t last_pixel_left_out(CALL)
{
    return right_row(peak, format, row, row_len, dst, dst_len, first, end > first ? end - 1 : end);
}

/* The byte after the span is cleared. */
static uint64_t byte_after_span(CALL)
{
    uint64_t number = right_row(GIVEN);
    if (!number && 6 * end < dst_len)
        dst[6 * end] = 0;
    return number;
}

/* The byte after the destination is written with what it held. */
static uint64_t byte_after_destination(CALL)
{
    uint64_t number = right_row(GIVEN);
    volatile uint8_t *after = dst + dst_len;
    if (!number && dst_len)
        *after = *after;
    return number;
}

static uint64_t byte_before_destination(CALL)
{
    uint64_t number = right_row(GIVEN);
    if (!number && dst_len)
        dst[-1] = 0;
    return number;
}

/* A byte is read after the row. */
static uint64_t reads_after_row(CALL)
{
    const volatile uint8_t *after = row + row_len;
    if (row_len && row_len <= 49152)
        (void)*after;
    return right_row(GIVEN);
}

/* One code is one too large, in blue only and for one brightest code. */
static uint64_t one_code_off(CALL)
{
    uint64_t number = right_row(GIVEN);
    for (size_t p = first; !number && p < end; p++)
        if (row[6 * p] == 2 && row[6 * p + 1] == 211 && dst[6 * p + 5] == 172)
            dst[6 * p + 5] = 173;
    return number;
}

/* HLG is cut at 940, so that pure colours lose their overshoot. */
static uint64_t cut_at_940(CALL)
{
    uint64_t number = right_row(GIVEN);
    for (size_t i = 3 * first; !number && i < 3 * end; i++)
        if (dst[2 * i] == 3 && dst[2 * i + 1] > 172)
            dst[2 * i + 1] = 172;
    return number;
}

static unsigned sample(const uint8_t *pixel, int place)
{
    return 256u * pixel[2 * place] + pixel[2 * place + 1];
}

static void put_sample(uint8_t *pixel, int place, unsigned code)
{
    pixel[2 * place] = (uint8_t)(code >> 8);
    pixel[2 * place + 1] = (uint8_t)code;
}

static uint64_t chroma_exchanged(YCBCR_CALL)
{
    uint64_t number = right_ycbcr(GIVEN);
    for (size_t p = first; !number && p < end; p++) {
        unsigned cb = sample(dst + 6 * p, 1);
        put_sample(dst + 6 * p, 1, sample(dst + 6 * p, 2));
        put_sample(dst + 6 * p, 2, cb);
    }
    return number;
}

/* The RGB codes of an accepted call, for faults that need them. */
static uint8_t rgb[49152];

/* Luma is one code lower where its fraction, in ten-thousandths, is from least up to most. */
static uint64_t lower_luma(CALL, unsigned least, unsigned most)
{
    uint64_t number = right_ycbcr(GIVEN);
    if (!number)
        right_row(peak, format, row, row_len, rgb, dst_len, first, end);
    for (size_t p = first; !number && p < end; p++) {
        const uint8_t *codes = rgb + 6 * p;
        unsigned sum = 2627 * (sample(codes, 0) - 64) + 6780 * (sample(codes, 1) - 64) + 593 * (sample(codes, 2) - 64);
        if (least <= sum % 10000 && sum % 10000 <= most)
            put_sample(dst + 6 * p, 0, sample(dst + 6 * p, 0) - 1);
    }
    return number;
}

static uint64_t luma_rounded_down(YCBCR_CALL)
{
    return lower_luma(GIVEN, 5000, 9999);
}

static uint64_t halves_of_luma_rounded_down(YCBCR_CALL)
{
    return lower_luma(GIVEN, 5000, 5000);
}

/* Cb is made of luma after its rounding: 112 * 10,000 / 2,060,133 of the difference in codes, to nearest. */
static uint64_t chroma_of_rounded_luma(YCBCR_CALL)
{
    uint64_t number = right_ycbcr(GIVEN);
    if (!number)
        right_row(peak, format, row, row_len, rgb, dst_len, first, end);
    for (size_t p = first; !number && p < end; p++) {
        long cb = 1120000 * ((long)sample(rgb + 6 * p, 2) - (long)sample(dst + 6 * p, 0));
        put_sample(dst + 6 * p, 1, (unsigned)(512 + (2 * cb + (cb < 0 ? -2060133 : 2060133)) / (2 * 2060133)));
    }
    return number;
}

/* A refusal of a sample leaves one byte written. */
static uint64_t refused_ycbcr_call_writes(YCBCR_CALL)
{
    uint64_t number = right_ycbcr(GIVEN);
    if (number % 256 == 9)
        dst[6 * first] ^= 1;
    return number;
}

static uint64_t rgb_delivered(YCBCR_CALL)
{
    return right_row(GIVEN);
}

/* The RGB call gives luma and chroma. */
static uint64_t ycbcr_delivered(CALL)
{
    return right_ycbcr(GIVEN);
}

/* The range is not looked at. */
static uint64_t range_ignored(CALL)
{
    return right_row(peak, format & ~(uint64_t)PQ_HLG_FULL_RANGE, row, row_len, dst, dst_len, first, end);
}

static uint64_t depth_and_range_exchanged(CALL)
{
    uint64_t swapped = (format & PQ_HLG_TWELVE_BITS) << 1 | (format & PQ_HLG_FULL_RANGE) >> 1;
    return right_row(peak, swapped, row, row_len, dst, dst_len, first, end);
}

/* Depth and range count only where no other bit stands. */
static uint64_t unread_bit_read(CALL)
{
    return right_row(peak, format <= 24 ? format : 0, row, row_len, dst, dst_len, first, end);
}

static int full_range(uint64_t format)
{
    return (format & PQ_HLG_FULL_RANGE) != 0;
}

static int twelve_bits(uint64_t format)
{
    return (format & PQ_HLG_TWELVE_BITS) != 0;
}

/* A row with other samples, for faults of how they are read. */
static uint8_t other_row[49152];

/* Converts a row of which each sample is made another one, in another format; a call that the right one refuses before it
   looks at samples is left to it. */
static uint64_t convert_other(CALL, uint64_t other_format, unsigned (*made)(unsigned))
{
    if (row_len > sizeof other_row || row_len % 6 || first > end || end > row_len / 6)
        return right_row(GIVEN);
    for (size_t p = 0; p < row_len / 6; p++)
        for (int i = 0; i < 3; i++)
            put_sample(other_row + 6 * p, i, made(sample(row + 6 * p, i)));
    return right_row(peak, other_format, other_row, row_len, dst, dst_len, first, end);
}

/* 64 becomes 256 and 64 + 3,504 becomes 3,760; what the right call refuses, it still does. */
static unsigned shifted_black(unsigned code)
{
    if (code < 16 || code > 4079)
        return code;
    return code + 192 > 4079 ? 4079 : code + 192;
}

/* Black is 64 in twelve-bit narrow range too. */
static uint64_t twelve_bits_read_from_64(CALL)
{
    return twelve_bits(format) && !full_range(format) ? convert_other(GIVEN, format, shifted_black) : right_row(GIVEN);
}

static unsigned quadrupled(unsigned code)
{
    return code > 1023 ? 65535 : 4 * code;
}

/* Ten-bit full range is shifted to twelve bits, so that its full signal is 1,023.75 and not 1,023. */
static uint64_t full_range_by_a_shift(CALL)
{
    return full_range(format) && !twelve_bits(format) ? convert_other(GIVEN, format | PQ_HLG_TWELVE_BITS, quadrupled) : right_row(GIVEN);
}

static unsigned cut_to_twelve_bits(unsigned code)
{
    return code & 4095;
}

/* Samples past twelve bits lose their upper bits instead of being refused. */
static uint64_t samples_cut_to_the_depth(CALL)
{
    return full_range(format) && twelve_bits(format) ? convert_other(GIVEN, format, cut_to_twelve_bits) : right_row(GIVEN);
}

/* Full range has the limits of narrow range: the codes kept for timing are refused. */
static uint64_t limits_of_narrow_range(CALL)
{
    unsigned unit = twelve_bits(format) ? 16 : 4;
    if (full_range(format) && peak_sound(peak) && row_len % 6 == 0 && row_len <= 49152 && dst_len == row_len && first <= end && end <= row_len / 6)
        for (size_t i = 3 * first; i < 3 * end; i++)
            if (sample(row + 2 * i, 0) < unit || sample(row + 2 * i, 0) >= 255 * unit)
                return 9 + 256 * (uint64_t)i;
    return right_row(GIVEN);
}

static unsigned raised_to_sixteen(unsigned code)
{
    return code >= 4 && code < 16 ? 16 : code;
}

/* Twelve-bit narrow range takes samples from 4 on, as ten-bit does. */
static uint64_t lowest_sample_of_ten_bits(CALL)
{
    return twelve_bits(format) && !full_range(format) ? convert_other(GIVEN, format, raised_to_sixteen) : right_row(GIVEN);
}

/* The Y'CbCr call takes every row for ten-bit narrow range. */
static uint64_t format_ignored_in_ycbcr(YCBCR_CALL)
{
    return right_ycbcr(peak, 0, row, row_len, dst, dst_len, first, end);
}

/* Faults of the return path. */

/* 7 is tested before 6. */
static uint64_t destination_before_row_in_return(RETURN_CALL)
{
    return dst_len != row_len ? 7 : right_return(RETURNED);
}

/* The product 6 * end is tested instead of end, and wraps round. */
static uint64_t span_wraps_in_return(RETURN_CALL)
{
    uint64_t number = right_return(RETURNED);
    return number == 8 && first <= end && 6 * end <= row_len ? 0 : number;
}

/* The place is counted from the span's first pixel. */
static uint64_t place_in_span_of_return(RETURN_CALL)
{
    uint64_t number = right_return(RETURNED);
    return number % 256 == 9 ? number - 256 * 3 * first : number;
}

/* A refusal of a sample leaves one byte written. */
static uint64_t refused_return_call_writes(RETURN_CALL)
{
    uint64_t number = right_return(RETURNED);
    if (number % 256 == 9)
        dst[6 * first] ^= 1;
    return number;
}

static uint64_t last_pixel_not_returned(RETURN_CALL)
{
    return right_return(row, row_len, dst, dst_len, first, end > first ? end - 1 : end);
}

/* The byte after the span is cleared. */
static uint64_t byte_after_returned_span(RETURN_CALL)
{
    uint64_t number = right_return(RETURNED);
    if (!number && 6 * end < dst_len)
        dst[6 * end] = 0;
    return number;
}

/* The way to HLG is taken instead. */
static uint64_t outward_instead_of_return(RETURN_CALL)
{
    return right_row(1000, 0, row, row_len, dst, dst_len, first, end);
}

/* The return path in doubles with something in it to be changed; as it stands, nothing is. */
struct formula {
    double weights[3];          /* of luminance */
    double power;               /* of luminance, by which scene light is multiplied */
    double rounding;            /* of PQ codes */
    unsigned least, most;       /* codes beyond these read as these */
    unsigned off;               /* this code has the light of the one above it */
    int own;                    /* each component has its own luminance */
};

static const struct formula RIGHT = { { 0.2627, 0.6780, 0.0593 }, 0.2, 0.5, 64, 1019, 0, 0 };

static double scene_light(const struct formula *formula, unsigned code)
{
    code += code == formula->off;
    code = code < formula->least ? formula->least : code > formula->most ? formula->most : code;
    double signal = ((double)code - 64) / 876;
    return signal <= 0.5 ? signal * signal / 3 : (exp((signal - 0.55991073) / 0.17883277) + 0.28466892) / 12;
}

static void returned_codes(const struct formula *formula, const uint8_t *pixel, int codes[3])
{
    double scene[3], luminance = 0;
    for (int i = 0; i < 3; i++) {
        scene[i] = scene_light(formula, sample(pixel, i));
        luminance += formula->weights[i] * scene[i];
    }
    for (int i = 0; i < 3; i++) {
        double root = pow(0.1 * pow(formula->own ? scene[i] : luminance, formula->power) * scene[i], 0.1593017578125);
        codes[i] = (int)(64 + formula->rounding + 876 * pow((0.8359375 + 18.8515625 * root) / (1 + 18.6875 * root), 78.84375));
    }
}

/* The right codes, moved by as much as the changed formula moves those in doubles: what doubles round otherwise cancels out. */
static uint64_t by_formula(RETURN_CALL, struct formula changed)
{
    uint64_t number = right_return(RETURNED);
    for (size_t p = first; !number && p < end; p++) {
        int were[3], are[3];
        returned_codes(&RIGHT, row + 6 * p, were);
        returned_codes(&changed, row + 6 * p, are);
        for (int i = 0; i < 3; i++)
            put_sample(dst + 6 * p, i, (unsigned)((int)sample(dst + 6 * p, i) + are[i] - were[i]));
    }
    return number;
}

/* The weights of red and blue are exchanged. */
static uint64_t weights_exchanged(RETURN_CALL)
{
    struct formula changed = RIGHT;
    changed.weights[0] = RIGHT.weights[2];
    changed.weights[2] = RIGHT.weights[0];
    return by_formula(RETURNED, changed);
}

/* A code is reached at its own light and not half a code below: the table is read at 4(D - 64). */
static uint64_t whole_steps(RETURN_CALL)
{
    struct formula changed = RIGHT;
    changed.rounding = 0;
    return by_formula(RETURNED, changed);
}

/* Codes below 64 have the light of their signal's square. */
static uint64_t sub_black_read_as_itself(RETURN_CALL)
{
    struct formula changed = RIGHT;
    changed.least = 0;
    return by_formula(RETURNED, changed);
}

/* Codes above 940 read as 940, as PQ's do. */
static uint64_t overshoots_read_as_940(RETURN_CALL)
{
    struct formula changed = RIGHT;
    changed.most = 940;
    return by_formula(RETURNED, changed);
}

/* One entry of the scene lights is the one after it. */
static uint64_t scene_light_off(RETURN_CALL)
{
    struct formula changed = RIGHT;
    changed.off = 300;
    return by_formula(RETURNED, changed);
}

/* Luminance to the sixth root, as on the way out. */
static uint64_t sixth_root(RETURN_CALL)
{
    struct formula changed = RIGHT;
    changed.power = 1.0 / 6;
    return by_formula(RETURNED, changed);
}

/* Gamma is applied to each component by itself. */
static uint64_t gamma_by_component(RETURN_CALL)
{
    struct formula changed = RIGHT;
    changed.own = 1;
    return by_formula(RETURNED, changed);
}

/* Faults of the call on linear values. */

/* 7 is tested before 15. */
static uint64_t destination_before_floats(LINEAR_CALL)
{
    return peak_sound(peak) && dst_len != 2 * row_len ? 7 : right_linear(LINEAR);
}

/* 8 is tested before 7. */
static uint64_t span_before_linear_destination(LINEAR_CALL)
{
    uint64_t number = right_linear(LINEAR);
    return number == 7 && (first > end || end > row_len / 3) ? 8 : number;
}

/* 15 is tested before 5. */
static uint64_t floats_before_peak(LINEAR_CALL)
{
    return row_len % 3 || row_len > 24576 ? 15 : right_linear(LINEAR);
}

/* 7 asks for as many bytes as floats. */
static uint64_t destination_counted_in_floats(LINEAR_CALL)
{
    uint64_t number = right_linear(LINEAR);
    return number != 5 && number != 15 && dst_len != row_len ? 7 : number;
}

/* A row may have as many floats as one of codes has bytes. */
static uint64_t most_floats_as_bytes(LINEAR_CALL)
{
    uint64_t number = right_linear(LINEAR);
    return number == 15 && row_len % 3 == 0 && row_len <= 49152 ? dst_len != 2 * row_len ? 7 : 0 : number;
}

/* The product 3 * end is tested instead of end, and wraps round. */
static uint64_t linear_span_wraps(LINEAR_CALL)
{
    uint64_t number = right_linear(LINEAR);
    return number == 8 && first <= end && 3 * end <= row_len ? 0 : number;
}

/* The place of 16 is that of its pixel. */
static uint64_t place_in_pixels(LINEAR_CALL)
{
    uint64_t number = right_linear(LINEAR);
    return number % 256 == 16 ? 16 + 256 * (number / 256 / 3) : number;
}

/* The place is counted from the span's first float. */
static uint64_t place_in_linear_span(LINEAR_CALL)
{
    uint64_t number = right_linear(LINEAR);
    return number % 256 == 16 ? number - 256 * 3 * first : number;
}

/* Values outside the span are looked at. */
static uint64_t whole_row_looked_at(LINEAR_CALL)
{
    uint64_t number = right_linear(LINEAR);
    for (size_t i = 0; !number && i < row_len; i++)
        if (!isfinite(row[i]))
            return 16 + 256 * (uint64_t)i;
    return number;
}

static uint64_t refused_linear_call_writes(LINEAR_CALL)
{
    uint64_t number = right_linear(LINEAR);
    if (number % 256 == 16)
        dst[6 * first] ^= 1;
    return number;
}

static uint64_t last_linear_pixel_left_out(LINEAR_CALL)
{
    return right_linear(peak, row, row_len, dst, dst_len, first, end > first ? end - 1 : end);
}

/* The byte after the span is cleared. */
static uint64_t byte_after_linear_span(LINEAR_CALL)
{
    uint64_t number = right_linear(LINEAR);
    if (!number && 6 * end < dst_len)
        dst[6 * end] = 0;
    return number;
}

/* A float is read after the row. */
static uint64_t reads_after_floats(LINEAR_CALL)
{
    const volatile float *after = row + row_len;
    if (row_len && row_len <= 24576)
        (void)*after;
    return right_linear(LINEAR);
}

static uint64_t low_byte_first(LINEAR_CALL)
{
    uint64_t number = right_linear(LINEAR);
    for (size_t i = 3 * first; !number && i < 3 * end; i++) {
        uint8_t high = dst[2 * i];
        dst[2 * i] = dst[2 * i + 1];
        dst[2 * i + 1] = high;
    }
    return number;
}

/* A row with other values, for faults of how they are read. */
static float other_values[24576];

/* Converts a row of which each value in the span is made another one; a call that the right one refuses before it looks at values is
   left to it. */
static uint64_t convert_values(LINEAR_CALL, float (*made)(float))
{
    if (row_len > sizeof other_values / sizeof *other_values || first > end || end > row_len / 3)
        return right_linear(LINEAR);
    for (size_t i = 3 * first; i < 3 * end; i++)
        other_values[i] = made(row[i]);
    return right_linear(peak, other_values, row_len, dst, dst_len, first, end);
}

static float no_number_to_black(float x)
{
    return isnan(x) ? 0 : x;
}

static uint64_t no_number_counted(LINEAR_CALL)
{
    return convert_values(LINEAR, no_number_to_black);
}

static float infinity_to_limit(float x)
{
    return isinf(x) ? copysignf(20000, x) : x;
}

/* Infinite values count as the limits do. */
static uint64_t infinity_counted(LINEAR_CALL)
{
    return convert_values(LINEAR, infinity_to_limit);
}

static float negative_to_nan(float x)
{
    return x < 0 ? (float)NAN : x;
}

static uint64_t negative_refused(LINEAR_CALL)
{
    return convert_values(LINEAR, negative_to_nan);
}

static float too_bright_to_nan(float x)
{
    return x > 10000 ? (float)NAN : x;
}

static uint64_t too_bright_refused(LINEAR_CALL)
{
    return convert_values(LINEAR, too_bright_to_nan);
}

static float magnitude(float x)
{
    return fabsf(x);
}

/* Negative values count by their magnitude. */
static uint64_t sign_ignored(LINEAR_CALL)
{
    return convert_values(LINEAR, magnitude);
}

static float cut_lower(float x)
{
    return isfinite(x) && x > 9984 ? 9984 : x;
}

/* 10,000 cd/m2 is cut lower, and what is above it too. */
static uint64_t cut_below_the_limit(LINEAR_CALL)
{
    return convert_values(LINEAR, cut_lower);
}

static float too_bright_to_black(float x)
{
    return isfinite(x) && x > 10000 ? 0 : x;
}

/* Too bright values count as 0, as negative ones do. */
static uint64_t too_bright_as_black(LINEAR_CALL)
{
    return convert_values(LINEAR, too_bright_to_black);
}

static float nearest_unit(float x)
{
    return fabsf(x) < 1 ? rintf(x * 16777216) / 16777216 : x;      /* from 1 on every float is a whole number of units */
}

/* The product is rounded to the nearest unit. */
static uint64_t product_rounded(LINEAR_CALL)
{
    return convert_values(LINEAR, nearest_unit);
}

static float next_unit(float x)
{
    return fabsf(x) < 1 ? ceilf(x * 16777216) / 16777216 : x;
}

static uint64_t product_rounded_up(LINEAR_CALL)
{
    return convert_values(LINEAR, next_unit);
}

static float coarser_unit(float x)
{
    return fabsf(x) < 16 ? floorf(x * 1048576) / 1048576 : x;
}

/* Light is counted in sixteen times the unit. */
static uint64_t coarser_light(LINEAR_CALL)
{
    return convert_values(LINEAR, coarser_unit);
}

static float half_precision(float x)
{
    uint32_t bits;
    memcpy(&bits, &x, sizeof bits);
    bits &= ~(uint32_t)0x1FFF;          /* ten bits of the fraction remain */
    memcpy(&x, &bits, sizeof bits);
    return x;
}

/* Values are cut to the precision of 16-bit floats. */
static uint64_t values_of_half_precision(LINEAR_CALL)
{
    return convert_values(LINEAR, half_precision);
}

/* HLG codes of three lights in doubles, the curve at the brightest light's signal and so many positions above it. */
static void linear_codes(double peak, double above, const float *pixel, int codes[3])
{
    static const double c1 = 0.8359375, c2 = 18.8515625, c3 = 18.6875, m1 = 0.1593017578125, m2 = 78.84375;
    double lights[3], brightest = 0, signals[3], of[3] = { 1000, peak, 0 }, luminance = 0;
    for (int i = 0; i < 3; i++) {
        lights[i] = fmin(fmax(pixel[i], 0), 10000);
        brightest = fmax(brightest, lights[i]);
    }
    of[2] = brightest;
    for (int i = 0; i < 3; i++) {
        double w = pow(of[i] / 10000, m1);
        signals[i] = pow((c1 + c2 * w) / (1 + c3 * w), m2);
    }
    double J = signals[0], H = signals[1], X = fmin(signals[2] + above / 897024, H), bent = fmin(brightest, 1000);
    if (peak > 1000) {
        double root = pow(J - 4 * (H - X) * (H - X) * (H - X) / (27 * (H - J) * (H - J)), 1 / m2);
        bent = 2 * X < 3 * J - H ? brightest : 10000 * pow((root - c1) / (c2 - c3 * root), 1 / m1);
    }
    for (int i = 0; i < 3; i++) {
        lights[i] *= brightest > 0 ? bent / brightest / 1000 : 0;
        luminance += RIGHT.weights[i] * lights[i];
    }
    for (int i = 0; i < 3; i++) {
        double E = lights[i] > 0 ? lights[i] * pow(luminance, -1.0 / 6) : 0;
        codes[i] = (int)(64.5 + 876 * (E <= 1.0 / 12 ? sqrt(3 * E) : 0.17883277 * log(12 * E - 0.28466892) + 0.55991073));
    }
}

/* The right codes, moved by as much as the curve taken a few positions above moves those in doubles. */
static uint64_t by_position(LINEAR_CALL, double above)
{
    uint64_t number = right_linear(LINEAR);
    for (size_t p = first; !number && p < end; p++) {
        int were[3], are[3];
        linear_codes((double)peak, 0, row + 3 * p, were);
        linear_codes((double)peak, above, row + 3 * p, are);
        for (int i = 0; i < 3; i++)
            put_sample(dst + 6 * p, i, (unsigned)((int)sample(dst + 6 * p, i) + are[i] - were[i]));
    }
    return number;
}

/* The curve takes the position after the brightest light's. */
static uint64_t next_position(LINEAR_CALL)
{
    return by_position(LINEAR, 1);
}

/* It takes a position half a table entry lower. */
static uint64_t position_half_an_entry_low(LINEAR_CALL)
{
    return by_position(LINEAR, -128);
}

/* Faults of the call on sRGB. */

/* 7 is tested before 18. */
static uint64_t destination_before_bytes(SRGB_CALL)
{
    return dst_len != 2 * row_len ? 7 : right_srgb(CAPTIONS);
}

/* 8 is tested before 7. */
static uint64_t span_before_srgb_destination(SRGB_CALL)
{
    uint64_t number = right_srgb(CAPTIONS);
    return number == 7 && (first > end || end > row_len / 3) ? 8 : number;
}

/* A row of no whole pixels is refused by the number that rows of codes have. */
static uint64_t bytes_refused_by_6(SRGB_CALL)
{
    uint64_t number = right_srgb(CAPTIONS);
    return number == 18 ? 6 : number;
}

/* What is left of a last pixel is not looked at. */
static uint64_t rest_of_a_pixel_taken(SRGB_CALL)
{
    size_t rest = row_len % 3;
    if (row_len > 24576 || dst_len != 2 * row_len)
        return right_srgb(CAPTIONS);
    return right_srgb(row, row_len - rest, dst, dst_len - 2 * rest, first, end);
}

/* A row may have as many bytes as one of codes. */
static uint64_t most_bytes_as_codes(SRGB_CALL)
{
    uint64_t number = right_srgb(CAPTIONS);
    return number == 18 && row_len % 3 == 0 && row_len <= 49152 ? dst_len != 2 * row_len ? 7 : 0 : number;
}

/* A row of 8,192 pixels is refused. */
static uint64_t longest_row_refused(SRGB_CALL)
{
    return row_len == 24576 ? 18 : right_srgb(CAPTIONS);
}

/* 7 asks for as many bytes as the row has. */
static uint64_t destination_as_long_as_row(SRGB_CALL)
{
    uint64_t number = right_srgb(CAPTIONS);
    return number != 18 && dst_len != row_len ? 7 : number;
}

/* The product 3 * end is tested instead of end, and wraps round. */
static uint64_t srgb_span_wraps(SRGB_CALL)
{
    uint64_t number = right_srgb(CAPTIONS);
    return number == 8 && first <= end && 3 * end <= row_len ? 0 : number;
}

/* The row's pixels are counted six bytes each. */
static uint64_t span_counted_in_codes(SRGB_CALL)
{
    uint64_t number = right_srgb(CAPTIONS);
    return number == 0 && end > row_len / 6 ? 8 : number;
}

static uint64_t empty_span_refused(SRGB_CALL)
{
    uint64_t number = right_srgb(CAPTIONS);
    return number == 0 && first == end ? 8 : number;
}

/* A refusal has a place. */
static uint64_t place_of_a_span(SRGB_CALL)
{
    uint64_t number = right_srgb(CAPTIONS);
    return number == 8 ? 8 + 256 * (uint64_t)first : number;
}

static uint64_t refused_srgb_call_writes(SRGB_CALL)
{
    uint64_t number = right_srgb(CAPTIONS);
    if (number == 8 && dst_len)
        dst[0] ^= 1;
    return number;
}

static uint64_t last_srgb_pixel_left_out(SRGB_CALL)
{
    return right_srgb(row, row_len, dst, dst_len, first, end > first ? end - 1 : end);
}

/* The byte after the span is cleared. */
static uint64_t byte_after_srgb_span(SRGB_CALL)
{
    uint64_t number = right_srgb(CAPTIONS);
    if (!number && 6 * end < dst_len)
        dst[6 * end] = 0;
    return number;
}

/* The span is not looked at once it is tested. */
static uint64_t whole_row_converted(SRGB_CALL)
{
    uint64_t number = right_srgb(CAPTIONS);
    return number ? number : right_srgb(row, row_len, dst, dst_len, 0, row_len / 3);
}

/* A byte is read after the row. */
static uint64_t reads_after_bytes(SRGB_CALL)
{
    const volatile uint8_t *after = row + row_len;
    if (row_len && row_len <= 24576)
        (void)*after;
    return right_srgb(CAPTIONS);
}

static uint64_t low_byte_of_srgb_first(SRGB_CALL)
{
    uint64_t number = right_srgb(CAPTIONS);
    for (size_t i = 3 * first; !number && i < 3 * end; i++) {
        uint8_t high = dst[2 * i];
        dst[2 * i] = dst[2 * i + 1];
        dst[2 * i + 1] = high;
    }
    return number;
}

/* White's code is one too small, in blue only. */
static uint64_t last_code_off(SRGB_CALL)
{
    uint64_t number = right_srgb(CAPTIONS);
    for (size_t p = first; !number && p < end; p++)
        if (sample(dst + 6 * p, 2) == 721)
            put_sample(dst + 6 * p, 2, 720);
    return number;
}

/* Captions in doubles with something in them to be changed; as it stands, nothing is. */
struct captions {
    double to_xyz[3][3], to_bt2020[3][3], power, scale, rounding;
    double white;               /* the value whose light is 1 */
    int pieces;                 /* the transfer function that sRGB's standard has in two pieces stands for the power */
    int blue_first;
    int off;                    /* this value has the light of the one above it */
    double light_parts, scaled_parts, xyz_parts;       /* lights, scaled ones or XYZ are rounded down to so many parts of 1; 0 for not */
};

static const struct captions SOUND = {
    { { 0.4124, 0.3576, 0.1805 }, { 0.2126, 0.7152, 0.0722 }, { 0.0193, 0.1192, 0.9505 } },
    { { 1.7167, -0.3557, -0.2534 }, { -0.6667, 1.6165, 0.0158 }, { 0.0176, -0.0428, 0.9421 } }, 2.2, 0.265, 0.5, 255, 0, 0, -1, 0, 0, 0 };

static double cut(double x, double parts)
{
    return parts > 0 ? floor(x * parts) / parts : x;
}

static void times(const double matrix[3][3], const double from[3], double to[3])
{
    for (int i = 0; i < 3; i++)
        to[i] = matrix[i][0] * from[0] + matrix[i][1] * from[1] + matrix[i][2] * from[2];
}

static void caption_codes(const struct captions *captions, const uint8_t *pixel, int codes[3])
{
    double light[3], xyz[3], scene[3];
    for (int i = 0; i < 3; i++) {
        int value = pixel[captions->blue_first ? 2 - i : i];
        double signal = (value + (value == captions->off)) / captions->white;
        light[i] = !captions->pieces ? pow(signal, captions->power) : signal <= 0.04045 ? signal / 12.92 : pow((signal + 0.055) / 1.055, 2.4);
        light[i] = cut(captions->scale * cut(light[i], captions->light_parts), captions->scaled_parts);
    }
    times(captions->to_xyz, light, xyz);
    for (int i = 0; i < 3; i++)
        xyz[i] = cut(xyz[i], captions->xyz_parts);
    times(captions->to_bt2020, xyz, scene);
    for (int i = 0; i < 3; i++) {
        double E = fmax(scene[i], 0);
        codes[i] = (int)(64 + captions->rounding + 876 * (E <= 1.0 / 12 ? sqrt(3 * E) : 0.17883277 * log(12 * E - 0.28466892) + 0.55991073));
    }
}

/* The right codes, moved by as much as the changed formula moves those in doubles. */
static uint64_t by_captions(SRGB_CALL, struct captions changed)
{
    uint64_t number = right_srgb(CAPTIONS);
    for (size_t p = first; !number && p < end; p++) {
        int were[3], are[3];
        caption_codes(&SOUND, row + 3 * p, were);
        caption_codes(&changed, row + 3 * p, are);
        for (int i = 0; i < 3; i++)
            put_sample(dst + 6 * p, i, (unsigned)((int)sample(dst + 6 * p, i) + are[i] - were[i]));
    }
    return number;
}

static uint64_t matrices_exchanged(SRGB_CALL)
{
    struct captions changed = SOUND;
    memcpy(changed.to_xyz, SOUND.to_bt2020, sizeof SOUND.to_bt2020);
    memcpy(changed.to_bt2020, SOUND.to_xyz, sizeof SOUND.to_xyz);
    return by_captions(CAPTIONS, changed);
}

/* Rows of the first matrix are read as columns. */
static uint64_t matrix_turned(SRGB_CALL)
{
    struct captions changed = SOUND;
    for (int i = 0; i < 9; i++)
        changed.to_xyz[i / 3][i % 3] = SOUND.to_xyz[i % 3][i / 3];
    return by_captions(CAPTIONS, changed);
}

/* sRGB's own primaries are kept. */
static uint64_t matrices_left_out(SRGB_CALL)
{
    struct captions changed = SOUND;
    for (int i = 0; i < 9; i++)
        changed.to_xyz[i / 3][i % 3] = changed.to_bt2020[i / 3][i % 3] = i % 4 == 0;
    return by_captions(CAPTIONS, changed);
}

/* Document 003's decimal. */
static uint64_t misprinted_matrix(SRGB_CALL)
{
    struct captions changed = SOUND;
    changed.to_bt2020[2][1] = -0.428;
    return by_captions(CAPTIONS, changed);
}

/* Document 004's decimal. */
static uint64_t longer_matrix(SRGB_CALL)
{
    struct captions changed = SOUND;
    changed.to_bt2020[2][1] = -0.04277;
    return by_captions(CAPTIONS, changed);
}

static uint64_t blue_before_red(SRGB_CALL)
{
    struct captions changed = SOUND;
    changed.blue_first = 1;
    return by_captions(CAPTIONS, changed);
}

/* The transfer function in two pieces stands for the power. */
static uint64_t power_in_pieces(SRGB_CALL)
{
    struct captions changed = SOUND;
    changed.pieces = 1;
    return by_captions(CAPTIONS, changed);
}

/* Values are divided by 256. */
static uint64_t value_over_256(SRGB_CALL)
{
    struct captions changed = SOUND;
    changed.white = 256;
    return by_captions(CAPTIONS, changed);
}

/* One value has the light of the next one. */
static uint64_t light_of_next_value(SRGB_CALL)
{
    struct captions changed = SOUND;
    changed.off = 200;
    return by_captions(CAPTIONS, changed);
}

/* The scale is the light of HLG signal 0.75 with two more digits. */
static uint64_t longer_scale(SRGB_CALL)
{
    struct captions changed = SOUND;
    changed.scale = 0.26496;
    return by_captions(CAPTIONS, changed);
}

/* A code is reached at its own light and not half a code below. */
static uint64_t whole_caption_steps(SRGB_CALL)
{
    struct captions changed = SOUND;
    changed.rounding = 0;
    return by_captions(CAPTIONS, changed);
}

/* Lights have 32 bits. */
static uint64_t lights_of_32_bits(SRGB_CALL)
{
    struct captions changed = SOUND;
    changed.light_parts = 0x1p32;
    return by_captions(CAPTIONS, changed);
}

/* The scale comes before the matrices, and what it gives is rounded down to 36 bits. Of 40 bits no code would tell. */
static uint64_t scale_rounded_first(SRGB_CALL)
{
    struct captions changed = SOUND;
    changed.scaled_parts = 0x1p36;
    return by_captions(CAPTIONS, changed);
}

/* What is scaled is rounded down to 36 bits between the matrices. */
static uint64_t rounded_twice(SRGB_CALL)
{
    struct captions changed = SOUND;
    changed.xyz_parts = 0x1p36;
    return by_captions(CAPTIONS, changed);
}

uint64_t pq_hlg_convert_row(CALL)
{
    return WRONG_ROW(GIVEN);
}

uint64_t pq_hlg_convert_row_linear(LINEAR_CALL)
{
    return WRONG_LINEAR(LINEAR);
}

uint64_t pq_hlg_convert_row_ycbcr(CALL)
{
    return WRONG_YCBCR(GIVEN);
}

uint64_t hlg_pq_convert_row(RETURN_CALL)
{
    return WRONG_RETURN(RETURNED);
}

uint64_t srgb_hlg_convert_row(SRGB_CALL)
{
    return WRONG_SRGB(CAPTIONS);
}
