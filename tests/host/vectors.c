/* The stored vectors of the second implementation (rows.txt, ycbcr_rows.txt and pixels.txt in tests/vectors, ten-bit narrow
   range, then those of the same names in tests/vectors/formats, where each line opens with a format, then rows.txt and pixels.txt
   in tests/vectors/return, whose lines have no peak, then linear_rows.txt and linear.txt, then rows.txt and pixels.txt in
   tests/vectors/srgb, which have none either) through the row calls from C.
   tests/reference/README.md says what a line holds; a pixel is a row of one pixel here, in RGB, so samples past 16 bits are left
   out, and so are the single values of linear.txt, which no row call is asked for.
     gcc -O2 -Wall -Werror -Iinclude tests/host/vectors.c target/staticlib/libpq_hlg.a target/staticlib/libhlg_pq.a \
         target/staticlib/libsrgb_hlg.a -o target/host/vectors_c
     target/host/vectors_c tests/vectors/rows.txt tests/vectors/ycbcr_rows.txt tests/vectors/pixels.txt \
         tests/vectors/formats/rows.txt tests/vectors/formats/ycbcr_rows.txt tests/vectors/formats/pixels.txt \
         tests/vectors/return/rows.txt tests/vectors/return/pixels.txt tests/vectors/linear_rows.txt tests/vectors/linear.txt \
         tests/vectors/srgb/rows.txt tests/vectors/srgb/pixels.txt
   The last two may be left out, or the last four, or the last six, or the last nine. Two files alone are those of the return path, or
   after the word srgb those of captions. */
#include <inttypes.h>
#include <stdio.h>
#include <stdlib.h>
#include <string.h>

#include "hlg_pq.h"
#include "pq_hlg.h"
#include "srgb_hlg.h"

enum { LONGEST = 65536, UNWRITTEN = 0xa5 };

/* What a line opens with: a peak, a format and a peak, or neither. */
enum opening { PEAK, FORMAT_AND_PEAK, NOTHING };

typedef uint64_t row_call(uint64_t, uint64_t, const uint8_t *, size_t, uint8_t *, size_t, size_t, size_t);

/* The return path's call, which takes neither peak nor format. */
static uint64_t convert_back(uint64_t peak, uint64_t format, const uint8_t *row, size_t row_len, uint8_t *dst, size_t dst_len,
                             size_t first, size_t end) {
    (void)peak, (void)format;
    return hlg_pq_convert_row(row, row_len, dst, dst_len, first, end);
}

static uint8_t row[LONGEST], dst[LONGEST], expected[LONGEST];

/* "-", COUNT*BYTE or hexadecimal digits; gives the number of bytes. */
static size_t read_bytes(const char *text, uint8_t *bytes) {
    unsigned byte;
    size_t count = 0;
    if (strcmp(text, "-") == 0)
        return 0;
    if (sscanf(text, "%zu*%2x", &count, &byte) == 2 && count <= LONGEST && strchr(text, '*')) {
        memset(bytes, (int)byte, count);
        return count;
    }
    for (count = 0; count < LONGEST && sscanf(text + 2 * count, "%2x", &byte) == 1; count++)
        bytes[count] = (uint8_t)byte;
    return count;
}

static void must_match(int holds, const char *file, unsigned line) {
    if (!holds) {
        fprintf(stderr, "%s:%u: another answer, or no vector\n", file, line);
        exit(1);
    }
}

/* Format and peak of a line; a format that is not there is 0, ten-bit narrow range. False at the end of the file. */
static int read_opening(FILE *in, enum opening opening, uint64_t *format, uint64_t *peak) {
    *format = *peak = 0;
    if (opening == FORMAT_AND_PEAK && fscanf(in, "%" SCNu64, format) != 1)
        return 0;
    return opening == NOTHING || fscanf(in, "%" SCNu64, peak) == 1;
}

static unsigned test_rows(const char *file, row_call *convert, enum opening opening) {
    FILE *in = fopen(file, "r");
    char source[512], after[512];
    uint64_t format, peak, number;
    size_t first, end, len;
    unsigned line = 0;
    while (in && read_opening(in, opening, &format, &peak)
           && fscanf(in, "%zu %zu %511s %zu %" SCNu64 " %511s", &first, &end, source, &len, &number, after) == 6) {
        line++;
        size_t bytes = read_bytes(source, row);
        memset(dst, UNWRITTEN, LONGEST);
        memset(expected, UNWRITTEN, LONGEST);
        if (strcmp(after, "same") != 0)
            read_bytes(after, expected);
        must_match(convert(peak, format, row, bytes, dst, len, first, end) == number, file, line);
        must_match(memcmp(dst, expected, LONGEST) == 0, file, line);
    }
    must_match(line > 0 && feof(in), file, line + 1);
    return line;
}

static unsigned test_pixels(const char *file, row_call *convert, enum opening opening, unsigned *left_out) {
    FILE *in = fopen(file, "r");
    char first[32];
    uint64_t format, peak, sample[3], code[3];
    unsigned line = 0, tried = 0;
    while (in && read_opening(in, opening, &format, &peak)
           && fscanf(in, "%" SCNu64 " %" SCNu64 " %" SCNu64 " %31s %" SCNu64 " %" SCNu64,
                     sample, sample + 1, sample + 2, first, code + 1, code + 2) == 6) {
        line++;
        if (sample[0] > 65535 || sample[1] > 65535 || sample[2] > 65535) {
            ++*left_out;
            continue;
        }
        tried++;
        int refused = strcmp(first, "refused") == 0;
        code[0] = refused ? 0 : strtoull(first, NULL, 10);
        memset(dst, UNWRITTEN, 6);
        for (int i = 0; i < 3; i++) {
            row[2 * i] = (uint8_t)(sample[i] >> 8);
            row[2 * i + 1] = (uint8_t)sample[i];
            expected[2 * i] = refused ? UNWRITTEN : (uint8_t)(code[i] >> 8);
            expected[2 * i + 1] = refused ? UNWRITTEN : (uint8_t)code[i];
        }
        uint64_t number = convert(peak, format, row, 6, dst, 6, 0, 1);
        must_match(number == (refused ? code[1] + 256 * code[2] : 0), file, line);
        must_match(memcmp(dst, expected, 6) == 0, file, line);
    }
    must_match(line > 0 && feof(in), file, line + 1);
    return tried;
}

static float values[LONGEST];
static uint32_t numbers[LONGEST];

/* "-", or hexadecimal digits, so many a number, and COUNT*DIGITS, joined by +; gives how many numbers. */
static size_t read_runs(const char *text, size_t width) {
    size_t count = 0;
    if (strcmp(text, "-") == 0)
        return 0;
    while (*text) {
        char digits[9] = {0};
        size_t times = 1, ahead = strspn(text, "0123456789");
        if (text[ahead] == '*') {
            times = strtoull(text, NULL, 10);
            text += ahead + 1;
        }
        memcpy(digits, text, strnlen(text, width));
        for (text += strlen(digits); times > 0 && count < LONGEST; times--)
            numbers[count++] = (uint32_t)strtoul(digits, NULL, 16);
        text += *text == '+';
    }
    return count;
}

/* So many of the numbers as floats of that pattern. */
static void put_values(size_t count) {
    memcpy(values, numbers, count * sizeof *values);
}

/* So many of the numbers as samples. */
static void put_samples(uint8_t *to, size_t count) {
    for (size_t i = 0; i < count; i++) {
        to[2 * i] = (uint8_t)(numbers[i] >> 8);
        to[2 * i + 1] = (uint8_t)numbers[i];
    }
}

/* So many of the numbers as bytes of a row. */
static void put_bytes(size_t count) {
    for (size_t i = 0; i < count; i++)
        row[i] = (uint8_t)numbers[i];
}

/* The call on linear values, or on sRGB, whose lines have no peak and two digits a number. */
static unsigned test_runs(const char *file, int linear) {
    FILE *in = fopen(file, "r");
    static char source[4096], after[4096];
    uint64_t format, peak, number, given;
    size_t first, end, len;
    unsigned line = 0;
    while (in && read_opening(in, linear ? PEAK : NOTHING, &format, &peak)
           && fscanf(in, "%zu %zu %4095s %zu %" SCNu64 " %4095s", &first, &end, source, &len, &number, after) == 6) {
        line++;
        size_t count = read_runs(source, linear ? 8 : 2);
        (linear ? put_values : put_bytes)(count);
        memset(dst, UNWRITTEN, LONGEST);
        memset(expected, UNWRITTEN, LONGEST);
        if (strcmp(after, "same") != 0)
            put_samples(expected, read_runs(after, 4));
        given = linear ? pq_hlg_convert_row_linear(peak, values, count, dst, len, first, end)
                       : srgb_hlg_convert_row(row, count, dst, len, first, end);
        must_match(given == number, file, line);
        must_match(memcmp(dst, expected, LONGEST) == 0, file, line);
    }
    must_match(line > 0 && feof(in), file, line + 1);
    return line;
}

static unsigned test_linear_pixels(const char *file, unsigned *left_out) {
    FILE *in = fopen(file, "r");
    char text[256], word[32];
    uint64_t peak, code[3];
    unsigned line = 0, tried = 0;
    while (in && fgets(text, sizeof text, in)) {
        line++;
        if (strncmp(text, "value ", 6) == 0) {
            ++*left_out;
            continue;
        }
        tried++;
        must_match(sscanf(text, "pixel %" SCNu64 " %" SCNu32 " %" SCNu32 " %" SCNu32 " %31s %" SCNu64 " %" SCNu64, &peak, numbers, numbers + 1,
                          numbers + 2, word, code + 1, code + 2) == 7, file, line);
        int refused = strcmp(word, "refused") == 0;
        put_values(3);
        code[0] = strtoull(word, NULL, 10);
        for (int i = 0; i < 3; i++)
            numbers[i] = refused ? UNWRITTEN << 8 | UNWRITTEN : (uint32_t)code[i];
        put_samples(expected, 3);
        memset(dst, UNWRITTEN, 6);
        must_match(pq_hlg_convert_row_linear(peak, values, 3, dst, 6, 0, 1) == (refused ? code[1] + 256 * code[2] : 0), file, line);
        must_match(memcmp(dst, expected, 6) == 0, file, line);
    }
    must_match(tried > 0 && feof(in), file, line + 1);
    return tried;
}

static unsigned test_srgb_pixels(const char *file) {
    FILE *in = fopen(file, "r");
    uint32_t codes[3];
    unsigned line = 0;
    while (in && fscanf(in, "%" SCNu32 " %" SCNu32 " %" SCNu32 " %" SCNu32 " %" SCNu32 " %" SCNu32, numbers, numbers + 1, numbers + 2,
                        codes, codes + 1, codes + 2) == 6) {
        line++;
        put_bytes(3);
        memcpy(numbers, codes, sizeof codes);
        put_samples(expected, 3);
        memset(dst, UNWRITTEN, 6);
        must_match(srgb_hlg_convert_row(row, 3, dst, 6, 0, 1) == 0, file, line);
        must_match(memcmp(dst, expected, 6) == 0, file, line);
    }
    must_match(line > 0 && feof(in), file, line + 1);
    return line;
}

int main(int argc, char **argv) {
    int captions = argc == 4 && strcmp(argv[1], "srgb") == 0;
    if (argc != 3 && argc != 4 && argc != 7 && argc != 9 && argc != 11 && argc != 13)
        return 2;
    unsigned rows = 0, ycbcr_rows = 0, pixels = 0, return_rows = 0, return_pixels = 0, linear_rows = 0, linear_pixels = 0;
    unsigned srgb_rows = 0, srgb_pixels = 0, left_out = 0;
    char **files = argv + 1 + captions, **end = argv + argc;
    for (enum opening opening = PEAK; end - files >= 3 && opening != NOTHING; opening++, files += 3) {
        rows += test_rows(files[0], pq_hlg_convert_row, opening);
        ycbcr_rows += test_rows(files[1], pq_hlg_convert_row_ycbcr, opening);
        pixels += test_pixels(files[2], pq_hlg_convert_row, opening, &left_out);
    }
    if (files < end && !captions) {
        return_rows = test_rows(files[0], convert_back, NOTHING);
        return_pixels = test_pixels(files[1], convert_back, NOTHING, &left_out);
        files += 2;
    }
    if (files < end && !captions) {
        linear_rows = test_runs(files[0], 1);
        linear_pixels = test_linear_pixels(files[1], &left_out);
        files += 2;
    }
    if (files < end) {
        srgb_rows = test_runs(files[0], 0);
        srgb_pixels = test_srgb_pixels(files[1]);
    }
    printf("%u rows in RGB, %u in Y'CbCr and %u pixels as stored, of the return path %u rows and %u pixels, of linear values %u rows and %u pixels, "
           "of sRGB %u rows and %u pixels; %u pixels and values left out\n", rows, ycbcr_rows, pixels, return_rows, return_pixels, linear_rows,
           linear_pixels, srgb_rows, srgb_pixels, left_out);
    return 0;
}
