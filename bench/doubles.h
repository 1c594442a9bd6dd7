/* The conversion to HLG, of codes, of linear values and of sRGB, and the return path as a facility would write them in C, in double precision. */
#ifndef DOUBLES_H
#define DOUBLES_H

#include <stddef.h>
#include <stdint.h>

/* What depends on the code value and the peak alone. */
struct tables {
    double light[1024];     /* display light of a code, cd/m2 */
    double gain[1024];      /* bent light over light, per 1,000 cd/m2, of a pixel's brightest code */
};

void fill_tables(struct tables *tables, double peak);

/* Each converts a row of pixels, three 16-bit samples each, high byte first. */
void convert_by_libm(double peak, const uint8_t *row, uint8_t *dst, size_t pixels);
void convert_by_tables(const struct tables *tables, const uint8_t *row, uint8_t *dst, size_t pixels);

/* Display light of a code, cd/m2. */
double light_of_code(unsigned code);

/* Linear values: the bent light over the light by that light, in straight lines between 256 points to a power of two, from 64 cd/m2
   on. Below, nothing is bent under any peak. */
enum { LINEAR_POINTS = 256, LINEAR_OCTAVES = 8 };
struct linear_tables {
    double gain[LINEAR_OCTAVES * LINEAR_POINTS + 2];        /* per 1,000 cd/m2 */
};

void fill_linear_tables(struct linear_tables *tables, double peak);

/* Each converts a row of pixels, three floats each in cd/m2. */
void convert_linear_by_libm(double peak, const float *row, uint8_t *dst, size_t pixels);
void convert_linear_by_tables(const struct linear_tables *tables, const float *row, uint8_t *dst, size_t pixels);

/* Converts a row of HLG codes to PQ. */
void convert_back_by_libm(const uint8_t *row, uint8_t *dst, size_t pixels);

/* sRGB: what is the same for every pixel. */
struct srgb_tables {
    double light[256];      /* of a value, per white */
    double matrix[3][3];    /* from linear sRGB to scene light in BT.2020 primaries */
};

void fill_srgb_tables(struct srgb_tables *tables);

/* Each converts a row of pixels, three bytes each, to HLG codes of 16 bits, high byte first. */
void convert_srgb_by_libm(const uint8_t *row, uint8_t *dst, size_t pixels);
void convert_srgb_by_tables(const struct srgb_tables *tables, const uint8_t *row, uint8_t *dst, size_t pixels);

#endif
