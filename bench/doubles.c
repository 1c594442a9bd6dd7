#include "doubles.h"

#include <math.h>
#include <string.h>

static const double m1 = 0.1593017578125, m2 = 78.84375;
static const double c1 = 0.8359375, c2 = 18.8515625, c3 = 18.6875;
static const double a = 0.17883277, b = 0.28466892, c = 0.55991073;

static double pq_eotf(double signal)
{
    double root = pow(signal, 1 / m2);
    return 10000 * pow(fmax(root - c1, 0) / (c2 - c3 * root), 1 / m1);
}

static double pq_inverse_eotf(double light)
{
    double w = pow(light / 10000, m1);
    return pow((c1 + c2 * w) / (1 + c3 * w), m2);
}

static double hlg_oetf(double E)
{
    return E <= 1.0 / 12 ? sqrt(3 * E) : a * log(12 * E - b) + c;
}

/* The highlight curve: from the brightest signal X and its light, J and H being
 * the signals of 1,000 cd/m2 and of the peak. */
static double bent_light(double X, double light, double peak, double J, double H)
{
    if (peak <= 1000)
        return fmin(light, 1000);
    X = fmin(X, H);
    if (2 * X < 3 * J - H)
        return light;
    double rest = H - X, span = H - J;
    return pq_eotf(J - 4 * rest * rest * rest / (27 * span * span));
}

static unsigned sample(const uint8_t *at)
{
    return (unsigned)at[0] << 8 | at[1];
}

/* Sub-blacks read as black, super-whites as full signal. */
static double signal_of_code(unsigned code)
{
    return (fmin(fmax(code, 64), 940) - 64) / 876;
}

/* The code nearest to a signal. */
static void write_code(double signal, uint8_t *dst)
{
    unsigned code = (unsigned)(64.5 + 876 * signal);
    dst[0] = (uint8_t)(code >> 8);
    dst[1] = (uint8_t)code;
}

/* Inverse OOTF with gamma 1.2, OETF and code values of one pixel; lights are per 1,000 cd/m2. */
static void write_codes(const double lights[3], uint8_t *dst)
{
    double luminance = 0.2627 * lights[0] + 0.6780 * lights[1] + 0.0593 * lights[2];
    double scale = luminance > 0 ? pow(luminance, -1.0 / 6) : 0;
    for (int i = 0; i < 3; i++)
        write_code(hlg_oetf(lights[i] * scale), dst + 2 * i);
}

void convert_by_libm(double peak, const uint8_t *row, uint8_t *dst, size_t pixels)
{
    double J = pq_inverse_eotf(1000), H = pq_inverse_eotf(peak);
    for (size_t p = 0; p < pixels; p++, row += 6, dst += 6) {
        double lights[3], X = 0, brightest = 0;
        for (int i = 0; i < 3; i++) {
            double signal = signal_of_code(sample(row + 2 * i));
            lights[i] = pq_eotf(signal);
            X = fmax(X, signal);
            brightest = fmax(brightest, lights[i]);
        }
        double gain = brightest > 0 ? bent_light(X, brightest, peak, J, H) / brightest / 1000 : 0;
        for (int i = 0; i < 3; i++)
            lights[i] *= gain;
        write_codes(lights, dst);
    }
}

void fill_tables(struct tables *tables, double peak)
{
    double J = pq_inverse_eotf(1000), H = pq_inverse_eotf(peak);
    for (unsigned code = 0; code < 1024; code++) {
        double X = signal_of_code(code), light = pq_eotf(X);
        tables->light[code] = light;
        tables->gain[code] = light > 0 ? bent_light(X, light, peak, J, H) / light / 1000 : 0;
    }
}

void convert_by_tables(const struct tables *tables, const uint8_t *row, uint8_t *dst, size_t pixels)
{
    for (size_t p = 0; p < pixels; p++, row += 6, dst += 6) {
        unsigned codes[3], brightest = 0;
        double lights[3];
        for (int i = 0; i < 3; i++) {
            codes[i] = sample(row + 2 * i) & 1023;
            if (codes[i] > brightest)
                brightest = codes[i];
        }
        for (int i = 0; i < 3; i++)
            lights[i] = tables->light[codes[i]] * tables->gain[brightest];
        write_codes(lights, dst);
    }
}

double light_of_code(unsigned code)
{
    return pq_eotf(signal_of_code(code));
}

/* Values below 0 count as 0, those above 10,000 as that; gives the brightest. */
static double read_lights(const float *pixel, double lights[3])
{
    double brightest = 0;
    for (int i = 0; i < 3; i++) {
        lights[i] = fmin(fmax(pixel[i], 0), 10000);
        brightest = fmax(brightest, lights[i]);
    }
    return brightest;
}

void convert_linear_by_libm(double peak, const float *row, uint8_t *dst, size_t pixels)
{
    double J = pq_inverse_eotf(1000), H = pq_inverse_eotf(peak);
    for (size_t p = 0; p < pixels; p++, row += 3, dst += 6) {
        double lights[3], brightest = read_lights(row, lights);
        double gain = brightest > 0 ? bent_light(pq_inverse_eotf(brightest), brightest, peak, J, H) / brightest / 1000 : 0;
        for (int i = 0; i < 3; i++)
            lights[i] *= gain;
        write_codes(lights, dst);
    }
}

/* The bits of 64 as a float, and how many patterns lie from one point of the tables to the next. */
static const uint32_t FIRST_POINT = 0x42800000, TO_NEXT = (1u << 23) / LINEAR_POINTS;

void fill_linear_tables(struct linear_tables *tables, double peak)
{
    double J = pq_inverse_eotf(1000), H = pq_inverse_eotf(peak);
    for (uint32_t i = 0; i < sizeof tables->gain / sizeof *tables->gain; i++) {
        uint32_t bits = FIRST_POINT + i * TO_NEXT;
        float light;
        memcpy(&light, &bits, sizeof light);
        tables->gain[i] = bent_light(pq_inverse_eotf(light), light, peak, J, H) / light / 1000;
    }
}

void convert_linear_by_tables(const struct linear_tables *tables, const float *row, uint8_t *dst, size_t pixels)
{
    for (size_t p = 0; p < pixels; p++, row += 3, dst += 6) {
        double lights[3], gain = 0.001;
        float brightest = (float)read_lights(row, lights);
        uint32_t bits;
        memcpy(&bits, &brightest, sizeof bits);
        if (bits >= FIRST_POINT) {
            const double *point = tables->gain + (bits - FIRST_POINT) / TO_NEXT;
            gain = point[0] + (point[1] - point[0]) * ((bits - FIRST_POINT) % TO_NEXT) / TO_NEXT;
        }
        for (int i = 0; i < 3; i++)
            lights[i] *= gain;
        write_codes(lights, dst);
    }
}

static double hlg_inverse_oetf(double signal)
{
    return signal <= 0.5 ? signal * signal / 3 : (exp((signal - c) / a) + b) / 12;
}

void convert_back_by_libm(const uint8_t *row, uint8_t *dst, size_t pixels)
{
    for (size_t p = 0; p < pixels; p++, row += 6, dst += 6) {
        double scene[3];
        for (int i = 0; i < 3; i++)
            scene[i] = hlg_inverse_oetf((fmax(sample(row + 2 * i), 64) - 64) / 876);
        double gain = 1000 * pow(0.2627 * scene[0] + 0.6780 * scene[1] + 0.0593 * scene[2], 0.2);
        for (int i = 0; i < 3; i++)
            write_code(pq_inverse_eotf(gain * scene[i]), dst + 2 * i);
    }
}

/* Linear sRGB to XYZ, XYZ to BT.2020, and the scene light of white. */
static const double TO_XYZ[3][3] = { { 0.4124, 0.3576, 0.1805 }, { 0.2126, 0.7152, 0.0722 }, { 0.0193, 0.1192, 0.9505 } };
static const double TO_BT2020[3][3] = { { 1.7167, -0.3557, -0.2534 }, { -0.6667, 1.6165, 0.0158 }, { 0.0176, -0.0428, 0.9421 } };
static const double WHITE = 0.265;

static double srgb_light(unsigned value)
{
    return pow(value / 255.0, 2.2);
}

static void multiply(const double matrix[3][3], const double from[3], double to[3])
{
    for (int i = 0; i < 3; i++)
        to[i] = matrix[i][0] * from[0] + matrix[i][1] * from[1] + matrix[i][2] * from[2];
}

void convert_srgb_by_libm(const uint8_t *row, uint8_t *dst, size_t pixels)
{
    for (size_t p = 0; p < pixels; p++, row += 3, dst += 6) {
        double lights[3], xyz[3], scene[3];
        for (int i = 0; i < 3; i++)
            lights[i] = srgb_light(row[i]);
        multiply(TO_XYZ, lights, xyz);
        multiply(TO_BT2020, xyz, scene);
        for (int i = 0; i < 3; i++)
            write_code(hlg_oetf(WHITE * scene[i]), dst + 2 * i);
    }
}

void fill_srgb_tables(struct srgb_tables *tables)
{
    for (unsigned value = 0; value < 256; value++)
        tables->light[value] = srgb_light(value);
    for (int i = 0; i < 3; i++)
        for (int j = 0; j < 3; j++) {
            tables->matrix[i][j] = 0;
            for (int k = 0; k < 3; k++)
                tables->matrix[i][j] += WHITE * TO_BT2020[i][k] * TO_XYZ[k][j];
        }
}

void convert_srgb_by_tables(const struct srgb_tables *tables, const uint8_t *row, uint8_t *dst, size_t pixels)
{
    for (size_t p = 0; p < pixels; p++, row += 3, dst += 6) {
        double lights[3], scene[3];
        for (int i = 0; i < 3; i++)
            lights[i] = tables->light[row[i]];
        multiply(tables->matrix, lights, scene);
        for (int i = 0; i < 3; i++)
            write_code(hlg_oetf(scene[i]), dst + 2 * i);
    }
}
