#include "timing.h"

#include <stdio.h>
#include <stdlib.h>
#include <string.h>
#include <time.h>

void stop(const char *why)
{
    fprintf(stderr, "bench: %s\n", why);
    exit(1);
}

double now(void)
{
    struct timespec t;
    clock_gettime(CLOCK_PROCESS_CPUTIME_ID, &t);
    return (double)t.tv_sec + 1e-9 * (double)t.tv_nsec;
}

static int ascending(const void *x, const void *y)
{
    double difference = *(const double *)x - *(const double *)y;
    return (difference > 0) - (difference < 0);
}

double median_of(double rounds[ROUNDS])
{
    qsort(rounds, ROUNDS, sizeof(double), ascending);
    return rounds[ROUNDS / 2];
}

/* The rows of a picture, of so many bytes each. */
static uint8_t *read_rows(const char *path, size_t row)
{
    uint8_t *picture = malloc(row * HEIGHT);
    FILE *file = fopen(path, "rb");
    if (!picture || !file || fread(picture, row, HEIGHT, file) != HEIGHT)
        stop("cannot read a picture");
    fclose(file);
    return picture;
}

uint8_t *read_picture(const char *path)
{
    return read_rows(path, ROW);
}

uint8_t *read_srgb_picture(const char *path)
{
    return read_rows(path, SRGB_ROW);
}

const char *name_of(const char *path)
{
    const char *slash = strrchr(path, '/');
    return slash ? slash + 1 : path;
}

uint8_t *touched_bytes(void)
{
    uint8_t *bytes = malloc((size_t)ROW * HEIGHT);
    if (!bytes)
        stop("no memory");
    memset(bytes, 0xA5, (size_t)ROW * HEIGHT);
    return bytes;
}

void compare(const uint8_t *x, const uint8_t *y, int rows, double *share, int *largest)
{
    size_t codes = (size_t)rows * WIDTH * 3, different = 0;
    *largest = 0;
    for (size_t i = 0; i < codes; i++) {
        int d = abs((x[2 * i] << 8 | x[2 * i + 1]) - (y[2 * i] << 8 | y[2 * i + 1]));
        different += d != 0;
        if (d > *largest)
            *largest = d;
    }
    *share = 100.0 * (double)different / (double)codes;
}
