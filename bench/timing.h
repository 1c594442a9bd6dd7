/* What the timing programs share: the clock, medians and the pictures. */
#ifndef TIMING_H
#define TIMING_H

#include <stdint.h>

enum { WIDTH = 1920, HEIGHT = 1080, ROW = 6 * WIDTH, SRGB_ROW = 3 * WIDTH, ROUNDS = 15 };

/* Ends the program with a word on why. */
void stop(const char *why);

/* CPU seconds of this process. */
double now(void);

/* The median of a way's rounds, which are put in ascending order. */
double median_of(double rounds[ROUNDS]);

/* A picture of 1,920 x 1,080 pixels: three 16-bit samples each, high byte first. */
uint8_t *read_picture(const char *path);

/* One of as many pixels in sRGB: three bytes each. */
uint8_t *read_srgb_picture(const char *path);

/* A picture's file without its folder. */
const char *name_of(const char *path);

/* As many bytes as a picture has, written to before, so that no page is new. */
uint8_t *touched_bytes(void);

/* How many of the codes in so many rows differ, in percent, and the largest difference. */
void compare(const uint8_t *x, const uint8_t *y, int rows, double *share, int *largest);

#endif
