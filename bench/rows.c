/* Times row calls alone: a picture in memory, in rows of so many pixels, one pass.
 *
 *     rows PEAK WIDTH PICTURE
 *
 * Prints nanoseconds a pixel, in CPU time of the calls. The destination has been
 * written to before, so that no page is new.
 */
#include "pq_hlg.h"
#include "timing.h"

#include <stdio.h>
#include <stdlib.h>

int main(int count, char **words)
{
    if (count != 4)
        stop("usage: rows PEAK WIDTH PICTURE");
    uint64_t peak = strtoull(words[1], NULL, 10);
    size_t width = strtoull(words[2], NULL, 10), pixels = (size_t)WIDTH * HEIGHT;
    if (width < 1 || pixels % width)
        stop("the picture has no whole number of such rows");
    uint8_t *picture = read_picture(words[3]), *dst = touched_bytes();
    double start = now();
    for (size_t at = 0; at < pixels; at += width)
        if (pq_hlg_convert_row(peak, 0, picture + 6 * at, 6 * width, dst + 6 * at, 6 * width, 0, width))
            stop("the row call refused a row");
    printf("%.3f\n", 1e9 * (now() - start) / (double)pixels);
    free(picture);
    free(dst);
    return 0;
}
