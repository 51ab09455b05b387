/* Sixteen sensors on one clock, in one call: an image of lanes has a lane for each. The samples of a call lie one lane
   after another, and so does the space for the outputs, of which each lane fills the front of its part.

   The kernel is three-point, which follows a straight line. Sample j of sensor i, 0 to 13, is 4 i j, so the output at
   position q / 4 is i q. Sensors 14 and 15 are set wrong. Sensor 14 swings above the middle of the range, and clips on the high
   side only: it lies too high. Sensor 15 swings between the outermost values, and clips on both sides: its gain is too
   large. No other lane is touched by that. The image has the clips of the last call; the program adds them up.

   The rates are 1000 to 2000 hertz, half a sample a step, and after a retune 3/4 of one. A retune of the first 40 bytes
   of the image retunes all lanes. */
#include "resampler.h"

#include <stdio.h>
#include <stdlib.h>

enum { LANES = RESAMPLER_MOST_LANES, BLOCK = 4, SPACE = 8 }; /* samples and places of a lane in one call */

/* Ends the program where a call was refused. */
static void must(const char *call, uint32_t refusal)
{
    if (refusal != RESAMPLER_ACCEPTED) {
        fprintf(stderr, "%s: refusal %u\n", call, (unsigned)refusal);
        exit(1);
    }
}

/* What a sensor reads at a time. */
static int16_t measure(int sensor, int time)
{
    if (sensor >= 14)
        return time / 2 % 2 == 0 ? 32767 : sensor == 14 ? 0 : -32768;
    return (int16_t)(4 * sensor * time);
}

/* The clips of each sensor so far. */
static uint32_t high[LANES], low[LANES];

/* Feeds the next block of every sensor, and prints a line for each output, with a column for each sensor. By the
   header, 4 samples at half a sample a step or more make at most 8 outputs, so that the feed ends HUNGRY. */
static void feed(uint8_t *image, int *time)
{
    uint8_t input[LANES * BLOCK * RESAMPLER_SAMPLE_BYTES], output[LANES * SPACE * RESAMPLER_SAMPLE_BYTES];
    for (int lane = 0; lane < LANES; lane++)
        for (int j = 0; j < BLOCK; j++)
            resampler_put_sample(input, (size_t)(lane * BLOCK + j), measure(lane, *time + j));
    *time += BLOCK;
    must("feed", resampler_feed_lanes(image, RESAMPLER_LANES_BYTES, LANES, input, sizeof input, output, sizeof output));
    for (size_t k = 0; k < resampler_written(image); k++)
        for (size_t lane = 0; lane < LANES; lane++)
            printf("%*d%s", lane < 14 ? 4 : 7, resampler_sample(output, lane * SPACE + k), lane < 15 ? "" : "\n");
    printf("of each sensor %u samples, %u outputs, %s", (unsigned)resampler_taken(image),
           (unsigned)resampler_written(image), resampler_end(image) == RESAMPLER_FULL ? "FULL" : "HUNGRY");
    for (size_t lane = 0; lane < LANES; lane++) {
        high[lane] += resampler_lane_high(image, lane);
        low[lane] += resampler_lane_low(image, lane);
        if (resampler_lane_clips(image, lane) > 0)
            printf("; sensor %u clips %u high, %u low", (unsigned)lane, (unsigned)resampler_lane_high(image, lane),
                   (unsigned)resampler_lane_low(image, lane));
    }
    printf("\n");
}

/* What to do about a sensor that clips, by its sides. */
static void advise(void)
{
    for (size_t lane = 0; lane < LANES; lane++)
        if (high[lane] + low[lane] > 0)
            printf("sensor %u, %u high and %u low: %s\n", (unsigned)lane, (unsigned)high[lane], (unsigned)low[lane],
                   low[lane] == 0    ? "lies too high"
                   : high[lane] == 0 ? "lies too low"
                                     : "has too large a gain");
}

int main(void)
{
    uint8_t image[RESAMPLER_LANES_BYTES];
    int time = 0;
    must("start", resampler_start_lanes_rates(image, sizeof image, RESAMPLER_THREE_POINT, 1000, 2000, 0));
    feed(image, &time);
    must("retune", resampler_retune_ratio(image, RESAMPLER_IMAGE_BYTES, 0.75));
    feed(image, &time);
    feed(image, &time);
    advise();
    return 0;
}
