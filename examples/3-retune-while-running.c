/* Retunes between feeds. A retune replaces the word and nothing else: the next output stays where it was due, and
   the new word counts from there on. A refused retune changes nothing, and the stream goes on with the old word.

   Sample i is 100 i and the kernel is linear, so an output is 100 times its position. Each feed is handed the next
   four samples. */
#include "resampler.h"

#include <stdio.h>
#include <stdlib.h>

enum { BLOCK = 4, SPACE = 32 };

/* Ends the program where a call was refused. */
static void must(const char *call, uint32_t refusal)
{
    if (refusal != RESAMPLER_ACCEPTED) {
        fprintf(stderr, "%s: refusal %u\n", call, (unsigned)refusal);
        exit(1);
    }
}

static void feed(uint8_t *image, int *samples)
{
    uint8_t input[BLOCK * RESAMPLER_SAMPLE_BYTES], output[SPACE * RESAMPLER_SAMPLE_BYTES];
    for (size_t i = 0; i < BLOCK; i++)
        resampler_put_sample(input, i, (int16_t)(100 * (*samples)++));
    must("feed", resampler_feed(image, RESAMPLER_IMAGE_BYTES, input, sizeof input, output, sizeof output));
    if (resampler_end(image) == RESAMPLER_FULL) {
        fprintf(stderr, "feed: more outputs than these words make\n");
        exit(1);
    }
    printf("  ");
    for (size_t i = 0; i < resampler_written(image); i++)
        printf(" %d", resampler_sample(output, i));
    printf("\n");
}

int main(void)
{
    uint8_t image[RESAMPLER_IMAGE_BYTES];
    int samples = 0;

    printf("start: rates 24000 to 48000, half a sample a step\n");
    must("start", resampler_start_rates(image, sizeof image, RESAMPLER_LINEAR, 24000, 48000, 0));
    feed(image, &samples);

    printf("retune: ratio 1.25; 300 was due, and stays\n");
    must("retune", resampler_retune_ratio(image, sizeof image, 1.25));
    feed(image, &samples);

    /* a measurement that went wrong: the host reports it, and the converter goes on as before */
    uint32_t refusal = resampler_retune_ratio(image, sizeof image, -1.0);
    printf("retune: ratio -1, refusal %u; still 1.25\n", (unsigned)refusal);
    feed(image, &samples);

    printf("retune: word 2^30, a quarter of a sample\n");
    must("retune", resampler_retune_word(image, sizeof image, RESAMPLER_WORD_ONE / 4));
    feed(image, &samples);
    return 0;
}
