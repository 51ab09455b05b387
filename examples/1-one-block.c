/* One block: starts a converter, feeds it three samples and prints the outputs.

   The kernel is linear and the word half of 2^32, so there are two outputs to a sample: the samples 0, 100, 40 and
   the points half way between them. The output after 70 would be sample 40 itself. It is not made: at its position
   the linear kernel reads one sample further, and that has not come. */
#include "resampler.h"

#include <stdio.h>
#include <stdlib.h>

/* Ends the program where a call was refused. */
static void must(const char *call, uint32_t refusal)
{
    if (refusal != RESAMPLER_ACCEPTED) {
        fprintf(stderr, "%s: refusal %u\n", call, (unsigned)refusal);
        exit(1);
    }
}

int main(void)
{
    static const int16_t samples[] = {0, 100, 40};
    enum { SAMPLES = sizeof samples / sizeof *samples, SPACE = 8 };
    uint8_t image[RESAMPLER_IMAGE_BYTES];
    uint8_t input[SAMPLES * RESAMPLER_SAMPLE_BYTES];
    uint8_t output[SPACE * RESAMPLER_SAMPLE_BYTES];

    for (size_t i = 0; i < SAMPLES; i++)
        resampler_put_sample(input, i, samples[i]);

    must("start", resampler_start_word(image, sizeof image, RESAMPLER_LINEAR, RESAMPLER_WORD_ONE / 2, 0));
    must("feed", resampler_feed(image, sizeof image, input, sizeof input, output, sizeof output));

    for (size_t i = 0; i < resampler_written(image); i++)
        printf("%d\n", resampler_sample(output, i));
    printf("taken %u, written %u, clips %u, %s\n", (unsigned)resampler_taken(image),
           (unsigned)resampler_written(image), (unsigned)resampler_clips(image),
           resampler_end(image) == RESAMPLER_FULL ? "FULL" : "HUNGRY");
    return 0;
}
