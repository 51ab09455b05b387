/* A stream: samples come in blocks of 5, outputs leave in blocks of at most 3, and the image carries the rest.

   A feed ends in one of two ways.
   FULL    The space is all written and another output is due. The host passes the outputs on and calls again with
           new space. The samples that were not taken are still the host's: it hands them in again. There may be
           none left; the output that is due is then made of the samples in the image.
   HUNGRY  The input is all taken, and all outputs are made that it allows. The host brings the next block. Some
           space may be left, and it may be that none is: the space was then just enough.

   Sample i is 100 i, the kernel is linear and the word 5/8 of 2^32, so that output k is 62.5 k, halves to the even
   neighbour: 62.5 gives 62, and 187.5 gives 188. */
#include "resampler.h"

#include <stdio.h>

enum { BLOCK = 5, BLOCKS = 3, SPACE = 3 };

/* Feeds one block, in as many calls as it takes. */
static uint32_t feed_block(uint8_t *image, const uint8_t *input, size_t samples)
{
    uint32_t end;
    do {
        uint8_t output[SPACE * RESAMPLER_SAMPLE_BYTES];
        uint32_t refusal = resampler_feed(image, RESAMPLER_IMAGE_BYTES, input, samples * RESAMPLER_SAMPLE_BYTES,
                                          output, sizeof output);
        if (refusal != RESAMPLER_ACCEPTED)
            return refusal;
        uint32_t taken = resampler_taken(image);
        end = resampler_end(image);
        printf("  of %u samples took %u, %s:", (unsigned)samples, (unsigned)taken,
               end == RESAMPLER_FULL ? "FULL" : "HUNGRY");
        for (size_t i = 0; i < resampler_written(image); i++)
            printf(" %d", resampler_sample(output, i));
        printf("\n");
        input += taken * RESAMPLER_SAMPLE_BYTES;
        samples -= taken;
    } while (end == RESAMPLER_FULL);
    return RESAMPLER_ACCEPTED;
}

int main(void)
{
    uint8_t image[RESAMPLER_IMAGE_BYTES];
    uint32_t refusal = resampler_start_ratio(image, sizeof image, RESAMPLER_LINEAR, 0.625, 0);
    for (int b = 0; b < BLOCKS && refusal == RESAMPLER_ACCEPTED; b++) {
        uint8_t input[BLOCK * RESAMPLER_SAMPLE_BYTES];
        for (int i = 0; i < BLOCK; i++)
            resampler_put_sample(input, (size_t)i, (int16_t)(100 * (b * BLOCK + i)));
        printf("block %d\n", b + 1);
        refusal = feed_block(image, input, BLOCK);
    }
    if (refusal != RESAMPLER_ACCEPTED) {
        fprintf(stderr, "refusal %u\n", (unsigned)refusal);
        return 1;
    }
    return 0;
}
