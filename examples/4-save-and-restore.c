/* Saves a converter to a file in the middle of a stream; run again, as after a restart, it goes on from the file. The
   image is all that there is of a converter, so the outputs are those of a run that was not disturbed. Samples that
   were handed in and not taken are not in the image: the host keeps those.

   The cubic reads two samples past its basepoint, so n samples give the outputs before position n - 2. From 44100
   to 48000 hertz an output lies 0.91875 samples after the one before it, and 998 / 0.91875 is 1086.3: 1000 samples
   give 1087 outputs. 435 / 0.91875 is 473.5: the first 437 give 474. */
#include "resampler.h"

#include <stdio.h>
#include <stdlib.h>
#include <string.h>

enum { SAMPLES = 1000, CUT = 437, SPACE = 1200, PAIR = RESAMPLER_SAMPLE_BYTES };
static const char name[] = "converter.image";

static void fail(const char *what, uint32_t number)
{
    fprintf(stderr, "%s %u\n", what, (unsigned)number);
    exit(1);
}

/* Feeds samples, and returns how many outputs that made. The space is ample, so the feed ends HUNGRY. */
static size_t feed(uint8_t *image, const uint8_t *input, size_t samples, uint8_t *output)
{
    uint32_t refusal = resampler_feed(image, RESAMPLER_IMAGE_BYTES, input, samples * PAIR, output, SPACE * PAIR);
    if (refusal != RESAMPLER_ACCEPTED)
        fail("feed: refusal", refusal);
    if (resampler_end(image) != RESAMPLER_HUNGRY)
        fail("feed: too little space:", SPACE);
    return resampler_written(image);
}

static void start(uint8_t *image)
{
    uint32_t refusal = resampler_start_rates(image, RESAMPLER_IMAGE_BYTES, RESAMPLER_CUBIC, 44100, 48000, 0);
    if (refusal != RESAMPLER_ACCEPTED)
        fail("start: refusal", refusal);
}

/* The first run: the first samples, and the image to the file. */
static void save(const uint8_t *input, uint8_t *output)
{
    uint8_t image[RESAMPLER_IMAGE_BYTES];
    start(image);
    size_t made = feed(image, input, CUT, output);
    FILE *file = fopen(name, "wb");
    if (file == NULL || fwrite(image, 1, sizeof image, file) != sizeof image || fclose(file) != 0) {
        perror(name);
        exit(1);
    }
    printf("saved after %u outputs\n", (unsigned)made);
}

/* The second run, which has the file and the samples to come, and nothing else: the other samples, held against a
   run that was not disturbed. A feed refuses an image that cannot be right (5), but damage to, say, a sample of the
   window does not show. */
static int restore(FILE *file, const uint8_t *input, uint8_t *output, uint8_t *whole)
{
    uint8_t image[RESAMPLER_IMAGE_BYTES], undisturbed[RESAMPLER_IMAGE_BYTES];
    if (fread(image, 1, sizeof image, file) != sizeof image || fclose(file) != 0 || remove(name) != 0) {
        perror(name);
        exit(1);
    }
    size_t made = feed(image, input + CUT * PAIR, SAMPLES - CUT, output);
    start(undisturbed);
    size_t all = feed(undisturbed, input, SAMPLES, whole);
    printf("restored, %u outputs more\n", (unsigned)made);
    printf("undisturbed: %u outputs\n", (unsigned)all);
    int same = made <= all && memcmp(output, whole + (all - made) * PAIR, made * PAIR) == 0;
    printf("%s\n", same ? "the last are the same" : "the last differ");
    return same ? 0 : 1;
}

int main(void)
{
    static uint8_t input[SAMPLES * PAIR], output[SPACE * PAIR], whole[SPACE * PAIR];
    for (int i = 0; i < SAMPLES; i++)
        resampler_put_sample(input, (size_t)i, (int16_t)((i * i * 37 + i * 500) % 40001 - 20000));
    FILE *file = fopen(name, "rb");
    if (file != NULL)
        return restore(file, input, output, whole);
    save(input, output);
    return 0;
}
