/* End of input: a recording is converted whole, with all outputs that stand before its end.

   An output is written once the last sample that its kernel reads there has come, which is one or two samples further
   on. So when the recording ends some outputs still wait for samples that will never come. The host brings others in
   their place: resampler_samples_for says how many, and there are never more than two.

   What these are is the host's choice. Copies of the last sample leave the signal where it is, so that it makes no
   jump; they are the usual choice. Zeros suit a signal that ends at zero, as the converter takes it to begin: samples
   before the first are zero. This one ends elsewhere, and both are printed.

   The outputs of n samples are those at positions before n. Output k stands at phase + k word, in 2^-32 of a sample, so
   they are (n 2^32 - phase) / word, rounded up; where the rates are given and the word is rounded down, that may be one
   more than n times the ratio of the rates. The samples that are brought may allow one more than these, or several. It
   is not made: the space of a call ends with the last output that is wanted. */
#include "resampler.h"

#include <stdio.h>
#include <stdlib.h>

enum { SAMPLES = 20, BLOCK = 6, SPACE = 4, MOST = 64, PAIR = RESAMPLER_SAMPLE_BYTES };

/* The outputs of one recording, and how many are wanted. */
struct recording {
    uint8_t image[RESAMPLER_IMAGE_BYTES], outputs[MOST * PAIR];
    size_t made, wanted;
};

/* Ends the program where a call was refused. */
static void must(const char *call, uint32_t refusal)
{
    if (refusal != RESAMPLER_ACCEPTED) {
        fprintf(stderr, "%s: %s\n", call, resampler_refusal_text(refusal));
        exit(1);
    }
}

static int16_t sample(int i)
{
    return (int16_t)(1000 + 100 * i);
}

/* Starts, and works out how many outputs stand before the end. */
static void start(struct recording *r, uint32_t kernel, uint64_t word, uint32_t phase)
{
    must("start", resampler_start_word(r->image, sizeof r->image, kernel, word, phase));
    r->made = 0;
    r->wanted = (size_t)((((uint64_t)SAMPLES << 32) - phase + word - 1) / word);
    if (r->wanted > MOST) {
        fprintf(stderr, "start: %u outputs, and space for %u\n", (unsigned)r->wanted, (unsigned)MOST);
        exit(1);
    }
}

/* Feeds samples in as many calls as it takes. After FULL it hands in what was not taken, with new space, until all
   outputs are there that are wanted. */
static void feed(struct recording *r, const uint8_t *input, size_t samples)
{
    uint32_t end = RESAMPLER_FULL;
    while (end == RESAMPLER_FULL && r->made < r->wanted) {
        size_t space = r->wanted - r->made < SPACE ? r->wanted - r->made : SPACE;
        must("feed", resampler_feed(r->image, sizeof r->image, input, samples * PAIR, r->outputs + r->made * PAIR,
                                    space * PAIR));
        r->made += resampler_written(r->image);
        input += resampler_taken(r->image) * PAIR;
        samples -= resampler_taken(r->image);
        end = resampler_end(r->image);
    }
}

/* Feeds the recording in blocks, as it comes. */
static void feed_recording(struct recording *r)
{
    for (int at = 0; at < SAMPLES; at += BLOCK) {
        int samples = SAMPLES - at < BLOCK ? SAMPLES - at : BLOCK;
        uint8_t block[BLOCK * PAIR];
        for (int i = 0; i < samples; i++)
            resampler_put_sample(block, (size_t)i, sample(at + i));
        feed(r, block, (size_t)samples);
    }
}

/* The end of input: brings the samples that outputs still wait for, each of this value. Tells how many. */
static uint64_t finish(struct recording *r, int16_t value)
{
    uint64_t more = resampler_samples_for(r->image, (uint32_t)(r->wanted - r->made));
    for (uint64_t i = 0; i < more; i++) {
        uint8_t last[PAIR];
        resampler_put_sample(last, 0, value);
        feed(r, last, 1);
    }
    return more;
}

/* Prints the outputs that had to wait. */
static void print_last(const char *with, const struct recording *r, size_t from)
{
    if (from < r->made)
        printf("; %s:", with);
    for (size_t i = from; i < r->made; i++)
        printf(" %d", resampler_sample(r->outputs, i));
}

/* Converts the recording, with copies of the last sample behind it and with zeros, and prints what came of it. */
static int convert(uint32_t kernel, uint64_t word, uint32_t phase)
{
    struct recording copies, zeros;
    start(&copies, kernel, word, phase);
    start(&zeros, kernel, word, phase);
    uint64_t foretold = resampler_outputs_for(copies.image, SAMPLES);
    feed_recording(&copies);
    feed_recording(&zeros);
    size_t before = copies.made;
    uint64_t more = finish(&copies, sample(SAMPLES - 1));
    finish(&zeros, 0);
    printf("  kernel %u: made %u, waiting %u, samples brought %u", (unsigned)kernel, (unsigned)before,
           (unsigned)(copies.wanted - before), (unsigned)more);
    print_last("copies", &copies, before);
    print_last("zeros", &zeros, before);
    printf("\n");
    return before == foretold && copies.made == copies.wanted && zeros.made == zeros.wanted;
}

int main(void)
{
    static const struct {
        const char *what;
        uint64_t word;
        uint32_t phase;
    } settings[] = {{"four outputs to three samples", RESAMPLER_WORD_ONE / 4 * 3, 0},
                    {"four outputs to three samples", RESAMPLER_WORD_ONE / 4 * 3, 0x80000000},
                    {"one output to three samples", RESAMPLER_WORD_ONE * 3, 0}};
    int whole = 1;
    printf("%d samples, 1000 to %d\n", (int)SAMPLES, sample(SAMPLES - 1));
    for (size_t i = 0; i < sizeof settings / sizeof *settings; i++) {
        printf("%s, from %.1f on\n", settings[i].what, settings[i].phase / 4294967296.0);
        for (uint32_t kernel = RESAMPLER_LINEAR; kernel <= RESAMPLER_CUBIC; kernel++)
            whole &= convert(kernel, settings[i].word, settings[i].phase);
    }
    printf("%s\n", whole ? "every output before the end is there" : "outputs are missing");
    return whole ? 0 : 1;
}
