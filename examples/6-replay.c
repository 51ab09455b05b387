/* A replay: a recording goes to standard output as frame lines, which a station that listens, such as 7-listen.c, or
   the program `resample` takes in. The K line has kernel, word and phase; each D line has a number, which rises by one,
   and up to 64 samples.

   With the argument `feed` it prints what comes of the recording instead, from one feed without any lines, in the form
   in which the program prints it: each output as four digits on a line, and at the end E with the numbers of outputs
   and clips. The program prints the same of the lines. */
#include "resampler.h"

#include <stdio.h>
#include <stdlib.h>
#include <string.h>

enum { SAMPLES = 150, BLOCK = RESAMPLER_MOST_SAMPLES, PAIR = RESAMPLER_SAMPLE_BYTES };

/* The cubic from 1/4 of a sample on, with 2 1/2 samples from one output to the next. */
static const uint32_t kernel = RESAMPLER_CUBIC, phase = 0x40000000;
static const uint64_t word = RESAMPLER_WORD_ONE / 2 * 5;

/* Ends the program where a call was refused. */
static void must(const char *call, uint32_t refusal)
{
    if (refusal != RESAMPLER_ACCEPTED) {
        fprintf(stderr, "%s: refusal %u\n", call, (unsigned)refusal);
        exit(1);
    }
}

/* Sends a line on its way. */
static void put(const uint8_t *line, size_t length)
{
    if (fwrite(line, 1, length, stdout) != length || fflush(stdout) != 0) {
        perror("standard output");
        exit(1);
    }
}

/* How long a line is follows from what is written; the header names it. */
static void replay(const uint8_t *recording)
{
    uint8_t line[RESAMPLER_LONGEST_LINE];
    uint32_t sequence = 0;
    must("K line", resampler_write_start(kernel, word, phase, line, sizeof line));
    put(line, RESAMPLER_START_LINE_BYTES);
    for (size_t at = 0; at < SAMPLES; at += BLOCK) {
        size_t count = SAMPLES - at < BLOCK ? SAMPLES - at : BLOCK;
        must("D line", resampler_write_data(sequence++, recording + at * PAIR, count * PAIR, line, sizeof line));
        put(line, RESAMPLER_DATA_LINE_BYTES(count));
    }
}

/* At this word there are fewer outputs than samples, so the feed ends HUNGRY. */
static void feed(const uint8_t *recording)
{
    uint8_t image[RESAMPLER_IMAGE_BYTES], output[SAMPLES * PAIR];
    must("start", resampler_start_word(image, sizeof image, kernel, word, phase));
    must("feed", resampler_feed(image, sizeof image, recording, SAMPLES * PAIR, output, sizeof output));
    for (size_t i = 0; i < resampler_written(image); i++)
        printf("%04X\n", (unsigned)(uint16_t)resampler_sample(output, i));
    printf("E%016X%016X\n", (unsigned)resampler_written(image), (unsigned)resampler_clips(image));
}

int main(int argc, char **argv)
{
    uint8_t recording[SAMPLES * PAIR];
    for (int i = 0; i < SAMPLES; i++)
        resampler_put_sample(recording, (size_t)i, (int16_t)(i * i * 97 % 65536 - 32768));
    if (argc > 1 && strcmp(argv[1], "feed") == 0)
        feed(recording);
    else
        replay(recording);
    return 0;
}
