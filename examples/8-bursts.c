/* Bursts: a sampler delivers samples as it likes, 1 to 48 at a time, and outputs are wanted in blocks of at most 24. A
   queue of 96 samples stands between the two. The host pushes each burst as it comes and draws one block after it, and
   keeps no samples of its own.

   A burst that finds no space is refused with 16, and nothing of it is stored: the host draws, and pushes it again. At
   the end it draws until the converter is HUNGRY. Then nothing is held any more.

   From 44100 to 48000 hertz there are more outputs than samples, so one block a burst is too little on the mean: the
   queue fills up, and some bursts are refused. The outputs are those of the same samples in one feed without a queue,
   1087 of 1000 samples, as 4-save-and-restore.c works out. */
#include "resampler.h"

#include <stdio.h>
#include <stdlib.h>
#include <string.h>

enum { SAMPLES = 1000, LONGEST = 48, QUEUE = 96, SPACE = 24, MOST = 1200, PAIR = RESAMPLER_SAMPLE_BYTES };

static uint8_t image[RESAMPLER_IMAGE_BYTES];
static uint8_t marks[RESAMPLER_MARKS_BYTES], queue[QUEUE * PAIR]; /* 8 zero bytes are an empty queue */
static uint8_t outputs[MOST * PAIR];
static size_t made, draws, rounds; /* outputs and draws so far, and how often the front went round the ring */

/* Ends the program where a call was refused. */
static void must(const char *call, uint32_t refusal)
{
    if (refusal != RESAMPLER_ACCEPTED) {
        fprintf(stderr, "%s: refusal %u\n", call, (unsigned)refusal);
        exit(1);
    }
}

/* The samples of the next burst: drawn, but the same in every run. */
static size_t next_length(void)
{
    static uint32_t seed = 1;
    seed = seed * 1664525 + 1013904223;
    return (seed >> 16) % LONGEST + 1;
}

/* Draws one block of outputs. */
static void draw(void)
{
    uint32_t front = resampler_front(marks);
    if (made + SPACE > MOST) {
        fprintf(stderr, "draw: more outputs than these samples make\n");
        exit(1);
    }
    must("draw", resampler_draw(image, sizeof image, marks, sizeof marks, queue, sizeof queue, outputs + made * PAIR,
                                SPACE * PAIR));
    made += resampler_written(image);
    draws++;
    rounds += resampler_front(marks) < front;
}

/* Pushes a burst. While it is refused with 16 the host draws, which makes space, since no burst is longer than the
   queue. Tells how many draws that took. */
static size_t push(const uint8_t *burst, size_t samples)
{
    size_t before = draws;
    uint32_t refusal;
    while ((refusal = resampler_push(marks, sizeof marks, queue, sizeof queue, burst, samples * PAIR)) ==
           RESAMPLER_QUEUE_FULL)
        draw();
    must("push", refusal);
    return draws - before;
}

/* The same samples without a queue, in one feed with ample space. */
static int is_same(const uint8_t *recording)
{
    uint8_t other[RESAMPLER_IMAGE_BYTES], whole[MOST * PAIR];
    must("start", resampler_start_rates(other, sizeof other, RESAMPLER_CUBIC, 44100, 48000, 0));
    must("feed", resampler_feed(other, sizeof other, recording, SAMPLES * PAIR, whole, sizeof whole));
    return resampler_end(other) == RESAMPLER_HUNGRY && resampler_written(other) == made &&
           memcmp(whole, outputs, made * PAIR) == 0;
}

int main(void)
{
    static uint8_t recording[SAMPLES * PAIR];
    size_t at = 0, bursts = 0;
    for (int i = 0; i < SAMPLES; i++)
        resampler_put_sample(recording, (size_t)i, (int16_t)((i * i * 37 + i * 500) % 40001 - 20000));
    must("start", resampler_start_rates(image, sizeof image, RESAMPLER_CUBIC, 44100, 48000, 0));
    while (at < SAMPLES) {
        size_t drawn = next_length(), samples = drawn < SAMPLES - at ? drawn : SAMPLES - at;
        uint32_t held = resampler_held(marks);
        size_t again = push(recording + at * PAIR, samples);
        bursts++;
        if (again > 0)
            printf("burst %u, %u samples on %u held: refused, and pushed again after %u %s\n", (unsigned)bursts,
                   (unsigned)samples, (unsigned)held, (unsigned)again, again == 1 ? "draw" : "draws");
        at += samples;
        draw();
    }
    do
        draw();
    while (resampler_end(image) == RESAMPLER_FULL);
    printf("%u samples in %u bursts, %u outputs in %u draws\n", (unsigned)at, (unsigned)bursts, (unsigned)made,
           (unsigned)draws);
    printf("the front went round the ring %u times, to place %u; %u held\n", (unsigned)rounds,
           (unsigned)resampler_front(marks), (unsigned)resampler_held(marks));
    int same = is_same(recording);
    printf("%s without a queue\n", same ? "the outputs are the same" : "the outputs differ");
    return same ? 0 : 1;
}
