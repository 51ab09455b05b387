/* A station that listens: it takes frame lines from standard input, such as 6-replay.c writes, starts a converter by
   the K line, feeds it the samples of each D line, and prints what the program `resample` prints of such lines: each
   output as four digits on a line, and at the end E with the numbers of outputs and clips.

   What comes is cut anywhere, not at the ends of lines. While a line is not whole a read is refused with 6, and the
   station waits for more. Its buffer has room for the longest line, so that a line which does not end there is refused
   for good.

   D lines are numbered by one. One whose number is not the next is refused with 15: the station says so, and goes on
   from it, with its samples where they came. (The program ends there, with R15.) The station gives up on every other
   refusal, and where the input ends amid a line. */
#include "resampler.h"

#include <inttypes.h>
#include <stdio.h>
#include <stdlib.h>
#include <string.h>
#include <unistd.h>

enum { PIECE = 100, SPACE = 16, PAIR = RESAMPLER_SAMPLE_BYTES }; /* bytes taken in at once; outputs of one feed */

static uint8_t bytes[RESAMPLER_LONGEST_LINE]; /* what came and is not read yet; it begins with a line */
static size_t held;                           /* how many they are */

/* Ends the program where a call was refused. */
static void must(const char *call, uint32_t refusal)
{
    if (refusal != RESAMPLER_ACCEPTED) {
        fprintf(stderr, "%s: refusal %u\n", call, (unsigned)refusal);
        exit(1);
    }
}

/* Waits for more bytes, and tells whether any came. */
static int more_came(void)
{
    size_t space = sizeof bytes - held;
    ssize_t came = read(STDIN_FILENO, bytes + held, space < PIECE ? space : PIECE);
    if (came < 0) {
        perror("standard input");
        exit(1);
    }
    held += (size_t)came;
    return came > 0;
}

/* Whether to read a line again: it was not whole, and more of it has come. */
static int is_longer(uint32_t refusal)
{
    return refusal == RESAMPLER_NO_LINE_END && held < sizeof bytes && more_came();
}

/* Goes on with the part that follows a line. */
static void go_on(const uint8_t *follows)
{
    held -= (size_t)(follows - bytes);
    memmove(bytes, follows, held);
}

static void read_start(uint8_t *image)
{
    uint8_t frame[RESAMPLER_START_FIELDS_BYTES];
    uint32_t refusal;
    do
        refusal = resampler_read_start(bytes, held, frame, sizeof frame);
    while (is_longer(refusal));
    must("K line", refusal);
    go_on(bytes + RESAMPLER_START_LINE_BYTES);
    must("start", resampler_start_word(image, RESAMPLER_IMAGE_BYTES, resampler_line_kernel(frame),
                                       resampler_line_word(frame), resampler_line_phase(frame)));
}

static uint32_t try_data(uint8_t *frame, uint8_t *samples)
{
    return resampler_read_data(bytes, held, frame, RESAMPLER_DATA_FIELDS_BYTES, samples,
                               RESAMPLER_MOST_SAMPLES * PAIR);
}

/* Reads a D line, and returns the number of its samples; 0 where the input has ended. A line out of order is told, and
   read again with any number. */
static size_t read_data(uint8_t *frame, uint8_t *samples)
{
    uint32_t refusal, last = resampler_sequence(frame);
    do
        refusal = try_data(frame, samples);
    while (is_longer(refusal));
    if (held == 0)
        return 0;
    if (refusal == RESAMPLER_BAD_SEQUENCE) {
        resampler_any_sequence(frame);
        refusal = try_data(frame, samples);
        fprintf(stderr, "line %08" PRIX32 " came after %08" PRIX32 "\n", resampler_sequence(frame), last);
    }
    must("D line", refusal);
    go_on(resampler_after_data(bytes, frame));
    return resampler_count(frame);
}

/* Feeds samples in as many calls as it takes, prints the outputs, and counts them and their clips. */
static void feed(uint8_t *image, const uint8_t *samples, size_t count, uint64_t *made, uint64_t *clips)
{
    do {
        uint8_t output[SPACE * PAIR];
        must("feed", resampler_feed(image, RESAMPLER_IMAGE_BYTES, samples, count * PAIR, output, sizeof output));
        for (size_t i = 0; i < resampler_written(image); i++)
            printf("%04X\n", (unsigned)(uint16_t)resampler_sample(output, i));
        fflush(stdout);
        *made += resampler_written(image);
        *clips += resampler_clips(image);
        samples += resampler_taken(image) * PAIR;
        count -= resampler_taken(image);
    } while (resampler_end(image) == RESAMPLER_FULL);
}

int main(void)
{
    uint8_t image[RESAMPLER_IMAGE_BYTES], samples[RESAMPLER_MOST_SAMPLES * PAIR];
    uint8_t frame[RESAMPLER_DATA_FIELDS_BYTES] = {0}; /* no last number; kept from line to line */
    uint64_t made = 0, clips = 0;
    size_t count;
    read_start(image);
    while ((count = read_data(frame, samples)) > 0)
        feed(image, samples, count, &made, &clips);
    printf("E%016" PRIX64 "%016" PRIX64 "\n", made, clips);
    return 0;
}
