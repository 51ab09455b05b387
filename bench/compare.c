/* Times resampler_feed of the C library against the same converter in plain C, in one process and in turn, and prints
   the best time of each in nanoseconds an output, with their ratio; for an empty call, nanoseconds a call. A stream
   is fed in blocks, with ample space, and the image carried on; the time includes the calls. It stops where the two
   leave different outputs or images.

   Built with OLD it holds and times an older archive too, whose symbols begin with `old_`, and prints the best time of
   the new one, new / C and new / old. Each ratio is the median over the runs of the ratio of two neighbouring runs,
   which other work on the machine disturbs less than the ratio of the best times. The older one may take halves upward,
   as before request U6: its outputs may be one above even ones.

   Built with LANES it holds against each other and times one call of resampler_feed_lanes for sixteen lanes, the same
   in plain C, and sixteen calls of resampler_feed with an image each, over the same buffers. It prints the best time of
   each, and the ratios as medians. A block is that of a lane; it is shorter where its outputs would not fit one call.

   With the word `loud` the signal is noise over the whole range, which makes clips. With the word `half` it is noise of
   at most 128 either way, which makes none, and there are only the rows of word 2^31: every second output stands in the
   middle between two samples, and half of those of the linear kernel on a half, at random. At the other words next to
   none do.

   `compare --count FILE`, under callgrind as bench/run calls it, prints instructions instead of nanoseconds, of one
   shorter stream each. */
#include "measure.h"
#include "plain.h"
#include "resampler.h"
#include "wave.h"

typedef uint32_t start_function(uint8_t *, size_t, uint32_t, uint64_t, uint32_t);
typedef uint32_t feed_function(uint8_t *, size_t, const uint8_t *, size_t, uint8_t *, size_t);

struct maker {
    start_function *start;
    feed_function *feed;
    size_t image; /* bytes of its image, or images */
};

enum { SINGLE = RESAMPLER_IMAGE_BYTES, SPACE = RESAMPLER_LARGEST_BUFFER };

#ifdef LANES

enum { FED = RESAMPLER_MOST_LANES, IMAGE = FED * SINGLE };

static uint32_t feed_at_once(uint8_t *image, size_t image_length, const uint8_t *input, size_t input_length,
                             uint8_t *output, size_t output_length)
{
    return resampler_feed_lanes(image, image_length, FED, input, input_length, output, output_length);
}

static uint32_t feed_plain(uint8_t *image, size_t image_length, const uint8_t *input, size_t input_length,
                           uint8_t *output, size_t output_length)
{
    return plain_host_feed_lanes(image, image_length, FED, input, input_length, output, output_length);
}

static uint32_t start_each(uint8_t *images, size_t length, uint32_t kernel, uint64_t word, uint32_t phase)
{
    uint32_t refusal = RESAMPLER_ACCEPTED;
    for (size_t at = 0; at < length && refusal == RESAMPLER_ACCEPTED; at += SINGLE)
        refusal = resampler_start_word(images + at, SINGLE, kernel, word, phase);
    return refusal;
}

static uint32_t feed_each(uint8_t *images, size_t length, const uint8_t *input, size_t input_length, uint8_t *output,
                          size_t output_length)
{
    uint32_t refusal = RESAMPLER_ACCEPTED;
    size_t bytes = input_length / FED, space = output_length / FED;
    for (size_t at = 0; at < length && refusal == RESAMPLER_ACCEPTED; at += SINGLE) {
        refusal = resampler_feed(images + at, SINGLE, input, bytes, output, space);
        input += bytes;
        output += space;
    }
    return refusal;
}

/* Whether an image of lanes, or sixteen images, hold what the image of lanes of the new one holds. */
static int is_same(const uint8_t *image, size_t bytes, const uint8_t *of_new)
{
    uint8_t images[IMAGE];
    for (size_t lane = 0; lane < FED; lane++) {
        uint8_t *one = images + lane * SINGLE;
        memcpy(one, of_new, SINGLE);
        memcpy(one + RESAMPLER_AT_WINDOW, of_new + resampler_lane_window(lane), 8);
        uint32_t clips = resampler_lane_clips(of_new, lane);
        memcpy(one + RESAMPLER_AT_CLIPS, &clips, sizeof clips);
    }
    return memcmp(image, bytes == IMAGE ? images : of_new, bytes) == 0;
}

static const struct maker makers[] = {
    {resampler_start_lanes_word, feed_at_once, RESAMPLER_LANES_BYTES},
    {resampler_start_lanes_word, feed_plain, RESAMPLER_LANES_BYTES},
    {start_each, feed_each, IMAGE},
};
static const size_t blocks[] = {16, 64, 2048};
#define THIRD_ONE "sixteen calls"

#else

enum { FED = 1, IMAGE = SINGLE };

static int is_same(const uint8_t *image, size_t bytes, const uint8_t *of_new)
{
    return memcmp(image, of_new, bytes) == 0;
}

#ifdef OLD
start_function old_resampler_start_word;
feed_function old_resampler_feed;
#endif

static const struct maker makers[] = {
    {resampler_start_word, resampler_feed, IMAGE},
    {resampler_start_word, plain_host_feed, IMAGE},
#ifdef OLD
    {old_resampler_start_word, old_resampler_feed, IMAGE},
#endif
};
static const size_t blocks[] = {64, 16384};
#define THIRD_ONE "the older archive"

#endif

enum { MAKERS = sizeof makers / sizeof makers[0], BLOCKS = sizeof blocks / sizeof blocks[0] };
enum { SAMPLES = 1 << 18, COUNTED_SAMPLES = 1 << 16, OUTPUT_BYTES = 4 * SAMPLES + SPACE, CALLS = 20000 };
enum { ROWS = 16 * BLOCKS };

static uint8_t wave[2 * SAMPLES], input[2 * SAMPLES], outputs[MAKERS][OUTPUT_BYTES];
static size_t samples = SAMPLES;

/* A row of the table. A call is lent so many bytes of input and of output; `made` counts the outputs of all calls. */
struct row {
    uint32_t kernel;
    size_t block;
    double ratio;
    uint64_t word;
    size_t bytes, space;
    size_t made;
    struct times times;
};

/* Of a lane's block as many samples as have space for their outputs in one call. Lanes have just that space. */
static void set_row(struct row *row, uint32_t kernel, size_t block, double ratio)
{
    size_t most = (size_t)(SPACE / 2 / FED * ratio);
    row->kernel = kernel;
    row->block = block < most ? block : most;
    row->ratio = ratio;
    row->word = (uint64_t)(ratio * 4294967296.0);
    row->bytes = 2 * FED * row->block;
    row->space = FED > 1 ? 2 * FED * (((row->block << 32) + row->word - 1) / row->word) : SPACE;
}

/* Lays the wave as the calls read it: each lane has a stretch of it, and each call the next block of every lane. */
static void lay(size_t block)
{
    uint8_t *to = input;
    for (size_t at = 0; (at + block) * FED <= samples; at += block)
        for (size_t lane = 0; lane < FED; lane++, to += 2 * block)
            memcpy(to, wave + 2 * (lane * (samples / FED) + at), 2 * block);
}

static void start(const struct maker *maker, uint8_t *image, uint32_t kernel, uint64_t word)
{
    if (maker->start(image, maker->image, kernel, word, 0) != RESAMPLER_ACCEPTED)
        fail("start refused");
}

/* How far the outputs of the next call lie from those of this one. Lanes may leave gaps. */
static size_t advance(const struct row *row, const uint8_t *image)
{
    return FED > 1 ? row->space : 2 * resampler_written(image);
}

/* Feeds all samples in blocks, and returns the time. */
static double stream(const struct maker *maker, const struct row *row, uint8_t *to)
{
    uint8_t image[IMAGE];
    feed_function *feed = maker->feed;
    start(maker, image, row->kernel, row->word);
    double began = now();
    for (size_t at = 0; at + row->bytes <= 2 * samples; at += row->bytes) {
        if (feed(image, maker->image, input + at, row->bytes, to, row->space) != RESAMPLER_ACCEPTED)
            fail("feed refused");
        to += advance(row, image);
    }
    return now() - began;
}

static int agree(size_t maker)
{
    if (memcmp(outputs[maker], outputs[NEW], OUTPUT_BYTES) == 0)
        return 1;
#ifdef OLD
    for (size_t k = 0; k < OUTPUT_BYTES / 2; k++) {
        int above = resampler_sample(outputs[maker], k) - resampler_sample(outputs[NEW], k);
        if (above != 0 && (above != 1 || outputs[NEW][2 * k] % 2 != 0))
            return 0;
    }
    return maker == THIRD;
#else
    return 0;
#endif
}

static void compare_outputs(void)
{
    for (size_t i = 1; i < MAKERS; i++)
        if (!agree(i))
            fail(i == PLAIN ? "the outputs differ" : "the outputs differ from those of " THIRD_ONE);
}

/* Feeds all converters, compares what each call leaves, and returns the number of outputs. */
static size_t compare(const struct row *row)
{
    uint8_t images[MAKERS][IMAGE];
    size_t made = 0, place = 0;
    for (size_t i = 0; i < MAKERS; i++)
        start(&makers[i], images[i], row->kernel, row->word);
    memset(outputs, 0, sizeof outputs);
    for (size_t at = 0; at + row->bytes <= 2 * samples; at += row->bytes) {
        uint32_t returned[MAKERS];
        for (size_t i = 0; i < MAKERS; i++) {
            returned[i] = makers[i].feed(images[i], makers[i].image, input + at, row->bytes, outputs[i] + place,
                                         row->space);
            if (returned[i] != returned[NEW] || !is_same(images[i], makers[i].image, images[NEW]))
                fail(i == PLAIN ? "the images differ" : "the images differ from those of " THIRD_ONE);
        }
        if (resampler_end(images[NEW]) != RESAMPLER_HUNGRY)
            fail("too little space");
        made += FED * resampler_written(images[NEW]);
        place += advance(row, images[NEW]);
    }
    compare_outputs();
    return made;
}

static void time_row(struct row *row, int runs)
{
    lay(row->block);
    row->made = compare(row);
    for (int k = 0; k < runs; k++) {
        double run[MAKERS];
        for (size_t i = 0; i < MAKERS; i++)
            run[i] = stream(&makers[i], row, outputs[i]);
        add_run(&row->times, run, MAKERS);
    }
    compare_outputs();
}

/* The time of one call with no input and no space. */
static double empty(const struct maker *maker)
{
    uint8_t image[IMAGE];
    feed_function *feed = maker->feed;
    start(maker, image, RESAMPLER_CUBIC, RESAMPLER_WORD_ONE);
    double began = now();
    for (int i = 0; i < CALLS; i++)
        if (feed(image, maker->image, input, 0, outputs[0], 0) != RESAMPLER_ACCEPTED)
            fail("feed refused");
    return (now() - began) / CALLS;
}

static void time_empty(struct times *times, int runs)
{
    for (int k = 0; k < runs; k++) {
        double run[MAKERS];
        for (size_t i = 0; i < MAKERS; i++)
            run[i] = empty(&makers[i]);
        add_run(times, run, MAKERS);
    }
}

int main(int argc, char **argv)
{
    static const double ratios[] = {0.5, 0.9, 1.1, 3.7};
    static struct row rows[ROWS];
    static struct times calls;
    int rounds = ROUNDS, runs = RUNS;
    if (argc > 2 && strcmp(argv[1], "--count") == 0) {
        dumps = argv[2];
        samples = COUNTED_SAMPLES;
        rounds = runs = 1;
        argc -= 2;
        argv += 2;
    }
    int loud = argc > 1 && strcmp(argv[1], "loud") == 0, half = argc > 1 && strcmp(argv[1], "half") == 0;
    size_t words = half ? 1 : 4, count = 4 * BLOCKS * words; /* kernels, blocks, words */
    for (size_t i = 0; i < count; i++)
        set_row(&rows[i], (uint32_t)(i / words / BLOCKS), blocks[i / words % BLOCKS], ratios[i % words]);
    fill(wave, SAMPLES, loud, half);
    for (int round = 0; round < rounds; round++) {
        for (size_t i = 0; i < count; i++)
            time_row(&rows[i], runs);
        time_empty(&calls, runs);
    }
    puts("kernel  block  word/2^32  " COLUMNS);
    for (struct row *row = rows; row < rows + count; row++) {
        printf("%-7u %-6zu %-10.1f ", (unsigned)row->kernel, row->block, row->ratio);
        print_times(&row->times, (double)row->made);
    }
    printf("an empty call             ");
    print_times(&calls, 1);
    return 0;
}
