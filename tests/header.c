/* The header's constants and small functions, held against the library. It is built as C and as C++, so that the
   calls link in both. It prints what does not hold. */
#include "resampler.h"

#include <stdio.h>
#include <string.h>

/* The calls as the library has them: another type in the header does not compile. */
#ifdef __cplusplus
extern "C" {
#endif
uint32_t resampler_start_word(uint8_t *, size_t, uint32_t, uint64_t, uint32_t);
uint32_t resampler_start_ratio(uint8_t *, size_t, uint32_t, double, uint32_t);
uint32_t resampler_start_rates(uint8_t *, size_t, uint32_t, uint32_t, uint32_t, uint32_t);
uint32_t resampler_retune_word(uint8_t *, size_t, uint64_t);
uint32_t resampler_retune_ratio(uint8_t *, size_t, double);
uint32_t resampler_retune_rates(uint8_t *, size_t, uint32_t, uint32_t);
uint32_t resampler_feed(uint8_t *, size_t, const uint8_t *, size_t, uint8_t *, size_t);
uint32_t resampler_start_lanes_word(uint8_t *, size_t, uint32_t, uint64_t, uint32_t);
uint32_t resampler_start_lanes_ratio(uint8_t *, size_t, uint32_t, double, uint32_t);
uint32_t resampler_start_lanes_rates(uint8_t *, size_t, uint32_t, uint32_t, uint32_t, uint32_t);
uint32_t resampler_feed_lanes(uint8_t *, size_t, uint32_t, const uint8_t *, size_t, uint8_t *, size_t);
uint32_t resampler_push(uint8_t *, size_t, uint8_t *, size_t, const uint8_t *, size_t);
uint32_t resampler_draw(uint8_t *, size_t, uint8_t *, size_t, const uint8_t *, size_t, uint8_t *, size_t);
uint32_t resampler_write_data(uint32_t, const uint8_t *, size_t, uint8_t *, size_t);
uint32_t resampler_write_start(uint32_t, uint64_t, uint32_t, uint8_t *, size_t);
uint32_t resampler_read_data(const uint8_t *, size_t, uint8_t *, size_t, uint8_t *, size_t);
uint32_t resampler_read_start(const uint8_t *, size_t, uint8_t *, size_t);
#ifdef __cplusplus
}
#endif

/* Each call has a macro of its name, by which a program can ask for it. */
#if !defined resampler_start_word || !defined resampler_start_ratio || !defined resampler_start_rates || \
    !defined resampler_retune_word || !defined resampler_retune_ratio || !defined resampler_retune_rates || \
    !defined resampler_feed || !defined resampler_start_lanes_word || !defined resampler_start_lanes_ratio || \
    !defined resampler_start_lanes_rates || !defined resampler_feed_lanes || !defined resampler_push || \
    !defined resampler_draw || !defined resampler_write_data || !defined resampler_write_start || \
    !defined resampler_read_data || !defined resampler_read_start
#error "a call lacks its macro"
#endif

/* The image of lanes: a window of 8 bytes for each lane after lane 0, and for each lane a count of high and one of low
   clips, 4 bytes each. */
#if RESAMPLER_LANES_BYTES != RESAMPLER_IMAGE_BYTES + 15 * 8 + 16 * (4 + 4) || RESAMPLER_MOST_LANES != 16 || \
    RESAMPLER_AT_LANE_HIGH != 160 || RESAMPLER_AT_LANE_LOW != 164 || RESAMPLER_LANE_CLIPS_BYTES != 8
#error "another image of lanes"
#endif

/* The marks of a queue: front and held, 4 bytes each. */
#if RESAMPLER_MARKS_BYTES != 8 || RESAMPLER_MARKS_FRONT != 0 || RESAMPLER_MARKS_HELD != 4 || \
    RESAMPLER_QUEUE_SAMPLES != 16384 || RESAMPLER_QUEUE_FULL != 16
#error "other marks of a queue"
#endif

/* The longest line is a D line with 64 samples. */
#if RESAMPLER_LONGEST_LINE != 270 || RESAMPLER_MOST_SAMPLES != 64
#error "another longest line"
#endif

static int failed;

static void check(const char *what, int holds)
{
    if (!holds) {
        printf("%s\n", what);
        failed = 1;
    }
}

static uint64_t number(const uint8_t *at, int bytes)
{
    uint64_t n = 0;
    while (bytes-- > 0)
        n = n << 8 | at[bytes];
    return n;
}

static void samples(void)
{
    static const int16_t values[] = {0, 1, 255, 256, 32767, -32768, -1, -256, -257};
    uint8_t pair[RESAMPLER_SAMPLE_BYTES];
    for (size_t i = 0; i < sizeof values / sizeof *values; i++) {
        int bits = values[i] & 65535;
        resampler_put_sample(pair, 0, values[i]);
        check("resampler_put_sample", pair[0] == (bits & 255) && pair[1] == bits >> 8);
        check("resampler_sample", resampler_sample(pair, 0) == values[i]);
    }
}

/* The fields of an image: five samples give four outputs of the cubic at 3/4 of a sample a step; one is a clip. */
static void fields(void)
{
    static const int16_t values[] = {-32768, 32767, 32767, -32768, 3};
    uint8_t image[RESAMPLER_IMAGE_BYTES], input[sizeof values], output[20];
    for (size_t i = 0; i < sizeof values / sizeof *values; i++)
        resampler_put_sample(input, i, values[i]);
    check("start", resampler_start_ratio(image, sizeof image, RESAMPLER_CUBIC, 0.75, 0x12345678) == 0);
    check("zeros", number(image + RESAMPLER_AT_ZEROS, 2) == 0);
    check("needed at the start", image[RESAMPLER_AT_NEEDED] == 3);
    check("register", number(image + RESAMPLER_AT_REGISTER, 4) == 0x12345678);
    check("word", number(image + RESAMPLER_AT_WORD, 8) == RESAMPLER_WORD_ONE / 4 * 3);
    check("feed", resampler_feed(image, sizeof image, input, sizeof input, output, sizeof output) == 0);
    check("kernel", image[RESAMPLER_AT_KERNEL] == 3);
    check("needed", image[RESAMPLER_AT_NEEDED] == 1);
    check("window", resampler_sample(image + RESAMPLER_AT_WINDOW, RESAMPLER_WINDOW - 1) == 3);
    check("taken", resampler_taken(image) == 5);
    check("written", resampler_written(image) == 4);
    check("clips", resampler_clips(image) == 1);
    check("hungry", resampler_end(image) == RESAMPLER_HUNGRY);
    check("feed", resampler_feed(image, sizeof image, input, sizeof input, output, 2) == 0);
    check("full", resampler_end(image) == RESAMPLER_FULL && resampler_written(image) == 1);
}

/* The fields of an image of lanes. The lanes have four kinds of samples in turn, which clip on both sides, not at all,
   on the low side and on the high side; the last sample is the number of the lane. What the counts of clips hold on
   entry does not matter. Then lane 0 is fed alone, and all others are left out. */
static void lanes(void)
{
    static const int16_t values[4][4] = {{32767, 32767, -32768, -32768},
                                         {-16384, 16383, 16383, -16384},
                                         {32767, -32768, -32768, 32767},
                                         {-32768, 32767, 32767, -32768}};
    static const uint32_t high[4] = {2, 0, 0, 1}, low[4] = {1, 0, 1, 0};
    enum { BEFORE = 4, EACH = BEFORE + 1, LANES = RESAMPLER_MOST_LANES, SIDES = RESAMPLER_AT_LANE_HIGH };
    uint8_t image[RESAMPLER_LANES_BYTES], input[LANES * EACH * RESAMPLER_SAMPLE_BYTES], output[LANES * 20];
    for (int i = 0; i < LANES * EACH; i++) {
        int lane = i / EACH, value = i % EACH < BEFORE ? values[lane % 4][i % EACH] : lane;
        resampler_put_sample(input, (size_t)i, (int16_t)value);
    }
    memset(image, 0xEE, sizeof image);
    check("start of lanes", resampler_start_lanes_ratio(image, sizeof image, RESAMPLER_CUBIC, 0.75, 0x12345678) == 0);
    check("zeros of lanes", number(image + RESAMPLER_AT_WINDOW, 8) == 0 && number(image + sizeof image - 8, 8) == 0);
    memset(image + SIDES, 0xEE, sizeof image - SIDES);
    check("feed of lanes",
          resampler_feed_lanes(image, sizeof image, LANES, input, sizeof input, output, sizeof output) == 0);
    check("taken and written", resampler_taken(image) == EACH && resampler_written(image) == 4);
    check("clips of lane 0, both sides", resampler_clips(image) == 3);
    for (size_t i = 0; i < LANES; i++) {
        check("high clips of a lane", resampler_lane_high(image, i) == high[i % 4]);
        check("low clips of a lane", resampler_lane_low(image, i) == low[i % 4]);
        check("clips of a lane", resampler_lane_clips(image, i) == high[i % 4] + low[i % 4]);
        check("their places", image[SIDES + 8 * i] == high[i % 4] && image[SIDES + 8 * i + 4] == low[i % 4]);
        check("window of a lane", resampler_sample(image + resampler_lane_window(i), RESAMPLER_WINDOW - 1) == (int)i);
    }
    check("retune of lanes", resampler_retune_word(image, RESAMPLER_IMAGE_BYTES, 1) == 0);
    check("feed of one lane", resampler_feed_lanes(image, sizeof image, 1, input, 2, output, 2) == 0);
    check("full", resampler_end(image) == RESAMPLER_FULL && resampler_taken(image) == 1);
    check("window of lane 0", resampler_sample(image + resampler_lane_window(0), RESAMPLER_WINDOW - 1) == 32767);
    for (size_t i = 1; i < LANES; i++) {
        check("clips of a lane left out", resampler_lane_high(image, i) == 0 && resampler_lane_low(image, i) == 0);
        check("window left out", resampler_sample(image + resampler_lane_window(i), RESAMPLER_WINDOW - 1) == (int)i);
    }
}

/* Values at the edges: 32767.5 rounds to 32768 and is high, 32767.375 to 32767 and is neither; -32768.5 rounds to
   -32768 and is neither, -32768.625 to -32769 and is low. The outputs do not tell them apart. Each is the three-point
   kernel at u = -1/2, (3 xm + 6 x0 - x1) / 8. */
static void sides(void)
{
    static const int16_t values[] = {32767,  32767,  32763,  32767,  32767,  32764,
                                     -32768, -32768, -32764, -32768, -32768, -32763};
    static const uint32_t high[] = {1, 0, 0, 0}, low[] = {0, 0, 0, 1};
    enum { LANES = 4 };
    uint8_t image[RESAMPLER_LANES_BYTES], input[sizeof values], output[LANES * RESAMPLER_SAMPLE_BYTES];
    for (size_t i = 0; i < sizeof values / sizeof *values; i++)
        resampler_put_sample(input, i, values[i]);
    check("start at one half",
          resampler_start_lanes_rates(image, sizeof image, RESAMPLER_THREE_POINT, 1, 1, 0x80000000) == 0);
    check("feed at the edges",
          resampler_feed_lanes(image, sizeof image, LANES, input, sizeof input, output, sizeof output) == 0);
    check("one output a lane", resampler_written(image) == 1 && resampler_clips(image) == 1);
    for (size_t i = 0; i < LANES; i++) {
        check("output at the edge", resampler_sample(output, i) == (i < 2 ? 32767 : -32768));
        check("high at the edge", resampler_lane_high(image, i) == high[i]);
        check("low at the edge", resampler_lane_low(image, i) == low[i]);
    }
}

/* Feeds three samples to each lane of an image that was started at a phase of one half. The next output stands four
   samples further on, so each lane gives one. The samples are zeros, but for one: of the linear kernel the second, of
   the others the third. The value is that sample times 1/2, -1/8, -1/8 or -1/16. */
static void feed_halves(uint32_t kernel, const int16_t *values, uint8_t *output)
{
    enum { LANES = RESAMPLER_MOST_LANES, EACH = 3 };
    uint8_t image[RESAMPLER_LANES_BYTES], input[LANES * EACH * RESAMPLER_SAMPLE_BYTES] = {0};
    for (size_t i = 0; i < LANES; i++)
        resampler_put_sample(input, i * EACH + (kernel == RESAMPLER_LINEAR ? 1 : 2), values[i]);
    check("start of halves", resampler_start_lanes_rates(image, sizeof image, kernel, 4, 1, 0x80000000) == 0);
    check("feed of halves", resampler_feed_lanes(image, sizeof image, LANES, input, sizeof input, output,
                                                 LANES * RESAMPLER_SAMPLE_BYTES) == 0);
    check("one half a lane", resampler_written(image) == 1);
}

/* Outputs at a half go to the even neighbour, in each kernel: -7.5, -6.5 and so on to 7.5. In all but the linear one,
   with a sample one less or one more, the value lies above or below the half, and goes upward or downward. */
static void halves(void)
{
    static const int16_t even[] = {-8, -6, -6, -4, -4, -2, -2, 0, 0, 2, 2, 4, 4, 6, 6, 8};
    static const int times[] = {1, -4, -4, -8}; /* the sample for one half */
    enum { LANES = RESAMPLER_MOST_LANES };
    int16_t at[LANES], above[LANES], below[LANES];
    uint8_t output[LANES * RESAMPLER_SAMPLE_BYTES];
    for (uint32_t kernel = RESAMPLER_LINEAR; kernel <= RESAMPLER_CUBIC; kernel++) {
        for (int i = 0; i < LANES; i++) {
            at[i] = (int16_t)(times[kernel] * (2 * i - 15));
            above[i] = (int16_t)(at[i] - 1);
            below[i] = (int16_t)(at[i] + 1);
        }
        feed_halves(kernel, at, output);
        for (size_t i = 0; i < LANES; i++)
            check("output at a half", resampler_sample(output, i) == even[i]);
        if (kernel == RESAMPLER_LINEAR)
            continue;
        feed_halves(kernel, above, output);
        for (size_t i = 0; i < LANES; i++)
            check("output above a half", resampler_sample(output, i) == (int)i - 7);
        feed_halves(kernel, below, output);
        for (size_t i = 0; i < LANES; i++)
            check("output below a half", resampler_sample(output, i) == (int)i - 8);
    }
}

/* Words at a half go upward, 1/2 to 1 and 2 1/2 to 3, and 2^34 + 1/2 is refused. So does the nearest sample of the
   three-point kernel: at a phase of one half it is the second, and three samples are needed. */
static void upward(void)
{
    static const double unit = 1 / 4294967296.0;
    uint8_t image[RESAMPLER_IMAGE_BYTES];
    size_t n = sizeof image;
    check("ratio of word 1/2", resampler_start_ratio(image, n, RESAMPLER_THREE_POINT, 0.5 * unit, 0x80000000) == 0);
    check("word 1/2", number(image + RESAMPLER_AT_WORD, 8) == 1);
    check("needed from one half", image[RESAMPLER_AT_NEEDED] == 3);
    check("ratio of word 2 1/2", resampler_retune_ratio(image, n, 2.5 * unit) == 0);
    check("word 2 1/2", number(image + RESAMPLER_AT_WORD, 8) == 3);
    check("word above 2^34", resampler_retune_ratio(image, n, 4 + 0.5 * unit) == RESAMPLER_BAD_WORD);
    check("start before one half", resampler_start_word(image, n, RESAMPLER_THREE_POINT, 1, 0x7FFFFFFF) == 0);
    check("needed before one half", image[RESAMPLER_AT_NEEDED] == 2);
}

/* A sensor turned round: lane 1 has the samples of lane 0 with the other sign, and gives its outputs with the other
   sign. The samples are small, which makes many halves, and then large, which makes clips; there an output that is
   -32768 in either lane is passed over. */
static void turned(void)
{
    enum { EACH = 200, SPACE = 4 * EACH };
    static uint8_t input[2 * EACH * RESAMPLER_SAMPLE_BYTES], output[2 * SPACE * RESAMPLER_SAMPLE_BYTES];
    uint8_t image[RESAMPLER_LANES_BYTES];
    uint32_t seed = 1;
    for (uint32_t i = 0; i < 8; i++) {
        int largest = i < 4 ? 3 : 32767;
        for (size_t k = 0; k < EACH; k++) {
            seed = seed * 1664525 + 1013904223;
            int value = (int)((seed >> 8) % (uint32_t)(2 * largest + 1)) - largest;
            resampler_put_sample(input, k, (int16_t)value);
            resampler_put_sample(input, EACH + k, (int16_t)-value);
        }
        check("start to turn", resampler_start_lanes_ratio(image, sizeof image, i % 4, 0.25, 0) == 0);
        check("feed to turn",
              resampler_feed_lanes(image, sizeof image, 2, input, sizeof input, output, sizeof output) == 0);
        check("outputs to turn", resampler_written(image) > SPACE - 12);
        for (size_t k = 0; k < resampler_written(image); k++) {
            int one = resampler_sample(output, k), other = resampler_sample(output, SPACE + k);
            check("turned round", one == -other || (largest > 3 && (one == -32768 || other == -32768)));
        }
    }
}

/* One signal as one lane has, byte for byte, the image of a single feed, and its sides behind that. An image with the
   first 160 bytes of another, as they are carried over from an earlier version, goes on as that one does. */
static void one_lane(void)
{
    static const int16_t values[] = {0, 32767, 32767, -32768, -32768, 32767, 32767, 5};
    uint8_t single[RESAMPLER_IMAGE_BYTES], image[RESAMPLER_LANES_BYTES], other[RESAMPLER_LANES_BYTES];
    uint8_t input[sizeof values], output[64], again[64];
    size_t n = sizeof image;
    for (size_t i = 0; i < sizeof values / sizeof *values; i++)
        resampler_put_sample(input, i, values[i]);
    memset(output, 0xEE, sizeof output);
    memset(again, 0xEE, sizeof again);
    check("single start", resampler_start_word(single, sizeof single, RESAMPLER_PARABOLIC, 0x55555555, 7) == 0);
    check("start of a lane", resampler_start_lanes_word(image, n, RESAMPLER_PARABOLIC, 0x55555555, 7) == 0);
    for (int i = 0; i < 3; i++) {
        memset(other, 0xEE, n);
        memcpy(other, image, RESAMPLER_AT_LANE_HIGH);
        check("single feed", resampler_feed(single, sizeof single, input, sizeof input, output, sizeof output) == 0);
        check("feed of a lane", resampler_feed_lanes(image, n, 1, input, sizeof input, again, sizeof again) == 0);
        check("outputs of a lane", memcmp(output, again, sizeof output) == 0);
        check("image of lane 0", memcmp(single, image, sizeof single) == 0);
        check("both sides", resampler_lane_high(image, 0) > 0 && resampler_lane_low(image, 0) > 0);
        check("their sum", resampler_clips(single) == resampler_lane_clips(image, 0));
        check("feed of a copy", resampler_feed_lanes(other, n, 1, input, sizeof input, again, sizeof again) == 0);
        check("copy", memcmp(other, image, n) == 0 && memcmp(output, again, sizeof output) == 0);
    }
}

static uint32_t draw_number(uint32_t *seed, size_t below)
{
    *seed = *seed * 1664525 + 1013904223;
    return (*seed >> 8) % (uint32_t)below;
}

/* Whether marks have this front and this many samples held, byte by byte and by the small functions. */
static int marks_are(const uint8_t *marks, size_t front, size_t held)
{
    return number(marks, 4) == front && number(marks + 4, 4) == held && resampler_front(marks) == front &&
           resampler_held(marks) == held;
}

/* A queue of five samples, before the linear kernel at equal rates, which gives each sample once the next is there. The
   second push goes round the end, and leaves the place that it does not need. The front is not put back where nothing
   is held any more, and a full queue takes a push of nothing and no other. */
static void queue(void)
{
    static const uint8_t first[] = {1, 0, 2, 0, 3, 0}, second[] = {4, 0, 5, 0, 6, 0, 7, 0};
    static const uint8_t third[] = {8, 0, 9, 1, 9, 2};
    static const uint8_t in_two_parts[] = {6, 0, 7, 0, 3, 0, 4, 0, 5, 0, 0xEE};
    uint8_t image[RESAMPLER_IMAGE_BYTES], marks[RESAMPLER_MARKS_BYTES] = {0}, queue[11], output[20];
    size_t n = sizeof image, eight = sizeof marks, ten = 10;
    memset(queue, 0xEE, sizeof queue);
    check("start before a queue", resampler_start_rates(image, n, RESAMPLER_LINEAR, 1, 1, 0) == 0);
    check("first push", resampler_push(marks, eight, queue, ten, first, sizeof first) == 0 && marks_are(marks, 0, 3));
    check("its places", memcmp(queue, first, sizeof first) == 0 && queue[6] == 0xEE && queue[10] == 0xEE);
    check("draw of one output", resampler_draw(image, n, marks, eight, queue, ten, output, 2) == 0);
    check("full draw", resampler_end(image) == RESAMPLER_FULL && resampler_taken(image) == 3);
    check("empty, front not put back", marks_are(marks, 3, 0));
    check("push round the end", resampler_push(marks, eight, queue, ten, second, sizeof second) == 0);
    check("the end and the start", marks_are(marks, 3, 4) && memcmp(queue, in_two_parts, sizeof queue) == 0);
    memset(output, 0xEE, sizeof output);
    check("draw round the end", resampler_draw(image, n, marks, eight, queue, ten, output, sizeof output) == 0);
    check("hungry draw", resampler_end(image) == RESAMPLER_HUNGRY && resampler_taken(image) == 4);
    for (size_t i = 0; i < 5; i++)
        check("output of a draw", resampler_sample(output, i) == (int)i + 2);
    check("as many as are due", resampler_written(image) == 5 && output[10] == 0xEE);
    check("front round the end", marks_are(marks, 2, 0) && memcmp(queue, in_two_parts, sizeof queue) == 0);
    check("push of nothing", resampler_push(marks, eight, queue, ten, first, 0) == 0 && marks_are(marks, 2, 0));
    check("draw of nothing", resampler_draw(image, n, marks, eight, queue, ten, output, sizeof output) == 0);
    check("nothing drawn", resampler_taken(image) + resampler_written(image) == 0 && marks_are(marks, 2, 0));
    check("push of three", resampler_push(marks, eight, queue, ten, third, sizeof third) == 0);
    check("three more", resampler_push(marks, eight, queue, ten, third, sizeof third) == RESAMPLER_QUEUE_FULL);
    check("two more", marks_are(marks, 2, 3) && resampler_push(marks, eight, queue, ten, first, 4) == 0);
    check("one more", resampler_push(marks, eight, queue, ten, third, 2) == RESAMPLER_QUEUE_FULL);
    check("nothing more", resampler_push(marks, eight, queue, ten, third, 0) == 0 && marks_are(marks, 2, 5));
    check("front at 2", resampler_sample(queue, 2) == 8 && resampler_sample(queue, 0) == 1);
}

/* Outputs that are due, drawn through a queue buffer with no samples: a quarter of a sample a step gives four. */
static void empty_queue(void)
{
    static const uint8_t in[] = {0, 0, 100, 0};
    uint8_t image[RESAMPLER_IMAGE_BYTES], marks[RESAMPLER_MARKS_BYTES] = {0}, queue[2] = {0xEE, 0xEE}, output[20];
    size_t n = sizeof image, eight = sizeof marks;
    check("start of quarters", resampler_start_rates(image, n, RESAMPLER_LINEAR, 1, 4, 0) == 0);
    check("feed of quarters", resampler_feed(image, n, in, sizeof in, output, 2) == 0);
    check("outputs due", resampler_end(image) == RESAMPLER_FULL);
    check("draw without samples", resampler_draw(image, n, marks, eight, queue, 0, output, sizeof output) == 0);
    check("three quarters", resampler_taken(image) == 0 && resampler_written(image) == 3);
    for (size_t i = 0; i < 3; i++)
        check("a quarter", resampler_sample(output, i) == 25 * (int)i + 25);
    check("push without samples", resampler_push(marks, eight, queue, 0, in, 0) == 0 && marks_are(marks, 0, 0));
    check("one sample", resampler_push(marks, eight, queue, 0, in, 2) == RESAMPLER_QUEUE_FULL && queue[0] == 0xEE);
}

/* What a host stores of a converter with its queue. */
enum { MOST_HELD = 64 };
struct stored {
    uint8_t image[RESAMPLER_IMAGE_BYTES], marks[RESAMPLER_MARKS_BYTES], queue[MOST_HELD * RESAMPLER_SAMPLE_BYTES];
};

/* Pushes of up to twice the length of a queue, draws with little space and retunes, beside a list of all samples pushed
   and an image that is fed from it without a queue. What is held are the samples of the list that were not taken, from
   the front on; the front is the number taken, modulo the length; places past the buffer are left. Before each call the
   three buffers go to another place, as if they were stored and restored. */
static void beside_a_list(size_t length, uint32_t kernel)
{
    enum { CALLS = 2000, PAIR = RESAMPLER_SAMPLE_BYTES, SPACE = 80, EIGHT = RESAMPLER_MARKS_BYTES };
    static uint8_t list[CALLS * MOST_HELD * PAIR], burst[(2 * MOST_HELD + 1) * PAIR];
    uint8_t other[RESAMPLER_IMAGE_BYTES], output[SPACE * PAIR], again[SPACE * PAIR];
    struct stored places[2];
    size_t n = sizeof other, bytes = length * PAIR, pushed = 0, taken = 0, refused = 0;
    uint32_t seed = kernel + 1;
    memset(places, 0xEE, sizeof places);
    memset(places[0].marks, 0, EIGHT);
    check("start with a queue", resampler_start_word(places[0].image, n, kernel, 0x9ABCDEF0, 0xFEDCBA98) == 0);
    memcpy(other, places[0].image, n);
    for (size_t call = 0; call < CALLS; call++) {
        struct stored *here = &places[(call + 1) % 2], *before = &places[call % 2];
        uint32_t what = draw_number(&seed, 20);
        *here = *before;
        memset(before, 0xEE, sizeof *before);
        if (what < 10) {
            size_t samples = draw_number(&seed, 2 * length + 2);
            for (size_t i = 0; i < samples; i++)
                resampler_put_sample(burst, i, (int16_t)((int)draw_number(&seed, 65536) - 32768));
            uint32_t answer = resampler_push(here->marks, EIGHT, here->queue, bytes, burst, samples * PAIR);
            if (pushed - taken + samples > length) {
                check("push without space", answer == RESAMPLER_QUEUE_FULL);
                refused++;
            } else {
                check("push with space", answer == RESAMPLER_ACCEPTED);
                memcpy(list + pushed * PAIR, burst, samples * PAIR);
                pushed += samples;
            }
        } else if (what < 19) {
            size_t space = draw_number(&seed, SPACE + 1) * PAIR;
            memset(output, 0xEE, sizeof output);
            memset(again, 0xEE, sizeof again);
            check("draw", resampler_draw(here->image, n, here->marks, EIGHT, here->queue, bytes, output, space) == 0);
            check("feed", resampler_feed(other, n, list + taken * PAIR, (pushed - taken) * PAIR, again, space) == 0);
            check("outputs of draw and feed", memcmp(output, again, sizeof output) == 0);
            taken += resampler_taken(other);
        } else {
            double ratio = (1 + draw_number(&seed, 300)) / 100.0;
            check("retune with a queue", resampler_retune_ratio(here->image, n, ratio) == 0);
            check("retune", resampler_retune_ratio(other, n, ratio) == 0);
        }
        check("images of draw and feed", memcmp(here->image, other, n) == 0);
        check("marks beside a list", marks_are(here->marks, length > 0 ? taken % length : 0, pushed - taken));
        for (size_t i = taken; i < pushed; i++)
            check("held", memcmp(here->queue + i % length * PAIR, list + i * PAIR, PAIR) == 0);
        for (size_t i = bytes; i < sizeof here->queue; i++)
            check("past the queue", here->queue[i] == 0xEE);
    }
    check("a hundred times round", taken > 100 * length || length == 0);
    check("refused pushes", refused > CALLS / 10);
}

/* Lines of every count, one after another, with what the reads leave and what follows each; bytes past a line or past
   the samples of one keep what they held. The numbers rise by one, from 03FFFFFF on. The sample at i is 259 i - 7 in
   every line. */
static void lines(void)
{
    enum { MOST = RESAMPLER_MOST_SAMPLES, START = RESAMPLER_START_LINE_BYTES, BEFORE = 0x3FFFFFE };
    static uint8_t text[START + MOST * RESAMPLER_LONGEST_LINE], in[MOST * RESAMPLER_SAMPLE_BYTES];
    static const char k_line[] = "K3212345678FEDCBA98\n";
    uint8_t start[RESAMPLER_START_FIELDS_BYTES], frame[RESAMPLER_DATA_FIELDS_BYTES] = {0};
    const uint8_t *line = text + START, *end = text + sizeof text;
    size_t at = START;
    memset(text, 0xEE, sizeof text);
    for (int i = 0; i < MOST; i++)
        resampler_put_sample(in, (size_t)i, (int16_t)(259 * i - 7));
    check("K line", resampler_write_start(RESAMPLER_CUBIC, UINT64_C(0x212345678), 0xFEDCBA98, text, sizeof text) == 0);
    check("its bytes", sizeof k_line == START + 1 && memcmp(text, k_line, START) == 0 && text[START] == 0xEE);
    for (size_t n = 1; n <= MOST; n++) {
        check("D line", resampler_write_data((uint32_t)(BEFORE + n), in, 2 * n, text + at, sizeof text - at) == 0);
        at += RESAMPLER_DATA_LINE_BYTES(n);
        check("its end", text[at - 1] == 10 && text[at] == 0xEE);
    }
    check("first D line", memcmp(text + START, "D03FFFFFF01FFF907\n", RESAMPLER_DATA_LINE_BYTES(1)) == 0);
    check("read of a K line", resampler_read_start(text, sizeof text, start, sizeof start) == 0);
    check("kernel of a line", resampler_line_kernel(start) == 3);
    check("phase of a line", resampler_line_phase(start) == 0xFEDCBA98);
    check("word of a line", resampler_line_word(start) == UINT64_C(0x212345678));
    for (size_t n = 1; n <= MOST; n++) {
        uint8_t samples[sizeof in];
        memset(samples, 0xEE, sizeof samples);
        check("read of a D line",
              resampler_read_data(line, (size_t)(end - line), frame, sizeof frame, samples, sizeof samples) == 0);
        check("sequence number", resampler_sequence(frame) == BEFORE + n);
        check("count", resampler_count(frame) == n);
        check("samples of a line", memcmp(samples, in, 2 * n) == 0 && (n == MOST || samples[2 * n] == 0xEE));
        line = resampler_after_data(line, frame);
    }
    check("what follows the lines", line == text + at);
}

/* Every refusal by its name, and the limits on both sides. */
static void refusals(void)
{
    static uint8_t in[RESAMPLER_LARGEST_BUFFER + 2], out[RESAMPLER_LARGEST_BUFFER + 2];
    uint8_t image[RESAMPLER_IMAGE_BYTES];
    size_t n = sizeof image, most = RESAMPLER_LARGEST_BUFFER;
    uint64_t largest = RESAMPLER_LARGEST_WORD;
    check("kernel 4", resampler_start_word(image, n, RESAMPLER_CUBIC + 1, largest, 0) == RESAMPLER_BAD_KERNEL);
    check("ratio -1", resampler_start_ratio(image, n, RESAMPLER_CUBIC, -1, 0) == RESAMPLER_BAD_RATIO);
    check("rate 0", resampler_start_rates(image, n, RESAMPLER_CUBIC, 1, 0, 0) == RESAMPLER_BAD_RATE);
    check("word", resampler_start_word(image, n, RESAMPLER_CUBIC, largest + 1, 0) == RESAMPLER_BAD_WORD);
    check("image", resampler_start_word(image, n - 1, RESAMPLER_CUBIC, largest, 0) == RESAMPLER_BAD_IMAGE);
    check("largest word", resampler_start_word(image, n, RESAMPLER_CUBIC, largest, 0) == RESAMPLER_ACCEPTED);
    check("largest buffers", resampler_feed(image, n, in, most, out, most) == RESAMPLER_ACCEPTED);
    check("hungry", resampler_end(image) == RESAMPLER_HUNGRY && resampler_taken(image) == most / 2);
    check("buffer", resampler_feed(image, n, in, most + 2, out, most) == RESAMPLER_BAD_BUFFER);
    check("retune", resampler_retune_ratio(image, n, 1) == 0 && resampler_retune_rates(image, n, 1, 1) == 0);
    check("word of equal rates", number(image + RESAMPLER_AT_WORD, 8) == RESAMPLER_WORD_ONE);
}

/* The refusals of lanes by their names, and the limits on both sides. */
static void lane_refusals(void)
{
    static uint8_t in[RESAMPLER_LARGEST_BUFFER + 2], out[RESAMPLER_LARGEST_BUFFER + 2];
    uint8_t image[RESAMPLER_LANES_BYTES];
    size_t one = RESAMPLER_IMAGE_BYTES, before = 224, n = sizeof image, most = RESAMPLER_LARGEST_BUFFER;
    uint32_t all = RESAMPLER_MOST_LANES;
    check("rate 0", resampler_start_lanes_rates(image, n, RESAMPLER_LINEAR, 1, 0, 0) == RESAMPLER_BAD_RATE);
    check("40 bytes", resampler_start_lanes_word(image, one, RESAMPLER_LINEAR, 1, 0) == RESAMPLER_BAD_IMAGE);
    check("224 bytes", resampler_start_lanes_word(image, before, RESAMPLER_LINEAR, 1, 0) == RESAMPLER_BAD_IMAGE);
    check("start", resampler_start_lanes_rates(image, n, RESAMPLER_LINEAR, 4, 1, 0) == RESAMPLER_ACCEPTED);
    check("largest buffers", resampler_feed_lanes(image, n, all, in, most, out, most) == RESAMPLER_ACCEPTED);
    check("samples a lane", resampler_taken(image) == 2048 && resampler_end(image) == RESAMPLER_HUNGRY);
    check("image", resampler_feed_lanes(image, n - 1, 0, in, 1, out, 0) == RESAMPLER_BAD_IMAGE);
    check("earlier image", resampler_feed_lanes(image, before, 1, in, 2, out, 2) == RESAMPLER_BAD_IMAGE);
    check("buffer", resampler_feed_lanes(image, n, 0, in, most + 2, out, 0) == RESAMPLER_BAD_BUFFER);
    check("no lanes", resampler_feed_lanes(image, n, 0, in, 0, out, 0) == RESAMPLER_BAD_LANES);
    check("17 lanes", resampler_feed_lanes(image, n, all + 1, in, 0, out, 0) == RESAMPLER_BAD_LANES);
    check("samples of two lanes", resampler_feed_lanes(image, n, 2, in, 6, out, 4) == RESAMPLER_BAD_LANES);
    check("places of two lanes", resampler_feed_lanes(image, n, 2, in, 4, out, 6) == RESAMPLER_BAD_LANES);
    check("two lanes", resampler_feed_lanes(image, n, 2, in, 4, out, 8) == RESAMPLER_ACCEPTED);
    check("single feed", resampler_feed(image, n, in, 0, out, 0) == RESAMPLER_BAD_IMAGE);
}

static void put_marks(uint8_t *marks, uint32_t front, uint32_t held)
{
    for (size_t i = 0; i < 4; i++) {
        marks[i] = (uint8_t)(front >> 8 * i);
        marks[4 + i] = (uint8_t)(held >> 8 * i);
    }
}

/* A push of so many bytes into a queue buffer of so many, with these marks, which are lent so long. A refused push has
   to leave every byte, and an accepted one to store its samples and nothing else. */
static uint32_t try_push(uint32_t front, uint32_t held, size_t marks_length, size_t queue_length, size_t samples_length)
{
    enum { BYTES = RESAMPLER_QUEUE_SAMPLES * RESAMPLER_SAMPLE_BYTES + 4, MARKS = RESAMPLER_MARKS_BYTES + 1 };
    static uint8_t queue[BYTES], before[BYTES], samples[RESAMPLER_LARGEST_BUFFER + 3];
    uint8_t marks[MARKS] = {0}, marks_before[MARKS];
    size_t length = queue_length / 2, stored = samples_length / 2, changed = 0;
    put_marks(marks, front, held);
    memcpy(marks_before, marks, sizeof marks);
    memset(queue, 0xEE, sizeof queue);
    memset(before, 0xEE, sizeof before);
    memset(samples, 0x11, sizeof samples);
    uint32_t answer = resampler_push(marks, marks_length, queue, queue_length, samples, samples_length);
    if (answer != 0) {
        check("marks of a refused push", memcmp(marks, marks_before, sizeof marks) == 0);
        check("queue of a refused push", memcmp(queue, before, sizeof queue) == 0);
        return answer;
    }
    for (size_t i = 0; i < stored; i++)
        check("place of a sample", resampler_sample(queue, (front + held + i) % length) == 0x1111);
    for (size_t i = 0; i < BYTES; i++)
        changed += queue[i] != 0xEE;
    check("no other places", changed == 2 * stored);
    check("marks of a push", marks_are(marks, front, held + stored));
    return answer;
}

/* Whether a push is refused with 5, also where 12 and 16 apply: the queue buffer or the samples of odd length, too many
   samples, and more than fit. */
static int push_is_5(uint32_t front, uint32_t held, size_t marks_length, size_t queue_length)
{
    static const size_t samples[] = {0, 1, 2, RESAMPLER_LARGEST_BUFFER, RESAMPLER_LARGEST_BUFFER + 2};
    int so = 1;
    for (size_t i = 0; i < sizeof samples / sizeof *samples; i++)
        so = so && try_push(front, held, marks_length, queue_length, samples[i]) == RESAMPLER_BAD_IMAGE &&
             try_push(front, held, marks_length, queue_length + 1, samples[i]) == RESAMPLER_BAD_IMAGE;
    return so;
}

/* Marks that are not below, or above, a length of three. */
static const uint32_t too_far[] = {3, 4, 0x100, 0x10000, 0x1000000, 0x80000000, 0xFFFFFFFF};
enum { TOO_FAR = sizeof too_far / sizeof *too_far };

/* The refusals of a push by their names and in their order, and the limits on both sides. */
static void push_refusals(void)
{
    const uint32_t most = RESAMPLER_QUEUE_SAMPLES, odd = RESAMPLER_BAD_BUFFER, full = RESAMPLER_QUEUE_FULL;
    size_t all = 2 * most, largest = RESAMPLER_LARGEST_BUFFER;
    check("marks of other lengths", push_is_5(0, 0, 7, 6) && push_is_5(0, 0, 9, 6) && push_is_5(0, 0, 0, 6));
    check("16,384 samples", try_push(0, 0, 8, all, all) == 0 && try_push(most - 1, 1, 8, all, all - 2) == 0);
    check("all held", try_push(5, most, 8, all, 0) == 0 && try_push(5, most, 8, all, 2) == full);
    check("16,385 offered", try_push(0, 0, 8, all, all + 2) == full && try_push(0, 0, 8, all, largest) == full);
    check("16,384 and a half", try_push(0, 0, 8, all + 1, 2) == odd);
    check("16,385 samples", push_is_5(0, 0, 8, all + 2) && push_is_5(0, most + 1, 8, all + 2));
    for (size_t i = 0; i < TOO_FAR; i++) {
        check("front not below", push_is_5(too_far[i], 0, 8, 6) && push_is_5(too_far[i], 3, 8, 6));
        check("held above", too_far[i] == 3 || (push_is_5(0, too_far[i], 8, 6) && push_is_5(2, too_far[i], 8, 6)));
    }
    for (uint32_t front = 0; front < 3; front++)
        for (uint32_t held = 0; held <= 3; held++)
            for (uint32_t offered = 0; offered <= 6; offered++) {
                check("three samples", try_push(front, held, 8, 6, 2 * offered) == (held + offered > 3 ? full : 0));
                check("odd queue", try_push(front, held, 8, 7, 2 * offered) == odd);
                check("odd samples", try_push(front, held, 8, 6, 2 * offered + 1) == odd);
            }
    check("too many samples", try_push(0, 3, 8, 6, largest + 2) == odd && try_push(0, 3, 8, 6, largest) == full);
    check("no samples", try_push(0, 0, 8, 0, 0) == 0 && try_push(0, 0, 8, 0, 2) == full);
    check("front and held of no samples", push_is_5(1, 0, 8, 0) && push_is_5(0, 1, 8, 0));
    check("half a sample", try_push(0, 0, 8, 1, 0) == odd && try_push(0, 0, 8, 1, 2) == odd);
}

/* A draw from a queue buffer of so many bytes, with an image that is lent so long. A refused one has to leave every
   byte, and no draw writes the queue buffer. */
static uint32_t try_draw(const uint8_t *started, size_t image_length, uint32_t front, uint32_t held,
                         size_t marks_length, size_t queue_length, size_t output_length)
{
    enum { BYTES = RESAMPLER_QUEUE_SAMPLES * RESAMPLER_SAMPLE_BYTES + 4, MARKS = RESAMPLER_MARKS_BYTES + 1 };
    static uint8_t queue[BYTES], before[BYTES], output[RESAMPLER_LARGEST_BUFFER + 3];
    uint8_t image[RESAMPLER_LANES_BYTES] = {0}, image_before[RESAMPLER_LANES_BYTES];
    uint8_t marks[MARKS] = {0}, marks_before[MARKS];
    size_t changed = 0;
    put_marks(marks, front, held);
    memcpy(image, started, RESAMPLER_IMAGE_BYTES);
    memcpy(image_before, image, sizeof image);
    memcpy(marks_before, marks, sizeof marks);
    memset(queue, 0x11, sizeof queue);
    memset(before, 0x11, sizeof before);
    memset(output, 0xEE, sizeof output);
    uint32_t answer =
        resampler_draw(image, image_length, marks, marks_length, queue, queue_length, output, output_length);
    check("queue of a draw", memcmp(queue, before, sizeof queue) == 0);
    for (size_t i = 0; i < sizeof output; i++)
        changed += output[i] != 0xEE;
    if (answer != 0) {
        check("image of a refused draw", memcmp(image, image_before, sizeof image) == 0);
        check("marks of a refused draw", memcmp(marks, marks_before, sizeof marks) == 0);
        check("output of a refused draw", changed == 0);
    } else {
        size_t taken = resampler_taken(image), length = queue_length / 2;
        check("marks of a draw", marks_are(marks, length > 0 ? (front + taken) % length : 0, held - taken));
        check("output of a draw", changed == 2 * resampler_written(image));
    }
    return answer;
}

/* Whether a draw is refused with 5, also where 12 applies: the queue buffer or the output of odd length, and too large
   an output. */
static int draw_is_5(const uint8_t *image, size_t image_length, uint32_t front, uint32_t held, size_t marks_length,
                     size_t queue_length)
{
    static const size_t outputs[] = {0, 1, 2, RESAMPLER_LARGEST_BUFFER + 2};
    int so = 1;
    for (size_t i = 0; i < 2 * (sizeof outputs / sizeof *outputs); i++)
        so = so && try_draw(image, image_length, front, held, marks_length, queue_length + i % 2, outputs[i / 2]) ==
                       RESAMPLER_BAD_IMAGE;
    return so;
}

/* The refusals of a draw by their names and in their order, and the limits on both sides. */
static void draw_refusals(void)
{
    /* places of an image, and bytes that are not right there; the word is 1 */
    static const uint8_t spoilt[][2] = {{RESAMPLER_AT_KERNEL, 4},   {RESAMPLER_AT_NEEDED, 5},
                                        {RESAMPLER_AT_ZEROS, 1},    {RESAMPLER_AT_ZEROS + 1, 1},
                                        {RESAMPLER_AT_WORD, 0},     {RESAMPLER_AT_WORD + 4, 4},
                                        {RESAMPLER_AT_WORD + 7, 1}};
    const uint32_t most = RESAMPLER_QUEUE_SAMPLES, odd = RESAMPLER_BAD_BUFFER;
    uint8_t image[RESAMPLER_IMAGE_BYTES], other[RESAMPLER_IMAGE_BYTES];
    size_t n = sizeof image, all = 2 * most, largest = RESAMPLER_LARGEST_BUFFER;
    check("start to draw", resampler_start_word(image, n, RESAMPLER_CUBIC, 1, 0) == 0);
    check("marks of other lengths", draw_is_5(image, n, 0, 0, 7, 6) && draw_is_5(image, n, 0, 0, 9, 6));
    check("image of other lengths", draw_is_5(image, n - 1, 0, 0, 8, 6) && draw_is_5(image, n + 1, 0, 0, 8, 6));
    check("image of lanes", draw_is_5(image, RESAMPLER_LANES_BYTES, 0, 0, 8, 6));
    for (size_t i = 0; i < sizeof spoilt / sizeof *spoilt; i++) {
        memcpy(other, image, n);
        other[spoilt[i][0]] = spoilt[i][1];
        check("spoilt image", draw_is_5(other, n, 0, 0, 8, 6) && draw_is_5(other, n, 2, 3, 8, 6));
    }
    for (size_t i = 0; i < TOO_FAR; i++) {
        check("front not below", draw_is_5(image, n, too_far[i], 0, 8, 6) && draw_is_5(image, n, too_far[i], 3, 8, 6));
        check("held above", too_far[i] == 3 || draw_is_5(image, n, 0, too_far[i], 8, 6));
    }
    check("16,384 samples", try_draw(image, n, most - 1, most, 8, all, largest) == 0);
    check("16,384 and a half", try_draw(image, n, 0, 0, 8, all + 1, 2) == odd);
    check("16,385 samples", draw_is_5(image, n, 0, 0, 8, all + 2));
    for (uint32_t front = 0; front < 3; front++)
        for (uint32_t held = 0; held <= 3; held++) {
            check("three samples", try_draw(image, n, front, held, 8, 6, 20) == 0);
            check("odd queue", try_draw(image, n, front, held, 8, 7, 20) == odd);
            check("odd output", try_draw(image, n, front, held, 8, 6, 21) == odd);
        }
    check("largest output", try_draw(image, n, 2, 3, 8, 6, largest) == 0);
    check("too large an output", try_draw(image, n, 2, 3, 8, 6, largest + 2) == odd);
    check("no samples", try_draw(image, n, 0, 0, 8, 0, 20) == 0 && try_draw(image, n, 0, 0, 8, 0, 0) == 0);
    check("front and held of no samples", draw_is_5(image, n, 1, 0, 8, 0) && draw_is_5(image, n, 0, 1, 8, 0));
    check("half a sample", try_draw(image, n, 0, 0, 8, 1, 20) == odd);
}

/* A read of so many bytes that begin with a text, into buffers of these lengths; zeros follow the text. No last number
   is told. */
static uint32_t read_text(const char *text, size_t length, size_t frame_length, size_t samples_length)
{
    static uint8_t line[RESAMPLER_LONGEST_LINE + 1], samples[RESAMPLER_LARGEST_BUFFER + 2];
    uint8_t frame[RESAMPLER_START_FIELDS_BYTES] = {0};
    memset(line, '0', sizeof line);
    memcpy(line, text, strlen(text));
    return resampler_read_data(line, length, frame, frame_length, samples, samples_length);
}

/* The refusals of lines by their names, and the limits on both sides. */
static void line_refusals(void)
{
    static const uint8_t in[RESAMPLER_LARGEST_BUFFER + 2] = {0};
    static uint8_t line[RESAMPLER_LONGEST_LINE];
    uint8_t frame[RESAMPLER_START_FIELDS_BYTES];
    const char *good = "D00000000010001FE\n";
    size_t n = RESAMPLER_DATA_LINE_BYTES(1), eight = RESAMPLER_DATA_FIELDS_BYTES, most = RESAMPLER_LARGEST_BUFFER;
    size_t start = RESAMPLER_START_LINE_BYTES, longest = RESAMPLER_LONGEST_LINE;
    uint64_t largest = RESAMPLER_LARGEST_WORD;
    check("odd samples", resampler_write_data(0, in, 1, line, 0) == RESAMPLER_BAD_BUFFER);
    check("samples", resampler_write_data(0, in, most + 2, line, longest) == RESAMPLER_BAD_BUFFER);
    check("no samples", resampler_write_data(0, in, 0, line, longest) == RESAMPLER_BAD_WRITE);
    check("65 samples", resampler_write_data(0, in, 130, line, longest) == RESAMPLER_BAD_WRITE);
    check("short line buffer", resampler_write_data(0, in, 128, line, longest - 1) == RESAMPLER_BAD_WRITE);
    check("longest line", resampler_write_data(0, in, 128, line, longest) == RESAMPLER_ACCEPTED);
    check("kernel 4", resampler_write_start(RESAMPLER_CUBIC + 1, 0, 0, line, 0) == RESAMPLER_BAD_KERNEL);
    check("word", resampler_write_start(RESAMPLER_CUBIC, largest + 1, 0, line, 0) == RESAMPLER_BAD_WORD);
    check("short K line buffer", resampler_write_start(0, largest, 0, line, start - 1) == RESAMPLER_BAD_WRITE);
    check("K line", resampler_write_start(0, largest, 0, line, start) == RESAMPLER_ACCEPTED);
    check("fields of a K line", resampler_read_start(line, start, frame, eight) == RESAMPLER_BAD_IMAGE);
    check("K line, cut", resampler_read_start(line, start - 1, frame, sizeof frame) == RESAMPLER_NO_LINE_END);
    check("K line, read", resampler_read_start(line, start, frame, sizeof frame) == RESAMPLER_ACCEPTED);
    line[1] = '4';
    check("kernel 4, read", resampler_read_start(line, start, frame, sizeof frame) == RESAMPLER_BAD_KERNEL);
    check("fields", read_text("", n, eight + 1, 2) == RESAMPLER_BAD_IMAGE);
    check("cut", read_text(good, n - 1, eight, 2) == RESAMPLER_NO_LINE_END);
    check("no end", read_text("", longest + 1, eight, 2) == RESAMPLER_NO_LINE_END);
    check("letter", read_text("K\n", n, eight, 2) == RESAMPLER_BAD_LETTER);
    check("digit", read_text("Da\n", n, eight, 2) == RESAMPLER_BAD_DIGIT);
    check("length", read_text("D\n", n, eight, 2) == RESAMPLER_BAD_LENGTH);
    check("check", read_text("D00000000010001FF\n", n, eight, 0) == RESAMPLER_BAD_CHECK);
    check("short samples", read_text(good, n, eight, 1) == RESAMPLER_SHORT_BUFFER);
    check("samples of odd length", read_text(good, n, eight, 3) == RESAMPLER_BAD_BUFFER);
    check("long samples", read_text(good, n, eight, most + 2) == RESAMPLER_BAD_BUFFER);
    check("read", read_text(good, n, eight, 2) == RESAMPLER_ACCEPTED);
    check("most samples", read_text(good, longest + 1, eight, most) == RESAMPLER_ACCEPTED);
}

/* Writes a line of two samples with a number, and reads it into a sample buffer of so many bytes, at most 5. A refused
   read has to leave every byte, and an accepted one the number and the count. */
static uint32_t read_number(uint32_t number, uint8_t *frame, size_t samples_length)
{
    static const uint8_t in[] = {1, 2, 3, 4};
    uint8_t line[RESAMPLER_DATA_LINE_BYTES(2)], samples[5], before[RESAMPLER_DATA_FIELDS_BYTES];
    memset(samples, 0xEE, sizeof samples);
    memcpy(before, frame, sizeof before);
    check("line with a number", resampler_write_data(number, in, sizeof in, line, sizeof line) == 0);
    uint32_t answer = resampler_read_data(line, sizeof line, frame, sizeof before, samples, samples_length);
    if (answer == 0) {
        check("number accepted", resampler_sequence(frame) == number && resampler_count(frame) == 2);
        check("its samples", memcmp(samples, in, sizeof in) == 0);
    } else {
        check("frame of a refused read", memcmp(frame, before, sizeof before) == 0);
        check("samples of a refused read", samples[0] == 0xEE && samples[3] == 0xEE);
    }
    return answer;
}

/* Numbers in order and out of it, with one frame that is cleared once. */
static void order(void)
{
    static const uint32_t others[] = {0, 6, 7, 9, 0x107, 0x108, 0x08000000, 0x80000008, 0xFFFFFFFF};
    const uint8_t *damaged = (const uint8_t *)"D00000000010001FF\n", *good = (const uint8_t *)"D00000000010001FE\n";
    uint8_t frame[RESAMPLER_DATA_FIELDS_BYTES] = {0}, samples[2];
    size_t n = RESAMPLER_DATA_LINE_BYTES(1), eight = sizeof frame;
    uint32_t last = 0xFFFFFFFF;
    check("first number", read_number(7, frame, 4) == RESAMPLER_ACCEPTED);
    for (size_t i = 0; i < sizeof others / sizeof *others; i++)
        check("not the next", read_number(others[i], frame, 4) == RESAMPLER_BAD_SEQUENCE);
    check("next number", read_number(8, frame, 4) == RESAMPLER_ACCEPTED);
    check("order before short samples", read_number(10, frame, 2) == RESAMPLER_BAD_SEQUENCE);
    check("order before odd samples", read_number(10, frame, 5) == RESAMPLER_BAD_SEQUENCE);
    check("short samples", read_number(9, frame, 2) == RESAMPLER_SHORT_BUFFER);
    check("odd samples", read_number(9, frame, 5) == RESAMPLER_BAD_BUFFER);
    check("the same with space", read_number(9, frame, 4) == RESAMPLER_ACCEPTED);
    check("check before order", resampler_read_data(damaged, n, frame, eight, samples, 2) == RESAMPLER_BAD_CHECK);
    check("fields before order", resampler_read_data(good, n, frame, eight - 1, samples, 2) == RESAMPLER_BAD_IMAGE);
    check("order", resampler_read_data(good, n, frame, eight, samples, 2) == RESAMPLER_BAD_SEQUENCE);
    resampler_any_sequence(frame);
    check("count cleared", resampler_sequence(frame) == 9 && resampler_count(frame) == 0);
    check("any number", read_number(last - 1, frame, 4) == RESAMPLER_ACCEPTED);
    check("largest number", read_number(last, frame, 4) == RESAMPLER_ACCEPTED);
    check("0 after the largest", read_number(0, frame, 4) == RESAMPLER_BAD_SEQUENCE);
    check("the largest again", read_number(last, frame, 4) == RESAMPLER_BAD_SEQUENCE);
    resampler_any_sequence(frame);
    check("0 as any number", read_number(0, frame, 4) == RESAMPLER_ACCEPTED);
    for (size_t i = 0; i < 4; i++) { /* any bit of the count says that there was a number */
        resampler_any_sequence(frame);
        frame[RESAMPLER_AT_COUNT + i] = 0x80;
        check("other counts", read_number(2, frame, 4) == RESAMPLER_BAD_SEQUENCE);
    }
    check("next after other counts", read_number(1, frame, 4) == RESAMPLER_ACCEPTED);
}

/* The names of the kernels, in document 01's order. */
static void kernels(void)
{
    static const int names[] = {RESAMPLER_LINEAR, RESAMPLER_THREE_POINT, RESAMPLER_PARABOLIC, RESAMPLER_CUBIC};
    for (int k = 0; k < 4; k++)
        check("a kernel's number", names[k] == k);
}

int main(void)
{
    static const size_t lengths[] = {0, 1, 2, 3, 7, 23, MOST_HELD};
    samples();
    fields();
    lanes();
    sides();
    halves();
    upward();
    turned();
    one_lane();
    queue();
    empty_queue();
    for (size_t i = 0; i < sizeof lengths / sizeof *lengths; i++)
        for (uint32_t kernel = RESAMPLER_LINEAR; kernel <= RESAMPLER_CUBIC; kernel++)
            beside_a_list(lengths[i], kernel);
    lines();
    refusals();
    lane_refusals();
    push_refusals();
    draw_refusals();
    line_refusals();
    order();
    kernels();
    return failed;
}
