/* A library with a mistake, which tests/drivers links in the place of the feeds, and of the calls for D lines and for
   queues, to see whether the drivers tell it. The mistake is named by the variable PLANTED. It is made in the third
   accepted feed that writes an output; a mistake of halves, lanes, lines or queues in the first call in which it
   shows, and one with empty buffers in every call. */
#include "resampler.h"

#include <stdlib.h>
#include <string.h>

uint32_t __real_resampler_feed(uint8_t *, size_t, const uint8_t *, size_t, uint8_t *, size_t);
uint32_t __wrap_resampler_feed(uint8_t *, size_t, const uint8_t *, size_t, uint8_t *, size_t);
uint32_t __real_resampler_feed_lanes(uint8_t *, size_t, uint32_t, const uint8_t *, size_t, uint8_t *, size_t);
uint32_t __wrap_resampler_feed_lanes(uint8_t *, size_t, uint32_t, const uint8_t *, size_t, uint8_t *, size_t);
uint32_t __real_resampler_write_data(uint32_t, const uint8_t *, size_t, uint8_t *, size_t);
uint32_t __wrap_resampler_write_data(uint32_t, const uint8_t *, size_t, uint8_t *, size_t);
uint32_t __real_resampler_read_data(const uint8_t *, size_t, uint8_t *, size_t, uint8_t *, size_t);
uint32_t __wrap_resampler_read_data(const uint8_t *, size_t, uint8_t *, size_t, uint8_t *, size_t);
uint32_t __real_resampler_push(uint8_t *, size_t, uint8_t *, size_t, const uint8_t *, size_t);
uint32_t __wrap_resampler_push(uint8_t *, size_t, uint8_t *, size_t, const uint8_t *, size_t);
uint32_t __real_resampler_draw(uint8_t *, size_t, uint8_t *, size_t, const uint8_t *, size_t, uint8_t *, size_t);
uint32_t __wrap_resampler_draw(uint8_t *, size_t, uint8_t *, size_t, const uint8_t *, size_t, uint8_t *, size_t);

static int planted(const char *name)
{
    const char *chosen = getenv("PLANTED");
    return chosen != NULL && strcmp(chosen, name) == 0;
}

/* Mistakes with empty buffers: the first byte of what is read is looked at, or that of what is written is written anew
   as it is, whether there is one or not; and a null pointer is refused. */
static int mistake_empty(const uint8_t *read, uint8_t *written)
{
    if (planted("empty read"))
        (void)*(const volatile uint8_t *)read;
    if (planted("empty written")) {
        volatile uint8_t *first = written;
        *first = *first;
    }
    return planted("null refused") && (read == NULL || written == NULL);
}

/* What a mistake makes of an output that stands on a half: the number above, as before request U6, or the one away from
   zero. Another output stays. The value of the kernel at the register over the newest four samples is n / unit. */
static int16_t mistake_half(int kernel, uint32_t position, const int16_t *newest, int16_t output)
{
    const int16_t *x = newest + (kernel < 2);
    int64_t p = 16384, m = position >> 18, xm = x[0], x0 = x[1], x1 = x[2], x2 = kernel < 2 ? 0 : x[3];
    const int64_t columns[4][5] = {
        {1, x0, x1 - x0, 0, 0},
        {2, 2 * x0, x1 - xm, x1 - 2 * x0 + xm, 0},
        {2, 2 * x0, -x2 + 3 * x1 - x0 - xm, x2 - x1 - x0 + xm, 0},
        {6, 6 * x0, -x2 + 6 * x1 - 3 * x0 - 2 * xm, 3 * (x1 - 2 * x0 + xm), x2 - 3 * x1 + 3 * x0 - xm}};
    const int64_t *v = columns[kernel];
    m -= kernel == 1 && m >= p / 2 ? p : 0;
    int64_t n = ((v[4] * m + v[3] * p) * m + v[2] * p * p) * m + v[1] * p * p * p, unit = v[0] * p * p * p;
    if (n % unit != unit / 2 && n % unit != -unit / 2)
        return output;
    int64_t away = n / unit + (n > 0 ? 1 : -1), value = planted("halves away") || n > 0 ? away : n / unit;
    return (int16_t)(value > 32767 ? 32767 : value < -32768 ? -32768 : value);
}

/* Goes over the outputs of a feed, from the image before it, and tells whether one was changed. */
static int mistake_halves(const uint8_t *before, const uint8_t *input, uint8_t *output, size_t written)
{
    int kernel = before[RESAMPLER_AT_KERNEL], changed = 0;
    uint32_t position = resampler_number(before + RESAMPLER_AT_REGISTER);
    uint64_t needed = before[RESAMPLER_AT_NEEDED], whole = resampler_number(before + RESAMPLER_AT_WORD + 4);
    int16_t newest[RESAMPLER_WINDOW];
    for (size_t i = 0; i < RESAMPLER_WINDOW; i++)
        newest[i] = resampler_sample(before + RESAMPLER_AT_WINDOW, i);
    for (size_t k = 0; k < written; k++) {
        for (; needed > 0; needed--, input += RESAMPLER_SAMPLE_BYTES) {
            memmove(newest, newest + 1, sizeof newest - sizeof *newest);
            newest[RESAMPLER_WINDOW - 1] = resampler_sample(input, 0);
        }
        int16_t right = resampler_sample(output, k), wrong = mistake_half(kernel, position, newest, right);
        resampler_put_sample(output, k, wrong);
        changed |= wrong != right;
        uint32_t next = position + resampler_number(before + RESAMPLER_AT_WORD);
        needed = whole + (next < position) + (kernel == 1 ? (next >> 31) - (uint64_t)(position >> 31) : 0);
        position = next;
    }
    return changed;
}

uint32_t __wrap_resampler_feed(uint8_t *image, size_t image_length, const uint8_t *input, size_t input_length,
                               uint8_t *output, size_t output_length)
{
    static int feeds, made;
    uint8_t before[RESAMPLER_IMAGE_BYTES];
    if (mistake_empty(input, output))
        return RESAMPLER_BAD_IMAGE;
    memcpy(before, image, image_length < sizeof before ? image_length : sizeof before);
    uint32_t result = __real_resampler_feed(image, image_length, input, input_length, output, output_length);
    if (result == 0 && !made && (planted("halves upward") || planted("halves away")))
        made = mistake_halves(before, input, output, resampler_written(image));
    if (result != 0 || resampler_written(image) == 0 || ++feeds != 3)
        return result;
    if (planted("register"))
        image[RESAMPLER_AT_REGISTER] ^= 1;
    if (planted("output"))
        output[0] ^= 1;
    if (planted("guard"))
        output[output_length] ^= 1;
    if (planted("input"))
        ((uint8_t *)(uintptr_t)input)[0] ^= 1;
    if (planted("crash"))
        abort();
    if (planted("exit"))
        exit(0);
    while (planted("hang"))
        continue;
    return planted("result") ? 4 : result;
}

/* Keeps a part of an image of lanes as it came. */
static void keep(uint8_t *image, const uint8_t *before, size_t place, size_t bytes)
{
    memcpy(image + place, before + place, bytes);
}

static void put_number(uint8_t *at, uint32_t n)
{
    for (int i = 0; i < 4; i++)
        at[i] = (uint8_t)(n >> 8 * i);
}

/* Mistakes in the counts of high and low clips: exchanged, all counted as high, lane 0's sum without the low ones, and
   old counts of a lane past the count. */
static void mistake_sides(uint8_t *image, const uint8_t *before, uint32_t lanes)
{
    enum { COUNTS = RESAMPLER_LANE_CLIPS_BYTES };
    for (size_t i = 0; i < RESAMPLER_MOST_LANES; i++) {
        uint8_t *high = image + RESAMPLER_AT_LANE_HIGH + i * COUNTS, *low = image + RESAMPLER_AT_LANE_LOW + i * COUNTS;
        uint32_t of_high = resampler_lane_high(image, i), of_low = resampler_lane_low(image, i);
        if (planted("lane sides") || planted("lane high")) {
            put_number(high, planted("lane high") ? of_high + of_low : of_low);
            put_number(low, planted("lane high") ? 0 : of_high);
        }
        if (planted("lane past") && i >= lanes)
            keep(image, before, RESAMPLER_AT_LANE_HIGH + i * COUNTS, COUNTS);
    }
    if (planted("lane sum"))
        put_number(image + RESAMPLER_AT_CLIPS, resampler_lane_high(image, 0));
}

uint32_t __wrap_resampler_feed_lanes(uint8_t *image, size_t image_length, uint32_t lanes, const uint8_t *input,
                                     size_t input_length, uint8_t *output, size_t output_length)
{
    enum { WINDOW = RESAMPLER_WINDOW * RESAMPLER_SAMPLE_BYTES };
    static int made;
    uint8_t before[RESAMPLER_LANES_BYTES], right[RESAMPLER_LANES_BYTES];
    if (mistake_empty(input, output))
        return RESAMPLER_BAD_IMAGE;
    memcpy(before, image, image_length < sizeof before ? image_length : sizeof before);
    uint32_t result =
        __real_resampler_feed_lanes(image, image_length, lanes, input, input_length, output, output_length);
    if (result != 0 || made)
        return result;
    memcpy(right, image, sizeof right);
    if (planted("lane clips"))
        keep(image, before, RESAMPLER_AT_LANE_HIGH, RESAMPLER_LANES_BYTES - RESAMPLER_AT_LANE_HIGH);
    if (planted("lane window") && lanes > 1) { /* that of lane 1, in the place of lane 2's */
        memcpy(image + resampler_lane_window(2), image + resampler_lane_window(1), WINDOW);
        keep(image, before, resampler_lane_window(1), WINDOW);
    }
    mistake_sides(image, before, lanes);
    made = memcmp(image, right, sizeof right) != 0;
    return result;
}

uint32_t __wrap_resampler_write_data(uint32_t sequence, const uint8_t *samples, size_t samples_length, uint8_t *line,
                                     size_t line_length)
{
    static int made;
    if (mistake_empty(samples, line))
        return RESAMPLER_BAD_IMAGE;
    uint32_t result = __real_resampler_write_data(sequence, samples, samples_length, line, line_length);
    size_t length = RESAMPLER_DATA_LINE_BYTES(samples_length / RESAMPLER_SAMPLE_BYTES);
    if (result != 0 || made)
        return result;
    if (planted("line check") && line[length - 2] < '9') { /* off by one */
        line[length - 2]++;
        made = 1;
    }
    if (planted("line rest")) {
        memset(line + length, 0, line_length - length);
        made = line_length > length;
    }
    return result;
}

/* Whether a line has the number 0, and the largest was told. */
static int wraps(const uint8_t *line, const uint8_t *frame)
{
    return memcmp(line + 1, "00000000", 8) == 0 && resampler_sequence(frame) == UINT32_MAX;
}

uint32_t __wrap_resampler_read_data(const uint8_t *line, size_t line_length, uint8_t *frame, size_t frame_length,
                                    uint8_t *samples, size_t samples_length)
{
    static int made;
    uint8_t any[RESAMPLER_DATA_FIELDS_BYTES];
    if (mistake_empty(line, samples))
        return RESAMPLER_BAD_IMAGE;
    uint32_t result = __real_resampler_read_data(line, line_length, frame, frame_length, samples, samples_length);
    if (planted("line fields") && result == RESAMPLER_BAD_CHECK && !made++) /* written, though the line is refused */
        frame[RESAMPLER_AT_COUNT] ^= 1;
    if (result != RESAMPLER_BAD_SEQUENCE || made)
        return result;
    if (planted("line order") || (planted("line wrap") && wraps(line, frame))) { /* accepted, though not the next */
        made = 1;
        memcpy(any, frame, sizeof any);
        resampler_any_sequence(any);
        result = __real_resampler_read_data(line, line_length, any, sizeof any, samples, samples_length);
        if (result == 0)
            memcpy(frame, any, sizeof any);
    }
    return result;
}

/* A queue as a call finds it; of marks of another length all is 0. */
struct queue {
    size_t front, held, length;
};

static struct queue queue_of(const uint8_t *marks, size_t marks_length, size_t queue_length)
{
    struct queue queue = {0, 0, queue_length / RESAMPLER_SAMPLE_BYTES};
    if (marks_length == RESAMPLER_MARKS_BYTES) {
        queue.front = resampler_number(marks + RESAMPLER_MARKS_FRONT);
        queue.held = resampler_number(marks + RESAMPLER_MARKS_HELD);
    }
    return queue;
}

static void put_marks(uint8_t *marks, size_t front, size_t held)
{
    put_number(marks + RESAMPLER_MARKS_FRONT, (uint32_t)front);
    put_number(marks + RESAMPLER_MARKS_HELD, (uint32_t)held);
}

/* Mistakes in the order of a push that is refused with 5: 16 before it, and 12; and one that is refused with 16 and
   counts. */
static uint32_t mistake_refusal(uint8_t *marks, struct queue before, size_t offered, int odd, uint32_t result)
{
    if (result == RESAMPLER_BAD_IMAGE && planted("queue 16 first") && before.held + offered > before.length)
        return RESAMPLER_QUEUE_FULL;
    if (result == RESAMPLER_BAD_IMAGE && planted("queue 12 first") && odd)
        return RESAMPLER_BAD_BUFFER;
    if (result == RESAMPLER_QUEUE_FULL && planted("queue refused"))
        put_marks(marks, before.front, before.held + offered);
    return result;
}

uint32_t __wrap_resampler_push(uint8_t *marks, size_t marks_length, uint8_t *queue, size_t queue_length,
                               const uint8_t *samples, size_t samples_length)
{
    static uint8_t stored[2 * RESAMPLER_LARGEST_BUFFER];
    static int made;
    size_t kept = queue_length < sizeof stored ? queue_length : sizeof stored;
    size_t offered = samples_length / RESAMPLER_SAMPLE_BYTES;
    struct queue before = queue_of(marks, marks_length, queue_length);
    if (mistake_empty(samples, queue))
        return RESAMPLER_BAD_IMAGE;
    memcpy(stored, queue, kept);
    uint32_t result = __real_resampler_push(marks, marks_length, queue, queue_length, samples, samples_length);
    size_t after = before.held + offered, end = before.front + before.held;
    if (made)
        return result;
    if (result != 0) {
        int odd = queue_length % 2 == 1 || samples_length % 2 == 1;
        uint32_t wrong = mistake_refusal(marks, before, offered, odd, result);
        made = wrong != result || (planted("queue refused") && result == RESAMPLER_QUEUE_FULL);
        return wrong;
    }
    if (planted("queue fits") && offered > 0 && after == before.length) { /* refused, though it just fits */
        made = 1;
        memcpy(queue, stored, kept);
        put_marks(marks, before.front, before.held);
        return RESAMPLER_QUEUE_FULL;
    }
    if (planted("queue end") && end < before.length && end + offered > before.length) { /* does not go round it */
        made = 1;
        memcpy(queue, stored, (end + offered - before.length) * RESAMPLER_SAMPLE_BYTES);
    }
    if (planted("queue exchanged") && before.front != after) {
        made = 1;
        put_marks(marks, after, before.front);
    }
    return result;
}

/* The clips of a draw of the part up to the buffer's end alone. */
static uint32_t clips_of_first(uint8_t *image, struct queue before, const uint8_t *queue, size_t output_length)
{
    static uint8_t output[RESAMPLER_LARGEST_BUFFER];
    size_t first = (before.length - before.front) * RESAMPLER_SAMPLE_BYTES;
    __real_resampler_feed(image, RESAMPLER_IMAGE_BYTES, queue + before.front * RESAMPLER_SAMPLE_BYTES, first, output,
                          output_length);
    return resampler_clips(image);
}

uint32_t __wrap_resampler_draw(uint8_t *image, size_t image_length, uint8_t *marks, size_t marks_length,
                               const uint8_t *queue, size_t queue_length, uint8_t *output, size_t output_length)
{
    static int made;
    uint8_t fed[RESAMPLER_IMAGE_BYTES];
    struct queue before = queue_of(marks, marks_length, queue_length);
    int parts = before.front < before.length && before.held <= before.length &&
                before.front + before.held > before.length;
    int first_alone = planted("queue part") && parts;
    if (mistake_empty(queue, output))
        return RESAMPLER_BAD_IMAGE;
    memcpy(fed, image, image_length < sizeof fed ? image_length : sizeof fed);
    if (first_alone)
        put_marks(marks, before.front, before.length - before.front);
    uint32_t result = __real_resampler_draw(image, image_length, marks, marks_length, queue, queue_length, output,
                                            output_length);
    size_t left = result == 0 ? before.held - resampler_taken(image) : before.held;
    if (first_alone)
        put_marks(marks, resampler_number(marks + RESAMPLER_MARKS_FRONT), left);
    if (result != 0 || made)
        return result;
    if (planted("queue kept") && left < before.held) { /* what it took */
        made = 1;
        put_marks(marks, before.front, before.held);
    }
    if (planted("queue front") && left == 0) { /* put back, where the queue is empty */
        made = resampler_number(marks + RESAMPLER_MARKS_FRONT) != 0;
        put_marks(marks, 0, 0);
    }
    if (planted("queue clips") && parts) { /* those of the second part are not added */
        uint32_t clips = clips_of_first(fed, before, queue, output_length);
        made = clips != resampler_clips(image);
        put_number(image + RESAMPLER_AT_CLIPS, clips);
    }
    if (planted("queue cleared") && left < before.held) { /* the place of the first sample that it took */
        made = 1;
        resampler_put_sample((uint8_t *)(uintptr_t)queue, before.front, ~resampler_sample(queue, before.front));
    }
    return result;
}
