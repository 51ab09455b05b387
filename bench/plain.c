#include "plain.h"
#include "resampler.h"

#include <string.h>

/* Buffers are of bytes, and the machine is little-endian. Three ways to read and write a sample were tried with gcc 12:
   memcpy; a pointer to int16_t, which makes the same loops; and x[0] | x[1] << 8, with which the loops took 3 to 7 in
   a hundred longer. The fastest stands here. */
static int16_t get(const uint8_t *samples, size_t place)
{
    int16_t sample;
    memcpy(&sample, samples + 2 * place, sizeof sample);
    return sample;
}

static void put(uint8_t *samples, size_t place, int16_t sample)
{
    memcpy(samples + 2 * place, &sample, sizeof sample);
}

/* Where a loop over samples stands: `at` is the place of the next output's window. With `at` and `written` side by
   side gcc loads both at once, right after they were stored one by one, and a call took 20 ns longer. */
struct progress {
    size_t at;
    uint32_t reg;
    size_t written;
    uint64_t clips;
};

/* With a counter for each side kernel 3 took 11 in a hundred longer, and an empty call, where the two lie side by side
   in a struct, 4 ns: gcc loads both at once, right after they were stored one by one. */
static int16_t hold(int64_t z, uint64_t *clips)
{
    if (z > 32767) {
        ++*clips;
        return 32767;
    }
    if (z < -32768) {
        *clips += (uint64_t)1 << 32;
        return -32768;
    }
    return (int16_t)z;
}

/* n / 2^shift to the nearest whole number, halves to the even one: half of 2^shift is added, less 1 where the
   quotient is even. With gcc 12 this has 4 instructions more than halves upward, and so have three other ways to take
   that bit, which are as fast; to find the halves by a comparison takes 5 or 6, and kernel 0 then 1.1 or 1.2 times as
   long. */
static int64_t nearest(int64_t n, int shift)
{
    int64_t below_half = ((int64_t)1 << (shift - 1)) - 1;
    return (n + below_half + (n >> shift & 1)) >> shift;
}

/* n / 6, rounded down, for n up to 2^21 in size: 6 * 0x2aaaaaab is 2^32 + 2, and 2^20 makes up for twice the
   quotient. With n / 6 - (n % 6 < 0) kernel 3 has 8 instructions an output more and takes 1.2 times as long; with n
   made positive for the division, 1.04 times. */
static int64_t sixth(int64_t n)
{
    return (n * 0x2aaaaaab + 0x100000) >> 32;
}

/* n / (6 * 2^42) to the nearest whole number, halves to the even one. With x = n + 2^42 halves upward are the sixth
   of t = (x >> 42) + 2. At a half with an odd upper neighbour x is a multiple of 2^44, and one off t gives the lower
   one; at other multiples t is not one of 6, and one off changes nothing. Thirteen forms were counted. This one has 4
   instructions more than halves upward, and takes 1.09 to 1.11 times as long. One off n: 1.13 to 1.14. A branch at
   such multiples: 1.08 to 1.09, but 1.13 to 1.18 at the word 2^31, where halves are common. The product of the upper
   one and 6 * 2^42, compared with n + 3 * 2^42: 1.09 to 1.10, and 1.22 to 1.29. */
static int64_t nearest_sixth(int64_t n)
{
    int64_t x = n + ((int64_t)1 << 42);
    return sixth((x >> 42) + 2 - ((uint64_t)x << 20 == 0));
}

/* Kernel 0: the straight line between the two samples around the position. It never leaves 16 bits. */
static void run_0(struct progress *p, uint64_t word, const uint8_t *samples, size_t count, uint8_t *output,
                  size_t space)
{
    uint32_t reg = p->reg;
    size_t at = p->at, written = p->written;
    while (at + 4 <= count && written < space) {
        const uint8_t *x = samples + 2 * at;
        int64_t m = reg >> 18;
        int64_t x0 = get(x, 2), x1 = get(x, 3);
        put(output, written++, (int16_t)nearest((x1 - x0) * m + x0 * 16384, 14));
        uint32_t next = reg + (uint32_t)word;
        at += (word >> 32) + (next < reg);
        reg = next;
    }
    p->at = at;
    p->reg = reg;
    p->written = written;
}

/* Kernel 1: the parabola through the nearest sample and its two neighbours. */
static void run_1(struct progress *p, uint64_t word, const uint8_t *samples, size_t count, uint8_t *output,
                  size_t space)
{
    uint32_t reg = p->reg;
    size_t at = p->at, written = p->written;
    uint64_t clips = p->clips;
    while (at + 4 <= count && written < space) {
        const uint8_t *x = samples + 2 * at;
        int64_t m = (int32_t)reg >> 18;
        int64_t xm = get(x, 1), x0 = get(x, 2), x1 = get(x, 3);
        int64_t v0 = 2 * x0;
        int64_t v1 = x1 - xm;
        int64_t v2 = xm - 2 * x0 + x1;
        int64_t n = (v2 * m + v1 * 16384) * m + v0 * (1 << 28);
        put(output, written++, hold(nearest(n, 29), &clips));
        uint32_t next = reg + (uint32_t)word;
        at += (word >> 32) + (next < reg) + (next >> 31) - (reg >> 31);
        reg = next;
    }
    p->at = at;
    p->reg = reg;
    p->written = written;
    p->clips = clips;
}

/* Kernel 2: a parabola over four samples. */
static void run_2(struct progress *p, uint64_t word, const uint8_t *samples, size_t count, uint8_t *output,
                  size_t space)
{
    uint32_t reg = p->reg;
    size_t at = p->at, written = p->written;
    uint64_t clips = p->clips;
    while (at + 4 <= count && written < space) {
        const uint8_t *x = samples + 2 * at;
        int64_t m = reg >> 18;
        int64_t xm = get(x, 0), x0 = get(x, 1), x1 = get(x, 2), x2 = get(x, 3);
        int64_t v0 = 2 * x0;
        int64_t v1 = -xm - x0 + 3 * x1 - x2;
        int64_t v2 = xm - x0 - x1 + x2;
        int64_t n = (v2 * m + v1 * 16384) * m + v0 * (1 << 28);
        put(output, written++, hold(nearest(n, 29), &clips));
        uint32_t next = reg + (uint32_t)word;
        at += (word >> 32) + (next < reg);
        reg = next;
    }
    p->at = at;
    p->reg = reg;
    p->written = written;
    p->clips = clips;
}

/* Kernel 3: the cubic through four samples. */
static void run_3(struct progress *p, uint64_t word, const uint8_t *samples, size_t count, uint8_t *output,
                  size_t space)
{
    uint32_t reg = p->reg;
    size_t at = p->at, written = p->written;
    uint64_t clips = p->clips;
    while (at + 4 <= count && written < space) {
        const uint8_t *x = samples + 2 * at;
        int64_t m = reg >> 18;
        int64_t xm = get(x, 0), x0 = get(x, 1), x1 = get(x, 2), x2 = get(x, 3);
        int64_t v0 = 6 * x0;
        int64_t v1 = -2 * xm - 3 * x0 + 6 * x1 - x2;
        int64_t v2 = 3 * xm - 6 * x0 + 3 * x1;
        int64_t v3 = -xm + 3 * x0 - 3 * x1 + x2;
        int64_t n = ((v3 * m + v2 * 16384) * m + v1 * (1 << 28)) * m + v0 * ((int64_t)1 << 42);
        put(output, written++, hold(nearest_sixth(n), &clips));
        uint32_t next = reg + (uint32_t)word;
        at += (word >> 32) + (next < reg);
        reg = next;
    }
    p->at = at;
    p->reg = reg;
    p->written = written;
    p->clips = clips;
}

static void run(const struct plain_state *s, struct progress *p, const uint8_t *samples, size_t count,
                uint8_t *output, size_t space)
{
    switch (s->kernel) {
    case 0:
        run_0(p, s->word, samples, count, output, space);
        break;
    case 1:
        run_1(p, s->word, samples, count, output, space);
        break;
    case 2:
        run_2(p, s->word, samples, count, output, space);
        break;
    default:
        run_3(p, s->word, samples, count, output, space);
        break;
    }
}

static struct plain_fed feed(struct plain_state *state, const uint8_t *input, size_t input_count,
                             uint8_t *output, size_t output_count)
{
    /* the first outputs, over the window and the first samples joined */
    uint8_t joined[16];
    size_t head = input_count < 4 ? input_count : 4;
    memcpy(joined, state->window, sizeof state->window);
    memcpy(joined + 8, input, 2 * head);
    const uint8_t *samples = joined;
    size_t count = 4 + head, before = 0;
    struct progress p = {(size_t)state->needed, state->reg, 0, 0};
    run(state, &p, samples, count, output, output_count);
    /* the others, over the input where it lies */
    if (head == 4 && p.at > 4) {
        samples = input;
        count = input_count;
        before = 4;
        p.at -= 4;
        run(state, &p, samples, count, output, output_count);
    }
    /* the window and the count of needed samples for the next call */
    size_t end = count - 4;
    size_t at = p.at <= end ? p.at : end;
    memcpy(state->window, samples + 2 * at, sizeof state->window);
    state->needed = (int)(p.at - at);
    state->reg = p.reg;
    return (struct plain_fed){before + at, p.written, p.clips, p.at <= end};
}

struct plain_fed plain_feed(struct plain_state *state, const int16_t *input, size_t input_count,
                            int16_t *output, size_t output_count)
{
    return feed(state, (const uint8_t *)input, input_count, (uint8_t *)output, output_count);
}

/* Reads the state of an image of so many bytes, and tells whether it is one. With the word tested last gcc loads it and
   the window at once, right after the call before stored the window, and a call took 11 ns longer. */
static int get_image(struct plain_state *s, const uint8_t *image, size_t image_length, size_t bytes)
{
    uint64_t word;
    if (image_length != bytes || image[RESAMPLER_AT_KERNEL] > RESAMPLER_CUBIC ||
        image[RESAMPLER_AT_NEEDED] > RESAMPLER_WINDOW || image[RESAMPLER_AT_ZEROS] != 0 ||
        image[RESAMPLER_AT_ZEROS + 1] != 0)
        return 0;
    memcpy(&word, image + RESAMPLER_AT_WORD, sizeof word);
    if (word < 1 || word > RESAMPLER_LARGEST_WORD)
        return 0;
    s->kernel = image[RESAMPLER_AT_KERNEL];
    s->needed = image[RESAMPLER_AT_NEEDED];
    s->word = word;
    memcpy(&s->reg, image + RESAMPLER_AT_REGISTER, sizeof s->reg);
    memcpy(s->window, image + RESAMPLER_AT_WINDOW, sizeof s->window);
    return 1;
}

static void put_image(uint8_t *image, const struct plain_state *s, struct plain_fed fed)
{
    uint32_t counts[4] = {(uint32_t)fed.taken, (uint32_t)fed.written, plain_sum(fed.clips), (uint32_t)fed.full};
    image[RESAMPLER_AT_NEEDED] = (uint8_t)s->needed;
    memcpy(image + RESAMPLER_AT_REGISTER, &s->reg, sizeof s->reg);
    memcpy(image + RESAMPLER_AT_WINDOW, s->window, sizeof s->window);
    memcpy(image + RESAMPLER_AT_TAKEN, counts, sizeof counts);
}

static int is_buffer(size_t length)
{
    return length % RESAMPLER_SAMPLE_BYTES == 0 && length <= RESAMPLER_LARGEST_BUFFER;
}

uint32_t plain_host_feed(uint8_t *image, size_t image_length, const uint8_t *input, size_t input_length,
                         uint8_t *output, size_t output_length)
{
    struct plain_state s;
    if (!get_image(&s, image, image_length, RESAMPLER_IMAGE_BYTES))
        return RESAMPLER_BAD_IMAGE;
    if (!is_buffer(input_length) || !is_buffer(output_length))
        return RESAMPLER_BAD_BUFFER;
    struct plain_fed fed = feed(&s, input, input_length / 2, output, output_length / 2);
    put_image(image, &s, fed);
    return RESAMPLER_ACCEPTED;
}

uint32_t plain_host_feed_lanes(uint8_t *image, size_t image_length, uint32_t lanes, const uint8_t *input,
                               size_t input_length, uint8_t *output, size_t output_length)
{
    struct plain_state shared;
    if (!get_image(&shared, image, image_length, RESAMPLER_LANES_BYTES))
        return RESAMPLER_BAD_IMAGE;
    if (!is_buffer(input_length) || !is_buffer(output_length))
        return RESAMPLER_BAD_BUFFER;
    if (lanes < 1 || lanes > RESAMPLER_MOST_LANES || input_length / 2 % lanes != 0 || output_length / 2 % lanes != 0)
        return RESAMPLER_BAD_LANES;
    size_t input_part = input_length / lanes, output_part = output_length / lanes;
    uint8_t *clips = image + RESAMPLER_AT_LANE_HIGH;
    for (size_t lane = 0; lane < lanes; lane++) {
        struct plain_state s = shared;
        uint8_t *window = image + resampler_lane_window(lane);
        memcpy(s.window, window, sizeof s.window);
        struct plain_fed fed = feed(&s, input + lane * input_part, input_part / 2, output + lane * output_part,
                                    output_part / 2);
        if (lane == 0)
            put_image(image, &s, fed);
        memcpy(window, s.window, sizeof s.window);
        memcpy(clips + lane * RESAMPLER_LANE_CLIPS_BYTES, &fed.clips, sizeof fed.clips);
    }
    memset(clips + lanes * RESAMPLER_LANE_CLIPS_BYTES, 0, (RESAMPLER_MOST_LANES - lanes) * RESAMPLER_LANE_CLIPS_BYTES);
    return RESAMPLER_ACCEPTED;
}

/* The marks of a ring, as their 8 bytes have them. */
struct ring {
    uint32_t front, held;
};

/* Reads the marks, and tells whether they agree with a queue buffer of so many bytes. */
static int get_ring(struct ring *r, const uint8_t *marks, size_t marks_length, size_t queue_length)
{
    size_t samples = queue_length / 2;
    if (marks_length != RESAMPLER_MARKS_BYTES || samples > RESAMPLER_QUEUE_SAMPLES)
        return 0;
    memcpy(r, marks, sizeof *r);
    return r->held <= samples && (r->front < samples || (r->front == 0 && samples == 0));
}

/* A place of the ring, for one below twice its number of samples. */
static size_t wrapped(size_t place, size_t samples)
{
    return place < samples ? place : place - samples;
}

static size_t smaller(size_t a, size_t b)
{
    return a < b ? a : b;
}

uint32_t plain_push(uint8_t *marks, size_t marks_length, uint8_t *queue, size_t queue_length, const uint8_t *samples,
                    size_t samples_length)
{
    struct ring r;
    size_t length = queue_length / 2, count = samples_length / 2;
    if (!get_ring(&r, marks, marks_length, queue_length))
        return RESAMPLER_BAD_IMAGE;
    if (queue_length % 2 != 0 || !is_buffer(samples_length))
        return RESAMPLER_BAD_BUFFER;
    if (count > length - r.held)
        return RESAMPLER_QUEUE_FULL;
    size_t at = wrapped(r.front + r.held, length), first = smaller(count, length - at);
    memcpy(queue + 2 * at, samples, 2 * first);
    memcpy(queue, samples + 2 * first, 2 * (count - first));
    r.held += (uint32_t)count;
    memcpy(marks, &r, sizeof r);
    return RESAMPLER_ACCEPTED;
}

uint32_t plain_draw(uint8_t *image, size_t image_length, uint8_t *marks, size_t marks_length, const uint8_t *queue,
                    size_t queue_length, uint8_t *output, size_t output_length)
{
    struct plain_state s;
    struct ring r;
    size_t length = queue_length / 2, space = output_length / 2;
    if (!get_ring(&r, marks, marks_length, queue_length) ||
        !get_image(&s, image, image_length, RESAMPLER_IMAGE_BYTES))
        return RESAMPLER_BAD_IMAGE;
    if (queue_length % 2 != 0 || !is_buffer(output_length))
        return RESAMPLER_BAD_BUFFER;
    size_t first = smaller(r.held, length - r.front);
    struct plain_fed fed = feed(&s, queue + 2 * r.front, first, output, space);
    if (first < r.held && !fed.full) {
        struct plain_fed more = feed(&s, queue, r.held - first, output + 2 * fed.written, space - fed.written);
        fed = (struct plain_fed){fed.taken + more.taken, fed.written + more.written, fed.clips + more.clips, more.full};
    }
    put_image(image, &s, fed);
    r = (struct ring){(uint32_t)wrapped(r.front + fed.taken, length), r.held - (uint32_t)fed.taken};
    memcpy(marks, &r, sizeof r);
    return RESAMPLER_ACCEPTED;
}
