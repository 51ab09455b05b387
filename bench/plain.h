/* The converter in plain C, to compare speeds with: block feeding of 16-bit samples through one of four kernels, a ring
   before it, and frame lines. For little-endian machines. */
#ifndef PLAIN_H
#define PLAIN_H

#include <stddef.h>
#include <stdint.h>

/* `window` has the newest four samples, oldest first; `needed` more are taken before the next output;
   `reg` is that output's position between two samples, in 2^-32 of a sample; `word` is how far one output
   lies from the next, in the same unit. */
struct plain_state {
    int kernel;
    int needed;
    uint32_t reg;
    uint64_t word;
    int16_t window[4];
};

/* Clips of both sides are counted in one number: the high ones in its low 32 bits, the low ones in the others, as an
   image of lanes has them. This is their sum. */
static inline uint32_t plain_sum(uint64_t clips)
{
    return (uint32_t)(clips + (clips >> 32));
}

/* What a feed did. `full` tells that it stopped because the output space was all written, and not because
   the samples were. */
struct plain_fed {
    size_t taken;
    size_t written;
    uint64_t clips; /* of both sides */
    int full;
};

/* Takes samples and writes outputs until either the samples or the space are spent. */
struct plain_fed plain_feed(struct plain_state *state, const int16_t *input, size_t input_count,
                            int16_t *output, size_t output_count);

/* The same over byte buffers, as `resampler_feed` of include/resampler.h. */
uint32_t plain_host_feed(uint8_t *image, size_t image_length, const uint8_t *input, size_t input_length,
                         uint8_t *output, size_t output_length);

/* And over lanes, as `resampler_feed_lanes`: one lane after another. */
uint32_t plain_host_feed_lanes(uint8_t *image, size_t image_length, uint32_t lanes, const uint8_t *input,
                               size_t input_length, uint8_t *output, size_t output_length);

/* A ring of samples before the converter, as `resampler_push` and `resampler_draw`: a push copies by memcpy, and a draw
   feeds what is held where it lies, in one part or two. */
uint32_t plain_push(uint8_t *marks, size_t marks_length, uint8_t *queue, size_t queue_length, const uint8_t *samples,
                    size_t samples_length);
uint32_t plain_draw(uint8_t *image, size_t image_length, uint8_t *marks, size_t marks_length, const uint8_t *queue,
                    size_t queue_length, uint8_t *output, size_t output_length);

/* D lines, as `resampler_write_data` and `resampler_read_data`, by tables of digits. */
uint32_t plain_write_data(uint32_t sequence, const uint8_t *samples, size_t samples_length, uint8_t *line,
                          size_t line_length);
uint32_t plain_read_data(const uint8_t *line, size_t line_length, uint8_t *frame, size_t frame_length,
                         uint8_t *samples, size_t samples_length);

#endif
