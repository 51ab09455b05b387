#include "plain.h"
#include "resampler.h"

#include <string.h>

/* The two digits of each byte. */
#define PAIRS(d) d "0" d "1" d "2" d "3" d "4" d "5" d "6" d "7" d "8" d "9" d "A" d "B" d "C" d "D" d "E" d "F"
static const char pairs[] = PAIRS("0") PAIRS("1") PAIRS("2") PAIRS("3") PAIRS("4") PAIRS("5") PAIRS("6") PAIRS("7")
    PAIRS("8") PAIRS("9") PAIRS("A") PAIRS("B") PAIRS("C") PAIRS("D") PAIRS("E") PAIRS("F");

/* The value of each digit, and NONE for any other character. */
enum { NONE = 16 };
#define NO_8 NONE, NONE, NONE, NONE, NONE, NONE, NONE, NONE
#define NO_16 NO_8, NO_8
static const uint8_t values[256] = {NO_16, NO_16, NO_16, 0,     1,     2,     3,     4,     5,     6,
                                    7,     8,     9,     NONE,  NONE,  NONE,  NONE,  NONE,  NONE,  NONE,
                                    10,    11,    12,    13,    14,    15,    NONE,  NO_8,  NO_16, NO_16,
                                    NO_16, NO_16, NO_16, NO_16, NO_16, NO_16, NO_16, NO_16, NO_16};

/* Writes a byte, and adds it to the sum. */
static uint8_t *put(uint8_t *at, unsigned byte, unsigned *sum)
{
    memcpy(at, pairs + 2 * byte, 2);
    *sum += byte;
    return at + 2;
}

uint32_t plain_write_data(uint32_t sequence, const uint8_t *samples, size_t samples_length, uint8_t *line,
                          size_t line_length)
{
    size_t count = samples_length / 2;
    unsigned sum = 0;
    uint8_t *at = line + 1;
    if (samples_length % 2 != 0 || samples_length > RESAMPLER_LARGEST_BUFFER)
        return RESAMPLER_BAD_BUFFER;
    if (count < 1 || count > RESAMPLER_MOST_SAMPLES || line_length < RESAMPLER_DATA_LINE_BYTES(count))
        return RESAMPLER_BAD_WRITE;
    line[0] = 'D';
    for (int shift = 24; shift >= 0; shift -= 8)
        at = put(at, sequence >> shift & 255, &sum);
    at = put(at, (unsigned)count, &sum);
    for (size_t i = 0; i < samples_length; i += 2) {
        at = put(at, samples[i + 1], &sum);
        at = put(at, samples[i], &sum);
    }
    at = put(at, -sum & 255, &sum);
    *at = 10;
    return RESAMPLER_ACCEPTED;
}

/* Reads a byte, and gathers whether any of its characters is no digit. */
static unsigned get(const uint8_t *at, unsigned *seen)
{
    unsigned high = values[at[0]], low = values[at[1]];
    *seen |= high | low;
    return 16 * high + low;
}

static uint32_t refuse_length(const uint8_t *digits, size_t many)
{
    for (size_t i = 0; i < many; i++)
        if (values[digits[i]] == NONE)
            return RESAMPLER_BAD_DIGIT;
    return RESAMPLER_BAD_LENGTH;
}

/* Digits, sum and samples in one pass. It leaves the samples in a buffer of its own, since the one that is lent may not
   be written before the line is known to be right. With a pass for each, as in lines.c, it took four times as long
   with gcc 12. */
uint32_t plain_read_data(const uint8_t *line, size_t line_length, uint8_t *frame, size_t frame_length, uint8_t *samples,
                         size_t samples_length)
{
    uint8_t taken[RESAMPLER_MOST_SAMPLES * RESAMPLER_SAMPLE_BYTES];
    unsigned sum = 0, seen = 0;
    uint32_t fields[2] = {0, 0}, told[2]; /* number and count */
    if (frame_length != RESAMPLER_DATA_FIELDS_BYTES)
        return RESAMPLER_BAD_IMAGE;
    const uint8_t *at = line + 1,
                  *end = memchr(line, 10, line_length < RESAMPLER_LONGEST_LINE ? line_length : RESAMPLER_LONGEST_LINE);
    if (end == NULL)
        return RESAMPLER_NO_LINE_END;
    if (end == line || line[0] != 'D')
        return RESAMPLER_BAD_LETTER;
    size_t digits = (size_t)(end - at), count = digits < 12 ? 0 : get(at + 8, &seen);
    if (count < 1 || count > RESAMPLER_MOST_SAMPLES || digits != 12 + 4 * count)
        return refuse_length(at, digits);
    for (int i = 0; i < 4; i++, at += 2) {
        unsigned byte = get(at, &seen);
        fields[0] = fields[0] << 8 | byte;
        sum += byte;
    }
    sum += (unsigned)count;
    at += 2;
    for (size_t i = 0; i < count; i++, at += 4) {
        unsigned high = get(at, &seen), low = get(at + 2, &seen);
        taken[2 * i] = (uint8_t)low;
        taken[2 * i + 1] = (uint8_t)high;
        sum += high + low;
    }
    sum += get(at, &seen);
    if (seen & NONE)
        return RESAMPLER_BAD_DIGIT;
    if (sum % 256 != 0)
        return RESAMPLER_BAD_CHECK;
    memcpy(told, frame, sizeof told);
    if (told[1] != 0 && fields[0] != (uint64_t)told[0] + 1)
        return RESAMPLER_BAD_SEQUENCE;
    if (samples_length / 2 < count)
        return RESAMPLER_SHORT_BUFFER;
    if (samples_length % 2 != 0 || samples_length > RESAMPLER_LARGEST_BUFFER)
        return RESAMPLER_BAD_BUFFER;
    memcpy(samples, taken, 2 * count);
    fields[1] = (uint32_t)count;
    memcpy(frame, fields, sizeof fields);
    return RESAMPLER_ACCEPTED;
}
