/* The program in plain C, to compare speeds with: a K line and D lines from standard input, outputs as lines of
   four digits, then an E line; R and two digits where a line is refused. */
#include "plain.h"

#include <stdio.h>
#include <string.h>
#include <unistd.h>

enum { BUFFER = 65536, LONGEST = 270, SAMPLES = 64, OUTPUTS = 512 };

static unsigned char values[256]; /* of digits; 16 for any other character */
static unsigned char input[BUFFER], text[BUFFER];
static size_t from, to, filled;
static int ended;
static int64_t last = -1; /* the number of the last D line, or -1 where there was none */

static void make_values(void)
{
    memset(values, 16, sizeof values);
    for (int d = 0; d < 16; d++)
        values[(unsigned char)"0123456789ABCDEF"[d]] = (unsigned char)d;
}

static void flush(void)
{
    for (size_t done = 0; done < filled;) {
        ssize_t n = write(1, text + done, filled - done);
        if (n <= 0)
            _exit(1);
        done += (size_t)n;
    }
    filled = 0;
}

static void refuse(int refusal)
{
    if (BUFFER - filled < 8)
        flush();
    filled += (size_t)sprintf((char *)text + filled, "R%02d\n", refusal);
    flush();
    _exit(0);
}

/* Makes the unread bytes begin with a whole line, and returns its length without its last byte, 10. */
static size_t next_line(void)
{
    for (;;) {
        size_t have = to - from;
        size_t look = have < LONGEST ? have : LONGEST;
        unsigned char *end = memchr(input + from, 10, look);
        if (end)
            return (size_t)(end - (input + from));
        if (ended || look == LONGEST)
            refuse(6);
        memmove(input, input + from, have);
        from = 0;
        to = have;
        ssize_t n = read(0, input + to, BUFFER - to);
        if (n <= 0)
            ended = 1;
        else
            to += (size_t)n;
    }
}

static uint64_t number(const unsigned char *s, size_t n)
{
    uint64_t v = 0;
    for (size_t i = 0; i < n; i++)
        v = v * 16 + values[s[i]];
    return v;
}

/* The digits after the letter of a line of n bytes. */
static const unsigned char *digits_of(size_t n, unsigned char letter)
{
    const unsigned char *s = input + from;
    if (n == 0 || s[0] != letter)
        refuse(7);
    for (size_t i = 1; i < n; i++)
        if (values[s[i]] == 16)
            refuse(8);
    return s + 1;
}

static struct plain_state read_start(void)
{
    size_t n = next_line();
    const unsigned char *ds = digits_of(n, 'K');
    if (n != 19)
        refuse(9);
    struct plain_state s = {.kernel = (int)number(ds, 1), .word = number(ds + 1, 9), .reg = (uint32_t)number(ds + 10, 8)};
    if (s.kernel > 3)
        refuse(1);
    if (s.word < 1 || s.word > (uint64_t)1 << 34)
        refuse(4);
    s.needed = (s.kernel < 2 ? 2 : 3) + (s.kernel == 1 && s.reg >> 31);
    from += n + 1;
    return s;
}

/* Reads a D line, and returns its count. */
static size_t read_data(int16_t *samples)
{
    size_t n = next_line();
    const unsigned char *ds = digits_of(n, 'D');
    if (n < 13)
        refuse(9);
    size_t count = number(ds + 8, 2);
    if (count < 1 || count > SAMPLES || n != 13 + 4 * count)
        refuse(9);
    unsigned sum = 0;
    for (size_t i = 0; i + 1 < n; i += 2)
        sum += values[ds[i]] * 16u + values[ds[i + 1]];
    if (sum % 256)
        refuse(10);
    int64_t sequence = (int64_t)number(ds, 8);
    if (last >= 0 && sequence != last + 1)
        refuse(15);
    last = sequence;
    for (size_t i = 0; i < count; i++)
        samples[i] = (int16_t)number(ds + 10 + 4 * i, 4);
    from += n + 1;
    return count;
}

static void put(const int16_t *outputs, size_t n)
{
    static const char digit[] = "0123456789ABCDEF";
    unsigned char *t = text + filled;
    for (size_t i = 0; i < n; i++, t += 5) {
        unsigned v = (uint16_t)outputs[i];
        t[0] = (unsigned char)digit[v >> 12];
        t[1] = (unsigned char)digit[v >> 8 & 15];
        t[2] = (unsigned char)digit[v >> 4 & 15];
        t[3] = (unsigned char)digit[v & 15];
        t[4] = 10;
    }
    filled += 5 * n;
}

int main(void)
{
    make_values();
    struct plain_state state = read_start();
    uint64_t made = 0, clips = 0;
    for (;;) {
        if (from == to) {
            from = to = 0;
            ssize_t n = read(0, input, BUFFER);
            if (n <= 0)
                break;
            to = (size_t)n;
        }
        int16_t samples[SAMPLES], outputs[OUTPUTS];
        size_t count = read_data(samples), taken = 0;
        for (int full = 1; full;) {
            if (BUFFER - filled < 5 * OUTPUTS)
                flush();
            struct plain_fed fed = plain_feed(&state, samples + taken, count - taken, outputs, OUTPUTS);
            put(outputs, fed.written);
            taken += fed.taken;
            made += fed.written;
            clips += plain_sum(fed.clips);
            full = fed.full;
        }
    }
    if (BUFFER - filled < 64)
        flush();
    filled += (size_t)sprintf((char *)text + filled, "E%016llX%016llX\n", (unsigned long long)made, (unsigned long long)clips);
    flush();
    return 0;
}
