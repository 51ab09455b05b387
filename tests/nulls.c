/* Pointers of buffers of length 0: every call is made with each choice of its buffers empty, and each choice of these
   lent as null, or as an address where nothing is. It has to answer, and to leave every byte, as with a pointer to
   memory. It is built as C and as C++. It prints what does not hold. */
#include "resampler.h"

#include <stdio.h>
#include <string.h>

enum { MOST = 4, SPAN = 640, GUARD = 64 }; /* buffers of a call; bytes of a buffer's place, with guards */

/* The buffers of a call in turn, by a letter each: image, image of lanes, input, output, marks, queue, samples to push,
   samples to write, line to write, K line, D line, frame of each, samples read. */
enum call {
    START_WORD, START_RATIO, START_RATES, RETUNE_WORD, RETUNE_RATIO, RETUNE_RATES, FEED, START_LANES_WORD,
    START_LANES_RATIO, START_LANES_RATES, FEED_LANES, PUSH, DRAW, WRITE_DATA, WRITE_START, READ_DATA, READ_START, CALLS
};
static const char *const buffers_of[CALLS] = {"i", "i", "i", "i", "i", "i", "iao", "l", "l", "l",
                                              "lao", "mqp", "imqo", "wn", "n", "dfs", "kg"};

struct lent {
    uint8_t *at;
    size_t length;
};

static int failed;
static unsigned tried[CALLS], accepted[CALLS];

static void check(const char *what, unsigned call, unsigned empty, unsigned nowhere, int holds)
{
    if (!holds) {
        printf("%s: call %u, empty %X, lent as null or nowhere %X\n", what, call, empty, nowhere);
        failed = 1;
    }
}

static uint32_t make(unsigned call, const struct lent *b)
{
    const uint64_t word = UINT64_C(0x123456789);
    switch (call) {
    case START_WORD:
        return resampler_start_word(b[0].at, b[0].length, 3, word, 5);
    case START_RATIO:
        return resampler_start_ratio(b[0].at, b[0].length, 2, 0.75, 5);
    case START_RATES:
        return resampler_start_rates(b[0].at, b[0].length, 1, 44100, 48000, 5);
    case RETUNE_WORD:
        return resampler_retune_word(b[0].at, b[0].length, word);
    case RETUNE_RATIO:
        return resampler_retune_ratio(b[0].at, b[0].length, 0.75);
    case RETUNE_RATES:
        return resampler_retune_rates(b[0].at, b[0].length, 44100, 48000);
    case FEED:
        return resampler_feed(b[0].at, b[0].length, b[1].at, b[1].length, b[2].at, b[2].length);
    case START_LANES_WORD:
        return resampler_start_lanes_word(b[0].at, b[0].length, 3, word, 5);
    case START_LANES_RATIO:
        return resampler_start_lanes_ratio(b[0].at, b[0].length, 2, 0.75, 5);
    case START_LANES_RATES:
        return resampler_start_lanes_rates(b[0].at, b[0].length, 1, 44100, 48000, 5);
    case FEED_LANES:
        return resampler_feed_lanes(b[0].at, b[0].length, 3, b[1].at, b[1].length, b[2].at, b[2].length);
    case PUSH:
        return resampler_push(b[0].at, b[0].length, b[1].at, b[1].length, b[2].at, b[2].length);
    case DRAW:
        return resampler_draw(b[0].at, b[0].length, b[1].at, b[1].length, b[2].at, b[2].length, b[3].at, b[3].length);
    case WRITE_DATA:
        return resampler_write_data(7, b[0].at, b[0].length, b[1].at, b[1].length);
    case WRITE_START:
        return resampler_write_start(3, word, 5, b[0].at, b[0].length);
    case READ_DATA:
        return resampler_read_data(b[0].at, b[0].length, b[1].at, b[1].length, b[2].at, b[2].length);
    default:
        return resampler_read_start(b[0].at, b[0].length, b[1].at, b[1].length);
    }
}

/* Fills a buffer by its letter; its length. Of an image there is one after a start, one with an output due, and one
   that needs one sample; of marks the first and the second of them hold something. */
static size_t fill(char letter, uint32_t kernel, unsigned state, uint8_t *at)
{
    static const uint8_t input[] = {1, 2, 3, 4, 5, 6, 7, 8, 9, 10, 11, 12};
    uint8_t output[2];
    size_t n = letter == 'l' ? RESAMPLER_LANES_BYTES : RESAMPLER_IMAGE_BYTES;
    uint64_t word = state == 2 ? RESAMPLER_WORD_ONE : RESAMPLER_WORD_ONE / 4;
    switch (letter) {
    case 'i':
        resampler_start_word(at, n, kernel, word, 0);
        if (state > 0)
            resampler_feed(at, n, input, 6, output, 2);
        return n;
    case 'l':
        resampler_start_lanes_word(at, n, kernel, word, 0);
        if (state > 0)
            resampler_feed_lanes(at, n, 1, input, 6, output, 2);
        return n;
    case 'a':
        memcpy(at, input, 12);
        return 12;
    case 'p':
    case 'w':
        memcpy(at, input, 4);
        return 4;
    case 'm':
        memset(at, 0, RESAMPLER_MARKS_BYTES);
        at[RESAMPLER_MARKS_FRONT] = (uint8_t)(state < 2 ? 4 : 0);
        at[RESAMPLER_MARKS_HELD] = (uint8_t)(state < 2 ? 3 : 0);
        return RESAMPLER_MARKS_BYTES;
    case 'd':
        resampler_write_data(7, input, 4, at, RESAMPLER_LONGEST_LINE);
        return RESAMPLER_DATA_LINE_BYTES(2);
    case 'k':
        resampler_write_start(3, word, 5, at, RESAMPLER_LONGEST_LINE);
        return RESAMPLER_START_LINE_BYTES;
    case 'f':
        memset(at, 0, RESAMPLER_DATA_FIELDS_BYTES);
        return RESAMPLER_DATA_FIELDS_BYTES;
    case 'g':
        return RESAMPLER_START_FIELDS_BYTES;
    case 'n':
        return RESAMPLER_LONGEST_LINE;
    default: /* output, queue, samples read */
        return 12;
    }
}

/* Makes a call with some buffers empty and some of these lent as nulls, or as addresses where nothing is. What it
   answers; all bytes are left in `memory`. */
static uint32_t make_with(unsigned call, uint32_t kernel, unsigned state, unsigned empty, unsigned nowhere,
                          uintptr_t where, uint8_t *memory)
{
    struct lent lent[MOST];
    memset(memory, 0xEE, MOST * SPAN);
    for (unsigned i = 0; buffers_of[call][i] != 0; i++) {
        lent[i].at = memory + i * SPAN + GUARD;
        lent[i].length = fill(buffers_of[call][i], kernel, state, lent[i].at);
        if (empty >> i & 1)
            lent[i].length = 0;
        if (nowhere >> i & 1)
            lent[i].at = (uint8_t *)where;
    }
    return make(call, lent);
}

/* A call with each choice of empty buffers, and of these each choice of nulls. */
static void try_call(unsigned call, uint32_t kernel, unsigned state)
{
    static const uintptr_t places[] = {0, 1, 0x7F, UINTPTR_MAX - 1, UINTPTR_MAX};
    static uint8_t memory[MOST * SPAN], expected[MOST * SPAN];
    unsigned all = (1U << strlen(buffers_of[call])) - 1;
    check("full buffers accepted", call, 0, 0, make_with(call, kernel, state, 0, 0, 0, memory) == 0);
    for (unsigned empty = 1; empty <= all; empty++) {
        uint32_t answer = make_with(call, kernel, state, empty, 0, 0, expected);
        for (unsigned nowhere = empty; nowhere > 0; nowhere = (nowhere - 1) & empty)
            for (size_t i = 0; i < sizeof places / sizeof *places; i++) {
                uint32_t now = make_with(call, kernel, state, empty, nowhere, places[i], memory);
                check("answer", call, empty, nowhere, now == answer);
                check("bytes", call, empty, nowhere, memcmp(memory, expected, sizeof memory) == 0);
                tried[call]++;
                accepted[call] += now == 0;
            }
    }
}

/* What each call answers of a null buffer by name. */
static void by_name(void)
{
    static const uint8_t in[] = {1, 2, 3, 4};
    uint8_t image[RESAMPLER_IMAGE_BYTES], marks[RESAMPLER_MARKS_BYTES] = {0}, output[20], line[20], frame[16] = {0};
    size_t n = sizeof image, eight = sizeof marks, d = RESAMPLER_DATA_LINE_BYTES(1);
    const uint8_t *good = (const uint8_t *)"D00000000010001FE\n";
    check("start", 0, 1, 1, resampler_start_word(NULL, 0, 0, 1, 0) == RESAMPLER_BAD_IMAGE);
    check("start of kernel 4", 0, 1, 1, resampler_start_word(NULL, 0, 4, 1, 0) == RESAMPLER_BAD_KERNEL);
    check("retune", 3, 1, 1, resampler_retune_word(NULL, 0, 1) == RESAMPLER_BAD_IMAGE);
    check("image", 0, 0, 0, resampler_start_word(image, n, 0, RESAMPLER_WORD_ONE / 4, 0) == 0);
    check("feed of nothing", 6, 6, 6, resampler_feed(image, n, NULL, 0, NULL, 0) == 0);
    check("no space", 6, 4, 4, resampler_feed(image, n, in, sizeof in, NULL, 0) == 0);
    check("full", 6, 4, 4, resampler_end(image) == RESAMPLER_FULL && resampler_taken(image) == 2);
    check("outputs due", 6, 2, 2, resampler_feed(image, n, NULL, 0, output, 6) == 0 && resampler_written(image) == 3);
    check("draw without a queue", 12, 4, 4, resampler_draw(image, n, marks, eight, NULL, 0, output, 20) == 0);
    check("one output", 12, 4, 4, resampler_written(image) == 1 && resampler_end(image) == RESAMPLER_HUNGRY);
    check("push of nothing", 11, 6, 6, resampler_push(marks, eight, NULL, 0, NULL, 0) == 0);
    check("push without a queue", 11, 2, 2, resampler_push(marks, eight, NULL, 0, in, 2) == RESAMPLER_QUEUE_FULL);
    check("samples to write", 13, 1, 1, resampler_write_data(0, NULL, 0, line, 20) == RESAMPLER_BAD_WRITE);
    check("line to write", 13, 2, 2, resampler_write_data(0, in, 2, NULL, 0) == RESAMPLER_BAD_WRITE);
    check("K line to write", 14, 1, 1, resampler_write_start(0, 1, 0, NULL, 0) == RESAMPLER_BAD_WRITE);
    check("line", 15, 1, 1, resampler_read_data(NULL, 0, frame, 8, output, 20) == RESAMPLER_NO_LINE_END);
    check("frame", 15, 2, 2, resampler_read_data(good, d, NULL, 0, output, 20) == RESAMPLER_BAD_IMAGE);
    check("samples", 15, 4, 4, resampler_read_data(good, d, frame, 8, NULL, 0) == RESAMPLER_SHORT_BUFFER);
    check("K line", 16, 1, 1, resampler_read_start(NULL, 0, frame, 16) == RESAMPLER_NO_LINE_END);
}

int main(void)
{
    static const int may_be_empty[] = {FEED, FEED_LANES, PUSH, DRAW};
    setvbuf(stdout, NULL, _IONBF, 0);
    for (unsigned call = 0; call < CALLS; call++)
        for (uint32_t kernel = 0; kernel < 4; kernel++)
            for (unsigned state = 0; state < 3; state++)
                try_call(call, kernel, state);
    for (unsigned call = 0; call < CALLS; call++)
        check("every call", call, 0, 0, tried[call] > 0);
    for (size_t i = 0; i < sizeof may_be_empty / sizeof *may_be_empty; i++)
        check("accepted with empty buffers", (unsigned)may_be_empty[i], 0, 0, accepted[may_be_empty[i]] > 50);
    by_name();
    return failed;
}
