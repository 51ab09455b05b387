/* Makes every call of the archive over designed cases, for tools/firmware. The first line on the standard output has the sizes of what a
   host keeps. Each call is made on a stack of its own that was painted before, and then `counted` is called, where callgrind writes what it
   counted. A line has the call, the family of the case, the outputs, samples and lanes that a formula may have, the refusal, the bytes of
   the stack that were touched, and the xmm registers that were changed. The cases of one family differ in length only.

   Then the calls that take a ratio are made under every rounding and with subnormals taken as zero; the last line says whether an image
   ever differed. With --count, under callgrind, which does not follow these settings, that is left out. */
#include "resampler.h"

#include <stdio.h>
#include <stdlib.h>
#include <string.h>

enum { STACK = 4096, SPACE = RESAMPLER_LARGEST_BUFFER, ARGUMENTS = 8 };

static uint8_t stack[STACK] __attribute__((aligned(16)));
static uint8_t image[RESAMPLER_LANES_BYTES], marks[8], frame[16];
static uint8_t input[SPACE], output[SPACE], line[512];
static uint8_t arena[2 * SPACE]; /* where one buffer lies right behind another */
static uint64_t state = 1;

/* The sixteen xmm registers before a call, and after it. */
static uint8_t vectors_before[256], vectors_after[256];

/* Calls a function with eight whole arguments, the last two of them on the stack, and a float, on the stack that ends at `top`. The bytes
   below `top` - 16 are those of the call, its return address included. The float is the front of the first xmm register. */
uint32_t call_on(uint8_t *top, void *function, const uint64_t *arguments, const uint8_t *before, uint8_t *after);
#define EACH_VECTOR(DO) DO(0) DO(1) DO(2) DO(3) DO(4) DO(5) DO(6) DO(7) DO(8) DO(9) DO(10) DO(11) DO(12) DO(13) DO(14) DO(15)
#define LOAD(i) "movups 16*" #i "(%rcx), %xmm" #i "\n"
#define STORE(i) "movups %xmm" #i ", 16*" #i "(%rbx)\n"
__asm__(".text\n"
        ".type call_on, @function\n"
        "call_on: push %rbp\n push %rbx\n mov %rsp, %rbp\n mov %r8, %rbx\n mov %rdi, %rsp\n mov %rsi, %rax\n mov %rdx, %r10\n"
        EACH_VECTOR(LOAD)
        "push 56(%r10)\n push 48(%r10)\n"
        "mov (%r10), %rdi\n mov 8(%r10), %rsi\n mov 16(%r10), %rdx\n mov 24(%r10), %rcx\n mov 32(%r10), %r8\n mov 40(%r10), %r9\n"
        "call *%rax\n"
        EACH_VECTOR(STORE)
        "mov %rbp, %rsp\n pop %rbx\n pop %rbp\n ret\n"
        ".size call_on, . - call_on\n");

__attribute__((noinline)) void counted(void)
{
    __asm__ volatile("");
}

/* Draws are made one in a statement or declarator, so that every compiler makes them in one order. */
static uint32_t draw(uint32_t below)
{
    state = state * 6364136223846793005u + 1442695040888963407u;
    return (uint32_t)(state >> 33) % below;
}

#define ONE_OF(...) ONE_OF_ARRAY(((const uint64_t[]){__VA_ARGS__}))
#define ONE_OF_ARRAY(array) (array)[draw(sizeof(array) / sizeof *(array))]

/* Makes a call, and returns its refusal. What was touched of the stack is told in whole words, and a bit for each xmm register says whether
   it was changed. */
static size_t touched;
static unsigned changed;
static uint32_t make(void *function, double ratio, const uint64_t *arguments)
{
    static uint8_t paint[STACK];
    size_t low = 0;
    for (size_t i = 0; i < STACK; i++)
        stack[i] = paint[i] = (uint8_t)draw(256);
    for (size_t i = 0; i < sizeof vectors_before; i++)
        vectors_before[i] = (uint8_t)draw(256);
    memcpy(vectors_before, &ratio, sizeof ratio);
    uint32_t refusal = call_on(stack + STACK, function, arguments, vectors_before, vectors_after);
    counted();
    while (low < STACK && stack[low] == paint[low])
        low++;
    touched = (STACK - 16 - low + 7) / 8 * 8;
    changed = 0;
    for (unsigned i = 0; i < 16; i++)
        changed |= (unsigned)(memcmp(vectors_before + 16 * i, vectors_after + 16 * i, 16) != 0) << i;
    return refusal;
}
#define MAKE(name, ratio, ...) make((void *)resampler_##name, ratio, (const uint64_t[ARGUMENTS]){__VA_ARGS__})
#define AT(buffer) (uint64_t)(uintptr_t)(buffer)

static void tell(const char *call, const char *family, size_t outputs, size_t samples, size_t lanes, uint32_t refusal)
{
    printf("%s %s %zu %zu %zu %u %zu %u\n", call, family, outputs, samples, lanes, (unsigned)refusal, touched, changed);
}

/* ---- signals ---- */

enum { HIGH, LOW, QUIET, NOISE, HALVES, SIGNALS };
static const char *const signal_names[] = {"high", "low", "quiet", "noise", "halves"};

/* Samples of which kernels 1 to 3 make high or low clips between those in the middle of four; a slow ramp; noise; and noise of one bit. */
static int16_t sample_of(int signal, size_t i)
{
    static const int16_t high[] = {-32768, 32767, 32767, 32767}, low[] = {32767, -32768, -32768, -32768};
    switch (signal) {
    case HIGH:
        return high[i % 4];
    case LOW:
        return low[i % 4];
    case QUIET:
        return (int16_t)(i % 2000);
    case NOISE:
        return (int16_t)draw(65536);
    default:
        return (int16_t)draw(2);
    }
}

static void fill(uint8_t *to, size_t samples, int signal)
{
    for (size_t i = 0; i < samples; i++)
        resampler_put_sample(to, i, sample_of(signal, i));
}

/* An image with a state that need not come from a start. The first word of a window for kernel 1 is not used; the other kernels have their
   two middle samples high. */
static void set_image(uint32_t kernel, uint32_t needed, uint32_t reg, uint64_t word, int signal)
{
    memset(image, 0, sizeof image);
    image[RESAMPLER_AT_KERNEL] = (uint8_t)kernel;
    image[RESAMPLER_AT_NEEDED] = (uint8_t)needed;
    memcpy(image + RESAMPLER_AT_REGISTER, &reg, sizeof reg);
    memcpy(image + RESAMPLER_AT_WORD, &word, sizeof word);
    for (size_t lane = 0; lane < RESAMPLER_MOST_LANES; lane++) {
        uint8_t *window = image + resampler_lane_window(lane);
        fill(window, RESAMPLER_WINDOW, signal);
        if (kernel == RESAMPLER_THREE_POINT && signal <= LOW) {
            memcpy(window + 2, window, 2);
        } else if (signal <= LOW) {
            memcpy(window + 6, window, 2);
        }
    }
}

static uint32_t some_register(void) { return (uint32_t)ONE_OF(0, 0x3fffffff, 0x40000000, 0x7fffffff, 0x80000000, 0xffffffff); }
static uint64_t some_word(void)
{
    return ONE_OF(1, 1 << 15, 1 << 30, 1u << 31, 3865470566, 4294967295, 4294967296, 4294967297, 15891378995, RESAMPLER_LARGEST_WORD);
}

static void draw_image(uint32_t kernel, int signal)
{
    uint32_t needed = draw(5), reg = some_register();
    uint64_t word = some_word();
    set_image(kernel, needed, reg, word, signal);
}

/* ---- feeds, lanes and draws; every second case of a signal that clips has all of its outputs clip ---- */

static void feed(const char *family, size_t image_length, size_t samples, size_t space)
{
    char call[] = "feed 0"; /* with the kernel */
    call[5] = (char)('0' + image[RESAMPLER_AT_KERNEL] % 10);
    uint32_t refusal = MAKE(feed, 0, AT(image), image_length, AT(input), 2 * samples, AT(output), 2 * space);
    tell(call, family, refusal ? 0 : resampler_written(image), refusal ? 0 : resampler_taken(image), 1, refusal);
}

static void feed_lanes(const char *family, size_t lanes, size_t samples, size_t space)
{
    char call[] = "feed_lanes 0";
    call[11] = (char)('0' + image[RESAMPLER_AT_KERNEL] % 10);
    size_t taken = 2 * lanes * samples, room = 2 * lanes * space; /* in bytes */
    uint32_t refusal = MAKE(feed_lanes, 0, AT(image), sizeof image, lanes, AT(input), taken, AT(output), room);
    tell(call, family, lanes * resampler_written(image), lanes * resampler_taken(image), lanes, refusal);
}

static void draw_queue(const char *family, size_t length, uint32_t front, uint32_t held, size_t space)
{
    char call[] = "draw 0";
    call[5] = (char)('0' + image[RESAMPLER_AT_KERNEL] % 10);
    memcpy(marks, &front, sizeof front);
    memcpy(marks + 4, &held, sizeof held);
    uint32_t refusal = MAKE(draw, 0, AT(image), RESAMPLER_IMAGE_BYTES, AT(marks), sizeof marks, AT(input), 2 * length, AT(output),
                            2 * space);
    tell(call, family, refusal ? 0 : resampler_written(image), refusal ? 0 : resampler_taken(image), 1, refusal);
}

static void feeds(uint32_t kernel)
{
    for (int signal = HIGH; signal <= LOW; signal++) /* one window, and outputs between its middle samples */
        for (size_t space = 1000; space <= 4000; space *= 2) {
            char family[32];
            snprintf(family, sizeof family, "%s-from-window", signal_names[signal]);
            set_image(kernel, 0, 0x50000000, 1 << 15, signal);
            feed(family, RESAMPLER_IMAGE_BYTES, 0, space);
            set_image(kernel, 0, 0x50000000, 1 << 15, signal);
            draw_queue(family, 0, 0, 0, space);
            set_image(kernel, 0, 0x50000000, 1 << 15, signal);
            feed_lanes(family, 8, 0, space);
        }
    for (int signal = QUIET; signal < SIGNALS; signal++)
        for (size_t samples = 1000; samples <= 4000; samples *= 2) {
            char family[32];
            snprintf(family, sizeof family, "%s-stream", signal_names[signal]);
            fill(input, samples, signal);
            set_image(kernel, 4, 0, signal == HALVES ? 1u << 31 : RESAMPLER_WORD_ONE, signal);
            feed(family, RESAMPLER_IMAGE_BYTES, samples, SPACE / 2);
        }
    set_image(kernel, 4, 0, RESAMPLER_LARGEST_WORD, QUIET);
    feed("every-fourth", RESAMPLER_IMAGE_BYTES, SPACE / 2, SPACE / 2);
    for (size_t i = 0; i < 400; i++) {
        int signal = (int)draw(SIGNALS);
        fill(input, 64, signal);
        draw_image(kernel, signal);
        size_t samples = ONE_OF(0, 1, 2, 3, 4, 5, 6, 7, 8, 9, 33), space = ONE_OF(0, 1, 2, 3, 4, 5, 6, 9, 40);
        feed("drawn", RESAMPLER_IMAGE_BYTES, samples, space);
        draw_image(kernel, signal);
        size_t lanes = 1 + draw(RESAMPLER_MOST_LANES);
        samples = ONE_OF(0, 1, 2, 3, 4, 5, 6, 9);
        space = ONE_OF(0, 1, 2, 3, 6, 9);
        feed_lanes("drawn", lanes, samples, space);
    }
    for (size_t i = 0; i < 1200; i++) {
        int signal = (int)draw(SIGNALS);
        uint32_t length = 1 + draw(24), front = draw(length), held = draw(length + 1);
        fill(input, length, signal);
        draw_image(kernel, signal);
        draw_queue("drawn", length, front, held, ONE_OF(0, 1, 2, 3, 4, 5, 6, 9, 40));
    }
    for (int passes = 1; passes <= 2; passes++) /* lanes that need one pass over their samples, and two */
        for (size_t lanes = 1; lanes <= RESAMPLER_MOST_LANES; lanes++) {
            fill(input, 16 * lanes, QUIET);
            set_image(kernel, 4, 0, RESAMPLER_LARGEST_WORD, QUIET);
            feed_lanes(passes == 1 ? "one-pass" : "two-passes", lanes, passes == 1 ? 3 : 16, 16);
        }
}

/* Calls that are refused, and the empty one that bench/run counts. */
static void refused_feeds(void)
{
    MAKE(start_word, 0, AT(image), RESAMPLER_IMAGE_BYTES, RESAMPLER_CUBIC, RESAMPLER_WORD_ONE, 0);
    tell("start_word", "accepted", 0, 0, 0, 0);
    feed("empty", RESAMPLER_IMAGE_BYTES, 0, 0);
    feed("refused", RESAMPLER_IMAGE_BYTES - 1, 0, 0);
    feed("refused", RESAMPLER_IMAGE_BYTES, SPACE, 0);
    feed_lanes("refused", RESAMPLER_MOST_LANES + 1, 0, 0);
    draw_queue("refused", 2, 3, 0, 0);
    set_image(7, 0, 0, 1, QUIET);
    MAKE(feed, 0, AT(image), RESAMPLER_IMAGE_BYTES, AT(input), 0, AT(output), 0);
    tell("feed 0", "refused", 0, 0, 1, RESAMPLER_BAD_IMAGE);
}

/* ---- push ---- */

static void push(const char *family, size_t length, uint32_t front, uint32_t held, const uint8_t *samples, size_t count, uint8_t *queue)
{
    memcpy(marks, &front, sizeof front);
    memcpy(marks + 4, &held, sizeof held);
    uint32_t refusal = MAKE(push, 0, AT(marks), sizeof marks, AT(queue), 2 * length, AT(samples), 2 * count);
    tell("push", family, 0, refusal ? 0 : count, 0, refusal);
}

static void pushes(void)
{
    for (size_t count = 1024; count <= 16384; count *= 4) {
        push("blocks", 16384, 0, 0, input, count, arena);
        push("blocks-and-15", 16384, 0, 0, input, count - 1, arena);
        push("round-the-end", 16384, (uint32_t)(16384 - count / 2 - 1), 0, input, count, arena);
        push("round-with-tails", 16384, (uint32_t)(16384 - count / 2 + 1), 0, input, count - 2, arena);
    }
    for (size_t count = 0; count <= 48; count++) {
        push("short", 64, 0, 0, input, count, arena);
        push("right-behind", 64, 0, 0, arena, count, arena + 2 * count); /* the queue begins where the samples end */
        push("short-round", 64, 64 - (uint32_t)count / 2 - 1, 0, input, count, arena);
        for (uint32_t left = 1; left < 16; left += 2)
            push("round-right-behind", 64, 64 - left, 0, arena, count, arena + 2 * count);
    }
    for (size_t i = 0; i < 200; i++) {
        uint32_t length = 1 + draw(100), held = draw(length + 1), front = draw(length);
        push("drawn", length, front, held, input, draw(length - held + 2), arena);
        length = 1 + draw(20);
        held = draw(length + 1);
        size_t count = draw(length - held + 1);
        push("drawn-right-behind", length, draw(length), held, arena, count, arena + 2 * count);
    }
    push("refused", 8, 9, 0, input, 1, arena);
    push("refused", 8, 0, 0, input, 9, arena);
}

/* ---- lines ---- */

static uint32_t sequence; /* of the line that was written last */

static void write_line(const char *family, const uint8_t *samples, size_t count, uint8_t *to, size_t lent)
{
    sequence = 1 + draw(65536);
    uint32_t refusal = MAKE(write_data, 0, sequence, AT(samples), 2 * count, AT(to), lent);
    tell("write_data", family, 0, refusal ? 0 : count, 0, refusal);
}

/* Reads a line as a D line, told a last number or, where that is 0, none, and as a K line. Its samples are counted by the length of what is
   looked at: to the end of the line, or to the end of what is lent, 270 at the most. */
static void read_line(const char *family, const uint8_t *from, size_t lent, uint8_t *samples, size_t space, uint32_t last)
{
    size_t bytes = 0, most = lent < RESAMPLER_LONGEST_LINE ? lent : RESAMPLER_LONGEST_LINE;
    while (bytes < most && from[bytes++] != 10)
        ;
    size_t count = bytes < RESAMPLER_DATA_LINE_BYTES(0) ? 0 : (bytes - RESAMPLER_DATA_LINE_BYTES(0) + 3) / 4;
    memset(frame, 0, sizeof frame);
    memcpy(frame + RESAMPLER_AT_SEQUENCE, &last, sizeof last);
    frame[RESAMPLER_AT_COUNT] = last != 0;
    uint32_t refusal = MAKE(read_data, 0, AT(from), lent, AT(frame), RESAMPLER_DATA_FIELDS_BYTES, AT(samples), 2 * space);
    tell("read_data", family, 0, count, 0, refusal);
    refusal = MAKE(read_start, 0, AT(from), lent, AT(frame), RESAMPLER_START_FIELDS_BYTES);
    tell("read_start", family, 0, count, 0, refusal);
}

static void lines(void)
{
    for (size_t count = 0; count <= 65; count++) {
        fill(input, count, NOISE);
        write_line("noise", input, count, line, sizeof line);
        if (count >= 1 && count <= RESAMPLER_MOST_SAMPLES) {
            size_t length = RESAMPLER_DATA_LINE_BYTES(count);
            read_line("noise", line, length, output, count, 0);
            read_line("in-order", line, length, output, count, sequence - 1);
            read_line("out-of-order", line, length, output, count, sequence);
            read_line("more-lent", line, sizeof line, output, SPACE / 2, 0);
            read_line("right-behind", memcpy(arena, line, length), length, arena + length, count, 0);
            read_line("short-buffer", line, length, output, count - 1, 0);
            memcpy(arena, line, length);
            arena[length - 2] = 'x'; /* the last digit */
            read_line("last-digit", arena, length, output, count, 0);
            arena[length - 2] = line[length - 2] == '0' ? '1' : '0';
            read_line("bad-check", arena, length, output, count, 0);
            arena[length - 1] = '0';
            read_line("no-end", arena, length, output, count, 0);
            for (int all = 0; all <= 255; all += 255) { /* digits that are all 0, and all F */
                memset(arena, all, 2 * count);
                write_line("one-digit", arena, count, line, sizeof line);
                read_line("one-digit", line, length, output, count, 0);
            }
            fill(arena, count, NOISE);
            write_line("right-behind", arena, count, arena + 2 * count, length);
            write_line("right-before", arena + length, count, arena, length);
            write_line("refused", input, count, line, length - 1);
        }
    }
    for (size_t length = 1; length <= RESAMPLER_LONGEST_LINE + 1; length++) { /* lines of every length, right but for it, and of no end */
        for (size_t kind = 0; kind < 4; kind++) {
            memset(arena, "0F"[kind / 2], length);
            arena[0] = (uint8_t)"DK"[kind % 2];
            arena[length - 1] = 10;
            read_line("any-length", arena, length, output, 64, 0);
            if (length > 2) {
                arena[length - 2] = 'x';
                read_line("last-digit", arena, length, output, 64, 0);
            }
        }
        arena[length - 1] = '0';
        read_line("no-end", arena, length, output, 64, 0);
    }
    for (size_t i = 0; i < 60; i++) {
        uint32_t kernel = draw(5), phase = some_register(), more = draw(2);
        uint64_t word = some_word() + more;
        uint32_t refusal = MAKE(write_start, 0, kernel, word, phase, AT(line), 18 + draw(4));
        tell("write_start", refusal ? "refused" : "accepted", 0, 0, 0, refusal);
        if (!refusal) {
            read_line("start", line, 20 + draw(20), output, 64, 0);
            size_t place = 1 + draw(18);
            line[place] = (uint8_t)"0FGx\n"[draw(5)];
            read_line("damaged-start", line, 20 + draw(20), output, 64, 0);
        }
    }
}

/* ---- starts and retunes ---- */

static void settings(void)
{
    for (size_t i = 0; i < 60; i++) {
        uint32_t kernel = draw(5), phase = some_register(), fin = (uint32_t)ONE_OF(0, 1, 24000, 44100, 48000, 4294967295);
        uint32_t fout = (uint32_t)ONE_OF(0, 1, 48000, 44100, 8000, 4294967295);
        uint64_t word = ONE_OF(0, 1, 4294967296, RESAMPLER_LARGEST_WORD, RESAMPLER_LARGEST_WORD + 1), length = ONE_OF(39, 40, 40, 40);
        uint64_t lanes_length = ONE_OF(224, 288, 288, 288);
        uint64_t bits = ONE_OF(0, 0x3ff0000000000000, 0x7ff0000000000000, 0x3fe5555555555555, 0x4010000000000000, 0x4010000000000001, 1,
                               0xbff0000000000000, 0x3df0000000000000, 0x3de0000000000000);
        double ratio;
        memcpy(&ratio, &bits, sizeof ratio);
        uint32_t refusal = MAKE(start_word, 0, AT(image), length, kernel, word, phase);
        tell("start_word", "setting", 0, 0, 0, refusal);
        refusal = MAKE(start_ratio, ratio, AT(image), length, kernel, phase);
        tell("start_ratio", "setting", 0, 0, 0, refusal);
        refusal = MAKE(start_rates, 0, AT(image), length, kernel, fin, fout, phase);
        tell("start_rates", "setting", 0, 0, 0, refusal);
        refusal = MAKE(start_lanes_word, 0, AT(image), lanes_length, kernel, word, phase);
        tell("start_lanes_word", "setting", 0, 0, 0, refusal);
        refusal = MAKE(start_lanes_ratio, ratio, AT(image), lanes_length, kernel, phase);
        tell("start_lanes_ratio", "setting", 0, 0, 0, refusal);
        refusal = MAKE(start_lanes_rates, 0, AT(image), lanes_length, kernel, fin, fout, phase);
        tell("start_lanes_rates", "setting", 0, 0, 0, refusal);
        draw_image(kernel, NOISE);
        refusal = MAKE(retune_word, 0, AT(image), length, word);
        tell("retune_word", "setting", 0, 0, 0, refusal);
        refusal = MAKE(retune_ratio, ratio, AT(image), length);
        tell("retune_ratio", "setting", 0, 0, 0, refusal);
        refusal = MAKE(retune_rates, 0, AT(image), length, fin, fout);
        tell("retune_rates", "setting", 0, 0, 0, refusal);
    }
}

/* What the calls with a ratio leave, under a control word of the floating-point unit. */
static void with_ratio(double ratio, uint32_t control, uint8_t *left)
{
    uint32_t usual, refusals[3];
    __asm__ volatile("stmxcsr %0" : "=m"(usual));
    memset(left, 0, 3 * RESAMPLER_LANES_BYTES);
    resampler_start_word(left, RESAMPLER_IMAGE_BYTES, 3, 1, 0);
    __asm__ volatile("ldmxcsr %0" : : "m"(control));
    refusals[0] = resampler_retune_ratio(left, RESAMPLER_IMAGE_BYTES, ratio);
    refusals[1] = resampler_start_ratio(left + RESAMPLER_LANES_BYTES, RESAMPLER_IMAGE_BYTES, 3, ratio, 0);
    refusals[2] = resampler_start_lanes_ratio(left + 2 * RESAMPLER_LANES_BYTES, RESAMPLER_LANES_BYTES, 3, ratio, 0);
    __asm__ volatile("ldmxcsr %0" : : "m"(usual));
    memcpy(left + RESAMPLER_IMAGE_BYTES, refusals, sizeof refusals);
}

static int ratios_agree(void)
{
    static uint8_t usual[3 * RESAMPLER_LANES_BYTES], other[3 * RESAMPLER_LANES_BYTES];
    for (size_t i = 0; i < 4000; i++) {
        uint64_t exponent = i % 4 == 0 ? draw(2048) : 980 + draw(48), upper = draw(1 << 26), lower = draw(1 << 26);
        uint64_t bits = exponent << 52 | upper << 26 | lower;
        double ratio;
        if (i % 5 == 0) /* a half between two words, and next to one */
            bits = (0x3df0000000000000 + (exponent % 32 << 52) + ((upper & 0xfffff) << 32)) + lower % 3 - 1;
        memcpy(&ratio, &bits, sizeof ratio);
        with_ratio(ratio, 0x1f80, usual);
        for (uint32_t mode = 1; mode < 16; mode++) { /* four roundings; results and operands below the normal ones as zero */
            with_ratio(ratio, 0x1f80 | (mode & 3) << 13 | (mode & 4) << 13 | (mode & 8) << 3, other);
            if (memcmp(usual, other, sizeof usual) != 0)
                return 0;
        }
    }
    return 1;
}

int main(int argc, char **argv)
{
    printf("memory %d %d %d %d %d %d %d %d\n", RESAMPLER_IMAGE_BYTES, RESAMPLER_LANES_BYTES, RESAMPLER_MARKS_BYTES,
           RESAMPLER_QUEUE_SAMPLES * RESAMPLER_SAMPLE_BYTES, RESAMPLER_LARGEST_BUFFER, RESAMPLER_DATA_FIELDS_BYTES,
           RESAMPLER_START_FIELDS_BYTES, RESAMPLER_LONGEST_LINE);
    for (uint32_t kernel = 0; kernel < 4; kernel++)
        feeds(kernel);
    refused_feeds();
    pushes();
    lines();
    settings();
    if (argc < 2 || strcmp(argv[1], "--count") != 0)
        printf("ratios %s\n", ratios_agree() ? "agree" : "differ");
    return 0;
}
