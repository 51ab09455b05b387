/* The header's functions that reckon: the texts of refusals, the fields of an image, outputs and samples to come, and
   the delay. They are held against the library, and against the formulas of docs/GUIDE.md in 128 bits. It is built as C
   and as C++, and with sanitizers. It prints what does not hold. */
#include "resampler.h"

#include <stdio.h>
#include <string.h>

#ifndef IMAGES
#define IMAGES 24000 /* drawn images of each kind */
#endif

__extension__ typedef __int128 wide;

enum { SPACE = RESAMPLER_LARGEST_BUFFER / RESAMPLER_SAMPLE_BYTES, PAIR = RESAMPLER_SAMPLE_BYTES };
static const wide one = (wide)1 << 32;
static const uint32_t most_samples = 0xFFFFFFFE; /* up to which the functions promise an answer */

static uint8_t input[SPACE * PAIR], output[SPACE * PAIR], memory[2 * RESAMPLER_LANES_BYTES];
static int failed;

static void check(const char *what, int holds)
{
    if (!holds && failed++ < 20)
        printf("%s\n", what);
}

static uint64_t number(const uint8_t *at, int bytes)
{
    uint64_t n = 0;
    while (bytes-- > 0)
        n = n << 8 | at[bytes];
    return n;
}

static void put(uint8_t *at, uint64_t n, int bytes)
{
    for (; bytes-- > 0; n >>= 8)
        *at++ = (uint8_t)(n & 255);
}

/* The same of an image, which is told. */
static void check_image(const char *what, const uint8_t *image, int holds)
{
    if (!holds && failed < 20)
        printf("kernel %u, needed %u, register %08lX, word %llX: ", (unsigned)image[0], (unsigned)image[1],
               (unsigned long)number(image + 4, 4), (unsigned long long)number(image + 8, 8));
    check(what, holds);
}

/* An odd address, with space for an image of lanes. */
static uint8_t *odd_address(void)
{
    return memory + 1 + (uintptr_t)memory % 2;
}

/* ---- drawing ---- */

static uint64_t draw(void)
{
    static uint64_t seed = UINT64_C(0x9E3779B97F4A7C15);
    seed ^= seed >> 12;
    seed ^= seed << 25;
    seed ^= seed >> 27;
    return seed * UINT64_C(0x2545F4914F6CDD1D);
}

static uint32_t below(uint64_t limit) { return (uint32_t)((draw() >> 11) % limit); }

/* Words at the corners, of any size, and evenly spread. */
static uint64_t draw_word(void)
{
    static const uint64_t corners[] = {1, 2, 3, 0x10000, 0x7FFFFFFF, 0x80000000, 0x80000001, 0xFFFFFFFF,
                                       UINT64_C(0x100000000), UINT64_C(0x100000001), UINT64_C(0x1FFFFFFFF),
                                       UINT64_C(0x200000000), UINT64_C(0x3FFFFFFFF), UINT64_C(0x400000000)};
    switch (below(3)) {
    case 0:
        return corners[below(sizeof corners / sizeof *corners)];
    case 1:
        return 1 + (draw() >> 1) % (UINT64_C(1) << below(35));
    default:
        return 1 + (draw() >> 1) % RESAMPLER_LARGEST_WORD;
    }
}

/* Phases at the corners, a few steps of a word before a sample or half-way, and evenly spread. */
static uint32_t draw_phase(uint64_t word)
{
    static const uint32_t corners[] = {0, 1, 0x7FFFFFFF, 0x80000000, 0x80000001, 0xFFFFFFFE, 0xFFFFFFFF};
    switch (below(3)) {
    case 0:
        return corners[below(sizeof corners / sizeof *corners)];
    case 1:
        return (uint32_t)(0 - below(40) * word - below(2) + below(2) * 0x80000000U);
    default:
        return (uint32_t)(draw() >> 20);
    }
}

/* An image as a start leaves it, or a stored one that need not come from any run. */
static void draw_image(uint8_t *image)
{
    uint64_t word = draw_word();
    uint32_t kernel = below(4), phase = draw_phase(word);
    check("start", resampler_start_word(image, RESAMPLER_IMAGE_BYTES, kernel, word, phase) == 0);
    if (below(2) == 0)
        return;
    image[RESAMPLER_AT_NEEDED] = (uint8_t)below(5);
    for (int i = RESAMPLER_AT_WINDOW; i < RESAMPLER_IMAGE_BYTES; i++)
        image[i] = (uint8_t)below(256);
}

/* Counts of samples and of outputs: few, at the corners, of any size. */
static uint32_t draw_count(uint32_t most)
{
    static const uint32_t corners[] = {0x7FFF, 0x8000, 0x8001, 0x7FFFFFFF, 0x80000000, 0xFFFFFFFB, 0xFFFFFFFC,
                                       0xFFFFFFFD, 0xFFFFFFFE, 0xFFFFFFFF};
    uint32_t drawn = 0;
    switch (below(3)) {
    case 0:
        drawn = below(7);
        break;
    case 1:
        drawn = corners[below(sizeof corners / sizeof *corners)];
        break;
    default:
        drawn = (uint32_t)(draw() >> 30 >> below(32));
    }
    return drawn <= most ? drawn : most;
}

/* ---- the formulas of docs/GUIDE.md ---- */

/* The outputs of a feed of so many samples: ceil(((L + 1 - d) 2^32 - s) / W), or 0 where that is not positive. */
static wide outputs_by_guide(const uint8_t *image, wide samples)
{
    wide s = (wide)number(image + 4, 4), word = (wide)number(image + 8, 8), way;
    if (image[0] == 1)
        s = (s + one / 2) % one;
    way = (samples + 1 - image[1]) * one - s;
    return way <= 0 ? 0 : (way + word - 1) / word;
}

/* The most of a feed of so many samples: ceil((L + 1) 2^32 / W). */
static wide most_by_guide(uint64_t word, wide samples) { return ((samples + 1) * one + word - 1) / word; }

/* The samples that an output at a position needs in all: b + R + 1, where b is its basepoint. */
static wide samples_by_guide(uint32_t kernel, wide position)
{
    return kernel == 1 ? (position + one / 2) / one + 2 : position / one + (kernel == 0 ? 2 : 3);
}

/* ---- what is tested ---- */

static void texts(void)
{
    enum { REFUSALS = RESAMPLER_QUEUE_FULL + 1 };
    static const uint32_t unknown[] = {REFUSALS, REFUSALS + 1, 255, 256, 0x80000000, 0xFFFFFFFF};
    const char *text[REFUSALS + 1];
    for (uint32_t i = 0; i <= REFUSALS; i++) {
        text[i] = resampler_refusal_text(i);
        check("text of a refusal", text[i] != NULL && strlen(text[i]) > 4 && strchr(text[i], '.') == NULL);
        for (uint32_t k = 0; k < i; k++)
            check("two refusals with one text", strcmp(text[i], text[k]) != 0);
    }
    check("text of 0", strcmp(text[0], "accepted") == 0);
    for (size_t i = 0; i < sizeof unknown / sizeof *unknown; i++)
        check("text of no refusal", strcmp(resampler_refusal_text(unknown[i]), "unknown refusal") == 0);
}

static void version(void)
{
    char numbers[40];
    snprintf(numbers, sizeof numbers, "%d.%d.%d", RESAMPLER_VERSION_MAJOR, RESAMPLER_VERSION_MINOR,
             RESAMPLER_VERSION_PATCH);
    check("version and its numbers", strcmp(numbers, RESAMPLER_VERSION) == 0);
}

/* The fields of an image after starts, a retune and feeds. The word has another byte in each place. */
static void fields(void)
{
    const uint64_t word = UINT64_C(0x3A1B2C3D4), other = UINT64_C(0x2F1E3D4C5);
    uint8_t *image = odd_address();
    size_t n = RESAMPLER_IMAGE_BYTES;
    for (uint32_t kernel = 0; kernel < 4; kernel++) {
        uint32_t phase = 0x81726354, first = kernel == 0 ? 2 : 3, next = kernel == 1 ? 2 : 3;
        memset(image, 0xEE, n);
        check("start at an odd address", resampler_start_word(image, n, kernel, word, phase) == 0);
        check_image("kernel", image, resampler_kernel(image) == kernel);
        check_image("needed", image, resampler_needed(image) == first);
        check_image("register", image, resampler_register(image) == phase);
        check_image("word", image, resampler_word(image) == word);
        check("retune", resampler_retune_word(image, n, other) == 0);
        check_image("word of a retune", image, resampler_word(image) == other);
        check_image("what a retune leaves", image,
                    resampler_kernel(image) == kernel && resampler_needed(image) == first &&
                        resampler_register(image) == phase);
        check("feed", resampler_feed(image, n, input, first * PAIR, output, PAIR) == 0);
        check_image("one output", image, resampler_written(image) == 1 && resampler_end(image) == RESAMPLER_HUNGRY);
        check_image("register of a feed", image, resampler_register(image) == (uint32_t)(phase + other));
        check_image("needed of a feed", image, resampler_needed(image) == next);
        check("feed of one", resampler_feed(image, n, input, PAIR, output, PAIR) == 0);
        check_image("one less", image, resampler_needed(image) == next - 1 && resampler_word(image) == other);
    }
    for (size_t i = 0; i < 8; i++)
        image[i] = (uint8_t)(0xF8 + i);
    check("long number", resampler_long_number(image) == UINT64_C(0xFFFEFDFCFBFAF9F8));
    check("number", resampler_number(image) == 0xFBFAF9F8);
}

/* How far past, and the delay, as the image has them: by kernel, at the corners of the register. */
static void pasts(void)
{
    static const uint32_t registers[] = {0, 1, 0x7FFFFFFF, 0x80000000, 0xC0000000, 0xFFFFFFFF};
    static const uint32_t shifted[] = {0x80000000, 0x80000001, 0xFFFFFFFF, 0, 0x40000000, 0x7FFFFFFF};
    uint8_t *image = odd_address();
    for (uint32_t kernel = 0; kernel < 4; kernel++)
        for (size_t i = 0; i < sizeof registers / sizeof *registers; i++) {
            uint32_t past = kernel == 1 ? shifted[i] : registers[i];
            uint64_t longest = (kernel == 0 ? 2 : kernel == 1 ? 3 : 4) * UINT64_C(0x80000000);
            check("start", resampler_start_word(image, RESAMPLER_IMAGE_BYTES, kernel, 1, registers[i]) == 0);
            check_image("past", image, resampler_past(image) == past);
            check_image("delay", image, resampler_delay(image) == longest - past);
        }
}

/* Makes a feed, or a push and a draw of as many, and holds it to what was foretold: HUNGRY with the outputs of all the
   samples, or FULL with as many samples taken as one output more than the space needs. */
static void feed_as_foretold(uint8_t *image, uint32_t samples, uint32_t space, int drawn)
{
    size_t n = RESAMPLER_IMAGE_BYTES;
    uint64_t outputs = resampler_outputs_for(image, samples);
    uint64_t most = resampler_most_outputs(resampler_word(image), samples);
    uint64_t needs = resampler_samples_for(image, space + 1);
    int hungry = outputs <= space, enough = most <= space;
    uint8_t before[RESAMPLER_IMAGE_BYTES];
    memcpy(before, image, n);
    check_image("outputs of a feed, by the guide", before, (wide)outputs == outputs_by_guide(before, samples));
    check_image("no more than the most", before, outputs <= most);
    if (drawn) {
        static uint8_t queue[RESAMPLER_QUEUE_SAMPLES * PAIR];
        uint8_t marks[RESAMPLER_MARKS_BYTES] = {0};
        check("push", resampler_push(marks, sizeof marks, queue, sizeof queue, input, samples * PAIR) == 0);
        check("draw",
              resampler_draw(image, n, marks, sizeof marks, queue, sizeof queue, output, space * PAIR) == 0);
    } else {
        check("feed", resampler_feed(image, n, input, samples * PAIR, output, space * PAIR) == 0);
    }
    check_image("end", before, resampler_end(image) == (hungry ? RESAMPLER_HUNGRY : RESAMPLER_FULL));
    check_image("hungry with the most", before, !enough || resampler_end(image) == RESAMPLER_HUNGRY);
    check_image("written", before, resampler_written(image) == (hungry ? outputs : space));
    check_image("taken", before, resampler_taken(image) == (hungry ? samples : needs));
}

/* A feed of the samples for so many outputs writes them, and one of a sample less does not. */
static void feed_for(const uint8_t *before, uint32_t outputs)
{
    uint64_t samples = resampler_samples_for(before, outputs);
    uint8_t image[RESAMPLER_IMAGE_BYTES];
    size_t space = (outputs + 3) * PAIR;
    if (samples * PAIR > RESAMPLER_LARGEST_BUFFER || space > RESAMPLER_LARGEST_BUFFER)
        return;
    memcpy(image, before, sizeof image);
    check("feed", resampler_feed(image, sizeof image, input, (size_t)samples * PAIR, output, space) == 0);
    check_image("samples for so many", before, resampler_written(image) >= outputs);
    if (samples == 0)
        return;
    memcpy(image, before, sizeof image);
    check("feed", resampler_feed(image, sizeof image, input, (size_t)(samples - 1) * PAIR, output, space) == 0);
    check_image("one sample less", before, resampler_written(image) < outputs);
}

/* Drawn images, each fed four times with retunes between, so that feeds begin after starts, HUNGRY and FULL. Most feeds
   are small. The space is little, just enough, one less, or as much as the word may need. */
static void feeds(void)
{
    uint8_t *image = odd_address();
    unsigned ends[2] = {0, 0}, from_full = 0, all_space = 0;
    for (int i = 0; i < IMAGES; i++) {
        draw_image(image);
        for (int call = 0; call < 4; call++) {
            uint32_t samples = below(10) == 0 ? below(400) : below(9), space = below(12);
            uint64_t outputs = resampler_outputs_for(image, samples), word = resampler_word(image);
            uint64_t most = resampler_most_outputs(word, samples);
            uint32_t kind = below(4);
            if (kind == 1 && most <= SPACE)
                space = (uint32_t)most;
            else if (kind > 1 && outputs <= (i % 16 == 0 ? SPACE : 1000))
                space = (uint32_t)outputs - (kind == 2 && outputs > 0);
            check_image("samples for none", image, resampler_samples_for(image, 0) == 0);
            check_image("samples for one", image, resampler_samples_for(image, 1) == resampler_needed(image));
            feed_for(image, 1 + below(20));
            from_full += resampler_needed(image) == 0;
            feed_as_foretold(image, samples, space, below(8) == 0);
            ends[resampler_end(image)]++;
            all_space += resampler_written(image) == space;
            if (below(3) == 0)
                check("retune", resampler_retune_word(image, RESAMPLER_IMAGE_BYTES, draw_word()) == 0);
        }
    }
    check("many ends of either kind", ends[RESAMPLER_HUNGRY] > IMAGES && ends[RESAMPLER_FULL] > IMAGES);
    check("many outputs due, much space all written", from_full > IMAGES && all_space > IMAGES);
}

/* The most is reached where nothing is needed and the next output stands on its basepoint, for the three-point kernel
   half a sample before it. */
static void most_is_reached(void)
{
    uint8_t image[RESAMPLER_IMAGE_BYTES];
    unsigned fed = 0;
    for (int i = 0; i < IMAGES / 4; i++) {
        uint64_t word = draw_word();
        uint32_t kernel = below(4), samples = draw_count(most_samples);
        check("start", resampler_start_word(image, sizeof image, kernel, word, kernel == 1 ? 0x80000000 : 0) == 0);
        image[RESAMPLER_AT_NEEDED] = 0;
        check_image("most reached", image,
                    resampler_outputs_for(image, samples) == resampler_most_outputs(word, samples));
        samples = below(30);
        uint64_t most = resampler_most_outputs(word, samples);
        if (most > (i % 16 == 0 ? SPACE : 1000))
            continue;
        check("feed", resampler_feed(image, sizeof image, input, samples * PAIR, output, (size_t)most * PAIR) == 0);
        check_image("most written", image, resampler_written(image) == most);
        fed++;
    }
    check("many feeds of the most", fed > IMAGES / 16);
}

/* k outputs come of n samples exactly where the samples for k are at most n. */
static void check_inverse(const uint8_t *image, uint32_t samples, uint32_t outputs)
{
    check_image("outputs and samples inverse", image,
                (outputs <= resampler_outputs_for(image, samples)) ==
                    (resampler_samples_for(image, outputs) <= samples));
}

/* Large counts, without a feed, against the guide's formulas. The samples for k outputs are the fewest of which the
   guide's formula makes k. */
static void large_counts(void)
{
    uint8_t *image = odd_address();
    for (int i = 0; i < 4 * IMAGES; i++) {
        draw_image(image);
        uint32_t samples = draw_count(most_samples), outputs = draw_count(0xFFFFFFFF);
        uint64_t word = resampler_word(image), made = resampler_outputs_for(image, samples);
        uint64_t most = resampler_most_outputs(word, samples), needs = resampler_samples_for(image, outputs);
        check_image("outputs for", image, (wide)made == outputs_by_guide(image, samples));
        check_image("most outputs", image, (wide)most == most_by_guide(word, samples) && made <= most);
        if (resampler_needed(image) > 0 && samples > 0)
            check_image("most where one is needed", image, made <= resampler_most_outputs(word, samples - 1));
        check_image("samples for", image, outputs_by_guide(image, (wide)needs) >= (wide)outputs);
        check_image("samples for, and no fewer", image,
                    needs == 0 || outputs_by_guide(image, (wide)needs - 1) < (wide)outputs);
        check_inverse(image, samples, outputs);
        for (uint64_t k = made - (made > 0); k <= made + 1 && k <= 0xFFFFFFFF; k++)
            check_inverse(image, samples, (uint32_t)k);
        for (uint64_t n = needs - (needs > 0); n <= needs + 1 && n <= most_samples; n++)
            check_inverse(image, (uint32_t)n, outputs);
    }
}

/* Samples one by one, each only where one is needed, and outputs one by one. The next output stands at `position`, and
   the newest sample at n - 1: an output is written as long after its position as was foretold. The word in force moves
   the position on. */
static void delays(void)
{
    uint8_t *image = odd_address();
    unsigned written = 0, retunes = 0;
    for (uint32_t i = 0; i < IMAGES / 6; i++) {
        uint64_t word = draw_word();
        uint32_t kernel = i % 4, phase = draw_phase(word);
        wide n = 0, position = phase;
        check("start", resampler_start_word(image, RESAMPLER_IMAGE_BYTES, kernel, word, phase) == 0);
        for (int call = 0; call < 60; call++) {
            uint32_t more = draw_count(0xFFFFFFFE);
            wide delay = (wide)resampler_delay(image), needed = resampler_needed(image);
            check_image("delay, by the samples", image, delay == (n + needed - 1) * one - position);
            check_image("least and longest delay", image,
                        2 * delay > (wide)(kernel < 2 ? kernel : 2) * one &&
                            2 * delay <= (wide)(kernel == 0 ? 2 : kernel == 1 ? 3 : 4) * one);
            check_image("register and position", image, (wide)resampler_register(image) == position % one);
            check_image("kernel and word", image, resampler_kernel(image) == kernel && resampler_word(image) == word);
            check_image("samples for, by the position", image,
                        (wide)resampler_samples_for(image, more + 1) ==
                            samples_by_guide(kernel, position + more * (wide)word) - n);
            check("feed", resampler_feed(image, RESAMPLER_IMAGE_BYTES, input, needed > 0 ? PAIR : 0, output,
                                         PAIR) == 0);
            n += resampler_taken(image);
            check_image("a sample where one is needed", image, resampler_taken(image) == (needed > 0));
            check_image("an output where none is", image, resampler_written(image) == (needed <= 1));
            if (resampler_written(image) == 1) {
                check_image("written after the delay", image, (n - 1) * one - position == delay);
                position += (wide)word;
                written++;
            }
            if (below(10) == 0) {
                word = draw_word();
                check("retune", resampler_retune_word(image, RESAMPLER_IMAGE_BYTES, word) == 0);
                retunes++;
            }
        }
    }
    check("many outputs and retunes", written > 5 * IMAGES && retunes > IMAGES / 2);
}

/* The outputs over n samples from a start, which are ceil(((n - R) 2^32 - P) / W), for the three-point kernel
   ceil(((n - 1) 2^32 - 2^31 - P) / W). */
static void whole_runs(void)
{
    uint8_t image[RESAMPLER_IMAGE_BYTES];
    for (int i = 0; i < IMAGES; i++) {
        uint64_t word = draw_word();
        uint32_t kernel = below(4), phase = draw_phase(word), samples = draw_count(most_samples);
        wide way = ((wide)samples - (kernel < 2 ? 1 : 2)) * one - phase - (kernel == 1 ? one / 2 : 0);
        check("start", resampler_start_word(image, sizeof image, kernel, word, phase) == 0);
        check_image("outputs over so many samples", image,
                    (wide)resampler_outputs_for(image, samples) == (way <= 0 ? 0 : (way + word - 1) / word));
    }
}

/* An image of lanes beside that of one converter: what the functions say of the first 40 bytes is the same. */
static void lanes(void)
{
    uint8_t *image = odd_address(), single[RESAMPLER_IMAGE_BYTES];
    size_t n = RESAMPLER_LANES_BYTES;
    for (int i = 0; i < IMAGES / 4; i++) {
        uint64_t word = draw_word();
        uint32_t kernel = below(4), phase = draw_phase(word), of = 1 + below(RESAMPLER_MOST_LANES);
        check("start", resampler_start_word(single, sizeof single, kernel, word, phase) == 0);
        check("start of lanes", resampler_start_lanes_word(image, n, kernel, word, phase) == 0);
        for (int call = 0; call < 3; call++) {
            uint32_t samples = below(9), space = below(9), more = draw_count(most_samples);
            uint64_t outputs = resampler_outputs_for(image, samples);
            check_image("fields of lanes", image,
                        resampler_kernel(image) == kernel && resampler_word(image) == word &&
                            resampler_needed(image) == resampler_needed(single) &&
                            resampler_register(image) == resampler_register(single));
            check_image("counts of lanes", image,
                        resampler_outputs_for(image, more) == resampler_outputs_for(single, more) &&
                            resampler_samples_for(image, more) == resampler_samples_for(single, more) &&
                            resampler_past(image) == resampler_past(single) &&
                            resampler_delay(image) == resampler_delay(single));
            feed_as_foretold(single, samples, space, 0);
            check("feed of lanes",
                  resampler_feed_lanes(image, n, of, input, of * samples * PAIR, output, of * space * PAIR) == 0);
            check_image("outputs of each lane", image,
                        resampler_written(image) == (outputs <= space ? outputs : space) &&
                            resampler_taken(image) == resampler_taken(single));
            word = draw_word();
            check("retune of lanes", resampler_retune_word(image, sizeof single, word) == 0);
            check("retune", resampler_retune_word(single, sizeof single, word) == 0);
        }
    }
}

/* What no feed accepts: images of zeros, of bytes 255, with the word 0 or any word. The functions end; of the word 0
   there are no outputs. */
static void any_bytes(void)
{
    static const uint32_t counts[] = {0, 1, 2, 254, 255, 256, 0x7FFFFFFF, 0x80000000, 0xFFFFFFFE, 0xFFFFFFFF};
    uint8_t *image = odd_address();
    uint64_t seen = 0;
    for (int i = 0; i < 400; i++) {
        for (int at = 0; at < RESAMPLER_IMAGE_BYTES; at++)
            image[at] = (uint8_t)(i == 0 ? 0 : i == 1 ? 0xFF : below(256));
        put(image + RESAMPLER_AT_WORD, i % 2 == 0 ? 0 : draw(), i < 2 ? 0 : 8);
        for (size_t k = 0; k < sizeof counts / sizeof *counts; k++) {
            uint64_t word = resampler_word(image), made = resampler_outputs_for(image, counts[k]);
            uint64_t most = resampler_most_outputs(word, counts[k]);
            check_image("outputs of the word 0", image, word > 0 || (made == 0 && most == 0));
            seen ^= made + most + resampler_samples_for(image, counts[k]);
        }
        seen ^= resampler_delay(image) + resampler_past(image) + resampler_kernel(image) + resampler_needed(image);
    }
    check("anything seen", seen != 0);
}

int main(void)
{
    setvbuf(stdout, NULL, _IONBF, 0); /* what was told stays told if a function crashes */
    for (size_t i = 0; i < sizeof input; i++)
        input[i] = (uint8_t)(i * 37 + (i >> 6));
    texts();
    version();
    fields();
    pasts();
    feeds();
    most_is_reached();
    large_counts();
    delays();
    whole_runs();
    lanes();
    any_bytes();
    if (failed > 20)
        printf("and %d more\n", failed - 20);
    return failed != 0;
}
