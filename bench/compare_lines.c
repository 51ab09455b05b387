/* Times resampler_write_data and resampler_read_data of the C library against the same in plain C, in one process and
   in turn, and prints the best time of each in nanoseconds a line, with their ratio: for lines of 64 samples and of
   one. Lines are written one after another, and read where they lie, each with the number before it told; the time
   includes the calls. It stops where two makers answer otherwise or leave other bytes, refused lines included.

   Built with OLD it holds and times an older archive too, but for reads that the new one refuses with 15, since an
   archive of before request U4 accepts those; and `compare_lines --count FILE` prints instructions, both as compare.c
   does. */
#include "measure.h"
#include "plain.h"
#include "resampler.h"

typedef uint32_t write_function(uint32_t, const uint8_t *, size_t, uint8_t *, size_t);
typedef uint32_t read_function(const uint8_t *, size_t, uint8_t *, size_t, uint8_t *, size_t);

#ifdef OLD
write_function old_resampler_write_data;
read_function old_resampler_read_data;
#endif

static const struct maker {
    write_function *write;
    read_function *read;
} makers[] = {
    {resampler_write_data, resampler_read_data},
    {plain_write_data, plain_read_data},
#ifdef OLD
    {old_resampler_write_data, old_resampler_read_data},
#endif
};

enum { MAKERS = sizeof makers / sizeof makers[0], MOST = RESAMPLER_MOST_SAMPLES, LONGEST = RESAMPLER_LONGEST_LINE };
enum { PAIR = RESAMPLER_SAMPLE_BYTES, FIELDS = RESAMPLER_DATA_FIELDS_BYTES };
enum { SAMPLES = 1 << 14, LINES = 1 << 12, PASSES = 20 };

/* A text has the lines of a row, and space for the longest line at its end, since every write is lent so much. */
static uint8_t wave[SAMPLES * PAIR], texts[MAKERS][LINES * RESAMPLER_DATA_LINE_BYTES(1) + LONGEST];
static size_t passes = PASSES;

_Static_assert(SAMPLES / MOST * LONGEST <= LINES * RESAMPLER_DATA_LINE_BYTES(1), "too short a text");

/* A row of the table: so many lines of so many samples. */
struct row {
    const char *call;
    size_t count, lines;
    struct times times;
};

/* The numbers of lines that follow one another, and of lines that do not. */
static uint32_t rising(size_t line) { return (uint32_t)(0x9E3779B1 + line); }
static uint32_t number(size_t line) { return (uint32_t)(line * 0x9E3779B1); }

/* Writes all lines, and returns the time. */
static double write_lines(const struct maker *maker, const struct row *row, uint8_t *text)
{
    write_function *write = maker->write;
    size_t bytes = row->count * PAIR, length = RESAMPLER_DATA_LINE_BYTES(row->count);
    double began = now();
    for (size_t k = 0; k < passes; k++)
        for (size_t i = 0; i < row->lines; i++)
            if (write(rising(i), wave + i * bytes, bytes, text + i * length, LONGEST) != RESAMPLER_ACCEPTED)
                fail("write refused");
    return now() - began;
}

/* Reads all lines, and returns the time. Each pass begins with any number. */
static double read_lines(const struct maker *maker, const struct row *row, const uint8_t *text)
{
    uint8_t frame[FIELDS] = {0}, samples[MOST * PAIR];
    read_function *read = maker->read;
    size_t length = RESAMPLER_DATA_LINE_BYTES(row->count), all = row->lines * length;
    double began = now();
    for (size_t k = 0; k < passes; k++) {
        resampler_any_sequence(frame);
        for (size_t at = 0; at < all; at += length)
            if (read(text + at, all - at, frame, sizeof frame, samples, sizeof samples) != RESAMPLER_ACCEPTED)
                fail("read refused");
    }
    return now() - began;
}

static void must_be_same(int same, size_t maker)
{
    if (!same)
        fail(maker == PLAIN ? "answers or bytes differ" : "answers or bytes differ from those of the older archive");
}

static void time_row(struct row *row, int runs)
{
    int reads = strcmp(row->call, "read_data") == 0;
    memset(texts, 0, sizeof texts);
    for (size_t i = 0; i < MAKERS; i++) {
        write_lines(&makers[i], row, texts[i]);
        must_be_same(memcmp(texts[i], texts[NEW], sizeof texts[i]) == 0, i);
    }
    for (int k = 0; k < runs; k++) {
        double run[MAKERS];
        for (size_t i = 0; i < MAKERS; i++)
            run[i] = reads ? read_lines(&makers[i], row, texts[NEW]) : write_lines(&makers[i], row, texts[i]);
        add_run(&row->times, run, MAKERS);
    }
}

/* One write of every maker. */
static void compare_write(uint32_t sequence, const uint8_t *samples, size_t bytes, size_t space)
{
    uint8_t lines[MAKERS][LONGEST + 16];
    uint32_t answers[MAKERS];
    memset(lines, 0xEE, sizeof lines);
    for (size_t i = 0; i < MAKERS; i++) {
        answers[i] = makers[i].write(sequence, samples, bytes, lines[i], space);
        must_be_same(answers[i] == answers[NEW] && memcmp(lines[i], lines[NEW], sizeof lines[i]) == 0, i);
    }
}

/* One read of every maker, with a frame that holds this number and count. Of an older archive none that the new one
   refuses with 15. */
static void compare_told(const uint8_t *line, size_t length, size_t fields, size_t space, uint32_t told, uint32_t count)
{
    uint8_t frames[MAKERS][FIELDS + 8], samples[MAKERS][MOST * PAIR + 8];
    uint32_t answers[MAKERS];
    memset(frames, 0xEE, sizeof frames);
    memset(samples, 0xEE, sizeof samples);
    for (size_t i = 0; i < MAKERS && !(i == THIRD && answers[NEW] == RESAMPLER_BAD_SEQUENCE); i++) {
        memcpy(frames[i] + RESAMPLER_AT_SEQUENCE, &told, sizeof told);
        memcpy(frames[i] + RESAMPLER_AT_COUNT, &count, sizeof count);
        answers[i] = makers[i].read(line, length, frames[i], fields, samples[i], space);
        must_be_same(answers[i] == answers[NEW] && memcmp(frames[i], frames[NEW], sizeof frames[i]) == 0 &&
                         memcmp(samples[i], samples[NEW], sizeof samples[i]) == 0,
                     i);
    }
}

/* Reads with no number told, with the one before the line's, and with the line's. */
static void compare_read(uint32_t sequence, const uint8_t *line, size_t length, size_t fields, size_t space)
{
    compare_told(line, length, fields, space, 0xEEEEEEEE, 0);
    compare_told(line, length, fields, space, sequence - 1, 1);
    compare_told(line, length, fields, space, sequence, 1);
}

/* Reads of lines with each of these numbers, told each of them, with each of these counts, into every space. */
static void compare_order(void)
{
    static const uint32_t numbers[] = {0,       1,         2,          0xFF,       0x100,      0xFFFF,
                                       0x10000, 0x1000000, 0x7FFFFFFF, 0x80000000, 0xFFFFFFFE, 0xFFFFFFFF};
    static const uint32_t counts[] = {0, 1, 64, 65, 0x100, 0x10000, 0x1000000, 0x80000000, 0xFFFFFFFF};
    enum { NUMBERS = sizeof numbers / sizeof numbers[0], COUNTS = sizeof counts / sizeof counts[0] };
    uint8_t line[RESAMPLER_DATA_LINE_BYTES(1)];
    for (size_t i = 0; i < NUMBERS; i++) {
        if (resampler_write_data(numbers[i], wave, PAIR, line, sizeof line) != RESAMPLER_ACCEPTED)
            fail("write refused");
        for (size_t j = 0; j < NUMBERS * COUNTS; j++)
            for (size_t space = 0; space <= 2 * PAIR; space++)
                compare_told(line, sizeof line, FIELDS, space, numbers[j / COUNTS], counts[j % COUNTS]);
    }
}

/* Writes of every length into every space; reads of every line whole and cut, into every space; every change of one
   byte of a line of three samples; and lines out of order. */
static void compare(void)
{
    uint8_t line[LONGEST];
    for (size_t bytes = 0; bytes <= (MOST + 1) * PAIR; bytes++)
        for (size_t space = 0; space <= LONGEST + 1; space++)
            compare_write(number(bytes + space), wave + space * PAIR, bytes, space);
    for (size_t count = 1; count <= MOST; count++) {
        size_t length = RESAMPLER_DATA_LINE_BYTES(count);
        uint32_t sequence = number(count);
        if (resampler_write_data(sequence, wave, count * PAIR, line, sizeof line) != RESAMPLER_ACCEPTED)
            fail("write refused");
        for (size_t cut = 0; cut <= length; cut++)
            compare_read(sequence, line, cut, FIELDS, MOST * PAIR);
        for (size_t space = 0; space <= MOST * PAIR; space++)
            compare_read(sequence, line, length, FIELDS, space);
        compare_read(sequence, line, length, FIELDS - 1, MOST * PAIR);
        for (size_t i = 0; i < length && count == 3; i++)
            for (int change = 1; change < 256; change++) {
                line[i] ^= (uint8_t)change;
                compare_read(sequence, line, length, FIELDS, MOST * PAIR);
                line[i] ^= (uint8_t)change;
            }
    }
    compare_order();
}

int main(int argc, char **argv)
{
    static struct row rows[] = {{.call = "write_data", .count = MOST, .lines = SAMPLES / MOST},
                                {.call = "write_data", .count = 1, .lines = LINES},
                                {.call = "read_data", .count = MOST, .lines = SAMPLES / MOST},
                                {.call = "read_data", .count = 1, .lines = LINES}};
    enum { ROWS = sizeof rows / sizeof rows[0] };
    int rounds = ROUNDS, runs = RUNS;
    uint32_t seed = 1;
    if (argc > 2 && strcmp(argv[1], "--count") == 0) {
        dumps = argv[2];
        rounds = runs = 1;
        passes = 1;
    }
    for (size_t i = 0; i < SAMPLES; i++)
        resampler_put_sample(wave, i, (int16_t)draw(&seed));
    compare();
    for (int round = 0; round < rounds; round++)
        for (size_t i = 0; i < ROWS; i++)
            time_row(&rows[i], runs);
    puts("call        samples  " COLUMNS);
    for (struct row *row = rows; row < rows + ROWS; row++) {
        printf("%-11s %-8zu ", row->call, row->count);
        print_times(&row->times, (double)(row->lines * passes));
    }
    return 0;
}
