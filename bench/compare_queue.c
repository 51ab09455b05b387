/* Times resampler_push and resampler_draw of the C library against a ring in plain C, in one process and in turn. It
   prints the best time of each in nanoseconds a sample, and their ratio, which is the median over the runs of the ratio
   of two neighbouring runs. There are three tables:

   A burst is pushed into a ring of 16,384 samples, and then 512 outputs are drawn as often as what is held suffices for
   so many, until all bursts are pushed. So all but a rest is drawn again, and the ring does not fill up. It begins at
   place 37: bursts go round its end too.

   A draw against resampler_feed, the library both: so many samples, which lie in one part, are drawn or fed with space
   for 512 outputs, until the converter is HUNGRY.

   A push alone, into a ring that is emptied by hand.

   The time includes the calls. It stops where the two answer otherwise or leave other bytes, refused calls included.
   The words `loud` and `half` choose the signal, and `compare_queue --count FILE` prints instructions, as in
   compare.c. */
#include "measure.h"
#include "plain.h"
#include "resampler.h"
#include "wave.h"

typedef uint32_t push_function(uint8_t *, size_t, uint8_t *, size_t, const uint8_t *, size_t);
typedef uint32_t draw_function(uint8_t *, size_t, uint8_t *, size_t, const uint8_t *, size_t, uint8_t *, size_t);

static const struct maker {
    push_function *push;
    draw_function *draw;
} makers[] = {{resampler_push, resampler_draw}, {plain_push, plain_draw}};

enum { MAKERS = 2, IMAGE = RESAMPLER_IMAGE_BYTES, MARKS = RESAMPLER_MARKS_BYTES, FIRST_PLACE = 37 };
enum { LENGTH = RESAMPLER_QUEUE_SAMPLES, RING = 2 * LENGTH, OUTPUTS = 512, SPACE = 2 * OUTPUTS };
enum { SAMPLES = 1 << 17, COUNTED_SAMPLES = 1 << 15, OUTPUT_BYTES = 4 * SAMPLES + SPACE };

static uint8_t wave[2 * SAMPLES], rings[MAKERS][RING], outputs[MAKERS][OUTPUT_BYTES];
static size_t samples = SAMPLES;

/* A row of a table. `run` goes through all samples, and returns the time; `enough` samples make 512 outputs. */
struct row {
    double (*run)(const struct row *, size_t maker);
    uint32_t kernel;
    size_t block, enough;
    double ratio;
    uint64_t word;
    struct times times;
};

static void start(uint8_t *image, uint32_t kernel, uint64_t word)
{
    if (resampler_start_word(image, IMAGE, kernel, word, 0) != RESAMPLER_ACCEPTED)
        fail("start refused");
}

static void put_marks(uint8_t *marks, size_t front, size_t held)
{
    uint32_t both[2] = {(uint32_t)front, (uint32_t)held};
    memcpy(marks, both, sizeof both);
}

static double push_and_draw(const struct row *row, size_t maker)
{
    uint8_t image[IMAGE], marks[MARKS], *ring = rings[maker], *to = outputs[maker];
    push_function *push = makers[maker].push;
    draw_function *drawn = makers[maker].draw;
    size_t bytes = 2 * row->block;
    start(image, row->kernel, row->word);
    put_marks(marks, FIRST_PLACE, 0);
    double began = now();
    for (size_t at = 0; at < 2 * samples; at += bytes) {
        if (push(marks, MARKS, ring, RING, wave + at, bytes) != RESAMPLER_ACCEPTED)
            fail("push refused");
        while (resampler_held(marks) >= row->enough) {
            if (drawn(image, IMAGE, marks, MARKS, ring, RING, to, SPACE) != RESAMPLER_ACCEPTED)
                fail("draw refused");
            to += 2 * resampler_written(image);
        }
    }
    return now() - began;
}

static double draw_blocks(const struct row *row)
{
    uint8_t image[IMAGE], marks[MARKS], *to = outputs[NEW];
    size_t bytes = 2 * row->block;
    start(image, row->kernel, row->word);
    double began = now();
    for (size_t at = 0; at < 2 * samples; at += bytes) {
        put_marks(marks, 0, row->block);
        do {
            if (resampler_draw(image, IMAGE, marks, MARKS, wave + at, bytes, to, SPACE) != RESAMPLER_ACCEPTED)
                fail("draw refused");
            to += 2 * resampler_written(image);
        } while (resampler_end(image) == RESAMPLER_FULL);
    }
    return now() - began;
}

static double feed_blocks(const struct row *row)
{
    uint8_t image[IMAGE], *to = outputs[PLAIN];
    size_t bytes = 2 * row->block;
    start(image, row->kernel, row->word);
    double began = now();
    for (size_t at = 0; at < 2 * samples; at += bytes) {
        size_t from = at;
        do {
            if (resampler_feed(image, IMAGE, wave + from, at + bytes - from, to, SPACE) != RESAMPLER_ACCEPTED)
                fail("feed refused");
            from += 2 * resampler_taken(image);
            to += 2 * resampler_written(image);
        } while (resampler_end(image) == RESAMPLER_FULL);
    }
    return now() - began;
}

static double draw_or_feed(const struct row *row, size_t maker)
{
    return maker == NEW ? draw_blocks(row) : feed_blocks(row);
}

static double push_alone(const struct row *row, size_t maker)
{
    uint8_t marks[MARKS], *ring = rings[maker];
    push_function *push = makers[maker].push;
    size_t front = FIRST_PLACE, bytes = 2 * row->block;
    double began = now();
    for (size_t at = 0; at < 2 * samples; at += bytes) {
        put_marks(marks, front, 0);
        if (push(marks, MARKS, ring, RING, wave + at, bytes) != RESAMPLER_ACCEPTED)
            fail("push refused");
        front = (front + row->block) % LENGTH;
    }
    return now() - began;
}

static void must_be_same(int same)
{
    if (!same)
        fail("answers or bytes differ");
}

static void time_row(struct row *row, int runs)
{
    memset(rings, 0, sizeof rings);
    memset(outputs, 0, sizeof outputs);
    for (int k = 0; k < runs; k++) {
        double run[MAKERS];
        for (size_t i = 0; i < MAKERS; i++)
            run[i] = row->run(row, i);
        add_run(&row->times, run, MAKERS);
    }
    must_be_same(memcmp(rings[NEW], rings[PLAIN], RING) == 0);
    must_be_same(memcmp(outputs[NEW], outputs[PLAIN], OUTPUT_BYTES) == 0);
}

/* What is lent to the calls of a maker, with a little more than they may touch. */
static struct lent {
    uint8_t image[IMAGE + 2], marks[MARKS + 2], output[SPACE + 2], ring[RING + 2];
} lent[MAKERS];

static int are_same(const uint32_t *answers)
{
    return answers[PLAIN] == answers[NEW] && memcmp(&lent[PLAIN], &lent[NEW], sizeof lent[NEW]) == 0;
}

static void push_both(size_t marks_length, size_t queue_length, const uint8_t *burst, size_t burst_length)
{
    uint32_t answers[MAKERS];
    for (size_t i = 0; i < MAKERS; i++)
        answers[i] = makers[i].push(lent[i].marks, marks_length, lent[i].ring, queue_length, burst, burst_length);
    must_be_same(are_same(answers));
}

static void draw_both(size_t image_length, size_t marks_length, size_t queue_length, size_t output_length)
{
    uint32_t answers[MAKERS];
    for (size_t i = 0; i < MAKERS; i++)
        answers[i] = makers[i].draw(lent[i].image, image_length, lent[i].marks, marks_length, lent[i].ring,
                                    queue_length, lent[i].output, output_length);
    must_be_same(are_same(answers));
}

/* A length, or sometimes up to two more. */
static size_t about(uint32_t *seed, size_t length)
{
    return draw(seed) % 16 == 0 ? length + draw(seed) % 3 : length;
}

/* Another byte of the image or of the marks. */
static void spoil(uint32_t *seed)
{
    size_t at = draw(seed) % (IMAGE + MARKS);
    uint8_t byte = (uint8_t)(draw(seed) % 8);
    for (size_t i = 0; i < MAKERS; i++)
        *(at < IMAGE ? lent[i].image + at : lent[i].marks + at - IMAGE) = byte;
}

/* Lists of drawn calls, each on a queue of another length, with lengths and bytes that are not right among them. */
static void compare(size_t lists)
{
    static const size_t lengths[] = {0, 1, 2, 3, 7, 40, 300, LENGTH};
    uint32_t seed = 1;
    for (size_t list = 0; list < lists; list++) {
        size_t length = lengths[list % 8], queue_length = about(&seed, 2 * length);
        uint64_t word = ((uint64_t)draw(&seed) << 18) + 1;
        memset(lent, 0xEE, sizeof lent);
        for (size_t i = 0; i < MAKERS; i++) {
            start(lent[i].image, (uint32_t)(list / 8 % 4), word);
            put_marks(lent[i].marks, 0, 0);
        }
        for (int call = 0; call < 60; call++) {
            uint32_t what = draw(&seed) % 32;
            size_t burst = draw(&seed) % (2 * length + 2), space = draw(&seed) % (OUTPUTS + 1);
            size_t image = about(&seed, IMAGE), marks = about(&seed, MARKS), from = draw(&seed);
            if (what < 15)
                push_both(marks, queue_length, wave + from, about(&seed, 2 * burst));
            else if (what < 31)
                draw_both(image, marks, queue_length, about(&seed, 2 * space));
            else
                spoil(&seed);
        }
    }
}

static void set_row(struct row *row, double (*run)(const struct row *, size_t), uint32_t kernel, size_t block,
                    double ratio)
{
    row->run = run;
    row->kernel = kernel;
    row->block = block;
    row->ratio = ratio;
    row->word = (uint64_t)(ratio * 4294967296.0);
    row->enough = (size_t)((OUTPUTS * row->word >> 32) + RESAMPLER_WINDOW + 1);
}

static void print_row(struct row *row)
{
    double made = (double)samples;
    printf("%-8.2f %-8.2f %.2f\n", row->times.best[NEW] / made, row->times.best[PLAIN] / made,
           median(&row->times, PLAIN));
}

static void print_table(const char *head, struct row *rows, size_t count)
{
    puts(head);
    for (struct row *row = rows; row < rows + count; row++) {
        printf("%-7u %-6zu %-10.1f ", (unsigned)row->kernel, row->block, row->ratio);
        print_row(row);
    }
}

int main(int argc, char **argv)
{
    static const double ratios[] = {0.5, 0.9, 1.1, 3.7};
    static const size_t blocks[] = {64, 4096};
    enum { BLOCKS = 2, ROWS = 4 * BLOCKS * 4 };
    static struct row queues[ROWS], draws[ROWS], pushes[BLOCKS];
    int rounds = ROUNDS, runs = RUNS;
    size_t lists = 2000;
    if (argc > 2 && strcmp(argv[1], "--count") == 0) {
        dumps = argv[2];
        samples = COUNTED_SAMPLES;
        lists = 80;
        rounds = runs = 1;
        argc -= 2;
        argv += 2;
    }
    int loud = argc > 1 && strcmp(argv[1], "loud") == 0, half = argc > 1 && strcmp(argv[1], "half") == 0;
    size_t words = half ? 1 : 4, count = 4 * BLOCKS * words; /* kernels, blocks, words */
    for (size_t i = 0; i < count; i++) {
        uint32_t kernel = (uint32_t)(i / words / BLOCKS);
        size_t block = blocks[i / words % BLOCKS];
        set_row(&queues[i], push_and_draw, kernel, block, ratios[i % words]);
        set_row(&draws[i], draw_or_feed, kernel, block, ratios[i % words]);
    }
    for (size_t i = 0; i < BLOCKS; i++)
        set_row(&pushes[i], push_alone, 0, blocks[i], 1);
    fill(wave, SAMPLES, loud, half);
    compare(lists);
    for (int round = 0; round < rounds; round++) {
        for (size_t i = 0; i < count; i++) {
            time_row(&queues[i], runs);
            time_row(&draws[i], runs);
        }
        for (size_t i = 0; i < BLOCKS; i++)
            time_row(&pushes[i], runs);
    }
    print_table("kernel  burst  word/2^32  library  plain C  ratio", queues, count);
    print_table("kernel  held   word/2^32  draw     feed     ratio", draws, count);
    puts("a push alone, burst       library  plain C  ratio");
    for (size_t i = 0; i < BLOCKS; i++) {
        printf("                %-10zu", blocks[i]);
        print_row(&pushes[i]);
    }
    return 0;
}
