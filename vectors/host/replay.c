/* Replays sheets of host calls against a library and tells where it answers otherwise. ../README.md
   says what a sheet is and what the options are; calls.def has the calls. */
#define _POSIX_C_SOURCE 200112L /* for `alarm` */
#include "resampler.h"

#include <errno.h>
#include <inttypes.h>
#include <signal.h>
#include <stdarg.h>
#include <stdio.h>
#include <stdlib.h>
#include <string.h>

#if defined(__unix__) || defined(__APPLE__)
#include <unistd.h>
#define ALARM SIGALRM
#else
#define ALARM 0 /* no signal has this number */
#define alarm(seconds) ((void)(seconds))
#endif

#ifndef STORE
#define STORE 143360 /* bytes for the buffers of a call; if it needs more, malloc gives them */
#endif
#ifndef FEEDS_ONLY
#define FEEDS_ONLY 0 /* -DFEEDS_ONLY makes it 1, for a target where no option can be given */
#endif
#ifndef NULLS
#define NULLS 0 /* -DNULLS makes it 1 */
#endif
#define GUARD 64        /* bytes on either side of a buffer */
#define LARGEST 1048576 /* bytes in a buffer */
#define MOST 6          /* numbers of a call, and buffers */
#define NAMES 24        /* names of buffers in the table */

#define IMAGE 40                  /* bytes of an image */
#define CLIPS (IMAGE + 15 * 8)    /* where the clips of an image of lanes begin, two of each */
#define OF_LANES (CLIPS + 16 * 8) /* bytes of an image of lanes, which begins with an image */
#define OF_DATA 8                 /* bytes of what is read of a D line */
#define OF_START 16               /* bytes of what is read of a K line */
#define OF_MARKS 8                /* bytes of the marks of a queue */

static const char usage[] =
    "usage: replay [OPTION...] FILE...\n"
    "Makes the calls in the files and compares the answers. The exit status is 0 only if a call\n"
    "was made, every answer agrees and no file is malformed.\n"
    "  --quiet          do not show on the standard error which call is being made\n"
    "  --first N        tell N calls of a file that differ, and count the others (5)\n"
    "  --alarm SECONDS  give up if a call has not answered after so long\n"
    "  --report FILE    write a line of JSON for each file\n"
    "  --feeds-only     make no starts and retunes, but take what they leave from the files\n"
    "  --null           lend a null pointer for a buffer of length 0\n"
    "  --help           print this\n";

#ifdef SHEET
static const unsigned char sheet[] = {
#include SHEET
    , 0};
#endif

/* ---- the tables ---- */

/* The buffer of a name: where it lies, as what pointer it is lent, and what it must hold before and
   after the call that was read last, as text of the sheet. */
struct buffer {
    char name[32];
    const char *before, *after;
    size_t length;
    int writable;
    uint8_t *at, *lent;
};

struct row {
    const char *name, *numbers, *buffers;
    uint32_t (*make)(struct buffer **b, const uint64_t *n, const double *f);
};

#define B(i) b[i]->lent, b[i]->length
#define FRONT(i) b[i]->lent, b[i]->length < IMAGE ? b[i]->length : IMAGE
#define CALL(name, numbers, buffers, call)                                             \
    static uint32_t make_##name(struct buffer **b, const uint64_t *n, const double *f) \
    {                                                                                  \
        _Static_assert(sizeof numbers <= 4 * MOST, #name " has too many numbers");     \
        (void)b, (void)n, (void)f;                                                     \
        return call;                                                                   \
    }
#include "calls.def"
#undef CALL
#define CALL(name, numbers, buffers, call) {#name, numbers, buffers, make_##name},
static const struct row rows[] = {
#include "calls.def"
    {NULL, NULL, NULL, NULL}};

_Static_assert(sizeof rows > sizeof *rows,
               "resampler.h names no call. It has to define a macro of the name of each call that "
               "it declares, for example: #define resampler_feed resampler_feed");

/* A start or a retune that is not made and that the header need not declare. */
static const struct row undeclared = {"", NULL, "image*", NULL};

/* The fields of a buffer, by its name and length; an image of lanes has those of an image too.
   Numbers have the low byte first. A buffer whose name is not here is told in samples if its length
   is even. All others are told in bytes; `line` has no length at which it has fields. A field that
   is shown stands beside the name of a call that is lent several buffers, as it was lent. */
struct field {
    const char *buffer;
    size_t length;
    const char *name;
    size_t place, bytes, count;
    int is_signed, shown;
};

#define SIDES(i)                                                        \
    {"image", OF_LANES, "lane " #i " high", CLIPS + 8 * i, 4, 1, 0, 0}, \
        {"image", OF_LANES, "lane " #i " low", CLIPS + 8 * i + 4, 4, 1, 0, 0}
#define LANE(i) \
    {"image", OF_LANES, "lane " #i " window", IMAGE + 8 * (i - 1), 2, 4, 1, 0}, SIDES(i)

static const struct field fields[] = {
    {"image", IMAGE, "kernel", 0, 1, 1, 0, 1}, {"image", IMAGE, "needed", 1, 1, 1, 0, 0},
    {"image", IMAGE, "zeros", 2, 2, 1, 0, 0},  {"image", IMAGE, "register", 4, 4, 1, 0, 0},
    {"image", IMAGE, "word", 8, 8, 1, 0, 1},   {"image", IMAGE, "window", 16, 2, 4, 1, 0},
    {"image", IMAGE, "taken", 24, 4, 1, 0, 0}, {"image", IMAGE, "written", 28, 4, 1, 0, 0},
    {"image", IMAGE, "clips", 32, 4, 1, 0, 0}, {"image", IMAGE, "end", 36, 4, 1, 0, 0},
    SIDES(0),
    LANE(1), LANE(2), LANE(3), LANE(4), LANE(5), LANE(6), LANE(7), LANE(8), LANE(9), LANE(10),
    LANE(11), LANE(12), LANE(13), LANE(14), LANE(15),
    {"frame", OF_DATA, "sequence", 0, 4, 1, 0, 0}, {"frame", OF_DATA, "count", 4, 4, 1, 0, 0},
    {"frame", OF_START, "kernel", 0, 4, 1, 0, 0},  {"frame", OF_START, "phase", 4, 4, 1, 0, 0},
    {"frame", OF_START, "word", 8, 8, 1, 0, 0},    {"marks", OF_MARKS, "front", 0, 4, 1, 0, 0},
    {"marks", OF_MARKS, "held", 4, 4, 1, 0, 0},    {"line", 0, NULL, 0, 1, 0, 0, 0}};

/* ---- where the driver stands ---- */

static int quiet, feeds_only = FEEDS_ONLY, nulls = NULLS;
static unsigned long most_told = 5, seconds;
static FILE *report;

static struct {
    const char *name, *next;       /* its name, and what is left of its text */
    unsigned long line, next_line; /* the numbers of the line that was read last, and of the next */
    struct buffer buffers[NAMES];
    unsigned long agreed, differ;
    int broken; /* whether it is malformed, or the library did not come back */
    char difference[490], skipped[120]; /* the first difference; why the file is skipped */
} file;

static struct {
    const struct row *row;
    unsigned long line;
    uint64_t numbers[MOST], result;
    struct buffer *buffers[MOST];
    int count;       /* of the buffers */
    int running;     /* whether the library has been called and has not come back */
    char about[100]; /* its name, and the fields that are shown beside it */
} call;

static struct {
    unsigned long agreed, differ, taken, not_made, nulls, files, skipped, bad;
} total;

static _Alignas(2) uint8_t store[STORE];

/* ---- telling ---- */

/* Shows a call before it is made, so that it has a name if it does not come back. Without a name it
   clears what it showed. */
static void show(const char *name)
{
    static int shown;
    int length = name != NULL ? fprintf(stderr, "%s:%lu: %s", file.name, call.line, name) : 0;
    if (shown + length > 0)
        fprintf(stderr, "%*s\r", shown > length ? shown - length : 0, "");
    shown = length;
}

/* Tells what is wrong, unless enough calls of the file have been told. */
static void tell(unsigned long line, const char *about, const char *format, ...)
{
    static char text[360];
    va_list list;
    va_start(list, format);
    vsnprintf(text, sizeof text, format, list);
    va_end(list);
    if (file.difference[0] == 0)
        snprintf(file.difference, sizeof file.difference, "%lu: %s: %s", line, about, text);
    if (!file.broken && file.differ >= most_told)
        return;
    show(NULL);
    printf("%s:%lu: %s: %s\n", file.name, line, about, text);
}

static int malformed(const char *what)
{
    file.broken = 1;
    tell(file.line, "malformed", "%s", what);
    return 0;
}

/* Writes what stands before a string of JSON, and the string; or null if there is no text. */
static void report_text(const char *before, const char *text)
{
    const char *mark = *text != 0 ? "\"" : "";
    fprintf(report, "%s%s", before, *text != 0 ? mark : "null");
    for (; *text != 0; text++)
        if ((unsigned char)*text < 32)
            fprintf(report, "\\u%04X", (unsigned)*text);
        else
            fprintf(report, "%s%c", *text == '"' || *text == '\\' ? "\\" : "", *text);
    fputs(mark, report);
}

static void report_file(void)
{
    if (report == NULL)
        return;
    report_text("{\"name\": ", file.name);
    fprintf(report, ", \"calls\": %lu, \"agreed\": %lu", file.agreed + file.differ, file.agreed);
    report_text(", \"first_difference\": ", file.difference);
    report_text(", \"skipped\": ", file.skipped);
    fputs("}\n", report);
    fflush(report);
}

/* A call did not come back. This runs in the place of the library, so that printing is safe. */
static _Noreturn void give_up(const char *format, unsigned long number)
{
    file.broken = 1;
    tell(call.line, call.about, format, number);
    report_file();
    _Exit(EXIT_FAILURE);
}

static void end_by_signal(int number)
{
    if (number == ALARM)
        give_up("no answer after %lu s", seconds);
    give_up("ended by signal %lu", (unsigned long)number);
}

static void end_by_exit(void)
{
    if (call.running)
        give_up("the library ended the program", 0);
}

/* ---- the text of a sheet ---- */

/* Whether a line ends here. It goes on if the next one begins with a space. */
static int line_ends(const char *text)
{
    return *text == 0 || (*text == '\n' && text[1] != ' ');
}

static int word_ends(const char *text)
{
    return *text == 0 || *text == ' ' || *text == '\n';
}

static const char *skip_spaces(const char *text)
{
    while (!line_ends(text) && word_ends(text))
        text++;
    return text;
}

/* The next line that is neither empty nor a comment, or null at the end. */
static const char *read_line(void)
{
    while (*file.next != 0) {
        const char *line = file.next, *end = line;
        file.line = file.next_line++;
        for (; !line_ends(end); end++)
            file.next_line += *end == '\n';
        file.next = *end == 0 ? end : end + 1;
        if (end > line && *line != '#')
            return line;
    }
    return NULL;
}

/* What follows the name of a field on the next line, or null. */
static const char *read_field(const char *name, const char *ending)
{
    const char *line = read_line();
    size_t length = strlen(name), whole = length + strlen(ending);
    if (line != NULL && strncmp(line, name, length) == 0 &&
        strncmp(line + length, ending, whole - length) == 0 && word_ends(line + whole) &&
        !line_ends(line + whole))
        return line + whole + 1;
    file.broken = 1;
    tell(file.line, "malformed", "expected the field %s%s", name, ending);
    return NULL;
}

/* Reads numbers of types as in calls.def, to the end of the line. */
static int read_numbers(const char *text, const char *types, uint64_t *numbers)
{
    for (; *types != 0; types += types[3] == ' ' ? 4 : 3) {
        int is_float = *types == 'f';
        size_t digits;
        char *end;
        text = skip_spaces(text);
        digits = strspn(text, is_float ? "0123456789ABCDEF" : "0123456789");
        errno = 0;
        *numbers = strtoull(text, &end, is_float ? 16 : 10);
        if (digits == 0 || end != text + digits || !word_ends(end) || (is_float && digits != 16))
            return malformed("expected a number");
        if (errno != 0 || (types[1] == '3' && *numbers > UINT32_MAX))
            return malformed("too large a number");
        text = end;
        numbers++;
    }
    return line_ends(skip_spaces(text)) || malformed("more numbers than expected");
}

static int digit(char c)
{
    if (c >= '0' && c <= '9')
        return c - '0';
    return c >= 'A' && c <= 'F' ? c - 'A' + 10 : -1;
}

/* Decodes the bytes of a field. They are parts: pairs of digits, then perhaps * and how often they
   stand there. */
struct stream {
    const char *part, *at, *end;
    unsigned long left; /* how often the part still stands there; 0 before its end was seen */
};

enum { TEXT_ENDS = -1, MALFORMED = -2 };

static struct stream stream_of(const char *text)
{
    text = skip_spaces(text);
    return (struct stream){text, text, text, 0};
}

static int next_byte(struct stream *stream)
{
    int high, low;
    while (stream->at != stream->part && digit(*stream->at) < 0) {
        if (stream->left == 0) {
            const char *at = stream->at;
            int repeats = at[0] == '*' && at[1] >= '1' && at[1] <= '9';
            stream->left = repeats ? strtoul(at + 1, NULL, 10) : 1;
            stream->end = repeats ? at + 1 + strspn(at + 1, "0123456789") : at;
        }
        if (!word_ends(stream->end))
            return MALFORMED;
        if (--stream->left == 0)
            *stream = stream_of(stream->end);
        stream->at = stream->part;
    }
    if (line_ends(stream->at))
        return TEXT_ENDS;
    high = digit(*stream->at++);
    low = high >= 0 ? digit(*stream->at++) : -1;
    return low >= 0 ? 16 * high + low : MALFORMED;
}

static int measure(const char *text, size_t *length)
{
    struct stream stream = stream_of(text);
    int byte = TEXT_ENDS, empty = *text == '-' && line_ends(text + 1);
    *length = 0;
    while (!empty && *length <= LARGEST && (byte = next_byte(&stream)) >= 0)
        ++*length;
    if (byte == MALFORMED)
        return malformed("not pairs of digits");
    if (*length > LARGEST)
        return malformed("a buffer above 1048576 bytes");
    return empty || *length > 0 || malformed("no bytes");
}

/* ---- reading a call ---- */

/* Whether a text of so many characters is the word. */
static int is_word(const char *text, size_t length, const char *word)
{
    return strlen(word) == length && strncmp(text, word, length) == 0;
}

static struct buffer *buffer_of(const char *name, size_t length)
{
    struct buffer *buffer = file.buffers;
    for (; length < sizeof buffer->name && buffer < file.buffers + NAMES; buffer++) {
        if (buffer->name[0] == 0)
            memcpy(buffer->name, name, length);
        if (is_word(name, length, buffer->name))
            return buffer;
    }
    malformed("too many names of buffers in calls.def, or too long a name");
    return NULL;
}

/* Reads what a buffer holds. The word `keep` stands for what it holds by the field before. */
static int read_buffer(struct buffer *buffer, const char *ending, const char *keep)
{
    const char *text = read_field(buffer->name, ending);
    if (text == NULL)
        return 0;
    if (strncmp(text, keep, 4) == 0 && line_ends(text + 4))
        return buffer->after != NULL || malformed("no call before this one has this buffer");
    buffer->after = text;
    return measure(text, &buffer->length);
}

/* Reads the fields of a call, in their order. */
static int read_fields(void)
{
    const char *words = call.row->buffers, *text;
    struct buffer *buffer;
    size_t length;
    int i;
    for (call.count = 0; *words != 0 && call.count < MOST; words += strspn(words, "* ")) {
        length = strcspn(words, "* ");
        buffer = call.buffers[call.count++] = buffer_of(words, length);
        if (buffer == NULL || !read_buffer(buffer, "", "last"))
            return 0;
        words += length;
        buffer->writable = *words == '*';
        buffer->before = buffer->after;
    }
    text = read_field("result", "");
    if (text == NULL || !read_numbers(text, "u32", &call.result))
        return 0;
    for (i = 0; i < call.count; i++) {
        buffer = call.buffers[i];
        length = buffer->length;
        if (buffer->writable && !read_buffer(buffer, "-after", "same"))
            return 0;
        if (buffer->length != length)
            return malformed("another length after the call");
    }
    return 1;
}

/* Whether a row has a buffer of this name. */
static int is_buffer(const char *name, size_t length)
{
    const struct row *row;
    const char *words;
    for (row = rows; row->name != NULL; row++)
        for (words = row->buffers; *words != 0; words += strspn(words, "* ")) {
            size_t of_word = strcspn(words, "* ");
            if (of_word == length && strncmp(words, name, length) == 0)
                return 1;
            words += of_word;
        }
    return 0;
}

/* Whether --feeds-only takes what a call leaves from the file. */
static int may_be_taken(const char *name)
{
    return strncmp(name, "start_", 6) == 0 || strncmp(name, "retune_", 7) == 0;
}

/* Reads a call whose first line is given; 0 if it is malformed, or not in the table. */
static int read_call(const char *line)
{
    size_t length = strspn(line, "abcdefghijklmnopqrstuvwxyz_0123456789");
    call.line = file.line;
    call.row = rows;
    if (length == 0 || !word_ends(line + length) || is_buffer(line, length))
        return malformed("expected a call");
    while (call.row->name != NULL && !is_word(line, length, call.row->name))
        call.row++;
    if (call.row->name != NULL)
        return read_numbers(line + length, call.row->numbers, call.numbers) && read_fields();
    call.row = &undeclared;
    if (feeds_only && may_be_taken(line))
        return read_fields();
    snprintf(file.skipped, sizeof file.skipped, "the header declares no resampler_%.*s%s",
             (int)(length < 40 ? length : 40), line,
             may_be_taken(line) ? " (--feeds-only takes it from the file)" : "");
    return 0;
}

/* ---- making a call ---- */

/* The guard bytes are counted from the buffer on: first those before it, then those after it. */
static uint8_t *guard_at(const struct buffer *buffer, size_t i)
{
    return i < GUARD ? buffer->at - 1 - i : buffer->at + buffer->length + (i - GUARD);
}

static uint8_t guard_byte(size_t i)
{
    return (uint8_t)(0xA5 ^ (i * 37));
}

/* Lays the buffers one after another, each at an odd address with guard bytes on either side. With
   --null one of length 0 is lent as a null pointer. Where they lie, or null if there is no
   memory. */
static uint8_t *lend(void)
{
    size_t size = 0, end = 0, k;
    uint8_t *memory;
    int i;
    for (i = 0; i < call.count; i++)
        size += GUARD + 1 + call.buffers[i]->length + GUARD;
    memory = size <= STORE ? store : malloc(size);
    for (i = 0; memory != NULL && i < call.count; i++) {
        struct buffer *buffer = call.buffers[i];
        struct stream stream = stream_of(buffer->before);
        buffer->at = memory + ((end + GUARD) | 1);
        buffer->lent = nulls && buffer->length == 0 ? NULL : buffer->at;
        total.nulls += buffer->lent == NULL;
        for (k = 0; k < buffer->length; k++)
            buffer->at[k] = (uint8_t)next_byte(&stream);
        for (k = 0; k < 2 * GUARD; k++)
            *guard_at(buffer, k) = guard_byte(k);
        end = (size_t)(buffer->at - memory) + buffer->length + GUARD;
    }
    return memory;
}

/* Tells the first guard byte that was written; 1 if there is one. */
static int tell_guard(const struct buffer *buffer)
{
    size_t i = 0;
    while (i < 2 * GUARD && *guard_at(buffer, i) == guard_byte(i))
        i++;
    if (i < 2 * GUARD)
        tell(call.line, call.about, "byte %lu %s of the %s was written",
             (unsigned long)(i % GUARD + 1), i < GUARD ? "before the beginning" : "past the end",
             buffer->name);
    return i < 2 * GUARD;
}

static int has_length(const struct field *field, size_t length)
{
    return field->length == length || (field->length == IMAGE && length == OF_LANES);
}

/* The field that has a place in a buffer; where no layout says, a sample or a byte. */
static struct field field_at(const struct buffer *buffer, size_t at)
{
    struct field other = {buffer->name, buffer->length, NULL, 0, 2 - buffer->length % 2, 0, 0, 0};
    const struct field *field = fields;
    for (; field < fields + sizeof fields / sizeof *fields; field++) {
        if (strcmp(field->buffer, buffer->name) != 0)
            continue;
        if (has_length(field, buffer->length) && at - field->place < field->bytes * field->count)
            return *field;
        other.bytes = 1;
    }
    other.is_signed = other.bytes == 2;
    return other;
}

static void write_name(char *text, const struct field *field, size_t at)
{
    unsigned long index = (unsigned long)((at - field->place) / field->bytes);
    if (field->name == NULL && field->bytes == 1)
        sprintf(text, "byte %lu of the %.31s", index, field->buffer);
    else if (field->count == 1)
        sprintf(text, "%.31s", field->name);
    else
        sprintf(text, "%.31s %lu", field->name != NULL ? field->name : field->buffer, index);
}

/* Writes a number in decimal, a character of a line as it is, and the bits in hexadecimal. */
static void write_number(char *text, const struct field *field, uint64_t bits)
{
    uint64_t top = UINT64_C(1) << (8 * field->bytes - 1);
    int negative = field->is_signed && bits >= top;
    if (strcmp(field->buffer, "line") == 0 && bits > 32 && bits < 127)
        sprintf(text, "%c (%02X)", (char)bits, (unsigned)bits);
    else
        sprintf(text, "%s%" PRIu64 " (%0*" PRIX64 ")", negative ? "-" : "",
                negative ? top - (bits - top) : bits, (int)(2 * field->bytes), bits);
}

/* Adds to a text in so many bytes, and cuts it with .. where it does not fit. */
static void add(char *text, size_t size, const char *format, ...)
{
    size_t length = strlen(text);
    va_list list;
    va_start(list, format);
    if (vsnprintf(text + length, size - length, format, list) >= (int)(size - length))
        strcpy(text + size - 3, "..");
    va_end(list);
}

/* Writes what a call is told by. If it is lent an image only, its numbers say more than that. */
static void write_about(void)
{
    struct field field;
    size_t at, k;
    int i, shown = 0;
    sprintf(call.about, "%.40s", call.row->name);
    for (i = 0; i < call.count && call.count > 1; i++)
        for (at = 0; at < call.buffers[i]->length; at += field.bytes) {
            uint64_t bits = 0;
            field = field_at(call.buffers[i], at);
            for (k = field.bytes; k-- > 0;)
                bits = bits << 8 | call.buffers[i]->at[at + k];
            if (field.shown)
                add(call.about, sizeof call.about - 1, "%s%s %" PRIu64, shown++ ? ", " : " (",
                    field.name, bits);
        }
    strcat(call.about, shown ? ")" : "");
}

/* Tells the first field of a buffer that differs, and the names of the others; of samples and bytes
   how many others. 1 if any differs. */
static int tell_fields(const struct buffer *buffer)
{
    struct stream before = stream_of(buffer->before), after = stream_of(buffer->after);
    char name[80], expected[48], got[96], first[280], more[140] = "";
    struct field field = {0};
    unsigned long differ = 0;
    size_t at, i;
    for (at = 0; at < buffer->length; at += field.bytes) {
        uint64_t was = 0, must = 0, is = 0;
        field = field_at(buffer, at);
        for (i = 0; i < field.bytes; i++) {
            was |= (uint64_t)next_byte(&before) << (8 * i);
            must |= (uint64_t)next_byte(&after) << (8 * i);
            is |= (uint64_t)buffer->at[at + i] << (8 * i);
        }
        if (must == is)
            continue;
        write_name(name, &field, at);
        write_number(expected, &field, must);
        write_number(got, &field, is);
        if (field.name == NULL && buffer->writable && (was == must || was == is))
            strcat(got, was == is ? " (it was not written)" : " (it should have been left alone)");
        if (differ++ == 0)
            sprintf(first, "%s%s: expected %s, got %s", name,
                    buffer->writable ? "" : " was changed", expected, got);
        else
            add(more, sizeof more - 12, "%s %s", differ == 2 ? ";" : ",", name);
    }
    if (differ > 1 && field.name != NULL)
        strcat(more, differ > 2 ? " differ too" : " differs too");
    else if (differ > 1)
        sprintf(more, ", and %lu more %s%s of the %s", differ - 1,
                field.bytes == 2 ? "sample" : "byte", differ > 2 ? "s" : "", buffer->name);
    if (differ > 0)
        tell(call.line, call.about, "%s%s", first, more);
    return differ > 0;
}

static void make_call(void)
{
    uint8_t *memory = lend();
    double floats[MOST];
    uint32_t result;
    int i, differs;
    if (memory == NULL) {
        show(NULL);
        printf("%s:%lu: %s: not made: no memory\n", file.name, call.line, call.row->name);
        total.not_made++;
        return;
    }
    write_about();
    if (!quiet)
        show(call.row->name);
    memcpy(floats, call.numbers, sizeof floats);
    alarm((unsigned)seconds);
    call.running = 1;
    result = call.row->make(call.buffers, call.numbers, floats);
    call.running = 0;
    alarm(0);
    differs = result != call.result;
    if (differs)
        tell(call.line, call.about, "result: expected %lu, got %lu",
             (unsigned long)call.result, (unsigned long)result);
    for (i = 0; i < call.count; i++)
        differs |= tell_guard(call.buffers[i]);
    for (i = 0; i < call.count; i++)
        differs |= tell_fields(call.buffers[i]);
    file.differ += differs ? 1 : 0;
    file.agreed += differs ? 0 : 1;
    if (memory != store)
        free(memory);
}

/* ---- files ---- */

/* The whole file with a zero byte at its end, or null. */
static char *read_file(const char *name)
{
    FILE *in = fopen(name, "rb");
    char *text = NULL, *more = NULL;
    size_t length = 0, got = 1;
    while (in != NULL && got > 0 && (more = realloc(text, length + 65537)) != NULL) {
        text = more;
        got = fread(text + length, 1, 65536, in);
        length += got;
        text[length] = 0;
    }
    if (more == NULL || ferror(in) || strlen(text) != length) {
        file.broken = 1;
        tell(0, "not read", "%s", errno != 0 ? strerror(errno) : "a zero byte in it");
        free(text);
        text = NULL;
    }
    if (in != NULL)
        fclose(in);
    return text;
}

/* Reads the calls of a sheet and perhaps makes them; 0 if it is malformed or skipped. */
static int go_through(const char *text, int making)
{
    const char *line;
    int calls = 0;
    file.next = text;
    file.next_line = 1;
    memset(file.buffers, 0, sizeof file.buffers);
    for (; (line = read_line()) != NULL; calls++) {
        if (!read_call(line))
            return 0;
        if (making && feeds_only && may_be_taken(line))
            total.taken++;
        else if (making)
            make_call();
    }
    return calls > 0 || malformed("no calls");
}

/* Replays a sheet, or the file of its name if there is no text. No call is made unless the whole
   sheet is well formed and every call is in the table. */
static void replay(const char *name, const char *text)
{
    char *own = NULL;
    memset(&file, 0, sizeof file);
    file.name = name;
    errno = 0;
    if (text == NULL)
        text = own = read_file(name);
    if (text != NULL && go_through(text, 0) && go_through(text, 1) &&
        file.agreed + file.differ == 0)
        strcpy(file.skipped, "none of its calls is made");
    free(own);
    show(NULL);
    if (file.skipped[0] != 0)
        printf("%s: skipped: %s\n", name, file.skipped);
    if (file.differ > most_told)
        printf("%s: %lu more calls differ\n", name, file.differ - most_told);
    report_file();
    total.agreed += file.agreed;
    total.differ += file.differ;
    total.files++;
    total.skipped += file.skipped[0] != 0;
    total.bad += file.broken || file.differ > 0;
}

/* The last line of all; the exit status. */
static int print_total(void)
{
    printf("%lu calls agree, %lu differ", total.agreed, total.differ);
    if (total.taken > 0)
        printf(", %lu taken from the files", total.taken);
    if (total.not_made > 0)
        printf(", %lu not made", total.not_made);
    if (nulls)
        printf(", %lu null pointers lent", total.nulls);
    printf("; %lu of %lu files agree", total.files - total.bad - total.skipped, total.files);
    if (total.skipped > 0)
        printf(", %lu skipped", total.skipped);
    printf("\n");
    if (report != NULL && ferror(report))
        fprintf(stderr, "the report could not be written\n");
    else if (total.bad == 0 && total.agreed > 0)
        return EXIT_SUCCESS;
    return EXIT_FAILURE;
}

/* ---- the program ---- */

static void refuse(const char *word, const char *why)
{
    fprintf(stderr, "%s: %s\n%s", word, why, usage);
    exit(2);
}

static unsigned long read_option_number(const char *option, const char *word)
{
    size_t digits = word != NULL ? strspn(word, "0123456789") : 0;
    if (digits == 0 || digits > 6 || word[digits] != 0)
        refuse(option, "needs a number of at most six digits");
    return strtoul(word, NULL, 10);
}

/* Reads the options; where the names of files begin. */
static int read_options(int count, char **words)
{
    int i;
    for (i = 1; i < count && words[i][0] == '-'; i++) {
        const char *option = words[i];
        if (strcmp(option, "--help") == 0) {
            fputs(usage, stdout);
            exit(EXIT_SUCCESS);
        } else if (strcmp(option, "--quiet") == 0) {
            quiet = 1;
        } else if (strcmp(option, "--feeds-only") == 0) {
            feeds_only = 1;
        } else if (strcmp(option, "--null") == 0) {
            nulls = 1;
        } else if (strcmp(option, "--first") == 0) {
            most_told = read_option_number(option, words[++i]);
        } else if (strcmp(option, "--alarm") == 0 && ALARM != 0) {
            seconds = read_option_number(option, words[++i]);
        } else if (strcmp(option, "--report") == 0 && i + 1 < count) {
            report = fopen(words[++i], "w");
            if (report == NULL)
                refuse(words[i], strerror(errno));
        } else {
            refuse(option, "no such option on this system, or nothing follows it");
        }
    }
    return i;
}

int main(int count, char **words)
{
    static const int signals[] = {SIGSEGV, SIGFPE, SIGILL, SIGABRT,
#ifdef SIGBUS
                                  SIGBUS,
#endif
                                  ALARM};
    int i;
    setvbuf(stdout, NULL, _IONBF, 0);
    setvbuf(stderr, NULL, _IONBF, 0);
    for (i = 0; i < (int)(sizeof signals / sizeof *signals); i++)
        if (signals[i] != 0)
            signal(signals[i], end_by_signal);
    atexit(end_by_exit);
    i = read_options(count, words);
    if (i >= count)
#ifdef SHEET
        replay("compiled-in sheet", (const char *)sheet);
#else
        refuse("replay", "no file");
#endif
    for (; i < count; i++)
        replay(words[i], NULL);
    return print_total();
}
