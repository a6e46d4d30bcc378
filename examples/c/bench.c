/* bench.c: a bench program. It opens a monitor for a pattern, feeds it a record line by line as it arrives, and prints a
 * line for each end that has a run, then the best of them.
 *
 *     bench [-c CELLS] PATTERN [RECORD]
 *
 * PATTERN is a pattern file. RECORD is a file of lines `(piece 2 10)`, a duration in ticks and then a value for each
 * channel; without it, or as `-`, the lines come from standard input. -c sets how many cells each of the monitor's two
 * tables gets; without it they get what the pattern needs.
 *
 * A refusal prints one line, as `refused 8`, and ends the program with status 1. Lines before it stay printed: a record
 * that is still arriving cannot be judged whole. What goes wrong outside of the monitor (no memory, a file that opens and
 * cannot be read, lines that cannot be written, a wrong call of the program) is told on standard error, status 2. */
#include <errno.h>
#include <inttypes.h>
#include <stdio.h>
#include <stdlib.h>
#include <string.h>

#include "bench_margin.h"

/* a record's line has at most this many bytes, as many as a whole record's text for the program watch */
#define LINE_MAX_BYTES 16384

/* a duration or a value that is out of every range, however many digits it has */
#define TOO_LARGE INT64_C(4000000000)

struct piece {
    int64_t duration;
    int32_t values[PATTERN_CHANNELS_MAX + 1]; /* one more, so that a value too many is still counted */
    size_t count;
    int out_of_range; /* a value that no 32 bits hold */
};

struct bench {
    uint8_t text[PATTERN_TEXT_MAX + 1]; /* one more, so that a text that is too long is refused as such */
    size_t length;
    int least_is_best; /* in `sum` the least score is the best, in `margin` the greatest */
    int64_t state[MONITOR_STATE_LENGTH];
    int64_t *first, *second;
    size_t cells;
    int64_t scores[PIECE_TICKS_MAX];
    uint32_t lengths[PIECE_TICKS_MAX];
    int found; /* the best so far */
    int64_t best_end, best_begin, best_score;
};

static int fault(const char *what)
{
    fprintf(stderr, "bench: %s\n", what);
    return 2;
}

/* Whether lines were lost. */
static int lost(void)
{
    return fflush(stdout) != 0 || ferror(stdout);
}

static int refused(uint32_t number)
{
    printf("refused %" PRIu32 "\n", number);
    return 1;
}

/* ---- the record's lines */

/* Moves past a word if it stands there. */
static int word(const char **at, const char *expected)
{
    size_t count = strlen(expected);

    if (strncmp(*at, expected, count) != 0)
        return 0;
    *at += count;
    return 1;
}

/* Moves past a number: `0`, or digits without a leading zero. Digits of any length are read, and held at TOO_LARGE. */
static int number(const char **at, int64_t *value)
{
    const char *from = *at;

    *value = 0;
    while (**at >= '0' && **at <= '9') {
        *value = *value * 10 + (**at - '0');
        if (*value > TOO_LARGE)
            *value = TOO_LARGE;
        ++*at;
    }
    return *at - from == 1 || (*at != from && *from != '0');
}

/* A minus may stand only before a number that is not 0. */
static int integer(const char **at, int64_t *value)
{
    if (!word(at, "-"))
        return number(at, value);
    if (!number(at, value) || *value == 0)
        return 0;
    *value = -*value;
    return 1;
}

/* Reads a line `(piece 2 10 -3)` that ends in a line feed; 0 if its form is broken. */
static int read_piece(const char *line, size_t length, struct piece *p)
{
    const char *at = line;
    int64_t value;

    memset(p, 0, sizeof *p);
    if (strlen(line) != length || !word(&at, "(piece ") || !number(&at, &p->duration))
        return 0;
    while (word(&at, " ")) {
        if (!integer(&at, &value))
            return 0;
        if (value < -INT64_C(2147483648) || value > INT64_C(2147483647)) {
            p->out_of_range = 1;
            value = 0;
        }
        if (p->count < sizeof p->values / sizeof *p->values)
            p->values[p->count++] = (int32_t)value;
    }
    return p->count != 0 && word(&at, ")\n") && *at == '\0';
}

/* ---- the monitor */

/* The reports of `count` ticks that were fed after `ticks` ticks. */
static void show(struct bench *b, int64_t ticks, uint32_t count)
{
    for (uint32_t i = 0; i < count; i++) {
        int64_t end = ticks + i + 1, begin = end - b->lengths[i], score = b->scores[i];

        if (b->lengths[i] == 0)
            continue;
        printf("%" PRId64 " %" PRId64 " %" PRId64 "\n", end, begin, score);
        /* a later end is better only if its score is */
        if (!b->found || (b->least_is_best ? score < b->best_score : score > b->best_score)) {
            b->found = 1;
            b->best_end = end;
            b->best_begin = begin;
            b->best_score = score;
        }
    }
}

/* Feeds a piece, in parts if it is longer than one call takes: 0, or the refusal. No further part after lines that were lost. */
static uint32_t feed(struct bench *b, const struct piece *p)
{
    int64_t left = p->duration;

    if (p->out_of_range || left < 1 || left > TICKS_MAX)
        return RECORD_BROKEN;
    while (left > 0 && !ferror(stdout)) {
        uint32_t part = left > PIECE_TICKS_MAX ? PIECE_TICKS_MAX : (uint32_t)left;
        int64_t ticks = b->state[0];
        uint32_t refusal = monitor_feed(b->text, b->length, b->state, MONITOR_STATE_LENGTH, b->first, b->cells,
                                        b->second, b->cells, part, p->values, p->count, b->scores, part, b->lengths,
                                        part);

        if (refusal != CALL_DONE)
            return refusal;
        show(b, ticks, part);
        left -= part;
    }
    return CALL_DONE;
}

/* Two tables, and the monitor opened. */
static int open_monitor(struct bench *b, const char *cells)
{
    uint32_t refusal = pattern_check(b->text, b->length);
    uint64_t needed;

    if (refusal != PATTERN_ACCEPTED)
        return refused(refusal);
    b->least_is_best = memcmp(b->text, "(pattern sum", 12) == 0;
    needed = pattern_cells(b->text, b->length);
    if (cells) {
        char *end;

        errno = 0;
        needed = strtoull(cells, &end, 10);
        if (errno != 0 || *cells < '0' || *cells > '9' || *end != '\0')
            return fault("-c wants a number of cells");
    }
    if (needed > SIZE_MAX / sizeof *b->first)
        return fault("not that much memory");
    b->cells = (size_t)needed;
    /* one more, since a slice has a pointer even where it is empty */
    b->first = malloc(b->cells * sizeof *b->first + 1);
    b->second = malloc(b->cells * sizeof *b->second + 1);
    if (!b->first || !b->second)
        return fault("not that much memory");
    refusal = monitor_open(b->text, b->length, b->state, MONITOR_STATE_LENGTH, b->first, b->cells, b->second, b->cells);
    return refusal == CALL_DONE ? 0 : refused(refusal);
}

/* ---- the program */

/* A file that opens and then cannot be read, as a folder. */
static int unreadable(const char *path)
{
    fprintf(stderr, "bench: %s: %s\n", path, strerror(errno));
    return 2;
}

/* A file that cannot be opened counts as empty, and is told of. */
static FILE *opened(const char *path)
{
    FILE *file = fopen(path, "rb");

    if (!file)
        fprintf(stderr, "bench: %s: %s\n", path, strerror(errno));
    return file;
}

static int run(struct bench *b, FILE *record, const char *path)
{
    static char line[LINE_MAX_BYTES + 2];
    size_t length = 0;
    struct piece piece;
    int byte;

    printf("end begin score\n");
    if (lost())
        return 2; /* main says so */
    while (record && (byte = getc(record)) != EOF) {
        uint32_t refusal;

        if (length == LINE_MAX_BYTES)
            return refused(TEXT_TOO_LONG);
        line[length++] = (char)byte;
        if (byte != '\n')
            continue;
        line[length] = '\0';
        refusal = read_piece(line, length, &piece) ? feed(b, &piece) : TEXT_BROKEN;
        if (refusal != CALL_DONE)
            return refused(refusal);
        if (lost()) /* whoever watches the bench sees a piece's lines when it has come */
            return 2;
        length = 0;
    }
    if (record && ferror(record))
        return unreadable(path);
    if (length != 0)
        return refused(TEXT_BROKEN);
    if (b->found)
        printf("best %" PRId64 " %" PRId64 " %" PRId64 "\n", b->best_end, b->best_begin, b->best_score);
    else
        printf("best none\n");
    return 0;
}

int main(int argc, char **argv)
{
    static struct bench b;
    const char *cells = NULL, *record_path = "standard input";
    FILE *pattern, *record = stdin;
    int at = 1, status = 0;

    if (argc > 2 && strcmp(argv[1], "-c") == 0) {
        cells = argv[2];
        at = 3;
    }
    if (argc - at < 1 || argc - at > 2)
        return fault("usage: bench [-c CELLS] PATTERN [RECORD]");
    pattern = opened(argv[at]);
    if (pattern) {
        b.length = fread(b.text, 1, sizeof b.text, pattern);
        if (ferror(pattern))
            status = unreadable(argv[at]);
        fclose(pattern);
    }
    if (argc - at == 2 && strcmp(argv[at + 1], "-") != 0) {
        record_path = argv[at + 1];
        record = opened(record_path);
    }
    if (status == 0)
        status = open_monitor(&b, cells);
    if (status == 0)
        status = run(&b, record, record_path);
    if (record)
        fclose(record);
    free(b.first);
    free(b.second);
    if (lost())
        return fault("the lines could not be written");
    return status;
}
