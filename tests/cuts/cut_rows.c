/* cut_rows.c: prints what `watch` prints, from a record whose pieces are cut at random.
 *
 *     cut_rows SEED [wrong KIND]
 *
 * Reads pattern.txt and record.txt, which must both be accepted, and feeds the pieces through include/bench_margin.h, cut at
 * places drawn from the seed, with feeds between that must be refused. Each slice is lent in a heap block of its size. A
 * call that answers or leaves other than document 01 says ('Monitor tables', 'Feed a piece') ends the program, as does a
 * text that is not accepted: a message on standard error, status 1. At the end the counts (`struct cuts`) stand there.
 *
 * With `wrong` it errs on purpose, in one of WRONG ways, which must be noticed. A wrong call of the program: status 2. */
#include <ctype.h>
#include <inttypes.h>
#include <stdarg.h>
#include <stdio.h>
#include <stdlib.h>
#include <string.h>

#include "bench_margin.h"

#define RECORD_TEXT_MAX 16384 /* bytes that `watch` takes of a record */
#define REFUSED_PLACES 512    /* report places that a refused feed is lent, at most: all of them are compared */

/* ways to err: in what is fed and printed; */
enum {
    TICK_LOST = 1,  /* a call that ends inside a piece has a tick less */
    REFUSED_IS_FED, /* a refused feed adds a tick */
    LINE_LEFT_OUT,  /* a call's last end has no line */
    BEGIN_OFF,      /* the best's begin */
    LATER_END,      /* of equal scores the latest end is the best */
    /* in what a refused feed leaves, */
    ANSWER_OTHER,
    STATE_ALTERED,
    FIRST_ALTERED,
    SECOND_ALTERED,
    SCORES_ALTERED,
    LENGTHS_ALTERED,
    /* and in what an accepted one leaves */
    STATE_OTHER,
    SCORES_PAST, /* a place past the duration */
    LENGTHS_PAST,
    SECOND_KEPT, /* a cell of the second table stays as it was */
    SCORE_ALONE, /* a score where there is no run */
};
#define WRONG 16

/* feeds that must be refused */
enum { DURATION_0, DURATION_OVER, VALUES_COUNT, VALUE_RANGE, SCORES_SHORT, LENGTHS_SHORT, PAST_LIMIT, NONE };

struct piece {
    uint32_t duration;
    int32_t values[PATTERN_CHANNELS_MAX + 1]; /* one more, for a feed with a value too many */
    size_t count;
};

struct reports {
    int64_t *scores;
    uint32_t *lengths;
    size_t score_places, length_places;
    int filled; /* the byte that every place was filled with */
};

struct cuts {
    uint8_t *text;
    size_t length;
    size_t channels;
    uint32_t high;
    int least_is_best;
    int64_t *state, *first, *second;
    size_t cells;
    int64_t *before; /* what state, first and second table held before a call */
    uint32_t ticks;  /* ticks so far */
    uint64_t seed;
    int found; /* the best so far */
    uint32_t end, begin;
    int64_t score;
    int wrong;
    /* calls that end inside a piece, of over 64 ticks, of over high + 1 ticks, whose later reports repeat; then the
     * refused feeds of each kind */
    unsigned long counts[3 + NONE];
};

_Noreturn static void fault(const char *what, ...)
{
    va_list more;

    va_start(more, what);
    fputs("cut_rows: ", stderr);
    vfprintf(stderr, what, more);
    fputc('\n', stderr);
    va_end(more);
    exit(1);
}

/* A block of exactly that size; a slice has a pointer even where it is empty. */
static void *block(size_t bytes)
{
    void *at = malloc(bytes ? bytes : 1);

    if (!at)
        fault("no memory");
    return at;
}

/* ---- draws: splitmix64 */

static uint64_t next(struct cuts *c)
{
    uint64_t z = c->seed += UINT64_C(0x9e3779b97f4a7c15);

    z = (z ^ (z >> 30)) * UINT64_C(0xbf58476d1ce4e5b9);
    z = (z ^ (z >> 27)) * UINT64_C(0x94d049bb133111eb);
    return z ^ (z >> 31);
}

static uint32_t below(struct cuts *c, uint32_t count)
{
    return (uint32_t)(next(c) % count);
}

static void fill(struct cuts *c, int64_t *cells, size_t count)
{
    for (size_t i = 0; i < count; i++)
        cells[i] = (int64_t)next(c);
}

/* The ticks of a call, out of those left of its piece: short ones are as likely as long ones. */
static uint32_t cut(struct cuts *c, uint32_t left)
{
    static const uint32_t most[] = {1, 2, 4, 8, 16, 64};
    uint32_t kind = below(c, 8), ticks = PIECE_TICKS_MAX;

    if (kind < 6)
        ticks = 1 + below(c, most[kind]);
    else if (kind == 6)
        ticks = 65 + below(c, 448);
    return ticks < left ? ticks : left;
}

/* Half of the calls have a refused feed before them. Where a call can pass the limit of ticks, the others have one for it. */
static int refused_kind(struct cuts *c)
{
    uint32_t kind = below(c, 2 * PAST_LIMIT);

    if (kind < PAST_LIMIT)
        return (int)kind;
    return c->ticks > TICKS_MAX - PIECE_TICKS_MAX ? PAST_LIMIT : NONE;
}

/* ---- calls */

static void lend_reports(struct cuts *c, struct reports *r, size_t score_places, size_t length_places)
{
    r->score_places = score_places;
    r->length_places = length_places;
    r->scores = block(score_places * sizeof *r->scores);
    r->lengths = block(length_places * sizeof *r->lengths);
    r->filled = 1 + (int)below(c, 255);
    memset(r->scores, r->filled, score_places * sizeof *r->scores);
    memset(r->lengths, r->filled, length_places * sizeof *r->lengths);
}

static void end_reports(struct reports *r)
{
    free(r->scores);
    free(r->lengths);
}

/* Do all these bytes have the value? */
static int all(const void *from, size_t bytes, int value)
{
    const unsigned char *at = from;

    return bytes == 0 || (at[0] == value && memcmp(at, at + 1, bytes - 1) == 0);
}

/* Are both report slices as they were from a place on? */
static void check_places(const struct reports *r, size_t from)
{
    if (from < r->score_places && !all(r->scores + from, (r->score_places - from) * sizeof *r->scores, r->filled))
        fault("a score is written where none is due");
    if (from < r->length_places && !all(r->lengths + from, (r->length_places - from) * sizeof *r->lengths, r->filled))
        fault("a length is written where none is due");
}

static uint32_t call(struct cuts *c, const struct piece *p, struct reports *r)
{
    int32_t *values = block(p->count * sizeof *values);
    uint32_t answer;

    memcpy(values, p->values, p->count * sizeof *values);
    answer = monitor_feed(c->text, c->length, c->state, MONITOR_STATE_LENGTH, c->first, c->cells, c->second, c->cells,
                          p->duration, values, p->count, r->scores, r->score_places, r->lengths, r->length_places);
    free(values);
    return answer;
}

/* Copies what a refused feed must not alter, and compares it with the copy. */
static void keep(struct cuts *c)
{
    memcpy(c->before, c->state, MONITOR_STATE_LENGTH * sizeof *c->state);
    memcpy(c->before + MONITOR_STATE_LENGTH, c->first, c->cells * sizeof *c->first);
    memcpy(c->before + MONITOR_STATE_LENGTH + c->cells, c->second, c->cells * sizeof *c->second);
}

static void check_kept(const struct cuts *c)
{
    if (memcmp(c->before, c->state, MONITOR_STATE_LENGTH * sizeof *c->state) != 0)
        fault("a refused feed alters the state");
    if (memcmp(c->before + MONITOR_STATE_LENGTH, c->first, c->cells * sizeof *c->first) != 0)
        fault("a refused feed alters the first table");
    if (memcmp(c->before + MONITOR_STATE_LENGTH + c->cells, c->second, c->cells * sizeof *c->second) != 0)
        fault("a refused feed alters the second table");
}

/* ---- refused feeds */

/* What a refused feed leaves is altered at its end. */
static void err_after_refusal(struct cuts *c, struct reports *r, uint32_t *answer)
{
    if (c->wrong == ANSWER_OTHER)
        *answer = CELL_BROKEN;
    if (c->wrong == STATE_ALTERED)
        c->state[MONITOR_STATE_LENGTH - 1]++;
    if (c->wrong == FIRST_ALTERED)
        c->first[c->cells - 1] ^= 1;
    if (c->wrong == SECOND_ALTERED)
        c->second[c->cells - 1] ^= 1;
    if (c->wrong == SCORES_ALTERED && r->score_places != 0)
        r->scores[r->score_places - 1]++;
    if (c->wrong == LENGTHS_ALTERED && r->length_places != 0)
        r->lengths[r->length_places - 1]++;
}

/* Makes a call that must be refused with that number, and so must alter nothing. */
static void refuse(struct cuts *c, const struct piece *p, size_t score_places, size_t length_places, uint32_t due)
{
    struct reports r;
    uint32_t answer;

    lend_reports(c, &r, score_places, length_places);
    keep(c);
    answer = call(c, p, &r);
    err_after_refusal(c, &r, &answer);
    if (answer != due)
        fault("%" PRIu32 " is answered where %" PRIu32 " is due", answer, due);
    check_kept(c);
    check_places(&r, 0);
    end_reports(&r);
}

/* One side or the other, by one or by as much as there is. */
static int32_t value_out_of_range(struct cuts *c)
{
    static const int32_t values[] = {VALUE_MAX + 1, -VALUE_MAX - 1, INT32_MAX, INT32_MIN};

    return values[below(c, 4)];
}

/* Another count than the pattern's channels; those added have values in range. */
static size_t count_other(struct cuts *c)
{
    size_t count = below(c, PATTERN_CHANNELS_MAX + 2);

    return count == c->channels ? count + 1 : count;
}

/* A tick too many, or as many too many as a call may have. */
static uint32_t duration_past_limit(struct cuts *c)
{
    return below(c, 2) ? TICKS_MAX + 1 - c->ticks : PIECE_TICKS_MAX;
}

/* A feed of that kind; else it is as the next call, or its front. Where the piece is the cause, the report slices may be too
 * short as well, which is judged later. */
static void refuse_kind(struct cuts *c, const struct piece *next_call, int kind)
{
    struct piece p = *next_call;
    size_t places = below(c, REFUSED_PLACES + 1);

    if (p.duration > REFUSED_PLACES)
        p.duration = REFUSED_PLACES;
    if (kind == SCORES_SHORT)
        refuse(c, &p, p.duration - 1, REFUSED_PLACES, REPORTS_TOO_SHORT);
    else if (kind == LENGTHS_SHORT)
        refuse(c, &p, REFUSED_PLACES, p.duration - 1, REPORTS_TOO_SHORT);
    else if (kind == PAST_LIMIT) {
        p.duration = duration_past_limit(c);
        refuse(c, &p, places, places, TOO_MANY_TICKS);
    } else {
        if (kind == DURATION_0)
            p.duration = 0;
        if (kind == DURATION_OVER)
            p.duration = PIECE_TICKS_MAX + 1;
        if (kind == VALUES_COUNT)
            p.count = count_other(c);
        if (kind == VALUE_RANGE)
            p.values[below(c, (uint32_t)p.count)] = value_out_of_range(c);
        refuse(c, &p, places, places, RECORD_BROKEN);
    }
}

/* ---- accepted feeds */

/* Ticks so far, the last values, zeros in unused channels. */
static void check_state(const struct cuts *c, const struct piece *last)
{
    for (size_t i = 0; i < PATTERN_CHANNELS_MAX; i++)
        if (c->state[1 + i] != (i < c->channels ? last->values[i] : 0))
            fault("the state's value of channel %zu is wrong", i);
    if (c->state[0] != c->ticks)
        fault("the state has %" PRId64 " ticks, not %" PRIu32, c->state[0], c->ticks);
}

static void check_second(const struct cuts *c)
{
    for (size_t i = 0; i < c->cells; i++)
        if (c->second[i] != CELL_MARK)
            fault("cell %zu of the second table is not the mark", i);
}

static void err_after_feed(struct cuts *c, struct reports *r, uint32_t duration)
{
    if (c->wrong == STATE_OTHER)
        c->state[MONITOR_STATE_LENGTH - 1]++;
    if (c->wrong == SCORES_PAST && duration < r->score_places)
        r->scores[r->score_places - 1]++;
    if (c->wrong == LENGTHS_PAST && duration < r->length_places)
        r->lengths[r->length_places - 1]++;
    if (c->wrong == SECOND_KEPT)
        c->second[c->cells - 1] ^= 1;
    if (c->wrong == SCORE_ALONE && r->lengths[duration - 1] == 0)
        r->scores[duration - 1]++;
}

/* Feeds a piece that no refusal has a cause in. */
static void feed(struct cuts *c, const struct piece *p, struct reports *r)
{
    uint32_t answer = call(c, p, r);

    if (answer != CALL_DONE)
        fault("a feed is refused with %" PRIu32, answer);
    c->ticks += p->duration;
    err_after_feed(c, r, p->duration);
    check_state(c, p);
    check_second(c);
    check_places(r, p->duration);
}

/* ---- lines */

/* Of equal scores the earliest end is the best; a report has its end's shortest run. */
static int better(const struct cuts *c, int64_t score)
{
    if (!c->found || (c->wrong == LATER_END && score == c->score))
        return 1;
    return c->least_is_best ? score < c->score : score > c->score;
}

static void show_row(struct cuts *c, uint32_t end, int64_t score, uint32_t length)
{
    uint32_t begin = end - length;

    if (length == 0 && score != 0)
        fault("end %" PRIu32 " has a score and no run", end);
    if (length == 0)
        return;
    if (length > end)
        fault("end %" PRIu32 " has a run of %" PRIu32 " ticks", end, length);
    printf("%" PRIu32 " %" PRIu32 " %" PRId64 "\n", end, begin, score);
    if (better(c, score)) {
        c->found = 1;
        c->end = end;
        c->begin = begin;
        c->score = score;
    }
}

/* Has no end a run, from one place to another? Long records without one are passed over by this. */
static int no_runs(const struct reports *r, size_t from, size_t to)
{
    uint64_t any = 0;

    for (size_t i = from; i < to; i++)
        any |= (uint64_t)r->scores[i] | r->lengths[i];
    return any == 0;
}

/* The lines of a call's ends; the ticks before it are `ticks`. */
static void show_rows(struct cuts *c, const struct reports *r, uint32_t ticks, uint32_t count)
{
    for (uint32_t from = 0, to; from < count; from = to) {
        to = count - from > 256 ? from + 256 : count;
        if (no_runs(r, from, to))
            continue;
        for (uint32_t i = from; i < to; i++)
            if (c->wrong != LINE_LEFT_OUT || i + 1 < count)
                show_row(c, ticks + i + 1, r->scores[i], r->lengths[i]);
    }
}

static void show_last(const struct cuts *c)
{
    uint32_t begin = c->begin + (c->wrong == BEGIN_OFF);

    if (c->found)
        printf("best %" PRIu32 " %" PRIu32 " %" PRId64 "\n", c->end, begin, c->score);
    else
        puts("best none");
    for (size_t i = 0; i < sizeof c->counts / sizeof *c->counts; i++)
        fprintf(stderr, "%lu ", c->counts[i]);
    fputc('\n', stderr);
}

/* ---- the record */

static void count(struct cuts *c, uint32_t ticks, uint32_t left, int kind)
{
    c->counts[0] += ticks < left;
    c->counts[1] += ticks > 64;
    c->counts[2] += ticks > c->high + 1;
    if (kind != NONE)
        c->counts[3 + kind]++;
}

/* The next call, with room in its report slices for up to 3 places more. */
static void feed_call(struct cuts *c, const struct piece *p, int shown)
{
    struct reports r;
    uint32_t ticks = c->ticks;

    lend_reports(c, &r, p->duration + below(c, 4), p->duration + below(c, 4));
    feed(c, p, &r);
    if (shown)
        show_rows(c, &r, ticks, p->duration);
    end_reports(&r);
}

/* A call of a piece's ticks, and the refused feed before it. Nothing depends on what the second table held. */
static void feed_cut(struct cuts *c, const struct piece *whole, uint32_t ticks, uint32_t left)
{
    struct piece p = *whole;
    int kind = refused_kind(c);

    count(c, ticks, left, kind);
    if (below(c, 4) == 0)
        fill(c, c->second, c->cells);
    p.duration = ticks;
    if (kind != NONE)
        refuse_kind(c, &p, kind);
    if (c->wrong == TICK_LOST && 1 < ticks && ticks < left)
        p.duration--;
    feed_call(c, &p, 1);
    p.duration = 1;
    if (c->wrong == REFUSED_IS_FED && kind != NONE)
        feed_call(c, &p, 0);
}

static void feed_piece(struct cuts *c, const struct piece *p)
{
    uint32_t left = p->duration, ticks;

    for (; left != 0; left -= ticks) {
        ticks = cut(c, left);
        feed_cut(c, p, ticks, left);
    }
}

/* After the last call, too, a feed may have to be refused: at the limit of ticks each has to. */
static void refuse_last(struct cuts *c, const struct piece *last)
{
    int kind = c->ticks == TICKS_MAX ? PAST_LIMIT : refused_kind(c);

    count(c, 0, 0, kind);
    if (kind != NONE)
        refuse_kind(c, last, kind);
}

/* Moves past a word, which must stand there. */
static void word(const char **at, const char *expected)
{
    size_t bytes = strlen(expected);

    if (strncmp(*at, expected, bytes) != 0)
        fault("record.txt: no `%s` where it is due", expected);
    *at += bytes;
}

/* Moves past a number, which must stand there and be in that range. */
static int64_t number(const char **at, int64_t least, int64_t most)
{
    char *past;
    int64_t value;

    if (!isdigit((unsigned char)(*at)[**at == '-']))
        fault("record.txt: no number where it is due");
    value = strtoll(*at, &past, 10);
    if (value < least || value > most)
        fault("record.txt: a number out of range");
    *at = past;
    return value;
}

/* Moves past a line `(piece 2 10 -3)`, with a value for each channel. */
static void read_piece(const struct cuts *c, const char **at, struct piece *p)
{
    memset(p, 0, sizeof *p);
    word(at, "(piece ");
    p->duration = (uint32_t)number(at, 1, TICKS_MAX);
    for (p->count = 0; p->count < c->channels; p->count++) {
        word(at, " ");
        p->values[p->count] = (int32_t)number(at, -VALUE_MAX, VALUE_MAX);
    }
    word(at, ")\n");
}

/* ---- the program */

/* A file's bytes, ended by a zero; one that can't be opened counts as empty. */
static size_t read_file(const char *path, char *bytes, size_t most)
{
    FILE *file = fopen(path, "rb");
    size_t length = 0;

    if (file) {
        length = fread(bytes, 1, most + 1, file);
        if (ferror(file))
            fault("%s cannot be read", path);
        fclose(file);
    }
    if (length > most || memchr(bytes, 0, length))
        fault("%s is not accepted", path);
    bytes[length] = '\0';
    return length;
}

/* The pattern's text in a block of its size, and what its first line says. */
static void read_pattern(struct cuts *c)
{
    char bytes[PATTERN_TEXT_MAX + 2], weighting[7];

    c->length = read_file("pattern.txt", bytes, PATTERN_TEXT_MAX);
    c->text = block(c->length);
    memcpy(c->text, bytes, c->length);
    c->cells = pattern_cells(c->text, c->length);
    if (c->cells == 0 || sscanf(bytes, "(pattern %6s %zu %*u %*u %" SCNu32, weighting, &c->channels, &c->high) != 3)
        fault("pattern.txt is not accepted");
    c->least_is_best = strcmp(weighting, "sum") == 0;
}

/* Nothing depends on what state and tables held before an opening. */
static void open_monitor(struct cuts *c)
{
    static const struct piece none = {0};
    uint32_t answer;

    c->state = block(MONITOR_STATE_LENGTH * sizeof *c->state);
    c->first = block(c->cells * sizeof *c->first);
    c->second = block(c->cells * sizeof *c->second);
    c->before = block((MONITOR_STATE_LENGTH + 2 * c->cells) * sizeof *c->before);
    fill(c, c->state, MONITOR_STATE_LENGTH);
    fill(c, c->first, c->cells);
    fill(c, c->second, c->cells);
    answer = monitor_open(c->text, c->length, c->state, MONITOR_STATE_LENGTH, c->first, c->cells, c->second, c->cells);
    if (answer != CALL_DONE)
        fault("the opening is refused with %" PRIu32, answer);
    check_state(c, &none);
    check_second(c);
}

static void run(struct cuts *c)
{
    char record[RECORD_TEXT_MAX + 2];
    const char *at = record;
    struct piece piece;

    read_pattern(c);
    read_file("record.txt", record, RECORD_TEXT_MAX);
    open_monitor(c);
    puts("end begin score");
    while (*at != '\0') {
        read_piece(c, &at, &piece);
        feed_piece(c, &piece);
    }
    if (c->ticks != 0)
        refuse_last(c, &piece);
    show_last(c);
    free(c->text);
    free(c->state);
    free(c->first);
    free(c->second);
    free(c->before);
}

int main(int argc, char **argv)
{
    struct cuts c = {0};

    if (argc == 4 && strcmp(argv[2], "wrong") == 0)
        c.wrong = atoi(argv[3]);
    if ((argc != 2 && argc != 4) || (argc == 4 && (c.wrong < 1 || c.wrong > WRONG))) {
        fputs("usage: cut_rows SEED [wrong KIND]\n", stderr);
        return 2;
    }
    c.seed = strtoull(argv[1], NULL, 10);
    run(&c);
    if (fflush(stdout) != 0 || ferror(stdout))
        fault("the lines cannot be written");
    return 0;
}
