/* scored.h: the cases of the second scorer (tests/second/generate.rs), answered by the C functions. For each case the file
 * OUT/NUMBER gets what `watch` prints: the rows from monitor_feed, each piece cut at random and with refused feeds
 * between, and the best line from record_best. Of the record's text only the form is judged here, and that each piece has a
 * value for each channel, which a slice of all values cannot say; everything else is the library's. */
#ifndef SCORED_H
#define SCORED_H

#define CASE_RECORD_BYTES 16384
#define CASE_CELLS 2048 /* of each table of `watch` */
#define CASE_PIECES 1400
#define CASE_TICKS 200000

struct case_record {
    size_t pieces;
    uint32_t ticks[CASE_PIECES];
    int32_t sample[CASE_PIECES][PATTERN_CHANNELS_MAX];
    size_t count[CASE_PIECES]; /* how many values a piece has */
};

static const char *case_at, *case_end;

static int case_word(const char *word)
{
    size_t count = strlen(word);

    if ((size_t)(case_end - case_at) < count || memcmp(case_at, word, count) != 0)
        return 0;
    case_at += count;
    return 1;
}

/* Moves past a number: `0`, or digits without a leading zero, held at one that is out of every range. */
static int case_number(int64_t *value)
{
    const char *from = case_at;

    for (*value = 0; case_at < case_end && *case_at >= '0' && *case_at <= '9'; case_at++) {
        *value = *value * 10 + (*case_at - '0');
        if (*value > INT32_MAX)
            *value = INT32_MAX;
    }
    return case_at - from == 1 || (case_at != from && *from != '0');
}

/* Reads a record's text: 0, 1 or 2. */
static uint32_t case_record(struct case_record *r, const char *from, size_t bytes)
{
    r->pieces = 0;
    if (bytes > CASE_RECORD_BYTES)
        return TEXT_TOO_LONG;
    case_at = from;
    case_end = from + bytes;
    while (case_at < case_end) {
        int64_t value;
        size_t *count = &r->count[r->pieces];

        *count = 0;
        if (!case_word("(piece ") || !case_number(&value))
            return TEXT_BROKEN;
        /* a duration of that many ticks is in range, so one that is longer is held past it */
        r->ticks[r->pieces] = value == INT32_MAX && memcmp(case_at - 10, "2147483647", 10) != 0 ? UINT32_MAX : (uint32_t)value;
        while (case_word(" ")) {
            int minus = case_word("-");

            if (!case_number(&value) || (minus && value == 0))
                return TEXT_BROKEN;
            if (*count < PATTERN_CHANNELS_MAX)
                r->sample[r->pieces][*count] = (int32_t)(minus ? -value : value);
            ++*count;
        }
        if (*count == 0 || !case_word(")\n"))
            return TEXT_BROKEN;
        r->pieces++;
    }
    return 0;
}

static struct record_best case_best(const struct known *k, const struct case_record *r)
{
    uint32_t *ticks = lend(&durations, r->pieces, where());
    int32_t *sample = lend(&values, r->pieces * (size_t)k->channels, where());

    memcpy(ticks, r->ticks, r->pieces * sizeof *ticks);
    for (size_t i = 0; i < r->pieces; i++)
        memcpy(sample + i * (size_t)k->channels, r->sample[i], (size_t)k->channels * sizeof *sample);
    lend_keep(&durations);
    lend_keep(&values);
    lend_table(&first, CASE_CELLS, 0);
    lend_table(&second, CASE_CELLS, 0);
    return call_best(k);
}

static void case_rows(FILE *out, const struct known *k, const struct case_record *r)
{
    static int64_t score[CASE_TICKS];
    static uint32_t length[CASE_TICKS];
    uint64_t end = 0;

    opened(k);
    fprintf(out, "end begin score\n");
    for (size_t i = 0; i < r->pieces; i++) {
        if (r->ticks[i] > CASE_TICKS)
            lend_fault("a piece of a case is too long");
        if (!fed_piece(k, r->ticks[i], r->sample[i], 1, score, length))
            return;
        for (uint32_t t = 0; t < r->ticks[i]; t++) {
            end++;
            if (length[t] != 0)
                fprintf(out, "%" PRIu64 " %" PRIu64 " %" PRId64 "\n", end, end - length[t], score[t]);
        }
    }
}

static void answer_case(FILE *out, const char *pattern, size_t pattern_bytes, const char *record, size_t record_bytes)
{
    static struct case_record r;
    struct record_best best;
    struct known k;
    uint32_t form;

    lend_text((const uint8_t *)pattern, pattern_bytes);
    k = know(NULL);
    if (k.refusal != 0) { /* the other functions must give the same number */
        single_open(&k);
        single_feed(&k);
        single_best(&k);
        fprintf(out, "refused %" PRIu32 "\n", k.refusal);
        return;
    }
    form = case_record(&r, record, record_bytes);
    for (size_t i = 0; form == 0 && i < r.pieces; i++)
        if (r.count[i] != (size_t)k.channels)
            form = RECORD_BROKEN;
    if (form != 0) {
        fprintf(out, "refused %" PRIu32 "\n", form);
        return;
    }
    best = case_best(&k, &r);
    if (best.refusal != 0) {
        fprintf(out, "refused %" PRIu32 "\n", best.refusal);
        return;
    }
    case_rows(out, &k, &r);
    if (best.found)
        fprintf(out, "best %" PRIu32 " %" PRIu32 " %" PRId64 "\n", best.end, best.begin, best.score);
    else
        fprintf(out, "best none\n");
}

/* A case is a line `=== NUMBER P R EXPECTED KIND`, P bytes of pattern text, R bytes of record text, and a line feed. */
static void answer_cases(const char *path, const char *folder)
{
    static char header[256], texts[2 * CASE_BYTES], name[4096];
    FILE *cases = fopen(path, "rb"), *out;
    size_t number, pattern, record;

    if (!cases)
        lend_fault("no cases");
    while (fgets(header, sizeof header, cases)) {
        if (sscanf(header, "=== %zu %zu %zu", &number, &pattern, &record) != 3 || pattern + record >= sizeof texts ||
            fread(texts, 1, pattern + record + 1, cases) != pattern + record + 1)
            lend_fault("a broken case");
        snprintf(name, sizeof name, "%s/%zu", folder, number);
        out = fopen(name, "wb");
        if (!out)
            lend_fault("no file for an answer");
        seed = round_seed = number;
        answer_case(out, texts, pattern, texts + pattern, record);
        if (fclose(out) != 0)
            lend_fault("an answer could not be written");
    }
    fclose(cases);
}

#endif
