/* hostile.c: drives every C function of the library with random and hostile slices, by fixed seeds, and checks by value
 * what the header promises. run says how it is built.
 *
 *     hostile                          all rounds
 *     hostile SEED                     one round, to look into it
 *     hostile wrong N                  a few rounds with a library that errs in one way (N from 1 to WRONG), which must be
 *                                      noticed
 *     hostile long                     the longest records and pieces: to be ended by a time-out if they are walked tick by
 *                                      tick
 *     hostile cases CASES OUT [N]      the second scorer's cases (scored.h), with error N if it is given
 *
 * Each round draws some hundred calls of two kinds:
 *   - single calls with anything in the slices (calls.h says what is checked at each).
 *   - whole benches: a monitor that is fed piece by piece, and one that is fed the same pieces cut at random with refused
 *     feeds between, must tell and hold the same; the best of the record must be the best that was told; and for small
 *     ones every run is laid out and priced: each report must be the best price of all runs in the window with that end,
 *     and the least length that has it.
 * Then some more of both, in sum with several channels, where a piece often moves one of them or none.
 * The last line is `N passed, M failed`: the rounds. Each refusal of each function, each way in which a slice can be too
 * short or too long, each side of a band, and each way in which channels can move that places test must occur; one that does
 * not is a failure more. */
#define _DEFAULT_SOURCE
#include "calls.h"

#define ROUNDS 125
#define CALLS 600         /* single calls of a round */
#define BENCHES 8         /* whole benches of a round */
#define MOVED_CALLS 60    /* single feeds of a round that move few channels */
#define MOVED_BENCHES 6   /* whole benches that do */
#define LONG_ROUNDS 100   /* of the longest records and pieces */
#define CASE_BYTES 40000  /* the longest text of a case */

/* A pattern whose tables can be lent. */
static void make_lendable(struct pattern *p, int size)
{
    do
        make_pattern(p, size);
    while (p->cells > CELLS - 10);
}

static void make_fitting(struct pattern *p)
{
    make_lendable(p, once(3) ? MIDDLE : SMALL);
}

/* ---- single calls */

static void single_open(const struct known *k)
{
    lend_state(k->channels);
    lend_tables(k->cells, 0);
    call_open(k);
}

/* Lends all that a feed has, and draws its duration. */
static uint32_t lend_feed(const struct known *k)
{
    uint32_t duration = (uint32_t)(once(10) ? wild32() : once(50) ? between(65534, 65536) : between(1, 30));
    size_t room = duration > LONG ? 40 : duration, m = room + (once(3) ? (size_t)between(0, 4) : 0);
    size_t n = room + (once(3) ? (size_t)between(0, 4) : 0);
    int64_t kind = between(0, 17);

    /* one or both of the report slices empty or one short */
    if (room != 0 && kind < 6 && kind % 3 != 1)
        m = kind < 3 ? 0 : room - 1;
    if (room != 0 && kind < 6 && kind % 3 != 0)
        n = kind < 3 ? 0 : room - 1;
    lend_state(k->channels);
    lend_tables(k->cells, !once(10));
    lend_values(count_values((size_t)k->channels));
    lend_reports(m, n);
    return duration;
}

static void single_feed(const struct known *k)
{
    call_feed(k, lend_feed(k));
}

static void single_price(const struct known *k, const struct pattern *p)
{
    size_t m = (size_t)(once(30) ? 0 : once(40) ? between(4094, 4096) : between(1, 8)), n = m;
    uint32_t *e, *s;

    if (once(20))
        n = (size_t)between(0, 9);
    lend_record(k->channels, once(2));
    e = lend(&edges, m, where());
    s = lend(&stays, n, where());
    for (size_t i = 0; i < m; i++)
        e[i] = once(20) ? wild32() : p->edges ? (uint32_t)between(0, p->edges - 1) : 0;
    for (size_t i = 0; i < n; i++)
        s[i] = once(20) ? wild32() : (uint32_t)between(1, 4);
    lend_keep(&edges);
    lend_keep(&stays);
    call_price(k, once(10) ? wild32() : (uint32_t)between(0, 20));
}

static void single_best(const struct known *k)
{
    lend_record(k->channels, 1);
    lend_tables(k->cells, 0);
    call_best(k);
}

static void single(void)
{
    static struct pattern p;
    int damaged = once(4);
    struct known k;

    if (once(6))
        make_pattern(&p, LARGE);
    else
        make_fitting(&p);
    if (damaged)
        damage(&p);
    else if (once(8))
        add_odd_band(&p);
    lend_text(p.text, p.length);
    k = know(damaged ? NULL : &p);
    switch (between(0, 5)) {
    case 0:
        single_open(&k);
        break;
    case 1:
    case 2:
    case 3:
        single_feed(&k);
        break;
    case 4:
        single_price(&k, &p);
        break;
    default:
        single_best(&k);
    }
}

/* A feed in sum that moves few of several channels, or none, to tables with anything in them. */
static void single_moved(void)
{
    static struct pattern p;
    struct known k;
    uint32_t duration;

    make_lendable(&p, APART);
    lend_text(p.text, p.length);
    k = know(&p);
    duration = lend_feed(&k);
    keep_still();
    call_feed(&k, duration);
}

/* ---- whole benches */

#define PIECES 6
#define MOST 70000

struct bench {
    size_t pieces;
    uint32_t ticks[PIECES];
    int32_t sample[PIECES][PATTERN_CHANNELS_MAX];
    uint64_t total;
};

struct outcome {
    int64_t state[MONITOR_STATE_LENGTH], first[CELLS], score[MOST];
    uint32_t length[MOST];
};

static void make_bench(struct bench *b, int channels, int64_t most)
{
    int huge = once(60);

    b->pieces = (size_t)between(1, PIECES);
    b->total = 0;
    for (size_t i = 0; i < b->pieces; i++) {
        int same = i != 0 && once(3);

        b->ticks[i] = (uint32_t)(huge && i == 0 ? between(65530, 65540) : between(1, most));
        for (int j = 0; j < channels; j++)
            b->sample[i][j] = same ? b->sample[i - 1][j] : once(6) ? 0 : (int32_t)between(-30, 30);
        b->total += b->ticks[i];
    }
}

/* Most channels of a piece as in the piece before. */
static void move_few(struct bench *b, int channels)
{
    for (size_t i = 1; i < b->pieces; i++) {
        uint64_t moves = moving((size_t)channels);

        for (int j = 0; j < channels; j++)
            if (!(moves >> j & 1))
                b->sample[i][j] = b->sample[i - 1][j];
    }
}

/* A feed that must be refused; call_feed sees that it alters nothing. */
static void refused_between(const struct known *k, const int32_t *sample)
{
    uint32_t duration = (uint32_t)between(1, 9);
    size_t room = duration;

    memcpy(lend(&values, (size_t)k->channels, where()), sample, (size_t)k->channels * sizeof *sample);
    switch (between(0, 2)) {
    case 0:
        room--;
        break;
    case 1:
        duration = once(2) ? 0 : PIECE_TICKS_MAX + 1;
        break;
    default:
        ((int32_t *)values.at)[draw() % (size_t)k->channels] = once(2) ? VALUE_MAX + 1 : -VALUE_MAX - 1;
    }
    lend_keep(&values);
    lend_reports(room, room);
    lend_keep(&state);
    lend_keep(&first);
    lend_keep(&second);
    expect(call_feed(k, duration) != 0, "a feed that must be refused is done");
}

/* A monitor that is opened on slices with anything in them. */
static void opened(const struct known *k)
{
    lend_state(k->channels);
    if (state.count < MONITOR_STATE_LENGTH) {
        lend(&state, MONITOR_STATE_LENGTH, where());
        memset(state.at, 0x5a, MONITOR_STATE_LENGTH * 8);
        lend_keep(&state);
    }
    lend_table(&first, k->cells + (size_t)between(0, 3), 0);
    lend_table(&second, k->cells + (size_t)between(0, 3), 0);
    expect(call_open(k) == 0, "a monitor cannot be opened");
}

/* Feeds a piece of any length in parts, as long as can be or cut at random with refused feeds between, and keeps the
 * reports. */
static int fed_piece(const struct known *k, uint32_t ticks, const int32_t *sample, int cut, int64_t *score, uint32_t *length)
{
    uint32_t left = ticks;

    while (left > 0) {
        uint32_t part = left > PIECE_TICKS_MAX ? PIECE_TICKS_MAX : left;

        if (cut) {
            part = (uint32_t)between(1, part);
            if (once(3))
                refused_between(k, sample);
        }
        memcpy(lend(&values, (size_t)k->channels, where()), sample, (size_t)k->channels * sizeof *sample);
        lend_keep(&values);
        lend_reports(part + (size_t)between(0, 2), part + (size_t)between(0, 2));
        lend_keep(&state);
        lend_keep(&first);
        lend_keep(&second);
        if (call_feed(k, part) != 0) {
            fail("a piece is refused");
            return 0;
        }
        memcpy(score, scores.at, part * sizeof *score);
        memcpy(length, lengths.at, part * sizeof *length);
        score += part;
        length += part;
        left -= part;
    }
    return 1;
}

static void fed(const struct known *k, const struct bench *b, int cut, struct outcome *o)
{
    uint64_t at = 0;

    opened(k);
    for (size_t i = 0; i < b->pieces; i++) {
        if (!fed_piece(k, b->ticks[i], b->sample[i], cut, o->score + at, o->length + at))
            return;
        at += b->ticks[i];
    }
    memcpy(o->state, state.at, sizeof o->state);
    memcpy(o->first, first.at, (size_t)k->cells * sizeof *o->first);
}

/* The best of a bench as one record. */
static struct record_best best_of(const struct known *k, const struct bench *b)
{
    uint32_t *ticks = lend(&durations, b->pieces, where());
    int32_t *sample = lend(&values, b->pieces * (size_t)k->channels, where());

    memcpy(ticks, b->ticks, b->pieces * sizeof *ticks);
    for (size_t i = 0; i < b->pieces; i++)
        memcpy(sample + i * (size_t)k->channels, b->sample[i], (size_t)k->channels * sizeof *sample);
    lend_keep(&durations);
    lend_keep(&values);
    lend_table(&first, k->cells + (size_t)between(0, 3), 0);
    lend_table(&second, k->cells + (size_t)between(0, 3), 0);
    return call_best(k);
}

static int better(const struct pattern *p, int64_t a, int64_t b)
{
    return p->sum ? a < b : a > b;
}

/* ---- every run of one length, laid out and priced */

struct search {
    const struct pattern *p;
    const struct known *k;
    uint32_t begin, edge[8], stay[8];
    int found;
    int64_t score;
};

static void lay_out(struct search *s, size_t steps, int place, int left)
{
    for (int stay = 1; stay <= left; stay++)
        for (int e = 0; e < s->p->edges; e++) {
            if (s->p->from[e] != place)
                continue;
            s->edge[steps] = (uint32_t)e;
            s->stay[steps] = (uint32_t)stay;
            if (stay < left) {
                lay_out(s, steps + 1, s->p->to[e], left - stay);
            } else if (s->p->end[s->p->to[e]]) {
                struct run_price price;

                memcpy(lend(&edges, steps + 1, where()), s->edge, (steps + 1) * sizeof *s->edge);
                memcpy(lend(&stays, steps + 1, where()), s->stay, (steps + 1) * sizeof *s->stay);
                lend_keep(&edges);
                lend_keep(&stays);
                price = call_price(s->k, s->begin);
                expect(price.refusal == 0 || price.refusal == RUN_IMPOSSIBLE, "a run inside the record is 0 or 10");
                if (price.refusal == 0 && (!s->found || better(s->p, price.score, s->score))) {
                    s->found = 1;
                    s->score = price.score;
                }
            }
        }
}

/* Every report is the best price of all runs in the window with that end, and the least length that has it. */
static void priced(const struct pattern *p, const struct known *k, const struct bench *b, const struct outcome *o)
{
    for (uint64_t end = 1; end <= b->total; end++) {
        uint32_t length = 0;
        int64_t score = 0;

        for (int n = p->low; n <= p->high && (uint64_t)n <= end; n++) {
            struct search s = {p, k, (uint32_t)end - (uint32_t)n, {0}, {0}, 0, 0};

            for (int place = 0; place < p->places; place++)
                if (p->start[place])
                    lay_out(&s, 0, place, n);
            if (s.found && (length == 0 || better(p, s.score, score))) {
                length = (uint32_t)n;
                score = s.score;
            }
        }
        expect(o->length[end - 1] == length && o->score[end - 1] == score, "a report is not the best price of all runs");
    }
}

static void bench(int apart)
{
    static struct outcome whole, cut;
    static struct pattern p;
    struct record_best best;
    struct known k;
    struct bench b;
    uint64_t best_end = 0;

    if (apart)
        make_lendable(&p, APART);
    else
        make_fitting(&p);
    lend_text(p.text, p.length);
    k = know(&p);
    make_bench(&b, p.channels, p.high > 5 ? 12 : 5);
    if (apart)
        move_few(&b, p.channels);
    fed(&k, &b, 0, &whole);
    fed(&k, &b, 1, &cut);
    expect(memcmp(whole.state, cut.state, sizeof whole.state) == 0, "cut feeds leave another state");
    expect(memcmp(whole.first, cut.first, (size_t)k.cells * sizeof *whole.first) == 0, "cut feeds leave another table");
    expect(memcmp(whole.score, cut.score, (size_t)b.total * sizeof *whole.score) == 0 &&
               memcmp(whole.length, cut.length, (size_t)b.total * sizeof *whole.length) == 0,
           "cut feeds tell other reports");

    best = best_of(&k, &b); /* the same as one record */
    for (uint64_t end = 1; end <= b.total; end++) {
        expect(whole.length[end - 1] == 0 || (whole.length[end - 1] >= (uint32_t)p.low &&
                                              whole.length[end - 1] <= (uint32_t)p.high && whole.length[end - 1] <= end),
               "a length outside of the window");
        if (whole.length[end - 1] != 0 && (best_end == 0 || better(&p, whole.score[end - 1], whole.score[best_end - 1])))
            best_end = end;
    }
    expect(best.found == (best_end != 0), "the best is found where none was told, or not where one was");
    if (best_end != 0)
        expect(best.end == best_end && best.begin == best_end - whole.length[best_end - 1] &&
                   best.score == whole.score[best_end - 1],
               "the best of the record is not the best that was told");
    expect(memcmp(first.at, whole.first, (size_t)k.cells * sizeof *whole.first) == 0, "the best leaves another table");
    if (b.total <= 40 && p.high <= 4 && once(2))
        priced(&p, &k, &b, &whole);
}

/* ---- records and pieces as long as can be */

/* Pieces that are drawn out until the record has nearly TICKS_MAX ticks. A run in the window that ends more than `high` ticks
 * after a piece's begin sees that piece alone; so pieces of `high` + 1 ticks in their place give the same reports, the same
 * best but for the ticks between, and the same table. */
static void long_record(void)
{
    static struct pattern p;
    static struct bench b, brief;
    static int64_t table[CELLS];
    struct record_best best, less;
    struct known k;
    uint32_t left;

    make_fitting(&p);
    lend_text(p.text, p.length);
    k = know(&p);
    make_bench(&brief, p.channels, 5);
    b = brief;
    left = TICKS_MAX - (uint32_t)between(0, 2);
    for (size_t i = 0; i < b.pieces; i++) {
        if (i + 1 == b.pieces)
            b.ticks[i] = left;
        else if (once(2))
            b.ticks[i] = (uint32_t)between(1, left / 2);
        left -= b.ticks[i];
    }
    for (size_t i = 0; i < b.pieces; i++)
        brief.ticks[i] = b.ticks[i] > (uint32_t)p.high ? (uint32_t)p.high + 1 : b.ticks[i];
    less = best_of(&k, &brief);
    memcpy(table, first.at, (size_t)k.cells * sizeof *table);
    best = best_of(&k, &b);
    expect(memcmp(first.at, table, (size_t)k.cells * sizeof *table) == 0, "a long record leaves another table");
    if (less.found) {
        uint32_t before = 0, end = less.end;

        for (size_t i = 0; end > brief.ticks[i]; i++) {
            end -= brief.ticks[i];
            before += b.ticks[i];
        }
        less.begin += before + end - less.end;
        less.end = before + end;
    }
    expect(best.found == less.found && best.end == less.end && best.begin == less.begin && best.score == less.score,
           "a long record has another best");
}

/* The longest piece, fed to a fresh monitor and to tables with anything in them; call_feed looks at the reports. */
static void long_feed(void)
{
    static struct pattern p;
    struct known k;

    make_fitting(&p);
    lend_text(p.text, p.length);
    k = know(&p);
    opened(&k);
    for (int i = 0; i < 2; i++) {
        if (once(2)) {
            int64_t *at = first.at;

            for (uint64_t c = 0; c < k.cells; c++)
                at[c] = once(2) ? CELL_MARK : between(-100, 100);
        }
        lend_keep(&state);
        lend_keep(&first);
        lend_keep(&second);
        lend_values((size_t)k.channels);
        lend_reports(PIECE_TICKS_MAX, PIECE_TICKS_MAX + (size_t)between(0, 1));
        call_feed(&k, PIECE_TICKS_MAX);
    }
}

#include "scored.h"

static void round_of(uint64_t number)
{
    seed = round_seed = number;
    for (int i = 0; i < CALLS / 3; i++)
        single();
    for (int i = 0; i < BENCHES; i++)
        bench(0);
    for (int i = 0; i < MOVED_CALLS; i++)
        single_moved();
    for (int i = 0; i < MOVED_BENCHES; i++)
        bench(1);
}

/* How often values lay on each side of bands; how many sides are rare. */
static int rare_sides(const char *weighting, const uint64_t *times)
{
    int rare = 0;

    printf("bands, %-6s", weighting);
    for (int n = 0; n < SIDES; n++)
        printf(" %s:%" PRIu64, side_names[n], times[n]);
    printf("\n");
    for (int n = 0; n < SIDES; n++)
        if (times[n] < 20) {
            rare++;
            printf("FAILED: bands in %s, a value %s only %" PRIu64 " times\n", weighting, side_names[n], times[n]);
        }
    return rare;
}

/* The same of the ways in which channels moved. */
static int rare_moves(void)
{
    int rare = 0;

    printf("channels that move, sum");
    for (int n = 0; n < MOVES; n++)
        printf(" %s:%" PRIu64, move_names[n], moved[n]);
    printf("\n");
    for (int n = 0; n < MOVES; n++)
        if (moved[n] < 20) {
            rare++;
            printf("FAILED: channels that move, %s only %" PRIu64 " times\n", move_names[n], moved[n]);
        }
    return rare;
}

int main(int argc, char **argv)
{
    /* which numbers document 01 names for each function; of the count, 0 for a refused text and 1 for cells */
    static const char *const named[FUNCTIONS] = {
        "\0\1\2\3\4\5\xff",         "\0\1\xff",
        "\0\1\2\3\4\5\x0b\x0c\xff", "\0\1\2\3\4\5\x06\x08\x0b\x0c\x0d\x0e\xff",
        "\0\1\2\3\4\5\x08\x09\x0a\xff", "\0\1\2\3\4\5\x08\x0b\xff"};
    /* which slices each function has; one that is too short, and values that are too many, must occur */
    static const char *const sliced[FUNCTIONS] = {
        "\xff", "\xff", "\0\1\2\3\xff", "\0\1\2\3\4\5\6\7\xff", "\4\xff", "\1\2\3\4\xff"};
    int passed = 0, failed = 0;

    lend_room(&text, 1, CASE_BYTES);
    lend_room(&state, 8, 16);
    lend_room(&first, 8, CELLS + 10);
    lend_room(&second, 8, CELLS + 10);
    lend_room(&values, 4, STEPS * PATTERN_CHANNELS_MAX + 40);
    lend_room(&scores, 8, LONG + 10);
    lend_room(&lengths, 4, LONG + 10);
    lend_room(&durations, 4, STEPS);
    lend_room(&edges, 4, STEPS);
    lend_room(&stays, 4, STEPS);
    if (argc >= 4 && strcmp(argv[1], "cases") == 0) {
        wrong = argc == 5 ? (int)strtol(argv[4], NULL, 10) : 0;
        answer_cases(argv[2], argv[3]);
        printf("%" PRIu64 " calls, %" PRIu64 " feeds beside the plain monitor\n", calls, compared);
        return failures != 0;
    }
    if (argc == 2 && strcmp(argv[1], "long") == 0) {
        for (uint64_t i = 1; i <= LONG_ROUNDS; i++) {
            int before = failures;

            seed = round_seed = i;
            long_record();
            long_feed();
            if (failures == before)
                passed++;
            else
                failed++;
        }
        printf("%d passed, %d failed\n", passed, failed);
        return failed != 0;
    }
    if (argc == 2) {
        round_of(strtoull(argv[1], NULL, 10));
        return failures != 0;
    }
    if (argc == 3) {
        wrong = (int)strtol(argv[2], NULL, 10);
        if (strcmp(argv[1], "wrong") != 0 || wrong < 1 || wrong > WRONG)
            return 2;
        for (uint64_t i = 1; i <= 10 && failures == 0; i++)
            round_of(i);
        return failures != 0;
    }
    for (uint64_t i = 1; i <= ROUNDS; i++) {
        int before = failures;

        round_of(i);
        if (failures == before)
            passed++;
        else
            failed++;
    }
    for (int f = 0; f < FUNCTIONS; f++) {
        uint64_t all = 0, right = 0;

        printf("%-13s", names[f]);
        for (int n = 0; n < 16; n++) {
            all += seen[f][n];
            if (seen[f][n])
                printf(" %d:%" PRIu64, n, seen[f][n]);
        }
        printf("\n");
        for (const char *n = named[f]; *n != '\xff'; n++) {
            right += seen[f][(int)*n];
            if (seen[f][(int)*n] < 20) {
                failed++;
                printf("FAILED: %s answered %d only %" PRIu64 " times\n", names[f], *n, seen[f][(int)*n]);
            }
        }
        if (right != all) {
            failed++;
            printf("FAILED: %s answered a number that is not named for it\n", names[f]);
        }
        for (const char *s = sliced[f]; *s != '\xff'; s++)
            for (int n = 0; n < (*s == VALUES ? SHAPES : ONE_LONG); n++)
                if (shaped[f][(int)*s][n] < 20) {
                    failed++;
                    printf("FAILED: %s, %s %s only %" PRIu64 " times\n", names[f], slice_names[(int)*s], shape_names[n],
                           shaped[f][(int)*s][n]);
                }
    }
    failed += rare_sides("margin", measured[0]) + rare_sides("sum", measured[1]) + rare_moves();
    if (compared < 10000) {
        failed++;
        printf("FAILED: too few feeds beside the plain monitor\n");
    }
    lend_end(&text);
    lend_end(&state);
    lend_end(&first);
    lend_end(&second);
    lend_end(&values);
    lend_end(&scores);
    lend_end(&lengths);
    lend_end(&durations);
    lend_end(&edges);
    lend_end(&stays);
    printf("%" PRIu64 " feeds beside the plain monitor\n", compared);
    printf("%" PRIu64 " calls\n", calls);
    printf("%d passed, %d failed\n", passed, failed);
    return failed != 0;
}
