/* vectors.c: runs the cases of data files through the C interface.
 *
 *     vectors FILE..
 *
 * A data file says its own form (prices.txt has the whole of it). Each case is run three times: with every lent slice in a
 * heap block of exactly its size, at the end of pages of its own, and at their start (lend.h). It passes if each time the
 * answer and every element of every lent slice are what the case says; slices that the interface takes as const must be
 * as they were lent. The last line counts the cases; one that repeats the call of another, with the same lent and the same
 * due, is run and not counted. A file that is not in the form ends the program with status 2. */
#define _DEFAULT_SOURCE
#include <inttypes.h>
#include <signal.h>

#include "../lend.h"
#include "bench_margin.h"

#define ROOM 70000 /* elements of the longest slice, at least */
#define PLACEMENTS 3
#define ANSWERS 5

/* ---- the interface: what each function is lent, in the order of its parameters */

enum part { TEXT, STATE, FIRST, SECOND, DURATION, DURATIONS, VALUES, BEGIN, EDGES, STAYS, SCORES, LENGTHS, PARTS };

enum type { U8, U32, I32, I64 };

static const struct {
    const char *name;
    enum type type;
    int written; /* not const */
    int single;  /* a number, not a slice */
} parts[PARTS] = {
    [TEXT] = {"text", U8, 0, 0},           [STATE] = {"state", I64, 1, 0},
    [FIRST] = {"first", I64, 1, 0},        [SECOND] = {"second", I64, 1, 0},
    [DURATION] = {"duration", U32, 0, 1},  [DURATIONS] = {"durations", U32, 0, 0},
    [VALUES] = {"values", I32, 0, 0},      [BEGIN] = {"begin", U32, 0, 1},
    [EDGES] = {"edges", U32, 0, 0},        [STAYS] = {"stays", U32, 0, 0},
    [SCORES] = {"scores", I64, 1, 0},      [LENGTHS] = {"lengths", U32, 1, 0},
};

static const struct {
    size_t width;
    int64_t least, most;
} types[] = {
    [U8] = {1, 0, UINT8_MAX}, [U32] = {4, 0, UINT32_MAX}, [I32] = {4, INT32_MIN, INT32_MAX}, [I64] = {8, INT64_MIN, INT64_MAX}};

enum call { PRICE, OPEN, FEED, BEST, CALLS };

static const struct {
    const char *name;
    enum part lent[8]; /* up to the first TEXT, which every call has first */
} calls[CALLS] = {
    [PRICE] = {"price", {DURATIONS, VALUES, BEGIN, EDGES, STAYS}},
    [OPEN] = {"open", {STATE, FIRST, SECOND}},
    [FEED] = {"feed", {STATE, FIRST, SECOND, DURATION, VALUES, SCORES, LENGTHS}},
    [BEST] = {"best", {DURATIONS, VALUES, FIRST, SECOND}},
};

/* ---- a data file, item by item: an item is a line, or a part of one up to a semicolon */

struct item {
    int line;
    char *words; /* empty: a blank line */
};

static const char *file;
static struct item *items;
static size_t item_count, at;

static _Noreturn void broken(int line, const char *what, const char *word)
{
    fprintf(stderr, "vectors: %s, line %d: %s%s%s\n", file, line, what, word ? ": " : "", word ? word : "");
    exit(2);
}

static void *room_for(size_t count, size_t width)
{
    void *room = calloc(count ? count : 1, width);

    if (!room)
        lend_fault("no memory");
    return room;
}

static void add_item(int line, const char *from, size_t length)
{
    char *words = room_for(length + 1, 1);

    while (length > 0 && *from == ' ')
        from++, length--;
    while (length > 0 && from[length - 1] == ' ')
        length--;
    memcpy(words, from, length);
    items = realloc(items, (item_count + 1) * sizeof *items);
    if (!items)
        lend_fault("no memory");
    items[item_count++] = (struct item){line, words};
}

/* A line of a text, a title and a comment have no parts. */
static void add_line(int line, const char *from, size_t length)
{
    if (length > 0 && *from == '#')
        return;
    if (length > 0 && *from != '|' && strncmp(from, "case ", 5) != 0)
        for (const char *end; (end = memchr(from, ';', length)); length -= (size_t)(end + 1 - from), from = end + 1)
            add_item(line, from, (size_t)(end - from));
    add_item(line, from, length);
}

static char *read_bytes(const char *path)
{
    FILE *f = fopen(path, "r");
    long size;
    char *bytes;

    if (!f || fseek(f, 0, SEEK_END) != 0 || (size = ftell(f)) < 0)
        broken(0, "cannot be read", NULL);
    rewind(f);
    bytes = room_for((size_t)size + 1, 1);
    if (fread(bytes, 1, (size_t)size, f) != (size_t)size || strlen(bytes) != (size_t)size)
        broken(0, "cannot be read, or holds a zero byte", NULL);
    fclose(f);
    return bytes;
}

static void read_items(const char *path)
{
    char *bytes = read_bytes(path);
    int line = 1;

    for (char *from = bytes, *end; *from; from = end + 1, line++) {
        end = strchr(from, '\n');
        if (!end)
            broken(line, "no line feed", NULL);
        add_line(line, from, (size_t)(end - from));
    }
    add_item(line, "", 0);
    free(bytes);
}

/* The words behind `name` if the item that is due begins with it. */
static char *words_of(const char *name)
{
    size_t length = strlen(name);
    char *words = at < item_count ? items[at].words : NULL;

    if (!words || strncmp(words, name, length) != 0 || (words[length] != ' ' && words[length] != 0))
        return NULL;
    at++;
    return words + length + (words[length] == ' ');
}

static int line_now(void) { return items[at < item_count ? at : item_count - 1].line; }

/* ---- numbers and lists of them */

struct list {
    size_t count;
    int64_t *numbers;
};

static int64_t number_of(const char *word, enum type type, int line)
{
    char *end;
    long long n;

    if (type == I64 && strcmp(word, "mark") == 0)
        return CELL_MARK;
    n = strtoll(word, &end, 10);
    if (end == word || *end || n < types[type].least || n > types[type].most ||
        (n == INT64_MAX && strcmp(word, "9223372036854775807") != 0) || n == INT64_MIN)
        broken(line, "no such number", word);
    return n;
}

/* `I:V` or `I-J:V` puts another number at a place of a list, or at the places from I to J. */
static void except(struct list *l, char *word, enum type type, int line)
{
    char *colon = strchr(word, ':'), *dash;
    int64_t from, to, n;

    if (!colon)
        broken(line, "no place", word);
    *colon = 0;
    dash = strchr(word, '-');
    if (dash)
        *dash = 0;
    from = number_of(word, U32, line);
    to = dash ? number_of(dash + 1, U32, line) : from;
    n = number_of(colon + 1, type, line);
    if (from > to || (uint64_t)to >= l->count)
        broken(line, "a place that the list lacks", word);
    for (int64_t i = from; i <= to; i++)
        l->numbers[i] = n;
}

/* `none`; `N of V` and exceptions `I:V`; or the numbers one by one. */
static struct list list_of(char *words, enum type type, int line)
{
    struct list l = {0, NULL};
    char *kept, *word = strtok_r(words, " ", &kept), *next = word ? strtok_r(NULL, " ", &kept) : NULL;

    if (!word)
        broken(line, "a list without numbers: it is written `none`", NULL);
    if (strcmp(word, "none") == 0 && !next)
        return (struct list){0, room_for(0, sizeof *l.numbers)};
    if (next && strcmp(next, "of") == 0) {
        int64_t count = number_of(word, U32, line), fill;

        if (count > ROOM || !(word = strtok_r(NULL, " ", &kept)))
            broken(line, "no such list", NULL);
        fill = number_of(word, type, line);
        l = (struct list){(size_t)count, room_for((size_t)count, sizeof *l.numbers)};
        for (size_t i = 0; i < l.count; i++)
            l.numbers[i] = fill;
        while ((word = strtok_r(NULL, " ", &kept)))
            except(&l, word, type, line);
        return l;
    }
    l.numbers = room_for(ROOM, sizeof *l.numbers);
    for (; word; word = next, next = next ? strtok_r(NULL, " ", &kept) : NULL) {
        if (l.count == ROOM)
            broken(line, "too long a list", NULL);
        l.numbers[l.count++] = number_of(word, type, line);
    }
    l.numbers = realloc(l.numbers, l.count * sizeof *l.numbers);
    return l;
}

/* ---- texts of patterns: blocks `text NAME` of lines `|..`, in which WEIGHING stands for `margin` or `sum` */

struct text {
    char *name;
    char bytes[PATTERN_TEXT_MAX + 2];
};

static struct text *texts;
static size_t text_count;

static void read_text(char *name)
{
    struct text *t;
    size_t length = 0;

    for (size_t i = 0; i < text_count; i++)
        if (strcmp(texts[i].name, name) == 0)
            broken(line_now(), "a text twice", name);
    texts = realloc(texts, (text_count + 1) * sizeof *texts);
    if (!texts)
        lend_fault("no memory");
    t = &texts[text_count++];
    t->name = name;
    for (; items[at].words[0] == '|'; at++) {
        size_t more = strlen(items[at].words + 1);

        if (length + more + 2 > sizeof t->bytes)
            broken(line_now(), "too long a text", name);
        memcpy(t->bytes + length, items[at].words + 1, more);
        length += more;
        t->bytes[length++] = '\n';
    }
    t->bytes[length] = 0;
    if (length == 0)
        broken(line_now(), "a text without lines", name);
}

static struct list bytes_of(const char *bytes)
{
    struct list l = {strlen(bytes), room_for(strlen(bytes), sizeof *l.numbers)};

    for (size_t i = 0; i < l.count; i++)
        l.numbers[i] = (uint8_t)bytes[i];
    return l;
}

/* `NAME`, or `NAME margin` and `NAME sum` for a text with the word WEIGHING. */
static struct list text_of(char *words, int line)
{
    char *kept, *name = strtok_r(words, " ", &kept), *weighing = strtok_r(NULL, " ", &kept);
    char with[PATTERN_TEXT_MAX + 16];

    if (weighing && ((strcmp(weighing, "margin") != 0 && strcmp(weighing, "sum") != 0) || strtok_r(NULL, " ", &kept)))
        broken(line, "no such weighing", weighing);
    for (size_t i = 0; name && i < text_count; i++) {
        const char *bytes = texts[i].bytes, *gap = strstr(bytes, "WEIGHING");

        if (strcmp(texts[i].name, name) != 0)
            continue;
        if (!gap != !weighing)
            broken(line, "a weighing too many or too few for the text", name);
        if (!gap)
            return bytes_of(bytes);
        snprintf(with, sizeof with, "%.*s%s%s", (int)(gap - bytes), bytes, weighing, gap + strlen("WEIGHING"));
        return bytes_of(with);
    }
    broken(line, "no such text", name);
}

/* ---- cases */

struct one_case {
    const char *file, *title;
    int line;
    enum call call;
    struct list lent[PARTS], after[PARTS];
    int as_left[PARTS], unchanged[PARTS];
    int64_t answer[ANSWERS]; /* the refusal; then the score, or whether a run was found, its end, begin and score */
    int failed;
};

static struct one_case *cases;
static size_t case_count;

/* The first part that is not the text's ends the list. */
static int lent_part(enum call call, int i, enum part *part)
{
    *part = calls[call].lent[i];
    return *part != TEXT;
}

static void read_lent(struct one_case *c, enum part part)
{
    int line = line_now();
    char *words = words_of(parts[part].name);

    if (!words)
        broken(line, "here must be said what is lent", parts[part].name);
    if (strcmp(words, "as left") == 0 && (part == STATE || part == FIRST || part == SECOND))
        c->as_left[part] = 1;
    else
        c->lent[part] = list_of(words, parts[part].type, line);
    if (parts[part].single && c->lent[part].count != 1)
        broken(line, "one number is due", parts[part].name);
}

static void read_after(struct one_case *c, enum part part)
{
    int line = line_now();
    char *words = words_of(parts[part].name);

    if (!words)
        broken(line, "here must be said what is there afterwards", parts[part].name);
    if (strcmp(words, "unchanged") == 0)
        c->unchanged[part] = 1;
    else
        c->after[part] = list_of(words, parts[part].type, line);
}

/* An answer's numbers, from place `from` on. */
static void read_numbers(struct one_case *c, int from, size_t count, char *words, int line)
{
    struct list l = list_of(words, I64, line);

    if (l.count != count)
        broken(line, "a number too many or too few in the answer", NULL);
    for (size_t i = 0; i < count; i++)
        c->answer[(size_t)from + i] = l.numbers[i];
    free(l.numbers);
}

static void read_answer(struct one_case *c)
{
    int line = line_now();
    char *words;

    if ((words = words_of("refused"))) {
        read_numbers(c, 0, 1, words, line);
        if (c->answer[0] < 1 || c->answer[0] > 14)
            broken(line, "no such refusal", NULL);
    } else if (c->call == PRICE && (words = words_of("score"))) {
        read_numbers(c, 1, 1, words, line);
    } else if (c->call == BEST && (words = words_of("run"))) {
        c->answer[1] = 1;
        read_numbers(c, 2, 3, words, line);
    } else if (!(c->call == BEST && (words = words_of("none")) && !*words) &&
               !((c->call == OPEN || c->call == FEED) && (words = words_of("done")) && !*words)) {
        broken(line, "here must be said what is answered", calls[c->call].name);
    }
}

static void read_call(struct one_case *c)
{
    for (int call = 0; call < CALLS; call++) {
        int line = line_now();
        char *words = words_of(calls[call].name);

        if (words) {
            c->call = (enum call)call;
            c->lent[TEXT] = text_of(words, line);
            return;
        }
    }
    broken(line_now(), "no such call", items[at].words);
}

/* What is lent, the answer and what is there afterwards, each in the order of the interface, and nothing else. */
static void read_case(char *title)
{
    struct one_case c = {.file = file, .title = title, .line = items[at - 1].line};
    enum part part;

    for (size_t i = 0; i < case_count; i++)
        if (strcmp(cases[i].title, title) == 0 && cases[i].file == file)
            broken(c.line, "a title twice", title);
    read_call(&c);
    for (int i = 0; lent_part(c.call, i, &part); i++)
        read_lent(&c, part);
    read_answer(&c);
    for (int i = 0; lent_part(c.call, i, &part); i++)
        if (parts[part].written)
            read_after(&c, part);
    cases = realloc(cases, (case_count + 1) * sizeof *cases);
    if (!cases)
        lend_fault("no memory");
    cases[case_count++] = c;
}

static void read_file(const char *path)
{
    char *words;

    file = path;
    text_count = 0;
    read_items(path);
    while (at < item_count) {
        if (!*items[at].words)
            at++;
        else if ((words = words_of("text")))
            read_text(words);
        else if ((words = words_of("case")))
            read_case(words);
        else
            broken(line_now(), "no such word", items[at].words);
        if (at < item_count && *items[at].words && at > 0 && *items[at - 1].words)
            broken(line_now(), "an item too many in a paragraph", items[at].words);
    }
}

/* ---- a case is run */

static struct lent blocks[PARTS];
static struct list left[PARTS];
static struct one_case *running;

static int64_t element(const void *from, enum type type, size_t i)
{
    const unsigned char *p = (const unsigned char *)from + i * types[type].width;
    uint32_t u;
    int32_t s;
    int64_t n;

    switch (type) {
    case U8: return *p;
    case U32: return memcpy(&u, p, 4), u;
    case I32: return memcpy(&s, p, 4), s;
    default: return memcpy(&n, p, 8), n;
    }
}

static void put_element(void *to, enum type type, size_t i, int64_t n)
{
    unsigned char *p = (unsigned char *)to + i * types[type].width;
    uint32_t u = (uint32_t)n;
    int32_t s = (int32_t)n;

    switch (type) {
    case U8: *p = (unsigned char)n; break;
    case U32: memcpy(p, &u, 4); break;
    case I32: memcpy(p, &s, 4); break;
    default: memcpy(p, &n, 8);
    }
}

static void fail(const char *what, int where)
{
    static const char *const places[] = {"the heap", "the end of pages", "the start of pages"};

    if (!running->failed)
        printf("FAILED %s: %s (%s, line %d; in %s)\n", running->title, what, running->file, running->line, places[where]);
    running->failed = 1;
}

static void lend_part(enum part part, const struct list *l, int where)
{
    void *to = lend(&blocks[part], l->count, (unsigned)where);

    for (size_t i = 0; i < l->count; i++)
        put_element(to, parts[part].type, i, l->numbers[i]);
    lend_keep(&blocks[part]);
}

#define SLICE(part) blocks[part].at, blocks[part].count

static void make_call(const struct one_case *c, int64_t *answer)
{
    if (c->call == PRICE) {
        struct run_price r = run_price(SLICE(TEXT), SLICE(DURATIONS), SLICE(VALUES), (uint32_t)c->lent[BEGIN].numbers[0],
                                       SLICE(EDGES), SLICE(STAYS));

        answer[0] = r.refusal;
        answer[1] = r.score;
    } else if (c->call == OPEN) {
        answer[0] = monitor_open(SLICE(TEXT), SLICE(STATE), SLICE(FIRST), SLICE(SECOND));
    } else if (c->call == FEED) {
        answer[0] = monitor_feed(SLICE(TEXT), SLICE(STATE), SLICE(FIRST), SLICE(SECOND),
                                 (uint32_t)c->lent[DURATION].numbers[0], SLICE(VALUES), SLICE(SCORES), SLICE(LENGTHS));
    } else {
        struct record_best r = record_best(SLICE(TEXT), SLICE(DURATIONS), SLICE(VALUES), SLICE(FIRST), SLICE(SECOND));

        answer[0] = r.refusal;
        answer[1] = r.found;
        answer[2] = r.end;
        answer[3] = r.begin;
        answer[4] = r.score;
    }
}

static void compare_answer(const int64_t *answer, int where)
{
    static const char *const price[] = {"refusal", "score"}, *const best[] = {"refusal", "found", "end", "begin", "score"};
    char what[200];

    for (int i = 0; i < ANSWERS; i++)
        if (answer[i] != running->answer[i]) {
            snprintf(what, sizeof what, "%s %" PRId64 " is answered, due %" PRId64,
                     running->call == BEST ? best[i] : price[i], answer[i], running->answer[i]);
            fail(what, where);
        }
}

static void compare_part(enum part part, int where)
{
    const struct lent *l = &blocks[part];
    const struct list *due = running->unchanged[part] ? &running->lent[part] : &running->after[part];
    char what[200];

    if (!parts[part].written ? !lend_same(l, 0) : !lend_same(l, l->count)) {
        snprintf(what, sizeof what, "%s, or the bytes beside it, are written", parts[part].name);
        fail(what, where);
    }
    for (size_t i = 0; parts[part].written && i < l->count; i++) {
        int64_t n = element(l->at, parts[part].type, i);

        if (n != due->numbers[i]) {
            snprintf(what, sizeof what, "%s[%zu] holds %" PRId64 ", due %" PRId64, parts[part].name, i, n, due->numbers[i]);
            fail(what, where);
            return;
        }
    }
}

/* State and tables are kept for a case that goes on with them. */
static void keep_part(enum part part)
{
    const struct lent *l = &blocks[part];

    left[part].count = l->count;
    left[part].numbers = realloc(left[part].numbers, (l->count + 1) * sizeof *left[part].numbers);
    if (!left[part].numbers)
        lend_fault("no memory");
    for (size_t i = 0; i < l->count; i++)
        left[part].numbers[i] = element(l->at, parts[part].type, i);
}

static void copy_left(struct one_case *c, enum part part)
{
    if (!left[part].numbers)
        broken(c->line, "nothing is left yet", parts[part].name);
    free(c->lent[part].numbers);
    c->lent[part].count = left[part].count;
    c->lent[part].numbers = room_for(left[part].count, sizeof(int64_t));
    memcpy(c->lent[part].numbers, left[part].numbers, left[part].count * sizeof(int64_t));
}

static void run_case(struct one_case *c, int where)
{
    int64_t answer[ANSWERS] = {0};
    enum part part;

    running = c;
    file = c->file;
    lend_part(TEXT, &c->lent[TEXT], where);
    for (int i = 0; lent_part(c->call, i, &part); i++) {
        if (c->as_left[part])
            copy_left(c, part);
        if (parts[part].written && !c->unchanged[part] && c->after[part].count != c->lent[part].count)
            broken(c->line, "as many elements are there afterwards as were lent", parts[part].name);
        if (!parts[part].single)
            lend_part(part, &c->lent[part], where);
    }
    make_call(c, answer);
    compare_answer(answer, where);
    compare_part(TEXT, where);
    for (int i = 0; lent_part(c->call, i, &part); i++) {
        if (!parts[part].single)
            compare_part(part, where);
        if (part == STATE || part == FIRST || part == SECOND)
            keep_part(part);
    }
}

/* A step past a slice in pages is the failure of the case that is run. */
static void step_past(int signal)
{
    (void)signal;
    printf("FAILED %s: a step past what was lent\n", running ? running->title : "no case");
    fflush(stdout);
    _exit(1);
}

static int same_list(const struct list *a, const struct list *b)
{
    return a->count == b->count && (a->count == 0 || memcmp(a->numbers, b->numbers, a->count * sizeof *a->numbers) == 0);
}

static int same_case(const struct one_case *a, const struct one_case *b)
{
    if (a->call != b->call || memcmp(a->answer, b->answer, sizeof a->answer) != 0)
        return 0;
    for (int part = 0; part < PARTS; part++)
        if (!same_list(&a->lent[part], &b->lent[part]) ||
            !same_list(a->unchanged[part] ? &a->lent[part] : &a->after[part],
                       b->unchanged[part] ? &b->lent[part] : &b->after[part]))
            return 0;
    return 1;
}

/* Whether a case before it is the same; what was lent `as left` is known once the cases have run. */
static int repeats(size_t i)
{
    for (size_t j = 0; j < i; j++)
        if (same_case(&cases[i], &cases[j]))
            return 1;
    return 0;
}

int main(int argc, char **argv)
{
    size_t failed = 0, repeated = 0;

    for (int i = 1; i < argc; i++)
        read_file(argv[i]);
    if (case_count == 0) {
        fprintf(stderr, "usage: vectors FILE.., with cases in them\n");
        return 2;
    }
    signal(SIGSEGV, step_past);
    signal(SIGBUS, step_past);
    for (int part = 0; part < PARTS; part++)
        lend_room(&blocks[part], types[parts[part].type].width, ROOM);
    for (int where = 0; where < PLACEMENTS; where++)
        for (size_t i = 0; i < case_count; i++)
            run_case(&cases[i], where);
    for (int part = 0; part < PARTS; part++)
        lend_end(&blocks[part]);
    for (size_t i = 0; i < case_count; i++) {
        failed += (size_t)cases[i].failed;
        repeated += (size_t)(!cases[i].failed && repeats(i));
    }
    if (repeated > 0)
        printf("%zu cases repeat another\n", repeated);
    printf("%zu passed, %zu failed\n", case_count - failed - repeated, failed);
    return failed != 0;
}
