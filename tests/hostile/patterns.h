/* patterns.h: random pattern texts: sound ones and ones with an odd band, and what is known of them; damaged ones. */
#ifndef PATTERNS_H
#define PATTERNS_H

#include <stdint.h>
#include <stdio.h>
#include <string.h>

#define TEXT_ROOM 16384

struct pattern {
    uint8_t text[TEXT_ROOM];
    size_t length;
    int sum, channels, clocks, low, high, places, edges;
    int start[16], end[16], tests[16], from[32], to[32];
    uint32_t refusal; /* of the text: 0, or what an odd band is refused with */
    uint64_t cells;   /* by document 01's formula, 0 beside a refusal */
};

/* ---- draws: splitmix64, the same for the same seed everywhere */

static uint64_t seed;

static uint64_t draw(void)
{
    uint64_t z = seed += UINT64_C(0x9e3779b97f4a7c15);

    z = (z ^ (z >> 30)) * UINT64_C(0xbf58476d1ce4e5b9);
    z = (z ^ (z >> 27)) * UINT64_C(0x94d049bb133111eb);
    return z ^ (z >> 31);
}

/* from low to high, both included */
static int64_t between(int64_t low, int64_t high)
{
    return low + (int64_t)(draw() % (uint64_t)(high - low + 1));
}

/* once in n */
static int once(uint64_t n)
{
    return draw() % n == 0;
}

/* ---- a sound text */

static void add(struct pattern *p, const char *form, ...) __attribute__((format(printf, 2, 3)));

#include <stdarg.h>

static void add(struct pattern *p, const char *form, ...)
{
    va_list args;
    int n;

    va_start(args, form);
    n = vsnprintf((char *)p->text + p->length, TEXT_ROOM - p->length, form, args);
    va_end(args);
    if (n > 0 && p->length + (size_t)n < TEXT_ROOM)
        p->length += (size_t)n;
}

static const char *const signs[] = {"<", "<=", ">", ">="};

/* Which tests are bands: none, one in two, or all, with as many in each place as there may be. */
enum { NO_BANDS, SOME_BANDS, ALL_BANDS };

/* Any ends, equal ones, and ends at the limits of their range, where equal ones can stand too. */
static void add_band(struct pattern *p, int channel, int most)
{
    int low = (int)(once(6) ? -1000000 : once(20) ? 1000000 : between(-most, most));
    int high = (int)(low >= most || once(4) ? low : once(5) ? 1000000 : between(low, most));

    add(p, " (in %d %d %d)", channel, low, high);
}

static void add_test(struct pattern *p, int bands, int most)
{
    int channel = (int)between(0, p->channels - 1);

    if (bands == ALL_BANDS || (bands == SOME_BANDS && once(2)))
        add_band(p, channel, most);
    else
        add(p, " (%s %d %d)", signs[between(0, 3)], channel, (int)between(-most, most));
}

/* Small: tables of a few hundred cells and few runs. Middle: many clocks or a wide window. Large: anything that a text can
 * say. Apart: small, in sum, with places that test some of several channels. */
enum { SMALL, MIDDLE, LARGE, APART };

static void make_pattern(struct pattern *p, int size)
{
    int large = size == LARGE, middle = size == MIDDLE, apart = size == APART, bands = (int)between(NO_BANDS, ALL_BANDS);
    static const char *const kinds[] = {"start", "plain", "end", "both"};
    int largest[4] = {-1, -1, -1, -1};

    memset(p, 0, sizeof *p);
    p->sum = apart || between(0, 1);
    p->channels = (int)(apart ? between(2, once(2) ? 8 : 3) : large ? between(1, 8) : once(8) ? 8 : between(1, 2));
    p->clocks = (int)(middle ? between(once(2) ? 3 : 0, 4) : between(0, large ? 4 : 2));
    p->high = (int)between(1, large ? 4095 : middle ? 30 : 5);
    p->low = (int)between(1, large ? p->high : once(3) ? p->high : middle ? (p->high + 1) / 2 : 1);
    p->places = (int)between(apart ? 2 : 1, large ? 16 : middle ? 6 : 3);
    p->edges = (int)between(once(6) ? 0 : 1, large ? 32 : middle ? 12 : 5);
    add(p, "(pattern %s %d %d %d %d)\n", p->sum ? "sum" : "margin", p->channels, p->clocks, p->low, p->high);
    for (int i = 0; i < p->places; i++) {
        int kind = (int)between(0, 3);

        if (!large && i == 0 && !once(8))
            kind = once(2) ? 0 : 3;
        if (!large && i == p->places - 1 && !once(8))
            kind = i == 0 ? 3 : once(2) ? 2 : 3;
        p->start[i] = kind == 0 || kind == 3;
        p->end[i] = kind >= 2;
        p->tests[i] = bands == ALL_BANDS ? 4 : (int)between(0, large ? 4 : 2);
        add(p, "(place %s", kinds[kind]);
        for (int t = 0; t < p->tests[i]; t++)
            add_test(p, bands, large ? 1000000 : 20);
        add(p, ")\n");
    }
    for (int i = 0; i < p->edges; i++) {
        p->from[i] = (int)between(0, p->places - 1);
        p->to[i] = (int)between(0, p->places - 1);
        add(p, "(edge %d %d", p->from[i], p->to[i]);
        for (int64_t g = p->clocks == 0 ? 0 : between(0, large ? 4 : once(2) ? 0 : 1); g > 0; g--) {
            int clock = (int)between(0, p->clocks - 1), bound = (int)between(0, large ? 1000 : 3);

            if (bound > largest[clock])
                largest[clock] = bound;
            add(p, " (%s %d %d)", signs[between(0, 3)], clock, bound);
        }
        if (p->clocks != 0 && once(2)) {
            int said = 0;

            for (int k = 0; k < p->clocks; k++)
                if (once(2) || (k == p->clocks - 1 && !said)) {
                    add(p, said ? " %d" : " (reset %d", k);
                    said = 1;
                }
            add(p, ")");
        }
        add(p, ")\n");
    }
    p->cells = (uint64_t)(p->high + 1) * 2 * (uint64_t)p->places;
    for (int k = 0; k < p->clocks; k++)
        p->cells *= (uint64_t)(largest[k] < 0 ? 1 : 1 + largest[k]) + 1;
}

/* ---- a damaged text */

static void insert(struct pattern *p, size_t at, const char *bytes, size_t count)
{
    if (p->length + count >= TEXT_ROOM)
        return;
    memmove(p->text + at + count, p->text + at, p->length - at);
    memcpy(p->text + at, bytes, count);
    p->length += count;
}

/* a place in the text where a digit stands, or its end */
static size_t digit(const struct pattern *p)
{
    size_t at = p->length == 0 ? 0 : (size_t)(draw() % p->length);

    while (at < p->length && (p->text[at] < '0' || p->text[at] > '9'))
        at++;
    return at;
}

static void damage(struct pattern *p)
{
    static const char *const numbers[] = {"99999999999999999999999999", "4294967296", "2147483648", "18446744073709551616",
                                          "1000001", "4096", "65536", "256", "16", "9", "-", "00"};
    static const char *const lines[] = {"(place both)\n", "(edge 0 0)\n", "(edge 15 0)\n", "(edge 0 0 (< 3 5))\n",
                                        "(edge 0 0 (reset 0 0))\n", "(edge 0 0 (reset 1 0))\n", "(place plain (< 7 1))\n",
                                        "(place plain (in 7 0 1))\n", "(edge 0 0 (in 0 0 1))\n", "\n", "(piece 1 1)\n"};
    size_t at = p->length == 0 ? 0 : (size_t)(draw() % (p->length + 1));
    const char *word;

    switch (between(0, 9)) {
    case 0:
        p->length = at;
        break;
    case 1:
        if (at < p->length)
            p->text[at] = (uint8_t)draw();
        break;
    case 2:
        if (at < p->length)
            memmove(p->text + at, p->text + at + 1, --p->length - at);
        break;
    case 3:
        p->length = 0;
        break;
    case 4: /* a number in the place of a digit */
        at = digit(p);
        if (at < p->length)
            memmove(p->text + at, p->text + at + 1, --p->length - at);
        word = numbers[between(0, 11)];
        insert(p, at, word, strlen(word));
        break;
    case 5: /* a digit more */
        insert(p, digit(p), "7", 1);
        break;
    case 6: /* lines more */
        word = lines[between(0, 10)];
        for (int64_t n = between(1, 40); n > 0; n--)
            insert(p, p->length, word, strlen(word));
        break;
    case 7: /* more bytes than a text may have, or just as many */
        for (size_t most = (size_t)between(8190, 8195); p->length < most;)
            p->text[p->length++] = (uint8_t)(once(2) ? '0' : draw());
        break;
    case 8: /* tests or guards too many */
        word = once(2) ? " (< 0 1) (< 0 1) (< 0 1) (< 0 1) (< 0 1)" : " (in 0 0 1) (in 0 0 1) (in 0 0 1) (in 0 0 1) (in 0 0 1)";
        for (size_t i = 0; i + 1 < p->length; i++)
            if (p->text[i] == ')' && p->text[i + 1] == '\n' && once(3)) {
                insert(p, i, word, strlen(word));
                i += strlen(word);
            }
        break;
    default: /* noise */
        p->length = (size_t)between(0, 300);
        for (size_t i = 0; i < p->length; i++)
            p->text[i] = (uint8_t)draw();
    }
}

/* ---- a sound text with a band more, broken or one too many */

static const struct {
    const char *band;
    uint32_t refusal; /* in a place that has fewer than four tests */
} odd_bands[] = {
    {" (in 0 -7 7)", 0},
    {" (in 0 7)", 2},
    {" (in 0 7 8 9)", 2},
    {" (in)", 2},
    {" (In 0 7 8)", 2},
    {" (inside 0 7 8)", 2},
    {" (in 0 -0 8)", 2},
    {" (in 0 -8 -0)", 2},
    {" (in 0 +7 8)", 2},
    {" (in 0 07 8)", 2},
    {" (in -0 7 8)", 2},
    {" (in 0  7 8)", 2},
    {" (in 0 7 8 )", 2},
    {"(in 0 7 8)", 2},
    {" (in 0 8 7", 2},
    {" (in 0 8 7)", 3},
    {" (in 0 -7 -8)", 3},
    {" (in 0 1000000 -1000000)", 3},
    {" (in 0 1000001 1000001)", 3},
    {" (in 0 -1000001 -1000001)", 3},
    {" (in 0 7 1000001)", 3},
    {" (in 0 -1000001 7)", 3},
    {" (in 0 4294967303 8)", 3}, /* 2^32 + 7 */
    {" (in 0 7 18446744073709551624)", 3}, /* 2^64 + 8 */
    {" (in 8 8 7)", 3},
    {" (in 8 7 1000001)", 3},
    {" (in 8 7 8)", 5},
    {" (in 256 7 8)", 5},
    {" (in 4294967296 7 8)", 5},
};

/* Where the last bracket of a line stands. */
static size_t last_bracket(const struct pattern *p, int line)
{
    size_t at = 0;

    while (line > 0)
        line -= p->text[at++] == '\n';
    while (p->text[at] != '\n')
        at++;
    return at - 1;
}

/* Puts a band behind a place's tests, or into an edge, where none may stand. */
static void add_odd_band(struct pattern *p)
{
    size_t i = draw() % (sizeof odd_bands / sizeof *odd_bands);
    int place = (int)between(0, p->places - 1), line = 1 + place;

    p->refusal = odd_bands[i].refusal;
    if (p->refusal != 2 && p->tests[place] == 4)
        p->refusal = 4;
    if (p->edges != 0 && once(6)) {
        line = 1 + p->places + (int)between(0, p->edges - 1);
        p->refusal = 2;
    }
    if (p->refusal != 0)
        p->cells = 0;
    insert(p, last_bracket(p, line), odd_bands[i].band, strlen(odd_bands[i].band));
}

#endif
