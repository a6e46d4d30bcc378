/* plain_read.c: the plain monitor's reader of pattern texts. */
#include "plain.h"

#include <stdlib.h>
#include <string.h>

/* Moves past a word if it stands there. */
static int word(const char **at, const char *expected)
{
    size_t count = strlen(expected);

    if (strncmp(*at, expected, count) != 0)
        return 0;
    *at += count;
    return 1;
}

/* Moves past a space, if there is one, and a number. */
static long number(const char **at)
{
    char *end;
    long value = strtol(*at, &end, 10);

    *at = end;
    return value;
}

/* Moves past ` (` and a sign; 0 if there is none. */
static int sign(const char **at, enum sign *s)
{
    if (word(at, " (<= "))
        *s = AT_MOST;
    else if (word(at, " (< "))
        *s = LESS;
    else if (word(at, " (>= "))
        *s = AT_LEAST;
    else if (word(at, " (> "))
        *s = MORE;
    else
        return 0;
    return 1;
}

/* Moves past a test, with a sign or a band; 0 if there is none. */
static int read_test(const char **at, struct plain_test *t)
{
    int band = word(at, " (in ");
    enum sign s = LESS;

    if (!band && !sign(at, &s))
        return 0;
    t->channel = (int)number(at);
    t->low = band || s == MORE || s == AT_LEAST ? number(at) : -FAR;
    t->high = band || s == LESS || s == AT_MOST ? number(at) : FAR;
    word(at, ")");
    return 1;
}

static void read_place(const char **at, struct plain_place *q)
{
    if (word(at, "both"))
        q->start = q->end = 1;
    else if (word(at, "start"))
        q->start = 1;
    else if (word(at, "end"))
        q->end = 1;
    else
        word(at, "plain");
    while (read_test(at, q->test + q->tests))
        q->tests++;
}

static void read_edge(const char **at, struct plain_edge *e)
{
    enum sign s;

    e->from = (int)number(at);
    e->to = (int)number(at);
    while (sign(at, &s)) {
        struct plain_guard *g = &e->guard[e->guards++];

        g->sign = s;
        g->clock = (int)number(at);
        g->bound = (uint32_t)number(at);
        word(at, ")");
    }
    if (word(at, " (reset")) {
        while (!word(at, ")"))
            e->resets[number(at)] = 1;
    }
}

/* The ceiling of a clock is 1 + its largest guard bound, 1 if it has no guard. */
static size_t ceiling(const struct plain_pattern *p, int clock)
{
    uint32_t largest = 0;

    for (int e = 0; e < p->edges; e++)
        for (int g = 0; g < p->edge[e].guards; g++)
            if (p->edge[e].guard[g].clock == clock && p->edge[e].guard[g].bound > largest)
                largest = p->edge[e].guard[g].bound;
    return 1 + (size_t)largest;
}

void plain_read(struct plain_pattern *p, const char *text)
{
    const char *at = text;

    memset(p, 0, sizeof *p);
    word(&at, "(pattern ");
    p->sum = word(&at, "sum");
    word(&at, "margin");
    p->channels = (int)number(&at);
    p->clocks = (int)number(&at);
    p->low = (uint32_t)number(&at);
    p->high = (uint32_t)number(&at);
    word(&at, ")\n");
    while (word(&at, "(place ")) {
        read_place(&at, &p->place[p->places++]);
        word(&at, ")\n");
    }
    while (word(&at, "(edge ")) {
        struct plain_place *from;

        read_edge(&at, &p->edge[p->edges]);
        from = &p->place[p->edge[p->edges].from];
        from->edge[from->edges++] = p->edges++;
        word(&at, ")\n");
    }
    p->block = 1;
    for (int c = 0; c < CLOCKS; c++) {
        p->values[c] = c < p->clocks ? ceiling(p, c) + 1 : 1;
        p->block *= p->values[c];
    }
    p->row = 2 * (size_t)p->places * p->block;
    p->cells = ((size_t)p->high + 1) * p->row;
}
