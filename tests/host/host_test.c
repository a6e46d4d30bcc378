/* host_test.c: calls pattern_check and pattern_cells with each text of a table and compares the answers.
 *
 * Each text is judged twice, in memory that cannot be written during the calls: once ending where a page begins that
 * cannot be read, and once beginning where such a page ends, so a call that looks past the text ends the test.
 * A case passes if its answers are right and if answers that are off by one are told from them. */
#define _DEFAULT_SOURCE
#include <sys/mman.h>
#include <unistd.h>

#include "bench_margin.h"
#include "table.h"

/* room for a text, with a page before and one behind that cannot be read */
static uint8_t *room;

static int answers(const uint8_t *text, size_t length, uint32_t check, uint64_t cells)
{
    return pattern_check(text, length) == check && pattern_cells(text, length) == cells;
}

static int judge(const struct table_case *c, uint8_t *at)
{
    int right, told;

    if (mprotect(room, TEXT_ROOM, PROT_READ | PROT_WRITE) != 0)
        exit(2);
    memset(room, '9', TEXT_ROOM);
    memcpy(at, c->text, c->length);
    if (mprotect(room, TEXT_ROOM, PROT_READ) != 0)
        exit(2);
    right = answers(at, c->length, c->check, c->cells);
    told = !answers(at, c->length, c->check + 1, c->cells) && !answers(at, c->length, c->check, c->cells + 1);
    if (!right)
        printf("FAILED %s: %u and %llu expected, %u and %llu answered\n", c->name, (unsigned)c->check,
               (unsigned long long)c->cells, (unsigned)pattern_check(at, c->length),
               (unsigned long long)pattern_cells(at, c->length));
    else if (!told)
        printf("FAILED %s: a wrong answer passes\n", c->name);
    return right && told;
}

int main(int argc, char **argv)
{
    static struct table_case c;
    long page = sysconf(_SC_PAGESIZE);
    int line = 0, passed = 0, failed = 0;
    uint8_t *pages;
    FILE *table;

    if (argc != 2 || !(table = fopen(argv[1], "r"))) {
        fprintf(stderr, "usage: host_test TABLE\n");
        return 2;
    }
    if (page <= 0 || TEXT_ROOM % page != 0)
        return 2;
    pages = mmap(NULL, TEXT_ROOM + 2 * (size_t)page, PROT_NONE, MAP_PRIVATE | MAP_ANONYMOUS, -1, 0);
    if (pages == MAP_FAILED)
        return 2;
    room = pages + page;
    while (table_next(table, &c, &line)) {
        int first = judge(&c, room);
        int last = judge(&c, room + TEXT_ROOM - c.length);

        if (first && last)
            passed++;
        else
            failed++;
    }
    fclose(table);
    printf("%d passed, %d failed\n", passed, failed);
    return failed != 0 || passed == 0;
}
