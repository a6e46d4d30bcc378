/* table.h: reads the table of texts and answers (crates/edge_values/data/texts.txt, which says its own form). */
#ifndef TABLE_H
#define TABLE_H

#include <stdint.h>
#include <stdio.h>
#include <stdlib.h>
#include <string.h>

#define TEXT_ROOM 65536

struct table_case {
    uint8_t text[TEXT_ROOM];
    size_t length;
    uint32_t check;
    uint64_t cells;
    char name[256];
};

static void table_fault(int line, const char *what)
{
    fprintf(stderr, "table, line %d: %s\n", line, what);
    exit(2);
}

static void table_add(struct table_case *c, const char *bytes, size_t count, int line)
{
    if (count > TEXT_ROOM - c->length)
        table_fault(line, "the text is too long for this test");
    memcpy(c->text + c->length, bytes, count);
    c->length += count;
}

/* The next text of the table with its answers; 0 at the table's end. `line` counts the table's lines. */
static int table_next(FILE *table, struct table_case *c, int *line)
{
    static char bytes[TEXT_ROOM];

    c->length = 0;
    while (fgets(bytes, sizeof bytes, table)) {
        char *mark, *name;
        unsigned long long number, cells, turn;
        size_t count = strlen(bytes);

        ++*line;
        if (count == 0 || bytes[count - 1] != '\n')
            table_fault(*line, "no line feed");
        bytes[--count] = '\0';
        if (count == 0 || bytes[0] == '#')
            continue;
        number = strtoull(bytes, &mark, 10);
        if (mark == bytes)
            number = 1;
        count -= (size_t)(mark + 1 - bytes);
        switch (*mark) {
        case '|':
        case ':':
            for (turn = 0; turn < number; turn++) {
                table_add(c, mark + 1, count, *line);
                if (*mark == '|')
                    table_add(c, "\n", 1, *line);
            }
            break;
        case '.': {
            char byte = (char)number;
            table_add(c, &byte, 1, *line);
            break;
        }
        case '=':
            cells = strtoull(mark + 1, &name, 10);
            if (name == mark + 1 || *name != ' ' || strlen(name + 1) >= sizeof c->name)
                table_fault(*line, "no cells or no name");
            c->check = (uint32_t)number;
            c->cells = cells;
            strcpy(c->name, name + 1);
            return 1;
        default:
            table_fault(*line, "no such mark");
        }
    }
    if (c->length != 0)
        table_fault(*line, "a text without answers");
    return 0;
}

#endif
