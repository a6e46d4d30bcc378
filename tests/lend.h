/* lend.h: slices that are lent to the library, each where a step past its end is seen.
 *
 * A slice lies in a heap block of exactly its size, or at one end of pages of its own, beside a page that can be neither
 * read nor written. The library is not built with the sanitizers, so they see no access of its own code: a step past a
 * slice in pages ends the program there. On a slice's open side stand bytes that must keep their value. What the slice
 * held is kept, so that `changed` tells what a call wrote. */
#ifndef LEND_H
#define LEND_H

#include <stdint.h>
#include <stdio.h>
#include <stdlib.h>
#include <string.h>
#include <sys/mman.h>
#include <unistd.h>

#define FENCE 64
#define FENCE_BYTE 0xa5

struct lent {
    size_t width, room; /* bytes of an element; bytes between the two pages */
    unsigned char *pages;
    void *at;        /* the slice: */
    size_t count;    /* its elements */
    void *heap;      /* its block, if it lies in the heap */
    unsigned char *before;
};

static void lend_fault(const char *what)
{
    fprintf(stderr, "lend: %s\n", what);
    exit(2);
}

static void lend_room(struct lent *l, size_t width, size_t most)
{
    size_t page = (size_t)sysconf(_SC_PAGESIZE);
    unsigned char *all;

    memset(l, 0, sizeof *l);
    l->width = width;
    l->room = (width * most + FENCE + page - 1) / page * page;
    all = mmap(NULL, l->room + 2 * page, PROT_NONE, MAP_PRIVATE | MAP_ANONYMOUS, -1, 0);
    if (all == MAP_FAILED || mprotect(all + page, l->room, PROT_READ | PROT_WRITE) != 0)
        lend_fault("no pages");
    l->pages = all + page;
    l->before = malloc(l->room);
    if (!l->before)
        lend_fault("no memory");
}

/* A place for `count` elements: 0 in the heap, 1 at the end of the pages, 2 at their start. */
static void *lend(struct lent *l, size_t count, unsigned where)
{
    size_t bytes = count * l->width;

    if (bytes + FENCE > l->room)
        lend_fault("a slice longer than its room");
    free(l->heap);
    l->heap = NULL;
    l->count = count;
    if (where == 0) {
        l->heap = malloc(bytes);
        if (!l->heap && bytes == 0)
            l->heap = malloc(1);
        if (!l->heap)
            lend_fault("no memory");
        l->at = l->heap;
    } else if (where == 1) {
        unsigned char *at = l->pages + l->room - bytes;

        memset(at - FENCE, FENCE_BYTE, FENCE);
        l->at = at;
    } else {
        memset(l->pages + bytes, FENCE_BYTE, FENCE);
        l->at = l->pages;
    }
    return l->at;
}

/* The slice is filled: keep what it holds. */
static void lend_keep(struct lent *l)
{
    memcpy(l->before, l->at, l->count * l->width);
}

/* Do the elements from `from` on hold what they held, and the bytes on the open side too? */
static int lend_same(const struct lent *l, size_t from)
{
    const unsigned char *at = l->at, *fence = NULL;

    if (!l->heap)
        fence = at == l->pages ? at + l->count * l->width : at - FENCE;
    for (int i = 0; fence && i < FENCE; i++)
        if (fence[i] != FENCE_BYTE)
            return 0;
    if (from >= l->count)
        return 1;
    return memcmp(at + from * l->width, l->before + from * l->width, (l->count - from) * l->width) == 0;
}

static void lend_end(struct lent *l)
{
    size_t page = (size_t)sysconf(_SC_PAGESIZE);

    free(l->heap);
    free(l->before);
    munmap(l->pages - page, l->room + 2 * page);
}

#endif
