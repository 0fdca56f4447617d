/*
 * Buffers between pages that no access may touch, for compare.c. The bytes that share a buffer's pages are filled, so
 * that a change of one of them is seen.
 */
#ifndef GUARDS_H
#define GUARDS_H

#include <stdint.h>
#include <stdio.h>
#include <stdlib.h>
#include <string.h>
#include <sys/mman.h>

#define PAGE ((size_t)4096)
#define GUARD ((size_t)1 << 32) /* no 32-bit address leads past it */
#define FILL 0xA5

struct buffer {
    const char *name;
    uint8_t *pages; /* the first page that may be touched */
    size_t inner;   /* bytes between the guards */
    size_t open;    /* bytes of pages that may be touched */
    uint8_t *at;    /* the buffer */
    size_t len;
};

static uint8_t filled[PAGE]; /* FILL throughout */

/* Sets it up for at most so many bytes. */
static void reserve(struct buffer *b, size_t most)
{
    size_t inner = (most + PAGE - 1) / PAGE * PAGE;
    void *p = mmap(NULL, inner + 2 * GUARD, PROT_NONE, MAP_PRIVATE | MAP_ANONYMOUS | MAP_NORESERVE, -1, 0);
    if (p == MAP_FAILED) {
        perror("compare: mmap");
        exit(2);
    }
    b->pages = (uint8_t *)p + GUARD;
    b->inner = inner;
    memset(filled, FILL, sizeof filled);
}

/* Opens the pages for len bytes and lays the buffer at their low or high end. For 0 bytes no page is open. */
static void place(struct buffer *b, size_t len, int high)
{
    size_t open = (len + PAGE - 1) / PAGE * PAGE;
    if ((b->open > open && mprotect(b->pages + open, b->open - open, PROT_NONE) != 0)
        || (b->open < open && mprotect(b->pages, open, PROT_READ | PROT_WRITE) != 0)) {
        perror("compare: mprotect");
        exit(2);
    }
    b->open = open;
    b->len = len;
    b->at = high ? b->pages + (open - len) : b->pages;
    if (open != 0) {
        memset(b->pages, FILL, (size_t)(b->at - b->pages));
        memset(b->at + len, FILL, (size_t)(b->pages + open - (b->at + len)));
    }
}

/* Whether the bytes that share the buffer's pages are as they were filled. */
static int kept(const struct buffer *b)
{
    size_t before = (size_t)(b->at - b->pages), past = b->open - before - b->len;
    return (before == 0 || memcmp(b->pages, filled, before) == 0)
        && (past == 0 || memcmp(b->at + b->len, filled, past) == 0);
}

/* Says where an address lies that was touched; 0 where it is none of this buffer's pages and guards. */
static int say_where(char *out, size_t room, const struct buffer *b, const uint8_t *touched)
{
    if (b->pages == NULL || touched < b->pages - GUARD || touched >= b->pages + b->inner + GUARD)
        return 0;
    if (touched >= b->at + b->len)
        snprintf(out, room, "byte %lu past the end of the %s", (unsigned long)(touched - (b->at + b->len)), b->name);
    else
        snprintf(out, room, "byte %lu before the start of the %s", (unsigned long)(b->at - touched), b->name);
    return 1;
}

#endif
