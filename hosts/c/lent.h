/* What hosts/c/try.c tries the station with: a line printed for each thing tried, memory lent between guard bytes, and
 * texts made of lines. */
#ifndef LENT_H
#define LENT_H

#include <stdarg.h>
#include <stdint.h>
#include <stdio.h>
#include <stdlib.h>
#include <string.h>

static unsigned passed, failed;

static void told(int good, const char *format, ...)
{
    va_list words;
    va_start(words, format);
    printf("%s  ", good ? "ok    " : "NOT OK");
    vprintf(format, words);
    putchar('\n');
    va_end(words);
    if (good) passed++; else failed++;
}

/* ---- lent memory */

enum { GUARD = 64, LINE = 81 };

typedef struct {
    uint8_t *block, *before; /* guard, content, guard; the content as it was lent */
    size_t front, size;
} lent;

/* Lends `size` bytes, with this content or with anything; bytes begin at an odd address, all else at an even one. */
static lent lend(const void *content, size_t size, int bytes)
{
    lent l = {NULL, NULL, GUARD + (bytes ? 1 : 0), size};
    l.block = malloc(l.front + size + GUARD);
    l.before = malloc(size + 1);
    if (!l.block || !l.before) exit(2);
    memset(l.block, 0xa7, l.front + size + GUARD);
    if (content) memcpy(l.block + l.front, content, size); else memset(l.block + l.front, 0x5c, size);
    memcpy(l.before, l.block + l.front, size);
    return l;
}

static void *at(const lent *l) { return l->block + l->front; }

static int guarded(const lent *l)
{
    size_t i;
    for (i = 0; i < l->front + GUARD; i++)
        if (l->block[i < l->front ? i : i + l->size] != 0xa7) return 0;
    return 1;
}

/* Whether the content is as it was lent from the byte `from` on. */
static int as_lent_from(const lent *l, size_t from)
{
    return guarded(l) && memcmp(l->block + l->front + from, l->before + from, l->size - from) == 0;
}

static int as_lent(const lent *l) { return as_lent_from(l, 0); }

static void give_back(lent *l)
{
    free(l->block);
    free(l->before);
}

/* ---- texts */

typedef struct { char bytes[16 * LINE]; size_t size; } text;

/* Adds a line, filled up with blanks to 80 columns. */
static void add(text *t, const char *columns)
{
    memset(t->bytes + t->size, ' ', LINE - 1);
    memcpy(t->bytes + t->size, columns, strlen(columns));
    t->bytes[t->size + LINE - 1] = '\n';
    t->size += LINE;
}

/* The entry of the worked example on orders, with a CONECT line: three fragments. */
static text three(void)
{
    text t = {{0}, 0};
    add(&t, "HEADER");
    add(&t, "ATOM      1  C   ALA A   1       0.000   2.000   3.000  1.00  0.00           C");
    add(&t, "TER       2      ALA A   1");
    add(&t, "HETATM    3  O   HOH B   7      -1.500   2.000   3.000  1.00  0.00           O");
    add(&t, "HETATM    4  O   HOH B   8       9.000   2.000   3.000  1.00  0.00           O");
    add(&t, "CONECT    3    4");
    add(&t, "MASTER        0    0    0    0    0    0    0    0    3    1    1    0");
    add(&t, "END");
    return t;
}

/* The same, with other columns from the residue's chain on in its last coordinate line. */
static text three_with(const char *place)
{
    text t = three();
    memcpy(t.bytes + 4 * LINE + 21, place, strlen(place));
    return t;
}

#endif
