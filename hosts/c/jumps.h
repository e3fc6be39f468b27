/* What hosts/c/try.c asks of jumps: the worked example of docs/FORMAT.md, and what a jump passes over. */
#ifndef JUMPS_H
#define JUMPS_H

#include "lent.h"
#include "station.h"

/* A jump to a serial, which answers this line and has looked at so many. */
static void find(const char *what, const text *t, uint32_t serial, uint64_t line, uint64_t looked)
{
    lent b = lend(t->bytes, t->size, 1), count = lend(NULL, 8, 0);
    uint64_t came = station_find(at(&b), t->size, serial, at(&count)), counted;
    memcpy(&counted, at(&count), sizeof counted);
    told(came == line && counted == looked && as_lent(&b) && guarded(&count),
         "find: %s: line %llu, looked at %llu", what, (unsigned long long)came, (unsigned long long)counted);
    give_back(&b), give_back(&count);
}

/* HEADER, ATOM 5, TER 6, HETATM 8, ATOM 5 again, and so many bytes of a further line with ATOM 9. */
static text jumped(size_t rest)
{
    text t = {{0}, 0};
    add(&t, "HEADER");
    add(&t, "ATOM      5  C   ALA A   1       0.000   2.000   3.000  1.00  0.00           C");
    add(&t, "TER       6      ALA A   1");
    add(&t, "HETATM    8  O   HOH B   7      -1.500   2.000   3.000  1.00  0.00           O");
    add(&t, "ATOM      5  C   ALA A   1       0.000   2.000   3.000  1.00  0.00           C");
    add(&t, "ATOM      9  C   ALA A   1       0.000   2.000   3.000  1.00  0.00           C");
    t.size = 5 * LINE + rest;
    return t;
}

static void jumps(void)
{
    text t = jumped(20), whole = jumped(LINE), open = jumped(LINE - 1), entry = three(), none = {{0}, 0};
    find("the first of two", &t, 5, 2, 2);
    find("a HETATM", &t, 8, 4, 4);
    find("on a TER alone", &t, 6, 0, 5);
    find("on no line", &t, 7, 0, 5);
    find("0", &t, 0, 0, 5);
    find("100,005", &t, 100005, 0, 5);
    find("the largest number", &t, UINT32_MAX, 0, 5);
    find("on the last line", &whole, 9, 6, 6);
    find("on a last line without its newline", &open, 9, 0, 5);
    t.bytes[LINE + 80] = ' ';
    find("past a line that ends in a blank", &t, 5, 5, 5);
    t.bytes[4 * LINE + 80] = '\r';
    find("on lines that end otherwise alone", &t, 5, 0, 5);
    memcpy(whole.bytes + LINE + 54, "  1.50", 6); /* an occupancy above 1 */
    find("past a line with a field wrong", &whole, 5, 5, 5);
    whole.bytes[4 * LINE + 20] = '\t';
    find("past a line with a byte wrong", &whole, 5, 0, 6);
    find("in an accepted entry", &entry, 4, 5, 5);
    memcpy(entry.bytes + 5 * LINE + 6, "    9", 5);
    find("on a CONECT alone", &entry, 9, 0, 8);
    find("in nothing", &none, 1, 0, 0);
}

#endif
