/* What hosts/c/try.c asks of the constants of station.h and of station_words.h: each count is told where its constant
 * says, and every number has words of its own. The numbers of refusal themselves, and the places of rows and fractional
 * places, are held by all other parts. */
#ifndef NUMBERS_H
#define NUMBERS_H

#include "columns.h"
#include "crystal.h"
#include "lent.h"
#include "models.h"
#include "station.h"
#include "station_words.h"

/* ---- the answers of the check */

/* A line behind HEADER and up to two others, and where the one that it adds to a count is told. */
typedef struct {
    const char *first, *second, *line;
    size_t check, verdict;
} counted;

#define COUNTED(first, second, line, count) {first, second, line, STATION_CHECK_##count, STATION_VERDICT_##count}

static const counted COUNTED_LINES[] = {
    COUNTED(NULL, NULL, "REMARK", REMARK),
    COUNTED(NULL, NULL, "HET", HET),
    COUNTED(NULL, NULL, HELIX, HELIX),
    COUNTED(NULL, NULL, STRAND, SHEET),
    COUNTED(NULL, NULL, SCALE1, XFORM),
    COUNTED(NULL, NULL, ATOM, COORD),
    COUNTED(ATOM, NULL, TER, TER),
    COUNTED(SEVEN, EIGHT, "CONECT    1    2", CONECT),
    COUNTED(NULL, NULL, "SEQRES", SEQ),
};

/* The line raises the one count that its constants name; nothing follows it, so the text is over too soon. */
static void count_told(const counted *c)
{
    uint64_t check[STATION_CHECK_SIZE], without[STATION_CHECK_SIZE], verdict[STATION_VERDICT_SIZE];
    text t = {{0}, 0};
    size_t lines = 2, i;
    int good;
    add(&t, "HEADER");
    if (c->first) add(&t, c->first), lines++;
    if (c->second) add(&t, c->second), lines++;
    station_check((const uint8_t *)t.bytes, t.size, without);
    add(&t, c->line);
    station_check((const uint8_t *)t.bytes, t.size, check);
    station_verdict((const uint8_t *)t.bytes, t.size, verdict);
    good = check[STATION_CHECK_REFUSAL] == STATION_REFUSED_OVER && check[STATION_CHECK_LINE] == lines + 1 &&
           check[STATION_CHECK_GOOD_LINES] == lines && verdict[c->verdict] == 1 && same_but_column(check, verdict);
    for (i = STATION_CHECK_REMARK; i < STATION_CHECK_SIZE; i++) good &= check[i] == without[i] + (i == c->check);
    told(good, "answer: %.6s at %zu of the check, at %zu of the verdict", c->line, c->check, c->verdict);
}

/* ---- words */

/* Whether station.h lists a number. */
static int listed(uint32_t number)
{
    return number <= STATION_REFUSED_MODEL || number == STATION_REFUSED_NO_SCALE ||
           number == STATION_REFUSED_COORDINATE;
}

/* Whether the words are one line, and those of no other number that station.h lists. */
static int own_words(uint32_t number)
{
    const char *words = station_words(number);
    uint32_t other;
    for (other = STATION_GRANTED; other <= STATION_REFUSED_COORDINATE; other++)
        if (other != number && listed(other) && strcmp(words, station_words(other)) == 0) return 0;
    return *words && !strchr(words, '\n');
}

static void numbers(void)
{
    static const uint32_t unknown[] = {99, 256, STATION_REFUSED_FIELD + 256, UINT32_MAX};
    const char *none = station_words(STATION_REFUSED_MODEL + 1);
    uint32_t number;
    size_t i;
    for (i = 0; i < sizeof COUNTED_LINES / sizeof *COUNTED_LINES; i++) count_told(&COUNTED_LINES[i]);
    told(own_words(STATION_REFUSED_MODEL + 1), "words: an unknown number: %s", none);
    for (number = STATION_GRANTED; number <= STATION_REFUSED_COORDINATE + 1; number++)
        told(listed(number) ? own_words(number) : strcmp(station_words(number), none) == 0, "words: %u: %s",
             (unsigned)number, station_words(number));
    for (i = 0; i < sizeof unknown / sizeof *unknown; i++)
        told(strcmp(station_words(unknown[i]), none) == 0, "words: %u: %s", (unsigned)unknown[i],
             station_words(unknown[i]));
}

#endif
