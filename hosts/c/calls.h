/* Calls that hosts/c/try.c and its parts make on all sorts of input: each with the answer that is due, and a look at
 * all that was lent. */
#ifndef CALLS_H
#define CALLS_H

#include "lent.h"
#include "station.h"

/* A check, which gives this number, line and good lines, and these counts; all others are 0. */
static void check(const char *what, const char *bytes, size_t n, uint64_t number, uint64_t line, uint64_t good,
                  uint64_t coord, uint64_t ter, uint64_t conect)
{
    const uint64_t due[STATION_CHECK_SIZE] = {
        [STATION_CHECK_REFUSAL] = number, [STATION_CHECK_LINE] = line, [STATION_CHECK_GOOD_LINES] = good,
        [STATION_CHECK_COORD] = coord,    [STATION_CHECK_TER] = ter,   [STATION_CHECK_CONECT] = conect,
    };
    lent t = lend(bytes, n, 1), answer = lend(NULL, sizeof due, 0);
    uint32_t came = station_check(at(&t), n, at(&answer));
    uint64_t a[STATION_CHECK_SIZE];
    memcpy(a, at(&answer), sizeof a);
    told(came == number && memcmp(a, due, sizeof due) == 0 && as_lent(&t) && guarded(&answer),
         "check: %s: %u, line %llu, %llu good, coord %llu, ter %llu, conect %llu", what, (unsigned)came,
         (unsigned long long)a[STATION_CHECK_LINE], (unsigned long long)a[STATION_CHECK_GOOD_LINES],
         (unsigned long long)a[STATION_CHECK_COORD], (unsigned long long)a[STATION_CHECK_TER],
         (unsigned long long)a[STATION_CHECK_CONECT]);
    give_back(&t), give_back(&answer);
}

/* An order over the table `is`, which then has these marks. */
static void order(const char *what, const text *t, station_slot *is, size_t slots, uint32_t fragment, uint8_t aside,
                  uint32_t number, const char *marks)
{
    lent b = lend(t->bytes, t->size, 1), table = lend(is, slots * sizeof *is, 0);
    uint32_t came = station_order(at(&b), t->size, at(&table), slots, fragment, aside);
    size_t i;
    for (i = 0; number == 0 && i < slots; i++) is[i].mark = (uint8_t)(marks[i] - '0');
    told(came == number && memcmp(at(&table), is, slots * sizeof *is) == 0 && guarded(&table) && as_lent(&b),
         "order: %s: %u", what, (unsigned)came);
    give_back(&b), give_back(&table);
}

typedef uint32_t writes(const uint8_t *, size_t, const station_slot *, size_t, uint8_t *, size_t, uint64_t *);

/* What save or tray writes into `room` bytes, if it is granted: these bytes. */
static void write(const char *what, writes *call, const text *t, const station_slot *is, size_t slots, size_t room,
                  uint32_t number, const text *due)
{
    lent b = lend(t->bytes, t->size, 1), table = lend(is, slots * sizeof *is, 0), out = lend(NULL, room, 1);
    lent count = lend(NULL, 8, 0);
    uint32_t came = call(at(&b), t->size, at(&table), slots, at(&out), room, at(&count));
    size_t size = number ? 0 : due->size;
    uint64_t counted;
    memcpy(&counted, at(&count), sizeof counted);
    told(came == number && counted == size && memcmp(at(&out), due->bytes, size) == 0 && as_lent_from(&out, size) &&
             as_lent(&b) && as_lent(&table) && guarded(&count),
         "%s: %u, %llu bytes", what, (unsigned)came, (unsigned long long)counted);
    give_back(&b), give_back(&table), give_back(&out), give_back(&count);
}

/* A line rewritten into `room` bytes. */
static void rewrite(const char *what, const char *line, size_t n, size_t room, uint32_t number)
{
    lent l = lend(line, n, 1), out = lend(NULL, room, 1);
    uint32_t came = station_rewrite_line(at(&l), n, at(&out), room);
    size_t size = number ? 0 : 80;
    told(came == number && memcmp(at(&out), line, size) == 0 && as_lent_from(&out, size) && as_lent(&l),
         "rewrite_line: %s: %u", what, (unsigned)came);
    give_back(&l), give_back(&out);
}

/* A line in a tally with so many coordinates before and after; `past` below 0: by station_count_line. */
static void count(const char *what, const char *line, int past, uint32_t before, uint32_t after, uint32_t number)
{
    const station_tally was = {1, 2, 3, 4, 5, before, 6, 7, 8}, due = {1, 2, 3, 4, 5, after, 6, 7, 8};
    lent l = lend(line, strlen(line), 1), tally = lend(&was, sizeof was, 0);
    uint32_t came = past < 0 ? station_count_line(at(&tally), at(&l), strlen(line))
                             : station_count_line_past(at(&tally), at(&l), strlen(line), (uint8_t)past);
    told(came == number && memcmp(at(&tally), &due, sizeof due) == 0 && guarded(&tally) && as_lent(&l),
         "count_line%s: %s: %u, coord %u", past < 0 ? "" : "_past", what, (unsigned)came,
         (unsigned)((station_tally *)at(&tally))->coord);
    give_back(&l), give_back(&tally);
}

#endif
