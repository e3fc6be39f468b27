/* What hosts/c/try.c asks of the column of a 6: the worked examples of docs/FORMAT.md and a field or two of each kind,
 * by themselves and in a text. */
#ifndef COLUMNS_H
#define COLUMNS_H

#include "lent.h"
#include "station.h"

/* Whether a check answered what a verdict did, the column left out. */
static int same_but_column(const uint64_t *check, const uint64_t *verdict)
{
    return memcmp(check, verdict, STATION_VERDICT_COLUMN * sizeof *check) == 0 &&
           memcmp(check + STATION_VERDICT_COLUMN, verdict + STATION_VERDICT_COLUMN + 1,
                  (STATION_CHECK_SIZE - STATION_VERDICT_COLUMN) * sizeof *check) == 0;
}

/* A check with its column, which gives these numbers. The check without the column answers the same. */
static void answers(const char *what, const char *bytes, size_t n, const uint64_t due[STATION_VERDICT_SIZE])
{
    uint64_t a[STATION_VERDICT_SIZE], c[STATION_CHECK_SIZE];
    lent t = lend(bytes, n, 1), answer = lend(NULL, sizeof a, 0), without = lend(NULL, sizeof c, 0);
    uint32_t came = station_verdict(at(&t), n, at(&answer)), checked = station_check(at(&t), n, at(&without));
    memcpy(a, at(&answer), sizeof a);
    memcpy(c, at(&without), sizeof c);
    told(came == due[STATION_VERDICT_REFUSAL] && memcmp(a, due, sizeof a) == 0 && as_lent(&t) && guarded(&answer) &&
             guarded(&without) && checked == came && same_but_column(c, a),
         "verdict: %s: %u, line %llu, column %llu, %llu good, coord %llu, ter %llu, conect %llu", what, (unsigned)came,
         (unsigned long long)a[STATION_VERDICT_LINE], (unsigned long long)a[STATION_VERDICT_COLUMN],
         (unsigned long long)a[STATION_VERDICT_GOOD_LINES], (unsigned long long)a[STATION_VERDICT_COORD],
         (unsigned long long)a[STATION_VERDICT_TER], (unsigned long long)a[STATION_VERDICT_CONECT]);
    give_back(&t), give_back(&answer), give_back(&without);
}

/* One that gives this number, line, column and good lines, and these counts; all others are 0. */
static void verdict(const char *what, const char *bytes, size_t n, uint64_t number, uint64_t line, uint64_t column,
                    uint64_t good, uint64_t coord, uint64_t ter, uint64_t conect)
{
    const uint64_t due[STATION_VERDICT_SIZE] = {
        [STATION_VERDICT_REFUSAL] = number, [STATION_VERDICT_LINE] = line,
        [STATION_VERDICT_COLUMN] = column,  [STATION_VERDICT_GOOD_LINES] = good,
        [STATION_VERDICT_COORD] = coord,    [STATION_VERDICT_TER] = ter,
        [STATION_VERDICT_CONECT] = conect,
    };
    answers(what, bytes, n, due);
}

/* A line by itself, which gives this number and column. */
static void read_line(const char *what, const char *line, size_t n, uint32_t number, uint64_t column)
{
    lent l = lend(line, n, 1), word = lend(NULL, sizeof column, 0);
    uint32_t came = station_read_line(at(&l), n, at(&word));
    uint64_t named;
    memcpy(&named, at(&word), sizeof named);
    told(came == number && named == column && as_lent(&l) && guarded(&word), "read_line: %s: %u, column %llu", what,
         (unsigned)came, (unsigned long long)named);
    give_back(&l), give_back(&word);
}

/* A line with other bytes from a column on, and from another one on: refused with 6 at this column. */
typedef struct {
    const char *what, *line;
    size_t from;
    const char *bytes;
    size_t other;
    const char *more;
    uint64_t column;
} damage;

/* By itself, and in a text behind HEADER. */
static void damaged(const damage *d)
{
    text t = {{0}, 0};
    add(&t, "HEADER");
    add(&t, d->line);
    memcpy(t.bytes + LINE + d->from - 1, d->bytes, strlen(d->bytes));
    if (d->more) memcpy(t.bytes + LINE + d->other - 1, d->more, strlen(d->more));
    read_line(d->what, t.bytes + LINE, 80, STATION_REFUSED_FIELD, d->column);
    verdict(d->what, t.bytes, t.size, STATION_REFUSED_FIELD, 2, d->column, 1, 0, 0, 0);
}

static const char ATOM[] = "ATOM     32  N  AARG A  -3      11.281  86.699  94.383  0.50 35.88           N";
static const char HETATM[] = "HETATM   40 FE   HEM b9999Z   -999.9999999.999   0.000  1.00-99.99          FE3+";
static const char TER[] = "TER      33      ARG A  -3";
static const char HELIX[] = "HELIX    1   A ALA A    1  GLY A    9  1                                   9";
static const char STRAND[] = "SHEET    1   A 2 ALA A   1  GLY A   5  0";
static const char SECOND[] = "SHEET    2   A 2 ALA A   7  GLY B   9 -1";
static const char FILLED[] = "SHEET    2   A 2 ALA A   7  GLY B   9  1  N  ALA A   7   O  GLY A   5";
static const char CONECT[] = "CONECT    5    6    7    8    9";
static const char MASTER[] = "MASTER        0    0    0    0    0    0    0    0    0    0    0    0";

static const char MODEL[] = "MODEL        1";

static const damage DAMAGES[] = {
    {"x a zero with a minus", ATOM, 31, "  -0.000", 0, NULL, 31},
    {"x and occupancy", ATOM, 31, "  -0.000", 55, "  1.01", 31},
    {"occupancy above 1", ATOM, 55, "  1.01", 0, NULL, 55},
    {"serial 0", ATOM, 7, "    0", 0, NULL, 7},
    {"another element than the name's", ATOM, 77, "CA", 0, NULL, 77},
    {"a name with a gap", ATOM, 13, " C A", 77, " C", 13},
    {"a name that would have to fill four columns", ATOM, 13, "HH1 ", 77, " H", 77},
    {"a blank column", ATOM, 12, "X", 0, NULL, 12},
    {"a charge of 0", ATOM, 79, "0+", 0, NULL, 79},
    {"HETATM without an element", HETATM, 77, "  ", 0, NULL, 77},
    {"TER with a name", TER, 13, " N  ", 0, NULL, 14},
    {"TER without a chain", TER, 22, " ", 0, NULL, 22},
    {"HELIX of two chains", HELIX, 32, "B", 0, NULL, 32},
    {"HELIX of no chain and one", HELIX, 20, " ", 32, "B", 20},
    {"HELIX of class 11", HELIX, 39, "11", 0, NULL, 39},
    {"HELIX without length", HELIX, 76, " ", 0, NULL, 72},
    {"strand 2 with the sense of the first", SECOND, 39, " 0", 0, NULL, 39},
    {"strand 1 with a registration", STRAND, 42, " N  ", 0, NULL, 43},
    {"strand 2 with a byte of a registration", SECOND, 49, "X", 0, NULL, 42},
    {"a filled registration without a chain", FILLED, 65, " ", 0, NULL, 65},
    {"strand 0 with a registration", FILLED, 8, "  0", 0, NULL, 8},
    {"CONECT to itself", CONECT, 12, "    5", 0, NULL, 12},
    {"CONECT without a first partner", CONECT, 12, "     ", 0, NULL, 12},
    {"CONECT with a gap", CONECT, 17, "     ", 0, NULL, 22},
    {"CONECT to itself at last", CONECT, 27, "    5", 0, NULL, 27},
    {"MASTER with a fixed number", MASTER, 16, "    1", 0, NULL, 16},
    {"MASTER with a count below 0", MASTER, 66, "   -1", 0, NULL, 66},
    {"MODEL 0", MODEL, 14, "0", 0, NULL, 11},
    {"MODEL and more", MODEL, 80, "X", 0, NULL, 80},
};

/* The lines that are damaged above are right. */
static void undamaged(void)
{
    static const char *const lines[] = {ATOM,   HETATM, TER,    HELIX, STRAND,   SECOND,
                                        FILLED, CONECT, MASTER, MODEL, "ENDMDL", "END"};
    size_t i;
    for (i = 0; i < sizeof lines / sizeof *lines; i++) {
        text t = {{0}, 0};
        add(&t, lines[i]);
        read_line(lines[i], t.bytes, 80, 0, 0);
    }
}

/* What is refused with another number, or with none, has the column 0. */
static void no_column(const char *entry)
{
    char byte[80], more[5 * LINE + 1];
    text t = three(), twins = three_with("B   7");
    read_line("a carried kind", entry, 80, STATION_REFUSED_NAME, 0);
    memcpy(byte, entry + LINE, 80);
    memcpy(byte + 30, "  -0.000", 8);
    read_line("79 columns", byte, 79, STATION_REFUSED_LENGTH, 0);
    byte[79] = '\n';
    read_line("a byte wrong, and a field", byte, 80, STATION_REFUSED_BYTE, 0);
    read_line("81 columns", entry + LINE, LINE, STATION_REFUSED_LENGTH, 0);
    read_line("nothing", entry, 0, STATION_REFUSED_LENGTH, 0);
    memcpy(more, entry, 5 * LINE);
    more[5 * LINE] = ' ';
    verdict("the example", entry, 5 * LINE, 0, 0, 0, 5, 1, 1, 0);
    verdict("three fragments", t.bytes, t.size, 0, 0, 0, 8, 3, 1, 1);
    verdict("one byte more", more, 5 * LINE + 1, STATION_REFUSED_LENGTH, 6, 0, 5, 1, 1, 0);
    verdict("no END", entry, 4 * LINE, STATION_REFUSED_OVER, 5, 0, 4, 1, 1, 0);
    verdict("nothing", entry, 0, STATION_REFUSED_OVER, 1, 0, 0, 0, 0, 0);
    verdict("the same atom twice", twins.bytes, twins.size, STATION_REFUSED_SAME_ATOM, 5, 0, 4, 2, 1, 0);
    memcpy(more + LINE + 30, "  -0.000", 8);
    verdict("a field wrong", more, 5 * LINE, STATION_REFUSED_FIELD, 2, 31, 1, 0, 0, 0);
    verdict("a field wrong, and no HEADER", more + LINE, 4 * LINE, STATION_REFUSED_PLACE, 1, 0, 0, 0, 0, 0);
}

/* A wrong field further down: the good lines and the counts are those above it. */
static void further_down(const char *entry)
{
    char end[5 * LINE];
    text t = three(), both;
    memcpy(end, entry, sizeof end);
    end[5 * LINE - 2] = 'X';
    verdict("END and more", end, sizeof end, STATION_REFUSED_FIELD, 5, 80, 4, 1, 1, 0);
    read_line("END and more", end + 4 * LINE, 80, STATION_REFUSED_FIELD, 80);
    memcpy(end + 4 * LINE, "ENDMDL", 6);
    read_line("ENDMDL and more", end + 4 * LINE, 80, STATION_REFUSED_FIELD, 80);
    memcpy(t.bytes + 5 * LINE + 11, "    3", 5);
    verdict("CONECT to itself", t.bytes, t.size, STATION_REFUSED_FIELD, 6, 12, 5, 3, 1, 0);
    both = t;
    memcpy(both.bytes + 2 * LINE + 22, "   +", 4);
    verdict("TER and CONECT", both.bytes, both.size, STATION_REFUSED_FIELD, 3, 23, 2, 1, 0, 0);
}

static void columns(const char *entry)
{
    size_t i;
    undamaged();
    for (i = 0; i < sizeof DAMAGES / sizeof *DAMAGES; i++) damaged(&DAMAGES[i]);
    no_column(entry);
    further_down(entry);
}

#endif
