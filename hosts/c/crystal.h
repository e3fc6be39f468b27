/* What hosts/c/try.c asks of the crystal frame: cells and transformations of single lines, the SCALE rows of a text,
 * and fractional places, with the worked examples of docs/FORMAT.md, the ends of every range and each refusal. */
#ifndef CRYSTAL_H
#define CRYSTAL_H

#include "calls.h"
#include "columns.h"
#include "lent.h"
#include "station.h"

#define CELL(field, byte) \
    told(offsetof(station_cell, field) == (byte), "cell: %s at %zu", #field, offsetof(station_cell, field))
#define TRANSFORM(field, byte) \
    told(offsetof(station_transform, field) == (byte), "transform: %s at %zu", #field, \
         offsetof(station_transform, field))

static void crystal_layout(void)
{
    told(sizeof(station_cell) == 40, "cell: %zu bytes", sizeof(station_cell));
    told(_Alignof(station_cell) == 4, "cell: at a multiple of %zu", _Alignof(station_cell));
    CELL(a, 0), CELL(b, 4), CELL(c, 8), CELL(alpha, 12), CELL(beta, 16), CELL(gamma, 20), CELL(z, 24), CELL(group, 28);
    told(sizeof(station_transform) == 20, "transform: %zu bytes", sizeof(station_transform));
    told(_Alignof(station_transform) == 4, "transform: at a multiple of %zu", _Alignof(station_transform));
    TRANSFORM(m, 0), TRANSFORM(t, 12), TRANSFORM(row, 16);
}

/* ---- single lines */

static const char CRYST1[] = "CRYST1   52.000   58.600   61.900  90.00  90.00  90.00 P 21 21 21    8";
static const char SCALE1[] = "SCALE1      0.019231  0.000000  0.000000        0.00000";
static const char SCALE2[] = "SCALE2      0.000000  0.017065  0.000000        0.50000";
static const char SCALE3[] = "SCALE3      0.000000  0.000000 -0.016155       -0.00001";
static const char ORIGX2[] = "ORIGX2    999.999999-99.999999 -0.000001     9999.99999";

typedef uint32_t fills(const uint8_t *, size_t, void *);

static uint32_t fill_cell(const uint8_t *line, size_t n, void *out) { return station_cell_of_line(line, n, out); }

static uint32_t fill_row(const uint8_t *line, size_t n, void *out) { return station_transform_of_line(line, n, out); }

/* A record filled from some bytes: these bytes of it, or as it was lent if the line is refused. */
static void fill(const char *what, fills *call, const char *bytes, size_t n, size_t size, uint32_t number,
                 const void *due)
{
    lent l = lend(bytes, n, 1), record = lend(NULL, size, 0);
    uint32_t came = call(at(&l), n, at(&record));
    told(came == number && (number ? as_lent(&record) : memcmp(at(&record), due, size) == 0) && guarded(&record) &&
             as_lent(&l),
         "%s: %u", what, (unsigned)came);
    give_back(&l), give_back(&record);
}

/* Of a line that is filled up with blanks, with other bytes from a column on. */
static void cell(const char *what, const char *columns, size_t from, const char *bytes, uint32_t number,
                 const station_cell *due)
{
    text t = {{0}, 0};
    add(&t, columns);
    memcpy(t.bytes + from - 1, bytes, strlen(bytes));
    fill(what, fill_cell, t.bytes, 80, sizeof *due, number, due);
}

static void row(const char *what, const char *columns, size_t from, const char *bytes, uint32_t number,
                const station_transform *due)
{
    text t = {{0}, 0};
    add(&t, columns);
    memcpy(t.bytes + from - 1, bytes, strlen(bytes));
    fill(what, fill_row, t.bytes, 80, sizeof *due, number, due);
}

static void cells(void)
{
    static const station_cell usual = {52000, 58600, 61900, 9000, 9000, 9000, 8, "P 21 21 21 "};
    static const station_cell least = {1, 1, 1, 1, 1, 1, 1, "           "};
    static const station_cell widest = {99999999, 99999999, 99999999, 17999, 17999, 17999, 9999, "~ anything!"};
    text t = {{0}, 0};
    add(&t, CRYST1);
    cell("cell: of the example", CRYST1, 1, "", 0, &usual);
    cell("cell: the least", "CRYST1    0.001    0.001    0.001   0.01   0.01   0.01               1", 1, "", 0, &least);
    cell("cell: the largest", "CRYST199999.99999999.99999999.999 179.99 179.99 179.99 ~ anything!9999", 1, "", 0,
         &widest);
    fill("cell: 79 columns", fill_cell, t.bytes, 79, sizeof usual, STATION_REFUSED_LENGTH, NULL);
    fill("cell: with its newline", fill_cell, t.bytes, LINE, sizeof usual, STATION_REFUSED_LENGTH, NULL);
    fill("cell: of nothing", fill_cell, t.bytes, 0, sizeof usual, STATION_REFUSED_LENGTH, NULL);
    cell("cell: a byte wrong, and a field", CRYST1, 66, "\t   0", STATION_REFUSED_BYTE, NULL);
    cell("cell: of a SCALE line", SCALE1, 1, "", STATION_REFUSED_NAME, NULL);
    cell("cell: of no name", CRYST1, 6, "2", STATION_REFUSED_NAME, NULL);
    cell("cell: of a carried kind", "HEADER", 1, "", STATION_REFUSED_NAME, NULL);
    cell("cell: an edge of 0", CRYST1, 7, "    0.000", STATION_REFUSED_FIELD, NULL);
    cell("cell: an angle of 180", CRYST1, 48, " 180.00", STATION_REFUSED_FIELD, NULL);
    cell("cell: Z of 0", CRYST1, 67, "   0", STATION_REFUSED_FIELD, NULL);
    cell("cell: a blank column", CRYST1, 55, "X", STATION_REFUSED_FIELD, NULL);
}

static void rows(void)
{
    static const station_transform usual = {{0, 0, -16155}, -1, 6}, ends = {{999999999, -99999999, -1}, 999999999, 2};
    station_transform each = ends;
    text t = {{0}, 0};
    uint32_t i;
    add(&t, SCALE3);
    row("transform: of the example", SCALE3, 1, "", 0, &usual);
    for (i = 1; i <= 6; i++) {
        static const char *const names[] = {"ORIGX1", "ORIGX2", "ORIGX3", "SCALE1", "SCALE2", "SCALE3"};
        each.row = i;
        row(names[i - 1], ORIGX2, 1, names[i - 1], 0, &each);
    }
    each.t = -99999999;
    row("transform: the lowest shift", "SCALE3    999.999999-99.999999 -0.000001     -999.99999", 1, "", 0, &each);
    fill("transform: 79 columns", fill_row, t.bytes, 79, sizeof usual, STATION_REFUSED_LENGTH, NULL);
    fill("transform: with its newline", fill_row, t.bytes, LINE, sizeof usual, STATION_REFUSED_LENGTH, NULL);
    row("transform: a byte wrong, and a field", SCALE3, 20, "\x7f", STATION_REFUSED_BYTE, NULL);
    row("transform: of a CRYST1 line", CRYST1, 1, "", STATION_REFUSED_NAME, NULL);
    row("transform: of SCALE4", SCALE3, 6, "4", STATION_REFUSED_NAME, NULL);
    row("transform: of a carried kind", "REMARK", 1, "", STATION_REFUSED_NAME, NULL);
    row("transform: a coefficient of zero with a minus", SCALE3, 31, " -0.000000", STATION_REFUSED_FIELD, NULL);
    row("transform: a shift of four decimals", SCALE3, 46, "    0.5000", STATION_REFUSED_FIELD, NULL);
    row("transform: a blank column", SCALE3, 80, "X", STATION_REFUSED_FIELD, NULL);
}

static const damage CRYSTAL_DAMAGES[] = {
    {"an edge of 0", CRYST1, 16, "    0.000", 0, NULL, 16},
    {"an edge below 0", CRYST1, 7, "   -1.000", 34, " 180.00", 7},
    {"an angle of 180", CRYST1, 41, " 180.00", 0, NULL, 41},
    {"an angle of 0", CRYST1, 48, "   0.00", 0, NULL, 48},
    {"a byte before the space group", CRYST1, 55, "X", 0, NULL, 55},
    {"Z of 0", CRYST1, 67, "   0", 0, NULL, 67},
    {"CRYST1 and more", CRYST1, 80, "X", 71, "X", 71},
    {"a byte before the coefficients", SCALE1, 7, "   X", 0, NULL, 10},
    {"a coefficient of five decimals", SCALE1, 11, "   0.01923", 0, NULL, 11},
    {"a coefficient with a plus", SCALE1, 21, " +0.000000", 46, "          ", 21},
    {"a zero with a minus", SCALE1, 31, " -0.000000", 0, NULL, 31},
    {"a byte before the shift", SCALE1, 45, "X", 0, NULL, 45},
    {"no shift", SCALE1, 46, "          ", 0, NULL, 46},
    {"SCALE and more", SCALE1, 56, "X", 0, NULL, 56},
};

/* The lines are read, judged and written like those of any typed kind. */
static void crystal_lines(void)
{
    static const char *const lines[] = {CRYST1, ORIGX2, SCALE1, SCALE2, SCALE3};
    size_t i;
    for (i = 0; i < sizeof lines / sizeof *lines; i++) {
        text t = {{0}, 0};
        add(&t, lines[i]);
        read_line(lines[i], t.bytes, 80, 0, 0);
        rewrite(lines[i], t.bytes, 80, 80, 0);
        rewrite("into a byte less", t.bytes, 80, 79, STATION_REFUSED_SHORT_OUTPUT);
        t.bytes[79] = 'X';
        rewrite("with a byte in column 80", t.bytes, 80, 79, STATION_REFUSED_FIELD);
    }
    for (i = 0; i < sizeof CRYSTAL_DAMAGES / sizeof *CRYSTAL_DAMAGES; i++) damaged(&CRYSTAL_DAMAGES[i]);
}

/* ---- texts */

/* An entry with a cell, an ORIGX trio and a SCALE trio, or without one or another. */
static text crystal(int with_cell, int with_origx, int with_scale)
{
    text t = {{0}, 0};
    char master[] = "MASTER        0    0    0    0    0    0    0    0    1    0    0    0";
    master[49] = (char)('0' + (with_origx ? 3 : 0) + (with_scale ? 3 : 0));
    add(&t, "HEADER");
    if (with_cell) add(&t, CRYST1);
    if (with_origx) {
        add(&t, "ORIGX1      1.000000  0.000000  0.000000        7.00000");
        add(&t, "ORIGX2      0.000000  1.000000  0.000000        8.00000");
        add(&t, "ORIGX3      0.000000  0.000000  1.000000        9.00000");
    }
    if (with_scale) add(&t, SCALE1), add(&t, SCALE2), add(&t, SCALE3);
    add(&t, "HETATM    7  O   HOH A   1      11.281  -0.500   0.007  1.00  0.00           O");
    add(&t, master);
    add(&t, "END");
    return t;
}

static const int32_t ROWS[STATION_SCALE_SIZE] = {
    [STATION_ROW_OF_X] = 19231,
    [STATION_ROW_SIZE + STATION_ROW_OF_Y] = 17065,
    [STATION_ROW_SIZE + STATION_ROW_SHIFT] = 50000,
    [2 * STATION_ROW_SIZE + STATION_ROW_OF_Z] = -16155,
    [2 * STATION_ROW_SIZE + STATION_ROW_SHIFT] = -1,
};
static const int32_t OXYGEN[3] = {11281, -500, 7};
static const int64_t PLACE[STATION_PLACE_SIZE] = {
    [STATION_PLACE_X] = 216944911,     [STATION_PLACE_Y] = 491467500,     [STATION_PLACE_Z] = -123085,
    [STATION_PLACE_ROUNDED_X] = 21694, [STATION_PLACE_ROUNDED_Y] = 49147, [STATION_PLACE_ROUNDED_Z] = -12,
};

/* The SCALE rows of a text, which are those of the example if it is granted. */
static void scale(const char *what, const text *t, uint32_t number)
{
    lent b = lend(t->bytes, t->size, 1), out = lend(NULL, sizeof ROWS, 0);
    uint32_t came = station_scale(at(&b), t->size, at(&out));
    told(came == number && (number ? as_lent(&out) : memcmp(at(&out), ROWS, sizeof ROWS) == 0) && guarded(&out) &&
             as_lent(&b),
         "scale: %s: %u", what, (unsigned)came);
    give_back(&b), give_back(&out);
}

/* The place of three coordinates by twelve numbers, or by those of a text. */
static void place(const char *what, const text *t, const int32_t by[STATION_SCALE_SIZE], const int32_t xyz[3],
                  uint32_t number, const int64_t due[STATION_PLACE_SIZE])
{
    lent b = t ? lend(t->bytes, t->size, 1) : lend(by, sizeof ROWS, 0), three = lend(xyz, sizeof OXYGEN, 0);
    lent out = lend(NULL, sizeof PLACE, 0);
    uint32_t came = t ? station_fractional(at(&b), t->size, at(&three), at(&out))
                      : station_place(at(&b), at(&three), at(&out));
    told(came == number && (number ? as_lent(&out) : memcmp(at(&out), due, sizeof PLACE) == 0) && guarded(&out) &&
             as_lent(&b) && as_lent(&three),
         "%s: %s: %u", t ? "fractional" : "place", what, (unsigned)came);
    give_back(&b), give_back(&three), give_back(&out);
}

static void texts(void)
{
    static const uint64_t whole[STATION_VERDICT_SIZE] = {
        [STATION_VERDICT_GOOD_LINES] = 11, [STATION_VERDICT_XFORM] = 6, [STATION_VERDICT_COORD] = 1};
    static const int32_t beyond[3] = {0, 0, 10000000};
    text all = crystal(1, 1, 1), alone = crystal(0, 0, 1), origx = crystal(1, 1, 0), bare = crystal(0, 0, 0), wrong;
    answers("a cell and both trios", all.bytes, all.size, whole);
    scale("of all three kinds", &all, 0);
    scale("of SCALE alone", &alone, 0);
    scale("of a cell and ORIGX", &origx, STATION_REFUSED_NO_SCALE);
    scale("of neither", &bare, STATION_REFUSED_NO_SCALE);
    place("of the example", &all, NULL, OXYGEN, 0, PLACE);
    place("of SCALE alone", &alone, NULL, OXYGEN, 0, PLACE);
    place("of a cell and ORIGX", &origx, NULL, OXYGEN, STATION_REFUSED_NO_SCALE, NULL);
    place("without SCALE, and too far", &bare, NULL, beyond, STATION_REFUSED_NO_SCALE, NULL);
    place("too far", &all, NULL, beyond, STATION_REFUSED_COORDINATE, NULL);
    wrong = all;
    memcpy(wrong.bytes + 6 * LINE + 30, " -0.000000", 10);
    scale("a field wrong", &wrong, STATION_REFUSED_FIELD);
    place("a field wrong, and too far", &wrong, NULL, beyond, STATION_REFUSED_FIELD, NULL);
    wrong = all;
    memmove(wrong.bytes + 6 * LINE, wrong.bytes + 7 * LINE, 4 * LINE);
    wrong.size -= LINE;
    scale("a broken trio", &wrong, STATION_REFUSED_PLACE);
    wrong = all;
    wrong.size -= LINE;
    scale("no END", &wrong, STATION_REFUSED_OVER);
    place("no END", &wrong, NULL, OXYGEN, STATION_REFUSED_OVER, NULL);
    wrong = bare;
    wrong.bytes[2 * LINE + 49] = '3';
    scale("no SCALE, and a wrong count", &wrong, STATION_REFUSED_COUNT);
    wrong.size = 0;
    scale("of nothing", &wrong, STATION_REFUSED_OVER);
}

/* ---- places */

static void extremes(void)
{
    static const int32_t any[STATION_SCALE_SIZE] = {
        INT32_MAX, INT32_MAX, INT32_MAX, INT32_MAX, INT32_MIN, INT32_MIN, INT32_MIN, INT32_MIN, 0, 0, 0, 0};
    static const int32_t own[STATION_SCALE_SIZE] = {999999999, 999999999, 999999999, 999999999, -99999999, -99999999,
                                                    -99999999, -99999999, 999999999, -99999999, 0,         -99999999};
    static const int32_t high[3] = {9999999, 9999999, 9999999}, low[3] = {-999999, -999999, -999999};
    static const int64_t any_high[STATION_PLACE_SIZE] = {64445977804019059, -64445977834029056, 0,
                                                         6444597780402,     -6444597783403,     0};
    static const int64_t any_low[STATION_PLACE_SIZE] = {-6420969662079059, 6420969665069056, 0,
                                                        -642096966208,     642096966507,     0};
    static const int64_t own_high[STATION_PLACE_SIZE] = {30009996969990003, -3000999669990003, 8998999100010000,
                                                         3000999696999,     -300099966999,     899899910001};
    place("the extremes of rows, highest coordinates", NULL, any, high, 0, any_high);
    place("the extremes of rows, lowest coordinates", NULL, any, low, 0, any_low);
    place("the extremes of an entry", NULL, own, high, 0, own_high);
}

static void halves(void)
{
    static const int32_t up[STATION_SCALE_SIZE] = {5000, 0, 0, 0, 4999, 0, 0, 0, 14999, 0, 0, 0};
    static const int32_t down[STATION_SCALE_SIZE] = {-5000, 0, 0, 0, -4999, 0, 0, 0, 15000, 0, 0, 0};
    static const int32_t x[3] = {1, 0, 0}, minus[3] = {-1, 0, 0};
    static const int64_t near_up[STATION_PLACE_SIZE] = {5000, 4999, 14999, 1, 0, 1};
    static const int64_t near_down[STATION_PLACE_SIZE] = {-5000, -4999, 15000, -1, 0, 2};
    static const int64_t turned[STATION_PLACE_SIZE] = {5000, 4999, -15000, 1, 0, -2};
    place("a half, and just below", NULL, up, x, 0, near_up);
    place("the same below zero", NULL, down, x, 0, near_down);
    place("the same of a coordinate below zero", NULL, down, minus, 0, turned);
}

static void places(void)
{
    static const int32_t wrong[] = {-1000000, 10000000, INT32_MIN, INT32_MAX};
    static const int32_t zeros[STATION_SCALE_SIZE] = {0}, ends[3] = {-999999, 9999999, 0};
    static const int64_t none[STATION_PLACE_SIZE] = {0};
    size_t i, axis;
    place("of the example", NULL, ROWS, OXYGEN, 0, PLACE);
    place("of zeros, at the ends of the range", NULL, zeros, ends, 0, none);
    for (i = 0; i < sizeof wrong / sizeof *wrong; i++)
        for (axis = 0; axis < 3; axis++) {
            int32_t xyz[3] = {0, 0, 0};
            xyz[axis] = wrong[i];
            place("a coordinate that no atom has", NULL, ROWS, xyz, STATION_REFUSED_COORDINATE, NULL);
        }
    extremes();
    halves();
}

static void crystals(void)
{
    crystal_layout();
    cells();
    rows();
    crystal_lines();
    texts();
    places();
}

#endif
