/* Calls each of the twenty-two names of include/station.h, and the words of include/station_words.h, and holds what
 * comes against docs/FORMAT.md.
 *
 *     cc -std=c11 -I include hosts/c/try.c LIBRARY/libstation.a -o try && ./try <crates/report/stdin
 *
 * Standard input is the first worked example: HEADER, ATOM, TER, MASTER, END. All that is lent stands between guard
 * bytes, and texts begin at an odd address. A line is printed for each thing tried; the last one is 'N passed, M
 * failed', and the exit status is 0 exactly if M is 0. */
#include "calls.h"
#include "columns.h"
#include "crystal.h"
#include "jumps.h"
#include "lent.h"
#include "models.h"
#include "numbers.h"
#include "station.h"

/* ---- the layout */

#define SLOT(field, byte) \
    told(offsetof(station_slot, field) == (byte), "slot: %s at %zu", #field, offsetof(station_slot, field))
#define TALLY(field, byte) \
    told(offsetof(station_tally, field) == (byte), "tally: %s at %zu", #field, offsetof(station_tally, field))

static void layout(void)
{
    told(sizeof(station_slot) == 48, "slot: %zu bytes", sizeof(station_slot));
    told(_Alignof(station_slot) == 4, "slot: at a multiple of %zu", _Alignof(station_slot));
    SLOT(serial, 0), SLOT(number, 4), SLOT(x, 8), SLOT(y, 12), SLOT(z, 16), SLOT(occupancy, 20), SLOT(temperature, 24);
    SLOT(kind, 28), SLOT(mark, 29), SLOT(name, 30), SLOT(alternate, 34), SLOT(residue, 35), SLOT(chain, 38);
    SLOT(insertion, 39), SLOT(element, 40), SLOT(charge, 42), SLOT(model, 44);
    told(sizeof(station_tally) == 36, "tally: %zu bytes", sizeof(station_tally));
    told(_Alignof(station_tally) == 4, "tally: at a multiple of %zu", _Alignof(station_tally));
    TALLY(remark, 0), TALLY(het, 4), TALLY(helix, 8), TALLY(sheet, 12), TALLY(xform, 16), TALLY(coord, 20);
    TALLY(ter, 24), TALLY(conect, 28), TALLY(seq, 32);
}

/* ---- the check */

static void checks(const char *entry, const text *wrong)
{
    char more[5 * LINE + 1];
    text t = three(), twins = three_with("B   7");
    memcpy(more, entry, 5 * LINE);
    more[5 * LINE] = ' ';
    check("the example", entry, 5 * LINE, 0, 0, 5, 1, 1, 0);
    check("three fragments", t.bytes, t.size, 0, 0, 8, 3, 1, 1);
    check("a field wrong", wrong->bytes, wrong->size, STATION_REFUSED_FIELD, 2, 1, 0, 0, 0);
    check("one byte more", more, 5 * LINE + 1, STATION_REFUSED_LENGTH, 6, 5, 1, 1, 0);
    check("no last newline", entry, 5 * LINE - 1, STATION_REFUSED_LENGTH, 5, 4, 1, 1, 0);
    check("no END", entry, 4 * LINE, STATION_REFUSED_OVER, 5, 4, 1, 1, 0);
    check("no HEADER", entry + LINE, 4 * LINE, STATION_REFUSED_PLACE, 1, 0, 0, 0, 0);
    check("nothing", entry, 0, STATION_REFUSED_OVER, 1, 0, 0, 0, 0);
    check("the same atom twice", twins.bytes, twins.size, STATION_REFUSED_SAME_ATOM, 5, 4, 2, 1, 0);
    twins.bytes[4 * LINE + 16] = 'A';
    check("the same atom at two locations", twins.bytes, twins.size, 0, 0, 8, 3, 1, 1);
    memcpy(twins.bytes + 4 * LINE + 12, twins.bytes + LINE + 12, 68);
    check("the same atom, ATOM and HETATM", twins.bytes, twins.size, STATION_REFUSED_SAME_ATOM, 5, 4, 2, 1, 0);
}

/* ---- the table */

/* The two slots of the worked example. */
static const station_slot ARGININE[2] = {
    {32, -3, 11281, 86699, 94383, 50, 3588, STATION_ATOM, STATION_IN, " N  ", 'A', "ARG", 'A', ' ', " N", "  ", 0},
    {33, -3, 0, 0, 0, 0, 0, STATION_TER, STATION_IN, "    ", ' ', "ARG", 'A', ' ', "  ", "  ", 0},
};

static void load(const char *what, const char *bytes, size_t n, size_t slots, uint32_t number)
{
    lent t = lend(bytes, n, 1), table = lend(NULL, slots * sizeof(station_slot), 0), count = lend(NULL, 8, 0);
    uint32_t came = station_load(at(&t), n, at(&table), slots, at(&count));
    size_t filled = number ? 0 : 2;
    uint64_t counted;
    memcpy(&counted, at(&count), sizeof counted);
    told(came == number && counted == filled && memcmp(at(&table), ARGININE, filled * sizeof(station_slot)) == 0 &&
             as_lent_from(&table, filled * sizeof(station_slot)) && as_lent(&t) && guarded(&count),
         "load: %s: %u, %llu slots", what, (unsigned)came, (unsigned long long)counted);
    give_back(&t), give_back(&table), give_back(&count);
}

static void orders(const text *wrong)
{
    text t = three(), twins = three_with("B   7"), saved = {{0}, 0}, tray = {{0}, 0}, none = {{0}, 0};
    station_slot is[4], other[4];
    uint64_t count;
    station_load((const uint8_t *)t.bytes, t.size, is, 4, &count);
    memcpy(saved.bytes, t.bytes, 3 * LINE);
    memcpy(saved.bytes + 3 * LINE, t.bytes + 4 * LINE, LINE);
    saved.size = 4 * LINE;
    add(&saved, "MASTER        0    0    0    0    0    0    0    0    2    1    0    0");
    add(&saved, "END");
    memcpy(tray.bytes, t.bytes + 3 * LINE, LINE);
    memcpy(tray.bytes + LINE, t.bytes + 5 * LINE, LINE);
    tray.size = 2 * LINE;

    order("fragment 2 aside", &t, is, 4, 2, 1, 0, "0010");
    order("fragment 2 aside again", &t, is, 4, 2, 1, STATION_REFUSED_ALREADY_THERE, NULL);
    order("fragment 0", &t, is, 4, 0, 1, STATION_REFUSED_NO_FRAGMENT, NULL);
    order("fragment 4", &t, is, 4, 4, 1, STATION_REFUSED_NO_FRAGMENT, NULL);
    order("a short table", &t, is, 3, 1, 1, STATION_REFUSED_SHORT_TABLE, NULL);
    order("a wrong text", wrong, is, 4, 1, 1, STATION_REFUSED_FIELD, NULL);
    order("the same atom twice", &twins, is, 4, 1, 1, STATION_REFUSED_SAME_ATOM, NULL);
    memcpy(other, is, sizeof other);
    other[3].x++;
    order("another text's table", &t, other, 4, 1, 1, STATION_REFUSED_OTHER_TABLE, NULL);
    write("save: with room to spare", station_save, &t, is, 4, t.size, 0, &saved);
    write("save: into just enough", station_save, &t, is, 4, saved.size, 0, &saved);
    write("save: into a byte less", station_save, &t, is, 4, saved.size - 1, STATION_REFUSED_SHORT_OUTPUT, &saved);
    write("save: a short table", station_save, &t, is, 3, t.size, STATION_REFUSED_SHORT_TABLE, &saved);
    write("save: another text's table", station_save, &t, other, 4, t.size, STATION_REFUSED_OTHER_TABLE, &saved);
    write("save: a wrong text", station_save, wrong, is, 4, t.size, STATION_REFUSED_FIELD, &saved);
    write("save: the same atom twice", station_save, &twins, is, 4, t.size, STATION_REFUSED_SAME_ATOM, &saved);
    write("tray: with room to spare", station_tray, &t, is, 4, t.size, 0, &tray);
    write("tray: into just enough", station_tray, &t, is, 4, tray.size, 0, &tray);
    write("tray: into a byte less", station_tray, &t, is, 4, tray.size - 1, STATION_REFUSED_SHORT_OUTPUT, &tray);
    write("tray: into nothing", station_tray, &t, is, 4, 0, STATION_REFUSED_SHORT_OUTPUT, &tray);
    write("tray: the same atom twice", station_tray, &twins, is, 4, t.size, STATION_REFUSED_SAME_ATOM, &tray);
    order("fragment 1 aside, by 255", &t, is, 4, 1, 255, 0, "1110");
    order("fragment 1 back", &t, is, 4, 1, 0, 0, "0010");
    order("fragment 2 back", &t, is, 4, 2, 0, 0, "0000");
    write("save: all in", station_save, &t, is, 4, t.size, 0, &t);
    write("tray: nothing to write, into nothing", station_tray, &t, is, 4, 0, 0, &none);
}

/* ---- all fragments at once */

/* An arrangement of the table `is` by these bytes, which then has these marks. */
static void arrange(const char *what, const text *t, station_slot *is, size_t slots, const uint8_t *bytes,
                    size_t fragments, uint32_t number, const char *marks)
{
    lent b = lend(t->bytes, t->size, 1), table = lend(is, slots * sizeof *is, 0), list = lend(bytes, fragments, 1);
    uint32_t came = station_arrange(at(&b), t->size, at(&table), slots, at(&list), fragments);
    size_t i;
    for (i = 0; number == 0 && i < slots; i++) is[i].mark = (uint8_t)(marks[i] - '0');
    told(came == number && memcmp(at(&table), is, slots * sizeof *is) == 0 && guarded(&table) && as_lent(&b) &&
             as_lent(&list),
         "arrange: %s: %u", what, (unsigned)came);
    give_back(&b), give_back(&table), give_back(&list);
}

/* The fragments of the slots of three(), into room for so many numbers, if they are granted. */
static void fragments(const char *what, const text *t, const station_slot *is, size_t slots, size_t room,
                      uint32_t number)
{
    static const uint32_t due[4] = {1, 1, 2, 3};
    lent b = lend(t->bytes, t->size, 1), table = lend(is, slots * sizeof *is, 0);
    lent out = lend(NULL, room * sizeof *due, 0), count = lend(NULL, 8, 0);
    uint32_t came = station_fragments(at(&b), t->size, at(&table), slots, at(&out), room, at(&count));
    size_t numbers = number ? 0 : 4;
    uint64_t counted;
    memcpy(&counted, at(&count), sizeof counted);
    told(came == number && counted == numbers && memcmp(at(&out), due, numbers * sizeof *due) == 0 &&
             as_lent_from(&out, numbers * sizeof *due) && as_lent(&b) && as_lent(&table) && guarded(&count),
         "fragments: %s: %u, %llu numbers", what, (unsigned)came, (unsigned long long)counted);
    give_back(&b), give_back(&table), give_back(&out), give_back(&count);
}

static void at_once(const text *wrong)
{
    static const uint8_t second[4] = {0, 1, 0, 0}, others[3] = {1, 0, 255}, none[3] = {0};
    text t = three(), twins = three_with("B   7");
    station_slot is[5], other[4]; /* a slot to spare, whose content plays no part */
    uint64_t count;
    memset(is, 0x77, sizeof is);
    station_load((const uint8_t *)t.bytes, t.size, is, 5, &count);
    memcpy(other, is, sizeof other);
    other[1].mark = STATION_ASIDE;
    fragments("into just enough", &t, is, 4, 4, 0);
    fragments("with room to spare", &t, is, 4, 6, 0);
    fragments("a slot to spare", &t, is, 5, 4, 0);
    fragments("into a number less", &t, is, 4, 3, STATION_REFUSED_SHORT_OUTPUT);
    fragments("into nothing", &t, is, 4, 0, STATION_REFUSED_SHORT_OUTPUT);
    fragments("a short table", &t, is, 3, 4, STATION_REFUSED_SHORT_TABLE);
    fragments("a fragment with two marks", &t, other, 4, 4, STATION_REFUSED_OTHER_TABLE);
    fragments("a wrong text", wrong, is, 4, 4, STATION_REFUSED_FIELD);
    fragments("the same atom twice", &twins, is, 4, 4, STATION_REFUSED_SAME_ATOM);
    arrange("the second aside", &t, is, 4, second, 3, 0, "0010");
    arrange("the second aside again", &t, is, 4, second, 3, 0, "0010");
    arrange("a byte too few", &t, is, 4, second, 2, STATION_REFUSED_NO_FRAGMENT, NULL);
    arrange("a byte too many", &t, is, 4, second, 4, STATION_REFUSED_NO_FRAGMENT, NULL);
    arrange("no byte", &t, is, 4, second, 0, STATION_REFUSED_NO_FRAGMENT, NULL);
    arrange("a short table", &t, is, 3, others, 3, STATION_REFUSED_SHORT_TABLE, NULL);
    arrange("a fragment with two marks", &t, other, 4, others, 3, STATION_REFUSED_OTHER_TABLE, NULL);
    arrange("a wrong text", wrong, is, 4, others, 3, STATION_REFUSED_FIELD, NULL);
    arrange("the same atom twice", &twins, is, 4, others, 3, STATION_REFUSED_SAME_ATOM, NULL);
    arrange("the others aside, by 1 and 255", &t, is, 4, others, 3, 0, "1101");
    fragments("whatever is aside", &t, is, 5, 6, 0);
    is[4].mark = 7;
    arrange("all in, a slot to spare", &t, is, 5, none, 3, 0, "00007");
    arrange("nothing to arrange", &(text){{0}, 0}, is, 5, none, 0, STATION_REFUSED_OVER, NULL);
}

/* ---- single lines */

static void slot(const char *what, const char *line, size_t n, uint32_t number)
{
    lent l = lend(line, n, 1), s = lend(NULL, sizeof(station_slot), 0);
    uint32_t came = station_slot_of_line(at(&l), n, at(&s));
    told(came == number && (number ? as_lent(&s) : memcmp(at(&s), &ARGININE[0], sizeof(station_slot)) == 0) &&
             guarded(&s) && as_lent(&l),
         "slot_of_line: %s: %u", what, (unsigned)came);
    give_back(&l), give_back(&s);
}

static void lines(const char *entry, const text *wrong)
{
    static const char *names[5] = {"HEADER", "ATOM", "TER", "MASTER", "END"};
    char byte[80], hydrogen[80];
    size_t i;
    memcpy(byte, entry + LINE, 80);
    byte[79] = '\n';
    memcpy(hydrogen, entry + LINE, 80);
    memcpy(hydrogen + 12, "HH11", 4);
    memcpy(hydrogen + 76, " H", 2);
    slot("ATOM", entry + LINE, 80, 0);
    slot("79 columns", entry + LINE, 79, STATION_REFUSED_LENGTH);
    slot("81 columns", entry + LINE, 81, STATION_REFUSED_LENGTH);
    slot("a byte wrong", byte, 80, STATION_REFUSED_BYTE);
    slot("MASTER", entry + 3 * LINE, 80, STATION_REFUSED_NAME);
    slot("a field wrong", wrong->bytes + LINE, 80, STATION_REFUSED_FIELD);
    for (i = 0; i < 5; i++) rewrite(names[i], entry + i * LINE, 80, 100, i ? 0 : STATION_REFUSED_NAME);
    rewrite("79 columns", entry + LINE, 79, 80, STATION_REFUSED_LENGTH);
    rewrite("a byte wrong", byte, 80, 80, STATION_REFUSED_BYTE);
    rewrite("a field wrong", wrong->bytes + LINE, 80, 80, STATION_REFUSED_FIELD);
    rewrite("into just enough", entry + LINE, 80, 80, 0);
    rewrite("into a byte less", entry + LINE, 80, 79, STATION_REFUSED_SHORT_OUTPUT);
    rewrite("a name of four columns, HH11", hydrogen, 80, 80, 0);
    hydrogen[15] = ' ';
    rewrite("a name of three from column 13, HH1", hydrogen, 80, 80, STATION_REFUSED_FIELD);
    count("HETATM", "HETATM", -1, 9, 10, 0);
    count("END", "END   ", -1, 9, 9, 0);
    count("three bytes", "END", -1, 9, 9, STATION_REFUSED_NAME);
    count("no name", "ATOMS ", -1, 9, 9, STATION_REFUSED_NAME);
    count("the last that fits", "ATOM  ", -1, 99998, 99999, 0);
    count("one too many", "ATOM  ", -1, 99999, 99999, STATION_REFUSED_FULL);
}

/* ---- the feed */

enum { DOT, STROKE, FRAME };

/* A dot, a stroke or a frame of two slots: its doubles, if something is to be drawn. */
static void feed(const char *what, int which, const station_slot *slots, size_t n, uint32_t number, const double *due)
{
    const size_t doubles = which == DOT ? 3 : which == STROKE ? 6 : 9, size = doubles * sizeof(double);
    lent s = lend(slots, n * sizeof *slots, 0), out = lend(NULL, size, 0);
    const station_slot *first = at(&s);
    uint32_t came = which == DOT      ? station_dot(first, at(&out))
                    : which == STROKE ? station_stroke(first, first + 1, at(&out))
                                      : station_frame(first, n, at(&out));
    const double *d = at(&out);
    size_t i;
    told(came == number && (due ? memcmp(d, due, size) == 0 : as_lent(&out)) && guarded(&out) && as_lent(&s),
         "%s: %u", what, (unsigned)came);
    for (i = 0; due && i < doubles; i++) printf("        %.1f\n", d[i]);
    give_back(&s), give_back(&out);
}

static void feeds(void)
{
    static const double dot[3] = {11281, 86699, 94383}, stroke[6] = {-1, 0, 5, 2, 0, 5};
    static const double frame[9] = {-1, 0, 5, 2, 0, 5, 0.5, 0, 5};
    station_slot two[2] = {ARGININE[0], ARGININE[0]}, aside[2];
    two[0].x = -1, two[0].y = 0, two[0].z = 5;
    two[1].x = 2, two[1].y = 0, two[1].z = 5;
    memcpy(aside, two, sizeof two);
    aside[1].mark = STATION_ASIDE;
    feed("dot: of an atom", DOT, &ARGININE[0], 1, 1, dot);
    feed("dot: of a TER", DOT, &ARGININE[1], 1, 0, NULL);
    feed("dot: of an atom aside", DOT, &aside[1], 1, 0, NULL);
    feed("stroke: of two atoms", STROKE, two, 2, 1, stroke);
    feed("stroke: of one in, one aside", STROKE, aside, 2, 0, NULL);
    feed("frame: of two atoms", FRAME, two, 2, 0, frame);
    feed("frame: of a TER", FRAME, &ARGININE[1], 1, STATION_REFUSED_NOTHING_TO_FRAME, NULL);
    feed("frame: of nothing", FRAME, two, 0, STATION_REFUSED_NOTHING_TO_FRAME, NULL);
}

int main(void)
{
    char entry[5 * LINE + 1];
    text wrong = {{0}, 5 * LINE}, twins = three_with("B   7");
    if (fread(entry, 1, sizeof entry, stdin) != 5 * LINE) {
        fputs("standard input is not the first worked example (crates/report/stdin)\n", stderr);
        return 2;
    }
    memcpy(wrong.bytes, entry, 5 * LINE);
    memcpy(wrong.bytes + LINE + 54, "  1.50", 6); /* an occupancy above 1 */
    layout();
    checks(entry, &wrong);
    load("two slots", entry, 5 * LINE, 2, 0);
    load("a slot to spare", entry, 5 * LINE, 3, 0);
    load("a slot too few", entry, 5 * LINE, 1, STATION_REFUSED_SHORT_TABLE);
    load("a wrong text", wrong.bytes, 5 * LINE, 2, STATION_REFUSED_FIELD);
    load("the same atom twice", twins.bytes, twins.size, 4, STATION_REFUSED_SAME_ATOM);
    load("the same atom twice, a short table", twins.bytes, twins.size, 1, STATION_REFUSED_SAME_ATOM);
    orders(&wrong);
    at_once(&wrong);
    lines(entry, &wrong);
    columns(entry);
    jumps();
    models();
    crystals();
    feeds();
    numbers();
    printf("%u passed, %u failed\n", passed, failed);
    return failed != 0;
}
