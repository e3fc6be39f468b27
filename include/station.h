/* The station: the C names of the proved library.
 *
 * A text is any bytes; an accepted text is one PDB coordinate entry that obeys docs/FORMAT.md, where the numbers of
 * refusal are listed; 1 to 12, 21 and 22 are those of a text. Unless its comment says otherwise a function returns the
 * number of refusal, 0 if it grants.
 * A refusal leaves every lent buffer, slot and tally as it was; a grant changes only the bytes or slots it needs.
 * Nothing is kept between calls and nothing is taken on trust: each call judges the text and the table anew. The
 * caller sees to it that pointers and lengths describe memory of its own, and that memory the call writes to
 * overlaps no other memory lent to the same call.
 */
#ifndef STATION_H
#define STATION_H

#include <stddef.h>
#include <stdint.h>

#ifdef __cplusplus
extern "C" {
#endif

/* The numbers of refusal. station_words.h has words for each. */
enum {
    STATION_GRANTED = 0,
    STATION_REFUSED_LENGTH = 1,            /* the length of a line */
    STATION_REFUSED_NEWLINE = 2,           /* byte 81 of a line */
    STATION_REFUSED_BYTE = 3,              /* a byte that no column may hold */
    STATION_REFUSED_NAME = 4,              /* the name of a line */
    STATION_REFUSED_PLACE = 5,             /* the place of a line */
    STATION_REFUSED_FIELD = 6,             /* a field or blank column */
    STATION_REFUSED_SERIAL = 7,            /* a serial that does not rise */
    STATION_REFUSED_RUN = 8,               /* a run or its TER */
    STATION_REFUSED_BOND = 9,              /* a CONECT line */
    STATION_REFUSED_SEQUENCE = 10,         /* a helix or sheet */
    STATION_REFUSED_COUNT = 11,            /* a count on MASTER */
    STATION_REFUSED_OVER = 12,             /* the text is over too soon */
    STATION_REFUSED_SHORT_TABLE = 13,      /* the table is too short */
    STATION_REFUSED_FULL = 14,             /* a count of the tally is full */
    STATION_REFUSED_NO_FRAGMENT = 15,      /* there is no such fragment */
    STATION_REFUSED_ALREADY_THERE = 16,    /* the fragment is already there */
    STATION_REFUSED_SHORT_OUTPUT = 17,     /* the output is too short */
    STATION_REFUSED_OTHER_TABLE = 18,      /* the table is another text's */
    STATION_REFUSED_NOTHING_TO_FRAME = 19, /* there is nothing to frame */
    STATION_REFUSED_LONG_INPUT = 20,       /* the input is too long for the report program; no call gives it */
    STATION_REFUSED_SAME_ATOM = 21,        /* an atom that a line above, in the same model, has already */
    STATION_REFUSED_MODEL = 22,            /* the number of a model */
    STATION_REFUSED_NO_SCALE = 29,         /* there are no SCALE lines to tell a fractional place by */
    STATION_REFUSED_COORDINATE = 33        /* a coordinate that no atom can have */
};

/* What the numbers of the answer of station_check are, and how many there are. */
enum {
    STATION_CHECK_REFUSAL,
    STATION_CHECK_LINE,
    STATION_CHECK_GOOD_LINES,
    STATION_CHECK_REMARK,
    STATION_CHECK_HET,
    STATION_CHECK_HELIX,
    STATION_CHECK_SHEET,
    STATION_CHECK_XFORM,
    STATION_CHECK_COORD,
    STATION_CHECK_TER,
    STATION_CHECK_CONECT,
    STATION_CHECK_SEQ,
    STATION_CHECK_SIZE
};

/* The same of station_verdict. */
enum {
    STATION_VERDICT_REFUSAL,
    STATION_VERDICT_LINE,
    STATION_VERDICT_COLUMN,
    STATION_VERDICT_GOOD_LINES,
    STATION_VERDICT_REMARK,
    STATION_VERDICT_HET,
    STATION_VERDICT_HELIX,
    STATION_VERDICT_SHEET,
    STATION_VERDICT_XFORM,
    STATION_VERDICT_COORD,
    STATION_VERDICT_TER,
    STATION_VERDICT_CONECT,
    STATION_VERDICT_SEQ,
    STATION_VERDICT_SIZE
};

/* What the numbers of a row of station_scale are; it tells three rows, SCALE1, SCALE2, SCALE3, one behind another. */
enum {
    STATION_ROW_OF_X,
    STATION_ROW_OF_Y,
    STATION_ROW_OF_Z,
    STATION_ROW_SHIFT,
    STATION_ROW_SIZE,
    STATION_SCALE_SIZE = 3 * STATION_ROW_SIZE
};

/* What the numbers of a fractional place are: exact, in billionths, and rounded, in hundred-thousandths. */
enum {
    STATION_PLACE_X,
    STATION_PLACE_Y,
    STATION_PLACE_Z,
    STATION_PLACE_ROUNDED_X,
    STATION_PLACE_ROUNDED_Y,
    STATION_PLACE_ROUNDED_Z,
    STATION_PLACE_SIZE
};

/* Kinds of slots. A slot of any other kind is damaged: it is no text's and is never drawn. */
enum { STATION_ATOM = 1, STATION_HETATM = 2, STATION_TER = 3 };

/* Marks of slots. A slot with any other mark is damaged likewise. */
enum { STATION_IN = 0, STATION_ASIDE = 1 };

/* One coordinate or TER line: 48 bytes without padding. Columns are kept as the bytes that stand in them; what a TER
 * does not have is 0, or blank. */
typedef struct {
    uint32_t serial;      /* 1 to 99,999 */
    int32_t number;       /* the residue's number, -999 to 9999 */
    int32_t x, y, z;      /* thousandths */
    int32_t occupancy;    /* hundredths, 0 to 100 */
    int32_t temperature;  /* hundredths */
    uint8_t kind;         /* STATION_ATOM, STATION_HETATM or STATION_TER */
    uint8_t mark;         /* STATION_IN or STATION_ASIDE */
    uint8_t name[4];
    uint8_t alternate;
    uint8_t residue[3];
    uint8_t chain;
    uint8_t insertion;
    uint8_t element[2];
    uint8_t charge[2];
    uint32_t model;       /* the number of its model, 1 to 9,999; 0 without models, or filled from a single line */
} station_slot;

/* The nine counts of MASTER, in the order of the report. */
typedef struct {
    uint32_t remark, het, helix, sheet;
    uint32_t xform;  /* ORIGX and SCALE */
    uint32_t coord;  /* ATOM and HETATM, with models those of the first alone; so is ter */
    uint32_t ter, conect, seq;
} station_tally;

/* The cell of a CRYST1 line: 40 bytes without padding. */
typedef struct {
    int32_t a, b, c;             /* the edges, in thousandths, 1 to 99,999,999 */
    int32_t alpha, beta, gamma;  /* the angles, in hundredths of a degree, 1 to 17,999 */
    uint32_t z;                  /* 1 to 9,999 */
    uint8_t group[12];           /* the space group: columns 56-66 as they stand, then a byte 0 */
} station_cell;

/* The transformation of an ORIGX or SCALE line: 20 bytes without padding. */
typedef struct {
    int32_t m[3];  /* the coefficients of x, y, z, in millionths, -99,999,999 to 999,999,999 */
    int32_t t;     /* the shift, in hundred-thousandths, -99,999,999 to 999,999,999 */
    uint32_t row;  /* which line it is: 1 to 3 ORIGX1-3, 4 to 6 SCALE1-3 */
} station_transform;

/* Checks a text. `answer` receives twelve numbers: the number of refusal, the line refused (0 if none), the good lines,
 * and the nine counts over the good lines in the order of station_tally. Returns the number as well: 0, 1 to 12, 21 or
 * 22. */
uint32_t station_check(const uint8_t *text, size_t n, uint64_t answer[STATION_CHECK_SIZE]);

/* Checks a text and tells the column of a 6 as well. `answer` receives thirteen numbers in the order of the report: the
 * number, the line refused (0 if none), the column (0 where the number is not 6), the good lines, and the nine counts
 * over the good lines. Columns count from 1; it is the first one of the leftmost field of the line that is wrong.
 * station_check is this without the column. Returns the number as well: 0, 1 to 12, 21 or 22. */
uint32_t station_verdict(const uint8_t *text, size_t n, uint64_t answer[STATION_VERDICT_SIZE]);

/* Loads an accepted text: one slot for each ATOM, HETATM and TER line of all models, in order, all marked in. `count`
 * receives the slots filled, 0 if refused. 1 to 12, 21 and 22 for the text; 13 if `slots` is below what the text
 * needs. */
uint32_t station_load(const uint8_t *text, size_t n, station_slot *table, size_t slots, uint64_t *count);

/* Sets one fragment aside (`aside` not 0) or puts it back (0) by marking its slots. Fragments count from 1,
 * through all models; each is of one model. 1 to 12, 21 and 22 for the text; 13; 18 if the table is not this text's; 15
 * if there is no such fragment; 16 if it has that mark already. */
uint32_t station_order(const uint8_t *text, size_t n, station_slot *table, size_t slots, uint32_t fragment,
                       uint8_t aside);

/* Sets aside or puts back every fragment at once: `aside` has a byte for each, from fragment 1 on, 0 for in, any other
 * for aside. The table is then as station_order would leave it, fragment by fragment; one that is already there changes
 * nothing. 1 to 12, 21 and 22 for the text; 13; 18; 15 if `fragments` is not how many there are. */
uint32_t station_arrange(const uint8_t *text, size_t n, station_slot *table, size_t slots, const uint8_t *aside,
                         size_t fragments);

/* Tells for each slot that the text needs, in order, the number of its fragment, aside or not; the last number is how
 * many fragments there are. `count` receives the numbers written, 0 if refused; room for `slots` numbers is always
 * enough. 1 to 12, 21 and 22 for the text; 13; 18; 17 if `room` is below the slots that the text needs. */
uint32_t station_fragments(const uint8_t *text, size_t n, const station_slot *table, size_t slots, uint32_t *out,
                           size_t room, uint64_t *count);

/* Writes the entry without the fragments set aside, without the CONECT lines that have a number which no atom marked in
 * has, in whichever model, and with MASTER counted again. MODEL and ENDMDL lines stay. `count` receives the bytes
 * written, 0 if refused; `n` bytes of room are always enough. 1 to 12, 21 and 22 for the text; 13; 18; 17 if `room` is
 * below the bytes to be written. */
uint32_t station_save(const uint8_t *text, size_t n, const station_slot *table, size_t slots, uint8_t *out,
                      size_t room, uint64_t *count);

/* Writes the lines that station_save leaves out, and a copy of every MODEL and ENDMDL line, in order. The rest is as
 * for station_save. */
uint32_t station_tray(const uint8_t *text, size_t n, const station_slot *table, size_t slots, uint8_t *out,
                      size_t room, uint64_t *count);

/* Fills a slot from one ATOM, HETATM or TER line by itself (80 bytes, no newline), marked in and of no model. 1, 3, 4
 * (another kind of line too), 6. */
uint32_t station_slot_of_line(const uint8_t *line, size_t n, station_slot *slot);

/* Reads one line of the seventeen typed kinds (HELIX, SHEET, CRYST1, ORIGX1-3, SCALE1-3, MODEL, ATOM, HETATM, TER,
 * ENDMDL, CONECT, MASTER, END) by itself (80 bytes, no newline) and keeps nothing. `column` receives, at every call,
 * the first column of the leftmost field that is wrong if the line is refused with 6, else 0. 1, 3, 4 (a carried kind
 * too), 6. */
uint32_t station_read_line(const uint8_t *line, size_t n, uint64_t *column);

/* Reads one line of the same kinds by itself (80 bytes, no newline) to its record and writes the record: the first 80
 * bytes of `out` are then the line. 1, 3, 4 (a carried kind too), 6, 17. */
uint32_t station_rewrite_line(const uint8_t *line, size_t n, uint8_t *out, size_t room);

/* Fills a cell from one CRYST1 line by itself (80 bytes, no newline). 1, 3, 4 (another kind of line too), 6. */
uint32_t station_cell_of_line(const uint8_t *line, size_t n, station_cell *cell);

/* Fills a transformation from one ORIGX1-3 or SCALE1-3 line likewise. 1, 3, 4 (another kind of line too), 6. */
uint32_t station_transform_of_line(const uint8_t *line, size_t n, station_transform *transform);

/* Tells the SCALE lines of an accepted text: `rows` receives four numbers for each of SCALE1, SCALE2 and SCALE3, the
 * coefficients of x, y, z in millionths and the shift in hundred-thousandths. 1 to 12, 21 and 22 for the text; 29 if it
 * has no SCALE lines. */
uint32_t station_scale(const uint8_t *text, size_t n, int32_t rows[STATION_SCALE_SIZE]);

/* The fractional place of x, y, z, in thousandths, by such rows, which may be any numbers: nothing overflows. `out`
 * receives three numbers, one for each row, in billionths, exact; then the same three in hundred-thousandths, rounded
 * to the nearest, a half away from zero. 33 if a coordinate is not from -999,999 to 9,999,999. */
uint32_t station_place(const int32_t rows[STATION_SCALE_SIZE], const int32_t at[3],
                       int64_t out[STATION_PLACE_SIZE]);

/* The fractional place of x, y, z by the SCALE lines of an accepted text: station_scale, and then station_place. 1 to
 * 12, 21 and 22 for the text; 29; 33. */
uint32_t station_fractional(const uint8_t *text, size_t n, const int32_t at[3], int64_t out[STATION_PLACE_SIZE]);

/* Jumps to an atom: returns the number of the first line that ends in its newline and reads by itself as an ATOM or
 * HETATM line with this serial, 0 if there is none. Lines are pieces of 81 bytes and count from 1; the text need not be
 * accepted, a line that does not read is passed over and counted. `looked` receives the lines looked at, at every call:
 * the line returned, or all whole lines if there is none. There is no refusal. */
uint64_t station_find(const uint8_t *text, size_t n, uint32_t serial, uint64_t *looked);

/* The dot of a slot: x, y, z in thousandths. Returns 1 if the slot is an atom marked in; 0 if there is nothing to draw,
 * and `out` is as it was. */
uint32_t station_dot(const station_slot *slot, double out[3]);

/* The stroke between two slots: x, y, z of the first, then of the second. Returns 1 if both are atoms marked in (they
 * may be the same slot); 0 if there is nothing to draw, and `out` is as it was. */
uint32_t station_stroke(const station_slot *a, const station_slot *b, double out[6]);

/* The frame of the atoms marked in among these slots: lowest x, y, z, highest x, y, z, middle x, y, z, in thousandths,
 * the middle exact to half a thousandth. 19 if there is none. */
uint32_t station_frame(const station_slot *table, size_t slots, double out[9]);

/* Raises by 1 the count that the line's name has on MASTER, if it has one; MODEL and ENDMDL have none. Only the first
 * six bytes are looked at. 4 if there are fewer or they are no known name; 14 if the count to be raised is 99,999 or
 * more. */
uint32_t station_count_line(station_tally *tally, const uint8_t *line, size_t n);

/* The same for a line that may stand past the first model: `past` is not 0 once the first ENDMDL has gone by, and then
 * ATOM, HETATM and TER have no count either. station_count_line is this with `past` 0. */
uint32_t station_count_line_past(station_tally *tally, const uint8_t *line, size_t n, uint8_t past);

#ifdef __cplusplus
}
#endif

#endif
