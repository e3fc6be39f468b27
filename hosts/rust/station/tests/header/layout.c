/* Holds the layout of station.h against the one that the Rust side passes in as macros. */
#include "station.h"

#define SLOT(field, offset) _Static_assert(offsetof(station_slot, field) == (offset), "offset of " #field)
#define TALLY(field, offset) _Static_assert(offsetof(station_tally, field) == (offset), "offset of " #field)
#define CELL(field, offset) _Static_assert(offsetof(station_cell, field) == (offset), "offset of " #field)
#define TRANSFORM(field, offset) _Static_assert(offsetof(station_transform, field) == (offset), "offset of " #field)

_Static_assert(sizeof(station_slot) == SLOT_SIZE && SLOT_SIZE == 48, "size of station_slot");
_Static_assert(_Alignof(station_slot) == SLOT_ALIGN, "alignment of station_slot");
_Static_assert(sizeof(station_tally) == TALLY_SIZE && TALLY_SIZE == 36, "size of station_tally");
_Static_assert(_Alignof(station_tally) == TALLY_ALIGN, "alignment of station_tally");
_Static_assert(sizeof(station_cell) == CELL_SIZE && CELL_SIZE == 40, "size of station_cell");
_Static_assert(_Alignof(station_cell) == CELL_ALIGN, "alignment of station_cell");
_Static_assert(sizeof(station_transform) == TRANSFORM_SIZE && TRANSFORM_SIZE == 20, "size of station_transform");
_Static_assert(_Alignof(station_transform) == TRANSFORM_ALIGN, "alignment of station_transform");

SLOT(serial, SLOT_serial);
SLOT(number, SLOT_number);
SLOT(x, SLOT_x);
SLOT(y, SLOT_y);
SLOT(z, SLOT_z);
SLOT(occupancy, SLOT_occupancy);
SLOT(temperature, SLOT_temperature);
SLOT(kind, SLOT_kind);
SLOT(mark, SLOT_mark);
SLOT(name, SLOT_name);
SLOT(alternate, SLOT_alternate);
SLOT(residue, SLOT_residue);
SLOT(chain, SLOT_chain);
SLOT(insertion, SLOT_insertion);
SLOT(element, SLOT_element);
SLOT(charge, SLOT_charge);
SLOT(model, SLOT_model);

TALLY(remark, TALLY_remark);
TALLY(het, TALLY_het);
TALLY(helix, TALLY_helix);
TALLY(sheet, TALLY_sheet);
TALLY(xform, TALLY_xform);
TALLY(coord, TALLY_coord);
TALLY(ter, TALLY_ter);
TALLY(conect, TALLY_conect);
TALLY(seq, TALLY_seq);

CELL(a, CELL_a);
CELL(b, CELL_b);
CELL(c, CELL_c);
CELL(alpha, CELL_alpha);
CELL(beta, CELL_beta);
CELL(gamma, CELL_gamma);
CELL(z, CELL_z);
CELL(group, CELL_group);

TRANSFORM(m, TRANSFORM_m);
TRANSFORM(t, TRANSFORM_t);
TRANSFORM(row, TRANSFORM_row);
