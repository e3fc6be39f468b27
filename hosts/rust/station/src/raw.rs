//! The C names, as `include/station.h` declares them. The rest of the crate is the safe way to them.

/// One slot of the table: 48 bytes without padding. A foreign table may hold any bytes at all.
#[derive(Clone, Copy, Debug, Default, PartialEq, Eq)]
#[repr(C)]
pub struct Slot {
    /// The serial.
    pub serial: u32,
    /// The number of the residue.
    pub number: i32,
    /// In thousandths.
    pub x: i32,
    /// In thousandths.
    pub y: i32,
    /// In thousandths.
    pub z: i32,
    /// In hundredths.
    pub occupancy: i32,
    /// In hundredths.
    pub temperature: i32,
    /// 1 ATOM, 2 HETATM, 3 TER; any other byte: damaged.
    pub kind: u8,
    /// 0 in, 1 aside; any other byte: damaged.
    pub mark: u8,
    /// The name of the atom, as its columns have it; so are the rest.
    pub name: [u8; 4],
    /// The alternate location.
    pub alternate: u8,
    /// The name of the residue.
    pub residue: [u8; 3],
    /// The chain.
    pub chain: u8,
    /// The insertion code.
    pub insertion: u8,
    /// The element.
    pub element: [u8; 2],
    /// The charge.
    pub charge: [u8; 2],
    /// The number of its model; 0 without models, or filled from a single line.
    pub model: u32,
}

/// The nine counts of MASTER.
#[derive(Clone, Copy, Debug, Default, PartialEq, Eq)]
#[repr(C)]
pub struct Tally {
    /// REMARK lines.
    pub remark: u32,
    /// HET lines.
    pub het: u32,
    /// HELIX lines.
    pub helix: u32,
    /// SHEET lines.
    pub sheet: u32,
    /// ORIGX and SCALE lines.
    pub xform: u32,
    /// ATOM and HETATM lines, with models those of the first alone.
    pub coord: u32,
    /// TER lines, likewise.
    pub ter: u32,
    /// CONECT lines.
    pub conect: u32,
    /// SEQRES lines.
    pub seq: u32,
}

/// The cell of a CRYST1 line: 40 bytes without padding.
#[derive(Clone, Copy, Debug, Default, PartialEq, Eq)]
#[repr(C)]
pub struct Cell {
    /// An edge, in thousandths.
    pub a: i32,
    /// In thousandths.
    pub b: i32,
    /// In thousandths.
    pub c: i32,
    /// An angle, in hundredths of a degree.
    pub alpha: i32,
    /// In hundredths of a degree.
    pub beta: i32,
    /// In hundredths of a degree.
    pub gamma: i32,
    /// Z.
    pub z: u32,
    /// The space group, its eleven columns and a byte 0.
    pub group: [u8; 12],
}

/// The transformation of an ORIGX or SCALE line: 20 bytes without padding.
#[derive(Clone, Copy, Debug, Default, PartialEq, Eq)]
#[repr(C)]
pub struct Transform {
    /// The coefficients of x, y, z, in millionths.
    pub m: [i32; 3],
    /// The shift, in hundred-thousandths.
    pub t: i32,
    /// 1 to 3 for ORIGX1 to ORIGX3, 4 to 6 for SCALE1 to SCALE3.
    pub row: u32,
}

/// Declares the functions, and with them a struct that holds one function for each name.
macro_rules! names {
    ($($(#[$doc:meta])* fn $name:ident as $field:ident ($($argument:ident: $kind:ty),* $(,)?) -> $answer:ty;)*) => {
        extern "C" {
            $($(#[$doc])* pub fn $name($($argument: $kind),*) -> $answer;)*
        }

        /// A library that offers the C names: the linked one, or another that a test puts in its place.
        #[derive(Clone, Copy)]
        pub struct Library {
            $($(#[$doc])* pub $field: unsafe extern "C" fn($($argument: $kind),*) -> $answer,)*
        }

        /// The library that this program is linked with.
        pub const LINKED: Library = Library { $($field: $name,)* };
    };
}

names! {
    /// Checks a text; `answer` has room for twelve numbers.
    fn station_check as check(text: *const u8, n: usize, answer: *mut u64) -> u32;
    /// Checks a text; `answer` has room for thirteen numbers, the third the column of a wrong field.
    fn station_verdict as verdict(text: *const u8, n: usize, answer: *mut u64) -> u32;
    /// Loads a text into a table.
    fn station_load as load(text: *const u8, n: usize, table: *mut Slot, slots: usize, count: *mut u64) -> u32;
    /// Sets a fragment aside, or puts it back.
    fn station_order as order(
        text: *const u8, n: usize, table: *mut Slot, slots: usize, fragment: u32, aside: u8,
    ) -> u32;
    /// Sets every fragment aside or puts it back, by a byte for each.
    fn station_arrange as arrange(
        text: *const u8, n: usize, table: *mut Slot, slots: usize, aside: *const u8, fragments: usize,
    ) -> u32;
    /// Tells the number of its fragment for each slot.
    fn station_fragments as fragments(
        text: *const u8, n: usize, table: *const Slot, slots: usize, out: *mut u32, room: usize, count: *mut u64,
    ) -> u32;
    /// Writes the entry without what was set aside.
    fn station_save as save(
        text: *const u8, n: usize, table: *const Slot, slots: usize, out: *mut u8, room: usize, count: *mut u64,
    ) -> u32;
    /// Writes what saving leaves out.
    fn station_tray as tray(
        text: *const u8, n: usize, table: *const Slot, slots: usize, out: *mut u8, room: usize, count: *mut u64,
    ) -> u32;
    /// Fills a slot from one line.
    fn station_slot_of_line as slot_of_line(line: *const u8, n: usize, slot: *mut Slot) -> u32;
    /// Reads one line and writes its record.
    fn station_rewrite_line as rewrite_line(line: *const u8, n: usize, out: *mut u8, room: usize) -> u32;
    /// Reads one line by itself and keeps nothing; tells the column of a wrong field.
    fn station_read_line as read_line(line: *const u8, n: usize, column: *mut u64) -> u32;
    /// Fills a cell from one CRYST1 line.
    fn station_cell_of_line as cell_of_line(line: *const u8, n: usize, cell: *mut Cell) -> u32;
    /// Fills a transformation from one ORIGX or SCALE line.
    fn station_transform_of_line as transform_of_line(line: *const u8, n: usize, transform: *mut Transform) -> u32;
    /// The SCALE rows of a text; `rows` has room for twelve numbers, four for each row.
    fn station_scale as scale(text: *const u8, n: usize, rows: *mut i32) -> u32;
    /// The fractional place of three coordinates by twelve numbers of rows; `out` has room for six numbers.
    fn station_place as place(rows: *const i32, at: *const i32, out: *mut i64) -> u32;
    /// The fractional place of three coordinates by the rows of a text; `out` has room for six numbers.
    fn station_fractional as fractional(text: *const u8, n: usize, at: *const i32, out: *mut i64) -> u32;
    /// Jumps to an atom by its serial: its line, 0 if there is none. Tells how many lines were looked at.
    fn station_find as find(text: *const u8, n: usize, serial: u32, looked: *mut u64) -> u64;
    /// The dot of a slot; `out` has room for three doubles. 1 if there is one.
    fn station_dot as dot(slot: *const Slot, out: *mut f64) -> u32;
    /// The stroke of two slots; `out` has room for six doubles. 1 if there is one.
    fn station_stroke as stroke(a: *const Slot, b: *const Slot, out: *mut f64) -> u32;
    /// The frame of some slots; `out` has room for nine doubles.
    fn station_frame as frame(table: *const Slot, slots: usize, out: *mut f64) -> u32;
    /// Counts one line.
    fn station_count_line as count_line(tally: *mut Tally, line: *const u8, n: usize) -> u32;
    /// Counts one line, by whether the first ENDMDL has gone by (`past` not 0).
    fn station_count_line_past as count_line_past(tally: *mut Tally, line: *const u8, n: usize, past: u8) -> u32;
}
