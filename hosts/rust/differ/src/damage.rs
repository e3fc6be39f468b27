//! Damage to lines, texts and tables.

use station::raw::Slot;

use crate::chance::Chance;
use crate::entry::{line, master, named, put, put_number, Columns, ATOMS, COORDINATES, NAMES};
use crate::fields::{fields, Sort};
use crate::modelling;
use crate::names::{nearly, put_name};
use crate::rows::TRANSFORMS;
use crate::twinning;

/// Names that are nearly known.
const NEARLY: [&str; 17] = [
    "ENDMD ", "MODEL1", "ANISOU", "DBREF ", "atom  ", " ATOM ", "TER  x", "ORIGX4", "SCALE0", "ORIGX ", "HETATN",
    "SITE  ", "      ", "LINK  ", "HET  A", "END  1", "CONEC ",
];

/// A name that a line may be given, known or nearly so.
fn any_name(chance: &mut Chance) -> &'static str {
    let at = chance.below(NAMES.len() + NEARLY.len());
    NAMES.get(at).unwrap_or_else(|| &NEARLY[at - NAMES.len()])
}

/// Bytes at the edges of what fields take.
const EDGES: &[u8] = b" !'*+-./09:@AZ[`az{~";

fn edge(chance: &mut Chance) -> u8 {
    if chance.once_in(3) {
        chance.printable()
    } else {
        *chance.pick(EDGES)
    }
}

/// A number in or near a range.
fn near(chance: &mut Chance, low: i64, high: i64) -> i64 {
    match chance.below(8) {
        0 => low - 1,
        1 => low,
        2 => high,
        3 => high + 1,
        4 => 0,
        5 => chance.within(-1, 1),
        _ => chance.within(low, high),
    }
}

/// The text of a number with so many decimals, or one that is nearly so.
fn number_text(chance: &mut Chance, number: i64, decimals: usize) -> String {
    let minus = if number < 0 { "-" } else { "" };
    let (size, scale) = (number.abs(), 10i64.pow(decimals as u32));
    let point = if decimals == 0 { String::new() } else { format!(".{:0decimals$}", size % scale) };
    let whole = size / scale;
    match chance.below(16) {
        0 => format!("{minus}0{whole}{point}"),
        1 => format!("+{whole}{point}"),
        2 => format!("-{whole}{point}"),
        3 => format!("{minus} {whole}{point}"),
        4 => format!("{minus}{whole}{point} "),
        5 => format!("{minus}{point}"),
        6 => format!("{minus}{whole}{point}0"),
        7 => format!("{minus}{whole}.{}", point.trim_start_matches('.')),
        8 => format!("{minus}{whole}"),
        _ => format!("{minus}{whole}{point}"),
    }
}

/// Puts something into a field that holds no number.
fn put_bytes(chance: &mut Chance, line: &mut Columns, (from, to, sort): (usize, usize, Sort)) {
    if matches!(sort, Sort::Element) {
        let first = if chance.once_in(3) { b' ' } else { b'A' + chance.below(26) as u8 };
        let pair = [first, b'A' + chance.below(26) as u8];
        put(line, from, &pair);
        if !chance.once_in(8) {
            put(line, 13, &pair);
        }
        return;
    }
    // All of them, or one of them.
    let (first, last) = if chance.once_in(2) { (from, to) } else { (from + chance.below(to + 1 - from), 0) };
    for at in first..=last.max(first) {
        put(line, at, &[edge(chance)]);
    }
}

/// Puts something into a field that is right for it, or nearly so.
pub fn put_nearly(chance: &mut Chance, line: &mut Columns, (from, to, sort): (usize, usize, Sort)) {
    let width = to + 1 - from;
    let Some((decimals, low, high)) = sort.range() else {
        return put_bytes(chance, line, (from, to, sort));
    };
    let number = near(chance, low, high);
    let mut text = number_text(chance, number, decimals).into_bytes();
    text.truncate(width);
    let blanks = vec![b' '; width - text.len()];
    let whole = if chance.once_in(16) { [text, blanks].concat() } else { [blanks, text].concat() };
    put(line, from, &whole);
}

/// Gives a line another name, known or not.
pub fn rename(chance: &mut Chance, line: &mut Columns) {
    put(line, 1, any_name(chance).as_bytes());
}

/// Damages one line. It may come out right all the same.
pub fn damage_line(chance: &mut Chance, line: &mut Columns) {
    let fields = fields(line);
    let any = 1 + chance.below(80);
    let field = if fields.is_empty() { (7, 80, Sort::Bytes) } else { *chance.pick(fields) };
    let (from, to, _) = field;
    match chance.below(16) {
        0 => put(line, any, &[chance.byte()]),
        1 => put(line, any, &[chance.printable()]),
        2 => rename(chance, line),
        3 => put(line, from, &vec![b' '; to + 1 - from]),
        4 => line[from - 1..to].rotate_left(1),
        5 => line[6..].rotate_right(1),
        6..=8 => {
            let blank = |at: &usize| !fields.iter().any(|(from, to, _)| (*from..=*to).contains(at));
            let blanks: Vec<usize> = (7..=80).filter(blank).collect();
            if !blanks.is_empty() {
                put(line, *chance.pick(&blanks), &[edge(chance)]);
            }
        }
        9 if named(line, ATOMS) => put_name(line, nearly(chance)),
        9 if line.starts_with(b"SHEET") && chance.once_in(2) => put(line, 42, &[b' '; 29]),
        9 if line.starts_with(b"SHEET") => {
            // Strand 1, whatever stands in its registration.
            put(line, 8, b"  1");
            put(line, 39, b" 0");
        }
        _ => put_nearly(chance, line, field),
    }
}

/// Damages the order, number or links of the lines of an entry.
pub fn damage_lines(chance: &mut Chance, lines: &mut Vec<Columns>) {
    // Not every damage finds the line that it needs.
    for _ in 0..8 {
        if try_damage(chance, lines).is_some() {
            return;
        }
    }
}

/// Damages some line, if there is one for the damage that was chosen.
fn try_damage(chance: &mut Chance, lines: &mut Vec<Columns>) -> Option<()> {
    if lines.is_empty() {
        return None;
    }
    let at = chance.below(lines.len());
    let other = chance.below(lines.len());
    match chance.below(39) {
        0 => {
            lines.remove(at);
        }
        1 => lines.insert(at, lines[at]),
        2 => lines.swap(at, other),
        3 => {
            let moved = lines.remove(at);
            lines.insert(other.min(lines.len()), moved);
        }
        4 => {
            // A serial that does not rise, or rises too far for the next.
            let (to, from) = (one_of(chance, lines, COORDINATES)?, one_of(chance, lines, COORDINATES)?);
            let serial = lines[from][6..11].to_vec();
            put(&mut lines[to], 7, &serial);
        }
        5 => put(named_line(chance, lines, COORDINATES)?, 22, &[*chance.pick(b"ABCa0")]),
        6 => {
            let number = *chance.pick(&["   1", "  -3", "9999"]);
            put(named_line(chance, lines, &[b"TER   "])?, 23, number.as_bytes());
        }
        7 => put(named_line(chance, lines, &[b"TER   "])?, 18, b"QQQ"),
        8 => put(named_line(chance, lines, &[b"TER   "])?, 27, &[*chance.pick(b" AB")]),
        9 => {
            let name = *chance.pick(&["ATOM  ", "HETATM", "TER   "]);
            put(named_line(chance, lines, COORDINATES)?, 1, name.as_bytes());
        }
        10 | 11 => {
            // A number on a CONECT line becomes another line's serial, a TER's among them.
            let (bond, from) = (one_of(chance, lines, &[b"CONECT"])?, one_of(chance, lines, COORDINATES)?);
            let serial = lines[from][6..11].to_vec();
            put(&mut lines[bond], 7 + 5 * chance.below(5), &serial);
        }
        12 => put_number(named_line(chance, lines, &[b"CONECT"])?, 7, 11, chance.within(1, 60)),
        13 => put_number(named_line(chance, lines, &[b"HELIX "])?, 8, 10, chance.within(1, 5)),
        14 => put_number(named_line(chance, lines, &[b"SHEET "])?, 8, 10, chance.within(1, 6)),
        15 => put_number(named_line(chance, lines, &[b"SHEET "])?, 15, 16, chance.within(1, 6)),
        16 => {
            // The identifier of another strand, or another.
            let (to, from) = (one_of(chance, lines, &[b"SHEET "])?, one_of(chance, lines, &[b"SHEET "])?);
            let identifier = if chance.once_in(2) { lines[from][11..14].to_vec() } else { b"  ~".to_vec() };
            put(&mut lines[to], 12, &identifier);
        }
        17 => {
            let from = 11 + 5 * chance.below(12);
            let count = one_of(chance, lines, &[b"MASTER"])?;
            put_number(&mut lines[count], from, from + 4, chance.within(0, 3));
        }
        18 => {
            lines.insert(at, line(any_name(chance)));
        }
        19 => repeat(lines, at, 1 + chance.below(4)),
        20 => {
            // A trio once more.
            let last = one_of(chance, lines, &[b"ORIGX3", b"SCALE3"])?;
            repeat(lines, last.saturating_sub(2), 3);
        }
        21 => {
            // One of those that stand once, once more, or one of a trio less.
            let at = one_of_crystal(chance, lines)?;
            if chance.once_in(2) {
                repeat(lines, at, 1);
            } else {
                lines.remove(at);
            }
        }
        22 | 23 => put_name(named_line(chance, lines, ATOMS)?, nearly(chance)),
        24..=29 => twinning::damage(chance, lines)?,
        30..=32 => modelling::damage(chance, lines)?,
        33..=37 => {
            let at = one_of_crystal(chance, lines)?;
            damage_line(chance, &mut lines[at]);
        }
        _ => damage_line(chance, &mut lines[at]),
    }
    Some(())
}

/// One of the lines with these names, if there is one.
pub fn one_of(chance: &mut Chance, lines: &[Columns], names: &[&[u8; 6]]) -> Option<usize> {
    let found: Vec<usize> = (0..lines.len()).filter(|&index| named(&lines[index], names)).collect();
    if found.is_empty() {
        None
    } else {
        Some(*chance.pick(&found))
    }
}

/// The CRYST1 line or one of the trios', if there is one.
fn one_of_crystal(chance: &mut Chance, lines: &[Columns]) -> Option<usize> {
    let names: &[&[u8; 6]] = if chance.once_in(3) { &[b"CRYST1"] } else { &TRANSFORMS };
    one_of(chance, lines, names)
}

/// One of the lines with these names, to be changed.
pub fn named_line<'a>(chance: &mut Chance, lines: &'a mut [Columns], names: &[&[u8; 6]]) -> Option<&'a mut Columns> {
    let at = one_of(chance, lines, names)?;
    lines.get_mut(at)
}

/// Repeats some lines right behind themselves.
pub fn repeat(lines: &mut Vec<Columns>, from: usize, count: usize) {
    let end = (from + count).min(lines.len());
    let block = lines[from..end].to_vec();
    lines.splice(end..end, block);
}

/// Counts MASTER again after damage, so that the damage is what decides.
pub fn recount(lines: &mut [Columns]) {
    if let Some(at) = lines.iter().position(|line| named(line, &[b"MASTER"])) {
        lines[at] = master(lines);
    }
}

/// Damages the bytes of a text.
pub fn damage_text(chance: &mut Chance, text: &mut Vec<u8>) {
    let at = chance.below(text.len());
    let lines = text.len() / 81;
    match chance.below(11) {
        0 => text.truncate(at),
        1 => text.truncate(81 * chance.below(lines + 1)),
        2 => text.push(chance.byte()),
        3 => text.push(b'\n'),
        4 => text.extend_from_slice(&text.clone()[..81.min(text.len())]),
        5 if lines > 0 => text[81 * chance.below(lines) + 80] = *chance.pick(b"\r \0X\x0b"),
        6 if lines > 0 => {
            let line = 81 * chance.below(lines);
            text[line + chance.below(80)] = *chance.pick(&[0, 9, 10, 13, 31, 127, 128, 255]);
        }
        7 => {
            // Carriage returns before all newlines.
            let returned = text.iter().flat_map(|&byte| if byte == b'\n' { vec![b'\r', b'\n'] } else { vec![byte] });
            *text = returned.collect();
        }
        8 if !text.is_empty() => {
            text.remove(at);
        }
        9 => drop(text.pop()),
        _ if !text.is_empty() => text[at] = chance.byte(),
        _ => {}
    }
}

/// Damages a table.
pub fn damage_table(chance: &mut Chance, table: &mut [Slot]) {
    if table.is_empty() {
        return;
    }
    let at = chance.below(table.len());
    let other = chance.below(table.len());
    let slot = &mut table[at];
    match chance.below(24) {
        0 => slot.serial = slot.serial.wrapping_add(1),
        1 => slot.number ^= 1,
        2 => slot.x ^= 1,
        3 => slot.y = slot.y.wrapping_neg(),
        4 => slot.z ^= i32::MIN,
        5 => slot.occupancy ^= 1,
        6 => slot.temperature ^= 0x100,
        7 => slot.kind = *chance.pick(&[0, 1, 2, 3, 4, 255]),
        8 | 9 => slot.mark ^= 1,
        10 => slot.mark = *chance.pick(&[2, 3, 128, 255]),
        11 => slot.name[chance.below(4)] ^= 1 << chance.below(8),
        12 => slot.alternate ^= 1 << chance.below(8),
        13 => slot.residue[chance.below(3)] ^= 1 << chance.below(8),
        14 => slot.chain ^= 1 << chance.below(8),
        15 => slot.insertion ^= 1 << chance.below(8),
        16 => slot.element[chance.below(2)] ^= 1 << chance.below(8),
        17 => slot.charge[chance.below(2)] ^= 1 << chance.below(8),
        18 | 19 => {
            slot.model = *chance.pick(&[0, 1, 2, slot.model ^ 1, slot.model.wrapping_add(1), slot.model | 1 << 16])
        }
        20 => table.swap(at, other),
        _ => table[at] = table[other],
    }
}
