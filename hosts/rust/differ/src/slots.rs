//! Slots of the library and of the reference, made of one another, and the library's records of a line.

use station::raw::{Cell, Slot, Transform};

/// A slot of one side with the fields of a slot of the other.
macro_rules! with_fields_of {
    ($slot:expr, $($made:tt)+) => {
        $($made)+ {
            serial: $slot.serial,
            number: $slot.number,
            x: $slot.x,
            y: $slot.y,
            z: $slot.z,
            occupancy: $slot.occupancy,
            temperature: $slot.temperature,
            kind: $slot.kind,
            mark: $slot.mark,
            name: $slot.name,
            alternate: $slot.alternate,
            residue: $slot.residue,
            chain: $slot.chain,
            insertion: $slot.insertion,
            element: $slot.element,
            charge: $slot.charge,
            model: $slot.model,
        }
    };
}

/// The slot of the reference.
pub fn to_reference(slot: &Slot) -> reference::Slot {
    with_fields_of!(slot, reference::Slot)
}

/// The slot of the library.
pub fn to_library(slot: &reference::Slot) -> Slot {
    with_fields_of!(slot, Slot)
}

/// The cell of the library.
pub fn cell_to_library(cell: &reference::record::Cell) -> Cell {
    let ([a, b, c], [alpha, beta, gamma]) = (cell.edges, cell.angles);
    let mut group = [0; 12];
    group[..11].copy_from_slice(&cell.group);
    Cell { a, b, c, alpha, beta, gamma, z: cell.z, group }
}

/// The transformation of the library.
pub fn transform_to_library(own: &reference::record::Transformation) -> Transform {
    Transform { m: own.coefficients, t: own.shift, row: own.row }
}

#[cfg(test)]
mod tests {
    use std::mem::{offset_of, size_of};

    use super::*;

    #[test]
    fn records_have_the_layout_of_c() {
        assert_eq!((size_of::<Cell>(), size_of::<Transform>()), (40, 20));
        assert_eq!((offset_of!(Cell, alpha), offset_of!(Cell, z), offset_of!(Cell, group)), (12, 24, 28));
        assert_eq!((offset_of!(Transform, t), offset_of!(Transform, row)), (12, 16));
    }

    #[test]
    fn the_space_group_is_a_c_string() {
        let cell = reference::cell_of_line(
            b"CRYST1   52.000   58.600   61.900  90.00  91.00 120.00 P 21 21 21    8          ",
        )
        .expect("a cell");
        let group = *b"P 21 21 21 \0";
        let due = Cell { a: 52_000, b: 58_600, c: 61_900, alpha: 9_000, beta: 9_100, gamma: 12_000, z: 8, group };
        assert_eq!(cell_to_library(&cell), due);
    }
}
