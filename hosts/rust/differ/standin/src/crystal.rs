//! The names of the crystal frame.

use reference::Fractional;

use super::{lent, lent_mut, number};

/// The cell as it is lent.
#[repr(C)]
pub struct LentCell {
    edges: [i32; 3],
    angles: [i32; 3],
    z: u32,
    group: [u8; 12],
}

/// The transformation as it is lent.
#[repr(C)]
pub struct LentTransform {
    coefficients: [i32; 3],
    shift: i32,
    row: u32,
}

/// Three coordinates that are lent.
unsafe fn coordinates(at: *const i32) -> [i32; 3] {
    *at.cast()
}

/// Writes a fractional place: billionths, then hundred-thousandths.
unsafe fn placed(answer: Result<Fractional, reference::Refusal>, out: *mut i64) -> u32 {
    if let Ok(place) = answer {
        let out = lent_mut(out, 6);
        out[..3].copy_from_slice(&place.billionths);
        out[3..].copy_from_slice(&place.hundred_thousandths);
    }
    number(answer)
}

#[no_mangle]
pub unsafe extern "C" fn station_cell_of_line(line: *const u8, n: usize, cell: *mut LentCell) -> u32 {
    let answer = reference::cell_of_line(lent(line, n));
    if let Ok(found) = &answer {
        let mut group = [0; 12];
        group[..11].copy_from_slice(&found.group);
        *cell = LentCell { edges: found.edges, angles: found.angles, z: found.z, group };
    }
    number(answer)
}

#[no_mangle]
pub unsafe extern "C" fn station_transform_of_line(line: *const u8, n: usize, transform: *mut LentTransform) -> u32 {
    let answer = reference::transformation_of_line(lent(line, n));
    if let Ok(found) = &answer {
        *transform = LentTransform { coefficients: found.coefficients, shift: found.shift, row: found.row };
    }
    number(answer)
}

#[no_mangle]
pub unsafe extern "C" fn station_scale(text: *const u8, n: usize, rows: *mut i32) -> u32 {
    let answer = reference::rows(lent(text, n));
    if let Ok(found) = &answer {
        lent_mut(rows, 12).copy_from_slice(found.as_flattened());
    }
    number(answer)
}

#[no_mangle]
pub unsafe extern "C" fn station_place(rows: *const i32, at: *const i32, out: *mut i64) -> u32 {
    placed(reference::place(&*rows.cast(), coordinates(at)), out)
}

#[no_mangle]
pub unsafe extern "C" fn station_fractional(text: *const u8, n: usize, at: *const i32, out: *mut i64) -> u32 {
    placed(reference::fractional(lent(text, n), coordinates(at)), out)
}
