//! Errors in the rows of a text and in fractional places.

use std::slice::{from_raw_parts, from_raw_parts_mut};

use station::raw::{Library, Transform, LINKED};

use crate::assert_found;

/// Whether one of three coordinates is out of its range.
unsafe fn out_of_range(at: *const i32) -> bool {
    from_raw_parts(at, 3).iter().any(|coordinate| !(-999_999..=9_999_999).contains(coordinate))
}

/// Billionths in hundred-thousandths, a half away from zero.
fn nearest(billionths: i64) -> i64 {
    (billionths + 5_000 * billionths.signum()) / 10_000
}

/// Makes other numbers of a place: `billionths` has the row and what came of it, `rounded` the billionths and what came of them.
unsafe fn otherwise(
    (rows, at, out): (*const i32, *const i32, *mut i64),
    billionths: impl Fn(&[i32], &[i32], i64) -> i64,
    rounded: impl Fn(i64, i64) -> i64,
) -> u32 {
    let number = (LINKED.place)(rows, at, out);
    if number == 0 {
        let (rows, at, out) = (from_raw_parts(rows, 12), from_raw_parts(at, 3), from_raw_parts_mut(out, 6));
        for (index, row) in rows.chunks(4).enumerate() {
            out[index] = billionths(row, at, out[index]);
            out[index + 3] = rounded(out[index], nearest(out[index]));
        }
    }
    number
}

fn as_it_is(_: &[i32], _: &[i32], billionths: i64) -> i64 {
    billionths
}

fn as_rounded(_: i64, nearest: i64) -> i64 {
    nearest
}

/// The transformation of a line of a text that has this name.
unsafe fn transform_named(text: *const u8, n: usize, name: &str) -> Option<Transform> {
    let line = from_raw_parts(text, n).chunks(81).find(|line| line.starts_with(name.as_bytes()))?;
    let mut found = Transform::default();
    (LINKED.transform_of_line)(line.as_ptr(), 80, &mut found);
    Some(found)
}

/// What is planted below is wrong by its numbers, not by the way they are made.
#[test]
fn places_as_they_are() {
    unsafe extern "C" fn same(rows: *const i32, at: *const i32, out: *mut i64) -> u32 {
        otherwise((rows, at, out), as_it_is, as_rounded)
    }
    assert_eq!(differ::run(Library { place: same, ..LINKED }, 5, 0..crate::CASES).shown, Vec::<String>::new());
}

planted! {
    a_half_goes_to_zero: place(rows: *const i32, at: *const i32, out: *mut i64) {
        otherwise((rows, at, out), as_it_is, |exact, near| {
            if exact % 10_000 == 5_000 * exact.signum() { near - exact.signum() } else { near }
        })
    }
    a_half_goes_up: place(rows: *const i32, at: *const i32, out: *mut i64) {
        otherwise((rows, at, out), as_it_is, |exact, _| (exact + 5_000).div_euclid(10_000))
    }
    a_half_goes_to_the_even_one: place(rows: *const i32, at: *const i32, out: *mut i64) {
        otherwise((rows, at, out), as_it_is, |exact, near| {
            if exact % 10_000 == 5_000 * exact.signum() { near / 2 * 2 } else { near }
        })
    }
    the_rest_is_cut_off: place(rows: *const i32, at: *const i32, out: *mut i64) {
        otherwise((rows, at, out), as_it_is, |exact, _| exact / 10_000)
    }
    the_shift_in_millionths: place(rows: *const i32, at: *const i32, out: *mut i64) {
        otherwise((rows, at, out), |row, _, exact| exact - 9_000 * i64::from(row[3]), as_rounded)
    }
    no_shift: place(rows: *const i32, at: *const i32, out: *mut i64) {
        otherwise((rows, at, out), |row, _, exact| exact - 10_000 * i64::from(row[3]), as_rounded)
    }
    products_of_32_bits: place(rows: *const i32, at: *const i32, out: *mut i64) {
        otherwise(
            (rows, at, out),
            |row, at, _| {
                let products = row.iter().zip(at).map(|(by, place)| i64::from(by.wrapping_mul(*place)));
                products.sum::<i64>() + 10_000 * i64::from(row[3])
            },
            as_rounded,
        )
    }
    billionths_as_doubles: place(rows: *const i32, at: *const i32, out: *mut i64) {
        otherwise(
            (rows, at, out),
            |row, at, _| {
                let products = row.iter().zip(at).map(|(by, place)| f64::from(*by) * f64::from(*place));
                (products.sum::<f64>() + 10_000.0 * f64::from(row[3])) as i64
            },
            as_rounded,
        )
    }
    columns_for_rows: place(rows: *const i32, at: *const i32, out: *mut i64) {
        let own = from_raw_parts(rows, 12);
        let turned: Vec<i32> = (0..12)
            .map(|index| if index % 4 == 3 { own[index] } else { own[4 * (index % 4) + index / 4] })
            .collect();
        (LINKED.place)(turned.as_ptr(), at, out)
    }
    hundred_thousandths_first: place(rows: *const i32, at: *const i32, out: *mut i64) {
        let number = (LINKED.place)(rows, at, out);
        if number == 0 {
            from_raw_parts_mut(out, 6).rotate_left(3);
        }
        number
    }
    a_refused_place_is_written: place(rows: *const i32, at: *const i32, out: *mut i64) {
        let number = (LINKED.place)(rows, at, out);
        if number == 33 {
            *out ^= 1;
        }
        number
    }
    a_seventh_number: place(rows: *const i32, at: *const i32, out: *mut i64) {
        let number = (LINKED.place)(rows, at, out);
        *out.add(6) ^= 1;
        number
    }
    lent_rows_are_changed: place(rows: *const i32, at: *const i32, out: *mut i64) {
        let number = (LINKED.place)(rows, at, out);
        *rows.cast_mut().add(11) ^= 1;
        number
    }
    the_last_coordinate_is_not_judged: place(rows: *const i32, at: *const i32, out: *mut i64) {
        let own = [*at, *at.add(1), (*at.add(2)).clamp(-999_999, 9_999_999)];
        (LINKED.place)(rows, own.as_ptr(), out)
    }
    one_past_the_end_is_taken: place(rows: *const i32, at: *const i32, out: *mut i64) {
        let own: Vec<i32> = from_raw_parts(at, 3)
            .iter()
            .map(|&coordinate| if coordinate == 10_000_000 { 9_999_999 } else { coordinate })
            .collect();
        (LINKED.place)(rows, own.as_ptr(), out)
    }
    the_lowest_coordinate_is_refused: place(rows: *const i32, at: *const i32, out: *mut i64) {
        if from_raw_parts(at, 3).contains(&-999_999) {
            return 33;
        }
        (LINKED.place)(rows, at, out)
    }
    second_and_third_row_change_places: scale(text: *const u8, n: usize, rows: *mut i32) {
        let number = (LINKED.scale)(text, n, rows);
        if number == 0 {
            from_raw_parts_mut(rows, 12)[4..].rotate_left(4);
        }
        number
    }
    origx_for_scale: scale(text: *const u8, n: usize, rows: *mut i32) {
        let number = (LINKED.scale)(text, n, rows);
        if number == 29 {
            for (index, name) in ["ORIGX1", "ORIGX2", "ORIGX3"].into_iter().enumerate() {
                let Some(found) = transform_named(text, n, name) else { return 29 };
                let [x, y, z] = found.m;
                from_raw_parts_mut(rows.add(4 * index), 4).copy_from_slice(&[x, y, z, found.t]);
            }
            return 0;
        }
        number
    }
    rows_without_scale_are_zeros: scale(text: *const u8, n: usize, rows: *mut i32) {
        let number = (LINKED.scale)(text, n, rows);
        if number == 29 {
            from_raw_parts_mut(rows, 12).fill(0);
        }
        number
    }
    rows_of_a_refused_text: scale(text: *const u8, n: usize, rows: *mut i32) {
        let number = (LINKED.scale)(text, n, rows);
        if (1..=22).contains(&number) {
            for (index, name) in ["SCALE1", "SCALE2", "SCALE3"].into_iter().enumerate() {
                let whole = n / 81 * 81;
                let Some(found) = transform_named(text, whole, name) else { return number };
                *rows.add(4 * index) = found.m[0];
            }
        }
        number
    }
    thirty_three_before_twenty_nine: fractional(text: *const u8, n: usize, at: *const i32, out: *mut i64) {
        let number = (LINKED.fractional)(text, n, at, out);
        if number == 29 && out_of_range(at) {
            return 33;
        }
        number
    }
    thirty_three_before_the_text: fractional(text: *const u8, n: usize, at: *const i32, out: *mut i64) {
        if out_of_range(at) {
            return 33;
        }
        (LINKED.fractional)(text, n, at, out)
    }
    twenty_nine_before_the_text: fractional(text: *const u8, n: usize, at: *const i32, out: *mut i64) {
        if transform_named(text, n / 81 * 81, "SCALE1").is_none() {
            return 29;
        }
        (LINKED.fractional)(text, n, at, out)
    }
    a_place_without_scale_is_the_coordinates: fractional(text: *const u8, n: usize, at: *const i32, out: *mut i64) {
        let number = (LINKED.fractional)(text, n, at, out);
        if number == 29 {
            let ones = [1, 0, 0, 0, 0, 1, 0, 0, 0, 0, 1, 0];
            return (LINKED.place)(ones.as_ptr(), at, out);
        }
        number
    }
    a_refused_place_of_a_text_is_written: fractional(text: *const u8, n: usize, at: *const i32, out: *mut i64) {
        let number = (LINKED.fractional)(text, n, at, out);
        if number == 33 {
            *out.add(5) ^= 1;
        }
        number
    }
}
