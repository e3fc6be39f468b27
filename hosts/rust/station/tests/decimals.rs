//! Numbers of a slot as text and as doubles, against the columns that they are read from.

use std::error::Error;

use station::{Billionths, Decimal, HundredThousandths, Hundredths, Line, Slot, Thousandths};

/// An atom's line with these columns of x, y, z, occupancy and temperature factor.
fn line(place: [&str; 3], occupancy: &str, temperature: &str) -> Vec<u8> {
    let place = place.map(|x| format!("{x:>8}")).concat();
    format!("HETATM    1  C   ALA A   7    {place}{occupancy:>6}{temperature:>6}           C  ").into_bytes()
}

#[test]
fn a_slot_gives_back_its_columns() -> Result<(), Box<dyn Error>> {
    let places = ["-999.999", "9999.999", "0.000", "-0.001", "0.001", "-0.010", "1.100", "-12.345", "100.000", "0.999"];
    let (occupancies, temperatures) =
        (["0.00", "0.05", "0.50", "0.99", "1.00"], ["-99.99", "999.99", "0.00", "-0.01", "35.88"]);
    for (at, x) in places.iter().enumerate() {
        let place = [x, places[(at + 1) % 10], places[(at + 3) % 10]];
        let (occupancy, temperature) = (occupancies[at % 5], temperatures[(at + 2) % 5]);
        let slot = Line::slot_of(&line(place, occupancy, temperature))?;
        assert_eq!(slot.place().map(|place| place.map(|x| x.to_string())), Some(place.map(str::to_owned)));
        // The double of a text is the one next to it.
        assert_eq!(slot.angstroms(), Some([place[0].parse()?, place[1].parse()?, place[2].parse()?]));
        assert_eq!(slot.occupancy().map(|number| number.to_string()).as_deref(), Some(occupancy));
        assert_eq!(slot.occupancy().map(Decimal::value), Some(occupancy.parse()?));
        assert_eq!(slot.temperature().map(|number| number.to_string()).as_deref(), Some(temperature));
        assert_eq!(slot.temperature().map(Decimal::value), Some(temperature.parse()?));
    }
    Ok(())
}

#[test]
fn a_ter_has_none() -> Result<(), Box<dyn Error>> {
    let ter = Line::slot_of(format!("{:80}", "TER      33      ARG A  -3").as_bytes())?;
    for slot in [ter, Slot { kind: 9, ..ter }] {
        assert_eq!((slot.place(), slot.angstroms(), slot.occupancy(), slot.temperature()), (None, None, None, None));
    }
    Ok(())
}

/// A width fills a number up as its columns are: from the right. What a format says of digits is not followed, for the number is exact.
#[test]
fn numbers_fill_their_columns() {
    let numbers = [0, 1, -1, 11_281, -999_999, 9_999_999].map(Thousandths::of);
    let columns = ["   0.000", "   0.001", "  -0.001", "  11.281", "-999.999", "9999.999"];
    assert_eq!(numbers.map(|number| format!("{number:8}")), columns);
    assert_eq!(numbers.map(|number| format!("{number:8.1}")), columns);
    assert_eq!(format!("{:6}|{:<6}|", Hundredths::of(-9_999), Hundredths::of(5)), "-99.99|0.05  |");
    assert_eq!(Thousandths::of(i32::MIN).to_string(), "-2147483.648");
    assert_eq!(HundredThousandths::of(-12).to_string(), "-0.00012");
    let numbers = [216_944_911, -123_085, 30_009_996_969_990_003, i64::MAX, i64::MIN].map(Billionths::of);
    let texts = ["0.216944911", "-0.000123085", "30009996.969990003", "9223372036.854775807", "-9223372036.854775808"];
    assert_eq!(numbers.map(|number| number.to_string()), texts);
    assert!(Hundredths::of(-1) < Hundredths::of(0) && Hundredths::of(7).units() == 7);
}

/// Also where a double does not count every unit, its double is the one that the text reads as.
#[test]
fn the_double_is_the_next_one() -> Result<(), Box<dyn Error>> {
    let edge = 1_i64 << f64::MANTISSA_DIGITS;
    let numbers = (-3..=3).flat_map(|off| [edge + off, -edge + off, 3 * edge + off, i64::MAX - 3 + off]);
    for number in numbers.chain([0, 1, -1, 999_999_999, 64_445_977_804_019_059, i64::MIN]).map(Billionths::of) {
        assert_eq!(number.value(), number.to_string().parse::<f64>()?, "{number}");
    }
    Ok(())
}
