//! The real entries of `hosts/rust/entries`, through the library and through the reference.
//!
//! Each has to be answered as `entries.txt` says, on both sides. An accepted one is loaded, some of its fragments are set
//! aside, it is saved, and they are put back. Some of the atoms of each are jumped to, and its first atoms are given their
//! fractional places. Then each entry is damaged a few times:
//! both sides have to answer alike, down to the column of a wrong field. The coordinates of each accepted one without models
//! are also tried as those of two models that are alike.

mod answers;
mod crystal;
mod entries;
mod texts;
mod trial;

use std::process::ExitCode;
use std::time::Instant;

use entries::Listed;
use trial::Trial;

/// Tries a text, and tells how many differences were found.
fn differences(listed: &Listed, text: &[u8]) -> usize {
    let mut trial = Trial::new(listed, text);
    trial.run();
    let Listed { file, number, line, .. } = listed;
    println!("{file:20} {number:2} at line {line:3}, {}", trial.summary());
    for difference in &trial.differences {
        println!("{file}: {difference}");
    }
    trial.differences.len()
}

/// Runs the entries and tells how many there are and how many differences were found.
fn run() -> Result<(usize, usize), String> {
    let listed = entries::listed()?;
    let mut found = 0;
    for listed in &listed {
        let text = listed.unpacked()?;
        found += differences(listed, &text);
        let slots = station::Table::load(&text).map_or(0, |table| table.slots().len());
        let twice = if texts::has_models(&text) { None } else { listed.in_two_models(slots) };
        if let Some(twice) = twice {
            found += differences(&twice, &texts::in_two_models(&text));
        }
    }
    Ok((listed.len(), found))
}

fn main() -> ExitCode {
    let begun = Instant::now();
    match run() {
        Ok((entries, differences)) => {
            println!("{:.1} s", begun.elapsed().as_secs_f64());
            println!("{entries} entries, {differences} differences");
            ExitCode::from(u8::from(differences > 0 || entries == 0))
        }
        Err(words) => {
            eprintln!("real: {words}");
            ExitCode::from(2)
        }
    }
}
