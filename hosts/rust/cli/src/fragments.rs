//! `station fragments`, and the fragments set aside for the other commands.

use std::path::Path;

use station::{Fragment, Mark, Refusal, Slot, Table, Verdict};

use crate::aside::Aside;
use crate::input::{self, Input};
use crate::output::Console;
use crate::problem::{Problem, Status};
use crate::word::Word;
use crate::words;

/// Loads an accepted entry and sets fragments aside.
pub fn load<'t>(input: &'t Input, aside: &Aside) -> Result<Table<'t>, Problem> {
    let mut table = Table::load(&input.text).map_err(|verdict| not_accepted(input, &verdict))?;
    if !aside.is_empty() {
        set_aside(input, &mut table, aside)?;
    }
    Ok(table)
}

/// Sets fragments aside, all by one arrangement: an order for each would judge the whole text anew each time.
fn set_aside(input: &Input, table: &mut Table, aside: &Aside) -> Result<(), Problem> {
    let fragments: Vec<Fragment> = table.fragments().map_err(|refusal| refused(input, refusal))?.collect();
    let marks = aside.marks(&fragments).map_err(|vain| Problem::Refused(format!("{}: {vain}", input.name)))?;
    table.arrange(&marks).map_err(|refusal| refused(input, refusal))
}

/// A refusal of a text that is no accepted entry.
pub fn not_accepted(input: &Input, verdict: &Verdict) -> Problem {
    Problem::Refused(words::describe(&input.name, &input.text, verdict))
}

/// A refusal of something in an entry.
pub fn refused(input: &Input, refusal: Refusal) -> Problem {
    Problem::Refused(format!("{}: {refusal}", input.name))
}

/// Lists the fragments of an entry.
pub fn run(file: &Path, aside: &Aside, out: &mut Console) -> Result<Status, Problem> {
    let input = input::read(file)?;
    let table = load(&input, aside)?;
    let fragments = table.fragments().map_err(|refusal| refused(&input, refusal))?;
    let modelled = table.slots().iter().any(|slot| slot.model().is_some());
    let model = |words: String| if modelled { format!("{words:>5}  ") } else { String::new() };
    let heading = model("model".to_owned());
    out.say_line(format_args!("fragment  {heading}chain  residues  atoms  first      last       where  words"))?;
    for fragment in fragments {
        let place = match fragment.mark() {
            Some(Mark::In) => "in",
            Some(Mark::Aside) => "aside",
            None => "damaged",
        };
        let (first, last) = (fragment.residues().next(), fragment.residues().last());
        out.say_line(format_args!(
            "{:8}  {}{:5}  {:8}  {:5}  {:9}  {:9}  {place:5}  {}",
            fragment.number.0,
            model(fragment.model().map_or(String::new(), |model| model.0.to_string())),
            fragment.chain(),
            fragment.residues().count(),
            fragment.atoms(),
            first.map(residue).unwrap_or_default(),
            last.map(residue).unwrap_or_default(),
            Word::of(&fragment).iter().map(Word::to_string).collect::<Vec<String>>().join(" "),
        ))?;
    }
    Ok(Status::Done)
}

/// A residue: its name, its number and its insertion code.
fn residue(slot: &Slot) -> String {
    let name: String = slot.residue.iter().map(|&byte| char::from(byte)).collect();
    let insertion = char::from(slot.insertion);
    format!("{name} {}{insertion}", slot.number).trim_end().to_owned()
}
