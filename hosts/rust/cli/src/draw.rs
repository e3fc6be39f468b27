//! `station draw`.

use std::collections::BTreeSet;
use std::path::Path;

use station::{pieces, Entry, Frame, Line, ModelNumber, Slot, Verdict};

use crate::aside::Aside;
use crate::fragments;
use crate::input::{self, Input};
use crate::models;
use crate::output::{write_all, Console, Order};
use crate::problem::{Problem, Status};
use crate::scene::Scene;
use crate::svg;
use crate::words::{self, output_name, several};

/// Draws an entry, or the good lines of a refused one; of an entry with models, one of them.
pub fn run(
    file: &Path,
    aside: &Aside,
    model: Option<ModelNumber>,
    svg: &Path,
    force: bool,
    console: &mut Console,
) -> Result<Status, Problem> {
    let input = input::read(file)?;
    let name = &input.name;
    let verdict = Entry::check(&input.text);
    let good = usize::try_from(verdict.good_lines).unwrap_or(usize::MAX);
    let lines: Vec<&[u8]> = pieces(&input.text).take(good).filter_map(|piece| piece.get(..80)).collect();
    let slots = if verdict.is_granted() {
        fragments::load(&input, aside)?.slots().to_vec()
    } else if aside.is_empty() {
        good_slots(&lines)
    } else {
        let words = words::describe(name, &input.text, &verdict);
        return Err(Problem::Refused(format!("{words}\n  fragments are set aside in an accepted entry only")));
    };
    let model = chosen(&input, &verdict, &lines, &slots, model)?;
    let slots: Vec<Slot> = slots.into_iter().filter(|slot| slot.model() == model).collect();
    let of_model = model.map_or(String::new(), |model| format!("model {}: ", model.0));
    let frame = Frame::of(&slots).map_err(|refusal| {
        let nothing = format!("{of_model}there is no atom among the good lines, so nothing is drawn");
        refused(&input, &verdict, &format!("{of_model}{refusal}"), &nothing)
    })?;
    let scene = Scene::of(&slots, bonds(&lines).into_iter());
    let title = model.map_or(name.clone(), |model| format!("{name}, model {}", model.0));
    let picture = svg::picture(&title, &scene, &frame);
    let order = Order { option: "--svg", path: svg, bytes: picture.as_bytes() };
    write_all(&[order], input.identity.as_ref(), force, console)?;
    let counts = [(scene.atoms.len(), "dot"), (scene.bonds.len(), "stroke"), (scene.sticks.len(), "stick")];
    let drawn = counts.map(|(count, thing)| several(count as u64, thing)).join(", ");
    console.say_done(format_args!("{}: {of_model}{drawn}", output_name(svg)))?;
    if !verdict.is_granted() {
        console.note(format_args!("only the good lines were drawn: {}", words::describe(name, &input.text, &verdict)));
    }
    Ok(Status::Done)
}

/// A refusal in words, if the entry is accepted. Otherwise the check's own words come first: that there is nothing to draw
/// among the good lines is not the cause.
fn refused(input: &Input, verdict: &Verdict, words: &str, among_good_lines: &str) -> Problem {
    Problem::Refused(if verdict.is_granted() {
        format!("{}: {words}", input.name)
    } else {
        format!("{}\n  {among_good_lines}", words::describe(&input.name, &input.text, verdict))
    })
}

/// The slots of the good lines of a refused text, each with its model.
fn good_slots(lines: &[&[u8]]) -> Vec<Slot> {
    let mut model = 0;
    let mut slots = Vec::new();
    for line in lines {
        if let Some(number) = Line::read(line).ok().and_then(|line| line.model()) {
            model = number.0;
        }
        slots.extend(Line::slot_of(line).map(|slot| Slot { model, ..slot }));
    }
    slots
}

/// The model that is drawn: the one that was asked for, or the first that has an atom to draw. Without models there is none.
fn chosen(
    input: &Input,
    verdict: &Verdict,
    lines: &[&[u8]],
    slots: &[Slot],
    asked: Option<ModelNumber>,
) -> Result<Option<ModelNumber>, Problem> {
    let Some(ModelNumber(number)) = asked else {
        return Ok(slots.iter().find(|slot| slot.dot().is_some()).and_then(Slot::model));
    };
    let there = lines.iter().filter(|line| models::begins(line)).count() as u64;
    if u64::from(number) <= there {
        return Ok(asked);
    }
    let words = match there {
        0 => format!("there is no model {number}; the entry has no models"),
        _ => format!("there is no model {number}; the entry has {}", several(there, "model")),
    };
    Err(refused(input, verdict, &words, &format!("there is no model {number} among the good lines")))
}

/// The bonds of the CONECT lines, each pair of serials once.
fn bonds(lines: &[&[u8]]) -> BTreeSet<(u32, u32)> {
    let mut pairs = BTreeSet::new();
    for line in lines.iter().filter(|line| line.starts_with(b"CONECT")) {
        let serials = Line::read(line).map(|line| line.bonds()).unwrap_or_default();
        if let Some((&atom, partners)) = serials.split_first() {
            pairs.extend(partners.iter().map(|&partner| (atom.min(partner), atom.max(partner))));
        }
    }
    pairs
}
