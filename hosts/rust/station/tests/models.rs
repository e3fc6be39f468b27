//! Entries with models, through the safe wrapper.

use std::error::Error;

use station::{Entry, FragmentNumber, Line, ModelNumber, Refusal, Table, Tally};

fn line(text: &str) -> String {
    format!("{text:80}\n")
}

/// A heterogen of one atom in chain A.
fn heterogen(serial: u32, number: i32) -> String {
    line(&format!("HETATM{serial:5}  C   ALA A{number:4}       1.000   2.000   3.000  1.00  0.00           C"))
}

fn model(number: u32, lines: &str) -> String {
    line(&format!("MODEL     {number:4}")) + lines + &line("ENDMDL")
}

fn end(coordinates: u32, conect: u32) -> String {
    line(&format!("MASTER    {}{coordinates:5}    0{conect:5}    0", "    0".repeat(8))) + &line("END")
}

/// Two heterogens in each of the models 1 and 3, none in model 2, and a bond.
fn entry() -> String {
    let pair = heterogen(1, 7) + &heterogen(2, 8);
    let models = model(1, &pair) + &model(2, "") + &model(3, &pair);
    line("HEADER") + &models + &line("CONECT    1    2") + &end(2, 1)
}

#[test]
fn slots_and_fragments_tell_their_model() -> Result<(), Box<dyn Error>> {
    let text = entry();
    let table = Table::load(text.as_bytes())?;
    let models = [1, 1, 3, 3].map(|number| Some(ModelNumber(number)));
    assert!(table.slots().iter().map(|slot| slot.model()).eq(models));
    assert!(table.fragments()?.map(|fragment| fragment.model()).eq(models));
    assert!(table.models().map(|slots| (slots.len(), slots[0].model())).eq([(2, models[0]), (2, models[2])]));
    assert_eq!(Entry::check(text.as_bytes()).counts.coord, 2);
    let bare = line("HEADER") + &heterogen(1, 7) + &end(1, 0);
    let table = Table::load(bare.as_bytes())?;
    assert_eq!((table.models().count(), table.slots()[0].model()), (1, None));
    assert_eq!(table.fragments()?.next().and_then(|fragment| fragment.model()), None);
    Ok(())
}

#[test]
fn a_bond_stays_while_a_model_has_its_atoms() -> Result<(), Box<dyn Error>> {
    let text = entry();
    let mut table = Table::load(text.as_bytes())?;
    table.set_aside(FragmentNumber(1))?;
    let (first, second, bond) = (heterogen(1, 7), heterogen(2, 8), line("CONECT    1    2"));
    let third = model(3, &(first.clone() + &second));
    let saved = line("HEADER") + &model(1, &second) + &model(2, "") + &third + &bond + &end(1, 1);
    assert_eq!(table.save()?, saved.as_bytes());
    assert_eq!(table.tray()?, (model(1, &first) + &model(2, "") + &model(3, "")).as_bytes());
    table.set_aside(FragmentNumber(3))?;
    let saved = line("HEADER") + &model(1, &second) + &model(2, "") + &model(3, &second) + &end(1, 0);
    assert_eq!(table.save()?, saved.as_bytes());
    assert_eq!(table.tray()?, (model(1, &first) + &model(2, "") + &model(3, &first) + &bond).as_bytes());
    Ok(())
}

#[test]
fn models_are_refused_by_number() {
    let text = entry();
    let answer = |text: &str| {
        let verdict = Entry::check(text.as_bytes());
        (verdict.refusal, verdict.line)
    };
    assert_eq!(answer(&text), (None, 0));
    assert_eq!(answer(&text.replace("MODEL        3", "MODEL        2")), (Some(Refusal::MODEL), 8));
    assert_eq!(answer(&text.replacen(&line("ENDMDL"), "", 1)), (Some(Refusal::PLACE), 5));
    assert_eq!(answer(&text.replace("    2    0    1", "    4    0    1")), (Some(Refusal::COUNT), 13));
}

#[test]
fn lines_by_themselves() -> Result<(), Box<dyn Error>> {
    let model = Line::read(&line("MODEL     9999").as_bytes()[..80])?;
    assert_eq!((model.name(), model.model(), model.slot()), ("MODEL", Some(ModelNumber(9_999)), Err(Refusal::NAME)));
    let end = Line::read(&line("ENDMDL").as_bytes()[..80])?;
    assert_eq!((end.name(), end.model()), ("ENDMDL", None));
    assert_eq!(Line::read(&line("MODEL").as_bytes()[..80]), Err(Refusal::FIELD));
    assert_eq!(Line::slot_of(&heterogen(1, 7).as_bytes()[..80])?.model(), None);
    let mut tally = Tally { ter: 99_999, ..Tally::default() };
    assert_eq!(tally.count_past(b"TER   ", true), Ok(()));
    assert_eq!(tally.count_past(b"TER   ", false), Err(Refusal::FULL));
    assert_eq!(tally.count(b"ENDMDL"), Ok(()));
    Ok(())
}
