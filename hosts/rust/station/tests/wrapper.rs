//! The safe wrapper, from outside.

use std::error::Error;

use station::{
    Dot, Entry, FragmentNumber, Frame, Jump, Kind, Line, LineRefusal, Mark, OwnedTable, Refusal, RefusedText, Slot,
    Stroke, Table, Tally, Verdict,
};

fn line(text: &str) -> String {
    format!("{text:80}\n")
}

/// A carbon: what stands of its name in columns 15-16, and its residue.
fn atom(name: &str, serial: u32, carbon: &str, residue: &str, x: &str) -> String {
    line(&format!("{name:6}{serial:5}  C{carbon:2} {residue:10}   {x:>8}   2.000   3.000  1.00  0.00           C"))
}

fn master(coordinates: u32, ter: u32, conect: u32) -> String {
    line(&format!("MASTER    {}{coordinates:5}{ter:5}{conect:5}    0", "    0".repeat(8)))
}

/// A chain of two residues, a heterogen of two atoms, and another of one.
fn entry() -> String {
    [
        line("HEADER"),
        atom("ATOM", 1, "", "ALA A   1", "0.000"),
        atom("ATOM", 2, "A", "ALA A   1", "1.000"),
        atom("ATOM", 3, "", "GLY A   2A", "2.000"),
        line("TER       4      GLY A   2A"),
        atom("HETATM", 5, "1", "HEM B   7", "-4.000"),
        atom("HETATM", 6, "2", "HEM B   7", "4.001"),
        atom("HETATM", 9, "", "HOH B   7", "9.000"),
        line("CONECT    5    6    9"),
        master(6, 1, 1),
        line("END"),
    ]
    .concat()
}

#[test]
fn fragments_are_a_view() -> Result<(), Box<dyn Error>> {
    let text = entry();
    let mut table = Table::load(text.as_bytes())?;
    table.set_aside(FragmentNumber(2))?;
    let seen: Vec<_> = table
        .fragments()?
        .map(|fragment| {
            let residues = fragment.residues().count();
            (fragment.number.0, fragment.chain(), residues, fragment.atoms(), fragment.mark())
        })
        .collect();
    let expected = [(1, 'A', 2, 3, Some(Mark::In)), (2, 'B', 1, 2, Some(Mark::Aside)), (3, 'B', 1, 1, Some(Mark::In))];
    assert_eq!(seen, expected);
    assert_eq!(table.slots()[3].kind(), Some(Kind::Ter));
    assert_eq!(table.fragment_numbers()?, [1, 1, 1, 1, 2, 2, 3].map(FragmentNumber));
    let bare = [line("HEADER"), master(0, 0, 0), line("END")].concat();
    assert_eq!(Table::load(bare.as_bytes())?.fragments()?.count(), 0);
    Ok(())
}

#[test]
fn an_arrangement_is_orders_one_by_one() -> Result<(), Box<dyn Error>> {
    let text = entry();
    let mut arranged = Table::load(text.as_bytes())?;
    for choice in 0..8u32 {
        let mark = |fragment: u32| if choice & (1 << fragment) == 0 { Mark::In } else { Mark::Aside };
        let mut ordered = Table::load(text.as_bytes())?;
        for fragment in (0..3).filter(|&fragment| mark(fragment) == Mark::Aside) {
            ordered.set_aside(FragmentNumber(fragment + 1))?;
        }
        arranged.arrange(&[mark(0), mark(1), mark(2)])?;
        assert_eq!(arranged.slots(), ordered.slots());
    }
    assert_eq!(arranged.arrange(&[Mark::In; 2]), Err(Refusal::NO_FRAGMENT));
    assert_eq!(arranged.arrange(&[Mark::In; 4]), Err(Refusal::NO_FRAGMENT));
    assert!(arranged.slots().iter().all(|slot| slot.mark() == Some(Mark::Aside)));
    Ok(())
}

#[test]
fn orders_are_refused_by_number() -> Result<(), Box<dyn Error>> {
    let text = entry();
    let mut table = Table::load(text.as_bytes())?;
    assert_eq!(table.set_aside(FragmentNumber(0)), Err(Refusal::NO_FRAGMENT));
    assert_eq!(table.set_aside(FragmentNumber(4)), Err(Refusal::NO_FRAGMENT));
    assert_eq!(table.put_back(FragmentNumber(1)), Err(Refusal::ALREADY_THERE));
    assert_eq!(table.save()?, text.as_bytes());
    assert_eq!(table.tray()?, b"");
    Ok(())
}

/// A refusal of loading is the verdict of the check: its line, its column and all else.
#[test]
fn a_refused_load_tells_the_line() -> Result<(), Box<dyn Error>> {
    let text = entry();
    let field = text.replacen("  1.00  0.00", "  1.01  0.00", 1);
    for (text, words) in [
        (String::new(), "line 1: refused with 12: the text is over before END"),
        (field, "line 2, column 55: refused with 6: a field or a blank column is wrong"),
        (text.replace("HETATM    9", "HETATM    6"), "line 8: refused with 7: the serial is not above the one before"),
    ] {
        let verdict = Entry::check(text.as_bytes());
        assert_eq!(Table::load(text.as_bytes()).map(|_| ()), Err(verdict));
        assert_eq!(verdict.granted(), Err(verdict));
        let error: Box<dyn Error> = Box::new(verdict);
        assert_eq!(error.to_string(), words);
        let returned = RefusedText { verdict, text: text.clone().into_bytes() };
        assert_eq!((Table::of(text.into_bytes()).map(|_| ()), returned.to_string()), (Err(returned), words.to_owned()));
    }
    let verdict = Entry::check(text.as_bytes());
    assert_eq!((verdict.granted(), verdict.to_string()), (Ok(()), "granted".to_owned()));
    let of_no_line = Verdict { refusal: Some(Refusal::LONG_INPUT), ..verdict };
    assert_eq!(of_no_line.to_string(), "refused with 20: the input is longer than the report takes");
    assert_eq!(Entry::accept(text.as_bytes())?.load()?.slots().len(), 7);
    Ok(())
}

/// A table with its own text is ordered and saved like one whose text is lent, also where no text is lent any more.
#[test]
fn a_table_may_own_its_text() -> Result<(), Box<dyn Error>> {
    let text = entry();
    let mut lent = Table::load(text.as_bytes())?;
    lent.set_aside(FragmentNumber(2))?;
    let (saved, tray) = (lent.save()?, lent.tray()?);
    let mut owned = OwnedTable::of(text.clone().into_bytes())?;
    let copied = lent.into_owned();
    drop(text);
    owned.set_aside(FragmentNumber(2))?;
    assert_eq!((owned.text(), owned.slots()), (copied.text(), copied.slots()));
    for table in [owned, copied] {
        let written = std::thread::spawn(move || Ok::<_, Refusal>((table.save()?, table.tray()?)));
        assert_eq!(written.join().expect("a thread"), Ok((saved.clone(), tray.clone())));
    }
    Ok(())
}

#[test]
fn the_same_atom_twice() {
    let twins = entry().replace("  C2  HEM", "  C1  HEM");
    let verdict = Entry::check(twins.as_bytes());
    assert_eq!((verdict.refusal, verdict.line, verdict.good_lines), (Some(Refusal::SAME_ATOM), 7, 6));
    assert_eq!(Table::load(twins.as_bytes()).map(|table| table.slots().len()), Err(verdict));
}

#[test]
fn whatever_is_set_aside_the_saved_entry_is_granted() -> Result<(), Box<dyn Error>> {
    let text = entry();
    for choice in 0..8u32 {
        let mut table = Table::load(text.as_bytes())?;
        for fragment in (1..=3).filter(|fragment| choice & (1 << (fragment - 1)) != 0) {
            table.set_aside(FragmentNumber(fragment))?;
        }
        let (saved, tray) = (table.save()?, table.tray()?);
        Entry::check(&saved).granted()?;
        assert_eq!(saved.len() + tray.len(), text.len());
        for kept in saved.chunks(81).chain(tray.chunks(81)).filter(|kept| !kept.starts_with(b"MASTER")) {
            assert!(text.as_bytes().chunks(81).any(|read| read == kept));
        }
    }
    Ok(())
}

#[test]
fn the_feed() -> Result<(), Box<dyn Error>> {
    let text = entry();
    let mut table = Table::load(text.as_bytes())?;
    table.set_aside(FragmentNumber(3))?;
    let slots = table.slots();
    assert_eq!(slots[4].dot(), Some(Dot([-4_000.0, 2_000.0, 3_000.0])));
    assert_eq!((slots[3].dot(), slots[6].dot()), (None, None));
    let stroke = Stroke { from: Dot([-4_000.0, 2_000.0, 3_000.0]), to: Dot([4_001.0, 2_000.0, 3_000.0]) };
    assert_eq!(slots[4].stroke(&slots[5]), Some(stroke));
    assert_eq!(slots[4].stroke(&slots[6]), None);
    assert_eq!(table.frame()?.middle, [0.5, 2_000.0, 3_000.0]);
    assert_eq!(Frame::of(&[Slot { kind: 9, ..slots[0] }]), Err(Refusal::NOTHING_TO_FRAME));
    Ok(())
}

#[test]
fn lines_by_themselves() -> Result<(), Box<dyn Error>> {
    let conect = Line::read(&line("CONECT    5    6    9").as_bytes()[..80])?;
    assert_eq!((conect.name(), conect.bonds()), ("CONECT", vec![5, 6, 9]));
    assert_eq!(conect.slot(), Err(Refusal::NAME));
    assert_eq!(Line::read(line("END").as_bytes()), Err(Refusal::LENGTH));
    assert_eq!(Line::read(&[b'\t'; 80]), Err(Refusal::BYTE));
    assert_eq!(Line::read(&[b'A'; 80]), Err(Refusal::NAME));
    assert_eq!(Line::read(&line("TER").as_bytes()[..80]), Err(Refusal::FIELD));
    let mut tally = Tally { ter: 99_999, ..Tally::default() };
    assert_eq!(tally.count(b"TER   "), Err(Refusal::FULL));
    Ok(())
}

#[test]
fn the_column_of_a_wrong_field() {
    let text = entry();
    let answer = |text: &str| {
        let verdict = Entry::check(text.as_bytes());
        (verdict.refusal, verdict.line, verdict.column, verdict.good_lines)
    };
    assert_eq!(answer(&text), (None, 0, 0, 11));
    assert_eq!(answer(&text.replacen("  1.00  0.00", "  1.01  0.00", 1)), (Some(Refusal::FIELD), 2, 55, 1));
    assert_eq!(answer(&text.replace("    5    6    9", "    5    5    9")), (Some(Refusal::FIELD), 9, 12, 8));
    assert_eq!(answer(&text.replace("HETATM    9", "HETATM    6")), (Some(Refusal::SERIAL), 8, 0, 7));
    assert_eq!(answer(&text[81..]), (Some(Refusal::PLACE), 1, 0, 0));
    let report = Entry::check(text.replace("TER       4", "TER       0").as_bytes()).report().to_string();
    assert!(report.starts_with("verdict=6\nline=5\ncolumn=7\nlines=4\n"), "{report}");
    assert_eq!(report.lines().count(), 13);
}

#[test]
fn lines_are_judged_by_themselves() {
    let judged = |line: &[u8]| Line::judge(line).map_err(|LineRefusal { refusal, column }| (refusal, column));
    for piece in entry().as_bytes().chunks(81) {
        let due = if piece.starts_with(b"HEADER") { Err((Refusal::NAME, 0)) } else { Ok(()) };
        assert_eq!(judged(&piece[..80]), due);
    }
    assert_eq!(judged(line("END").as_bytes()), Err((Refusal::LENGTH, 0)));
    assert_eq!(judged(b""), Err((Refusal::LENGTH, 0)));
    assert_eq!(judged(&[b'\t'; 80]), Err((Refusal::BYTE, 0)));
    assert_eq!(judged(&line("TER").as_bytes()[..80]), Err((Refusal::FIELD, 7)));
    assert_eq!(judged(&line("ENDMDL         1").as_bytes()[..80]), Err((Refusal::FIELD, 16)));
    let refused = LineRefusal { refusal: Refusal::FIELD, column: 31 };
    let error: Box<dyn Error> = Box::new(refused);
    assert_eq!(error.to_string(), "column 31: refused with 6: a field or a blank column is wrong");
    assert_eq!(LineRefusal { refusal: Refusal::NAME, column: 0 }.to_string(), Refusal::NAME.to_string());
    assert_eq!(Refusal::from(refused), Refusal::FIELD);
}

#[test]
fn jumps() -> Result<(), Box<dyn Error>> {
    let text = entry();
    let entry = Entry::accept(text.as_bytes())?;
    for (serial, line) in [(1, 2), (3, 4), (5, 6), (9, 8)] {
        let jump = entry.find(serial);
        assert_eq!(jump, Jump { line: Some(line), looked: line });
        let piece = jump.piece(text.as_bytes()).expect("the line");
        assert_eq!(Line::slot_of(&piece[..80])?.serial, serial);
    }
    let none = Jump { line: None, looked: 11 };
    for serial in [0, 4, 7, 99_999, 100_001, u32::MAX] {
        assert_eq!(entry.find(serial), none);
    }
    assert_eq!(none.piece(text.as_bytes()), None);
    assert_eq!(Jump::to(b"", 1), Jump { line: None, looked: 0 });
    Ok(())
}

/// A refused text has atoms all the same.
#[test]
fn jumps_in_a_refused_text() {
    let twice = entry().repeat(2);
    let wrong = twice.replacen("  1.00  0.00", "  1.01  0.00", 2);
    assert_eq!(Entry::check(wrong.as_bytes()).line, 2);
    assert_eq!(Jump::to(wrong.as_bytes(), 2).line, Some(14));
    assert_eq!(Jump::to(wrong.as_bytes(), 3).line, Some(4));
    assert_eq!(Jump::to(wrong.replacen('\n', " ", 4).as_bytes(), 3), Jump { line: Some(15), looked: 15 });
    assert_eq!(Jump::to(&wrong.as_bytes()[..4 * 81 - 1], 3), Jump { line: None, looked: 3 });
}

#[test]
fn refusals_in_words() {
    let error: Box<dyn Error> = Box::new(Refusal::OVER);
    assert_eq!(error.to_string(), "refused with 12: the text is over before END");
    assert_eq!(format!("{:?}", Refusal::OVER), "Refusal(12: the text is over before END)");
}
