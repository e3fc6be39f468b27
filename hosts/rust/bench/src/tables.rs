//! What is measured, as Markdown.

use std::fmt::Write;

use crate::clock::Best;
use crate::crystal;
use crate::entry::{grouped, Entry};
use crate::measure::{Stacks, Times};
use crate::sides::Call;

/// A granted order may cost so many checks, and a frame so many plain loops.
const BAR: f64 = 2.0;

/// An arrangement and the fragments of slots may cost so many orders.
const ARRANGE_BAR: f64 = 1.5;
const FRAGMENTS_BAR: f64 = 1.3;

/// A jump to the middle of a text may cost so much of a check of all of it, and has to do with less stack than this.
const FIND_BAR: f64 = 0.25;
const FIND_STACK_BAR: usize = 2_048;

/// A fractional place by a text may cost so many checks of it, and a place by rows has to take less than so many nanoseconds.
const FRACTIONAL_BAR: f64 = 1.1;
const PLACE_BAR: f64 = 20.0;

/// Each call against the check and the reference.
pub fn calls(times: &[Times]) -> String {
    let mut rows = Vec::new();
    for entry in times {
        for (call, library, reference) in &entry.calls {
            let per_line = |time: f64| number(time / entry.lines as f64);
            rows.push(vec![
                label(entry),
                call.name(),
                per_line(library.0),
                ratio(Some(library.0), entry.library(Call::Check)),
                per_line(reference.0),
                ratio(Some(reference.0), Some(library.0)),
            ]);
        }
    }
    table(&["Entry", "Call", "ns a line", "/ check", "reference, ns a line", "reference / library"], &rows)
}

/// The check and the frame against their peers.
pub fn peers(times: &[Times]) -> String {
    let row = |entry: &Times| {
        let per_line = |time: Option<f64>| time.map_or("-".into(), |time| number(time / entry.lines as f64));
        let check = entry.library(Call::Check);
        let bytes = Some(entry.byte_loop.0);
        let gemmi = entry.gemmi.map(|best| best.0);
        vec![label(entry), per_line(check), per_line(bytes), ratio(check, bytes), per_line(gemmi), ratio(gemmi, check)]
    };
    let rows: Vec<_> = times.iter().map(row).collect();
    table(&["Entry", "check, ns a line", "byte loop", "check / byte loop", "gemmi", "gemmi / check"], &rows)
}

/// Calls on entries with models: a row for each call and entry, held against the same call on the first entry, which has none.
pub fn models(times: &[Times]) -> String {
    let mut rows = Vec::new();
    for entry in times {
        for (call, library, _) in &entry.calls {
            let per_line = |entry: &Times| Some(entry.library(*call)? / entry.lines as f64);
            rows.push(vec![
                label(entry),
                call.name(),
                number(library.0 / entry.lines as f64),
                ratio(Some(library.0), entry.library(Call::Check)),
                ratio(per_line(entry), times.first().and_then(per_line)),
            ]);
        }
    }
    table(&["Entry", "Call", "ns a line", "/ check", "a line / a line without models"], &rows)
}

/// The check of texts that differ in how far it has to look back: a row for each text, columns for each size. The first row
/// is what the others are held against.
pub fn searches(sizes: &[(Vec<Entry>, Vec<Best>)]) -> String {
    let mut head = vec!["Text".to_owned()];
    let mut rows = Vec::new();
    for (entries, times) in sizes {
        let lines = entries.first().map_or(0, Entry::lines);
        head.extend([format!("{} lines, ns a line", grouped(lines)), "/ first row".to_owned()]);
        rows.resize(entries.len(), Vec::new());
        for ((row, entry), time) in rows.iter_mut().zip(entries).zip(times) {
            if row.is_empty() {
                row.push(entry.name.clone());
            }
            let first = times.first().map(|best| best.0);
            row.extend([number(time.0 / entry.lines() as f64), ratio(Some(time.0), first)]);
        }
    }
    table(&head.iter().map(String::as_str).collect::<Vec<_>>(), &rows)
}

/// The ratios that have a bar.
pub fn bars(times: &[Times]) -> String {
    let row = |entry: &Times| {
        let order = entry.library(Call::Order);
        let arrange = ratio(entry.library(Call::Arrange), order);
        let fragments = ratio(entry.library(Call::Fragments), order);
        let plain = entry.plain_frame.0;
        let frame = ratio(entry.library(Call::Frame), Some(plain));
        let [order, find] = [order, entry.library(Call::Find)].map(|time| ratio(time, entry.library(Call::Check)));
        vec![label(entry), order, arrange, fragments, find, number(plain / entry.lines as f64), frame]
    };
    let order = format!("order / check (at most {BAR})");
    let arrange = format!("arrange / order (at most {ARRANGE_BAR})");
    let fragments = format!("fragments / order (at most {FRAGMENTS_BAR})");
    let find = format!("find / check (at most {FIND_BAR})");
    let frame = format!("frame / plain loop (at most {BAR})");
    let head = ["Entry", &order, &arrange, &fragments, &find, "plain loop, ns a line", &frame];
    table(&head, &times.iter().map(row).collect::<Vec<_>>())
}

/// The stack of each call, entry by entry.
pub fn stacks(stacks: &[Stacks]) -> String {
    let names = Call::ALL.map(|call| match call {
        Call::Find => format!("{} (below {})", call.name(), grouped(FIND_STACK_BAR)),
        _ => call.name(),
    });
    of_stacks(&names, stacks.iter().map(|entry| (&entry.name, &entry.used[..])))
}

/// A row for each entry, a column for each call.
fn of_stacks<'s>(names: &[String], stacks: impl Iterator<Item = (&'s String, &'s [Option<usize>])>) -> String {
    let head: Vec<&str> = ["Stack, bytes"].into_iter().chain(names.iter().map(String::as_str)).collect();
    let bytes = |used: &Option<usize>| used.map_or("-".into(), grouped);
    let row = |(name, used): (&String, &[Option<usize>])| {
        [name.clone()].into_iter().chain(used.iter().map(bytes)).collect::<Vec<_>>()
    };
    table(&head, &stacks.map(row).collect::<Vec<_>>())
}

/// The calls of the crystal frame: their times, their bars and their stack.
pub fn crystal(times: &[crystal::Times]) -> String {
    use crystal::Call;
    let row = |entry: &crystal::Times| {
        let [check, scale, fractional] = [Call::Check, Call::Scale, Call::Fractional].map(|call| entry.of(call));
        let mut row = vec![sized(&entry.name, entry.bytes)];
        row.extend([check, scale, fractional].map(|time| number(time / entry.lines as f64)));
        row.extend([scale, fractional].map(|time| ratio(Some(time), Some(check))));
        row.push(number(entry.of(Call::Place)));
        row
    };
    let fractional = format!("fractional / check (at most {FRACTIONAL_BAR})");
    let place = format!("place, ns (below {PLACE_BAR})");
    let head = ["Entry", "check, ns a line", "scale", "fractional", "scale / check", &fractional, &place];
    let calls = table(&head, &times.iter().map(row).collect::<Vec<_>>());
    let names = Call::ALL.map(Call::name);
    let stacks = times.iter().map(|entry| (&entry.name, &entry.stack[..]));
    [calls, of_stacks(&names, stacks)].join("\n")
}

/// The bars of the crystal frame that are not kept, a line for each.
pub fn above(times: &[crystal::Times]) -> Vec<String> {
    let mut above = Vec::new();
    for entry in times {
        let (fractional, place) = (entry.fractional(), entry.of(crystal::Call::Place));
        if fractional > FRACTIONAL_BAR {
            above.push(format!("{}: fractional / check is {fractional:.3}, above {FRACTIONAL_BAR}", entry.name));
        }
        if place >= PLACE_BAR {
            above.push(format!("{}: a place takes {place:.1} ns, not below {PLACE_BAR}", entry.name));
        }
    }
    above
}

/// An entry with its size.
fn label(entry: &Times) -> String {
    sized(&entry.name, entry.bytes)
}

fn sized(name: &str, bytes: usize) -> String {
    format!("{name}, {} kB", grouped(bytes / 1_000))
}

/// A ratio of two times, `-` where one was not taken.
fn ratio(time: Option<f64>, to: Option<f64>) -> String {
    match (time, to) {
        (Some(time), Some(to)) => format!("{:.2}", time / to),
        _ => "-".into(),
    }
}

/// Nanoseconds, with a decimal where they are few.
fn number(time: f64) -> String {
    if time < 20.0 {
        format!("{time:.1}")
    } else {
        format!("{time:.0}")
    }
}

fn table(head: &[&str], rows: &[Vec<String>]) -> String {
    let mut text = format!("| {} |\n|{}\n", head.join(" | "), "---|".repeat(head.len()));
    for row in rows {
        // Writing to a string does not fail.
        let _ = writeln!(text, "| {} |", row.join(" | "));
    }
    text
}

#[cfg(test)]
mod tests {
    use super::*;

    #[test]
    fn a_table() {
        assert_eq!(table(&["a", "b"], &[vec!["1".into(), "2".into()]]), "| a | b |\n|---|---|\n| 1 | 2 |\n");
        assert_eq!(ratio(Some(3.0), Some(2.0)), "1.50");
        assert_eq!(ratio(None, Some(2.0)), "-");
        assert_eq!([1.26, 123.4].map(number), ["1.3", "123"]);
    }

    #[test]
    fn bars_that_are_not_kept_are_told() {
        let of = |best: [f64; 4]| crystal::Times {
            name: "a".to_owned(),
            lines: 100,
            bytes: 8_100,
            best: best.map(Best),
            stack: [Some(1_000); 4],
        };
        let kept = of([1_000.0, 1_000.0, 1_100.0, 19.9]);
        assert_eq!(above(&[kept]), [""; 0]);
        let told = above(&[of([1_000.0, 1_000.0, 1_101.0, 20.0])]);
        assert_eq!(told, ["a: fractional / check is 1.101, above 1.1", "a: a place takes 20.0 ns, not below 20"]);
    }

    #[test]
    fn searches_have_a_row_for_each_text() {
        let text = |name: &str, lines: usize| Entry { name: name.to_owned(), text: vec![b' '; 81 * lines], atoms: 0 };
        let texts = |lines| vec![text("a", lines), text("b", lines)];
        let sizes = [(texts(10), vec![Best(500.0), Best(1_000.0)]), (texts(100), vec![Best(2_500.0); 2])];
        let expected = "\
| Text | 10 lines, ns a line | / first row | 100 lines, ns a line | / first row |
|---|---|---|---|---|
| a | 50 | 1.00 | 25 | 1.00 |
| b | 100 | 2.00 | 25 | 1.00 |
";
        assert_eq!(searches(&sizes), expected);
    }
}
