//! The benchmark: every call of the library against the check, the reference and the peers, as Markdown tables.

mod clock;
mod crystal;
mod entry;
mod measure;
mod peers;
mod search;
mod sides;
mod stack;
mod tables;

use entry::Entry;
use sides::Call;

/// The check of texts that differ in how far it has to look back.
fn searches() -> String {
    let sizes = [10_000, 100_000].map(|lines| {
        let texts = search::texts(lines);
        let times = measure::checks(&texts);
        (texts, times)
    });
    tables::searches(&sizes)
}

/// Calls on entries with models, and on one of as many lines without.
fn models() -> String {
    let calls = [Call::Check, Call::Load, Call::Order, Call::Save];
    let twenty = [0, 2_500].map(|bonds| Entry::with_models(20, 5_000, bonds));
    let many = [1_000, 9_999].map(|models| Entry::with_models(models, 10, 0));
    let entries = [Entry::of_lines(100_000)].into_iter().chain(twenty).chain(many);
    let times: Vec<_> = entries.map(|entry| measure::times(&entry, &calls)).collect();
    tables::models(&times)
}

/// The calls of the crystal frame, and the bars that they do not keep.
fn frames() -> (String, Vec<String>) {
    let times = crystal::times(100_000);
    (tables::crystal(&times), tables::above(&times))
}

/// All other tables.
fn all_calls() -> String {
    let lines = [1_000, 10_000, 100_000].map(Entry::of_lines);
    let bonds = Entry::with_bonds(60_000, 30_000);
    let mut times: Vec<_> = lines.iter().map(|entry| measure::times(entry, &Call::ALL)).collect();
    let with_bonds = [Call::Check, Call::Order, Call::Arrange, Call::Fragments, Call::Save, Call::Find];
    times.push(measure::times(&bonds, &with_bonds));
    let models = Entry::with_models(20, 5_000, 2_500);
    // One of those texts for which the check looks at lines to come.
    let looked = search::falling(10_000);
    let stacks = [&lines[0], &lines[1], &lines[2], &bonds, &models, &looked].map(measure::stacks);
    [tables::calls(&times), tables::peers(&times), tables::bars(&times), tables::stacks(&stacks)].join("\n")
}

const USAGE: &str = "\
usage: bench [--crystal | --models | --search]

  --crystal  only the tables of the crystal frame
  --models   only the table of entries with models
  --search   only the table of texts that differ in how far the check looks back

Exit status: 1 a call of the crystal frame is above its bar, 2 wrong arguments.";

fn main() {
    let words: Vec<String> = std::env::args().skip(1).collect();
    let (text, above) = match words.iter().map(String::as_str).collect::<Vec<_>>()[..] {
        [] => {
            let (frames, above) = frames();
            ([all_calls(), frames, models(), searches()].join("\n"), above)
        }
        ["--crystal"] => frames(),
        ["--models"] => (models(), Vec::new()),
        ["--search"] => (searches(), Vec::new()),
        _ => {
            eprintln!("{USAGE}");
            std::process::exit(2);
        }
    };
    print!("{text}");
    if !above.is_empty() {
        eprintln!("{}", above.join("\n"));
        std::process::exit(1);
    }
}
