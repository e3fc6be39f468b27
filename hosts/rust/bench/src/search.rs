//! Texts for what the check spends on looking back for an atom that a line above has: entries as they come, others as they
//! may come, and some that are made to be slow. All of them are accepted, so every line is looked back from.

use crate::entry::{Entry, Writer, ATOMS};

/// Chains, in the order in which entries use them.
const CHAINS: &[u8; 62] = b"ABCDEFGHIJKLMNOPQRSTUVWXYZabcdefghijklmnopqrstuvwxyz0123456789";

/// The atoms of a heterogen.
const GLYCEROL: [(&str, &str); 6] =
    [(" C1 ", " C"), (" O1 ", " O"), (" C2 ", " C"), (" O2 ", " O"), (" C3 ", " C"), (" O3 ", " O")];

/// Hydrogens of a residue that its other atoms do not have yet.
const HYDROGENS: [&str; 4] = [" HA ", " HB2", " HB3", " HG2"];

/// How many chains there are where their number is not what matters.
const SOME: usize = 12;

/// All texts, of so many lines each. The first is that of the other tables.
pub fn texts(lines: usize) -> Vec<Entry> {
    let of = |name: &str, write: fn(&mut Writer, usize)| Entry::of_coordinates(lines, name.to_owned(), write);
    vec![
        of("8 chains, as in the other tables", Writer::coordinates),
        of("1 chain, its heterogen, a chain of waters", |writer, lines| Chains::alone().write(writer, lines)),
        of("12 chains, heterogens, waters", |writer, lines| Chains::rising(SOME).write(writer, lines)),
        of("62 chains, heterogens, waters", |writer, lines| Chains::rising(CHAINS.len()).write(writer, lines)),
        falling(lines),
        of("12 chains, waters in any order", |writer, lines| {
            Chains { any_waters: true, ..Chains::rising(SOME) }.write(writer, lines)
        }),
        of("waters alone, in any order", waters_alone),
        of("1 chain, hydrogens after all other atoms", hydrogens_last),
        of("1 chain, every residue left and come back to for each atom", atom_by_atom),
        of("2 chains, atom by atom in turn", two_in_turn),
        of("one residue", one_residue),
        of("one residue, TER after each atom", closed_each),
    ]
}

/// Chains whose residues fall.
pub fn falling(lines: usize) -> Entry {
    Entry::of_coordinates(lines, "12 chains, residues fall".to_owned(), |writer, lines| {
        Chains { fall: true, ..Chains::rising(SOME) }.write(writer, lines);
    })
}

/// A residue from its name to its insertion code, by its place in the chain. Numbers begin again with the next insertion code
/// when they are used up.
fn residue(name: &str, chain: u8, index: usize) -> String {
    let insertion = b" ABCDEFGHIJKLMNOPQRSTUVWXYZ"[index / 9_999];
    format!("{name:>3} {}{:4}{}", char::from(chain), 1 + index % 9_999, char::from(insertion))
}

/// The closed chains of an entry, then the heterogens of each chain, then the waters of each chain.
struct Chains {
    count: usize,
    /// Whether the numbers of residues fall.
    fall: bool,
    /// Whether the waters are numbered in any order.
    any_waters: bool,
    /// Whether residues have their hydrogens too, and the waters a chain of their own.
    roomy: bool,
}

impl Chains {
    fn rising(count: usize) -> Chains {
        Chains { count, fall: false, any_waters: false, roomy: false }
    }

    /// A chain by itself. It is roomy, since there are no more than 9,999 numbers for its residues.
    fn alone() -> Chains {
        Chains { roomy: true, ..Chains::rising(1) }
    }

    /// So many ATOM, TER and HETATM lines, a tenth of them behind the last TER.
    fn write(&self, writer: &mut Writer, lines: usize) {
        let closed = lines - lines / 10;
        let chains = &CHAINS[..self.count];
        let mut residues = Vec::new();
        for (run, &chain) in chains.iter().enumerate() {
            let length = closed * (run + 1) / self.count - closed * run / self.count;
            residues.push((chain, self.run(writer, chain, length)));
        }
        for &(chain, last) in &residues {
            for (name, element) in GLYCEROL {
                writer.atom("HETATM", name, &residue("GOL", chain, last), element);
            }
        }
        let waters = lines - closed - GLYCEROL.len() * self.count;
        for (run, &(chain, last)) in residues.iter().enumerate() {
            let count = waters * (run + 1) / self.count - waters * run / self.count;
            let (chain, first) = if self.roomy { (b'W', 0) } else { (chain, last + 1) };
            let mut numbers: Vec<usize> = (first..).take(count).collect();
            if self.any_waters {
                writer.chance.shuffle(&mut numbers);
            }
            for number in numbers {
                writer.atom("HETATM", " O  ", &residue("HOH", chain, number), " O");
            }
        }
    }

    /// A chain of so many lines, its TER included. Answers how many residues it has.
    fn run(&self, writer: &mut Writer, chain: u8, lines: usize) -> usize {
        let hydrogens = HYDROGENS.iter().map(|&name| (name, " H")).filter(|_| self.roomy);
        let atoms: Vec<(&str, &str)> = ATOMS.into_iter().chain(hydrogens).collect();
        let residues = (lines - 1).div_ceil(atoms.len());
        let place = |atom: usize| {
            let index = atom / atoms.len();
            residue("MET", chain, if self.fall { residues - 1 - index } else { index })
        };
        for atom in 0..lines - 1 {
            let (name, element) = atoms[atom % atoms.len()];
            writer.atom("ATOM", name, &place(atom), element);
        }
        writer.ter(&place(lines - 2));
        residues
    }
}

/// Waters of some chains, as if they had been numbered by anything but their place in the text.
fn waters_alone(writer: &mut Writer, lines: usize) {
    let mut numbers: Vec<usize> = (0..lines).collect();
    writer.chance.shuffle(&mut numbers);
    for number in numbers {
        writer.atom("HETATM", " O  ", &residue("HOH", CHAINS[number % SOME], number / SOME), " O");
    }
}

/// A chain that is gone through twice: once for its atoms but for hydrogens, and once for these.
fn hydrogens_last(writer: &mut Writer, lines: usize) {
    let atoms = lines - 1;
    let residues = atoms / (ATOMS.len() + HYDROGENS.len());
    for atom in 0..residues * ATOMS.len() {
        let (name, element) = ATOMS[atom % ATOMS.len()];
        writer.atom("ATOM", name, &residue("MET", b'A', atom / ATOMS.len()), element);
    }
    let hydrogens = atoms - residues * ATOMS.len();
    for atom in 0..hydrogens {
        let place = residue("MET", b'A', atom / HYDROGENS.len());
        writer.atom("ATOM", HYDROGENS[atom % HYDROGENS.len()], &place, " H");
    }
    writer.ter(&residue("MET", b'A', (hydrogens - 1) / HYDROGENS.len()));
}

/// A chain that is gone through for each atom of a residue.
fn atom_by_atom(writer: &mut Writer, lines: usize) {
    let residues = (lines - 1).div_ceil(ATOMS.len());
    for atom in 0..lines - 1 {
        let (name, element) = ATOMS[atom / residues];
        writer.atom("ATOM", name, &residue("MET", b'A', atom % residues), element);
    }
    writer.ter(&residue("MET", b'A', (lines - 2) % residues));
}

/// Two chains, an atom of the one and an atom of the other: HETATM lines, since a run of ATOM lines has one chain.
fn two_in_turn(writer: &mut Writer, lines: usize) {
    for line in 0..lines {
        let (atom, chain) = (line / 2, CHAINS[line % 2]);
        let (name, element) = ATOMS[atom % ATOMS.len()];
        writer.atom("HETATM", name, &residue("MET", chain, atom / ATOMS.len()), element);
    }
}

/// One residue with as many names of four columns as it takes, each at two locations.
fn one_residue(writer: &mut Writer, lines: usize) {
    let place = residue("UNK", b'A', 0);
    for atom in 0..lines - 1 {
        writer.alternate("ATOM", &name_of(atom / 2), ['A', 'B'][atom % 2], &place, " C");
    }
    writer.ter(&place);
}

/// The same, but that each atom is a run of its own.
fn closed_each(writer: &mut Writer, lines: usize) {
    let place = residue("UNK", b'A', 0);
    for atom in 0..lines / 2 {
        writer.alternate("ATOM", &name_of(atom / 2), ['A', 'B'][atom % 2], &place, " C");
        writer.ter(&place);
    }
    if lines % 2 == 1 {
        writer.atom("HETATM", " O  ", &residue("HOH", b'A', 1), " O");
    }
}

/// A carbon's name of four columns, another for each number.
fn name_of(number: usize) -> String {
    const LATER: &[u8; 38] = b"0123456789ABCDEFGHIJKLMNOPQRSTUVWXYZ'*";
    let column = |size: usize| char::from(LATER[number / size % LATER.len()]);
    ['C', column(LATER.len() * LATER.len()), column(LATER.len()), column(1)].into_iter().collect()
}

#[cfg(test)]
mod tests {
    use super::*;

    #[test]
    fn texts_are_accepted_and_as_long_as_asked() {
        for lines in [5_000, 10_000, 100_000] {
            for entry in texts(lines) {
                let verdict = reference::check(&entry.text);
                let (name, line) = (&entry.name, verdict.line);
                assert_eq!((verdict.refusal, verdict.good_lines), (None, lines as u64), "{name}, line {line}");
                let ters = entry.text.chunks(81).filter(|line| line.starts_with(b"TER")).count();
                assert!(entry.atoms + ters + lines / 1_000 + 3 >= lines, "{name}: {} atoms", entry.atoms);
            }
        }
    }

    /// The last line with an atom is looked back from as far as the first.
    #[test]
    fn texts_with_an_atom_twice_are_refused() {
        for mut entry in texts(5_000) {
            let has_atom = |line: &[u8]| line.starts_with(b"ATOM  ") || line.starts_with(b"HETATM");
            let first = 81 * entry.text.chunks(81).position(has_atom).expect("an atom");
            let last = 81 * entry.text.chunks(81).rposition(has_atom).expect("an atom");
            for columns in [12..27, 76..78] {
                entry.text.copy_within(first + columns.start..first + columns.end, last + columns.start);
            }
            let verdict = reference::check(&entry.text);
            let found = (verdict.refusal, verdict.line as usize);
            assert_eq!(found, (Some(reference::Refusal::SameAtom), last / 81 + 1), "{}", entry.name);
        }
    }
}
