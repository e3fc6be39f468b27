//! Accepted entries of a wanted length, the same in every run.

use std::fmt::Write;

/// Closed runs in each entry; the HETATM lines behind them are a tenth of the coordinates.
const RUNS: usize = 8;

/// Names and elements of the atoms of a residue.
pub const ATOMS: [(&str, &str); 8] = [
    (" N  ", " N"),
    (" CA ", " C"),
    (" C  ", " C"),
    (" O  ", " O"),
    (" CB ", " C"),
    (" CG ", " C"),
    (" SD ", " S"),
    (" H  ", " H"),
];

/// An entry, and what it is called in the tables.
pub struct Entry {
    /// What it is called.
    pub name: String,
    /// Its text.
    pub text: Vec<u8>,
    /// Its ATOM and HETATM lines.
    pub atoms: usize,
}

impl Entry {
    /// An entry of so many lines, nearly all of them ATOM, HETATM and TER.
    pub fn of_lines(lines: usize) -> Entry {
        Entry::of_coordinates(lines, format!("{} lines", grouped(lines)), Writer::coordinates)
    }

    /// An entry of so many lines, all but a few of them written as told.
    pub fn of_coordinates(lines: usize, name: String, write: impl FnOnce(&mut Writer, usize)) -> Entry {
        let remarks = lines / 1_000;
        let mut writer = Writer::default();
        writer.head(remarks);
        write(&mut writer, lines - remarks - 3);
        writer.finish(name)
    }

    /// An entry of so many lines with CRYST1 and ORIGX lines, and with SCALE lines if asked.
    pub fn of_crystal(lines: usize, scale: bool) -> Entry {
        let name = format!("{} lines, {} SCALE", grouped(lines), if scale { "with" } else { "without" });
        Entry::of_coordinates(lines, name, |writer, lines| {
            writer.crystal(scale);
            writer.coordinates(lines - 1 - writer.xform);
        })
    }

    /// An entry of so many atoms and CONECT lines.
    pub fn with_bonds(atoms: usize, bonds: usize) -> Entry {
        let mut writer = Writer::default();
        writer.head(0);
        writer.coordinates(atoms + RUNS);
        writer.bonds(bonds);
        writer.finish(format!("{} atoms, {} CONECT", grouped(atoms), grouped(bonds)))
    }

    /// An entry of so many models with so many coordinate lines each, alike but for their places, and so many CONECT lines.
    pub fn with_models(models: usize, lines: usize, bonds: usize) -> Entry {
        let mut writer = Writer::default();
        writer.head(0);
        for number in 1..=models {
            writer.model(number, lines);
        }
        writer.bonds(bonds);
        let mut name = format!("{} models of {} lines", grouped(models), grouped(lines));
        if bonds > 0 {
            name += &format!(", {} CONECT", grouped(bonds));
        }
        writer.finish(name)
    }

    /// Its lines.
    pub fn lines(&self) -> usize {
        self.text.len() / 81
    }
}

/// A number with commas between thousands.
pub fn grouped(number: usize) -> String {
    match number {
        0..=999 => number.to_string(),
        _ => format!("{},{:03}", grouped(number / 1_000), number % 1_000),
    }
}

/// Writes an entry from the top.
#[derive(Default)]
pub struct Writer {
    text: String,
    /// Where places and orders come from.
    pub chance: Chance,
    remarks: usize,
    /// ORIGX and SCALE lines.
    xform: usize,
    serial: usize,
    /// The serials of the atoms.
    atoms: Vec<usize>,
    ters: usize,
    /// The atoms and TER lines of the first model, where there are models.
    first: Option<(usize, usize)>,
    bonds: usize,
}

impl Writer {
    fn line(&mut self, columns: &str) {
        // Writing to a string does not fail.
        let _ = writeln!(self.text, "{columns:80}");
    }

    /// What stands before the coordinates.
    pub fn head(&mut self, remarks: usize) {
        self.remarks = remarks;
        self.line("HEADER    MADE UP FOR THE BENCHMARK");
        for _ in 0..remarks {
            self.line("REMARK   2 RESOLUTION.    1.74 ANGSTROMS.");
        }
    }

    /// A cell and its transformations, with no zero in SCALE.
    fn crystal(&mut self, scale: bool) {
        self.line("CRYST1   52.000   58.600   61.900  78.10  84.20  69.30 P 1           1");
        self.line("ORIGX1      1.000000  0.000000  0.000000        0.00000");
        self.line("ORIGX2      0.000000  1.000000  0.000000        0.00000");
        self.line("ORIGX3      0.000000  0.000000  1.000000        0.00000");
        self.xform = 3;
        if scale {
            self.line("SCALE1      0.019231 -0.007266 -0.000705        0.25000");
            self.line("SCALE2      0.001204  0.018242 -0.003498       -0.50000");
            self.line("SCALE3     -0.000313  0.002011  0.016535        0.12345");
            self.xform = 6;
        }
    }

    /// So many ATOM, TER and HETATM lines. Few lines have fewer runs, since each run has an atom and its TER.
    pub fn coordinates(&mut self, lines: usize) {
        let tail = lines / 10;
        let closed = lines - tail;
        let runs = RUNS.min(1 + lines / 100);
        for (run, chain) in (b'A'..).map(char::from).take(runs).enumerate() {
            self.run(chain, closed * (run + 1) / runs - closed * run / runs);
        }
        for water in 0..tail {
            self.atom("HETATM", " O  ", &format!("HOH W{:4}", 1 + water % 9_999), " O");
        }
    }

    /// A model of so many coordinate lines. Its serials begin afresh.
    fn model(&mut self, number: usize, lines: usize) {
        self.line(&format!("MODEL     {number:4}"));
        self.serial = 0;
        self.coordinates(lines);
        self.line("ENDMDL");
        self.first.get_or_insert((self.atoms.len(), self.ters));
    }

    /// The atoms and TER lines that MASTER counts.
    fn counted(&self) -> (usize, usize) {
        self.first.unwrap_or((self.atoms.len(), self.ters))
    }

    /// A run of ATOM lines, and its TER.
    fn run(&mut self, chain: char, lines: usize) {
        let residue = |atom: usize| format!("MET {chain}{:4}", 1 + atom / ATOMS.len() % 9_999);
        for atom in 0..lines - 1 {
            let (name, element) = ATOMS[atom % ATOMS.len()];
            self.atom("ATOM", name, &residue(atom), element);
        }
        self.ter(&residue(lines - 2));
    }

    /// The TER of a residue.
    pub fn ter(&mut self, residue: &str) {
        self.serial += 1;
        self.ters += 1;
        self.line(&format!("TER   {:5}      {residue}", self.serial));
    }

    /// An atom, by its name of four columns, and its residue from its name to its insertion code.
    pub fn atom(&mut self, kind: &str, name: &str, residue: &str, element: &str) {
        self.alternate(kind, name, ' ', residue, element);
    }

    /// An atom with an alternate location.
    pub fn alternate(&mut self, kind: &str, name: &str, alternate: char, residue: &str, element: &str) {
        self.serial += 1;
        self.atoms.push(self.serial);
        let [x, y, z] = [(); 3].map(|()| self.chance.below(300_000) as f64 / 1_000.0 - 100.0);
        let temperature = self.chance.below(10_000) as f64 / 100.0;
        let place = format!("{x:8.3}{y:8.3}{z:8.3}  1.00{temperature:6.2}").replace("-0.000", " 0.000");
        self.line(&format!("{kind:6}{:5} {name}{alternate}{residue:10}   {place}          {element}", self.serial));
    }

    /// So many CONECT lines, each with up to four partners anywhere in the entry or in its first model.
    fn bonds(&mut self, bonds: usize) {
        self.bonds = bonds;
        let (atoms, _) = self.counted();
        for bond in 0..bonds {
            let atom = bond * atoms / bonds;
            let mut line = format!("CONECT{:5}", self.atoms[atom]);
            for _ in 0..1 + self.chance.below(4) {
                let partner = (atom + 1 + self.chance.below(atoms - 1)) % atoms;
                let _ = write!(line, "{:5}", self.atoms[partner]);
            }
            self.line(&line);
        }
    }

    /// What stands behind the coordinates and bonds.
    pub fn finish(mut self, name: String) -> Entry {
        let zeros = "    0".repeat(6);
        let (remarks, xform, bonds) = (self.remarks, self.xform, self.bonds);
        let (atoms, ters) = self.counted();
        self.line(&format!("MASTER    {remarks:5}{zeros}{xform:5}{atoms:5}{ters:5}{bonds:5}    0"));
        self.line("END");
        Entry { name, text: self.text.into_bytes(), atoms: self.atoms.len() }
    }
}

/// Numbers that look like chance and are the same in every run.
#[derive(Default)]
pub struct Chance(u64);

impl Chance {
    /// A number below a limit.
    pub fn below(&mut self, limit: usize) -> usize {
        self.0 = self.0.wrapping_mul(6_364_136_223_846_793_005).wrapping_add(1_442_695_040_888_963_407);
        (self.0 >> 33) as usize % limit
    }

    /// Puts items into any order.
    pub fn shuffle<T>(&mut self, items: &mut [T]) {
        for last in (1..items.len()).rev() {
            items.swap(last, self.below(last + 1));
        }
    }
}

#[cfg(test)]
mod tests {
    use super::*;

    #[test]
    fn entries_are_accepted_and_as_long_as_asked() {
        for lines in [1_000, 10_000, 100_000] {
            let entry = Entry::of_lines(lines);
            assert_eq!(entry.lines(), lines);
            assert_eq!(reference::check(&entry.text).refusal, None);
        }
    }

    #[test]
    fn crystals_are_accepted_and_as_long_as_asked() {
        for (scale, rows) in [(true, None), (false, Some(reference::Refusal::NoScale))] {
            let entry = Entry::of_crystal(1_000, scale);
            assert_eq!((entry.lines(), reference::check(&entry.text).refusal), (1_000, None));
            assert_eq!(reference::crystal::rows(&entry.text).err(), rows);
        }
    }

    #[test]
    fn bonds_are_accepted() {
        let entry = Entry::with_bonds(60_000, 30_000);
        let verdict = reference::check(&entry.text);
        assert_eq!((verdict.refusal, verdict.tally.conect, entry.atoms), (None, 30_000, 60_000));
    }

    #[test]
    fn models_are_accepted() {
        for bonds in [0, 2_500] {
            let entry = Entry::with_models(20, 5_000, bonds);
            let verdict = reference::check(&entry.text);
            let counts = (verdict.tally.coord, verdict.tally.ter, verdict.tally.conect);
            assert_eq!((verdict.refusal, counts), (None, (4_992, 8, bonds as u64)));
            assert_eq!((entry.lines(), entry.atoms), (100_000 + 40 + 3 + bonds, 20 * 4_992));
        }
    }

    #[test]
    fn many_models_are_accepted() {
        let entry = Entry::with_models(9_999, 10, 0);
        assert_eq!(reference::check(&entry.text).refusal, None);
        assert_eq!((entry.lines(), entry.atoms), (12 * 9_999 + 3, 9 * 9_999));
    }

    #[test]
    fn thousands() {
        assert_eq!([0, 999, 1_000, 1_002_030].map(grouped), ["0", "999", "1,000", "1,002,030"]);
    }
}
