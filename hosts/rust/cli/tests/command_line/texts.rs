//! Entries to try the program on.

pub fn line(text: &str) -> String {
    format!("{text:80}\n")
}

pub fn atom(name: &str, serial: u32, chain: char, number: i32, x: &str) -> String {
    line(&format!("{name:6}{serial:5}  C   ALA {chain}{number:4}    {x:>8}   2.000   3.000  1.00  0.00           C"))
}

pub fn master(coordinates: u32, ter: u32, conect: u32) -> String {
    line(&format!("MASTER    {}{coordinates:5}{ter:5}{conect:5}    0", "    0".repeat(8)))
}

/// HEADER, one atom, its TER, MASTER and END.
pub fn arginine() -> String {
    [
        line("HEADER"),
        line("ATOM     32  N  AARG A  -3      11.281  86.699  94.383  0.50 35.88           N"),
        line("TER      33      ARG A  -3"),
        master(1, 1, 0),
        line("END"),
    ]
    .concat()
}

/// Three fragments and two bonds.
pub fn three() -> String {
    [
        line("HEADER"),
        atom("ATOM", 1, 'A', 1, "0.000"),
        line("TER       2      ALA A   1"),
        atom("HETATM", 3, 'B', 7, "-1.500"),
        atom("HETATM", 4, 'B', 8, "9.000"),
        line("CONECT    1    3    4"),
        line("CONECT    3    1"),
        master(3, 1, 2),
        line("END"),
    ]
    .concat()
}

/// A model with some lines.
pub fn model(number: u32, lines: &str) -> String {
    line(&format!("MODEL     {number:4}")) + lines + &line("ENDMDL")
}

/// An empty model, and two of a chain and a heterogen, with a bond between these.
pub fn models() -> String {
    let lines = |x: &str| {
        atom("ATOM", 1, 'A', 1, x) + &line("TER       2      ALA A   1") + &atom("HETATM", 3, 'B', 7, "-1.500")
    };
    let models = [model(1, ""), model(2, &lines("0.000")), model(3, &lines("5.000"))].concat();
    [line("HEADER"), models, line("CONECT    1    3"), master(0, 0, 1), line("END")].concat()
}

/// The last atom is the first one once more.
pub fn twins() -> String {
    three().replace("HETATM    4  C   ALA B   8", "HETATM    4  C   ALA A   1")
}
