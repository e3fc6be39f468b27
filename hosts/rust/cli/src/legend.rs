//! The legend of the picture: what colours, sizes and sticks mean.

use std::collections::BTreeSet;
use std::fmt::{self, Write};

use crate::paint::{self, Colour};
use crate::panel::LABELLED;
use crate::scene::{Role, Scene};
use crate::svg::escaped;
use crate::words::trimmed;

/// The least width of a legend, in pixels.
pub const LEAST: f64 = 760.0;

const ROW: f64 = 22.0;
const LETTER: f64 = 7.6;

/// The chains in order, which atoms are joined to another, and whether no ligand has a pocket.
pub struct Names {
    chains: Vec<u8>,
    joined: Vec<bool>,
    plain: bool,
}

impl Names {
    pub fn of(scene: &Scene) -> Names {
        let mut chains = Vec::new();
        for atom in scene.atoms.iter().filter(|atom| atom.role == Role::Chain) {
            if !chains.contains(&atom.slot.chain) {
                chains.push(atom.slot.chain);
            }
        }
        let mut joined = vec![false; scene.atoms.len()];
        scene.sticks.iter().for_each(|&(a, b)| (joined[a], joined[b]) = (true, true));
        Names { chains, joined, plain: scene.pocketed().is_none() }
    }

    /// Whether no ligand has a pocket: then nothing has to stand back behind one.
    pub fn plain(&self) -> bool {
        self.plain
    }

    /// Whether an atom has a stick.
    pub fn joined(&self, atom: usize) -> bool {
        self.joined[atom]
    }

    pub fn colour(&self, chain: u8) -> Colour {
        self.chains.iter().position(|&other| other == chain).map_or(paint::INK, paint::chain)
    }

    /// The chains in the order of the file.
    pub fn chains(&self) -> &[u8] {
        &self.chains
    }
}

/// Marks with words, in rows, and sentences below them.
pub struct Legend {
    rows: Vec<Vec<(Option<Colour>, String)>>,
}

impl Legend {
    /// The legend of a scene, for so many pixels across.
    pub fn of(scene: &Scene, names: &Names, width: f64) -> Legend {
        let mut marks: Vec<(Option<Colour>, String)> = Vec::new();
        let chains = names.chains.iter().enumerate();
        marks.extend(chains.map(|(index, &chain)| (Some(paint::chain(index)), format!("chain {}", char::from(chain)))));
        let by_element = scene.atoms.iter().filter(|atom| names.plain || atom.role == Role::Ligand || atom.in_pocket);
        let elements: BTreeSet<[u8; 2]> =
            by_element.filter(|atom| atom.role != Role::Water).map(|atom| atom.slot.element).collect();
        let carbons = |element: &[u8; 2]| element != b" C" || !scene.ligands.is_empty();
        marks.extend(
            elements.into_iter().filter(carbons).map(|element| (Some(paint::element(element)), trimmed(&element))),
        );
        if scene.atoms.iter().any(|atom| atom.role == Role::Water) {
            marks.push((Some(paint::WATER), "water".to_owned()));
        }
        let mut legend = Legend { rows: vec![Vec::new()] };
        let mut right = 0.0;
        for mark in marks {
            let own = across(&mark.1);
            if right + own > width {
                legend.rows.push(Vec::new());
                right = 0.0;
            }
            right += own;
            legend.rows.last_mut().into_iter().for_each(|row| row.push(mark.clone()));
        }
        legend.rows.extend(sentences(scene, names).into_iter().map(|words| vec![(None, words.to_owned())]));
        legend
    }

    pub fn height(&self) -> f64 {
        ROW * self.rows.len() as f64
    }

    /// Writes the legend with its upper left corner at a pixel.
    pub fn write(&self, svg: &mut String, (left, top): (f64, f64)) -> fmt::Result {
        writeln!(svg, "<g font-size=\"14\" fill=\"#222222\">")?;
        for (row, base) in self.rows.iter().zip((1..).map(|row| top + ROW * f64::from(row) - 6.0)) {
            let mut x = left;
            for (colour, words) in row {
                let mut indent = 0.0;
                if let Some(colour) = colour {
                    indent = 18.0;
                    writeln!(
                        svg,
                        "<rect x=\"{x:.0}\" y=\"{:.0}\" width=\"12\" height=\"12\" fill=\"{colour}\"/>",
                        base - 11.0
                    )?;
                }
                writeln!(svg, "<text x=\"{:.0}\" y=\"{base:.0}\">{}</text>", x + indent, escaped(words))?;
                x += across(words);
            }
        }
        writeln!(svg, "</g>")
    }
}

/// How many pixels a mark with its words needs.
fn across(words: &str) -> f64 {
    36.0 + LETTER * words.chars().count() as f64
}

fn sentences(scene: &Scene, names: &Names) -> Vec<&'static str> {
    let mut sentences = vec![
        "Sticks join neighbours by distance: a rule of this picture, not read from the file.",
        "Seen along z: what is nearer is stronger and covers what is farther.",
    ];
    if !scene.bonds.is_empty() {
        sentences.push("Thin black lines are the bonds of CONECT lines.");
    }
    if scene.ligands.len() > LABELLED {
        sentences.push("Only the largest ligands have labels.");
    }
    sentences.push(if names.plain {
        "Atoms have the colours of elements, carbons of a chain that of the chain."
    } else {
        "Ligands and the residues within 4.5 Å of one cover all else. Their atoms have the colours of elements, carbons of a \
         chain that of the chain."
    });
    sentences
}
