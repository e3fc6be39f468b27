//! The picture of a scene: all of it, beside it the pocket of its largest ligand, and a legend. Seen along z: x goes to the
//! right, y up, and what is nearer is stronger and covers what is farther.

use std::fmt::{self, Write};

use station::Frame;

use crate::legend;
use crate::panel::{self, Panel, View};
use crate::scene::Scene;

/// The longer side of the picture of all, and of the pocket, in pixels; the room between and round them.
const WHOLE: f64 = 900.0;
const POCKET: f64 = 620.0;
const GAP: f64 = 24.0;

/// The height of a heading.
const HEADING: f64 = 30.0;

/// The picture of a scene in its frame.
pub fn picture(title: &str, scene: &Scene, frame: &Frame) -> String {
    let mut svg = String::new();
    // Writing to a string does not fail.
    let _ = write_picture(&mut svg, title, scene, frame);
    svg
}

fn write_picture(svg: &mut String, title: &str, scene: &Scene, frame: &Frame) -> fmt::Result {
    let all: Vec<usize> = (0..scene.atoms.len()).collect();
    let whole = Panel::of(View::Whole, all, frame.lowest, frame.highest, WHOLE);
    let pocket = scene.pocketed().map(|ligand| panel::of_pocket(scene, ligand, POCKET));
    let names = legend::Names::of(scene);
    let mut width = whole.width + 2.0 * GAP;
    let mut height = whole.height;
    if let Some(pocket) = &pocket {
        width += pocket.width + GAP;
        height = height.max(pocket.height);
    }
    let width = width.max(legend::LEAST);
    let legend = legend::Legend::of(scene, &names, width - 2.0 * GAP);
    let below = GAP + HEADING + height + GAP;
    writeln!(
        svg,
        "<svg xmlns=\"http://www.w3.org/2000/svg\" width=\"{width:.0}\" height=\"{:.0}\" font-family=\"sans-serif\">",
        below + legend.height() + GAP
    )?;
    writeln!(svg, "<title>{}</title>\n<rect width=\"100%\" height=\"100%\" fill=\"#ffffff\"/>", escaped(title))?;
    heading(svg, GAP, title)?;
    whole.write(svg, (GAP, GAP + HEADING), scene, &names)?;
    if let (Some(pocket), Some(ligand)) = (pocket, scene.pocketed()) {
        let left = whole.width + 2.0 * GAP;
        heading(svg, left, &format!("{} and the residues round it", panel::residue(scene.atoms[ligand[0]].slot)))?;
        pocket.write(svg, (left, GAP + HEADING), scene, &names)?;
    }
    legend.write(svg, (GAP, below))?;
    writeln!(svg, "</svg>")
}

fn heading(svg: &mut String, left: f64, words: &str) -> fmt::Result {
    let base = GAP + HEADING - 12.0;
    let words = escaped(words);
    writeln!(
        svg,
        "<text x=\"{left:.0}\" y=\"{base:.0}\" font-size=\"17\" font-weight=\"bold\" fill=\"#222222\">{words}</text>"
    )
}

/// A text in XML. What XML does not allow becomes a question mark.
pub fn escaped(text: &str) -> String {
    let mut escaped = String::new();
    for character in text.chars() {
        match character {
            '&' => escaped.push_str("&amp;"),
            '<' => escaped.push_str("&lt;"),
            '>' => escaped.push_str("&gt;"),
            '\u{fffe}' | '\u{ffff}' => escaped.push('?'),
            _ if character.is_control() => escaped.push('?'),
            _ => escaped.push(character),
        }
    }
    escaped
}
