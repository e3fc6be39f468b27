//! A part of the picture: some atoms of a scene, by depth, with labels. Places are written as the file has them, in angstroms.

use std::fmt::{self, Write};

use station::Slot;

use crate::labels::Labels;
use crate::legend::Names;
use crate::paint::{self, Colour};
use crate::scene::{Role, Scene};
use crate::sticks::distance;
use crate::words::{angstroms, trimmed};

/// The room round the atoms, in thousandths.
const MARGIN: f64 = 2_000.0;

/// The atoms of a backbone, of proteins and of nucleic acids; older files have `*` for `'`.
const BACKBONE: [&[u8; 4]; 14] = [
    b" N  ", b" CA ", b" C  ", b" P  ", b" O5'", b" C5'", b" C4'", b" C3'", b" O3'", b" O5*", b" C5*", b" C4*",
    b" C3*", b" O3*",
];

/// How many ligands, and residues round one, have labels.
pub const LABELLED: usize = 100;

/// What a panel shows.
#[derive(Clone, Copy, PartialEq, Eq)]
pub enum View {
    Whole,
    Pocket,
}

/// Some atoms and the box round them.
pub struct Panel {
    view: View,
    atoms: Vec<usize>,
    lowest: [f64; 3],
    highest: [f64; 3],
    /// In pixels.
    pub width: f64,
    pub height: f64,
    /// The thousandths of a pixel.
    pixel: f64,
}

/// Something drawn: it lies in a layer at a depth.
struct Shape {
    layer: u8,
    depth: f64,
    written: String,
}

/// How an atom is drawn in a panel.
struct Look {
    colour: Colour,
    strength: f64,
    /// The radius of its dot and the width of its sticks, in thousandths.
    dot: f64,
    stick: f64,
    layer: u8,
}

/// The panel of a ligand and the residues round it.
pub fn of_pocket(scene: &Scene, ligand: &[usize], pixels: f64) -> Panel {
    let atoms = scene.pocket(ligand);
    let places = || atoms.iter().map(|&atom| scene.atoms[atom].place);
    let bound = |pick: fn(f64, f64) -> f64| {
        places().reduce(|a, b| [pick(a[0], b[0]), pick(a[1], b[1]), pick(a[2], b[2])]).unwrap_or_default()
    };
    let (lowest, highest) = (bound(f64::min), bound(f64::max));
    Panel::of(View::Pocket, atoms, lowest, highest, pixels)
}

/// A residue in words.
pub fn residue(slot: &Slot) -> String {
    let name = trimmed(&slot.residue);
    let [chain, insertion] = [slot.chain, slot.insertion].map(char::from);
    format!("{name} {chain} {}{insertion}", slot.number).trim_end().to_owned()
}

impl Panel {
    /// The panel of some atoms in a box; its longer side has so many pixels.
    pub fn of(view: View, atoms: Vec<usize>, lowest: [f64; 3], highest: [f64; 3], pixels: f64) -> Panel {
        let [across, up] = [0, 1].map(|axis| highest[axis] - lowest[axis] + 2.0 * MARGIN);
        let pixel = across.max(up) / pixels;
        Panel { view, atoms, lowest, highest, width: across / pixel, height: up / pixel, pixel }
    }

    /// Writes the panel with its upper left corner at a pixel.
    pub fn write(&self, svg: &mut String, (left, top): (f64, f64), scene: &Scene, names: &Names) -> fmt::Result {
        writeln!(
            svg,
            "<svg x=\"{left:.0}\" y=\"{top:.0}\" width=\"{:.0}\" height=\"{:.0}\" viewBox=\"{} {} {} {}\" \
             overflow=\"visible\" stroke-linecap=\"round\">",
            self.width.max(1.0),
            self.height.max(1.0),
            angstroms(self.lowest[0] - MARGIN),
            angstroms(-self.highest[1] - MARGIN),
            angstroms(self.width * self.pixel),
            angstroms(self.height * self.pixel),
        )?;
        let mut shapes = self.shapes(scene, names);
        shapes.sort_by(|a, b| a.layer.cmp(&b.layer).then(a.depth.total_cmp(&b.depth)));
        shapes.iter().try_for_each(|shape| svg.write_str(&shape.written))?;
        self.labels(scene, names).write(svg)?;
        self.scale(svg)?;
        writeln!(svg, "</svg>")
    }

    fn shapes(&self, scene: &Scene, names: &Names) -> Vec<Shape> {
        let mut shown = vec![false; scene.atoms.len()];
        self.atoms.iter().for_each(|&atom| shown[atom] = true);
        let both = |&&(a, b): &&(usize, usize)| shown[a] && shown[b];
        let dots = self.atoms.iter().map(|&atom| self.dot(scene, names, atom));
        let sticks = scene.sticks.iter().filter(both).map(|&(a, b)| self.stick(scene, names, a, b));
        let bonds = scene.bonds.iter().filter(both).filter_map(|&(a, b)| self.bond(scene, names, a, b));
        dots.chain(sticks).chain(bonds).collect()
    }

    /// How deep a place lies: 0 is the farthest, 1 the nearest.
    fn nearness(&self, place: [f64; 3]) -> f64 {
        let deep = self.highest[2] - self.lowest[2];
        if deep > 0.0 {
            (place[2] - self.lowest[2]) / deep
        } else {
            1.0
        }
    }

    fn look(&self, scene: &Scene, names: &Names, index: usize) -> Look {
        let atom = &scene.atoms[index];
        let slot = atom.slot;
        let near = self.nearness(atom.place);
        let hydrogen = matches!(&slot.element, b" H" | b" D");
        let small = if hydrogen { 0.5 } else { 1.0 };
        let backbone = BACKBONE.contains(&&slot.name);
        let lone = !names.joined(index);
        let own = paint::element(slot.element);
        let chain = names.colour(slot.chain);
        let colour = if &slot.element == b" C" { chain } else { own };
        let look = |colour, strength, dot: f64, stick: f64, layer| {
            // Nothing is thinner than can be seen.
            let [dot, stick] = [dot * small, stick * small].map(|size| size.max(0.4 * self.pixel));
            Look { colour, strength, dot, stick, layer }
        };
        match (atom.role, self.view) {
            (Role::Ligand, _) if lone => look(own, 1.0, 800.0, 0.0, 2),
            (Role::Ligand, _) => look(own, 0.75 + 0.25 * near, 330.0, 380.0, 2),
            (Role::Water, View::Whole) => look(paint::WATER, 0.35 + 0.5 * near, 220.0, 80.0, 0),
            (Role::Water, View::Pocket) => look(paint::WATER, 0.5 + 0.5 * near, 300.0, 80.0, 2),
            (Role::Chain, View::Pocket) => look(colour, 0.35 + 0.55 * near, 130.0, 200.0, 2),
            (Role::Chain, View::Whole) if atom.in_pocket => look(colour, 0.5 + 0.5 * near, 110.0, 200.0, 1),
            (Role::Chain, View::Whole) if backbone && names.plain() => look(colour, 0.3 + 0.7 * near, 110.0, 280.0, 0),
            (Role::Chain, View::Whole) if names.plain() => look(colour, 0.25 + 0.6 * near, 70.0, 120.0, 0),
            (Role::Chain, View::Whole) if backbone => look(chain, 0.15 + 0.6 * near, 110.0, 260.0, 0),
            (Role::Chain, View::Whole) => look(chain, 0.1 + 0.4 * near, 60.0, 90.0, 0),
        }
    }

    fn dot(&self, scene: &Scene, names: &Names, index: usize) -> Shape {
        let [x, y, z] = scene.atoms[index].place;
        let look = self.look(scene, names, index);
        let [x, y, radius] = [x, -y, look.dot].map(angstroms);
        let colour = look.colour.faded(look.strength);
        let written = format!("<circle cx=\"{x}\" cy=\"{y}\" r=\"{radius}\" fill=\"{colour}\"/>\n");
        Shape { layer: look.layer, depth: z, written }
    }

    /// A stick: half of it in the colour of either atom.
    fn stick(&self, scene: &Scene, names: &Names, a: usize, b: usize) -> Shape {
        let ([ax, ay, az], [bx, by, bz]) = (scene.atoms[a].place, scene.atoms[b].place);
        let looks = [a, b].map(|atom| self.look(scene, names, atom));
        let width = angstroms(looks[0].stick.min(looks[1].stick));
        let colours = [0, 1].map(|end: usize| looks[end].colour.faded(looks[end].strength));
        let [x1, y1, x2, y2, x, y] = [ax, -ay, bx, -by, (ax + bx) / 2.0, -(ay + by) / 2.0].map(angstroms);
        let part = |from: String, to: String, colour: Colour| {
            format!("<path d=\"M{from}L{to}\" stroke=\"{colour}\" stroke-width=\"{width}\"/>\n")
        };
        let written = if colours[0] == colours[1] {
            part(format!("{x1} {y1}"), format!("{x2} {y2}"), colours[0])
        } else {
            part(format!("{x1} {y1}"), format!("{x} {y}"), colours[0])
                + &part(format!("{x} {y}"), format!("{x2} {y2}"), colours[1])
        };
        Shape { layer: looks[0].layer.min(looks[1].layer), depth: (az + bz) / 2.0, written }
    }

    /// The stroke of a CONECT line.
    fn bond(&self, scene: &Scene, names: &Names, a: usize, b: usize) -> Option<Shape> {
        let stroke = scene.atoms[a].slot.stroke(scene.atoms[b].slot)?;
        let ([ax, ay, az], [bx, by, bz]) = (stroke.from.0, stroke.to.0);
        let layer = [a, b].map(|atom| self.look(scene, names, atom).layer).into_iter().max()?;
        let [x1, y1, x2, y2] = [ax, -ay, bx, -by].map(angstroms);
        let width = angstroms((0.8 * self.pixel).max(60.0));
        let written = format!(
            "<line x1=\"{x1}\" y1=\"{y1}\" x2=\"{x2}\" y2=\"{y2}\" stroke=\"{}\" stroke-width=\"{width}\"/>\n",
            paint::INK
        );
        // It lies on the stick between the two.
        Some(Shape { layer, depth: (az + bz) / 2.0 + 1.0, written })
    }

    /// Ligands have their labels first, the largest before the others, and chains behind them.
    fn labels(&self, scene: &Scene, names: &Names) -> Labels {
        let mut labels = Labels::default();
        let shown = |ligand: &&Vec<usize>| self.atoms.binary_search(&ligand[0]).is_ok();
        let mut ligands: Vec<&Vec<usize>> = scene.ligands.iter().filter(shown).collect();
        ligands.sort_by_key(|ligand| std::cmp::Reverse(ligand.len()));
        for ligand in ligands.into_iter().take(LABELLED) {
            let (middle, top) = middle_and_top(scene, ligand);
            let (pixels, above) = if ligand.len() == 1 { (12.0, 1_300.0) } else { (16.0, 1_000.0) };
            let words = residue(scene.atoms[ligand[0]].slot);
            labels.add([middle[0], top + above], pixels * self.pixel, paint::INK, words);
        }
        match self.view {
            View::Whole => self.label_chains(scene, names, &mut labels),
            View::Pocket => self.label_residues(scene, names, &mut labels),
        }
        labels
    }

    /// The name of a chain stands at its atom that is farthest from the middle, where there is room.
    fn label_chains(&self, scene: &Scene, names: &Names, labels: &mut Labels) {
        let middle = [0, 1].map(|axis| (self.lowest[axis] + self.highest[axis]) / 2.0);
        let away = |place: [f64; 3]| distance([place[0], place[1], 0.0], [middle[0], middle[1], 0.0]);
        for &chain in names.chains() {
            let own = scene.atoms.iter().filter(|atom| atom.role == Role::Chain && atom.slot.chain == chain);
            if let Some(end) = own.map(|atom| atom.place).max_by(|a, b| away(*a).total_cmp(&away(*b))) {
                let words = format!("chain {}", char::from(chain));
                labels.add([end[0], end[1]], 20.0 * self.pixel, names.colour(chain), words);
            }
        }
    }

    /// The names of the residues round a ligand.
    fn label_residues(&self, scene: &Scene, names: &Names, labels: &mut Labels) {
        let same = |a: &usize, b: &usize| scene.atoms[*a].slot.same_residue(scene.atoms[*b].slot);
        let residues = self.atoms.chunk_by(same).filter(|residue| scene.atoms[residue[0]].role == Role::Chain);
        for residue in residues.take(LABELLED) {
            let (middle, _) = middle_and_top(scene, residue);
            let slot = scene.atoms[residue[0]].slot;
            labels.add(middle, 12.0 * self.pixel, names.colour(slot.chain), self::residue(slot));
        }
    }

    /// A bar of so many angstroms in the lower left corner.
    fn scale(&self, svg: &mut String) -> fmt::Result {
        let across = self.width * self.pixel;
        let length = if across > 40_000.0 { 10_000.0 } else { 2_000.0 };
        let (left, base) = (self.lowest[0] - MARGIN, self.lowest[1] - MARGIN);
        let [x1, x2, y, width] = [left, left + length, -base, 2.0 * self.pixel].map(angstroms);
        writeln!(svg, "<path d=\"M{x1} {y}L{x2} {y}\" stroke=\"{}\" stroke-width=\"{width}\"/>", paint::INK)?;
        let mut labels = Labels::default();
        let words = format!("{:.0} Å", length / 1_000.0);
        labels.add([left + length / 2.0, base + 10.0 * self.pixel], 12.0 * self.pixel, paint::INK, words);
        labels.write(svg)
    }
}

/// The middle of some atoms, and their highest y.
fn middle_and_top(scene: &Scene, atoms: &[usize]) -> ([f64; 2], f64) {
    let places = || atoms.iter().map(|&atom| scene.atoms[atom].place);
    let count = atoms.len().max(1) as f64;
    let middle = [0, 1].map(|axis| places().map(|place| place[axis]).sum::<f64>() / count);
    (middle, places().map(|place| place[1]).fold(f64::MIN, f64::max))
}
