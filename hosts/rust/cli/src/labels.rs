//! Labels of a panel, moved up or down where one would cover another.

use std::fmt::{self, Write};

use crate::paint::Colour;
use crate::words::angstroms;

/// A text in the middle of a place.
struct Label {
    /// In thousandths, like the sizes.
    middle: [f64; 2],
    size: f64,
    colour: Colour,
    words: String,
}

impl Label {
    /// Half its width and half its height; a letter is about as wide as this.
    fn half(&self) -> [f64; 2] {
        [0.34 * self.size * self.words.chars().count() as f64, 0.55 * self.size]
    }

    fn covers(&self, other: &Label) -> bool {
        let ([width, height], [other_width, other_height]) = (self.half(), other.half());
        (self.middle[0] - other.middle[0]).abs() < width + other_width
            && (self.middle[1] - other.middle[1]).abs() < height + other_height
    }
}

/// Labels that do not cover one another, as far as there is room.
#[derive(Default)]
pub struct Labels(Vec<Label>);

impl Labels {
    /// Adds a label; those that were added before stay where they are.
    pub fn add(&mut self, middle: [f64; 2], size: f64, colour: Colour, words: String) {
        let at = |up: f64| Label { middle: [middle[0], middle[1] + up * size], size, colour, words: words.clone() };
        let mut places = [0.0, 1.1, -1.1, 2.2, -2.2, 3.3, -3.3].map(at).into_iter();
        let free = places.find(|label| !self.0.iter().any(|other| label.covers(other)));
        self.0.push(free.unwrap_or_else(|| at(0.0)));
    }

    /// Writes them, each with a white rim.
    pub fn write(&self, svg: &mut String) -> fmt::Result {
        for Label { middle: [x, y], size, colour, words } in &self.0 {
            let [x, y, size, rim] = [*x, 0.35 * size - y, *size, 0.28 * size].map(angstroms);
            writeln!(
                svg,
                "<text x=\"{x}\" y=\"{y}\" font-size=\"{size}\" font-weight=\"bold\" text-anchor=\"middle\" \
                 fill=\"{colour}\" stroke=\"#ffffff\" stroke-width=\"{rim}\" stroke-linejoin=\"round\" \
                 paint-order=\"stroke\">{words}</text>"
            )?;
        }
        Ok(())
    }
}

#[cfg(test)]
mod tests {
    use super::*;
    use crate::paint::INK;

    #[test]
    fn labels_make_room() {
        let mut labels = Labels::default();
        for words in ["TYR A 33", "TRP A 47", "HIS A 35"] {
            labels.add([0.0, 0.0], 1_000.0, INK, words.to_owned());
        }
        labels.add([9_000.0, 0.0], 1_000.0, INK, "far".to_owned());
        let heights: Vec<f64> = labels.0.iter().map(|label| label.middle[1]).collect();
        assert_eq!(heights, [0.0, 1_100.0, -1_100.0, 0.0]);
    }
}
