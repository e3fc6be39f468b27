//! Colours of the picture.

/// Red, green and blue.
#[derive(Clone, Copy, Debug, PartialEq, Eq, PartialOrd, Ord)]
pub struct Colour(pub [u8; 3]);

impl Colour {
    /// The colour mixed with white: 1 leaves it, 0 is white.
    pub fn faded(self, strength: f64) -> Colour {
        Colour(self.0.map(|part| (255.0 - (255.0 - f64::from(part)) * strength.clamp(0.0, 1.0)).round() as u8))
    }
}

impl std::fmt::Display for Colour {
    fn fmt(&self, f: &mut std::fmt::Formatter<'_>) -> std::fmt::Result {
        let Colour([red, green, blue]) = self;
        write!(f, "#{red:02x}{green:02x}{blue:02x}")
    }
}

pub const WATER: Colour = Colour([0x7f, 0xb2, 0xd9]);
pub const INK: Colour = Colour([0x22, 0x22, 0x22]);

/// The colours of chains, from the first on; the ninth has that of the first again.
const CHAINS: [Colour; 8] = [
    Colour([0x3b, 0x75, 0xaf]),
    Colour([0x4f, 0x9d, 0x69]),
    Colour([0xc4, 0x78, 0x3a]),
    Colour([0x8a, 0x63, 0xb0]),
    Colour([0xb5, 0x52, 0x60]),
    Colour([0x6b, 0x8e, 0x23]),
    Colour([0x3a, 0x9a, 0xa5]),
    Colour([0x8c, 0x6d, 0x46]),
];

/// The colour of a chain by its place among the chains.
pub fn chain(index: usize) -> Colour {
    CHAINS[index % CHAINS.len()]
}

/// The usual colour of an element, dark enough for a white ground.
pub fn element(element: [u8; 2]) -> Colour {
    Colour(match &element {
        b" C" => [0x50, 0x50, 0x50],
        b" N" => [0x30, 0x50, 0xf8],
        b" O" => [0xe0, 0x10, 0x10],
        b" H" | b" D" => [0xb4, 0xb4, 0xb4],
        b" S" => [0xc9, 0xa2, 0x00],
        b" P" => [0xe0, 0x70, 0x00],
        b" F" | b"CL" => [0x16, 0xa0, 0x16],
        b"BR" => [0xa6, 0x29, 0x29],
        b" I" => [0x94, 0x00, 0x94],
        b"NA" | b" K" | b"LI" => [0x8f, 0x40, 0xd4],
        b"MG" | b"CA" => [0x2f, 0x90, 0x00],
        b"FE" => [0xc0, 0x50, 0x20],
        b"ZN" => [0x5d, 0x60, 0xa0],
        _ => [0xd0, 0x30, 0x90],
    })
}
