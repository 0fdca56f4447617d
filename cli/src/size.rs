//! The sizes of operands and data: B, H, W, and the kinds of floating numbers, F and D.

/// The size of an operand: whole numbers of one, two or four bytes, and the kinds of floating numbers, of four and eight.
#[derive(Clone, Copy, PartialEq, Eq, Debug)]
pub enum Size {
    B,
    H,
    W,
    F,
    D,
}

impl Size {
    /// In the order of the manual.
    pub const ALL: [Size; 5] = [Size::B, Size::H, Size::W, Size::F, Size::D];

    /// Its bytes, the L of the manual.
    pub fn bytes(self) -> u32 {
        match self {
            Size::B => 1,
            Size::H => 2,
            Size::W | Size::F => 4,
            Size::D => 8,
        }
    }

    /// Whether its values are floating numbers.
    pub fn is_floating(self) -> bool {
        matches!(self, Size::F | Size::D)
    }

    /// The last register that holds a value of it: F leaves R15 alone, and D takes the next register too.
    pub fn last_register(self) -> u8 {
        match self {
            Size::B | Size::H | Size::W => 15,
            Size::F => 14,
            Size::D => 13,
        }
    }

    pub fn letter(self) -> char {
        match self {
            Size::B => 'B',
            Size::H => 'H',
            Size::W => 'W',
            Size::F => 'F',
            Size::D => 'D',
        }
    }

    pub fn of_letter(letter: &str) -> Option<Size> {
        Size::ALL.into_iter().find(|size| letter.chars().eq([size.letter()]))
    }

    /// The highest value, unsigned, that the word z of an operand holds for it; D has none there.
    pub fn highest(self) -> u32 {
        match self {
            Size::B => 0xFF,
            Size::H => 0xFFFF,
            Size::W | Size::F | Size::D => u32::MAX,
        }
    }
}
