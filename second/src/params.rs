//! What a caller says of a symbol, and what a call answers.

pub const PRIMARY: u32 = 0;
pub const SECONDARY: u32 = 1;

/// The parameters as lent; they may be anything until `in_range` has looked.
#[derive(Clone, Copy, Debug, PartialEq, Eq)]
pub struct Params {
    pub kind: u32,
    pub horizontal: u32,
    pub vertical: u32,
    pub colours: u32,
    pub black: u32,
    pub cyan: u32,
    pub yellow: u32,
    pub wc: u32,
    pub wr: u32,
    pub mask: u32,
    pub turn: u32,
}

/// The sizes of a symbol: its sides in modules, its capacity C and net payload
/// Pn in bits, the least work buffer in bytes, and then Pg and K.
#[derive(Clone, Copy, Debug, PartialEq, Eq)]
pub struct Sizes {
    pub columns: usize,
    pub rows: usize,
    pub capacity: usize,
    pub net: usize,
    pub work: usize,
    pub gross: usize,
    pub checks: usize,
}

/// The numbers that calls give. Wrong stuffing once had 8, and no other refusal
/// gets that number; 15 belongs to a request that is not built.
pub const GIVEN: [u32; 15] = [0, 1, 2, 3, 4, 5, 6, 7, 9, 10, 11, 12, 13, 14, 16];

/// A number of the papers' lists and its place; number 0 is no refusal.
#[derive(Clone, Copy, Debug, PartialEq, Eq)]
pub struct Refusal {
    pub number: u32,
    pub place: usize,
}

impl Refusal {
    pub const NONE: Refusal = Refusal::plain(0);

    /// A refusal whose place is 0.
    pub const fn plain(number: u32) -> Refusal {
        Refusal { number, place: 0 }
    }
}

impl Params {
    /// Test 1.
    pub fn in_range(&self) -> bool {
        let sides = (1..=32).contains(&self.horizontal) && (1..=32).contains(&self.vertical);
        let weights = (3..=8).contains(&self.wc) && (4..=9).contains(&self.wr) && self.wc < self.wr;
        let kind = matches!(self.kind, PRIMARY | SECONDARY);
        kind && sides && self.palette_in_range() && weights && self.mask <= 7 && self.turn <= 1
    }

    fn palette_in_range(&self) -> bool {
        let named = [self.black, self.cyan, self.yellow];
        let different = self.black != self.cyan && self.cyan != self.yellow;
        matches!(self.colours, 4 | 8)
            && named.iter().all(|&index| index < self.colours)
            && different
            && self.black != self.yellow
    }

    pub fn bits_per_module(&self) -> usize {
        if self.colours == 4 {
            2
        } else {
            3
        }
    }
}
