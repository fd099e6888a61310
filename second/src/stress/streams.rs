//! Random streams that go through all modes of 4.3 of 002, and at times end in
//! a fault.

use second::chance::Chance;
use second::stream::extended;
use second::Bits;

/// A code: its number and its bits.
type Code = (u32, usize);

const UPPERCASE: usize = 0;
const LOWERCASE: usize = 1;
const NUMERIC: usize = 2;
const ALPHANUMERIC: usize = 3;

/// What a shift is followed by: the characters of a mode and the bits of each.
const PUNCTUATION: (usize, usize) = (16, 4);
const MIXED: (usize, usize) = (32, 5);
const LETTERS: (usize, usize) = (27, 5);

struct Mode {
    characters: usize,
    width: usize,
    latches: &'static [(Code, usize)],
    shifts: &'static [(Code, (usize, usize))],
    bytes: Code,
}

/// Tables 12 to 16, by the numbers above.
const MODES: [Mode; 4] = [
    Mode {
        characters: 27,
        width: 5,
        latches: &[
            ((28, 5), LOWERCASE),
            ((29, 5), NUMERIC),
            ((30, 5), ALPHANUMERIC),
        ],
        shifts: &[((27, 5), PUNCTUATION), (extended(31, 5, 1), MIXED)],
        bytes: extended(31, 5, 0),
    },
    Mode {
        characters: 27,
        width: 5,
        latches: &[
            ((29, 5), NUMERIC),
            ((30, 5), ALPHANUMERIC),
            (extended(31, 5, 2), UPPERCASE),
        ],
        shifts: &[
            ((27, 5), PUNCTUATION),
            ((28, 5), LETTERS),
            (extended(31, 5, 1), MIXED),
        ],
        bytes: extended(31, 5, 0),
    },
    Mode {
        characters: 13,
        width: 4,
        latches: &[((14, 4), UPPERCASE), (extended(15, 4, 3), LOWERCASE)],
        shifts: &[
            ((13, 4), PUNCTUATION),
            (extended(15, 4, 1), MIXED),
            (extended(15, 4, 2), LETTERS),
        ],
        bytes: extended(15, 4, 0),
    },
    Mode {
        characters: 63,
        width: 6,
        latches: &[(extended(63, 6, 3), UPPERCASE)],
        shifts: &[
            (extended(63, 6, 1), MIXED),
            (extended(63, 6, 2), PUNCTUATION),
        ],
        bytes: extended(63, 6, 0),
    },
];

/// ECI and FNC1 in uppercase mode.
const REFUSED: [Code; 2] = [extended(31, 5, 2), extended(31, 5, 3)];
const UPPERCASE_SHIFT: Code = (28, 5);
const END_OF_MESSAGE: Code = extended(31, 5, 3);

struct Stream {
    bits: Bits,
    mode: usize,
}

impl Stream {
    fn push(&mut self, (number, width): Code) {
        self.bits.push_number(number, width);
    }

    fn push_below(&mut self, chance: &mut Chance, (bound, width): (usize, usize)) {
        self.push((chance.below(bound) as u32, width));
    }

    /// A character, a latch, a shift with its character, or a run of bytes.
    fn step(&mut self, chance: &mut Chance) {
        let mode = &MODES[self.mode];
        match chance.below(16) {
            0 | 1 => {
                let (code, next) = chance.pick(mode.latches);
                self.push(code);
                self.mode = next;
            }
            2 | 3 => {
                let (code, characters) = chance.pick(mode.shifts);
                self.push(code);
                self.push_below(chance, characters);
            }
            4 => {
                self.push(mode.bytes);
                self.run(chance);
            }
            _ => self.push_below(chance, (mode.characters, mode.width)),
        }
    }

    /// The count of a run, short or long, and its bytes, of the longest run only
    /// the first.
    fn run(&mut self, chance: &mut Chance) {
        let count = if chance.one_in(3) {
            let few = chance.below(40);
            let above = chance.pick(&[0, 1, few, few, 8_191]);
            self.push((0, 4));
            self.push((above as u32, 13));
            15 + above
        } else {
            let count = chance.between(1, 15);
            self.push((count as u32, 4));
            count
        };
        for _ in 0..count.min(100) {
            self.push_below(chance, (256, 8));
        }
    }

    /// A code that ends the reading, where the mode has one, and bits behind it.
    fn finish(&mut self, chance: &mut Chance) {
        match (self.mode, chance.below(3)) {
            (UPPERCASE, _) => self.push(chance.pick(&REFUSED)),
            (LOWERCASE, 0) => {
                self.push(UPPERCASE_SHIFT);
                self.push((chance.between(27, 31) as u32, 5));
            }
            (LOWERCASE, _) => self.push(END_OF_MESSAGE),
            _ => {}
        }
        for _ in 0..chance.below(30) {
            self.push_below(chance, (2, 1));
        }
    }
}

/// A stream of at most so many bits. It is not cut within a code, unless the
/// chance will have it.
pub fn draw(chance: &mut Chance, most: usize) -> Bits {
    let mut stream = Stream {
        bits: Bits::new(),
        mode: UPPERCASE,
    };
    let wanted = chance.below(most + 1);
    while stream.bits.len() < wanted {
        let (whole, mode) = (stream.bits.len(), stream.mode);
        stream.step(chance);
        if stream.bits.len() > most {
            stream.bits.truncate(whole);
            stream.mode = mode;
            break;
        }
    }
    match chance.below(8) {
        0 | 1 => stream.finish(chance),
        2 => {
            let cut = chance.below(12).min(stream.bits.len());
            stream.bits.truncate(stream.bits.len() - cut);
        }
        _ => {}
    }
    stream.bits.truncate(most);
    stream.bits
}
