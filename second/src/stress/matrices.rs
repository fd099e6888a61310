//! Random matrices to read: written ones, ones that no writer makes, and damage
//! to both.

use crate::streams;
use second::chance::Chance;
use second::{stream, Bits, Symbol};

/// A matrix, and the bytes of the message that it would give undamaged.
pub struct Sampled {
    pub matrix: Vec<u8>,
    pub length: usize,
}

/// Modules below N only, or any bytes.
pub fn noise(chance: &mut Chance, colours: u32, modules: usize) -> Vec<u8> {
    let bound = if chance.one_in(3) {
        256
    } else {
        colours as usize
    };
    chance.bytes_below(bound, modules)
}

pub fn draw(chance: &mut Chance, symbol: &Symbol) -> Sampled {
    let mut sampled = if chance.one_in(20) {
        Sampled {
            matrix: noise(chance, symbol.params().colours, symbol.modules()),
            length: 0,
        }
    } else {
        let (word, length) = draw_word(chance, symbol);
        let mut sequence = symbol.stuffed(&word);
        if chance.one_in(2) {
            turn_stuffing(chance, symbol, &mut sequence);
        }
        Sampled {
            matrix: symbol.matrix_of_sequence(&sequence),
            length,
        }
    };
    damage(chance, symbol, &mut sampled.matrix);
    sampled
}

/// A word, and the bytes of the message whose stream it was made of, where it
/// was made of one.
fn draw_word(chance: &mut Chance, symbol: &Symbol) -> (Bits, usize) {
    let lengths = symbol.lengths();
    match chance.below(19) {
        0..=6 => of_stream(symbol, &message_stream(chance, symbol)),
        7..=12 => of_stream(symbol, &streams::draw(chance, lengths.net - 1)),
        13 => {
            let length = chance.below(lengths.net);
            of_stream(symbol, &chance.bits(length))
        }
        14 | 15 => (spare_columns_set(chance, symbol), 0),
        16 => (Bits::zeros(lengths.gross), 0),
        17 => (symbol.systematic().codeword(&chance.bits(lengths.net)), 0),
        _ => (chance.bits(lengths.gross), 0),
    }
}

fn of_stream(symbol: &Symbol, bits: &Bits) -> (Bits, usize) {
    let net = stream::with_end_mark(bits, symbol.lengths().net);
    let length = stream::read(bits).map_or(0, |message| message.len());
    (symbol.systematic().codeword(&net), length)
}

/// The stream of a message that fits.
fn message_stream(chance: &mut Chance, symbol: &Symbol) -> Bits {
    let net = symbol.lengths().net;
    let length = chance.between(0, net / 8).min(stream::longest(net));
    stream::write(&chance.bytes(length))
}

/// Any net bits, of which a stream may be left, and a 1 in a spare column.
fn spare_columns_set(chance: &mut Chance, symbol: &Symbol) -> Bits {
    let net = symbol.lengths().net;
    let systematic = symbol.systematic();
    let spare = systematic.message_columns().len() - net;
    let mut columns = match chance.below(3) {
        0 => Bits::zeros(net),
        1 => chance.bits(net),
        _ => stream::with_end_mark(&streams::draw(chance, net - 1), net),
    };
    columns.append(&Bits::zeros(spare));
    for _ in 0..chance.between(1, 3) {
        columns.set(net + chance.below(spare), true);
    }
    systematic.codeword(&columns)
}

/// Turns some stuffing bits or all, where there are any.
fn turn_stuffing(chance: &mut Chance, symbol: &Symbol, sequence: &mut Bits) {
    let lengths = symbol.lengths();
    let mut places: Vec<usize> = (lengths.gross..lengths.capacity).collect();
    if places.is_empty() {
        return;
    }
    chance.shuffle(&mut places);
    let (some, all) = (chance.between(1, places.len()), places.len());
    for &place in &places[..chance.pick(&[some, all])] {
        sequence.flip(place);
    }
}

fn damage(chance: &mut Chance, symbol: &Symbol, matrix: &mut [u8]) {
    let data = symbol.data_modules().len();
    match chance.below(16) {
        0..=4 => {
            let few = chance.between(1, 1 + data / 60);
            turn_modules(chance, symbol, matrix, few);
        }
        5 => {
            let many = chance.between(1, 1 + data / 4);
            turn_modules(chance, symbol, matrix, many);
        }
        6 => stripe(chance, symbol, matrix),
        7 => out_of_range(chance, symbol, matrix),
        8 => scatter_fixed(chance, symbol, matrix),
        _ => {}
    }
}

/// Changes data modules to other colours.
fn turn_modules(chance: &mut Chance, symbol: &Symbol, matrix: &mut [u8], count: usize) {
    let colours = symbol.params().colours as usize;
    for _ in 0..count {
        let index = chance.pick(symbol.data_modules());
        matrix[index] ^= chance.between(1, colours - 1) as u8;
    }
}

/// Some columns or rows in one colour.
fn stripe(chance: &mut Chance, symbol: &Symbol, matrix: &mut [u8]) {
    let columns = symbol.sizes().columns;
    let colour = chance.below(symbol.params().colours as usize) as u8;
    let upright = chance.one_in(2);
    let side = if upright {
        columns
    } else {
        symbol.sizes().rows
    };
    let first = chance.below(side);
    let last = first + chance.below(3);
    for (index, module) in matrix.iter_mut().enumerate() {
        let line = if upright {
            index % columns
        } else {
            index / columns
        };
        if (first..=last).contains(&line) {
            *module = colour;
        }
    }
}

/// Modules of N or more, of which the first counts.
fn out_of_range(chance: &mut Chance, symbol: &Symbol, matrix: &mut [u8]) {
    let colours = symbol.params().colours as usize;
    for _ in 0..chance.between(1, 3) {
        let beyond = chance.between(colours, 255);
        let index = chance.below(matrix.len());
        matrix[index] = chance.pick(&[colours, beyond]) as u8;
    }
}

/// Any colours on the patterns and the reserved modules, which do not matter.
fn scatter_fixed(chance: &mut Chance, symbol: &Symbol, matrix: &mut [u8]) {
    let written = matrix.to_vec();
    let colours = symbol.params().colours as usize;
    matrix.copy_from_slice(&chance.bytes_below(colours, written.len()));
    for &index in symbol.data_modules() {
        matrix[index] = written[index];
    }
}
