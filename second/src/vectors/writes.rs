//! Messages written: every mask, shape and length, and those that do not fit.

use crate::case::{Book, Lent};
use crate::symbols::Symbols;
use second::generator::{interleaving, Generator, INTERLEAVING_SEED};
use second::geometry::Layout;
use second::{stream, Bits, Params, Symbol};

pub fn add(book: &mut Book) {
    masks(book);
    lengths(book);
    exact_fits(book);
    beside_patterns(book);
    rectangles(book);
    alignment_patterns(book);
    rounding(book);
}

fn masks(book: &mut Book) {
    for mask in 0..8 {
        for colours in [4, 8] {
            let kind = (mask + colours / 4) % 2;
            let params = Params {
                mask,
                ..book.chance.params(kind, (1, 1), colours)
            };
            let lent = book.chance.lent(params, 338);
            let message = book.chance.bytes(20);
            let about = format!("write: mask {mask}, {colours} colours, kind {kind}");
            book.write(&about, &lent, &message);
        }
    }
}

/// The bytes of the longest message that fits.
fn longest(lent: &Lent) -> usize {
    stream::longest(lent.symbol().sizes().net)
}

fn lengths(book: &mut Book) {
    for bytes in [0, 1, 15, 16, 17] {
        let lent = book.chance.usual();
        let message = book.chance.bytes(bytes);
        book.write(
            &format!("write: a message of length {bytes}"),
            &lent,
            &message,
        );
    }
    for (kind, colours, data_modules) in [(0, 4, 373), (0, 8, 349), (1, 4, 413)] {
        let params = book.chance.params(kind, (1, 1), colours);
        let lent = book.chance.lent(params, data_modules);
        let most = longest(&lent);
        let message = book.chance.bytes(most + 1);
        let about = format!("write: {most} bytes, the most that fit");
        book.write(&about, &lent, &message[..most]);
        book.write("write: one byte more than fits", &lent, &message);
    }
    let lent = book.chance.usual();
    let message = book.chance.bytes(1_024);
    book.write("write: a message far too long", &lent, &message);
    let lent = book.chance.usual();
    book.write("write: bytes of 0 only", &lent, &[0; 30]);
    book.write("write: bytes of 255 only", &lent, &[255; 30]);
}

/// Capacities whose net bits hold a run and the end mark with nothing left.
fn exact_fits(book: &mut Book) {
    for (capacity, bytes) in [(54, 3), (198, 15)] {
        let lent = book.chance.with_capacity(capacity);
        let message = book.chance.bytes(bytes + 1);
        let about = format!("write: C {capacity}, {bytes} bytes and the end mark fit exactly");
        book.write(&about, &lent, &message[..bytes]);
        book.write("write: one byte more than that", &lent, &message);
    }
    for capacity in [9, 10] {
        let lent = book.chance.with_capacity(capacity);
        let about = format!("write: C {capacity}, the empty message");
        book.write(&about, &lent, b"");
    }
    let lent = book.chance.with_capacity(9);
    book.write("write: C 9, one byte does not fit", &lent, b"A");
}

/// Reserves what the two squares of each corner pattern leave free around it.
fn beside_patterns(book: &mut Book) {
    for (kind, reach) in [(0, 2), (1, 1)] {
        let params = book.chance.params(kind, (1, 1), 4);
        let layout = Layout::with_patterns(&params);
        let mut list = Vec::new();
        for (column, row) in [(4, 4), (18, 4), (18, 18), (4, 18)] {
            for x in column - reach..=column + reach {
                for y in row - reach..=row + reach {
                    let free = layout.index(x, y).map(|index| layout.fixed(index));
                    if free == Some(None) {
                        list.extend([x as u16, y as u16, 1]);
                    }
                }
            }
        }
        let lent = Lent { params, list };
        let about = format!("write: all modules between the squares reserved, kind {kind}");
        book.write(&about, &lent, b"between the squares");
    }
}

fn rectangles(book: &mut Book) {
    let shapes = [
        (0, (2, 1), 4, 420),
        (0, (1, 2), 8, 340),
        (1, (3, 1), 4, 523),
        (1, (1, 3), 8, 349),
        (0, (2, 2), 4, 512),
        (1, (2, 2), 8, 301),
    ];
    for (kind, sides, colours, data_modules) in shapes {
        shape(book, kind, sides, colours, data_modules);
    }
}

fn alignment_patterns(book: &mut Book) {
    let shapes = [
        (0, (6, 1), 4, 523),
        (0, (1, 6), 8, 349),
        (1, (6, 1), 8, 300),
        (0, (10, 1), 4, 520),
        (1, (1, 10), 4, 523),
        (1, (6, 2), 4, 523),
    ];
    for (kind, sides, colours, data_modules) in shapes {
        shape(book, kind, sides, colours, data_modules);
    }
}

/// Writes a symbol, with both turns where there are inner patterns, and reads
/// the last back with two modules damaged.
fn shape(book: &mut Book, kind: u32, sides: (u32, u32), colours: u32, data_modules: usize) {
    let (across, down) = sides;
    let params = book.chance.params(kind, sides, colours);
    let mut lent = book.chance.lent(params, data_modules);
    let inner = across > 5 || down > 5;
    let message = book.chance.bytes(25);
    let words = format!("side-versions {across} and {down}, kind {kind}, {colours} colours");
    for turn in if inner { 0..2 } else { 0..1 } {
        // The free modules differ between the turns, and so must the list.
        if inner {
            lent = book.chance.lent(Params { turn, ..params }, data_modules);
        }
        let about = format!("write: {words}, turn {}", lent.params.turn);
        book.write(&about, &lent, &message);
    }
    let symbol = lent.symbol();
    let mut matrix = crate::damage::message_matrix(&symbol, &message);
    for _ in 0..2 {
        let chosen = book.chance.below(data_modules);
        matrix[symbol.data_modules()[chosen]] ^= 1;
    }
    let about = format!("read: {words}, two modules damaged");
    book.read(&about, &lent, matrix);
}

/// Whether bits are interleaved in another way where no place is rounded.
fn shows_rounding(sequence: &Bits) -> bool {
    let unrounded = |draw, left| ((u128::from(draw) * left as u128) >> 32) as usize;
    let mut sources: Vec<usize> = (0..sequence.len()).collect();
    Generator::new(INTERLEAVING_SEED).shuffle_by(&mut sources, unrounded);
    let rounded = interleaving(sequence.len());
    let mut places = rounded.into_iter().zip(sources);
    places.any(|(one, other)| sequence.get(one) != sequence.get(other))
}

/// A message, as long as fits, with which rounding shows in a symbol.
fn showing_message(book: &mut Book, symbol: &Symbol) -> Vec<u8> {
    for _ in 0..1_000 {
        let message = book.chance.bytes(stream::longest(symbol.sizes().net));
        if shows_rounding(&symbol.stuffed(&crate::damage::message_word(symbol, &message))) {
            return message;
        }
    }
    panic!("rounding does not show");
}

/// Capacities where a place drawn in single precision is not the exact one.
fn rounding(book: &mut Book) {
    for (colours, sides, data_modules) in [(8, (1, 1), 161), (8, (1, 1), 314), (4, (2, 2), 512)] {
        let params = book.chance.params(0, sides, colours);
        let lent = book.chance.lent(params, data_modules);
        let capacity = lent.symbol().sizes().capacity;
        let message = showing_message(book, &lent.symbol());
        let about = format!("write: C {capacity}, where rounding moves a place");
        book.write(&about, &lent, &message);
        let matrix = crate::damage::message_matrix(&lent.symbol(), &message);
        book.read(&format!("read: C {capacity} again"), &lent, matrix);
    }
}
