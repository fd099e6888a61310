//! Wrong stuffing bits, which refuse nothing: every count of them beside every
//! answer of a read that passes test 7. In other reads they are not counted.

use crate::case::{Book, Call, Lent};
use crate::damage::{message_word, search, spare_word, stream_word};
use crate::symbols::Symbols;
use second::{Bits, Symbol};

/// What a read that passes test 7 can answer.
const ANSWERS: [u32; 7] = [0, 9, 10, 11, 12, 13, 14];

/// Kind, colours and data modules of symbols with short lists and 1 to 8
/// stuffing bits. With 8 colours C is a multiple of 3, which leaves 3 or 6.
const SHAPES: [(u32, u32, usize); 13] = [
    (1, 4, 410),
    (0, 4, 370),
    (1, 4, 411),
    (0, 8, 349),
    (0, 4, 371),
    (1, 4, 412),
    (0, 8, 347),
    (1, 8, 347),
    (0, 4, 372),
    (1, 4, 413),
    (0, 4, 368),
    (0, 4, 373),
    (1, 4, 409),
];

/// Codes that 4.3 doesn't define or that do not end.
const BROKEN: [&str; 4] = ["1", "11111", "11111 00", "11100 11100 11011"];
const ECI_AND_FNC1: [&str; 2] = ["11111 10", "11111 11"];

pub fn add(book: &mut Book) {
    for (row, &number) in ANSWERS.iter().enumerate() {
        for wrong in 1..=8 {
            beside_answer(book, number, wrong, (row + wrong) % 2 == 0);
        }
    }
    small_symbols(book);
    at_the_border(book);
    not_counted(book);
}

pub fn stuffing_of(symbol: &Symbol) -> usize {
    symbol.lengths().capacity - symbol.lengths().gross
}

/// A symbol with so many stuffing bits or more.
fn symbol_with(book: &mut Book, least: usize) -> Lent {
    loop {
        let (kind, colours, data_modules) = book.chance.pick(&SHAPES);
        let params = book.chance.params(kind, (1, 1), colours);
        let lent = book.chance.lent(params, data_modules);
        if stuffing_of(&lent.symbol()) >= least {
            return lent;
        }
    }
}

/// The matrix of a word, with so many of the stuffing bits turned, any of them.
pub fn matrix_with(book: &mut Book, symbol: &Symbol, word: &Bits, wrong: usize) -> Vec<u8> {
    let lengths = symbol.lengths();
    let mut places: Vec<usize> = (lengths.gross..lengths.capacity).collect();
    book.chance.shuffle(&mut places);
    let mut sequence = symbol.stuffed(word);
    for &place in &places[..wrong] {
        sequence.flip(place);
    }
    symbol.matrix_of_sequence(&sequence)
}

/// A codeword that is answered with a number, undamaged or mended; for 9 that
/// of any message, since no codeword is.
fn codeword(book: &mut Book, symbol: &Symbol, number: u32) -> Bits {
    let length = book.chance.between(4, 40);
    let mut stream = Bits::new();
    for _ in 0..length {
        stream.push_number(book.chance.between(1, 26) as u32, 5);
    }
    match number {
        10 => spare_word(symbol, &stream),
        11 => Bits::zeros(symbol.lengths().gross),
        12 => {
            stream.push_text(book.chance.pick(&BROKEN));
            stream_word(symbol, &stream)
        }
        13 => {
            stream.push_text(book.chance.pick(&ECI_AND_FNC1));
            stream_word(symbol, &stream)
        }
        14 => stream_word(symbol, &stream),
        _ => message_word(symbol, &book.chance.bytes(length)),
    }
}

/// Reads a word with a number as its answer, with repairs or none, and so many
/// wrong stuffing bits.
fn beside_answer(book: &mut Book, number: u32, wrong: usize, repaired: bool) {
    let lent = symbol_with(book, wrong);
    let symbol = lent.symbol();
    let word = codeword(book, &symbol, number);
    let turned = match (number, repaired) {
        // two bits that share two checks
        (9, false) => 2,
        (9, true) => 12,
        (_, false) => 0,
        (_, true) => book.chance.between(2, 4),
    };
    let received = search(book, &symbol, &word, turned, |mending, last| {
        let ends = mending.stuck || *last == word;
        ends && mending.stuck == (number == 9) && mending.turned.is_empty() != repaired
    });
    let matrix = matrix_with(book, &symbol, &received, wrong);
    let all = stuffing_of(&symbol);
    let repairs = if repaired {
        "after repairs"
    } else {
        "no repair"
    };
    let about = format!("read: {wrong} of {all} stuffing bits wrong, answer {number}, {repairs}");
    // every message has four bytes or more
    let room = if number == 14 {
        book.chance.below(4)
    } else {
        200
    };
    book.read_into(&about, &lent, matrix, room);
}

/// Symbols of one or two rows in a block of A, all their stuffing bits wrong.
fn small_symbols(book: &mut Book) {
    for capacity in [10, 12, 16, 26] {
        let lent = book.chance.with_capacity(capacity);
        let symbol = lent.symbol();
        let all = stuffing_of(&symbol);
        let word = message_word(&symbol, b"");
        let matrix = matrix_with(book, &symbol, &word, all);
        let about = format!("read: {all} of {all} stuffing bits wrong, C {capacity}, no message");
        book.read(&about, &lent, matrix);
    }
}

/// The last bit of a word and the first behind it; and a symbol in which no bit
/// is behind it.
fn at_the_border(book: &mut Book) {
    for (about, word_bit, stuffing_bit) in [
        ("the last bit of the word turned", true, false),
        ("the first stuffing bit turned", false, true),
        ("both bits at the word's end turned", true, true),
    ] {
        let lent = book.chance.with_capacity(746);
        let symbol = lent.symbol();
        let gross = symbol.lengths().gross;
        let mut sequence = symbol.stuffed(&message_word(&symbol, b"the word's end"));
        if word_bit {
            sequence.flip(gross - 1);
        }
        if stuffing_bit {
            sequence.flip(gross);
        }
        let matrix = symbol.matrix_of_sequence(&sequence);
        book.read(&format!("read: {about}, C 746"), &lent, matrix);
    }
    let lent = book.chance.with_capacity(738);
    let symbol = lent.symbol();
    let matrix = symbol.matrix_of_word(&message_word(&symbol, b"no stuffing"));
    book.read("read: C 738, which has no stuffing bit", &lent, matrix);
}

/// Reads refused with 1 to 7, in which all stuffing bits are wrong.
fn not_counted(book: &mut Book) {
    let params = book.chance.params(0, (1, 1), 4);
    let lent = book.chance.lent(params, 364);
    let symbol = lent.symbol();
    let word = message_word(&symbol, b"not counted");
    let right = symbol.matrix_of_word(&word);
    let wrong = matrix_with(book, &symbol, &word, stuffing_of(&symbol));
    let turned = right.iter().zip(&wrong).position(|(one, two)| one != two);
    let cases = [
        ("the first module", Some(0)),
        ("the last module", Some(right.len() - 1)),
        ("the module of a stuffing bit", turned),
    ];
    for (about, index) in cases {
        let mut matrix = wrong.clone();
        matrix[index.expect("a turned bit")] = 4;
        let about = format!("read refused 7: {about} is N, 8 stuffing bits wrong");
        book.read(&about, &lent, matrix);
    }
    let (short, long) = (wrong[..440].to_vec(), [&wrong[..], &[0]].concat());
    let about = "read refused 4: a module too few, 8 stuffing bits wrong";
    book.read(about, &lent, short);
    let about = "read refused 4: a module too many, 8 stuffing bits wrong";
    book.read(about, &lent, long);
    let about = "read refused 5: a work byte too few, 8 stuffing bits wrong";
    let call = Call::Read(200, lent.checks(), wrong.clone());
    book.call(about, &lent, lent.work() - 1, call);
    let (mut longer, mut masked) = (lent.clone(), lent.clone());
    longer.list.push(1);
    let about = "read refused 2: a number too many in the list, 8 stuffing bits wrong";
    let call = Call::Read(200, lent.checks(), wrong.clone());
    book.call(about, &longer, lent.work(), call);
    masked.params.mask = 8;
    let about = "read refused 1: mask 8, 8 stuffing bits wrong";
    let call = Call::Read(200, lent.checks(), wrong);
    book.call(about, &masked, lent.work(), call);
}
