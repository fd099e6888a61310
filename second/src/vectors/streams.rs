//! Undamaged matrices whose streams go through every mode and every ending.

use crate::case::{Book, Call, Lent};
use crate::symbols::Symbols;
use second::stream::{self, extended};
use second::Bits;

/// Codes as value and width.
type Codes = Vec<(u32, usize)>;

const PUNCTUATION_SHIFT: (u32, usize) = (27, 5);
const TO_LOWERCASE: (u32, usize) = (28, 5);
const UPPERCASE_SHIFT: (u32, usize) = (28, 5);
const TO_NUMERIC: (u32, usize) = (29, 5);
const TO_ALPHANUMERIC: (u32, usize) = (30, 5);
const NUMERIC_TO_UPPERCASE: (u32, usize) = (14, 4);

const BYTES: (u32, usize) = extended(31, 5, 0);
const MIXED: (u32, usize) = extended(31, 5, 1);
const ECI: (u32, usize) = extended(31, 5, 2);
const FNC1: (u32, usize) = extended(31, 5, 3);
const LOWERCASE_TO_UPPERCASE: (u32, usize) = extended(31, 5, 2);
const END_OF_MESSAGE: (u32, usize) = extended(31, 5, 3);
const NUMERIC_BYTES: (u32, usize) = extended(15, 4, 0);
const NUMERIC_MIXED: (u32, usize) = extended(15, 4, 1);
const NUMERIC_UPPERCASE_SHIFT: (u32, usize) = extended(15, 4, 2);
const NUMERIC_TO_LOWERCASE: (u32, usize) = extended(15, 4, 3);
const ALPHANUMERIC_BYTES: (u32, usize) = extended(63, 6, 0);
const ALPHANUMERIC_MIXED: (u32, usize) = extended(63, 6, 1);
const ALPHANUMERIC_PUNCTUATION: (u32, usize) = extended(63, 6, 2);
const ALPHANUMERIC_TO_UPPERCASE: (u32, usize) = extended(63, 6, 3);

fn bits(codes: &[(u32, usize)]) -> Bits {
    let mut bits = Bits::new();
    for &(value, width) in codes {
        bits.push_number(value, width);
    }
    bits
}

/// A matrix whose stream is any bits.
pub fn matrix(lent: &Lent, stream: &Bits) -> Vec<u8> {
    let symbol = lent.symbol();
    let net = stream::with_end_mark(stream, symbol.sizes().net);
    symbol.matrix_of_message_columns(&net)
}

fn read(book: &mut Book, about: &str, codes: &[(u32, usize)]) {
    read_into(book, about, codes, 400);
}

fn read_into(book: &mut Book, about: &str, codes: &[(u32, usize)], room: usize) {
    let stream = bits(codes);
    let lent = book.usual_for(&stream);
    let matrix = matrix(&lent, &stream);
    book.read_into(&format!("read: {about}"), &lent, matrix, room);
}

pub fn add(book: &mut Book) {
    columns(book);
    published(book);
    shifts(book);
    latches(book);
    byte_runs(book);
    ends(book);
    unfinished(book);
    undefined(book);
    refused(book);
    rooms(book);
}

fn each(values: std::ops::Range<u32>, width: usize) -> Codes {
    values.map(|value| (value, width)).collect()
}

fn shifted_each(switch: (u32, usize), values: std::ops::Range<u32>, width: usize) -> Codes {
    values.flat_map(|value| [switch, (value, width)]).collect()
}

fn columns(book: &mut Book) {
    read(book, "every uppercase character", &each(0..27, 5));
    let codes = [vec![TO_LOWERCASE], each(0..27, 5)].concat();
    read(book, "every lowercase character", &codes);
    let codes = [vec![TO_NUMERIC], each(0..13, 4)].concat();
    read(book, "every numeric character", &codes);
    let codes = shifted_each(PUNCTUATION_SHIFT, 0..16, 4);
    read(book, "every punctuation character", &codes);
    let codes = shifted_each(MIXED, 0..32, 5);
    read(book, "every mixed character", &codes);
    let codes = [vec![TO_ALPHANUMERIC], each(0..63, 6)].concat();
    read(book, "every alphanumeric character", &codes);
}

fn published(book: &mut Book) {
    for (about, last) in [
        ("Table 22 as printed", 5),
        ("Table 22 with the digit meant", 7),
    ] {
        let mut codes: Codes = [10, 1, 2, 0, 3, 28, 15, 4, 5, 29].map(|v| (v, 5)).to_vec();
        codes.extend([0, 3, 1, 2, last, 13, 0].map(|v| (v, 4)));
        read(book, about, &codes);
    }
}

fn shifts(book: &mut Book) {
    let codes = [
        &[TO_LOWERCASE, PUNCTUATION_SHIFT, (14, 4), (1, 5)][..],
        &[TO_NUMERIC, (13, 4), (15, 4), (1, 4), NUMERIC_TO_UPPERCASE],
        &[TO_ALPHANUMERIC, ALPHANUMERIC_PUNCTUATION, (0, 4), (62, 6)],
    ]
    .concat();
    let about = "shifts to punctuation from the other modes, each returns";
    read(book, about, &codes);
    let codes = [
        &[TO_LOWERCASE, MIXED, (23, 5), (2, 5), MIXED, (19, 5)][..],
        &[
            TO_NUMERIC,
            NUMERIC_MIXED,
            (31, 5),
            (3, 4),
            NUMERIC_TO_UPPERCASE,
        ],
        &[TO_ALPHANUMERIC, ALPHANUMERIC_MIXED, (0, 5), (40, 6)],
    ]
    .concat();
    let about = "shifts to mixed from the other modes, each returns";
    read(book, about, &codes);
    let mut codes = vec![TO_LOWERCASE];
    codes.extend(shifted_each(UPPERCASE_SHIFT, 0..27, 5));
    codes.push((26, 5));
    let about = "lowercase shifts to every uppercase character";
    read(book, about, &codes);
    let mut codes = vec![TO_NUMERIC];
    codes.extend(shifted_each(NUMERIC_UPPERCASE_SHIFT, 0..27, 5));
    codes.push((11, 4));
    let about = "numeric shifts to every uppercase character";
    read(book, about, &codes);
    bytes_from_every_mode(book);
}

fn bytes_from_every_mode(book: &mut Book) {
    let run = [(2, 4), (0, 8), (255, 8)];
    let codes = [
        &[BYTES][..],
        &run,
        &[(8, 5), TO_LOWERCASE, BYTES],
        &run,
        &[(8, 5), TO_NUMERIC, NUMERIC_BYTES],
        &run,
        &[(8, 4), NUMERIC_TO_UPPERCASE, TO_ALPHANUMERIC],
        &[ALPHANUMERIC_BYTES],
        &run,
        &[(8, 6)],
    ]
    .concat();
    read(book, "byte runs from every mode, each returns", &codes);
}

fn latches(book: &mut Book) {
    let tour = [
        (1, 5),
        TO_LOWERCASE,
        (1, 5),
        LOWERCASE_TO_UPPERCASE,
        (2, 5),
        TO_NUMERIC,
        (3, 4),
        NUMERIC_TO_UPPERCASE,
        (3, 5),
        TO_ALPHANUMERIC,
        (4, 6),
        ALPHANUMERIC_TO_UPPERCASE,
        (5, 5),
        TO_NUMERIC,
        NUMERIC_TO_LOWERCASE,
        (6, 5),
        TO_NUMERIC,
        (7, 4),
        NUMERIC_TO_LOWERCASE,
        (8, 5),
        TO_ALPHANUMERIC,
        (9, 6),
    ];
    read(book, "a tour of every latch", &tour);
    read(book, "ends behind a latch to lowercase", &[TO_LOWERCASE]);
    let codes = [TO_LOWERCASE, (1, 5), TO_ALPHANUMERIC];
    read(book, "ends behind a latch to alphanumeric", &codes);
}

fn run(count: &[(u32, usize)], bytes: u32) -> Codes {
    let mut codes = [&[BYTES], count].concat();
    codes.extend((0..bytes).map(|byte| (byte * 37 % 256, 8)));
    codes
}

fn byte_runs(book: &mut Book) {
    read(book, "a run of one byte", &run(&[(1, 4)], 1));
    let about = "a run of 15 bytes by the short count";
    read(book, about, &run(&[(15, 4)], 15));
    let about = "a run of 15 bytes by the long count";
    read(book, about, &run(&[(0, 4), (0, 13)], 15));
    let about = "a run of 16 bytes by the long count";
    read(book, about, &run(&[(0, 4), (1, 13)], 16));
    let about = "a run of 50 bytes";
    read(book, about, &run(&[(0, 4), (35, 13)], 50));
    let codes = [run(&[(3, 4)], 3), run(&[(0, 4), (4, 13)], 19)].concat();
    read(book, "two runs, one behind the other", &codes);
}

fn ends(book: &mut Book) {
    read(book, "the empty stream", &[]);
    let about = "139 characters: a stream as long as net bits allow";
    let codes: Codes = (0..139).map(|i| (i % 27, 5)).collect();
    read(book, about, &codes);
    read(book, "spaces only, all bits 0", &[(0, 5); 9]);
    read(book, "P last, its bits end in 0", &[(26, 5), (16, 5)]);
    let codes = [TO_LOWERCASE, END_OF_MESSAGE];
    read(book, "end of message at once", &codes);
    let codes = [TO_LOWERCASE, (1, 5), END_OF_MESSAGE, (2, 5), (3, 5)];
    read(book, "end of message with characters behind", &codes);
    let codes = [TO_LOWERCASE, (1, 5), END_OF_MESSAGE, (7, 3)];
    read(book, "end of message with a broken code behind", &codes);
    let codes = [TO_LOWERCASE, (1, 5), END_OF_MESSAGE, ECI, (31, 5)];
    read(book, "end of message with other bits behind", &codes);
}

fn unfinished(book: &mut Book) {
    let cases: [(&str, Codes); 14] = [
        ("one bit", vec![(1, 1)]),
        ("four bits of an uppercase code", vec![(1, 5), (0, 4)]),
        (
            "three bits of a numeric code",
            vec![TO_NUMERIC, (1, 4), (7, 3)],
        ),
        (
            "five bits of an alphanumeric code",
            vec![TO_ALPHANUMERIC, (31, 5)],
        ),
        ("no bits appended to a switch", vec![(1, 5), (31, 5)]),
        ("one bit appended to a switch", vec![(1, 5), (63, 6)]),
        (
            "one bit appended to an alphanumeric switch",
            vec![TO_ALPHANUMERIC, (126, 7)],
        ),
        ("nothing after a punctuation shift", vec![PUNCTUATION_SHIFT]),
        ("nothing after a mixed shift", vec![(3, 5), MIXED]),
        (
            "four bits after an uppercase shift",
            vec![TO_LOWERCASE, UPPERCASE_SHIFT, (0, 4)],
        ),
        ("nothing after a byte shift", vec![BYTES]),
        (
            "twelve bits of a long count",
            vec![BYTES, (0, 4), (4_095, 12)],
        ),
        ("a byte short of its last bit", vec![BYTES, (1, 4), (99, 7)]),
        ("the last byte of 15 missing", run(&[(15, 4)], 14)),
    ];
    for (about, codes) in cases {
        read(book, &format!("the stream ends, {about}"), &codes);
    }
    let codes = run(&[(0, 4), (8_191, 13)], 40);
    read(book, "a count of 8,206 bytes and only 40 of them", &codes);
}

fn undefined(book: &mut Book) {
    for value in 27..32 {
        let codes = [TO_LOWERCASE, UPPERCASE_SHIFT, (value, 5), (1, 5), (1, 5)];
        let about = format!("uppercase {value} after a shift from lowercase");
        read(book, &about, &codes);
    }
    let codes = [TO_NUMERIC, NUMERIC_UPPERCASE_SHIFT, (27, 5), (8, 4)];
    read(book, "uppercase 27 after a shift from numeric", &codes);
    let codes = [TO_LOWERCASE, UPPERCASE_SHIFT, ECI, (1, 5)];
    read(book, "the bits of ECI after an uppercase shift", &codes);
}

fn refused(book: &mut Book) {
    read(book, "ECI first of all, with its number", &[ECI, (17, 8)]);
    read(book, "ECI with nothing behind", &[(5, 5), ECI]);
    read(book, "FNC1 first of all", &[FNC1, (5, 5)]);
    let codes = [TO_NUMERIC, (5, 4), NUMERIC_TO_UPPERCASE, FNC1];
    read(book, "FNC1 last of all", &codes);
    let codes = [ECI, TO_LOWERCASE, UPPERCASE_SHIFT, (30, 5)];
    read(book, "ECI before an undefined code", &codes);
    let codes = [
        TO_LOWERCASE,
        UPPERCASE_SHIFT,
        (30, 5),
        LOWERCASE_TO_UPPERCASE,
        FNC1,
    ];
    read(book, "an undefined code before FNC1", &codes);
}

fn rooms(book: &mut Book) {
    let ten = each(1..11, 5);
    read_into(book, "ten bytes into a buffer of ten", &ten, 10);
    read_into(book, "ten bytes into a buffer of nine", &ten, 9);
    read_into(book, "ten bytes into no buffer", &ten, 0);
    read_into(book, "an empty message into no buffer", &[], 0);
    let euro = [(1, 5), MIXED, (23, 5)];
    read_into(book, "a euro sign that fits its buffer", &euro, 4);
    read_into(book, "a euro sign a byte too long", &euro, 3);
    let about = "a run of 20 bytes into a buffer of 19";
    read_into(book, about, &run(&[(0, 4), (5, 13)], 20), 19);
    let codes = [&ten[..], &[(1, 3)]].concat();
    let about = "a broken code behind an overfull buffer";
    read_into(book, about, &codes, 4);
    let codes = [&ten[..], &[FNC1]].concat();
    read_into(book, "FNC1 behind an overfull buffer", &codes, 4);
    let codes = [&[TO_LOWERCASE][..], &ten, &[END_OF_MESSAGE, (0, 9)]].concat();
    read_into(book, "end of message in an overfull buffer", &codes, 4);
    let lent = book.chance.with_capacity(942);
    let matrix = matrix(&lent, &bits(&ten));
    let about = "read: more work bytes, room and places than needed";
    book.call(about, &lent, 53_964, Call::Read(1_024, 1_024, matrix));
}
