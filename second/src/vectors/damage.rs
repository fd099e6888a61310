//! Matrices that were damaged: modules out of range, wrong stuffing, words that
//! mend, stick or mend into another word, and words no writer makes.

use crate::case::{Book, Lent};
use crate::symbols::Symbols;
use second::mending::{mend, Mending};
use second::{stream, Bits, Symbol};

pub fn message_matrix(symbol: &Symbol, message: &[u8]) -> Vec<u8> {
    symbol.matrix_of_word(&message_word(symbol, message))
}

pub fn message_word(symbol: &Symbol, message: &[u8]) -> Bits {
    stream_word(symbol, &stream::write(message))
}

pub fn stream_word(symbol: &Symbol, stream: &Bits) -> Bits {
    let net = stream::with_end_mark(stream, symbol.sizes().net);
    symbol.systematic().codeword(&net)
}

pub fn add(book: &mut Book) {
    modules_out_of_range(book);
    fixed_modules(book);
    stuffing(book);
    single_bits(book);
    several_bits(book);
    noise(book);
    turned_again(book);
    other_words(book);
    spare_columns(book);
    zero_words(book);
    mended_refusals(book);
}

fn modules_out_of_range(book: &mut Book) {
    let cases: [(&str, &[(usize, u8)]); 5] = [
        ("the first module is N", &[(0, 0)]),
        ("the last module is N", &[(440, 0)]),
        ("a pattern module is N", &[(66, 0)]),
        ("a module is 255", &[(200, 250)]),
        ("two modules, the first counts", &[(300, 1), (77, 2)]),
    ];
    for (about, faults) in cases {
        let lent = book.chance.usual();
        let mut matrix = message_matrix(&lent.symbol(), b"out of range");
        if faults.len() > 1 {
            // A stuck word must not come first, nor wrong stuffing be counted.
            matrix.iter_mut().for_each(|module| *module ^= 1);
        }
        for &(index, above) in faults {
            matrix[index] = (lent.params.colours as u8).saturating_add(above);
        }
        book.read(&format!("read refused 7: {about}"), &lent, matrix);
    }
    let params = book.chance.params(0, (1, 1), 8);
    let lent = book.chance.lent(params, 349);
    let mut matrix = message_matrix(&lent.symbol(), b"reserved");
    let index = (usize::from(lent.list[1]) - 1) * 21 + usize::from(lent.list[0]) - 1;
    matrix[index] = 8;
    book.read("read refused 7: a reserved module is N", &lent, matrix);
}

/// Pattern and reserved modules are not compared.
fn fixed_modules(book: &mut Book) {
    let lent = book.chance.usual();
    let symbol = lent.symbol();
    let written = message_matrix(&symbol, b"patterns gone");
    let mut matrix = vec![lent.params.colours as u8 - 1; written.len()];
    for &index in symbol.data_modules() {
        matrix[index] = written[index];
    }
    let about = "read: every pattern and reserved module of one colour";
    book.read(about, &lent, matrix);
}

fn stuffing(book: &mut Book) {
    for (capacity, wrong) in [(1_047, 0), (1_047, 2), (746, 1)] {
        let lent = book.chance.with_capacity(capacity);
        let symbol = lent.symbol();
        let mut sequence = symbol.stuffed(&message_word(&symbol, b"stuffing"));
        sequence.flip(symbol.lengths().gross + wrong);
        let matrix = symbol.matrix_of_sequence(&sequence);
        let about = format!("read: C {capacity}, stuffing bit {wrong} turned");
        book.read(&about, &lent, matrix);
    }
    let lent = book.chance.with_capacity(742);
    let symbol = lent.symbol();
    let mut sequence = book.chance.bits(742);
    sequence.set(symbol.lengths().gross, true);
    let matrix = symbol.matrix_of_sequence(&sequence);
    book.read("read: noise, also in the stuffing", &lent, matrix);
}

/// Turns bits of a word until the mending is as wanted.
pub fn search(
    book: &mut Book,
    symbol: &Symbol,
    word: &Bits,
    turned: usize,
    wanted: impl Fn(&Mending, &Bits) -> bool,
) -> Bits {
    let checks = symbol.check_matrix();
    for _ in 0..200_000 {
        let mut received = word.clone();
        for _ in 0..turned {
            received.flip(book.chance.below(word.len()));
        }
        let mut last = received.clone();
        let mending = mend(checks.rows(), &mut last);
        if wanted(&mending, &last) {
            return received;
        }
    }
    panic!("no such damage with {turned} bits turned");
}

/// Reads a message damaged in so many bits that the mending is as wanted.
fn damaged(
    book: &mut Book,
    about: &str,
    lent: &Lent,
    turned: usize,
    wanted: impl Fn(&Mending) -> bool,
) {
    let symbol = lent.symbol();
    let word = message_word(&symbol, b"mend");
    let received = search(book, &symbol, &word, turned, |mending, last| {
        wanted(mending) && (mending.stuck || *last == word)
    });
    let matrix = symbol.matrix_of_word(&received);
    book.read(&format!("read: {about}"), lent, matrix);
}

fn single_bits(book: &mut Book) {
    for _ in 0..2 {
        let lent = book.chance.usual();
        damaged(book, "one bit turned, mended", &lent, 1, |m| !m.stuck);
    }
    for _ in 0..2 {
        let lent = book.chance.usual();
        damaged(book, "one bit turned, stuck", &lent, 1, |m| m.stuck);
    }
    let lent = book.chance.usual();
    let symbol = lent.symbol();
    for (about, place) in [("first", 0), ("last", symbol.lengths().gross - 1)] {
        let mut word = message_word(&symbol, b"ends of the word");
        word.flip(place);
        let matrix = symbol.matrix_of_word(&word);
        book.read(&format!("read: the {about} bit turned"), &lent, matrix);
    }
}

fn several_bits(book: &mut Book) {
    for turned in [2, 3, 5, 9, 14] {
        let lent = book.chance.usual();
        let about = format!("{turned} bits turned, mended");
        damaged(book, &about, &lent, turned, |m| !m.stuck);
    }
    for turned in [4, 20, 60] {
        let lent = book.chance.usual();
        let about = format!("{turned} bits turned, stuck");
        damaged(book, &about, &lent, turned, |m| m.stuck);
    }
    let lent = book.chance.with_capacity(72);
    damaged(book, "stuck without a repair", &lent, 4, |m| {
        m.stuck && m.turned.is_empty()
    });
    for modules in [2, 4] {
        let lent = book.chance.usual();
        let symbol = lent.symbol();
        let mut matrix = message_matrix(&symbol, b"smudged");
        for _ in 0..modules {
            let chosen = book.chance.below(symbol.data_modules().len());
            matrix[symbol.data_modules()[chosen]] ^= 3;
        }
        book.read(&format!("read: {modules} modules smudged"), &lent, matrix);
    }
}

/// Words of noise, in symbols without stuffing bits.
fn noise(book: &mut Book) {
    for capacity in [1_044, 90] {
        let lent = book.chance.with_capacity(capacity);
        let symbol = lent.symbol();
        let word = book.chance.bits(symbol.lengths().gross);
        let matrix = symbol.matrix_of_word(&word);
        book.read(&format!("read: noise, C {capacity}"), &lent, matrix);
    }
}

/// The most times any bit was turned.
pub fn most_turns(mending: &Mending) -> usize {
    let count = |bit: &usize| mending.turned.iter().filter(|&other| other == bit).count();
    mending.turned.iter().map(count).max().unwrap_or(0)
}

fn turned_again(book: &mut Book) {
    for turned in [8, 14] {
        let lent = book.chance.usual();
        damaged(
            book,
            "mended, a bit turned more than once",
            &lent,
            turned,
            |m| !m.stuck && most_turns(m) > 1,
        );
    }
    let lent = book.chance.usual();
    damaged(book, "stuck, a bit turned three times", &lent, 50, |m| {
        m.stuck && most_turns(m) > 2
    });
    let lent = book.chance.with_capacity(108);
    damaged(
        book,
        "mended, a bit turned more than once, C 108",
        &lent,
        4,
        |m| !m.stuck && most_turns(m) > 1,
    );
}

/// The answer to a received word of a symbol.
pub fn answer(lent: &Lent, received: &Bits) -> u32 {
    let symbol = lent.symbol();
    let matrix = symbol.matrix_of_word(received);
    let (mut work, mut places) = (vec![0; lent.work()], vec![0; lent.checks()]);
    let Lent { params, list } = lent;
    let answer = second::read(params, list, &matrix, &mut work, &mut [0; 200], &mut places);
    answer.number
}

/// Damage that mends into a codeword other than the one written.
fn other_words(book: &mut Book) {
    for (number, capacity, turned) in [
        (0, 45, 3),
        (0, 90, 4),
        (10, 108, 5),
        (11, 18, 3),
        (12, 54, 3),
        (13, 54, 3),
    ] {
        let lent = book.chance.with_capacity(capacity);
        let symbol = lent.symbol();
        let word = message_word(&symbol, if capacity < 54 { b"" } else { b"no" });
        let received = search(book, &symbol, &word, turned, |mending, last| {
            !mending.stuck && *last != word && answer(&lent, last) == number
        });
        let matrix = symbol.matrix_of_word(&received);
        let about = format!("read: mends into another word, C {capacity}, answer {number}");
        book.read(&about, &lent, matrix);
    }
}

fn spare_columns(book: &mut Book) {
    for (about, last, stream) in [
        ("the first spare column set", false, "00001"),
        ("the last spare column set", true, "00001"),
        ("a spare column set and an undefined stream", false, "1"),
        ("a spare column set and ECI", true, "1111110"),
    ] {
        let lent = book.chance.usual();
        let symbol = lent.symbol();
        let systematic = symbol.systematic();
        let mut text = Bits::new();
        text.push_text(stream);
        let mut columns = stream::with_end_mark(&text, symbol.sizes().net);
        let spare = systematic.message_columns().len() - columns.len();
        columns.append(&Bits::zeros(spare));
        let place = if last {
            columns.len() - 1
        } else {
            symbol.sizes().net
        };
        columns.flip(place);
        let matrix = symbol.matrix_of_message_columns(&columns);
        book.read(&format!("read refused 10: {about}"), &lent, matrix);
    }
    let lent = book.chance.usual();
    let symbol = lent.symbol();
    let mut columns = Bits::zeros(symbol.sizes().net + 1);
    columns.flip(symbol.sizes().net);
    let matrix = symbol.matrix_of_message_columns(&columns);
    let about = "read refused 10: a spare column set and all net bits 0";
    book.read(about, &lent, matrix);
}

fn zero_words(book: &mut Book) {
    for capacity in [1_047, 676, 9] {
        let lent = book.chance.with_capacity(capacity);
        let symbol = lent.symbol();
        let matrix = symbol.matrix_of_word(&Bits::zeros(symbol.lengths().gross));
        let about = format!("read refused 11: all net bits 0, C {capacity}");
        book.read(&about, &lent, matrix);
    }
    let lent = book.chance.with_capacity(1_047);
    let symbol = lent.symbol();
    let mut columns = Bits::zeros(symbol.sizes().net);
    columns.set(symbol.sizes().net - 1, true);
    let matrix = symbol.matrix_of_message_columns(&columns);
    let about = "read: zeros, the last net bit the end mark";
    book.read(about, &lent, matrix);
}

/// Words that are refused 10 to 14 once they are mended.
fn mended_refusals(book: &mut Book) {
    for (number, stream, room) in [
        (10, "00001", 200),
        (11, "", 200),
        (12, "11111", 200),
        (13, "00001 11111 11", 200),
        (14, "00001 00010 00011", 2),
    ] {
        let lent = book.chance.usual();
        let symbol = lent.symbol();
        let mut text = Bits::new();
        text.push_text(stream);
        let word = match number {
            10 => spare_word(&symbol, &text),
            11 => Bits::zeros(symbol.lengths().gross),
            _ => stream_word(&symbol, &text),
        };
        let received = search(book, &symbol, &word, 4, |mending, last| {
            !mending.stuck && *last == word
        });
        let matrix = symbol.matrix_of_word(&received);
        let about = format!("read: answer {number} after several repairs");
        book.read_into(&about, &lent, matrix, room);
    }
}

/// The codeword of a stream with the first spare column set.
pub fn spare_word(symbol: &Symbol, stream: &Bits) -> Bits {
    let mut columns = stream::with_end_mark(stream, symbol.sizes().net);
    columns.push(true);
    symbol.systematic().codeword(&columns)
}
