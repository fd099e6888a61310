//! The places of the bits turned: stored only in reads that end with 0, into
//! slices that hold them; and 16, where a slice does not. Every read refused
//! with 16 is also there with a slice that is long enough.

use crate::case::{Book, Call, Lent};
use crate::damage::{answer, message_word, most_turns, search, spare_word, stream_word};
use crate::stuffing::{matrix_with, stuffing_of};
use crate::symbols::Symbols;
use second::mending::{mend, Mending};
use second::Bits;

/// Kind and data modules of 4-colour symbols with short lists and a stuffing bit
/// or more.
const SHAPES: [(u32, usize); 4] = [(0, 373), (0, 370), (1, 413), (0, 365)];

/// Room for every message here.
const ROOM: usize = 100;

pub fn add(book: &mut Book) {
    one_repair(book);
    several_repairs(book);
    turned_again(book);
    lengths_of_slice(book);
    least_symbol(book);
    wrong_stuffing(book);
    later_refusals(book);
    both_too_short(book);
    another_word(book);
    stuck(book);
    earlier_refusals(book);
}

/// A received word of a symbol, and what the rule does with it.
struct Received {
    lent: Lent,
    word: Bits,
    mending: Mending,
}

impl Received {
    fn new(lent: &Lent, word: Bits) -> Received {
        let checks = lent.symbol().check_matrix();
        Received {
            lent: lent.clone(),
            mending: mend(checks.rows(), &mut word.clone()),
            word,
        }
    }

    /// A codeword with so many bits turned that the mending is as wanted, back
    /// to the codeword unless it is stuck.
    fn search(
        book: &mut Book,
        lent: &Lent,
        codeword: &Bits,
        turned: usize,
        wanted: impl Fn(&Mending) -> bool,
    ) -> Received {
        let symbol = lent.symbol();
        let word = search(book, &symbol, codeword, turned, |mending, last| {
            wanted(mending) && (mending.stuck || last == codeword)
        });
        Received::new(lent, word)
    }

    fn repairs(&self) -> usize {
        self.mending.turned.len()
    }

    /// A read with a slice of any length; `about` says what there is besides.
    fn read(&self, book: &mut Book, about: &str, room: usize, slice: usize) {
        let matrix = self.lent.symbol().matrix_of_word(&self.word);
        self.read_matrix(book, about, room, slice, matrix);
    }

    fn read_matrix(
        &self,
        book: &mut Book,
        about: &str,
        room: usize,
        slice: usize,
        matrix: Vec<u8>,
    ) {
        let repairs = self.repairs();
        let about = format!("read: {about}; repairs {repairs}, slice of {slice}");
        let call = Call::Read(room, slice, matrix);
        book.call(&about, &self.lent, self.lent.work(), call);
    }

    /// With a slice one number too short, and with one just long enough.
    fn read_short_and_just(&self, book: &mut Book, about: &str, room: usize) {
        let repairs = self.repairs();
        self.read(book, &format!("{about}, 16"), room, repairs - 1);
        self.read(book, about, room, repairs);
    }
}

fn shape(book: &mut Book) -> Lent {
    let (kind, data_modules) = book.chance.pick(&SHAPES);
    let params = book.chance.params(kind, (1, 1), 4);
    book.chance.lent(params, data_modules)
}

/// A message in a symbol of any of the shapes, mended as wanted.
fn mended(book: &mut Book, turned: usize, wanted: impl Fn(&Mending) -> bool) -> Received {
    let lent = shape(book);
    let codeword = message_word(&lent.symbol(), b"places");
    Received::search(book, &lent, &codeword, turned, |mending| {
        !mending.stuck && wanted(mending)
    })
}

/// The first and the last place of a word.
fn one_repair(book: &mut Book) {
    let (small, great) = (shape(book), book.chance.with_capacity(1_044));
    for (about, lent, bit) in [
        ("the first bit turned", small, 0),
        ("the last of 1,044 bits turned", great, 1_043),
    ] {
        let mut word = message_word(&lent.symbol(), b"one place");
        word.flip(bit);
        let received = Received::new(&lent, word);
        assert_eq!(received.mending.turned, [bit]);
        received.read(book, about, ROOM, 1);
    }
}

/// Whether a place is followed by a higher one.
fn rises(mending: &Mending) -> bool {
    mending.turned.windows(2).any(|pair| pair[0] < pair[1])
}

/// Whether a place is followed by a lower one.
fn falls(mending: &Mending) -> bool {
    mending.turned.windows(2).any(|pair| pair[0] > pair[1])
}

fn several_repairs(book: &mut Book) {
    let received = mended(book, 2, |m| m.turned.len() == 2 && rises(m));
    received.read(book, "two places, rising", ROOM, 2);
    for turned in [3, 6] {
        let received = mended(book, turned, |m| {
            m.turned.len() == turned && rises(m) && falls(m)
        });
        let about = format!("{turned} places in no order");
        received.read_short_and_just(book, &about, ROOM);
    }
    // the greatest symbol of a program mends the most
    let lent = book.chance.with_capacity(1_047);
    let codeword = message_word(&lent.symbol(), b"many places");
    let received = Received::search(book, &lent, &codeword, 24, |m| {
        !m.stuck && m.turned.len() > 26
    });
    received.read_short_and_just(book, "many places", ROOM);
}

/// A bit turned twice has its place twice, and needs two numbers of the slice.
fn turned_again(book: &mut Book) {
    for (capacity, turned) in [(108, 4), (676, 8)] {
        let lent = book.chance.with_capacity(capacity);
        let codeword = message_word(&lent.symbol(), b"ab");
        let received = Received::search(book, &lent, &codeword, turned, |m| {
            !m.stuck && most_turns(m) == 2
        });
        let about = format!("a bit turned twice, C {capacity}");
        received.read_short_and_just(book, &about, ROOM);
    }
    let received = mended(book, 14, |m| most_turns(m) == 3);
    received.read_short_and_just(book, "a bit turned three times", ROOM);
}

/// One word with slices of many lengths, and words with fewer repairs.
fn lengths_of_slice(book: &mut Book) {
    let received = mended(book, 4, |m| m.turned.len() == 4);
    let (checks, unmet) = (received.lent.checks(), received.mending.unmet);
    for (about, slice) in [
        ("an empty slice, 16", 0),
        ("one number too few, 16", 3),
        ("just as many numbers", 4),
        ("one number more", 5),
        ("as many numbers as unmet checks", unmet),
        ("K numbers", checks),
        ("one more than K", checks + 1),
        ("1,024 numbers", 1_024),
    ] {
        received.read(book, about, ROOM, slice);
    }
    let received = mended(book, 1, |m| m.turned.len() == 1);
    received.read_short_and_just(book, "one place", ROOM);
    let received = mended(book, 0, |_| true);
    for slice in [0, 1] {
        received.read(book, "nothing to turn", ROOM, slice);
    }
}

/// K is 3, and all checks are unmet. The message is empty and has no buffer, so
/// that only the place is stored.
fn least_symbol(book: &mut Book) {
    let lent = book.chance.with_capacity(9);
    let mut word = message_word(&lent.symbol(), b"");
    word.flip(0);
    let received = Received::new(&lent, word);
    assert_eq!(received.mending.unmet, lent.checks());
    received.read_short_and_just(book, "C 9, no message", 0);
}

/// Wrong stuffing bits are counted with 16 too, and have no places.
fn wrong_stuffing(book: &mut Book) {
    for wrong in [1, 8] {
        let lent = book.chance.with_capacity(746);
        let symbol = lent.symbol();
        let codeword = message_word(&symbol, b"stuffing");
        let received = Received::search(book, &lent, &codeword, 2, |m| {
            !m.stuck && m.turned.len() == 2
        });
        let matrix = matrix_with(book, &symbol, &received.word, wrong);
        let about = format!("{wrong} of {} stuffing bits wrong", stuffing_of(&symbol));
        received.read_matrix(book, &format!("{about}, 16"), ROOM, 1, matrix.clone());
        received.read_matrix(book, &about, ROOM, 2, matrix);
    }
    let received = mended(book, 0, |_| true);
    let matrix = matrix_with(book, &received.lent.symbol(), &received.word, 1);
    let about = "a stuffing bit wrong, nothing to turn";
    received.read_matrix(book, about, ROOM, 0, matrix);
}

/// The codeword that is refused with 10 to 14, where the room is two bytes.
fn refused_word(lent: &Lent, number: u32) -> Bits {
    let symbol = lent.symbol();
    let mut stream = Bits::new();
    stream.push_text(match number {
        12 => "00001 00010 1",
        13 => "00001 11111 10",
        _ => "00001 00010 00011",
    });
    match number {
        10 => spare_word(&symbol, &stream),
        11 => Bits::zeros(symbol.lengths().gross),
        _ => stream_word(&symbol, &stream),
    }
}

/// 16 comes before 10 to 14. With a slice that is long enough these are given,
/// and it is kept.
fn later_refusals(book: &mut Book) {
    for (number, turned) in [(10, 1), (10, 4), (11, 2), (12, 3), (13, 2), (14, 5)] {
        let lent = shape(book);
        let codeword = refused_word(&lent, number);
        let received = Received::search(book, &lent, &codeword, turned, |m| {
            !m.stuck && m.turned.len() == turned
        });
        let about = format!("{number} applies");
        received.read_short_and_just(book, &about, 2);
    }
    let lent = shape(book);
    let codeword = refused_word(&lent, 14);
    let received = Received::search(book, &lent, &codeword, 8, |m| !m.stuck && most_turns(m) > 1);
    let about = "14 applies, a bit turned twice";
    received.read(book, about, 2, received.lent.checks());
}

/// Neither the slice nor the message buffer is long enough, and then one of
/// them or both.
fn both_too_short(book: &mut Book) {
    let received = mended(book, 3, |m| m.turned.len() == 3);
    for (about, room, slice) in [
        ("no room at all, 16", 0, 0),
        ("room for the message only, 16", 6, 2),
        ("room for the places only, 14", 5, 3),
        ("just enough room for both", 6, 3),
    ] {
        received.read(book, about, room, slice);
    }
}

/// Places that lead to a codeword other than the one written.
fn another_word(book: &mut Book) {
    let lent = book.chance.with_capacity(45);
    let symbol = lent.symbol();
    let codeword = message_word(&symbol, b"");
    let word = search(book, &symbol, &codeword, 3, |mending, last| {
        !mending.stuck && *last != codeword && answer(&lent, last) == 0
    });
    let received = Received::new(&lent, word);
    received.read_short_and_just(book, "mends into another word", ROOM);
}

/// 9 comes before 16, and stores nothing.
fn stuck(book: &mut Book) {
    let lent = shape(book);
    let codeword = message_word(&lent.symbol(), b"stuck");
    let received = Received::search(book, &lent, &codeword, 20, |m| {
        m.stuck && m.turned.len() > 2
    });
    let repairs = received.repairs();
    for slice in [0, repairs - 1] {
        received.read(book, "stuck", ROOM, slice);
    }
    let received = Received::search(book, &lent, &codeword, 60, |m| m.stuck && most_turns(m) > 2);
    received.read(book, "stuck, a bit turned three times", ROOM, 1);
    let lent = book.chance.with_capacity(72);
    let codeword = message_word(&lent.symbol(), b"no");
    let received = Received::search(book, &lent, &codeword, 4, |m| {
        m.stuck && m.turned.is_empty()
    });
    received.read(book, "stuck at once", ROOM, 0);
}

/// Refusals before the checks, with an empty slice or one that is kept.
fn earlier_refusals(book: &mut Book) {
    let received = mended(book, 3, |m| m.turned.len() == 3);
    let (lent, work) = (&received.lent, received.lent.work());
    let matrix = lent.symbol().matrix_of_word(&received.word);
    let mut sampled = matrix.clone();
    sampled[440] = 4;
    for slice in [0, 3] {
        let about = format!("read refused 7: the last module is N, slice of {slice}");
        let call = Call::Read(ROOM, slice, sampled.clone());
        book.call(&about, lent, work, call);
    }
    let about = "read refused 5: a work byte too few, an empty slice";
    let call = Call::Read(ROOM, 0, matrix);
    book.call(about, lent, work - 1, call);
}
