//! Calls refused 1 to 5, and what comes first where several numbers apply.

use crate::case::{Book, Call, Lent};
use crate::symbols::Symbols;
use second::geometry::side_size;
use second::Params;

/// A parameter put out of range, and words for it. wc and wr stay 3 and 9, as
/// in every program; the random cases have others.
type Fault = (&'static str, fn(&mut Params));

const FAULTS: [Fault; 28] = [
    ("the kind is 2", |p| p.kind = 2),
    ("the kind is 4294967295", |p| p.kind = u32::MAX),
    ("the horizontal side-version is 0", |p| p.horizontal = 0),
    ("the horizontal side-version is 33", |p| p.horizontal = 33),
    ("the horizontal side-version is 257", |p| p.horizontal = 257),
    ("the vertical side-version is 0", |p| p.vertical = 0),
    ("the vertical side-version is 33", |p| p.vertical = 33),
    ("the vertical side-version is huge", |p| {
        p.vertical = 0x4000_0001
    }),
    ("there are 0 colours", |p| p.colours = 0),
    ("there are 3 colours", |p| p.colours = 3),
    ("there are 5 colours", |p| p.colours = 5),
    ("there are 6 colours", |p| p.colours = 6),
    ("there are 7 colours", |p| p.colours = 7),
    ("there are 9 colours", |p| p.colours = 9),
    ("there are 260 colours", |p| p.colours = 260),
    ("black is 8", |p| p.black = 8),
    ("black is 4294967295", |p| p.black = u32::MAX),
    ("cyan is 8", |p| p.cyan = 8),
    ("yellow is 8", |p| p.yellow = 8),
    ("yellow is huge", |p| p.yellow = 0x8000_0002),
    ("black is 4 of 4 colours", |p| {
        p.colours = 4;
        p.black = 4
    }),
    ("black is cyan", |p| p.black = p.cyan),
    ("cyan is yellow", |p| p.cyan = p.yellow),
    ("yellow is black", |p| p.yellow = p.black),
    ("the mask is 8", |p| p.mask = 8),
    ("the mask is huge", |p| p.mask = 0x1_0000),
    ("the turn is 2", |p| p.turn = 2),
    ("the turn is 4294967295", |p| p.turn = u32::MAX),
];

/// The greatest work buffer of a program.
const WORK: usize = 53_964;

fn base() -> Params {
    Params {
        kind: 0,
        horizontal: 1,
        vertical: 1,
        colours: 8,
        black: 0,
        cyan: 3,
        yellow: 2,
        wc: 3,
        wr: 9,
        mask: 5,
        turn: 0,
    }
}

fn bare(params: Params) -> Lent {
    Lent {
        params,
        list: Vec::new(),
    }
}

pub fn add(book: &mut Book) {
    parameters(book);
    list_lengths(book);
    list_entries(book);
    list_patterns(book);
    list_colours_and_repeats(book);
    capacities(book);
    matrix_lengths(book);
    work_lengths(book);
    first_of_several(book);
}

fn parameters(book: &mut Book) {
    for (number, (words, fault)) in FAULTS.iter().enumerate() {
        let mut params = base();
        fault(&mut params);
        if number % 4 == 3 {
            let about = format!("read refused 1: {words}");
            book.call(&about, &bare(params), 9, Call::Read(5, number, vec![0; 12]));
        } else {
            let about = format!("write refused 1: {words}");
            let call = Call::Write(441, b"abc".to_vec());
            book.call(&about, &bare(params), WORK, call);
        }
    }
}

/// A write with a list that is refused; the other buffers are in order.
fn list(book: &mut Book, about: &str, params: Params, list: &[u16]) {
    let modules = side_size(params.horizontal) * side_size(params.vertical);
    let lent = Lent {
        params,
        list: list.to_vec(),
    };
    let about = format!("write, reserved list: {about}");
    book.call(&about, &lent, WORK, Call::Write(modules, b"list".to_vec()));
}

fn list_lengths(book: &mut Book) {
    list(book, "one number only", base(), &[1]);
    list(book, "an entry and two numbers", base(), &[1, 1, 0, 2, 2]);
    let about = "a length of seven, and a first entry outside as well";
    list(book, about, base(), &[0, 1, 0, 2, 1, 0, 3]);
    let about = "1,025 entries, the first of them outside too";
    list(book, about, base(), &[0; 3_075]);
    let about = "1,025 entries and a number: the length comes first";
    list(book, about, base(), &[0; 3_076]);
    let params = book.chance.params(0, (14, 1), 4);
    let mut lent = book.chance.lent(params, 1_423 - 1_024);
    let about = "write with 1,024 entries, the most there may be";
    book.write(about, &lent, b"most entries");
    let first = [lent.list[0], lent.list[1]];
    lent.list[3_069..3_071].copy_from_slice(&first);
    let about = "1,024 entries, the last repeats the first";
    list(book, about, params, &lent.list);
}

fn list_entries(book: &mut Book) {
    let good = [1, 1, 7];
    let outside: [(&str, [u16; 2]); 5] = [
        ("column 0", [0, 7]),
        ("row 0", [7, 0]),
        ("column 22 of 21", [22, 7]),
        ("row 22 of 21", [7, 22]),
        ("column 65535", [65_535, 7]),
    ];
    for (about, [column, row]) in outside {
        let entries = [good, [column, row, 0]].concat();
        list(book, about, base(), &entries);
    }
    let wide = Params {
        horizontal: 2,
        ..base()
    };
    let about = "column 25 is inside a wide symbol, row 25 outside";
    list(book, about, wide, &[25, 7, 0, 7, 25, 0]);
    let tall = Params {
        vertical: 2,
        ..base()
    };
    let about = "row 25 is inside a tall symbol, column 25 outside";
    list(book, about, tall, &[7, 25, 0, 25, 7, 0]);
}

fn list_patterns(book: &mut Book) {
    let finders: [(&str, [u16; 6]); 4] = [
        ("beside, then on the finder pattern UL", [5, 2, 0, 2, 2, 0]),
        ("beside, then on UR", [19, 2, 0, 20, 6, 0]),
        ("beside, then on LR", [16, 16, 0, 20, 16, 0]),
        ("beside, then on LL", [2, 16, 0, 4, 18, 0]),
    ];
    for (about, entries) in finders {
        list(book, about, base(), &entries);
    }
    let secondary = Params { kind: 1, ..base() };
    let about = "beside, then on the alignment pattern U of a secondary symbol";
    list(book, about, secondary, &[2, 2, 0, 3, 3, 0]);
    let about = "beside, then on L of a secondary symbol";
    list(book, about, secondary, &[17, 17, 0, 17, 19, 0]);
    for turn in [0, 1] {
        let params = Params {
            horizontal: 6,
            turn,
            ..base()
        };
        let about = format!("an entry for each slant of the pattern X1, turn {turn}");
        list(book, &about, params, &[16, 3, 0, 18, 3, 0]);
    }
}

fn list_colours_and_repeats(book: &mut Book) {
    let four = Params {
        colours: 4,
        ..base()
    };
    let about = "an entry repeats with the same colour";
    list(book, about, base(), &[1, 1, 0, 9, 9, 1, 1, 1, 0]);
    let about = "an entry repeats with another colour";
    list(book, about, base(), &[1, 1, 0, 1, 1, 5]);
    list(book, "colour 8 of 8", base(), &[1, 1, 7, 9, 9, 8]);
    list(book, "colour 4 of 4", four, &[1, 1, 3, 9, 9, 4]);
    let about = "outside and a colour of 65535 in one entry";
    list(book, about, base(), &[1, 1, 0, 30, 1, 65_535]);
    let about = "a repeated entry before one on a pattern";
    list(book, about, base(), &[1, 1, 0, 1, 1, 0, 4, 4, 0]);
    let about = "a pattern's entry before a repeated one and a bad colour";
    list(book, about, base(), &[4, 4, 9, 4, 4, 0, 1, 1, 8]);
}

fn capacities(book: &mut Book) {
    for (about, colours, data_modules) in [
        ("no data module is left", 4, 0),
        ("C is 8 and wr 9", 4, 4),
        ("C is 6 and wr 9", 8, 2),
    ] {
        let params = book.chance.params(0, (1, 1), colours);
        let lent = book.chance.lent(params, data_modules);
        let call = Call::Write(441, Vec::new());
        book.call(&format!("write refused 3: {about}"), &lent, WORK, call);
    }
    for (about, colours, data_modules) in [
        ("C is 3 and wr 9", 8, 1),
        ("C is 8 and wr 9, secondary", 4, 4),
    ] {
        let kind = u32::from(colours == 4);
        let params = book.chance.params(kind, (1, 1), colours);
        let lent = book.chance.lent(params, data_modules);
        let call = Call::Read(9, 348, vec![0; 441]);
        book.call(&format!("read refused 3: {about}"), &lent, WORK, call);
    }
    let params = book.chance.params(1, (6, 1), 8);
    let lent = book.chance.lent(params, 2);
    let about = "read refused 3: C is 6, with an empty matrix and no work buffer";
    book.call(about, &lent, 0, Call::Read(1_024, 1_024, vec![]));
}

fn matrix_lengths(book: &mut Book) {
    let lent = book.chance.usual();
    let call = Call::Write(440, b"four".to_vec());
    let about = "write refused 4: 440 modules for 441";
    book.call(about, &lent, lent.work(), call);
    let call = Call::Write(0, b"four".to_vec());
    let about = "write refused 4: no matrix at all";
    book.call(about, &lent, lent.work(), call);
    for modules in [440, 442] {
        let lent = book.chance.usual();
        let about = format!("read refused 4: {modules} modules for 441");
        book.read(&about, &lent, vec![0; modules]);
    }
    let params = book.chance.params(0, (3, 1), 4);
    let lent = book.chance.lent(params, 500);
    let call = Call::Write(29 * 29, b"four".to_vec());
    let about = "write refused 4: a square matrix for a rectangle";
    book.call(about, &lent, lent.work(), call);
}

fn work_lengths(book: &mut Book) {
    let params = book.chance.params(0, (1, 1), 8);
    let great = book.chance.lent(params, 349);
    let least = book.chance.with_capacity(9);
    for lent in [great, least] {
        let work = lent.work();
        let capacity = lent.symbol().sizes().capacity;
        for given in [work, work - 1] {
            let about = format!("write: C {capacity} with {given} of {work} work bytes");
            book.call(&about, &lent, given, Call::Write(441, Vec::new()));
        }
        let about = format!("read: C {capacity} with {} of {work} work bytes", work - 1);
        book.call(
            &about,
            &lent,
            work - 1,
            Call::Read(7, lent.checks(), vec![0; 441]),
        );
    }
    let lent = book.chance.with_capacity(676);
    let about = "write: a work buffer longer than the least is zero to its end";
    book.call(about, &lent, WORK, Call::Write(441, b"long".to_vec()));
}

fn first_of_several(book: &mut Book) {
    let mut lent = book.chance.usual();
    let work = lent.work();
    let message = vec![1; 400];
    let about = "write: 4, 5 and 6 apply";
    book.call(about, &lent, 10, Call::Write(442, message.clone()));
    let about = "write: 5 and 6 apply";
    book.call(about, &lent, work - 1, Call::Write(441, message.clone()));
    let about = "read: 5 and 7 apply";
    book.call(about, &lent, work - 1, Call::Read(0, 0, vec![200; 441]));
    let about = "read: 4 and 7 apply";
    book.call(about, &lent, work, Call::Read(0, 1, vec![200; 442]));
    lent.list = vec![1, 1, 1, 0, 0, 0];
    let about = "write: 2, 4, 5 and 6 apply";
    book.call(about, &lent, 11, Call::Write(1, message.clone()));
    lent.params.turn = 7;
    let about = "write: 1, 2, 4, 5 and 6 apply";
    book.call(about, &lent, 1, Call::Write(1, message));
    // C is 8, for which 64 work bytes would be asked
    let params = book.chance.params(0, (1, 1), 4);
    let mut lent = book.chance.lent(params, 4);
    let about = "write: 3, 4 and 5 apply";
    book.call(about, &lent, 63, Call::Write(440, b"x".to_vec()));
    lent.list[0] = 22;
    let about = "read: 2, 3, 4 and 5 apply";
    book.call(about, &lent, 63, Call::Read(3, 3, vec![9; 3]));
}
