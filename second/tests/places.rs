//! W-205: a read that ends with 0 stores the places of the bits turned; one
//! whose slice cannot hold them is refused with 16, after 9 and before 10.

mod common;

use common::{lent, params, Lent};
use second::chance::Chance;
use second::mending::{mend, Mending};
use second::{read, Bits, Params, ReadAnswer};

/// What the slice and the message buffer hold before a read.
const NUMBER: u16 = 42_405;
const BYTE: u8 = 165;

/// What a read answered, and what it left in the message buffer and the slice.
struct Done {
    answer: ReadAnswer,
    message: Vec<u8>,
    slice: Vec<u16>,
}

impl Done {
    fn number(&self) -> u32 {
        self.answer.number
    }

    /// The places, where nothing is stored behind them nor behind the message.
    fn places(&self) -> &[u16] {
        let (places, rest) = self.slice.split_at(self.answer.stored());
        assert!(rest.iter().all(|&number| number == NUMBER));
        let rest = &self.message[self.answer.length..];
        assert!(rest.iter().all(|&byte| byte == BYTE));
        places
    }

    /// Whether all of the slice is as it came.
    fn kept(&self) -> bool {
        self.places().is_empty()
    }
}

impl Lent {
    fn read(&self, received: &Bits, room: usize, slice: usize) -> Done {
        self.read_matrix(&self.symbol.matrix_of_word(received), room, slice)
    }

    fn read_matrix(&self, matrix: &[u8], room: usize, slice: usize) -> Done {
        let mut work = vec![BYTE; self.symbol.sizes().work];
        let (mut message, mut slice) = (vec![BYTE; room], vec![NUMBER; slice]);
        let (params, list) = (&self.params, &self.list);
        let answer = read(params, list, matrix, &mut work, &mut message, &mut slice);
        assert!(work.iter().all(|&byte| byte == 0));
        Done {
            answer,
            message,
            slice,
        }
    }

    /// What the rule does with a word, and the last word.
    fn mend(&self, received: &Bits) -> (Mending, Bits) {
        let mut last = received.clone();
        let mending = mend(self.symbol.check_matrix().rows(), &mut last);
        (mending, last)
    }

    /// A codeword with so many bits turned that the mending is as wanted, back
    /// to the codeword unless it is stuck.
    fn damaged(
        &self,
        chance: &mut Chance,
        codeword: &Bits,
        turned: usize,
        wanted: impl Fn(&Mending) -> bool,
    ) -> Bits {
        for _ in 0..100_000 {
            let mut received = codeword.clone();
            for _ in 0..turned {
                received.flip(chance.below(codeword.len()));
            }
            let (mending, last) = self.mend(&received);
            if wanted(&mending) && (mending.stuck || last == *codeword) {
                return received;
            }
        }
        panic!("no such damage with {turned} bits turned");
    }
}

/// C 246 with 8 colours: K is 81.
fn some() -> Lent {
    lent(params(), 246)
}

const ABC: &str = "00001 00010 00011";

/// As P10 counts, the first bit has the place 1.
#[test]
fn the_first_and_the_last_bit() {
    let lent = lent(params(), 1_047);
    for (bit, place) in [(0, 1), (1_043, 1_044)] {
        let mut received = lent.codeword(ABC);
        received.flip(bit);
        let done = lent.read(&received, 3, 1);
        assert_eq!((done.number(), done.places()), (0, &[place][..]));
        assert_eq!(done.message, b"ABC");
    }
}

/// Four bits are turned in the order of repair, and not in that of the word.
#[test]
fn in_the_order_of_repair() {
    let lent = some();
    let falls = |m: &Mending| m.turned.windows(2).any(|pair| pair[0] > pair[1]);
    let received = lent.damaged(&mut Chance::new(1), &lent.codeword(ABC), 4, |m| {
        !m.stuck && m.turned.len() == 4 && falls(m)
    });
    let turned = lent.mend(&received).0.turned;
    let done = lent.read(&received, 3, 4);
    let places: Vec<usize> = done.places().iter().map(|&p| p.into()).collect();
    let expected: Vec<usize> = turned.iter().map(|bit| bit + 1).collect();
    assert_eq!(places, expected);
}

/// The places in rising order, each as often as it was stored.
fn sorted(places: &[u16]) -> Vec<u16> {
    let mut places = places.to_vec();
    places.sort_unstable();
    places
}

fn has_twice(places: &[u16]) -> bool {
    sorted(places).windows(2).any(|pair| pair[0] == pair[1])
}

#[test]
fn a_bit_turned_twice_has_its_place_twice() {
    let lent = some();
    let twice = |m: &Mending| !m.stuck && has_twice(&m.places().collect::<Vec<_>>());
    let mut chance = Chance::new(2);
    for _ in 0..20 {
        let received = lent.damaged(&mut chance, &lent.codeword(ABC), 5, twice);
        let done = lent.read(&received, 3, 81);
        assert_eq!(done.number(), 0);
        assert!(has_twice(done.places()));
        // each of them takes a number of the slice
        let repairs = done.places().len();
        assert_eq!(lent.read(&received, 3, repairs).places(), done.places());
        assert_eq!(lent.read(&received, 3, repairs - 1).number(), 16);
    }
}

/// A word with three repairs and slices of all lengths up to more than K.
#[test]
fn lengths_of_the_slice() {
    let lent = some();
    let received = lent.damaged(&mut Chance::new(3), &lent.codeword(ABC), 3, |m| {
        !m.stuck && m.turned.len() == 3
    });
    let expected = lent.read(&received, 3, 3);
    for slice in 0..100 {
        let done = lent.read(&received, 3, slice);
        if slice < 3 {
            let refused = ReadAnswer {
                number: 16,
                length: 0,
                ..expected.answer
            };
            assert_eq!(done.answer, refused);
            assert!(done.kept());
        } else {
            assert_eq!(done.answer, expected.answer);
            assert_eq!(done.places(), expected.places());
            assert_eq!(done.message, b"ABC");
        }
    }
}

#[test]
fn an_empty_slice_is_enough_where_nothing_is_turned() {
    let lent = some();
    let done = lent.read(&lent.codeword(ABC), 3, 0);
    assert_eq!((done.number(), done.answer.repairs), (0, 0));
    let done = lent.read(&lent.codeword(ABC), 3, 2);
    assert!(done.number() == 0 && done.kept());
}

/// Words refused with 10 to 14, where the room is two bytes.
fn refused_words(lent: &Lent) -> Vec<(u32, Bits)> {
    let lengths = lent.symbol.lengths();
    let mut spare = Bits::zeros(lengths.net + 1);
    spare.set(lengths.net, true);
    vec![
        (10, lent.symbol.systematic().codeword(&spare)),
        (11, Bits::zeros(lengths.gross)),
        (12, lent.codeword("00001 00010 00011 1")),
        (13, lent.codeword("00001 11111 10")),
        (14, lent.codeword(ABC)),
    ]
}

/// 16 comes before 10 to 14. With a longer slice these are given, and they
/// leave it.
#[test]
fn later_refusals_leave_the_slice() {
    let lent = some();
    let mut chance = Chance::new(4);
    for (number, codeword) in refused_words(&lent) {
        for turned in 1..=4 {
            let received = lent.damaged(&mut chance, &codeword, turned, |m| {
                !m.stuck && m.turned.len() == turned
            });
            for slice in [0, turned - 1, turned, turned + 1, 81] {
                let done = lent.read(&received, 2, slice);
                let expected = if slice < turned { 16 } else { number };
                assert_eq!(done.number(), expected);
                assert_eq!((done.answer.place, done.answer.length), (0, 0));
                assert_eq!(done.answer.repairs, turned);
                assert!(done.kept());
            }
        }
    }
}

/// 9 comes before 16: a stuck word is not mended by a longer slice.
#[test]
fn a_stuck_word_is_stuck_with_any_slice() {
    let lent = some();
    let received = lent.damaged(&mut Chance::new(5), &lent.codeword(ABC), 15, |m| {
        m.stuck && m.turned.len() > 2
    });
    let repairs = lent.mend(&received).0.turned.len();
    for slice in [0, repairs - 1, repairs, 81] {
        let done = lent.read(&received, 3, slice);
        assert_eq!((done.number(), done.answer.repairs), (9, repairs));
        assert!(done.kept());
    }
}

/// 7 comes before 16, and 16 counts the wrong stuffing bits.
#[test]
fn beside_modules_and_stuffing() {
    let lent = lent(params(), 249);
    let mut sequence = lent.symbol.stuffed(&lent.codeword(ABC));
    sequence.flip(0);
    sequence.flip(lent.symbol.lengths().gross);
    let mut matrix = lent.symbol.matrix_of_sequence(&sequence);
    let answer = lent.read_matrix(&matrix, 3, 0).answer;
    assert_eq!((answer.number, answer.place, answer.length), (16, 0, 0));
    assert_eq!((answer.repairs, answer.unmet, answer.stuffing), (1, 3, 1));
    matrix[440] = 8;
    for slice in [0, 1] {
        let done = lent.read_matrix(&matrix, 3, slice);
        assert_eq!((done.number(), done.answer.place), (7, 440));
        assert_eq!(done.answer.repairs, 0);
        assert!(done.kept());
    }
}

/// What a damaged word showed: places were stored, a slice was too short for
/// them, a place was stored twice.
struct Shown {
    stored: bool,
    short: bool,
    twice: bool,
}

/// Reads a word with slices of several lengths. One of as many numbers as checks
/// are unmet at first and one of K numbers are long enough; others are so where
/// there are no more repairs, and beyond that the length does not matter. Turning
/// the places stored in the received word gives the accepted one.
fn read_with_slices(chance: &mut Chance, lent: &Lent, received: &Bits) -> Shown {
    let checks = lent.symbol.lengths().checks;
    let long = lent.read(received, 60, checks);
    let ReadAnswer { repairs, unmet, .. } = long.answer;
    assert_ne!(long.number(), 16);
    for slice in [unmet, repairs, repairs + 1, chance.between(repairs, checks)] {
        let done = lent.read(received, 60, slice);
        assert_eq!(done.answer, long.answer);
        assert_eq!(done.places(), long.places());
    }
    let short = repairs > 0 && long.number() != 9;
    if short {
        let done = lent.read(received, 60, chance.below(repairs));
        assert_eq!(done.number(), 16);
    }
    if long.number() == 0 {
        let mut accepted = received.clone();
        for &place in long.places() {
            accepted.flip(usize::from(place) - 1);
        }
        assert_eq!(accepted, lent.mend(received).1);
        let again = lent.read(&accepted, 60, 0);
        assert_eq!((again.number(), again.answer.unmet), (0, 0));
        assert_eq!(again.message, long.message);
    }
    Shown {
        stored: repairs > 0 && long.number() == 0,
        short,
        twice: has_twice(long.places()),
    }
}

/// Any damage to a message, for all wc and wr.
#[test]
fn random_damage_for_all_weights() {
    let mut chance = Chance::new(205);
    let (mut stored, mut short, mut twice) = (0, 0, 0);
    let weights = (3..=8).flat_map(|wc| ((wc + 1)..=9).map(move |wr| (wc, wr)));
    for (wc, wr) in weights {
        let lent = lent(Params { wc, wr, ..params() }, 300);
        let codeword = lent.codeword("00001");
        for round in 0..60 {
            let mut received = codeword.clone();
            for _ in 0..chance.below(2 + round / 2) {
                received.flip(chance.below(codeword.len()));
            }
            let shown = read_with_slices(&mut chance, &lent, &received);
            stored += usize::from(shown.stored);
            short += usize::from(shown.short);
            twice += usize::from(shown.twice);
        }
    }
    assert!(stored > 500 && short > 500 && twice > 100);
}
