//! W-202: wrong stuffing bits are counted in every read that passes test 7 and
//! refuse nothing; in others the count is 0, and no read gives 8.

mod common;

use common::{lent, params, reserved_list, Lent};
use second::chance::Chance;
use second::{read, Bits, Params, ReadAnswer};

/// What a writer sets behind the word, as far as there is room.
const STUFFING: &str = "01010101";

/// C 746 with 4 colours and wr 9, which leaves 8 stuffing bits.
fn eight() -> Lent {
    let params = Params {
        colours: 4,
        ..params()
    };
    lent(params, 746)
}

impl Lent {
    /// Reads with a slice of K numbers, which is always long enough.
    fn read(&self, matrix: &[u8], message: &mut [u8]) -> ReadAnswer {
        let sizes = self.symbol.sizes();
        let (mut work, mut places) = (vec![165; sizes.work], vec![0; sizes.checks]);
        let (params, list) = (&self.params, &self.list);
        read(params, list, matrix, &mut work, message, &mut places)
    }

    /// The matrix of a word and any bits behind it.
    fn matrix(&self, word: &Bits, behind: &str) -> Vec<u8> {
        let mut sequence = word.clone();
        sequence.push_text(behind);
        self.symbol.matrix_of_sequence(&sequence)
    }

    /// A word for each answer that a read gives once it has passed 7.
    fn words(&self) -> Vec<(u32, Bits)> {
        let mut chance = Chance::new(202);
        let lengths = self.symbol.lengths();
        let mut spare = Bits::zeros(lengths.net + 1);
        spare.set(lengths.net, true);
        vec![
            (0, self.codeword("00001 00010 00011")),
            (9, chance.bits(lengths.gross)),
            (10, self.symbol.systematic().codeword(&spare)),
            (11, Bits::zeros(lengths.gross)),
            (12, self.codeword("00001 1")),
            (13, self.codeword("00001 11111 10")),
            (14, self.codeword("00001 00010 00011 00100")),
        ]
    }
}

/// A text with the digits turned where a number has ones.
fn turned(text: &str, places: u32) -> String {
    let digits = text.bytes().enumerate();
    digits
        .map(|(place, digit)| char::from(digit ^ (places >> place & 1) as u8))
        .collect()
}

/// All 256 strings of 8 bits behind a word of each answer: the count is how many
/// bits are wrong, and nothing else in the answer or the buffer depends on them.
#[test]
fn every_stuffing_with_every_answer() {
    let lent = eight();
    for (number, word) in lent.words() {
        let mut expected = [165; 3];
        let right = lent.read(&lent.matrix(&word, STUFFING), &mut expected);
        assert_eq!((right.number, right.stuffing), (number, 0));
        for places in 0..256u32 {
            let matrix = lent.matrix(&word, &turned(STUFFING, places));
            let mut message = [165; 3];
            let answer = lent.read(&matrix, &mut message);
            assert_eq!(answer.stuffing, places.count_ones() as usize);
            let stuffing = 0;
            assert_eq!(ReadAnswer { stuffing, ..answer }, right);
            assert_eq!(message, expected);
        }
    }
}

/// A mended word and wrong stuffing: both are counted, each for itself.
#[test]
fn repairs_and_stuffing() {
    let lent = eight();
    let mut word = lent.codeword("00001 00010 00011");
    word.flip(0);
    let mut message = [165; 3];
    let answer = lent.read(&lent.matrix(&word, "11111111"), &mut message);
    assert_eq!((answer.number, answer.length), (0, 3));
    assert_eq!(message, *b"ABC");
    assert_eq!((answer.repairs, answer.unmet, answer.stuffing), (1, 3, 4));
}

/// Number and place of a refusal, and what is lent: parameters, list, matrix
/// and the length of the work buffer.
type Refused<'a> = (u32, usize, &'a Params, &'a [u16], &'a [u8], usize);

/// Wrong stuffing in reads refused with 1 to 5 and 7: nothing is counted.
#[test]
fn nothing_is_counted_up_to_7() {
    let Lent {
        params,
        list,
        symbol,
    } = eight();
    let wrong = turned(STUFFING, 255);
    let mut sequence = Bits::zeros(symbol.lengths().gross);
    sequence.push_text(&wrong);
    let matrix = symbol.matrix_of_sequence(&sequence);
    let mut bad = matrix.clone();
    bad[440] = 4;
    let masked = Params { mask: 8, ..params };
    let few = reserved_list(&params, 373 - 4);
    let work = symbol.sizes().work;
    let cases: [Refused; 6] = [
        (1, 0, &masked, &list, &matrix, work),
        (2, 0, &params, &[1], &matrix, work),
        (3, 0, &params, &few, &matrix, work),
        (4, 0, &params, &list, &matrix[1..], work),
        (5, 0, &params, &list, &matrix, work - 1),
        (7, 440, &params, &list, &bad, work),
    ];
    for (number, place, params, list, matrix, work) in cases {
        let answer = read(params, list, matrix, &mut vec![0; work], &mut [], &mut []);
        let expected = ReadAnswer {
            number,
            place,
            length: 0,
            repairs: 0,
            unmet: 0,
            stuffing: 0,
        };
        assert_eq!(answer, expected);
    }
}

/// Any C bits, for all wc and wr and small C: the count is that of the bits
/// behind the word that a writer would not set, and no read gives 8.
#[test]
fn any_bits_for_all_weights() {
    let mut chance = Chance::new(203);
    let mut counts = [0; 9];
    for wc in 3..=8 {
        for wr in (wc + 1)..=9 {
            for capacity in (wr as usize..80).filter(|capacity| capacity % 2 == 0) {
                let params = Params {
                    wc,
                    wr,
                    colours: 4,
                    ..params()
                };
                let lent = lent(params, capacity);
                let rest = capacity % wr as usize;
                let sequence = chance.bits(capacity);
                let behind = sequence.iter().skip(capacity - rest);
                let wrong = behind
                    .zip(STUFFING.chars())
                    .filter(|&(bit, right)| bit != (right == '1'))
                    .count();
                let matrix = lent.symbol.matrix_of_sequence(&sequence);
                let answer = lent.read(&matrix, &mut [0; 80]);
                assert_ne!(answer.number, 8);
                assert_eq!(answer.stuffing, wrong);
                counts[wrong] += 1;
            }
        }
    }
    assert!(counts[..7].iter().all(|&count| count > 0));
}

/// A capacity that wr divides has no stuffing bit: no damage is counted.
#[test]
fn a_multiple_of_wr_has_none() {
    let mut chance = Chance::new(204);
    for wr in 4..=9 {
        let params = Params { wr, ..params() };
        let lent = lent(params, 12 * wr as usize);
        for _ in 0..50 {
            let matrix = lent
                .symbol
                .matrix_of_sequence(&chance.bits(12 * wr as usize));
            assert_eq!(lent.read(&matrix, &mut [0; 80]).stuffing, 0);
        }
    }
}
