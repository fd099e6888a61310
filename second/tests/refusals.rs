//! What the calls answer from 4 on, and how they leave the buffers.

mod common;

use common::{params, Lent};
use second::{read, write, Bits, ReadAnswer, Refusal};

fn lent() -> Lent {
    common::lent(params(), 1_047)
}

impl Lent {
    fn matrix(&self, stream: &str) -> Vec<u8> {
        self.symbol.matrix_of_word(&self.codeword(stream))
    }

    /// Reads into a buffer of three bytes and looks at what may not change. No
    /// word here has repairs, so the slice is empty.
    fn read(&self, matrix: &[u8]) -> ReadAnswer {
        let mut work = vec![165; self.symbol.sizes().work + 5];
        let mut message = [165; 3];
        let (params, list) = (&self.params, &self.list);
        let answer = read(params, list, matrix, &mut work, &mut message, &mut []);
        assert!(work.iter().all(|&byte| byte == 0));
        assert!(message[answer.length..].iter().all(|&byte| byte == 165));
        answer
    }

    fn number(&self, matrix: &[u8]) -> u32 {
        let answer = self.read(matrix);
        let counts = (answer.repairs, answer.unmet, answer.stuffing);
        assert_eq!(counts, (0, 0, 0));
        answer.number
    }
}

#[test]
fn lengths_of_buffers() {
    let lent = lent();
    let least = lent.symbol.sizes().work;
    for (modules, work, number) in [(440, least, 4), (442, 0, 4), (441, least - 1, 5)] {
        let mut matrix = vec![165; modules];
        let mut work = vec![165; work];
        let answer = write(&lent.params, &lent.list, b"a", &mut matrix, &mut work);
        assert_eq!(answer, Refusal::plain(number));
        let (params, list, mut places) = (&lent.params, &lent.list, [42_405; 5]);
        let answer = read(params, list, &matrix, &mut work, &mut [], &mut places);
        assert_eq!(answer.number, number);
        assert!(matrix.iter().chain(&work).all(|&byte| byte == 165));
        assert_eq!(places, [42_405; 5]);
    }
}

#[test]
fn a_message_that_does_not_fit_leaves_the_matrix() {
    let lent = lent();
    let mut matrix = vec![165; 441];
    let mut work = vec![165; lent.symbol.sizes().work];
    let answer = write(&lent.params, &lent.list, &[0; 84], &mut matrix, &mut work);
    assert_eq!(answer, Refusal::plain(6));
    assert!(matrix.iter().all(|&module| module == 165));
    assert!(work.iter().all(|&byte| byte == 0));
}

#[test]
fn modules_of_n_or_more() {
    let lent = lent();
    for index in [0, 66, 200, 440] {
        let mut matrix = lent.matrix("00001");
        matrix[index] = 8;
        matrix[440] = 255;
        let answer = lent.read(&matrix);
        assert_eq!((answer.number, answer.place), (7, index));
    }
}

#[test]
fn stuffing_spare_columns_and_zeros() {
    let lent = lent();
    let symbol = &lent.symbol;
    for wrong in 1_044..1_047 {
        let mut sequence = symbol.stuffed(&Bits::zeros(1_044));
        sequence.flip(wrong);
        let answer = lent.read(&symbol.matrix_of_sequence(&sequence));
        let counts = (answer.repairs, answer.unmet, answer.stuffing);
        assert_eq!((answer.number, counts), (11, (0, 0, 1)));
    }
    let spare = symbol.systematic().message_columns().len() - 696;
    for place in 0..spare {
        let mut columns = Bits::zeros(696 + spare);
        columns.flip(696 + place);
        assert_eq!(lent.number(&symbol.matrix_of_message_columns(&columns)), 10);
    }
    assert_eq!(lent.number(&symbol.matrix_of_word(&Bits::zeros(1_044))), 11);
}

#[test]
fn streams_and_rooms() {
    let lent = lent();
    assert_eq!(lent.number(&lent.matrix("00001 00010 00011")), 0);
    assert_eq!(lent.number(&lent.matrix("00001 00010 00011 00100")), 14);
    assert_eq!(lent.number(&lent.matrix("00001 00010 00011 00100 1")), 12);
    let eci = "00001 00010 00011 00100 11111 10";
    assert_eq!(lent.number(&lent.matrix(eci)), 13);
}
