//! The check matrix of 4.4.3 of 002, its elimination and the codeword.

use crate::bits::Bits;
use crate::generator::{Generator, CHECK_MATRIX_SEED};

/// The lengths of the code of a symbol, in bits.
#[derive(Clone, Copy, Debug, PartialEq, Eq)]
pub struct Lengths {
    /// C.
    pub capacity: usize,
    /// t, the rows of a block of the check matrix.
    pub block_rows: usize,
    /// Pg.
    pub gross: usize,
    /// K.
    pub checks: usize,
    /// Pn.
    pub net: usize,
    pub wc: usize,
    pub wr: usize,
}

impl Lengths {
    pub fn new(capacity: usize, wc: usize, wr: usize) -> Lengths {
        let block_rows = capacity / wr;
        Lengths {
            capacity,
            block_rows,
            gross: block_rows * wr,
            checks: block_rows * wc,
            net: block_rows * (wr - wc),
            wc,
            wr,
        }
    }

    /// The least work buffer of test 5, in bytes.
    pub fn work(&self) -> usize {
        self.checks * ((self.gross + 7) / 8) + 8 * self.capacity
    }
}

/// The matrix A, one row a check.
pub struct CheckMatrix {
    columns: usize,
    rows: Vec<Bits>,
}

impl CheckMatrix {
    /// Stacks wc blocks. One generator runs through all of them, and each block
    /// shuffles the columns of the block above it.
    pub fn new(lengths: &Lengths) -> CheckMatrix {
        let mut rows = vec![Bits::zeros(lengths.gross); lengths.checks];
        let mut generator = Generator::new(CHECK_MATRIX_SEED);
        let mut sources: Vec<usize> = (0..lengths.gross).collect();
        for block in rows.chunks_mut(lengths.block_rows) {
            generator.shuffle(&mut sources);
            for (column, source) in sources.iter().enumerate() {
                block[source / lengths.wr].set(column, true);
            }
        }
        CheckMatrix {
            columns: lengths.gross,
            rows,
        }
    }

    pub fn rows(&self) -> &[Bits] {
        &self.rows
    }

    /// Gauss-Jordan elimination from the last column to the first: a column
    /// gets a pivot exactly when it is no sum of the check columns behind it.
    pub fn eliminate(self) -> Systematic {
        let mut rows = self.rows;
        let mut check_columns = Vec::new();
        let mut message_columns = Vec::new();
        for column in (0..self.columns).rev() {
            let rank = check_columns.len();
            match (rank..rows.len()).find(|&row| rows[row].get(column)) {
                Some(found) => {
                    rows.swap(rank, found);
                    clear_column(&mut rows, rank, column);
                    check_columns.push(column);
                }
                None => message_columns.push(column),
            }
        }
        rows.truncate(check_columns.len());
        message_columns.reverse();
        Systematic {
            rows,
            check_columns,
            message_columns,
        }
    }
}

fn clear_column(rows: &mut [Bits], pivot: usize, column: usize) {
    let (above, rest) = rows.split_at_mut(pivot);
    if let Some((pivot_row, below)) = rest.split_first_mut() {
        for row in above.iter_mut().chain(below) {
            if row.get(column) {
                row.add(pivot_row);
            }
        }
    }
}

/// The eliminated matrix: row i holds check column i and message columns only.
pub struct Systematic {
    rows: Vec<Bits>,
    check_columns: Vec<usize>,
    message_columns: Vec<usize>,
}

impl Systematic {
    pub fn check_columns(&self) -> &[usize] {
        &self.check_columns
    }

    /// The message columns, ascending; those behind the first Pn are spare.
    pub fn message_columns(&self) -> &[usize] {
        &self.message_columns
    }

    /// The only codeword with these bits in the first message columns and zeros
    /// in the others.
    pub fn codeword(&self, message: &Bits) -> Bits {
        let mut word = Bits::zeros(self.check_columns.len() + self.message_columns.len());
        for (bit, &column) in message.iter().zip(&self.message_columns) {
            word.set(column, bit);
        }
        for (row, &column) in self.rows.iter().zip(&self.check_columns) {
            let bit = row.odd_with(&word);
            word.set(column, bit);
        }
        word
    }

    /// The bits of a word in the message columns.
    pub fn message(&self, word: &Bits) -> Bits {
        self.message_columns
            .iter()
            .map(|&column| word.get(column))
            .collect()
    }
}

#[cfg(test)]
mod tests {
    use super::*;

    #[test]
    fn p5_and_p6() {
        let lengths = Lengths::new(1_047, 4, 9);
        assert_eq!(lengths.block_rows, 116);
        assert_eq!(lengths.gross, 1_044);
        assert_eq!(lengths.checks, 464);
        assert_eq!(lengths.net, 580);
        let lengths = Lengths::new(1_047, 3, 9);
        assert_eq!(lengths.checks, 348);
        assert_eq!(lengths.net, 696);
        assert_eq!(lengths.work(), 53_964);
    }

    #[test]
    fn a_has_wr_ones_a_row_and_wc_a_column() {
        for (wc, wr) in [(3, 4), (3, 9), (5, 7), (8, 9)] {
            let lengths = Lengths::new(500, wc, wr);
            let matrix = CheckMatrix::new(&lengths);
            assert_eq!(matrix.rows().len(), lengths.checks);
            let mut weights = vec![0; lengths.gross];
            for row in matrix.rows() {
                assert_eq!(row.ones().count(), wr);
                row.ones().for_each(|column| weights[column] += 1);
            }
            assert!(weights.iter().all(|&weight| weight == wc));
        }
    }

    /// Whether a column is a sum of others, by a search that shares nothing
    /// with the elimination of rows.
    fn is_sum(basis: &mut Vec<Bits>, mut column: Bits) -> bool {
        for element in basis.iter() {
            if column.get(element.last_one().unwrap()) {
                column.add(element);
            }
        }
        if column.last_one().is_none() {
            return true;
        }
        basis.push(column);
        basis.sort_by_key(|element| std::cmp::Reverse(element.last_one()));
        false
    }

    #[test]
    fn check_columns_are_those_that_are_no_sum() {
        for (capacity, wc, wr) in [(60, 3, 4), (77, 3, 9), (130, 5, 7), (90, 8, 9), (4, 3, 4)] {
            let lengths = Lengths::new(capacity, wc, wr);
            let matrix = CheckMatrix::new(&lengths);
            let mut basis = Vec::new();
            let mut expected = Vec::new();
            for place in (0..lengths.gross).rev() {
                let column = matrix.rows().iter().map(|row| row.get(place)).collect();
                if !is_sum(&mut basis, column) {
                    expected.push(place);
                }
            }
            let systematic = matrix.eliminate();
            assert_eq!(systematic.check_columns(), expected);
            let spare = systematic.message_columns().len() - lengths.net;
            assert!(spare >= wc - 1);
        }
    }

    #[test]
    fn a_codeword_meets_every_check_and_holds_its_message() {
        let lengths = Lengths::new(333, 4, 7);
        let checks = CheckMatrix::new(&lengths).rows().to_vec();
        let systematic = CheckMatrix::new(&lengths).eliminate();
        let message: Bits = (0..lengths.net).map(|i| i % 3 == 0 || i % 7 == 2).collect();
        let word = systematic.codeword(&message);
        assert!(checks.iter().all(|row| !row.odd_with(&word)));
        let mut held = systematic.message(&word);
        assert!(held.ones().all(|index| index < lengths.net));
        held.truncate(lengths.net);
        assert_eq!(held, message);
    }
}
