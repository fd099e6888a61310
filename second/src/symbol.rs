//! A symbol whose parameters and list passed tests 1 to 3, and the way between
//! its bits and its modules.

use crate::bits::Bits;
use crate::code::{CheckMatrix, Lengths, Systematic};
use crate::generator;
use crate::geometry::Layout;
use crate::masking::mask_colour;
use crate::params::{Params, Refusal, Sizes};
use crate::reserved;

const MOST_BITS: usize = 4_096;

#[derive(Clone, Debug)]
pub struct Symbol {
    params: Params,
    layout: Layout,
    data_modules: Vec<usize>,
    lengths: Lengths,
}

impl Symbol {
    /// Tests 1 to 3.
    pub fn new(params: &Params, list: &[u16]) -> Result<Symbol, Refusal> {
        if !params.in_range() {
            return Err(Refusal::plain(1));
        }
        let mut layout = Layout::with_patterns(params);
        reserved::reserve(&mut layout, list, params.colours)?;
        let data_modules = layout.data_modules();
        let capacity = data_modules.len() * params.bits_per_module();
        let (wc, wr) = (params.wc as usize, params.wr as usize);
        if capacity < wr || capacity > MOST_BITS {
            return Err(Refusal::plain(3));
        }
        Ok(Symbol {
            params: *params,
            layout,
            data_modules,
            lengths: Lengths::new(capacity, wc, wr),
        })
    }

    pub fn sizes(&self) -> Sizes {
        Sizes {
            columns: self.layout.columns(),
            rows: self.layout.rows(),
            capacity: self.lengths.capacity,
            net: self.lengths.net,
            work: self.lengths.work(),
            gross: self.lengths.gross,
            checks: self.lengths.checks,
        }
    }

    pub fn params(&self) -> &Params {
        &self.params
    }

    pub fn lengths(&self) -> &Lengths {
        &self.lengths
    }

    pub fn modules(&self) -> usize {
        self.layout.modules()
    }

    /// The indices of the data modules, in the order bits fill them.
    pub fn data_modules(&self) -> &[usize] {
        &self.data_modules
    }

    pub fn check_matrix(&self) -> CheckMatrix {
        CheckMatrix::new(&self.lengths)
    }

    pub fn systematic(&self) -> Systematic {
        self.check_matrix().eliminate()
    }

    fn mask_at(&self, index: usize) -> u8 {
        let columns = self.layout.columns();
        let colours = self.params.colours as usize;
        mask_colour(self.params.mask, index % columns, index / columns, colours)
    }

    /// The word with its stuffing bits behind it: C bits, not interleaved.
    pub fn stuffed(&self, word: &Bits) -> Bits {
        let mut sequence = word.clone();
        for place in 0..self.lengths.capacity - word.len() {
            sequence.push(place % 2 == 1);
        }
        sequence
    }

    /// How many of the bits behind the word are not the stuffing bits.
    pub fn wrong_stuffing(&self, sequence: &Bits) -> usize {
        let found = sequence.iter().skip(self.lengths.gross).enumerate();
        found
            .filter(|&(place, bit)| bit != (place % 2 == 1))
            .count()
    }

    pub fn interleave(&self, sequence: &Bits) -> Bits {
        generator::interleaving(self.lengths.capacity)
            .into_iter()
            .map(|source| sequence.get(source))
            .collect()
    }

    pub fn undo_interleaving(&self, interleaved: &Bits) -> Bits {
        let mut sequence = Bits::zeros(self.lengths.capacity);
        let sources = generator::interleaving(self.lengths.capacity);
        for (bit, source) in interleaved.iter().zip(sources) {
            sequence.set(source, bit);
        }
        sequence
    }

    /// Fills a matrix with the fixed modules and the masked data modules of C
    /// interleaved bits.
    pub fn place(&self, interleaved: &Bits, matrix: &mut [u8]) {
        for (index, module) in matrix.iter_mut().enumerate() {
            *module = self.layout.fixed(index).unwrap_or(0);
        }
        let width = self.params.bits_per_module();
        for (number, &index) in self.data_modules.iter().enumerate() {
            let colour = (0..width).fold(0, |colour, bit| {
                colour << 1 | u8::from(interleaved.get(number * width + bit))
            });
            matrix[index] = colour ^ self.mask_at(index);
        }
    }

    /// The C bits of a matrix as they were placed, the mask undone. Every
    /// module must be below N.
    pub fn pick(&self, matrix: &[u8]) -> Bits {
        let mut bits = Bits::new();
        for &index in &self.data_modules {
            let colour = matrix[index] ^ self.mask_at(index);
            bits.push_number(colour.into(), self.params.bits_per_module());
        }
        bits
    }

    /// A matrix of any C bits that are not yet interleaved.
    pub fn matrix_of_sequence(&self, sequence: &Bits) -> Vec<u8> {
        let mut matrix = vec![0; self.modules()];
        self.place(&self.interleave(sequence), &mut matrix);
        matrix
    }

    /// A matrix whose received word is any Pg bits, the stuffing being right.
    pub fn matrix_of_word(&self, word: &Bits) -> Vec<u8> {
        self.matrix_of_sequence(&self.stuffed(word))
    }

    /// A matrix of the codeword with any bits in its message columns; those
    /// behind the first Pn fall on the spare columns.
    pub fn matrix_of_message_columns(&self, message: &Bits) -> Vec<u8> {
        self.matrix_of_word(&self.systematic().codeword(message))
    }
}
