//! A row of bits packed in 64-bit words.

const WORD: usize = 64;

/// Bits numbered from 0; the places behind the last bit of the last word stay 0.
#[derive(Clone, Debug, Default, PartialEq, Eq)]
pub struct Bits {
    words: Vec<u64>,
    len: usize,
}

impl Bits {
    pub fn new() -> Bits {
        Bits::default()
    }

    pub fn zeros(len: usize) -> Bits {
        Bits {
            words: vec![0; (len + WORD - 1) / WORD],
            len,
        }
    }

    pub fn len(&self) -> usize {
        self.len
    }

    pub fn is_empty(&self) -> bool {
        self.len == 0
    }

    pub fn get(&self, index: usize) -> bool {
        assert!(index < self.len);
        self.words[index / WORD] >> (index % WORD) & 1 == 1
    }

    pub fn set(&mut self, index: usize, bit: bool) {
        if self.get(index) != bit {
            self.flip(index);
        }
    }

    pub fn flip(&mut self, index: usize) {
        assert!(index < self.len);
        self.words[index / WORD] ^= 1 << (index % WORD);
    }

    pub fn push(&mut self, bit: bool) {
        if self.len % WORD == 0 {
            self.words.push(0);
        }
        self.len += 1;
        self.set(self.len - 1, bit);
    }

    /// Appends the lowest `count` bits of a number, the highest of them first.
    pub fn push_number(&mut self, number: u32, count: usize) {
        for shift in (0..count).rev() {
            self.push(number >> shift & 1 == 1);
        }
    }

    /// Appends what a text of the characters 0 and 1 says; others are skipped.
    pub fn push_text(&mut self, text: &str) {
        for character in text.chars().filter(|c| matches!(c, '0' | '1')) {
            self.push(character == '1');
        }
    }

    pub fn append(&mut self, other: &Bits) {
        for bit in other.iter() {
            self.push(bit);
        }
    }

    pub fn truncate(&mut self, len: usize) {
        while self.len > len {
            self.set(self.len - 1, false);
            self.len -= 1;
        }
        self.words.truncate((self.len + WORD - 1) / WORD);
    }

    pub fn iter(&self) -> impl Iterator<Item = bool> + '_ {
        (0..self.len).map(move |index| self.get(index))
    }

    /// The indices of the bits that are 1, ascending.
    pub fn ones(&self) -> impl Iterator<Item = usize> + '_ {
        self.words.iter().enumerate().flat_map(|(place, &word)| {
            let mut rest = word;
            std::iter::from_fn(move || {
                if rest == 0 {
                    return None;
                }
                let index = rest.trailing_zeros() as usize;
                rest &= rest - 1;
                Some(place * WORD + index)
            })
        })
    }

    pub fn last_one(&self) -> Option<usize> {
        let place = self.words.iter().rposition(|&word| word != 0)?;
        let top = WORD - 1 - self.words[place].leading_zeros() as usize;
        Some(place * WORD + top)
    }

    /// Adds another row of the same length, in GF(2).
    pub fn add(&mut self, other: &Bits) {
        for (word, &summand) in self.words.iter_mut().zip(&other.words) {
            *word ^= summand;
        }
    }

    /// Whether the bits that are 1 in both rows are odd in number.
    pub fn odd_with(&self, other: &Bits) -> bool {
        let sum = self
            .words
            .iter()
            .zip(&other.words)
            .fold(0, |sum, (&left, &right)| sum ^ (left & right));
        sum.count_ones() % 2 == 1
    }
}

impl FromIterator<bool> for Bits {
    fn from_iter<I: IntoIterator<Item = bool>>(source: I) -> Bits {
        let mut bits = Bits::new();
        for bit in source {
            bits.push(bit);
        }
        bits
    }
}

#[cfg(test)]
mod tests {
    use super::*;

    #[test]
    fn a_row_longer_than_a_word() {
        let mut bits = Bits::zeros(130);
        assert_eq!(bits.last_one(), None);
        for index in [0, 63, 64, 129] {
            bits.flip(index);
        }
        assert_eq!(bits.ones().collect::<Vec<_>>(), [0, 63, 64, 129]);
        assert_eq!(bits.last_one(), Some(129));
        bits.truncate(129);
        assert_eq!(bits.last_one(), Some(64));
        let mut other = Bits::zeros(129);
        other.set(64, true);
        assert!(bits.odd_with(&other));
        bits.add(&other);
        assert!(!bits.odd_with(&other));
    }

    #[test]
    fn numbers_begin_with_the_highest_bit() {
        let mut bits = Bits::new();
        bits.push_number(10, 5);
        let mut text = Bits::new();
        text.push_text("01 010");
        assert_eq!(bits, text);
        assert_eq!(bits, "01010".chars().map(|c| c == '1').collect());
    }
}
