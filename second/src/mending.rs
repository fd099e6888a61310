//! The rule that mends a received word, one bit at a time.

use crate::bits::Bits;

/// How the rule ended.
#[derive(Clone, Debug, PartialEq, Eq)]
pub struct Mending {
    /// The bits turned, in the order of the steps; each is one repair.
    pub turned: Vec<usize>,
    /// Unmet checks before the first step.
    pub unmet: usize,
    /// Whether checks are left unmet.
    pub stuck: bool,
}

impl Mending {
    /// The places of the bits turned, in the order of the steps. They count
    /// from 1, and a word has at most 4,096 bits.
    pub fn places(&self) -> impl Iterator<Item = u16> + '_ {
        self.turned.iter().map(|&bit| bit as u16 + 1)
    }
}

struct Mender {
    checks_of_bit: Vec<Vec<usize>>,
    bits_of_check: Vec<Vec<usize>>,
    unmet: Vec<bool>,
    /// For each bit the unmet checks it stands in.
    complaints: Vec<usize>,
}

impl Mender {
    fn new(checks: &[Bits], word: &Bits) -> Mender {
        let mut checks_of_bit = vec![Vec::new(); word.len()];
        let mut bits_of_check = Vec::with_capacity(checks.len());
        for (number, check) in checks.iter().enumerate() {
            let bits: Vec<usize> = check.ones().collect();
            for &bit in &bits {
                checks_of_bit[bit].push(number);
            }
            bits_of_check.push(bits);
        }
        let unmet: Vec<bool> = checks.iter().map(|check| check.odd_with(word)).collect();
        let complaints = checks_of_bit
            .iter()
            .map(|checks| checks.iter().filter(|&&check| unmet[check]).count())
            .collect();
        Mender {
            checks_of_bit,
            bits_of_check,
            unmet,
            complaints,
        }
    }

    fn count_unmet(&self) -> usize {
        self.unmet.iter().filter(|&&unmet| unmet).count()
    }

    /// The lowest bit in more unmet than met checks. There is none when every
    /// check is met.
    fn suspect(&self) -> Option<usize> {
        self.complaints
            .iter()
            .zip(&self.checks_of_bit)
            .position(|(&complaints, checks)| 2 * complaints > checks.len())
    }

    fn turn(&mut self, bit: usize) {
        for &check in &self.checks_of_bit[bit] {
            self.unmet[check] = !self.unmet[check];
            for &neighbour in &self.bits_of_check[check] {
                if self.unmet[check] {
                    self.complaints[neighbour] += 1;
                } else {
                    self.complaints[neighbour] -= 1;
                }
            }
        }
    }
}

/// Mends a word where it stands. Every turn leaves fewer checks unmet, so the
/// rule ends.
pub fn mend(checks: &[Bits], word: &mut Bits) -> Mending {
    let mut mender = Mender::new(checks, word);
    let unmet = mender.count_unmet();
    let mut turned = Vec::new();
    while let Some(bit) = mender.suspect() {
        mender.turn(bit);
        word.flip(bit);
        turned.push(bit);
    }
    Mending {
        turned,
        unmet,
        stuck: mender.count_unmet() > 0,
    }
}

#[cfg(test)]
mod tests {
    use super::*;

    fn word(text: &str) -> Bits {
        text.chars().map(|c| c == '1').collect()
    }

    #[test]
    fn p10() {
        let mut received = word("100");
        let mending = mend(&[word("110"), word("101")], &mut received);
        assert_eq!(received, word("000"));
        assert!(!mending.stuck);
        assert_eq!(mending.places().collect::<Vec<_>>(), [1]);
        assert_eq!((mending.unmet, mending.turned), (2, vec![0]));
    }

    #[test]
    fn p11() {
        let checks = [word("1100"), word("1010"), word("0101"), word("0011")];
        let mut received = word("1010");
        let mending = mend(&checks, &mut received);
        assert_eq!(received, word("1010"));
        assert!(mending.stuck);
        assert_eq!((mending.unmet, mending.turned), (2, vec![]));
    }

    #[test]
    fn a_word_that_meets_every_check_stays() {
        let mut received = word("111");
        let mending = mend(&[word("110"), word("101")], &mut received);
        assert_eq!(received, word("111"));
        assert!(!mending.stuck);
        assert_eq!((mending.unmet, mending.turned), (0, vec![]));
    }

    /// The rule word for word, counting every check anew at each step.
    fn mend_slowly(checks: &[Bits], word: &mut Bits) -> Vec<usize> {
        let mut turned = Vec::new();
        loop {
            let unmet: Vec<bool> = checks.iter().map(|check| check.odd_with(word)).collect();
            let suspect = (0..word.len()).find(|&bit| {
                let stands = |want| {
                    let ours = checks
                        .iter()
                        .zip(&unmet)
                        .filter(|(check, _)| check.get(bit));
                    ours.filter(|(_, &unmet)| unmet == want).count()
                };
                stands(true) > stands(false)
            });
            match suspect {
                Some(bit) => word.flip(bit),
                None => return turned,
            }
            turned.extend(suspect);
        }
    }

    #[test]
    fn counted_anew_the_rule_turns_the_same_bits() {
        let mut chance = crate::generator::Generator::new(1);
        let mut random = move |below: u32| chance.draw() % below;
        for round in 0..300 {
            let (length, weight) = (10 + random(60), 1 + random(7));
            let checks: Vec<Bits> = (0..length / 2)
                .map(|_| (0..length).map(|_| random(length) < weight).collect())
                .collect();
            let mut fast: Bits = (0..length).map(|_| random(round + 2) == 0).collect();
            let mut slow = fast.clone();
            let mending = mend(&checks, &mut fast);
            assert_eq!(mending.turned, mend_slowly(&checks, &mut slow));
            assert_eq!(fast, slow);
            assert_eq!(
                mending.stuck,
                checks.iter().any(|check| check.odd_with(&slow))
            );
            assert!(mending.turned.len() <= mending.unmet);
        }
    }
}
