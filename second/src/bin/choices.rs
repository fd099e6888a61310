//! What wc and wr do to a label of 1,047 bits: how many bytes it holds, and how
//! many wrong bits the rule puts right; and at how many smaller sizes one wrong
//! bit is not. Prints two Markdown tables.
//!
//! A word is mended by its wrong bits alone, whatever codeword it comes from, so
//! the codeword 0 stands for all: the word is put right where the rule ends with
//! no bit set.

use second::code::{CheckMatrix, Lengths};
use second::generator::Generator;
use second::mending::mend;
use second::stream::longest;
use second::Bits;

const CAPACITY: usize = 1_047;
const ROUNDS: usize = 1_000;

/// How many of some words were put right, were stuck, and became another
/// codeword.
#[derive(Default)]
struct Outcomes {
    right: usize,
    stuck: usize,
    other: usize,
}

impl Outcomes {
    fn count(&mut self, checks: &[Bits], wrong: &[usize], gross: usize) {
        let mut word = Bits::zeros(gross);
        wrong.iter().for_each(|&bit| word.set(bit, true));
        let mending = mend(checks, &mut word);
        if mending.stuck {
            self.stuck += 1;
        } else if word.ones().next().is_none() {
            self.right += 1;
        } else {
            self.other += 1;
        }
    }

    /// The share that was put right.
    fn share(&self) -> String {
        let all = self.right + self.stuck + self.other;
        format!("{:.1} %", 100.0 * self.right as f64 / all as f64)
    }
}

/// Some different places below `gross`.
fn places(generator: &mut Generator, gross: usize, count: usize) -> Vec<usize> {
    let mut chosen = Vec::new();
    while chosen.len() < count {
        let place = generator.draw() as usize % gross;
        if !chosen.contains(&place) {
            chosen.push(place);
        }
    }
    chosen
}

/// A row of the table: every word with one wrong bit, and random words with
/// more.
fn row(wc: usize, wr: usize) -> String {
    let lengths = Lengths::new(CAPACITY, wc, wr);
    let matrix = CheckMatrix::new(&lengths);
    let mut single = Outcomes::default();
    for bit in 0..lengths.gross {
        single.count(matrix.rows(), &[bit], lengths.gross);
    }
    let mut other = single.other;
    let mut generator = Generator::new(1);
    let shares = [4, 8, 16].map(|wrong| {
        let mut outcomes = Outcomes::default();
        for _ in 0..ROUNDS {
            let chosen = places(&mut generator, lengths.gross, wrong);
            outcomes.count(matrix.rows(), &chosen, lengths.gross);
        }
        other += outcomes.other;
        outcomes.share()
    });
    let room = longest(lengths.net);
    let right = format!("{} of {}", single.right, lengths.gross);
    let shares = shares.join(" | ");
    format!(
        "| {} | {} | {} | {} | {} | {} |",
        wc, wr, room, right, shares, other
    )
}

/// At how many of the sizes with up to 116 rows in a block two columns of A are
/// alike, some word with one wrong bit is stuck, and some becomes another
/// codeword.
fn sizes_row(wc: usize, wr: usize) -> String {
    let (mut alike, mut stuck, mut other) = (0, 0, 0);
    for block_rows in 1..=116 {
        let lengths = Lengths::new(block_rows * wr, wc, wr);
        let matrix = CheckMatrix::new(&lengths);
        let mut columns = vec![Vec::new(); lengths.gross];
        for (number, check) in matrix.rows().iter().enumerate() {
            check.ones().for_each(|column| columns[column].push(number));
        }
        columns.sort();
        alike += usize::from(columns.windows(2).any(|pair| pair[0] == pair[1]));
        let mut single = Outcomes::default();
        for bit in 0..lengths.gross {
            single.count(matrix.rows(), &[bit], lengths.gross);
        }
        stuck += usize::from(single.stuck > 0);
        other += usize::from(single.other > 0);
    }
    format!("| {} | {} | {} | {} | {} |", wc, wr, alike, stuck, other)
}

fn main() {
    println!("| wc | wr | bytes | one wrong bit | 4 wrong bits | 8 wrong bits | 16 wrong bits | another codeword |");
    println!("|---|---|---|---|---|---|---|---|");
    for (wc, wr) in [(3, 9), (3, 7), (4, 9), (4, 7), (5, 9), (6, 9), (8, 9)] {
        println!("{}", row(wc, wr));
    }
    println!(
        "\n| wc | wr | columns alike | one wrong bit stuck | one wrong bit into another codeword |"
    );
    println!("|---|---|---|---|---|");
    for (wc, wr) in [(3, 9), (4, 9), (5, 9)] {
        println!("{}", sizes_row(wc, wr));
    }
}
