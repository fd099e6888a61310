//! What the cases were: answers, capacities, wrong stuffing bits, repairs and
//! the places stored.

use crate::case::{Call, Case};
use crate::compare::{Answer, Answers};
use second::params::GIVEN;
use second::ReadAnswer;
use std::fmt;

/// One more than the highest number.
const ANSWERS: usize = 17;
/// The most stuffing bits there are: they are fewer than wr.
const STUFFING: usize = 8;
/// The highest C of each range.
const RANGES: [usize; 6] = [60, 300, 1_100, 2_000, 3_000, 4_096];

/// The slices of reads with repairs, each under the first name that fits.
const SLICES: [&str; 8] = [
    "as many numbers as repairs",
    "one fewer",
    "one more",
    "none",
    "as many as unmet checks",
    "K",
    "fewer than repairs",
    "more than repairs",
];

/// Where a slice stands in `SLICES`.
fn kind_of_slice(slice: usize, answer: &ReadAnswer, checks: usize) -> usize {
    let repairs = answer.repairs;
    let kinds = [
        slice == repairs,
        slice + 1 == repairs,
        slice == repairs + 1,
        slice == 0,
        slice == answer.unmet,
        slice == checks,
        slice < repairs,
    ];
    kinds.iter().position(|&is| is).unwrap_or(kinds.len())
}

#[derive(Default)]
pub struct Tally {
    cases: usize,
    sizes: [usize; ANSWERS],
    writes: [usize; ANSWERS],
    reads: [usize; ANSWERS],
    /// The reads of each answer by their wrong stuffing bits.
    stuffing: [[usize; STUFFING + 1]; ANSWERS],
    /// Those without a capacity stand behind the others.
    ranges: [usize; RANGES.len() + 1],
    mended: usize,
    most_repairs: usize,
    slices: [usize; SLICES.len()],
    /// The reads that stored places, and those that stored one twice.
    stored: usize,
    stored_twice: usize,
    most_places: usize,
}

impl Tally {
    pub fn cases(&self) -> usize {
        self.cases
    }

    pub fn count(&mut self, case: &Case, answers: &Answers) {
        self.cases += 1;
        let refused = answers.sizes.err().map_or(0, |refusal| refusal.number);
        self.sizes[refused as usize] += 1;
        let capacity = answers.sizes.map_or(usize::MAX, |sizes| sizes.capacity);
        let range = RANGES.iter().position(|&high| capacity <= high);
        self.ranges[range.unwrap_or(RANGES.len())] += 1;
        match answers.answer {
            Answer::Write(refusal) => self.writes[refusal.number as usize] += 1,
            Answer::Read(answer) => {
                self.reads[answer.number as usize] += 1;
                self.stuffing[answer.number as usize][answer.stuffing] += 1;
                self.mended += usize::from(answer.repairs > 0);
                self.most_repairs = self.most_repairs.max(answer.repairs);
            }
        }
        self.count_slice(case, answers);
        self.count_places(&answers.places);
    }

    fn count_slice(&mut self, case: &Case, answers: &Answers) {
        match (&case.call, answers.answer, answers.sizes) {
            (Call::Read(_, _, slice), Answer::Read(answer), Ok(sizes)) if answer.repairs > 0 => {
                self.slices[kind_of_slice(*slice, &answer, sizes.checks)] += 1;
            }
            _ => {}
        }
    }

    fn count_places(&mut self, places: &[u16]) {
        let mut once = places.to_vec();
        once.sort_unstable();
        once.dedup();
        self.stored += usize::from(!places.is_empty());
        self.stored_twice += usize::from(once.len() < places.len());
        self.most_places = self.most_places.max(places.len());
    }

    fn show_answers(&self, f: &mut fmt::Formatter) -> fmt::Result {
        writeln!(f, "answer   sizes  writes   reads")?;
        for number in given() {
            let counts = (self.sizes[number], self.writes[number], self.reads[number]);
            writeln!(f, "{number:6} {:7} {:7} {:7}", counts.0, counts.1, counts.2)?;
        }
        let all = |counts: &[usize]| counts.iter().sum::<usize>();
        let (writes, reads) = (all(&self.writes), all(&self.reads));
        writeln!(f, "   all {:7} {writes:7} {reads:7}\n", self.cases)
    }

    fn show_ranges(&self, f: &mut fmt::Formatter) -> fmt::Result {
        writeln!(f, "C              cases")?;
        let mut low = 4;
        for (high, count) in RANGES.iter().zip(self.ranges) {
            writeln!(f, "{low:4} to {high:4} {count:7}")?;
            low = high + 1;
        }
        let refused = self.ranges[RANGES.len()];
        writeln!(f, "refused 1-3  {refused:7}\n")
    }

    /// The reads with wrong stuffing bits: an answer a row, a count a column.
    fn show_stuffing(&self, f: &mut fmt::Formatter) -> fmt::Result {
        writeln!(f, "reads by wrong stuffing bits")?;
        write!(f, "answer")?;
        (1..=STUFFING).try_for_each(|count| write!(f, " {count:6}"))?;
        writeln!(f, "     all")?;
        for number in given().filter(|&number| self.stuffing[number][1..] != [0; STUFFING]) {
            show_counts(f, &number.to_string(), &self.stuffing[number])?;
        }
        let mut all = [0; STUFFING + 1];
        for (count, sum) in all.iter_mut().enumerate() {
            *sum = self.stuffing.iter().map(|counts| counts[count]).sum();
        }
        show_counts(f, "all", &all)?;
        writeln!(f)
    }

    fn show_slices(&self, f: &mut fmt::Formatter) -> fmt::Result {
        writeln!(f, "slices of reads with repairs")?;
        for (name, count) in SLICES.iter().zip(self.slices) {
            writeln!(f, "{name:26} {count:7}")?;
        }
        writeln!(f)
    }
}

/// The numbers that may be given; `compare` lets no other through.
fn given() -> impl Iterator<Item = usize> {
    GIVEN.iter().map(|&number| number as usize)
}

/// Reads by their wrong stuffing bits, those without any left out.
fn show_counts(f: &mut fmt::Formatter, name: &str, counts: &[usize]) -> fmt::Result {
    write!(f, "{name:>6}")?;
    for count in &counts[1..] {
        write!(f, " {count:6}")?;
    }
    writeln!(f, " {:7}", counts[1..].iter().sum::<usize>())
}

impl fmt::Display for Tally {
    fn fmt(&self, f: &mut fmt::Formatter) -> fmt::Result {
        self.show_answers(f)?;
        self.show_ranges(f)?;
        self.show_stuffing(f)?;
        self.show_slices(f)?;
        let (mended, most) = (self.mended, self.most_repairs);
        writeln!(f, "{mended} reads with repairs, {most} repairs at most")?;
        let (stored, twice, most) = (self.stored, self.stored_twice, self.most_places);
        write!(
            f,
            "{stored} reads with places stored, {most} at most; {twice} stored a place twice"
        )
    }
}
