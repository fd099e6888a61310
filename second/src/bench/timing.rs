//! Two functions timed in alternating rounds.

use std::fmt;
use std::time::{Duration, Instant};

const LEAST_ROUND: Duration = Duration::from_millis(20);
/// Calls that take longer than this have fewer rounds.
const LONG_CALL: Duration = Duration::from_millis(150);
const ROUNDS: usize = 15;
const FEW_ROUNDS: usize = 7;

/// Microseconds a call of both, round by round.
pub struct Timing(Vec<(f64, f64)>);

/// The time of so many calls, each of which answers 0.
fn time_of(calls: usize, call: &mut impl FnMut() -> u32) -> Duration {
    let start = Instant::now();
    let refused = (0..calls).filter(|_| call() != 0).count();
    let time = start.elapsed();
    assert_eq!(refused, 0, "refused in the rounds, not before them");
    time
}

fn microseconds(calls: usize, call: &mut impl FnMut() -> u32) -> f64 {
    time_of(calls, call).as_secs_f64() * 1e6 / calls as f64
}

/// How many calls fill a round.
fn calls_in_round(one: Duration) -> usize {
    (LEAST_ROUND.as_nanos() / one.as_nanos().max(1)) as usize + 1
}

/// Which of the two goes first changes from round to round.
pub fn measure(mut left: impl FnMut() -> u32, mut right: impl FnMut() -> u32) -> Timing {
    let (one_left, one_right) = (time_of(1, &mut left), time_of(1, &mut right));
    let long = one_left.max(one_right) > LONG_CALL;
    let (lefts, rights) = (calls_in_round(one_left), calls_in_round(one_right));
    let rounds = if long { FEW_ROUNDS } else { ROUNDS };
    let round = |number: usize| {
        if number % 2 == 0 {
            let time = microseconds(lefts, &mut left);
            (time, microseconds(rights, &mut right))
        } else {
            let time = microseconds(rights, &mut right);
            (microseconds(lefts, &mut left), time)
        }
    };
    Timing((0..rounds).map(round).collect())
}

/// The numbers in ascending order.
fn sorted(numbers: impl Iterator<Item = f64>) -> Vec<f64> {
    let mut numbers: Vec<f64> = numbers.collect();
    numbers.sort_by(f64::total_cmp);
    numbers
}

/// The middle one of an odd number of numbers.
fn median(numbers: impl Iterator<Item = f64>) -> f64 {
    let numbers = sorted(numbers);
    numbers[numbers.len() / 2]
}

impl Timing {
    fn ratios(&self) -> impl Iterator<Item = f64> + '_ {
        self.0.iter().map(|(left, right)| left / right)
    }

    pub fn ratio(&self) -> f64 {
        median(self.ratios())
    }
}

impl fmt::Display for Timing {
    fn fmt(&self, f: &mut fmt::Formatter) -> fmt::Result {
        let left = median(self.0.iter().map(|times| times.0));
        let right = median(self.0.iter().map(|times| times.1));
        let ratios = sorted(self.ratios());
        let (lowest, highest) = (ratios[0], ratios[ratios.len() - 1]);
        let (rounds, ratio) = (self.0.len(), self.ratio());
        write!(f, "{rounds} | {left:.1} | {right:.1} | {ratio:.2}")?;
        write!(f, " | {lowest:.2} to {highest:.2}")
    }
}
