//! Compares the proved library with this codec on random cases:
//! `stress SECONDS [SEED]`, `stress --first COUNT SEED` for the first ones of a
//! seed, or `stress --case SEED NUMBER` for one case. A seed and a number fix a
//! case.

#[path = "../both.rs"]
mod both;
#[path = "../stress/case.rs"]
mod case;
#[path = "../stress/compare.rs"]
mod compare;
#[path = "../stress/faults.rs"]
mod faults;
#[path = "../stress/matrices.rs"]
mod matrices;
#[path = "../proved.rs"]
mod proved;
#[path = "../stress/shape.rs"]
mod shape;
#[path = "../stress/slices.rs"]
mod slices;
#[path = "../stress/streams.rs"]
mod streams;
#[path = "../stress/tally.rs"]
mod tally;

use case::Case;
use compare::compare;
use std::time::{Duration, Instant, SystemTime};
use std::{env, process};
use tally::Tally;

const PROGRESS: Duration = Duration::from_secs(5);

/// Whether all cases of the time agreed, or the first ones if they take less.
fn run(time: Duration, first: u64, seed: u64) -> bool {
    println!("seed {seed}, archive {}", proved::archive());
    let start = Instant::now();
    let mut told = start;
    let mut tally = Tally::default();
    let mut difference = None;
    for number in 0..first {
        if start.elapsed() >= time || difference.is_some() {
            break;
        }
        let case = Case::draw(seed, number);
        match compare(&case) {
            Ok(answers) => tally.count(&case, &answers),
            Err(text) => difference = Some((number, text)),
        }
        if told.elapsed() >= PROGRESS {
            told = Instant::now();
            let seconds = start.elapsed().as_secs();
            eprintln!("stress: {} cases in {seconds} s", tally.cases());
        }
    }
    println!("{tally}");
    match &difference {
        None => println!("no difference"),
        Some((number, text)) => tell(seed, *number, text),
    }
    difference.is_none()
}

/// A case in full, and what came of it.
fn tell(seed: u64, number: u64, text: &str) {
    println!("seed {seed}, case {number}");
    print!("{}", Case::draw(seed, number));
    println!("{text}");
}

fn run_case(seed: u64, number: u64) -> bool {
    let result = compare(&Case::draw(seed, number));
    match &result {
        Ok(answers) => tell(seed, number, &format!("both: {answers:?}\nno difference")),
        Err(text) => tell(seed, number, text),
    }
    result.is_ok()
}

fn clock() -> u64 {
    let now = SystemTime::now().duration_since(SystemTime::UNIX_EPOCH);
    now.map_or(0, |since| since.as_nanos() as u64)
}

/// None where the arguments are not as they should be.
fn agree(arguments: &[&str]) -> Option<bool> {
    let seconds = |text: &str| text.parse().ok().map(Duration::from_secs);
    match arguments {
        ["--case", seed, number] => Some(run_case(seed.parse().ok()?, number.parse().ok()?)),
        ["--first", count, seed] => {
            let (first, seed) = (count.parse().ok()?, seed.parse().ok()?);
            Some(run(Duration::MAX, first, seed))
        }
        [time] => Some(run(seconds(time)?, u64::MAX, clock())),
        [time, seed] => Some(run(seconds(time)?, u64::MAX, seed.parse().ok()?)),
        _ => None,
    }
}

fn main() {
    let arguments: Vec<String> = env::args().skip(1).collect();
    let arguments: Vec<&str> = arguments.iter().map(String::as_str).collect();
    match agree(&arguments) {
        Some(true) => {}
        Some(false) => process::exit(1),
        None => {
            eprintln!(
                "usage: stress SECONDS [SEED] | stress --first COUNT SEED | stress --case SEED NUMBER"
            );
            process::exit(2);
        }
    }
}
