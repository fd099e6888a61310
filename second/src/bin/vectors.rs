//! Writes the input and the expected output of a conformance program:
//! `vectors DIR` makes DIR/stdin and DIR/stdout, `vectors --summary` counts the
//! answers, the reads of each with 1 to 8 wrong stuffing bits, and the reads
//! with repairs. The cases come from a fixed seed, the answers from this codec.

#[path = "../vectors/case.rs"]
mod case;
#[path = "../vectors/damage.rs"]
mod damage;
#[path = "../vectors/places.rs"]
mod places;
#[path = "../vectors/refusals.rs"]
mod refusals;
#[path = "../vectors/streams.rs"]
mod streams;
#[path = "../vectors/stuffing.rs"]
mod stuffing;
#[path = "../vectors/symbols.rs"]
mod symbols;
#[path = "../vectors/writes.rs"]
mod writes;

use case::{Answer, Book, Case};
use second::params::GIVEN;
use std::path::Path;
use std::{env, fs, io, process};

const MOST_INPUT: usize = 650_000;

fn all_cases() -> Vec<Case> {
    let mut book = Book::new(0x4A41_4243_6F64_6531);
    refusals::add(&mut book);
    writes::add(&mut book);
    streams::add(&mut book);
    damage::add(&mut book);
    stuffing::add(&mut book);
    places::add(&mut book);
    book.into_cases()
}

fn write_files(directory: &Path) -> io::Result<()> {
    let cases = all_cases();
    let input: String = cases.iter().map(Case::input).collect();
    let output: String = cases.iter().map(|case| case.answer().line).collect();
    assert!(input.len() < MOST_INPUT, "{} bytes", input.len());
    fs::create_dir_all(directory)?;
    fs::write(directory.join("stdin"), input)?;
    fs::write(directory.join("stdout"), output)
}

/// The writes and reads of an answer, and its reads by wrong stuffing bits.
#[derive(Clone, Copy, Default)]
struct Row {
    writes: usize,
    reads: usize,
    stuffing: [usize; 9],
}

impl Row {
    fn count(&mut self, is_read: bool, stuffing: usize) {
        if is_read {
            self.reads += 1;
            self.stuffing[stuffing] += 1;
        } else {
            self.writes += 1;
        }
    }

    fn print(&self, name: &str) {
        print!("{name:>6}  {:6}  {:5} ", self.writes, self.reads);
        for count in &self.stuffing[1..] {
            print!(" {count:3}");
        }
        println!();
    }
}

/// The reads with repairs, and those of them that stored places.
#[derive(Default)]
struct Mended {
    reads: usize,
    stored: usize,
    most: usize,
    twice: usize,
}

impl Mended {
    fn count(&mut self, answer: &Answer) {
        let places = &answer.places;
        let mut once = places.clone();
        once.sort_unstable();
        once.dedup();
        self.reads += usize::from(answer.repairs > 0);
        self.stored += usize::from(!places.is_empty());
        self.most = self.most.max(places.len());
        self.twice += usize::from(once.len() < places.len());
    }

    fn print(&self) {
        let (reads, stored) = (self.reads, self.stored);
        println!("{reads} reads with repairs; {stored} of them stored places,");
        let (most, twice) = (self.most, self.twice);
        println!("{most} at most, and {twice} a place more than once");
    }
}

fn print_summary() {
    let (mut rows, mut all) = ([Row::default(); 17], Row::default());
    let mut mended = Mended::default();
    for case in all_cases() {
        let (answer, is_read) = (case.answer(), case.is_read());
        rows[answer.number as usize].count(is_read, answer.stuffing);
        all.count(is_read, answer.stuffing);
        mended.count(&answer);
    }
    println!("answer  writes  reads    1   2   3   4   5   6   7   8 stuffing bits wrong");
    for number in GIVEN {
        rows[number as usize].print(&number.to_string());
    }
    all.print("all");
    mended.print();
}

fn main() {
    let arguments: Vec<String> = env::args().skip(1).collect();
    match arguments.as_slice() {
        [word] if word == "--summary" => print_summary(),
        [directory] => {
            if let Err(error) = write_files(Path::new(directory)) {
                eprintln!("vectors: {directory}: {error}");
                process::exit(1);
            }
        }
        _ => {
            eprintln!("usage: vectors DIR | vectors --summary");
            process::exit(2);
        }
    }
}
