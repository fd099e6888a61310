//! The expected output of the programs that run known values.
//!
//! `known code` is that of `code_vectors`: the first row of each block of A at
//! C 1,047, wc 3 and wr 9, the interleaving of 10 bits and its undoing, and the
//! front of the interleaving of 1,047.
//!
//! `known streams` is that of `stream_vectors` for the lines of standard input:
//! `r:` and net bits, or `w:` and a message.

use second::code::{CheckMatrix, Lengths};
use second::{generator, stream, Bits};
use std::io::{self, Read, Write};

fn code() -> Vec<u8> {
    let lengths = Lengths::new(1_047, 3, 9);
    let matrix = CheckMatrix::new(&lengths);
    let block = matrix.rows().len() / 3;
    let firsts = (0..3).map(|number| &matrix.rows()[number * block]);
    let mut numbers: Vec<usize> = firsts.flat_map(Bits::ones).collect();
    numbers.extend(generator::interleaving(10));
    // undone, the ten stand in their order again
    numbers.extend(0..10);
    numbers.extend(&generator::interleaving(1_047)[..6]);
    let lines = numbers.iter().map(|number| format!("{number}\n"));
    lines.collect::<String>().into_bytes()
}

/// Number, length and message, for which there is a buffer of 64 bytes.
fn reading_of(net: &Bits) -> Vec<u8> {
    let stream = stream::without_end_mark(net).ok_or(11);
    let read = stream.and_then(|s| stream::read(&s).map_err(stream::Fault::number));
    let (number, message) = match read {
        Ok(message) if message.len() > 64 => (14, Vec::new()),
        Ok(message) => (0, message),
        Err(number) => (number, Vec::new()),
    };
    let front = format!("{number} {} ", message.len());
    [front.as_bytes(), &message, b"\n"].concat()
}

/// The length of the stream, test 6 with as many net bits and with one more,
/// and net bits with three zeros behind the end mark.
fn writing_of(message: &[u8]) -> Vec<u8> {
    let stream = stream::write(message);
    let length = stream::length(message.len());
    let net = stream::with_end_mark(&stream, length + 4);
    let digits = net.iter().map(|bit| if bit { '1' } else { '0' });
    let test = |net| if length < net { 0 } else { 6 };
    let numbers = format!("{length} {} {} ", test(length), test(length + 1));
    (numbers + &digits.collect::<String>() + "\n").into_bytes()
}

fn streams(input: &[u8]) -> Vec<u8> {
    let lines = input.split(|&byte| byte == b'\n');
    let output = lines.map(|line| match line {
        [b'r', b':', ..] => {
            let mut net = Bits::new();
            net.push_text(&String::from_utf8_lossy(line));
            reading_of(&net)
        }
        [b'w', b':', message @ ..] => writing_of(message),
        _ => Vec::new(),
    });
    output.flatten().collect()
}

fn main() -> io::Result<()> {
    let output = match std::env::args().nth(1).as_deref() {
        Some("code") => code(),
        Some("streams") => {
            let mut input = Vec::new();
            io::stdin().read_to_end(&mut input)?;
            streams(&input)
        }
        _ => b"known code or known streams\n".to_vec(),
    };
    io::stdout().write_all(&output)
}
