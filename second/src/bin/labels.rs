//! The label command's default symbol, written and read by this codec alone:
//! what the proved programs behind `./label` are compared with.
//!
//! `labels write` prints the text of the record on standard input; `labels
//! read` reads such a text and prints the line `NUMBER PLACE LENGTH REPAIRS
//! UNMET STUFFING`, on 0 with the places of the bits turned behind, and then the
//! message. `labels refused NUMBER`, 10 to 13, prints a text that no writer
//! makes and a reader refuses with this number.

use second::{read, sizes, stream, write, Bits, Params, Symbol};
use std::io::{self, Read, Write};

const SYMBOL: Params = Params {
    kind: 0,
    horizontal: 1,
    vertical: 1,
    colours: 8,
    black: 0,
    cyan: 3,
    yellow: 6,
    wc: 3,
    wr: 9,
    mask: 0,
    turn: 0,
};

/// Four palettes of six modules in the 8th row from above and from below, each
/// of the colours that the finder pattern nearest to it lacks: black and cyan
/// on the left, black and yellow on the right.
fn palettes() -> Vec<u16> {
    let mut list = Vec::new();
    for row in [8, 14] {
        for (first, other) in [(1, 3), (16, 6)] {
            let colours = (0..8).filter(|&colour| colour != 0 && colour != other);
            for (column, colour) in (first..).zip(colours) {
                list.extend([column, row, colour]);
            }
        }
    }
    list
}

/// One digit a module, one line a row.
fn lines_of(matrix: &[u8], columns: usize) -> String {
    let digits = matrix.iter().map(|&module| char::from(b'0' + module));
    let text: Vec<char> = digits.collect();
    text.chunks(columns)
        .map(|line| line.iter().collect::<String>() + "\n")
        .collect()
}

fn text_of(record: &[u8]) -> Result<String, u32> {
    let list = palettes();
    let sizes = sizes(&SYMBOL, &list).map_err(|refusal| refusal.number)?;
    let mut matrix = vec![0; sizes.columns * sizes.rows];
    let answer = write(
        &SYMBOL,
        &list,
        record,
        &mut matrix,
        &mut vec![0; sizes.work],
    );
    if answer.number != 0 {
        return Err(answer.number);
    }
    Ok(lines_of(&matrix, sizes.columns))
}

/// What stands in the message columns: a stream with its end mark, and for 10 a
/// 1 in the first spare column; all 0 for 11.
fn refused_columns(number: &str, net: usize) -> Option<Bits> {
    let codes = match number {
        "10" => "00001",
        "11" => return Some(Bits::zeros(net)),
        "12" => "00001 11111",
        "13" => "00001 11111 10",
        _ => return None,
    };
    let mut stream = Bits::new();
    stream.push_text(codes);
    let mut columns = stream::with_end_mark(&stream, net);
    if number == "10" {
        columns.push(true);
    }
    Some(columns)
}

fn refused_text(number: &str) -> Option<String> {
    let symbol = Symbol::new(&SYMBOL, &palettes()).ok()?;
    let sizes = symbol.sizes();
    let columns = refused_columns(number, sizes.net)?;
    let matrix = symbol.matrix_of_message_columns(&columns);
    Some(lines_of(&matrix, sizes.columns))
}

/// The line of numbers and the message of a text. The slice has K numbers, which
/// no read has more repairs than.
fn reading_of(text: &[u8]) -> Vec<u8> {
    let digits = text.iter().filter(|digit| digit.is_ascii_digit());
    let matrix: Vec<u8> = digits.map(|digit| digit - b'0').collect();
    let (mut work, mut message, mut places) = (vec![0; 53_964], vec![0; 1_024], vec![0; 348]);
    let list = palettes();
    let answer = read(
        &SYMBOL,
        &list,
        &matrix,
        &mut work,
        &mut message,
        &mut places,
    );
    let mut numbers = vec![
        answer.number as usize,
        answer.place,
        answer.length,
        answer.repairs,
        answer.unmet,
        answer.stuffing,
    ];
    let stored = places[..answer.stored()].iter();
    numbers.extend(stored.map(|&place| usize::from(place)));
    let words: Vec<String> = numbers.iter().map(usize::to_string).collect();
    let mut reading = (words.join(" ") + "\n").into_bytes();
    reading.extend(&message[..answer.length]);
    reading
}

fn input() -> io::Result<Vec<u8>> {
    let mut bytes = Vec::new();
    io::stdin().read_to_end(&mut bytes)?;
    Ok(bytes)
}

fn main() -> io::Result<()> {
    let arguments: Vec<String> = std::env::args().skip(1).collect();
    let words: Vec<&str> = arguments.iter().map(String::as_str).collect();
    let output = match words.as_slice() {
        ["write"] => match text_of(&input()?) {
            Ok(text) => text.into_bytes(),
            Err(number) => format!("refused {}\n", number).into_bytes(),
        },
        ["read"] => reading_of(&input()?),
        ["refused", number] => refused_text(number).unwrap_or_default().into_bytes(),
        _ => b"labels write, labels read or labels refused NUMBER\n".to_vec(),
    };
    io::stdout().write_all(&output)
}
