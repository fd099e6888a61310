//! The three calls. Each stands alone: nothing is kept from one to the next.

use crate::bits::Bits;
use crate::mending::mend;
use crate::params::{Params, Refusal, Sizes};
use crate::stream;
use crate::symbol::Symbol;

/// What a read answers. Length is 0 on a refusal. Repairs, unmet checks and
/// wrong stuffing bits are counted in every read that passes test 7, whatever
/// its number, and are 0 in others.
#[derive(Clone, Copy, Debug, PartialEq, Eq)]
pub struct ReadAnswer {
    pub number: u32,
    pub place: usize,
    pub length: usize,
    pub repairs: usize,
    pub unmet: usize,
    pub stuffing: usize,
}

impl ReadAnswer {
    /// The answer where nothing is counted.
    fn uncounted(refusal: Refusal) -> ReadAnswer {
        ReadAnswer {
            number: refusal.number,
            place: refusal.place,
            length: 0,
            repairs: 0,
            unmet: 0,
            stuffing: 0,
        }
    }

    /// How many numbers of its slice the read stored.
    pub fn stored(&self) -> usize {
        if self.number == 0 {
            self.repairs
        } else {
            0
        }
    }
}

/// Tests 1 to 3, and the sizes of a symbol that passes them.
pub fn sizes(p: &Params, list: &[u16]) -> Result<Sizes, Refusal> {
    Symbol::new(p, list).map(|symbol| symbol.sizes())
}

/// Tests 1 to 5. Of the work buffer only the length matters: this codec has
/// memory of its own, and only leaves the buffer as it is due.
fn lawful(p: &Params, list: &[u16], matrix: usize, work: &mut [u8]) -> Result<Symbol, Refusal> {
    let symbol = Symbol::new(p, list)?;
    if matrix != symbol.modules() {
        return Err(Refusal::plain(4));
    }
    if work.len() < symbol.lengths().work() {
        return Err(Refusal::plain(5));
    }
    work.fill(0);
    Ok(symbol)
}

/// Writes a message as a matrix. The matrix is left alone on a refusal.
pub fn write(
    p: &Params,
    list: &[u16],
    message: &[u8],
    matrix: &mut [u8],
    work: &mut [u8],
) -> Refusal {
    match lawful(p, list, matrix.len(), work) {
        Ok(symbol) => write_symbol(&symbol, message, matrix),
        Err(refusal) => refusal,
    }
}

fn write_symbol(symbol: &Symbol, message: &[u8], matrix: &mut [u8]) -> Refusal {
    let net = symbol.lengths().net;
    if stream::length(message.len()) >= net {
        return Refusal::plain(6);
    }
    let net_bits = stream::with_end_mark(&stream::write(message), net);
    let word = symbol.systematic().codeword(&net_bits);
    symbol.place(&symbol.interleave(&symbol.stuffed(&word)), matrix);
    Refusal::NONE
}

/// Reads a sampled matrix, and stores the message and the places of the bits
/// turned. Message buffer and slice are left alone on a refusal.
pub fn read(
    p: &Params,
    list: &[u16],
    matrix: &[u8],
    work: &mut [u8],
    message: &mut [u8],
    places: &mut [u16],
) -> ReadAnswer {
    match lawful(p, list, matrix.len(), work) {
        Ok(symbol) => read_symbol(&symbol, matrix, message, places),
        Err(refusal) => ReadAnswer::uncounted(refusal),
    }
}

fn read_symbol(
    symbol: &Symbol,
    matrix: &[u8],
    message: &mut [u8],
    places: &mut [u16],
) -> ReadAnswer {
    let colours = symbol.params().colours;
    if let Some(place) = matrix.iter().position(|&m| u32::from(m) >= colours) {
        return ReadAnswer::uncounted(Refusal { number: 7, place });
    }
    let mut answer = ReadAnswer::uncounted(Refusal::NONE);
    let mut word = symbol.undo_interleaving(&symbol.pick(matrix));
    // the bits behind the word say nothing about it, so they refuse nothing
    answer.stuffing = symbol.wrong_stuffing(&word);
    word.truncate(symbol.lengths().gross);
    let checks = symbol.check_matrix();
    let mending = mend(checks.rows(), &mut word);
    answer.repairs = mending.turned.len();
    answer.unmet = mending.unmet;
    if mending.stuck {
        answer.number = 9;
        return answer;
    }
    // only now is it known how many numbers the slice must hold
    if answer.repairs > places.len() {
        answer.number = 16;
        return answer;
    }
    let held = checks.eliminate().message(&word);
    match message_of(&held, symbol.lengths().net, message) {
        Ok(length) => {
            answer.length = length;
            store(mending.places(), places);
        }
        Err(number) => answer.number = number,
    }
    answer
}

/// Stores places in the front of a slice that holds them all.
fn store(found: impl Iterator<Item = u16>, places: &mut [u16]) {
    for (room, place) in places.iter_mut().zip(found) {
        *room = place;
    }
}

/// From the bits of the message columns to the length of the message, which is
/// stored; tests 10 to 14.
fn message_of(held: &Bits, net: usize, message: &mut [u8]) -> Result<usize, u32> {
    if held.last_one().map_or(false, |place| place >= net) {
        return Err(10);
    }
    let stream = stream::without_end_mark(held).ok_or(11u32)?;
    let bytes = stream::read(&stream).map_err(stream::Fault::number)?;
    match message.get_mut(..bytes.len()) {
        Some(room) => {
            room.copy_from_slice(&bytes);
            Ok(bytes.len())
        }
        None => Err(14),
    }
}
