//! One case given to both codecs, and what differs.

use crate::both::{Codec, PROVED, SECOND};
use crate::case::{Call, Case};
use second::params::GIVEN;
use second::{ReadAnswer, Refusal, Sizes};
use std::panic;

#[derive(Clone, Copy, Debug, PartialEq, Eq)]
pub enum Answer {
    Write(Refusal),
    Read(ReadAnswer),
}

/// What both calls of a case answered, and the places that a read stored.
#[derive(Clone, Debug, PartialEq, Eq)]
pub struct Answers {
    pub sizes: Result<Sizes, Refusal>,
    pub answer: Answer,
    pub places: Vec<u16>,
}

impl Answers {
    fn number(&self) -> u32 {
        match self.answer {
            Answer::Write(refusal) => refusal.number,
            Answer::Read(answer) => answer.number,
        }
    }
}

/// Bytes or numbers in front of and behind what is lent.
const GUARD: usize = 64;

/// A lent buffer between guards.
struct Guarded<T> {
    whole: Vec<T>,
    front: usize,
    behind: usize,
}

impl<T: Copy + PartialEq> Guarded<T> {
    /// The front guard's length varies, and with it the alignment.
    fn new(lent: impl Iterator<Item = T>, guard: T, shift: u8) -> Guarded<T> {
        let front = GUARD + usize::from(shift % 16);
        let mut whole = vec![guard; front];
        whole.extend(lent);
        let behind = whole.len();
        whole.resize(behind + GUARD, guard);
        Guarded {
            whole,
            front,
            behind,
        }
    }

    fn lent(&mut self) -> &mut [T] {
        &mut self.whole[self.front..self.behind]
    }

    /// The name with the first place where two buffers differ; in the guard in
    /// front of what is lent the place is below 0.
    fn difference(&self, name: &'static str, other: &Guarded<T>) -> Option<Place> {
        let mut pairs = self.whole.iter().zip(&other.whole);
        let place = pairs.position(|(one, other)| one != other)?;
        Some((name, place as isize - self.front as isize))
    }
}

/// A buffer and a place in it.
type Place = (&'static str, isize);

/// All that is lent in a case, also what a call may not store to. The second
/// program has no unsafe code, so its guards stay, and those of the proved
/// library are compared with them.
struct Buffers {
    list: Guarded<u16>,
    message: Guarded<u8>,
    matrix: Guarded<u8>,
    work: Guarded<u8>,
    places: Guarded<u16>,
}

impl Buffers {
    fn new(case: &Case) -> Buffers {
        let fill = case.fill;
        let guard = !fill;
        let given = |bytes: &[u8]| Guarded::new(bytes.iter().copied(), guard, fill);
        let blank = |length: usize| {
            // no constant byte, so that a byte stored by mistake shows
            let bytes = (0..length).map(|place| (place as u8).wrapping_mul(167) ^ fill);
            Guarded::new(bytes, guard, fill / 16)
        };
        let (message, matrix, slice) = match &case.call {
            Call::Write(message, matrix) => (given(message), blank(*matrix), 0),
            Call::Read(matrix, room, slice) => (blank(*room), given(matrix), *slice),
        };
        // no constant either, and none of them 0 or a place
        let numbers = (0..slice).map(|place| {
            let number = (place as u16).wrapping_mul(40_503) ^ u16::from(fill);
            number | 0x8000
        });
        Buffers {
            list: Guarded::new(case.list.iter().copied(), 0xA5A5, fill),
            message,
            matrix,
            work: blank(case.work),
            places: Guarded::new(numbers, 0x5A5A, fill / 16),
        }
    }

    fn difference(&self, other: &Buffers) -> Option<Place> {
        self.list
            .difference("list", &other.list)
            .or_else(|| self.message.difference("message", &other.message))
            .or_else(|| self.matrix.difference("matrix", &other.matrix))
            .or_else(|| self.work.difference("work", &other.work))
            .or_else(|| self.places.difference("places", &other.places))
    }
}

fn run(codec: &Codec, case: &Case) -> (Answers, Buffers) {
    let mut lent = Buffers::new(case);
    let (params, list, work) = (&case.params, lent.list.lent(), lent.work.lent());
    let (message, matrix) = (lent.message.lent(), lent.matrix.lent());
    let slice = lent.places.lent();
    let sizes = (codec.sizes)(params, list);
    let (answer, stored) = match &case.call {
        Call::Write(..) => {
            let refusal = (codec.write)(params, list, message, matrix, work);
            (Answer::Write(refusal), 0)
        }
        Call::Read(..) => {
            let answer = (codec.read)(params, list, matrix, work, message, slice);
            (Answer::Read(answer), answer.stored())
        }
    };
    let answers = Answers {
        sizes,
        answer,
        places: slice.iter().take(stored).copied().collect(),
    };
    (answers, lent)
}

/// A panic is told on standard error, and is a difference.
fn run_or_panic(codec: &Codec, case: &Case) -> Option<(Answers, Buffers)> {
    panic::catch_unwind(|| run(codec, case)).ok()
}

/// What both answered, or how they differ. That both give a number which no call
/// gives is a difference from the papers.
pub fn compare(case: &Case) -> Result<Answers, String> {
    let proved = run_or_panic(&PROVED, case);
    let second = run_or_panic(&SECOND, case);
    let (proved, second) = match (proved, second) {
        (Some(proved), Some(second)) => (proved, second),
        (None, _) => return Err("the proved library's call panicked".to_string()),
        (_, None) => return Err("the second program's call panicked".to_string()),
    };
    let place = proved.1.difference(&second.1);
    if proved.0 == second.0 && place.is_none() {
        let answers = second.0;
        let number = answers.number();
        return if GIVEN.contains(&number) {
            Ok(answers)
        } else {
            Err(format!("both: {answers:?}\n{number} is not given"))
        };
    }
    let place = place.map_or("no buffer differs".to_string(), |(name, place)| {
        format!("the first difference of buffers is in {name}, at {place}")
    });
    let (proved, second) = (proved.0, second.0);
    Err(format!("proved: {proved:?}\nsecond: {second:?}\n{place}"))
}
