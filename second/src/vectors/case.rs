//! A case: one call of the codec, its line of input and its line of output.

use crate::symbols::Symbols;
use second::chance::Chance;
use second::geometry::Layout;
use second::reserved::reserve;
use second::{read, write, Bits, Params, Symbol};

/// What every buffer is filled with before a call, and the slice of places.
const FILL: u8 = 165;
const PLACE_FILL: u16 = 42_405;

/// What a caller lends besides buffers.
#[derive(Clone)]
pub struct Lent {
    pub params: Params,
    pub list: Vec<u16>,
}

impl Lent {
    /// The symbol, where the parameters and the list are legal.
    pub fn symbol(&self) -> Symbol {
        Symbol::new(&self.params, &self.list).expect("a legal symbol")
    }

    /// C, where neither 1 nor 2 applies.
    fn capacity(&self) -> Option<usize> {
        let Lent { params, list } = self;
        if !params.in_range() {
            return None;
        }
        let mut layout = Layout::with_patterns(params);
        reserve(&mut layout, list, params.colours).ok()?;
        Some(layout.data_modules().len() * params.bits_per_module())
    }

    /// Document 01: programs keep to symbols of C at most 1,047 with wc 3, wr 9.
    fn within_limit(&self) -> bool {
        let Params { wc, wr, .. } = self.params;
        wc == 3 && wr == 9 && self.capacity().map_or(true, |c| c <= 1_047)
    }

    pub fn work(&self) -> usize {
        self.symbol().sizes().work
    }

    pub fn modules(&self) -> usize {
        self.symbol().modules()
    }

    /// K.
    pub fn checks(&self) -> usize {
        self.symbol().sizes().checks
    }
}

pub enum Call {
    /// The length of the matrix, and the message.
    Write(usize, Vec<u8>),
    /// The lengths of the message buffer and of the slice of places, and the
    /// matrix.
    Read(usize, usize, Vec<u8>),
}

pub struct Case {
    about: String,
    lent: Lent,
    work: usize,
    call: Call,
}

/// A case's number, its wrong stuffing bits, its repairs, the places stored and
/// its line of output.
pub struct Answer {
    pub number: u32,
    pub stuffing: usize,
    pub repairs: usize,
    pub places: Vec<u16>,
    pub line: String,
}

impl Case {
    pub fn is_read(&self) -> bool {
        matches!(self.call, Call::Read(..))
    }

    /// The comment and the line of input.
    pub fn input(&self) -> String {
        let p = &self.lent.params;
        let mut numbers = vec![u32::from(self.is_read())];
        numbers.extend([p.kind, p.horizontal, p.vertical, p.colours]);
        numbers.extend([p.black, p.cyan, p.yellow, p.wc, p.wr, p.mask, p.turn]);
        numbers.push(self.lent.list.len() as u32);
        numbers.extend(self.lent.list.iter().map(|&number| u32::from(number)));
        let (sizes, bytes) = match &self.call {
            Call::Write(matrix, message) => (vec![*matrix, self.work], message),
            Call::Read(room, slice, matrix) => (vec![self.work, *room, *slice], matrix),
        };
        numbers.extend(sizes.iter().map(|&size| size as u32));
        numbers.push(bytes.len() as u32);
        numbers.extend(bytes.iter().map(|&byte| u32::from(byte)));
        format!("# {}\n{}\n", self.about, joined(&numbers))
    }

    pub fn answer(&self) -> Answer {
        let mut work = vec![FILL; self.work];
        match &self.call {
            Call::Write(matrix, message) => self.written(*matrix, message, &mut work),
            Call::Read(room, slice, matrix) => self.have_read(*room, *slice, matrix, &mut work),
        }
    }

    fn written(&self, modules: usize, message: &[u8], work: &mut [u8]) -> Answer {
        let Lent { params, list } = &self.lent;
        let mut matrix = vec![FILL; modules];
        let answer = write(params, list, message, &mut matrix, work);
        let shown = if answer.number == 0 {
            matrix.iter().map(u8::to_string).collect()
        } else {
            kept(&matrix, FILL).to_string()
        };
        let (number, place) = (answer.number, answer.place);
        Answer {
            number,
            stuffing: 0,
            repairs: 0,
            places: Vec::new(),
            line: format!("write {number} {place} {} {shown}\n", state(work)),
        }
    }

    fn have_read(&self, room: usize, slice: usize, matrix: &[u8], work: &mut [u8]) -> Answer {
        let Lent { params, list } = &self.lent;
        let mut message = vec![FILL; room];
        let mut slice = vec![PLACE_FILL; slice];
        let answer = read(params, list, matrix, work, &mut message, &mut slice);
        let (bytes, rest) = message.split_at(answer.length);
        let (places, unused) = slice.split_at(answer.stored());
        let counts = [
            answer.number as usize,
            answer.place,
            answer.length,
            answer.repairs,
            answer.unmet,
            answer.stuffing,
        ];
        let states = [state(work), kept(rest, FILL), kept(unused, PLACE_FILL)];
        let fields = [
            joined(&counts),
            joined(&states),
            joined(bytes),
            joined(places),
        ];
        let mut line = "read".to_string();
        for field in fields.iter().filter(|field| !field.is_empty()) {
            line = format!("{line} {field}");
        }
        line.push('\n');
        Answer {
            number: answer.number,
            stuffing: answer.stuffing,
            repairs: answer.repairs,
            places: places.to_vec(),
            line,
        }
    }
}

fn joined<T: ToString>(numbers: &[T]) -> String {
    let texts: Vec<String> = numbers.iter().map(T::to_string).collect();
    texts.join(" ")
}

fn kept<T: PartialEq>(buffer: &[T], fill: T) -> &'static str {
    if buffer.iter().all(|number| *number == fill) {
        "kept"
    } else {
        "changed"
    }
}

/// What became of the work buffer; an empty one counts as zero.
fn state(work: &[u8]) -> &'static str {
    if work.iter().all(|&byte| byte == 0) {
        "zero"
    } else {
        kept(work, FILL)
    }
}

/// The cases in their order, and the chance that makes them.
pub struct Book {
    cases: Vec<Case>,
    pub chance: Chance,
}

impl Book {
    pub fn new(seed: u64) -> Book {
        Book {
            cases: Vec::new(),
            chance: Chance::new(seed),
        }
    }

    pub fn into_cases(self) -> Vec<Case> {
        self.cases
    }

    /// Any call, within document 01's limit for programs and what the
    /// conformance program can hold.
    pub fn call(&mut self, about: &str, lent: &Lent, work: usize, call: Call) {
        assert!(lent.within_limit() && work <= 53_964);
        assert!(lent.list.len() <= 3_100);
        let (matrix, message) = match &call {
            Call::Write(matrix, message) => (*matrix, message.len()),
            Call::Read(room, slice, matrix) => {
                assert!(*slice <= 1_024);
                (matrix.len(), *room)
            }
        };
        assert!(matrix <= 4_096 && message <= 1_024);
        self.cases.push(Case {
            about: about.to_string(),
            lent: lent.clone(),
            work,
            call,
        });
    }

    /// A write with a matrix and a work buffer of the right lengths.
    pub fn write(&mut self, about: &str, lent: &Lent, message: &[u8]) {
        let call = Call::Write(lent.modules(), message.to_vec());
        self.call(about, lent, lent.work(), call);
    }

    /// A read with a work buffer of the least length, and more room than needed
    /// for the message.
    pub fn read(&mut self, about: &str, lent: &Lent, matrix: Vec<u8>) {
        self.read_into(about, lent, matrix, 200);
    }

    /// A read with a slice of K numbers: no read has more repairs.
    pub fn read_into(&mut self, about: &str, lent: &Lent, matrix: Vec<u8>, room: usize) {
        let call = Call::Read(room, lent.checks(), matrix);
        self.call(about, lent, lent.work(), call);
    }

    /// A usual symbol whose net bits can hold a stream.
    pub fn usual_for(&mut self, stream: &Bits) -> Lent {
        loop {
            let lent = self.chance.usual();
            if stream.len() < lent.symbol().sizes().net {
                return lent;
            }
        }
    }
}
