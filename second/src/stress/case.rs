//! A case: what a caller hands to a write or a read.

use crate::{faults, matrices, shape, slices};
use second::chance::Chance;
use second::geometry::side_size;
use second::{stream, Params, Symbol};
use std::fmt;

pub enum Call {
    /// The message, and the length of the matrix.
    Write(Vec<u8>, usize),
    /// The matrix, and the lengths of the message buffer and of the slice of
    /// places.
    Read(Vec<u8>, usize, usize),
}

pub struct Case {
    pub params: Params,
    pub list: Vec<u16>,
    pub work: usize,
    pub call: Call,
    /// What the buffers hold before the call, and how they are aligned.
    pub fill: u8,
}

/// A fault of each kind comes once in so many cases.
const FAULT_IN: usize = 10;

impl Case {
    pub fn draw(seed: u64, number: u64) -> Case {
        let chance = &mut Chance::of_case(seed, number);
        let shape::Shape { params, list } = shape::draw(chance);
        let is_read = !chance.one_in(3);
        let fill = chance.below(256) as u8;
        let symbol = Symbol::new(&params, &list).ok();
        let least = symbol.as_ref().map_or(1_000, |legal| legal.sizes().work);
        let mut case = Case {
            params,
            list,
            work: least + chance.pick(&[0, 0, 1, 7, 1_000]),
            call: Call::Read(Vec::new(), 0, 0),
            fill,
        };
        let modules = side_size(params.horizontal) * side_size(params.vertical);
        let faulty = case.spoil(chance, least);
        let matrix = if chance.one_in(FAULT_IN) {
            faults::wrong_length(chance, modules)
        } else {
            modules
        };
        let legal = symbol.filter(|_| !faulty && matrix == modules);
        case.call = if is_read {
            draw_read(chance, legal, params.colours, matrix)
        } else {
            draw_write(chance, legal, matrix)
        };
        case
    }

    /// Draws faults of the parameters, the list and the work buffer; more than
    /// one may come together. Whether there is any.
    fn spoil(&mut self, chance: &mut Chance, least: usize) -> bool {
        let (list, params, work) = (
            chance.one_in(FAULT_IN),
            chance.one_in(FAULT_IN),
            chance.one_in(FAULT_IN),
        );
        if list {
            for _ in 0..chance.pick(&[1, 1, 1, 2, 3]) {
                faults::spoil_list(chance, &mut self.list, &self.params);
            }
        }
        if params {
            faults::spoil_params(chance, &mut self.params);
        }
        if work {
            self.work = faults::short_length(chance, least);
        }
        list || params || work
    }
}

fn draw_read(chance: &mut Chance, legal: Option<Symbol>, colours: u32, modules: usize) -> Call {
    let sampled = match &legal {
        Some(symbol) => matrices::draw(chance, symbol),
        None => matrices::Sampled {
            matrix: matrices::noise(chance, colours, modules),
            length: 0,
        },
    };
    let length = sampled.length;
    let more = length + chance.below(300);
    let short = length.saturating_sub(1);
    let room = chance.pick(&[0, short, length, length + 1, more, more, more, more, more]);
    let slice = match &legal {
        Some(symbol) => slices::draw(chance, symbol, &sampled.matrix),
        None => slices::any(chance),
    };
    Call::Read(sampled.matrix, room, slice)
}

/// A message around the longest that fits, around the length at which the count
/// of a run changes its form, or any.
fn draw_write(chance: &mut Chance, legal: Option<Symbol>, modules: usize) -> Call {
    let net = legal.map_or(300, |symbol| symbol.sizes().net);
    let longest = stream::longest(net);
    let any = chance.below(longest + 1);
    let length = match chance.below(20) {
        0 | 1 => 0,
        2 | 3 => chance.between(14, 17),
        4..=7 => longest,
        8 | 9 => longest + 1,
        10 | 11 => longest + 1 + any,
        // more than one run
        12 => chance.between(8_206, 17_000),
        _ => any,
    };
    Call::Write(chance.bytes(length), modules)
}

impl fmt::Display for Case {
    fn fmt(&self, f: &mut fmt::Formatter) -> fmt::Result {
        writeln!(f, "{:?}", self.params)?;
        writeln!(f, "list of {} numbers: {:?}", self.list.len(), self.list)?;
        writeln!(f, "work buffer of {} bytes", self.work)?;
        match &self.call {
            Call::Write(message, matrix) => {
                writeln!(f, "write into a matrix of {matrix} bytes")?;
                writeln!(f, "message of {} bytes: {message:?}", message.len())
            }
            Call::Read(matrix, room, slice) => {
                writeln!(f, "read into a message buffer of {room} bytes")?;
                writeln!(f, "slice of {slice} numbers for places")?;
                writeln!(f, "matrix of {} bytes: {matrix:?}", matrix.len())
            }
        }
    }
}
