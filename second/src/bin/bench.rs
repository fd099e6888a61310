//! Times the proved library against this codec: the same inputs, one thread,
//! one run. The rounds alternate between the two, so that a drift of speed falls
//! on both.

#[path = "../both.rs"]
mod both;
#[path = "../bench/inputs.rs"]
mod inputs;
#[path = "../proved.rs"]
mod proved;
#[path = "../bench/timing.rs"]
mod timing;

use both::{Codec, PROVED, SECOND};
use inputs::{Call, Input};
use second::ReadAnswer;
use timing::{measure, Timing};

/// The buffers that a caller lends.
#[derive(PartialEq)]
struct Buffers {
    matrix: Vec<u8>,
    work: Vec<u8>,
    message: Vec<u8>,
    places: Vec<u16>,
}

impl Buffers {
    fn new(input: &Input) -> Buffers {
        Buffers {
            matrix: vec![0; input.sizes.columns * input.sizes.rows],
            work: vec![0; input.sizes.work],
            message: vec![0; input.message.len()],
            places: vec![0; input.sizes.checks],
        }
    }
}

/// One call, after clearing what it stores to.
fn run(codec: &Codec, input: &Input, lent: &mut Buffers) -> ReadAnswer {
    let (params, list) = (&input.params, &input.list);
    lent.work.fill(0);
    match &input.call {
        Call::Write => {
            lent.matrix.fill(0);
            let (matrix, work) = (&mut lent.matrix, &mut lent.work);
            let answer = (codec.write)(params, list, &input.message, matrix, work);
            ReadAnswer {
                number: answer.number,
                place: answer.place,
                length: 0,
                repairs: 0,
                unmet: 0,
                stuffing: 0,
            }
        }
        Call::Read(matrix) => {
            lent.message.fill(0);
            lent.places.fill(0);
            let (work, message) = (&mut lent.work, &mut lent.message);
            (codec.read)(params, list, matrix, work, message, &mut lent.places)
        }
    }
}

/// The repairs of a call, once both have answered 0 with the same buffers.
fn compared(input: &Input) -> usize {
    for codec in [&PROVED, &SECOND] {
        let sizes = (codec.sizes)(&input.params, &input.list);
        assert_eq!(sizes, Ok(input.sizes), "{}", input.name());
    }
    let mut left = Buffers::new(input);
    let mut right = Buffers::new(input);
    let answer = run(&PROVED, input, &mut left);
    assert_eq!(answer, run(&SECOND, input, &mut right), "{}", input.name());
    assert!(left == right, "{}: other buffers", input.name());
    assert_eq!(answer.number, 0, "{}", input.name());
    let read_back = left.message == input.message;
    assert!(input.is_write() || read_back, "{}", input.name());
    answer.repairs
}

fn timed(input: &Input) -> Timing {
    let mut lent = Buffers::new(input);
    let mut other = Buffers::new(input);
    measure(
        || run(&PROVED, input, &mut lent).number,
        || run(&SECOND, input, &mut other).number,
    )
}

fn print_head(inputs: &[Input]) {
    let compiler = option_env!("SECOND_RUSTC").unwrap_or("a rustc of unknown version");
    println!(
        "Proved library: archive {}. Second program: {compiler}, -O3.",
        proved::archive()
    );
    for input in inputs.iter().step_by(inputs.len() - 1) {
        println!("{}", input.shape());
    }
    println!("Microseconds a call, the median of the rounds. A call is timed with the clearing");
    println!("of the work buffer and of what it stores (matrix, or message and places), in both");
    println!("alike. The ratio is the median of the rounds' ratios proved / second; behind it");
    println!("the lowest and the highest.");
    println!();
    println!("| symbol | call | repairs | rounds | proved | second | ratio | lowest to highest |");
    println!("|---|---|---:|---:|---:|---:|---:|---:|");
}

fn main() {
    let inputs = inputs::all();
    print_head(&inputs);
    let mut reached = 0;
    for input in &inputs {
        let repairs = compared(input);
        let timing = timed(input);
        reached += usize::from(timing.ratio() <= 1.0);
        println!("| {} | {repairs} | {timing} |", input.name());
    }
    let rows = inputs.len();
    println!();
    println!("The ratio is at most 1.0 in {reached} of {rows} rows.");
}
