//! The calls that are timed: written, read undamaged and read damaged, in a
//! small and a large symbol with two weights each.

use second::generator::Generator;
use second::geometry::Layout;
use second::{read, sizes, stream, write, Params, Sizes, Symbol};

pub enum Call {
    Write,
    /// The matrix that is read.
    Read(Vec<u8>),
}

pub struct Input {
    pub params: Params,
    pub list: Vec<u16>,
    pub sizes: Sizes,
    pub message: Vec<u8>,
    pub call: Call,
    about: String,
}

impl Input {
    pub fn name(&self) -> String {
        let (p, s) = (&self.params, &self.sizes);
        format!("C {}, {}/{} | {}", s.capacity, p.wc, p.wr, self.about)
    }

    pub fn shape(&self) -> String {
        let (s, colours) = (&self.sizes, self.params.colours);
        let (capacity, columns, rows) = (s.capacity, s.columns, s.rows);
        let entries = self.list.len() / 3;
        format!("C {capacity}: {columns} x {rows} modules, {colours} colours, {entries} entries.")
    }

    pub fn is_write(&self) -> bool {
        matches!(self.call, Call::Write)
    }
}

fn primary(sides: (u32, u32), colours: u32) -> Params {
    Params {
        kind: 0,
        horizontal: sides.0,
        vertical: sides.1,
        colours,
        black: 0,
        cyan: 1,
        yellow: 2,
        wc: 3,
        wr: 9,
        mask: 7,
        turn: 0,
    }
}

/// Entries spread evenly over the modules outside the patterns.
fn spread(params: &Params, entries: usize) -> Vec<u16> {
    let layout = Layout::with_patterns(params);
    let free = layout.data_modules();
    let chosen = (0..entries).map(|entry| (entry, free[entry * free.len() / entries]));
    chosen
        .flat_map(|(entry, index)| {
            let (column, row) = (index % layout.columns(), index / layout.columns());
            let colour = entry % params.colours as usize;
            [column + 1, row + 1, colour]
        })
        .map(|number| number as u16)
        .collect()
}

/// The squarest 4-colour symbol of 4,096 bits with some dozens of entries.
fn large() -> (Params, Vec<u16>) {
    let shapes = (1..=32).flat_map(|across| (1..=across).map(move |down| (across, down)));
    let found = shapes.filter_map(|sides| {
        let params = primary(sides, 4);
        let free = Layout::with_patterns(&params).data_modules().len();
        let entries = free.checked_sub(2_048)?;
        (24..=64).contains(&entries).then_some((params, entries))
    });
    let (params, entries) = found
        .min_by_key(|(params, _)| params.horizontal - params.vertical)
        .expect("a symbol of 4,096 bits");
    let list = spread(&params, entries);
    (params, list)
}

/// As many bytes as fit.
fn longest_message(net: usize) -> Vec<u8> {
    let mut chance = Generator::new(1);
    (0..stream::longest(net))
        .map(|_| chance.draw() as u8)
        .collect()
}

/// The matrix with one bit wrong in some data modules, which mends to the
/// message.
fn damaged(
    symbol: &Symbol,
    list: &[u16],
    matrix: &[u8],
    message: &[u8],
    modules: usize,
) -> Vec<u8> {
    let mut chance = Generator::new(2);
    let mut data = symbol.data_modules().to_vec();
    loop {
        let mut sampled = matrix.to_vec();
        chance.shuffle(&mut data);
        for &index in &data[..modules] {
            sampled[index] ^= 1;
        }
        let mut work = vec![0; symbol.sizes().work];
        let mut back = vec![0; message.len()];
        let mut places = vec![0; symbol.sizes().checks];
        let params = symbol.params();
        let answer = read(params, list, &sampled, &mut work, &mut back, &mut places);
        if answer.number == 0 && back == message {
            return sampled;
        }
    }
}

/// The three calls over one symbol.
fn calls(params: Params, list: &[u16], modules: usize) -> Vec<Input> {
    let sizes = sizes(&params, list).expect("a legal symbol");
    let symbol = Symbol::new(&params, list).expect("a legal symbol");
    let message = longest_message(sizes.net);
    let mut matrix = vec![0; symbol.modules()];
    let mut work = vec![0; sizes.work];
    let written = write(&params, list, &message, &mut matrix, &mut work);
    assert_eq!(written.number, 0);
    let sampled = damaged(&symbol, list, &matrix, &message, modules);
    let input = |about: &str, call| Input {
        params,
        list: list.to_vec(),
        sizes,
        message: message.clone(),
        call,
        about: about.to_string(),
    };
    vec![
        input("write", Call::Write),
        input("read, undamaged", Call::Read(matrix)),
        input(
            &format!("read, {modules} modules damaged"),
            Call::Read(sampled),
        ),
    ]
}

pub fn all() -> Vec<Input> {
    let small = primary((1, 1), 8);
    let small_list = spread(&small, 24);
    let (large, large_list) = large();
    let weighed = |params, wc, wr| Params { wc, wr, ..params };
    [
        calls(weighed(small, 3, 9), &small_list, 6),
        calls(weighed(small, 4, 9), &small_list, 6),
        calls(weighed(large, 4, 7), &large_list, 36),
        calls(weighed(large, 8, 9), &large_list, 36),
    ]
    .into_iter()
    .flatten()
    .collect()
}
