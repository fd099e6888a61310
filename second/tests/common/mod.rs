//! What the tests share: a symbol to begin from, lists, round trips.
#![allow(dead_code)]

use second::geometry::Layout;
use second::{stream, Bits, Params, Symbol};

/// A primary symbol of version 1 with 8 colours, wc 3 and wr 9.
pub fn params() -> Params {
    Params {
        kind: 0,
        horizontal: 1,
        vertical: 1,
        colours: 8,
        black: 0,
        cyan: 3,
        yellow: 2,
        wc: 3,
        wr: 9,
        mask: 0,
        turn: 0,
    }
}

/// A legal list of the first data modules, row after row.
pub fn reserved_list(params: &Params, entries: usize) -> Vec<u16> {
    let layout = Layout::with_patterns(params);
    let free = (0..layout.modules()).filter(|&index| layout.fixed(index).is_none());
    free.take(entries)
        .flat_map(|index| {
            let column = (index % layout.columns() + 1) as u16;
            let row = (index / layout.columns() + 1) as u16;
            [column, row, (index as u32 % params.colours) as u16]
        })
        .collect()
}

/// A symbol, and what a caller lends for it.
pub struct Lent {
    pub params: Params,
    pub list: Vec<u16>,
    pub symbol: Symbol,
}

/// A symbol of so many bits.
pub fn lent(params: Params, capacity: usize) -> Lent {
    let free = Layout::with_patterns(&params).data_modules().len();
    let list = reserved_list(&params, free - capacity / params.bits_per_module());
    let symbol = Symbol::new(&params, &list).unwrap();
    assert_eq!(symbol.lengths().capacity, capacity);
    Lent {
        params,
        list,
        symbol,
    }
}

impl Lent {
    /// The codeword of a stream written as a text.
    pub fn codeword(&self, stream: &str) -> Bits {
        let mut bits = Bits::new();
        bits.push_text(stream);
        let net = stream::with_end_mark(&bits, self.symbol.sizes().net);
        self.symbol.systematic().codeword(&net)
    }
}

/// Writes a message to a symbol made with `reserved_list` and, if it fits, reads
/// it back; gives the writer's number. The slice is empty: what was written has
/// no repair.
pub fn round_trip(symbol: &Symbol, message: &[u8]) -> u32 {
    let entries = {
        let layout = Layout::with_patterns(symbol.params());
        layout.data_modules().len() - symbol.data_modules().len()
    };
    let list = reserved_list(symbol.params(), entries);
    let mut matrix = vec![165; symbol.modules()];
    let mut work = vec![165; symbol.sizes().work];
    let written = second::write(symbol.params(), &list, message, &mut matrix, &mut work);
    assert!(work.iter().all(|&byte| byte == 0));
    if written.number == 0 {
        let mut back = vec![165; message.len() + 3];
        let params = symbol.params();
        let answer = second::read(params, &list, &matrix, &mut work, &mut back, &mut []);
        assert_eq!(answer.number, 0);
        let counts = (answer.repairs, answer.unmet, answer.stuffing);
        assert_eq!(counts, (0, 0, 0));
        assert_eq!(&back[..answer.length], message);
        assert_eq!(&back[answer.length..], [165; 3]);
    }
    written.number
}
