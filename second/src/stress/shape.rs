//! Random symbols: parameters in their ranges and a legal list, which together
//! may have any capacity.

use second::chance::Chance;
use second::geometry::{inner_patterns, side_size, Layout};
use second::reserved::MOST_ENTRIES;
use second::Params;

/// Weight, lowest and highest of each range of C, drawn as often as its weight
/// says. Some sizes of the first and of the last ones are refused with 3.
const RANGES: [(usize, usize, usize); 8] = [
    (5, 0, 9),
    (12, 9, 60),
    (30, 61, 300),
    (42, 301, 1_100),
    (4, 1_101, 2_500),
    (2, 2_501, 4_096),
    (1, 4_090, 4_102),
    (4, 4_097, 62_000),
];

pub struct Shape {
    pub params: Params,
    pub list: Vec<u16>,
}

/// The modules outside the patterns, counted by document 01's formula.
fn free_modules(p: &Params) -> usize {
    let corners = if p.kind == 0 { 68 } else { 28 };
    let inner = inner_patterns(p.horizontal, p.vertical);
    side_size(p.horizontal) * side_size(p.vertical) - 7 * inner - corners
}

fn range(chance: &mut Chance) -> (usize, usize) {
    let all: usize = RANGES.iter().map(|range| range.0).sum();
    let mut drawn = chance.below(all);
    for (weight, low, high) in RANGES {
        if drawn < weight {
            return (low, high);
        }
        drawn -= weight;
    }
    unreachable!("a number below the sum of the weights")
}

/// Small symbols, long ones in both directions, and any.
fn sides(chance: &mut Chance) -> (u32, u32) {
    let (most, other) = chance.pick(&[(3, 3), (3, 3), (32, 2), (2, 32), (32, 32), (12, 12)]);
    let across = chance.between(1, most);
    (across as u32, chance.between(1, other) as u32)
}

fn params(chance: &mut Chance) -> Params {
    let colours = chance.pick(&[4, 8]);
    let mut palette: Vec<u32> = (0..colours).collect();
    chance.shuffle(&mut palette);
    let (horizontal, vertical) = sides(chance);
    let wc = chance.between(3, 8);
    Params {
        kind: chance.below(2) as u32,
        horizontal,
        vertical,
        colours,
        black: palette[0],
        cyan: palette[1],
        yellow: palette[2],
        wc: wc as u32,
        wr: chance.between(wc + 1, 9) as u32,
        mask: chance.below(8) as u32,
        turn: chance.below(2) as u32,
    }
}

/// Entries on modules drawn from those outside the patterns.
fn list(chance: &mut Chance, params: &Params, entries: usize) -> Vec<u16> {
    let layout = Layout::with_patterns(params);
    let mut free = layout.data_modules();
    chance.shuffle(&mut free);
    let mut list = Vec::new();
    for index in free.drain(..entries) {
        let (column, row) = (index % layout.columns(), index / layout.columns());
        let colour = chance.below(params.colours as usize);
        list.extend([column + 1, row + 1, colour].map(|number| number as u16));
    }
    list
}

pub fn draw(chance: &mut Chance) -> Shape {
    let (low, high) = range(chance);
    loop {
        let params = params(chance);
        let free = free_modules(&params);
        let width = params.bits_per_module();
        let least = ((low + width - 1) / width).max(free.saturating_sub(MOST_ENTRIES));
        let most = (high / width).min(free);
        if least <= most {
            // short lists and the longest ones are too rare otherwise
            let any = chance.between(least, most);
            let data_modules = chance.pick(&[most, any, any, any, any, least]);
            let list = list(chance, &params, free - data_modules);
            return Shape { params, list };
        }
    }
}
