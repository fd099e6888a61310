//! What a caller can get wrong: parameters, lists and lengths.

use second::chance::Chance;
use second::geometry::Layout;
use second::Params;

/// A number outside a range: beside it, with a legal low byte, or huge.
fn outside(chance: &mut Chance, low: u32, high: u32) -> u32 {
    let beyond = high + 1 + chance.below(10) as u32;
    let truncated = chance.pick(&[1 << 8, 1 << 16, 1 << 31]) + low;
    let any = chance.number().max(high + 1);
    let huge = chance.pick(&[u32::MAX, 1 << 31, any]);
    chance.pick(&[low.wrapping_sub(1), high + 1, beyond, truncated, huge])
}

fn spoil_palette(chance: &mut Chance, p: &mut Params) {
    let high = p.colours - 1;
    let wrong = outside(chance, 0, high);
    match chance.below(6) {
        0 => p.black = wrong,
        1 => p.cyan = wrong,
        2 => p.yellow = wrong,
        3 => p.black = p.cyan,
        4 => p.cyan = p.yellow,
        _ => p.yellow = p.black,
    }
}

/// Puts one parameter outside its range, or any number into each.
pub fn spoil_params(chance: &mut Chance, p: &mut Params) {
    match chance.below(12) {
        0 => p.kind = outside(chance, 0, 1),
        1 => p.horizontal = outside(chance, 1, 32),
        2 => p.vertical = outside(chance, 1, 32),
        3 => p.colours = chance.pick(&[0, 1, 2, 3, 5, 6, 7, 9, 16, 256, 260, 65_544, u32::MAX]),
        4..=6 => spoil_palette(chance, p),
        7 => p.wc = outside(chance, 3, p.wr - 1),
        8 => p.wr = outside(chance, p.wc + 1, 9),
        9 => p.mask = outside(chance, 0, 7),
        10 => p.turn = outside(chance, 0, 1),
        _ => scatter(chance, p),
    }
}

fn scatter(chance: &mut Chance, p: &mut Params) {
    let fields = [
        &mut p.kind,
        &mut p.horizontal,
        &mut p.vertical,
        &mut p.colours,
        &mut p.black,
        &mut p.cyan,
        &mut p.yellow,
        &mut p.wc,
        &mut p.wr,
        &mut p.mask,
        &mut p.turn,
    ];
    for field in fields {
        let small = chance.below(10) as u32;
        let any = chance.number();
        *field = chance.pick(&[small, small, small, any]);
    }
}

/// Column and row of a module of a pattern.
fn on_pattern(chance: &mut Chance, layout: &Layout) -> (usize, usize) {
    loop {
        let index = chance.below(layout.modules());
        if layout.fixed(index).is_some() {
            return (index % layout.columns() + 1, index / layout.columns() + 1);
        }
    }
}

/// A column and row outside the symbol.
fn off_symbol(chance: &mut Chance, layout: &Layout) -> (usize, usize) {
    let column = chance.between(1, layout.columns());
    let row = chance.between(1, layout.rows());
    let far = chance.between(146, 65_535);
    chance.pick(&[
        (0, row),
        (column, 0),
        (layout.columns() + 1, row),
        (column, layout.rows() + 1),
        (far, row),
        (column, far),
        (256 + column, row),
        (column, 256 + row),
    ])
}

/// A list with one fault more; the parameters are in range.
pub fn spoil_list(chance: &mut Chance, list: &mut Vec<u16>, p: &Params) {
    let layout = Layout::with_patterns(p);
    if list.len() < 6 {
        list.extend([1, 1, 0, 1, 2, 0]);
    }
    let entry = chance.below(list.len() / 3) * 3;
    let earlier = chance.below(entry / 3 + 1) * 3;
    let mut move_to = |(column, row): (usize, usize)| {
        list[entry] = column as u16;
        list[entry + 1] = row as u16;
    };
    match chance.below(6) {
        0 => move_to(on_pattern(chance, &layout)),
        1 => move_to(off_symbol(chance, &layout)),
        2 => list.copy_within(earlier..earlier + 2, entry),
        3 => list[entry + 2] = outside(chance, 0, p.colours - 1) as u16,
        4 => list.truncate(list.len() - chance.between(1, 2)),
        _ => lengthen(chance, list),
    }
}

/// More than 1,024 entries, and at times a part of one behind them.
fn lengthen(chance: &mut Chance, list: &mut Vec<u16>) {
    let entries: usize = chance.pick(&[1_025, 1_025, 1_026, 1_100]);
    let part = chance.pick(&[0, 0, 1, 2]);
    let source = list.clone();
    let numbers = source.iter().cycle().copied();
    let missing = (entries * 3 + part).saturating_sub(list.len());
    list.extend(numbers.take(missing));
}

/// A length that is not the right one.
pub fn wrong_length(chance: &mut Chance, right: usize) -> usize {
    let other = chance.below(2 * right + 2);
    let wrong = chance.pick(&[0, 1, right.saturating_sub(1), right + 1, 2 * right, other]);
    if wrong == right {
        right + 1
    } else {
        wrong
    }
}

/// A length below the least one.
pub fn short_length(chance: &mut Chance, least: usize) -> usize {
    let any = chance.below(least.max(1));
    chance.pick(&[0, any, any, least.saturating_sub(1)])
}
