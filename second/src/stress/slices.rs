//! Random lengths of the slice of places, around what a read needs.

use second::chance::Chance;
use second::mending::{mend, Mending};
use second::Symbol;

/// What the rule does with a matrix, where it passes test 7. That is little
/// beside a read, which also eliminates the check matrix.
fn mending(symbol: &Symbol, matrix: &[u8]) -> Option<Mending> {
    let colours = symbol.params().colours;
    if matrix.iter().any(|&module| u32::from(module) >= colours) {
        return None;
    }
    let mut word = symbol.undo_interleaving(&symbol.pick(matrix));
    word.truncate(symbol.lengths().gross);
    Some(mend(symbol.check_matrix().rows(), &mut word))
}

/// A length for a read that passes the tests 1 to 5.
pub fn draw(chance: &mut Chance, symbol: &Symbol, matrix: &[u8]) -> usize {
    let checks = symbol.lengths().checks;
    let (repairs, unmet) = mending(symbol, matrix).map_or((0, 0), |m| (m.turned.len(), m.unmet));
    match chance.below(16) {
        0..=3 => repairs,
        4..=6 => repairs.saturating_sub(1),
        7 | 8 => repairs + 1,
        9 => 0,
        10 => checks,
        11 | 12 => unmet,
        13 => chance.below(repairs + 1),
        14 => chance.below(checks + 1),
        _ => checks + chance.between(1, 100),
    }
}

/// A length for a read that is refused before its word is received.
pub fn any(chance: &mut Chance) -> usize {
    let some = chance.below(400);
    chance.pick(&[0, 1, some, some])
}
