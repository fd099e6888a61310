//! Symbols written and read back over many parameters, and with one bit turned.

mod common;

use common::{params, reserved_list, round_trip};
use second::chance::Chance;
use second::generator::interleaving;
use second::geometry::Layout;
use second::{read, stream, Params, Symbol};

fn random_params(chance: &mut Chance) -> Params {
    let colours = [4, 8][chance.below(2)];
    let mut palette: Vec<u32> = (0..colours).collect();
    for place in 0..3 {
        let other = place + chance.below(palette.len() - place);
        palette.swap(place, other);
    }
    let wc = 3 + chance.below(6) as u32;
    Params {
        kind: chance.below(2) as u32,
        horizontal: 1 + chance.below(7) as u32,
        vertical: 1 + chance.below(7) as u32,
        colours,
        black: palette[0],
        cyan: palette[1],
        yellow: palette[2],
        wc,
        wr: wc + 1 + chance.below(9 - wc as usize) as u32,
        mask: chance.below(8) as u32,
        turn: chance.below(2) as u32,
    }
}

/// Enough entries to bring the capacity down to a chosen one, if they may.
fn symbol_near(params: &Params, capacity: usize) -> Option<(Symbol, Vec<u16>)> {
    let free = Layout::with_patterns(params).data_modules().len();
    let wanted = capacity / params.bits_per_module();
    let list = reserved_list(params, free.saturating_sub(wanted).min(1_024));
    let symbol = Symbol::new(params, &list).ok()?;
    Some((symbol, list))
}

#[test]
fn random_legal_parameters() {
    let mut chance = Chance::new(0x5EED);
    let mut written = 0;
    while written < 400 {
        let parameters = random_params(&mut chance);
        let capacity = 60 + chance.below(1_500);
        if let Some((symbol, _)) = symbol_near(&parameters, capacity) {
            let length = chance.below(symbol.sizes().net / 8 + 2);
            let message = chance.bytes(length);
            let fits = stream::length(length) < symbol.sizes().net;
            let expected = if fits { 0 } else { 6 };
            assert_eq!(round_trip(&symbol, &message), expected);
            written += 1;
        }
    }
}

#[test]
fn every_wc_and_wr_mask_and_turn() {
    for wc in 3..=8 {
        for wr in (wc + 1)..=9 {
            for (mask, turn) in (0..8).zip([0, 1].into_iter().cycle()) {
                let parameters = Params {
                    wc,
                    wr,
                    mask,
                    turn,
                    horizontal: 6,
                    ..params()
                };
                let (symbol, _) = symbol_near(&parameters, 300).unwrap();
                assert_eq!(round_trip(&symbol, b""), 0);
                let most = (0..100)
                    .rev()
                    .find(|&bytes| stream::length(bytes) < symbol.sizes().net);
                let message = vec![wr as u8; most.unwrap()];
                assert_eq!(round_trip(&symbol, &message), 0);
            }
        }
    }
}

#[test]
fn the_least_symbols() {
    for wc in 3..=8 {
        for wr in (wc + 1)..=9 {
            let parameters = Params { wc, wr, ..params() };
            let capacity = (wr as usize + 2) / 3 * 3;
            let (symbol, _) = symbol_near(&parameters, capacity).unwrap();
            assert_eq!(symbol.lengths().block_rows, 1);
            assert_eq!(round_trip(&symbol, b""), 0);
            assert_eq!(round_trip(&symbol, b"A"), 6);
        }
    }
}

#[test]
fn the_greatest_symbol() {
    let parameters = Params {
        horizontal: 5,
        vertical: 5,
        wc: 4,
        ..params()
    };
    let (symbol, _) = symbol_near(&parameters, 4_096).unwrap();
    assert_eq!(round_trip(&symbol, &[0xA5; 200]), 0);
}

/// Turns each bit of a symbol alone. The three checks of a turned bit are unmet
/// then; a lower bit that shares two of them is turned first, and the word may
/// stick. A stuffing bit stands in no check: the message is read, and the bit
/// is counted, but has no place.
#[test]
fn single_turned_bits() {
    let parameters = params();
    let list = reserved_list(&parameters, 24);
    let symbol = Symbol::new(&parameters, &list).unwrap();
    let message = b"each bit of this symbol is turned alone";
    let mut matrix = vec![0; symbol.modules()];
    let mut work = vec![0; symbol.sizes().work];
    let done = second::write(&parameters, &list, message, &mut matrix, &mut work);
    assert_eq!(done.number, 0);
    let (mut mended, mut stuck, mut stuffing, mut other) = (0, 0, 0, 0);
    let sources = interleaving(1_047);
    for (number, &index) in symbol.data_modules().iter().enumerate() {
        for bit in 0..3 {
            // the first bit of a module is the highest
            let place = sources[3 * number + 2 - bit] + 1;
            let mut damaged = matrix.clone();
            damaged[index] ^= 1 << bit;
            let (mut back, mut places) = ([0; 200], [0; 348]);
            let lent = (&mut work, &mut back, &mut places);
            let answer = read(&parameters, &list, &damaged, lent.0, lent.1, lent.2);
            let is_message = &back[..answer.length] == message;
            match (answer.number, answer.repairs, answer.stuffing) {
                (0, 1, 0) if is_message && usize::from(places[0]) == place => mended += 1,
                (0, 0, 1) if is_message && answer.unmet == 0 => stuffing += 1,
                (9, _, 0) => stuck += 1,
                _ => other += 1,
            }
        }
    }
    assert_eq!((mended, stuck, stuffing, other), (949, 95, 3, 0));
}
