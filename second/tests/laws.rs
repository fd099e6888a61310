//! The laws of W-207: codewords and interleaved words of sums, and masking
//! twice; each with an instance small enough to follow by hand.

mod common;

use common::{params, reserved_list};
use second::chance::Chance;
use second::geometry::{side_size, Layout};
use second::masking::mask_colour;
use second::{Bits, Params, Symbol};

/// A symbol with so many data modules; the list takes the others.
fn symbol_of(params: &Params, data_modules: usize) -> Symbol {
    let free = Layout::with_patterns(params).data_modules().len();
    Symbol::new(params, &reserved_list(params, free - data_modules)).unwrap()
}

fn bits(text: &str) -> Bits {
    let mut bits = Bits::new();
    bits.push_text(text);
    bits
}

fn text(bits: &Bits) -> String {
    bits.iter().map(|bit| if bit { '1' } else { '0' }).collect()
}

fn sum(left: &Bits, right: &Bits) -> Bits {
    assert_eq!(left.len(), right.len());
    left.iter().zip(right.iter()).map(|(a, b)| a != b).collect()
}

fn complement(bits: &Bits) -> Bits {
    bits.iter().map(|bit| !bit).collect()
}

/// Data modules, wc and wr of symbols with 8 colours.
const CODES: [(usize, u32, u32); 8] = [
    (3, 3, 4),
    (3, 8, 9),
    (21, 3, 4),
    (22, 4, 7),
    (43, 5, 9),
    (111, 6, 8),
    (200, 3, 5),
    (349, 3, 9),
];

#[test]
fn the_codeword_of_a_sum_is_the_sum_of_the_codewords() {
    let mut chance = Chance::new(207);
    for (modules, wc, wr) in CODES {
        let symbol = symbol_of(&Params { wc, wr, ..params() }, modules);
        let (net, systematic) = (symbol.lengths().net, symbol.systematic());
        for _ in 0..200 {
            let (x, y) = (chance.bits(net), chance.bits(net));
            let expected = sum(&systematic.codeword(&x), &systematic.codeword(&y));
            assert_eq!(systematic.codeword(&sum(&x, &y)), expected);
        }
    }
}

/// The complement is no such law: the spare columns stay 0.
#[test]
fn the_codeword_of_a_complement_is_another_word() {
    let mut chance = Chance::new(208);
    for (modules, wc, wr) in CODES {
        let symbol = symbol_of(&Params { wc, wr, ..params() }, modules);
        let systematic = symbol.systematic();
        let x = chance.bits(symbol.lengths().net);
        let turned = complement(&systematic.codeword(&x));
        assert_ne!(systematic.codeword(&complement(&x)), turned);
    }
}

#[test]
fn codewords_of_two_net_bits() {
    let parameters = Params {
        wc: 3,
        wr: 4,
        ..params()
    };
    let symbol = symbol_of(&parameters, 3);
    let lengths = symbol.lengths();
    assert_eq!((lengths.capacity, lengths.block_rows), (9, 2));
    assert_eq!((lengths.gross, lengths.checks, lengths.net), (8, 6, 2));
    let systematic = symbol.systematic();
    let codewords = ["11", "01", "10"].map(|net| text(&systematic.codeword(&bits(net))));
    assert_eq!(codewords, ["11000011", "01000111", "10000100"]);
}

#[test]
fn interleaving_a_sum_is_the_sum_of_the_interleaved_words() {
    let mut chance = Chance::new(209);
    let small = [(8, 3), (4, 5), (4, 32), (8, 43), (4, 338), (8, 349)];
    let small = small.map(|(colours, modules)| (1, colours, modules));
    for (horizontal, colours, modules) in small.into_iter().chain([(20, 8, 1_365)]) {
        let parameters = Params {
            horizontal,
            colours,
            ..params()
        };
        let symbol = symbol_of(&parameters, modules);
        let length = symbol.lengths().capacity;
        for _ in 0..100 {
            let (x, y) = (chance.bits(length), chance.bits(length));
            let expected = sum(&symbol.interleave(&x), &symbol.interleave(&y));
            assert_eq!(symbol.interleave(&sum(&x, &y)), expected);
        }
    }
}

#[test]
fn interleaving_of_ten_bits() {
    let parameters = Params {
        colours: 4,
        ..params()
    };
    let symbol = symbol_of(&parameters, 5);
    let (x, y) = (bits("1101001011"), bits("0111010010"));
    assert_eq!(text(&sum(&x, &y)), "1010011001");
    let interleaved = [&x, &y, &sum(&x, &y)].map(|word| text(&symbol.interleave(word)));
    assert_eq!(interleaved, ["1001101101", "1111000001", "0110101100"]);
}

/// The symbols of the mask laws, a square and a rectangle, with a mask.
fn masked_symbols(mask: u32) -> Vec<Symbol> {
    let sides = [(1, 1), (3, 2)];
    let each = sides.into_iter().flat_map(|sides| [(sides, 4), (sides, 8)]);
    each.map(|((horizontal, vertical), colours)| {
        let parameters = Params {
            horizontal,
            vertical,
            colours,
            mask,
            ..params()
        };
        Symbol::new(&parameters, &reserved_list(&parameters, 24)).unwrap()
    })
    .collect()
}

/// The matrix with each data module masked.
fn masked(symbol: &Symbol, matrix: &[u8]) -> Vec<u8> {
    let p = symbol.params();
    let columns = side_size(p.horizontal);
    let mut result = matrix.to_vec();
    for &index in symbol.data_modules() {
        let (x, y) = (index % columns, index / columns);
        result[index] ^= mask_colour(p.mask, x, y, p.colours as usize);
    }
    result
}

#[test]
fn masking_twice_with_one_mask_gives_the_matrix_back() {
    let mut chance = Chance::new(210);
    for mask in 0..8 {
        for symbol in masked_symbols(mask) {
            let matrix = chance.bytes(symbol.modules());
            let once = masked(&symbol, &matrix);
            assert_ne!(once, matrix);
            assert_eq!(masked(&symbol, &once), matrix);
        }
    }
}

#[test]
fn two_different_masks_do_not_give_the_matrix_back() {
    let mut chance = Chance::new(211);
    for first in 0..8 {
        for second in (0..8).filter(|&second| second != first) {
            for (one, other) in masked_symbols(first).iter().zip(masked_symbols(second)) {
                let matrix = chance.bytes(one.modules());
                assert_ne!(masked(&other, &masked(one, &matrix)), matrix);
            }
        }
    }
}

/// With the mask of the filling, the data modules hold the bits themselves and
/// the matrix is the same for all masks.
#[test]
fn masking_a_filled_matrix_leaves_the_bits() {
    let mut chance = Chance::new(212);
    for number in 0..masked_symbols(0).len() {
        let plain = chance.bits(masked_symbols(0)[number].lengths().capacity);
        let mut bare = Vec::new();
        for mask in 0..8 {
            let symbol = &masked_symbols(mask)[number];
            let mut matrix = vec![165; symbol.modules()];
            symbol.place(&plain, &mut matrix);
            let back = masked(symbol, &matrix);
            let mut held = Bits::new();
            for &index in symbol.data_modules() {
                held.push_number(back[index].into(), symbol.params().bits_per_module());
            }
            assert_eq!(held, plain);
            bare.push(back);
        }
        assert!(bare.iter().all(|matrix| *matrix == bare[0]));
    }
}

/// Columns and rows count from 1; a module may hold any byte.
#[test]
fn masking_of_two_modules() {
    let parameters = Params {
        mask: 6,
        ..params()
    };
    let symbol = Symbol::new(&parameters, &[]).unwrap();
    let layout = Layout::with_patterns(&parameters);
    for (column, row, before, after) in [(21, 20, 163, 164), (1, 2, 21, 23)] {
        let index = layout.index(column, row).unwrap();
        assert!(symbol.data_modules().contains(&index));
        let mut matrix = vec![0; symbol.modules()];
        matrix[index] = before;
        let once = masked(&symbol, &matrix);
        assert_eq!(once[index], after);
        assert_eq!(masked(&symbol, &once)[index], before);
    }
}
