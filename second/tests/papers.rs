//! Numbers the papers print: sides, patterns and Table 1 of document 000.

mod common;

use common::{params, reserved_list};
use second::geometry::{cores, inner_patterns, side_size, Layout};
use second::params::{PRIMARY, SECONDARY};
use second::{sizes, stream, Params, Refusal, Symbol};

/// Table 1 of 000, side-version after side-version: data modules, then bits,
/// of square primary symbols (4 and 8 colours) and secondary ones (4 and 8).
const TABLE_1: [[usize; 8]; 32] = [
    [338, 349, 405, 389, 676, 1_047, 810, 1_167],
    [522, 533, 589, 573, 1_044, 1_599, 1_178, 1_719],
    [738, 749, 805, 789, 1_476, 2_247, 1_610, 2_367],
    [986, 997, 1_053, 1_037, 1_972, 2_991, 2_106, 3_111],
    [1_266, 1_277, 1_333, 1_317, 2_532, 3_831, 2_666, 3_951],
    [1_543, 1_554, 1_610, 1_594, 3_086, 4_662, 3_220, 4_782],
    [1_887, 1_898, 1_954, 1_938, 3_774, 5_694, 3_908, 5_814],
    [2_263, 2_274, 2_330, 2_314, 4_526, 6_822, 4_660, 6_942],
    [2_671, 2_682, 2_738, 2_722, 5_342, 8_046, 5_476, 8_166],
    [3_062, 3_073, 3_129, 3_113, 6_124, 9_219, 6_258, 9_339],
    [3_534, 3_545, 3_601, 3_585, 7_068, 10_635, 7_202, 10_755],
    [4_038, 4_049, 4_105, 4_089, 8_076, 12_147, 8_210, 12_267],
    [4_574, 4_585, 4_641, 4_625, 9_148, 13_755, 9_282, 13_875],
    [5_079, 5_090, 5_146, 5_130, 10_158, 15_270, 10_292, 15_390],
    [5_679, 5_690, 5_746, 5_730, 11_358, 17_070, 11_492, 17_190],
    [6_311, 6_322, 6_378, 6_362, 12_622, 18_966, 12_756, 19_086],
    [6_975, 6_986, 7_042, 7_026, 13_950, 20_958, 14_084, 21_078],
    [7_594, 7_605, 7_661, 7_645, 15_188, 22_815, 15_322, 22_935],
    [8_322, 8_333, 8_389, 8_373, 16_644, 24_999, 16_778, 25_119],
    [9_082, 9_093, 9_149, 9_133, 18_164, 27_279, 18_298, 27_399],
    [9_874, 9_885, 9_941, 9_925, 19_748, 29_655, 19_882, 29_775],
    [
        10_607, 10_618, 10_674, 10_658, 21_214, 31_854, 21_348, 31_974,
    ],
    [
        11_463, 11_474, 11_530, 11_514, 22_926, 34_422, 23_060, 34_542,
    ],
    [
        12_351, 12_362, 12_418, 12_402, 24_702, 37_086, 24_836, 37_206,
    ],
    [
        13_271, 13_282, 13_338, 13_322, 26_542, 39_846, 26_676, 39_966,
    ],
    [
        14_118, 14_129, 14_185, 14_169, 28_236, 42_387, 28_370, 42_507,
    ],
    [
        15_102, 15_113, 15_169, 15_153, 30_204, 45_339, 30_338, 45_459,
    ],
    [
        16_118, 16_129, 16_185, 16_169, 32_236, 48_387, 32_370, 48_507,
    ],
    [
        17_166, 17_177, 17_233, 17_217, 34_332, 51_531, 34_466, 51_651,
    ],
    [
        18_127, 18_138, 18_194, 18_178, 36_254, 54_414, 36_388, 54_534,
    ],
    [
        19_239, 19_250, 19_306, 19_290, 38_478, 57_750, 38_612, 57_870,
    ],
    [
        20_383, 20_394, 20_450, 20_434, 40_766, 61_182, 40_900, 61_302,
    ],
];

/// The columns of Table 1: kind, colours and entries in the reserved list.
const COLUMNS: [(u32, u32, usize); 4] = [
    (PRIMARY, 4, 35),
    (PRIMARY, 8, 24),
    (SECONDARY, 4, 8),
    (SECONDARY, 8, 24),
];

fn square(kind: u32, version: u32, colours: u32) -> Params {
    Params {
        kind,
        horizontal: version,
        vertical: version,
        colours,
        ..params()
    }
}

#[test]
fn table_1() {
    for (row, version) in TABLE_1.iter().zip(1..) {
        for (column, &(kind, colours, entries)) in COLUMNS.iter().enumerate() {
            let parameters = square(kind, version, colours);
            let list = reserved_list(&parameters, entries);
            let mut layout = Layout::with_patterns(&parameters);
            second::reserved::reserve(&mut layout, &list, colours).unwrap();
            let modules = layout.data_modules().len();
            assert_eq!(modules, row[column]);
            let bits = modules * parameters.bits_per_module();
            assert_eq!(bits, row[4 + column]);
            let expected = if bits > 4_096 {
                Err(Refusal::plain(3))
            } else {
                Ok(bits)
            };
            assert_eq!(sizes(&parameters, &list).map(|s| s.capacity), expected);
        }
    }
}

#[test]
fn table_2_ends_four_modules_from_the_border() {
    for version in 1..=32 {
        let cores = cores(version);
        assert_eq!(cores[0], 4);
        assert_eq!(cores[cores.len() - 1], side_size(version) - 3);
        assert!(cores.windows(2).all(|pair| pair[0] + 4 < pair[1]));
    }
    let patterns: Vec<usize> = (1..=32).map(|v| inner_patterns(v, v)).collect();
    let mut expected = vec![0; 5];
    for (count, versions) in [5, 12, 21, 32, 45, 60].iter().zip([4; 6]) {
        expected.extend(vec![*count; versions]);
    }
    expected.extend([77; 3]);
    assert_eq!(patterns, expected);
}

#[test]
fn p1() {
    assert_eq!((side_size(1), side_size(32)), (21, 145));
    for version in [0, 33] {
        let across = Params {
            horizontal: version,
            ..params()
        };
        let down = Params {
            vertical: version,
            ..params()
        };
        assert_eq!(sizes(&across, &[]), Err(Refusal::plain(1)));
        assert_eq!(sizes(&down, &[]), Err(Refusal::plain(1)));
    }
}

#[test]
fn p2() {
    assert_eq!(inner_patterns(10, 10), 12);
    let layout = Layout::with_patterns(&square(PRIMARY, 10, 8));
    assert_eq!(layout.modules() - layout.data_modules().len(), 152);
}

#[test]
fn p3_and_p4() {
    for (colours, entries, modules, bits) in [(8, 24, 349, 1_047), (4, 35, 338, 676)] {
        let parameters = square(PRIMARY, 1, colours);
        let symbol = Symbol::new(&parameters, &reserved_list(&parameters, entries)).unwrap();
        assert_eq!(symbol.data_modules().len(), modules);
        assert_eq!(symbol.sizes().capacity, bits);
    }
}

#[test]
fn p5_stuffing() {
    let parameters = Params { wc: 4, ..params() };
    let symbol = Symbol::new(&parameters, &reserved_list(&parameters, 24)).unwrap();
    let stuffed = symbol.stuffed(&second::Bits::zeros(1_044));
    assert_eq!(
        stuffed.iter().skip(1_044).collect::<Vec<_>>(),
        [false, true, false]
    );
}

#[test]
fn p6() {
    let parameters = params();
    let symbol = Symbol::new(&parameters, &reserved_list(&parameters, 24)).unwrap();
    assert_eq!(symbol.sizes().net, 696);
    assert_eq!(symbol.sizes().work, 53_964);
    // 84 bytes make 696 bits; 83 make 688.
    assert_eq!(stream::length(84), 696);
    assert_eq!(common::round_trip(&symbol, &[7; 83]), 0);
    assert_eq!(common::round_trip(&symbol, &[7; 84]), 6);
    assert_eq!(
        stream::with_end_mark(&second::Bits::zeros(695), 696).last_one(),
        Some(695)
    );
}

/// The corner patterns of a primary symbol, drawn by hand after 4.3.7; dots
/// are data modules. Black is 0, cyan 3, yellow 2.
#[test]
fn finder_patterns() {
    let layout = Layout::with_patterns(&params());
    assert_eq!(row(&layout, 1), ".".repeat(21));
    assert_eq!(row(&layout, 2), ".000...........000...");
    assert_eq!(row(&layout, 3), ".033...........022...");
    assert_eq!(row(&layout, 4), ".03030.........02020.");
    assert_eq!(row(&layout, 5), "...330...........220.");
    assert_eq!(row(&layout, 6), "...000...........000.");
    assert_eq!(row(&layout, 16), "...333...........222.");
    assert_eq!(row(&layout, 17), "...003...........002.");
    assert_eq!(row(&layout, 18), ".30303.........20202.");
    assert_eq!(row(&layout, 19), ".300...........200...");
    assert_eq!(row(&layout, 20), ".333...........222...");
}

#[test]
fn alignment_patterns() {
    // Secondary: U falls, L rises; cyan (3) cores, yellow (2) outside.
    let layout = Layout::with_patterns(&square(SECONDARY, 1, 8));
    assert_eq!(row(&layout, 3), "..22............22...");
    assert_eq!(row(&layout, 4), "..232...........232..");
    assert_eq!(row(&layout, 5), "...22............22..");
    assert_eq!(row(&layout, 17), "...22............22..");
    assert_eq!(row(&layout, 18), "..232...........232..");
    assert_eq!(row(&layout, 19), "..22............22...");
    // Inner ones of side-version 6: X1 at (17, 4), X0 at (17, 17).
    for (turn, first, last) in [(0, "33.", ".33"), (1, ".33", "33.")] {
        let layout = Layout::with_patterns(&Params {
            turn,
            ..square(PRIMARY, 6, 8)
        });
        assert_eq!(&row(&layout, 3)[15..18], first);
        assert_eq!(&row(&layout, 4)[15..18], "323");
        assert_eq!(&row(&layout, 5)[15..18], last);
        assert_eq!(&row(&layout, 16)[15..18], last);
        assert_eq!(&row(&layout, 18)[15..18], first);
    }
}

fn row(layout: &Layout, row: usize) -> String {
    (1..=layout.columns())
        .map(|column| layout.fixed(layout.index(column, row).unwrap()))
        .map(|fixed| fixed.map_or('.', |colour| char::from(b'0' + colour)))
        .collect()
}

#[test]
fn the_reserved_list() {
    let parameters = params();
    let refused = |list: &[u16]| sizes(&parameters, list).unwrap_err();
    let at = |place| Refusal { number: 2, place };
    assert_eq!(refused(&[1]), at(0));
    assert_eq!(refused(&[1, 1, 0, 0, 0]), at(1));
    assert_eq!(refused(&[0; 3 * 1_025]), at(1_024));
    assert_eq!(refused(&[0; 3 * 1_025 + 1]), at(1_025));
    assert_eq!(refused(&[1, 1, 0, 0, 1, 0]), at(1));
    assert_eq!(refused(&[1, 1, 0, 1, 0, 0]), at(1));
    assert_eq!(refused(&[22, 1, 0]), at(0));
    assert_eq!(refused(&[1, 22, 0]), at(0));
    assert_eq!(refused(&[4, 4, 0]), at(0));
    assert_eq!(refused(&[1, 1, 8]), at(0));
    assert_eq!(refused(&[1, 1, 0, 2, 1, 0, 1, 1, 1]), at(2));
}

/// The worked example of 4.8.1: index 5 masked with 3 gives 6; and one value
/// of each generator of Table 20, reckoned by hand.
#[test]
fn masks() {
    use second::masking::mask_colour;
    assert_eq!(5 ^ 3, 6);
    let at = |mask, colours| mask_colour(mask, 13, 10, colours);
    let values = [23, 13, 10, 9, 9, 18, 3 + 16, 9];
    for (mask, value) in (0..8).zip(values) {
        assert_eq!(usize::from(at(mask, 8)), value % 8);
        assert_eq!(usize::from(at(mask, 4)), value % 4);
    }
}
