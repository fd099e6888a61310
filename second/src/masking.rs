//! The mask patterns of Table 20 of 002.

/// The colour index of a mask pattern at a module; x and y count from 0.
pub fn mask_colour(mask: u32, x: usize, y: usize, colours: usize) -> u8 {
    let value = match mask {
        0 => x + y,
        1 => x,
        2 => y,
        3 => x / 2 + y / 3,
        4 => x / 3 + y / 2,
        5 => (x + y) / 2 + (x + y) / 3,
        6 => (x * x * y) % 7 + (2 * x * x + 2 * y) % 19,
        _ => (x * y * y) % 5 + (2 * x + y * y) % 13,
    };
    (value % colours) as u8
}
