//! The generator of Annex E of 002 and its in-place permutation.

pub const CHECK_MATRIX_SEED: u64 = 785_465;
pub const INTERLEAVING_SEED: u64 = 226_759;

pub struct Generator {
    state: u64,
}

impl Generator {
    pub fn new(seed: u64) -> Generator {
        Generator { state: seed }
    }

    pub fn draw(&mut self) -> u32 {
        self.state = self
            .state
            .wrapping_mul(6_364_136_223_846_793_005)
            .wrapping_add(1);
        temper((self.state >> 32) as u32)
    }

    /// Steps 2 to 6 of Annex E. The draw with one place left moves nothing but
    /// the generator.
    pub fn shuffle<T>(&mut self, items: &mut [T]) {
        self.shuffle_by(items, place);
    }

    /// The same with another way from a draw to a place.
    pub fn shuffle_by<T>(&mut self, items: &mut [T], place: fn(u32, usize) -> usize) {
        for left in (1..=items.len()).rev() {
            let chosen = place(self.draw(), left);
            items.swap(chosen, left - 1);
        }
    }
}

fn temper(mut x: u32) -> u32 {
    x ^= x >> 11;
    x ^= x << 7 & 0x9D2C_5680;
    x ^= x << 15 & 0xEFC6_0000;
    x ^ x >> 18
}

/// The place a draw chooses of those left. Each step is rounded to single
/// precision, so a draw near 2^32 can reach `left` itself.
pub fn place(draw: u32, left: usize) -> usize {
    let share = draw as f32 / 4_294_967_296.0;
    let raw = share * left as f32;
    (raw as usize).min(left - 1)
}

/// Where each bit of an interleaved sequence of `capacity` bits comes from.
pub fn interleaving(capacity: usize) -> Vec<usize> {
    let mut sources: Vec<usize> = (0..capacity).collect();
    Generator::new(INTERLEAVING_SEED).shuffle(&mut sources);
    sources
}

#[cfg(test)]
mod tests {
    use super::*;

    /// Rounds to 24 significant bits, to nearest, ties to even.
    fn to_single(number: u128) -> u128 {
        let length = 128 - number.leading_zeros();
        if length <= 24 {
            return number;
        }
        let unit = 1 << (length - 24);
        let (whole, rest) = (number / unit, number % unit);
        let up = rest > unit / 2 || (rest == unit / 2 && whole % 2 == 1);
        (whole + u128::from(up)) * unit
    }

    fn exact_place(draw: u32, left: usize) -> usize {
        let raw = to_single(to_single(u128::from(draw)) * left as u128) >> 32;
        (raw as usize).min(left - 1)
    }

    #[test]
    fn p7_to_p9() {
        assert_eq!(4_294_967_295u32 as f32 / 4_294_967_296.0 * 1_047.0, 1_047.0);
        assert_eq!(place(4_294_967_295, 1_047), 1_046);
        assert_eq!(place(4_294_967_295, 1), 0);
        let raw = 4_294_967_167u32 as f32 / 4_294_967_296.0 * 1_047.0;
        assert_eq!(raw as usize, 1_046);
        assert_eq!(place(4_294_967_167, 1_047), 1_046);
        assert_eq!(place(2_147_483_648, 1_047), 523);
        assert_eq!(place(0, 1_047), 0);
    }

    #[test]
    fn places_agree_with_whole_numbers() {
        let mut generator = Generator::new(INTERLEAVING_SEED);
        for round in 0..400_000usize {
            let (draw, left) = (generator.draw(), round % 4_096 + 1);
            assert_eq!(place(draw, left), exact_place(draw, left));
        }
        for left in 1..=4_096 {
            for draw in (0..600).chain(u32::MAX - 600..=u32::MAX) {
                assert_eq!(place(draw, left), exact_place(draw, left));
            }
        }
    }

    #[test]
    fn a_shuffle_makes_a_draw_for_every_place() {
        let mut shuffled = Generator::new(CHECK_MATRIX_SEED);
        shuffled.shuffle(&mut [0; 5]);
        let mut drawn = Generator::new(CHECK_MATRIX_SEED);
        for _ in 0..5 {
            drawn.draw();
        }
        assert_eq!(shuffled.draw(), drawn.draw());
    }

    #[test]
    fn an_interleaving_is_a_permutation() {
        let mut sources = interleaving(1_047);
        sources.sort_unstable();
        assert!(sources.into_iter().eq(0..1_047));
    }
}
