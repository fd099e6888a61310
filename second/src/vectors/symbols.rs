//! Random symbols.

use crate::case::Lent;
use second::chance::Chance;
use second::geometry::Layout;
use second::Params;

pub trait Symbols {
    /// A shape with any palette, mask and turn; wc 3 and wr 9.
    fn params(&mut self, kind: u32, sides: (u32, u32), colours: u32) -> Params;

    /// A legal list that leaves a number of data modules, in any order.
    fn lent(&mut self, params: Params, data_modules: usize) -> Lent;

    /// A symbol of 21 x 21 modules with a list as short as may be.
    fn usual(&mut self) -> Lent;

    /// A primary symbol of 21 x 21 modules with a chosen capacity.
    fn with_capacity(&mut self, capacity: usize) -> Lent;
}

impl Symbols for Chance {
    fn params(&mut self, kind: u32, sides: (u32, u32), colours: u32) -> Params {
        let mut palette: Vec<u32> = (0..colours).collect();
        self.shuffle(&mut palette);
        Params {
            kind,
            horizontal: sides.0,
            vertical: sides.1,
            colours,
            black: palette[0],
            cyan: palette[1],
            yellow: palette[2],
            wc: 3,
            wr: 9,
            mask: self.below(8) as u32,
            turn: self.below(2) as u32,
        }
    }

    fn lent(&mut self, params: Params, data_modules: usize) -> Lent {
        let layout = Layout::with_patterns(&params);
        let mut free = layout.data_modules();
        self.shuffle(&mut free);
        let mut list = Vec::new();
        for index in free.drain(data_modules..) {
            list.push((index % layout.columns() + 1) as u16);
            list.push((index / layout.columns() + 1) as u16);
            list.push(self.below(params.colours as usize) as u16);
        }
        Lent { params, list }
    }

    fn usual(&mut self) -> Lent {
        let shapes = [
            (0, 4, 373),
            (0, 4, 338),
            (0, 8, 349),
            (1, 4, 413),
            (1, 4, 405),
            (1, 8, 349),
        ];
        let (kind, colours, data_modules) = shapes[self.below(shapes.len())];
        let params = self.params(kind, (1, 1), colours);
        self.lent(params, data_modules)
    }

    fn with_capacity(&mut self, capacity: usize) -> Lent {
        let colours = if capacity % 3 == 0 { 8 } else { 4 };
        let params = self.params(0, (1, 1), colours);
        self.lent(params, capacity / params.bits_per_module())
    }
}
