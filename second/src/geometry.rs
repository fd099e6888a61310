//! Sides, finder patterns and alignment patterns, after document 000.

use crate::params::{Params, PRIMARY};

/// Table 2 of 000: the core coordinates of each side-version, counted from 1.
const CORES: [&[usize]; 32] = [
    &[4, 18],
    &[4, 22],
    &[4, 26],
    &[4, 30],
    &[4, 34],
    &[4, 17, 38],
    &[4, 20, 42],
    &[4, 23, 46],
    &[4, 26, 50],
    &[4, 14, 32, 54],
    &[4, 17, 39, 58],
    &[4, 20, 46, 62],
    &[4, 23, 44, 66],
    &[4, 26, 37, 51, 70],
    &[4, 14, 36, 58, 74],
    &[4, 17, 39, 56, 78],
    &[4, 20, 42, 63, 82],
    &[4, 23, 38, 54, 70, 86],
    &[4, 26, 38, 56, 77, 90],
    &[4, 14, 33, 53, 72, 94],
    &[4, 17, 38, 59, 79, 98],
    &[4, 20, 36, 53, 70, 86, 102],
    &[4, 23, 36, 55, 74, 93, 106],
    &[4, 26, 36, 58, 79, 100, 110],
    &[4, 14, 36, 58, 80, 92, 114],
    &[4, 17, 34, 52, 70, 88, 99, 118],
    &[4, 20, 37, 54, 72, 89, 106, 122],
    &[4, 23, 38, 56, 74, 92, 113, 126],
    &[4, 26, 36, 58, 78, 98, 120, 130],
    &[4, 14, 32, 49, 67, 84, 102, 112, 134],
    &[4, 17, 35, 53, 71, 89, 107, 119, 138],
    &[4, 20, 38, 55, 73, 91, 108, 126, 142],
];

pub fn side_size(version: u32) -> usize {
    17 + 4 * version as usize
}

pub fn cores(version: u32) -> &'static [usize] {
    CORES[version as usize - 1]
}

/// How many patterns a symbol has besides the four in its corners.
pub fn inner_patterns(horizontal: u32, vertical: u32) -> usize {
    cores(horizontal).len() * cores(vertical).len() - 4
}

/// On which diagonal the two squares of a pattern lie.
#[derive(Clone, Copy, PartialEq, Eq)]
enum Slant {
    /// Upper left and lower right of the core.
    Falling,
    /// Lower left and upper right of the core.
    Rising,
}

impl Slant {
    fn holds(self, across: isize, down: isize) -> bool {
        match self {
            Slant::Falling => across * down >= 0,
            Slant::Rising => across * down <= 0,
        }
    }
}

/// The modules of a symbol, row after row: a colour where it is fixed by a
/// pattern or the reserved list, none where the module carries data.
#[derive(Clone, Debug)]
pub struct Layout {
    columns: usize,
    rows: usize,
    fixed: Vec<Option<u8>>,
}

impl Layout {
    /// The symbol with its patterns; the parameters must be in range.
    pub fn with_patterns(params: &Params) -> Layout {
        let columns = side_size(params.horizontal);
        let rows = side_size(params.vertical);
        let mut layout = Layout {
            columns,
            rows,
            fixed: vec![None; columns * rows],
        };
        layout.draw_corners(params);
        layout.draw_inner(params);
        layout
    }

    pub fn columns(&self) -> usize {
        self.columns
    }

    pub fn rows(&self) -> usize {
        self.rows
    }

    pub fn modules(&self) -> usize {
        self.fixed.len()
    }

    /// The module at a column and row counted from 1, if there is one.
    pub fn index(&self, column: usize, row: usize) -> Option<usize> {
        let inside = (1..=self.columns).contains(&column) && (1..=self.rows).contains(&row);
        inside.then(|| (row - 1) * self.columns + column - 1)
    }

    pub fn fixed(&self, index: usize) -> Option<u8> {
        self.fixed[index]
    }

    pub fn fix(&mut self, index: usize, colour: u8) {
        self.fixed[index] = Some(colour);
    }

    /// The data modules in the order bits fill them: column by column from the
    /// left, each downwards.
    pub fn data_modules(&self) -> Vec<usize> {
        (0..self.columns)
            .flat_map(|column| (0..self.rows).map(move |row| row * self.columns + column))
            .filter(|&index| self.fixed[index].is_none())
            .collect()
    }

    fn draw_corners(&mut self, params: &Params) {
        let (black, cyan, yellow) = palette(params);
        let corners = [
            (4, 4, Slant::Falling, [black, cyan, black]),
            (self.columns - 3, 4, Slant::Falling, [black, yellow, black]),
            (
                self.columns - 3,
                self.rows - 3,
                Slant::Rising,
                [yellow, black, yellow],
            ),
            (4, self.rows - 3, Slant::Rising, [cyan, black, cyan]),
        ];
        for (column, row, slant, layers) in corners {
            if params.kind == PRIMARY {
                self.draw(column, row, slant, &layers);
            } else {
                self.draw(column, row, slant, &[cyan, yellow]);
            }
        }
    }

    fn draw_inner(&mut self, params: &Params) {
        let (_, cyan, yellow) = palette(params);
        let (across, down) = (cores(params.horizontal), cores(params.vertical));
        let corner = |number: usize, count: usize| number == 0 || number == count - 1;
        for (i, &column) in across.iter().enumerate() {
            for (j, &row) in down.iter().enumerate() {
                if corner(i, across.len()) && corner(j, down.len()) {
                    continue;
                }
                // X1 falls with turn 0 and rises with turn 1; X0 does the other.
                let x1 = (i + j) % 2 == 1;
                let slant = if x1 == (params.turn == 0) {
                    Slant::Falling
                } else {
                    Slant::Rising
                };
                self.draw(column, row, slant, &[yellow, cyan]);
            }
        }
    }

    /// Draws the two squares of a pattern; a layer's number is the larger of
    /// the column and row distance from the core.
    fn draw(&mut self, column: usize, row: usize, slant: Slant, layers: &[u8]) {
        let reach = layers.len() as isize - 1;
        for down in -reach..=reach {
            for across in -reach..=reach {
                if slant.holds(across, down) {
                    let x = (column as isize - 1 + across) as usize;
                    let y = (row as isize - 1 + down) as usize;
                    let layer = across.abs().max(down.abs()) as usize;
                    self.fix(y * self.columns + x, layers[layer]);
                }
            }
        }
    }
}

fn palette(params: &Params) -> (u8, u8, u8) {
    (params.black as u8, params.cyan as u8, params.yellow as u8)
}
