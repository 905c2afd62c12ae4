//! The three predictors (G section 5.1), both ways. Sums and differences wrap at 32 bits (Req 01).

#[derive(Clone, Copy, Debug, PartialEq)]
pub enum Predictor {
    Differencing,
    Linear,
    Triangle,
}

pub const PREDICTORS: [Predictor; 3] =
    [Predictor::Differencing, Predictor::Linear, Predictor::Triangle];

impl Predictor {
    /// G section 6: "0. Simple differencing 1. Linear predictor 2. Triangle predictor".
    pub fn of_number(number: u8) -> Option<Predictor> {
        PREDICTORS.get(usize::from(number)).copied()
    }

    pub fn number(self) -> u8 {
        self as u8
    }

    /// The value predicted from the cells before one that is not the first. Where the tile lacks a
    /// cell that the step would take, the tables of G 5.1.4 have the step of a shorter kind.
    fn predicted(self, cells: &[i32], columns: usize, row: usize, column: usize) -> i32 {
        let at = row * columns + column;
        let left = |back: usize| cells[at - back];
        let above = |back: usize| cells[at - columns - back];
        match self {
            _ if column == 0 => above(0),
            Predictor::Linear if column > 1 => left(1).wrapping_mul(2).wrapping_sub(left(2)),
            Predictor::Triangle if row > 0 => above(0).wrapping_add(left(1)).wrapping_sub(above(1)),
            _ => left(1),
        }
    }

    /// The cells of a tile, row by row, from the seed and the residuals of all others.
    pub fn cells(self, seed: i32, residuals: &[i32], columns: usize) -> Vec<i32> {
        let mut cells = Vec::with_capacity(residuals.len() + 1);
        cells.push(seed);
        let (mut row, mut column) = (0, 0);
        for residual in residuals {
            column += 1;
            if column == columns {
                (row, column) = (row + 1, 0);
            }
            let predicted = self.predicted(&cells, columns, row, column);
            cells.push(predicted.wrapping_add(*residual));
        }
        cells
    }

    /// The residuals of all cells but the first.
    pub fn residuals(self, cells: &[i32], columns: usize) -> Vec<i32> {
        let residual = |at: usize| {
            let predicted = self.predicted(cells, columns, at / columns, at % columns);
            cells[at].wrapping_sub(predicted)
        };
        (1..cells.len()).map(residual).collect()
    }
}
