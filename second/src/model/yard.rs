//! "The yard and its carriers": the cells, and where a box is free.

/// Units of one cell.
const UNITS: i64 = 256;

pub struct Yard {
    pub w: i64,
    pub h: i64,
    /// Row by row from row 0: 0 is open, 1 is wall.
    pub cells: Vec<u8>,
}

/// The width and height of a carrier.
#[derive(Clone, Copy)]
pub struct Size {
    pub w: i64,
    pub h: i64,
}

impl Size {
    pub fn in_range(self) -> bool {
        (1..=1024).contains(&self.w) && (1..=1024).contains(&self.h)
    }
}

impl Yard {
    fn wall(&self, column: i64, row: i64) -> bool {
        self.cells[(row * self.w + column) as usize] == 1
    }

    /// No wall cell shares a unit square with the box, which lies within the yard.
    fn clear_of_walls(&self, x: i64, y: i64, size: Size) -> bool {
        let columns = x / UNITS..=(x + size.w - 1) / UNITS;
        let mut rows = y / UNITS..=(y + size.h - 1) / UNITS;
        rows.all(|row| columns.clone().all(|column| !self.wall(column, row)))
    }

    pub fn free(&self, x: i64, y: i64, size: Size) -> bool {
        x >= 0
            && y >= 0
            && x + size.w <= UNITS * self.w
            && y + size.h <= UNITS * self.h
            && self.clear_of_walls(x, y, size)
    }
}
