//! The yard, the levers and a step of all carriers, on the lent words.

use super::log::MOST_CARRIERS;

const UNITS_SHIFT: u32 = 8;
const SPEED: i32 = 200;
/// What the brake takes off a speed, at most all of it.
const BRAKE: i32 = 10;

const PUSHES: [[i32; 2]; 9] =
    [[0, 0], [12, 0], [8, 8], [0, 12], [-8, 8], [-12, 0], [-8, -8], [0, -12], [8, -8]];

/// A world that fits and whose cells and sizes are valid.
#[derive(Clone, Copy)]
pub struct World<'a> {
    w: i32,
    h: i32,
    pub b: usize,
    cells: &'a [u8],
    boxes: &'a [i32],
}

/// W, H and B in range.
pub fn in_range([w, h, b]: [u64; 3]) -> bool {
    w.wrapping_sub(1) < 64 && h.wrapping_sub(1) < 64 && b.wrapping_sub(1) < MOST_CARRIERS
}

impl<'a> World<'a> {
    pub fn fits(yard: [u64; 3], cells: &[u8], boxes: &[i32], state: &[i32]) -> bool {
        let [w, h, b] = yard.map(|number| number as usize);
        cells.len() == w * h && boxes.len() == 4 * b && state.len() == 5 * b
    }

    pub fn read(yard: [u64; 3], cells: &'a [u8], boxes: &'a [i32]) -> Option<World<'a>> {
        let [w, h, b] = yard;
        let valid_cells = cells.iter().fold(0, |all, &cell| all | cell) <= 1;
        let in_range = |side: i32| (1..=1024).contains(&side);
        let valid = valid_cells && boxes.chunks_exact(4).all(|b| in_range(b[2]) && in_range(b[3]));
        valid.then_some(World { w: w as i32, h: h as i32, b: b as usize, cells, boxes })
    }

    /// No wall in these columns of these rows, all within the yard.
    fn clear(&self, columns: [i32; 2], rows: [i32; 2]) -> bool {
        (rows[0]..=rows[1]).all(|row| {
            let line = row * self.w;
            let cells = &self.cells[(line + columns[0]) as usize..=(line + columns[1]) as usize];
            cells.iter().all(|&cell| cell == 0)
        })
    }

    fn free(&self, x: i32, y: i32, width: i32, height: i32) -> bool {
        x >= 0
            && y >= 0
            && x <= (self.w << UNITS_SHIFT) - width
            && y <= (self.h << UNITS_SHIFT) - height
            && self.clear(lines(x, width), lines(y, height))
    }

    pub fn sound(&self, state: &[i32]) -> bool {
        state.chunks_exact(5).zip(self.boxes.chunks_exact(4)).all(|(c, size)| {
            (-SPEED..=SPEED).contains(&c[2])
                && (-SPEED..=SPEED).contains(&c[3])
                && (0..=9).contains(&c[4])
                && self.free(c[0], c[1], size[2], size[3])
        })
    }

    pub fn starts_are_free(&self) -> bool {
        self.boxes.chunks_exact(4).all(|b| self.free(b[0], b[1], b[2], b[3]))
    }

    pub fn start(&self, state: &mut [i32]) {
        for (carrier, start) in state.chunks_exact_mut(5).zip(self.boxes.chunks_exact(4)) {
            carrier.copy_from_slice(&[start[0], start[1], 0, 0, 0]);
        }
    }

    /// A step of all carriers whose levers have been moved already.
    pub fn step(&self, state: &mut [i32]) {
        for (carrier, size) in state.chunks_exact_mut(5).zip(self.boxes.chunks_exact(4)) {
            let &mut [x, y, u, v, lever] = carrier else { return };
            let [u, v] = new_speeds(lever, u, v);
            let rows = lines(y, size[3]);
            let (x, u) = slide(x, size[2], u, self.w, |column| self.column_is_clear(column, rows));
            let columns = lines(x, size[2]);
            let (y, v) = slide(y, size[3], v, self.h, |row| self.clear(columns, [row, row]));
            carrier.copy_from_slice(&[x, y, u, v, lever]);
        }
    }

    fn column_is_clear(&self, column: i32, rows: [i32; 2]) -> bool {
        let first = (rows[0] * self.w + column) as usize;
        let count = (rows[1] - rows[0] + 1) as usize;
        self.cells[first..].iter().step_by(self.w as usize).take(count).all(|&cell| cell == 0)
    }
}

/// The first and the last line of cells that a span covers.
fn lines(start: i32, len: i32) -> [i32; 2] {
    [start >> UNITS_SHIFT, (start + len - 1) >> UNITS_SHIFT]
}

fn new_speeds(lever: i32, u: i32, v: i32) -> [i32; 2] {
    match PUSHES.get(lever as usize) {
        Some([x, y]) => [(u + x).clamp(-SPEED, SPEED), (v + y).clamp(-SPEED, SPEED)],
        None => [u, v].map(|speed| speed - speed.clamp(-BRAKE, BRAKE)),
    }
}

/// The place reached along one axis, and the speed that is left.
#[inline(always)]
fn slide(at: i32, len: i32, speed: i32, cells: i32, clear: impl Fn(i32) -> bool) -> (i32, i32) {
    let to = at + speed;
    if speed > 0 {
        let line = (to + len - 1) >> UNITS_SHIFT;
        if line > (at + len - 1) >> UNITS_SHIFT && (line >= cells || !clear(line)) {
            return stopped((line << UNITS_SHIFT) - len);
        }
    } else if to >> UNITS_SHIFT < at >> UNITS_SHIFT {
        let line = to >> UNITS_SHIFT;
        if line < 0 || !clear(line) {
            return stopped((line + 1) << UNITS_SHIFT);
        }
    }
    (to, speed)
}

/// Fewer units were moved than the speed has.
fn stopped(place: i32) -> (i32, i32) {
    (place, 0)
}
