//! Viewsheds and rises: exact lines of sight in whole numbers. A run of crossings is passed over where no ground
//! near it reaches the line.

use crate::frame::{Frame, Height, NODATA, NO_NUMBER};
use crate::parallel::each;
use std::str::FromStr;

/// Side of the blocks whose highest ground is known.
const BLOCK: i64 = 16;

/// The greatest height of a target above its ground.
const HIGHEST_TARGET: i64 = 1_000_000;

/// Rows of the map that a worker makes at once.
const ROWS_AT_ONCE: usize = 16;

/// Blocks beside each other that are looked at for one run of crossings.
const MOST_BLOCKS: i64 = 4;

pub struct Observer {
    row: i64,
    column: i64,
    eye: i64,
}

impl FromStr for Observer {
    type Err = String;

    fn from_str(word: &str) -> Result<Self, String> {
        let numbers = word
            .split(',')
            .map(|number| number.parse::<u32>().map(i64::from));
        match numbers.collect::<Result<Vec<_>, _>>().as_deref() {
            Ok(&[row, column, eye]) => Ok(Observer { row, column, eye }),
            _ => Err(format!("{word} is no observer")),
        }
    }
}

/// What is to be seen: targets above a terrain within a radius.
pub struct Sight<'a> {
    pub terrain: &'a Frame<Height>,
    pub target: u32,
    pub radius: u32,
}

/// The highest ground of each block of a terrain, frame included.
struct Blocks {
    across: i64,
    highest: Vec<Height>,
}

impl Blocks {
    fn new(terrain: &Frame<Height>) -> Self {
        let side = BLOCK as usize;
        let (width, across) = (terrain.width(), terrain.width().div_ceil(side));
        let mut highest = vec![NODATA; across * (terrain.rows + 2).div_ceil(side)];
        for (row, cells) in terrain.cells.chunks_exact(width).enumerate() {
            let blocks = &mut highest[row / side * across..];
            for (block, cells) in blocks.iter_mut().zip(cells.chunks(side)) {
                *block = cells
                    .iter()
                    .fold(*block, |highest, &height| highest.max(height));
            }
        }
        Blocks {
            across: across as i64,
            highest,
        }
    }
}

/// A line of sight and the axis along which its crossings are counted; rows and columns count the frame.
struct Line {
    /// Crossings lie at 1 to `steps - 1` from the observer.
    steps: i64,
    /// How far the line moves across the axis in all its steps.
    drift: i64,
    /// The observer's place along the axis and across it.
    along: i64,
    across: i64,
    backward: bool,
    eye_elevation: i64,
    target_elevation: i64,
}

impl Line {
    fn along(&self, step: i64) -> i64 {
        if self.backward {
            self.along - step
        } else {
            self.along + step
        }
    }

    /// The height of the line at a crossing, times the number of steps.
    #[inline(always)]
    fn level(&self, step: i64) -> i64 {
        self.eye_elevation * (self.steps - step) + self.target_elevation * step
    }

    /// The crossing nearest to the observer that lies in the same row of blocks as this one.
    fn first_in_block(&self, step: i64) -> i64 {
        let within = self.along(step).rem_euclid(BLOCK);
        let back = if self.backward {
            BLOCK - 1 - within
        } else {
            within
        };
        (step - back).max(1)
    }
}

/// A terrain seen along one of its axes: how far cells and blocks lie from each other along it and across.
struct Axis<'a> {
    cells: &'a [Height],
    cell_along: i64,
    cell_across: i64,
    blocks: &'a [Height],
    block_along: i64,
    block_across: i64,
}

impl Axis<'_> {
    fn is_clear(&self, line: &Line) -> bool {
        let mut last = line.steps - 1;
        while last >= 1 {
            let first = line.first_in_block(last);
            if !self.lies_above_blocks(line, first, last)
                && !self.is_clear_between(line, first, last)
            {
                return false;
            }
            last = first - 1;
        }
        true
    }

    /// Whether no ground in the blocks of a run of crossings is above the line.
    #[inline(always)]
    fn lies_above_blocks(&self, line: &Line, first: i64, last: i64) -> bool {
        let at = |step: i64| line.across + (line.drift * step).div_euclid(line.steps);
        let (one, other) = (at(first), at(last));
        let (low, high) = (one.min(other) / BLOCK, (one.max(other) + 1) / BLOCK);
        if high - low >= MOST_BLOCKS {
            return false;
        }
        let row = line.along(last) / BLOCK * self.block_along;
        let blocks =
            (low..=high).map(|block| self.blocks.get((row + block * self.block_across) as usize));
        let highest = blocks.flatten().copied().fold(NODATA, Height::max);
        line.steps * highest <= line.level(first).min(line.level(last))
    }

    /// Tests the crossings of a run one by one, from the target's end.
    #[inline(always)]
    fn is_clear_between(&self, line: &Line, first: i64, last: i64) -> bool {
        let (down, part) = (
            line.drift.div_euclid(line.steps),
            line.drift.rem_euclid(line.steps),
        );
        let start = line.drift * last;
        let (mut across, mut weight) = (
            line.across + start.div_euclid(line.steps),
            start.rem_euclid(line.steps),
        );
        for step in (first..=last).rev() {
            let place = line.along(step) * self.cell_along + across * self.cell_across;
            if self.blocks_at(line, step, place, weight) {
                return false;
            }
            across -= down;
            weight -= part;
            if weight < 0 {
                weight += line.steps;
                across -= 1;
            }
        }
        true
    }

    /// Whether ground is above the line at a crossing; the cell across has this weight.
    #[inline(always)]
    fn blocks_at(&self, line: &Line, step: i64, place: i64, weight: i64) -> bool {
        let near = self.cells[place as usize];
        if near == NODATA {
            return false;
        }
        if weight == 0 {
            return line.steps * near > line.level(step);
        }
        let far = self.cells[(place + self.cell_across) as usize];
        far != NODATA && (line.steps - weight) * near + weight * far > line.level(step)
    }
}

/// A terrain seen along its rows and along its columns.
struct Ground<'a> {
    terrain: &'a Frame<Height>,
    rows: Axis<'a>,
    columns: Axis<'a>,
}

impl<'a> Ground<'a> {
    fn new(terrain: &'a Frame<Height>, blocks: &'a Blocks) -> Self {
        let axis = |cell_along, cell_across, block_along, block_across| Axis {
            cells: &terrain.cells,
            cell_along,
            cell_across,
            blocks: &blocks.highest,
            block_along,
            block_across,
        };
        let width = terrain.width() as i64;
        Ground {
            terrain,
            rows: axis(width, 1, blocks.across, 1),
            columns: axis(1, width, 1, blocks.across),
        }
    }

    fn height(&self, row: i64, column: i64) -> Height {
        self.terrain.cells[self.terrain.place(row as usize, column as usize)]
    }

    /// Whether a target is seen, whose height counts from the same level as that of the eye.
    fn sees(&self, observer: &Observer, row: i64, column: i64, target_elevation: i64) -> bool {
        let (down, east) = (row - observer.row, column - observer.column);
        let eye_elevation = self.height(observer.row, observer.column) + observer.eye;
        let line = |steps: i64, drift, along, across| Line {
            steps: steps.abs(),
            drift,
            along: along + 1,
            across: across + 1,
            backward: steps < 0,
            eye_elevation,
            target_elevation,
        };
        let by_columns = || {
            self.columns
                .is_clear(&line(east, down, observer.column, observer.row))
        };
        let by_rows = || {
            self.rows
                .is_clear(&line(down, east, observer.row, observer.column))
        };
        if east.abs() >= down.abs() {
            by_columns() && by_rows()
        } else {
            by_rows() && by_columns()
        }
    }
}

impl Sight<'_> {
    /// How many of the observers see each cell.
    pub fn viewshed(&self, observers: &[Observer], workers: usize) -> Frame<i32> {
        self.map(workers, |ground, row, column, height| self.seen_by(ground, observers, row, column, height))
    }

    /// The least target height at which one of the observers sees each cell.
    pub fn rise(&self, observers: &[Observer], workers: usize) -> Frame<i32> {
        self.map(workers, |ground, row, column, height| self.risen(ground, observers, row, column, height))
    }

    /// The map that has this value at each data cell.
    fn map<F>(&self, workers: usize, value: F) -> Frame<i32>
    where
        F: Fn(&Ground<'_>, i64, i64, Height) -> i32 + Sync,
    {
        let terrain = self.terrain;
        let blocks = Blocks::new(terrain);
        let ground = Ground::new(terrain, &blocks);
        let mut seen = terrain.map(
            NO_NUMBER,
            |height| if height == NODATA { NO_NUMBER } else { 0 },
        );
        let parts = terrain.rows.div_ceil(ROWS_AT_ONCE);
        let made = each(parts, workers, |part| self.rows_made(&ground, &value, part));
        let width = seen.width();
        for (body, part) in seen.body_mut().chunks_mut(ROWS_AT_ONCE * width).zip(made) {
            for (row, made) in body
                .chunks_exact_mut(width)
                .zip(part.chunks_exact(terrain.columns))
            {
                row[1..width - 1].copy_from_slice(made);
            }
        }
        seen
    }

    /// The values of some rows of the map.
    fn rows_made<F>(&self, ground: &Ground<'_>, value: &F, part: usize) -> Vec<i32>
    where
        F: Fn(&Ground<'_>, i64, i64, Height) -> i32,
    {
        let rows = part * ROWS_AT_ONCE..self.terrain.rows.min((part + 1) * ROWS_AT_ONCE);
        let cells = rows.flat_map(|row| {
            (0i64..)
                .zip(self.terrain.row(row))
                .map(move |(column, &height)| (row as i64, column, height))
        });
        cells
            .map(|(row, column, height)| {
                if height == NODATA {
                    NO_NUMBER
                } else {
                    value(ground, row, column, height)
                }
            })
            .collect()
    }

    /// How many of the observers see a cell.
    fn seen_by(
        &self,
        ground: &Ground<'_>,
        observers: &[Observer],
        row: i64,
        column: i64,
        height: Height,
    ) -> i32 {
        let target_elevation = height + i64::from(self.target);
        let reach = i64::from(self.radius) * i64::from(self.radius);
        let is_seen = |observer: &&Observer| {
            let (down, east) = (row - observer.row, column - observer.column);
            down * down + east * east <= reach && ground.sees(observer, row, column, target_elevation)
        };
        observers.iter().filter(is_seen).count() as i32
    }

    /// The least target height at which one of the observers sees a cell: each observer lowers it by halves.
    fn risen(
        &self,
        ground: &Ground<'_>,
        observers: &[Observer],
        row: i64,
        column: i64,
        height: Height,
    ) -> i32 {
        let reach = i64::from(self.radius) * i64::from(self.radius);
        let mut least = HIGHEST_TARGET + 1;
        for observer in observers {
            let (down, east) = (row - observer.row, column - observer.column);
            let sees = |target: i64| {
                down * down + east * east <= reach && ground.sees(observer, row, column, height + target)
            };
            if least == 0 || !sees(least - 1) {
                continue;
            }
            let mut hidden = -1;
            least -= 1;
            while least - hidden > 1 {
                let middle = (least + hidden).div_euclid(2);
                if sees(middle) {
                    least = middle;
                } else {
                    hidden = middle;
                }
            }
        }
        if least > HIGHEST_TARGET {
            NO_NUMBER
        } else {
            least as i32
        }
    }
}
