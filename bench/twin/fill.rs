//! Filled heights by tiles: each tile is flooded for itself, a graph of spills between the tiles' labels gives
//! each label its level, and each tile is raised to the levels of its labels.

use crate::frame::{beside, ways_of_width, Frame, Height, NODATA};
use crate::parallel::{each, each_rows};
use crate::queue::{Buckets, Heap, Waiting};
use crate::spill_graph::Levels;

/// Side of a tile.
pub const SIDE: usize = 256;

/// The widest span of heights in a tile that is flooded with a bucket for each height.
const WIDEST_BUCKETS: Height = 1 << 16;

/// The label of what drains off the data inside the tile.
pub const OUTSIDE: u32 = 1;

const UNLABELLED: u32 = 0;

/// The label of cells without data, and of the frame.
pub const CLOSED: u32 = u32::MAX;

/// A part of a grid.
#[derive(Clone, Copy)]
pub struct Tile {
    pub top: usize,
    pub left: usize,
    pub rows: usize,
    pub columns: usize,
}

impl Tile {
    pub fn numbered(terrain: &Frame<Height>, number: usize) -> Self {
        let across = terrain.columns.div_ceil(SIDE);
        let (top, left) = (number / across * SIDE, number % across * SIDE);
        Tile {
            top,
            left,
            rows: SIDE.min(terrain.rows - top),
            columns: SIDE.min(terrain.columns - left),
        }
    }

    fn is_on_rim(&self, row: usize, column: usize) -> bool {
        row == 0 || column == 0 || row + 1 == self.rows || column + 1 == self.columns
    }
}

/// Water of two labels meets at this height.
#[derive(Clone, Copy, PartialEq, Eq, PartialOrd, Ord)]
pub struct Spill {
    pub lower: u32,
    pub upper: u32,
    pub height: Height,
}

impl Spill {
    pub fn between(one: u32, other: u32, height: Height) -> Self {
        Spill {
            lower: one.min(other),
            upper: one.max(other),
            height,
        }
    }
}

/// Keeps the lowest spill of each pair of labels.
pub fn keep_lowest(spills: &mut Vec<Spill>) {
    spills.sort_unstable();
    spills.dedup_by_key(|spill| (spill.lower, spill.upper));
}

/// A tile flooded from its rim and its edge cells, in a frame.
pub struct Flood {
    pub tile: Tile,
    pub heights: Vec<Height>,
    pub labels: Vec<u32>,
    pub next_label: u32,
    pub spills: Vec<Spill>,
}

impl Flood {
    fn new(terrain: &Frame<Height>, tile: Tile) -> Self {
        let mut heights = Vec::with_capacity((tile.rows + 2) * (tile.columns + 2));
        for row in 0..tile.rows + 2 {
            let start = (tile.top + row) * terrain.width() + tile.left;
            heights.extend_from_slice(&terrain.cells[start..start + tile.columns + 2]);
        }
        let labels = vec![CLOSED; heights.len()];
        let mut flood = Flood {
            tile,
            heights,
            labels,
            next_label: OUTSIDE + 1,
            spills: Vec::new(),
        };
        match flood.span() {
            Some((low, high)) if high - low < WIDEST_BUCKETS => {
                flood.run(Buckets::new(low, high, flood.heights.len()));
            }
            Some(_) => flood.run(Heap::default()),
            None => {}
        }
        keep_lowest(&mut flood.spills);
        flood
    }

    pub fn place(&self, row: usize, column: usize) -> usize {
        (row + 1) * (self.tile.columns + 2) + column + 1
    }

    /// The lowest and highest height of the tile, where it has data.
    fn span(&self) -> Option<(Height, Height)> {
        let rows = (0..self.tile.rows).map(|row| self.place(row, 0));
        let heights = rows.flat_map(|start| &self.heights[start..start + self.tile.columns]);
        heights
            .filter(|&&height| height != NODATA)
            .fold(None, |span, &height| {
                let (low, high) = span.unwrap_or((height, height));
                Some((low.min(height), high.max(height)))
            })
    }

    /// Opens the cells with data, and queues those where water can leave the tile.
    fn open(&mut self, ways: &[isize; 8], waiting: &mut impl Waiting) -> Vec<bool> {
        let mut queued = vec![false; self.heights.len()];
        for row in 0..self.tile.rows {
            for column in 0..self.tile.columns {
                let place = self.place(row, column);
                if self.heights[place] == NODATA {
                    continue;
                }
                let is_edge = ways
                    .iter()
                    .any(|&way| self.heights[beside(place, way)] == NODATA);
                self.labels[place] = if is_edge { OUTSIDE } else { UNLABELLED };
                if is_edge || self.tile.is_on_rim(row, column) {
                    queued[place] = true;
                    waiting.push(self.heights[place], place);
                }
            }
        }
        queued
    }

    fn run(&mut self, mut waiting: impl Waiting) {
        let ways = ways_of_width(self.tile.columns + 2);
        let queued = self.open(&ways, &mut waiting);
        let mut pits: Vec<u32> = Vec::new();
        while let Some(place) = pits
            .pop()
            .map(|place| place as usize)
            .or_else(|| waiting.pop())
        {
            let (height, label) = (self.heights[place], self.label_of(place));
            for way in ways {
                let next = beside(place, way);
                let other = self.labels[next];
                if other == label || other == CLOSED {
                    continue;
                }
                if other != UNLABELLED {
                    self.spills
                        .push(Spill::between(label, other, height.max(self.heights[next])));
                    continue;
                }
                self.labels[next] = label;
                if queued[next] {
                    continue;
                }
                if self.heights[next] <= height {
                    self.heights[next] = height;
                    pits.push(next as u32);
                } else {
                    waiting.push(self.heights[next], next);
                }
            }
        }
    }

    /// The label of a cell whose turn it is; a cell of the rim that no label reached begins a new one.
    #[inline(always)]
    fn label_of(&mut self, place: usize) -> u32 {
        if self.labels[place] == UNLABELLED {
            self.labels[place] = self.next_label;
            self.next_label += 1;
        }
        self.labels[place]
    }

    /// Raises the cells of one row of the tile to the levels of their labels.
    fn raise_row(&self, row: usize, number: usize, levels: &Levels, raised: &mut [Height]) {
        let start = self.place(row, 0);
        let places = start..start + self.tile.columns;
        let cells = self.heights[places.clone()]
            .iter()
            .zip(&self.labels[places]);
        for (raised, (&height, &label)) in raised.iter_mut().zip(cells) {
            if label != CLOSED {
                *raised = height.max(levels.of(number, label));
            }
        }
    }
}

/// The filled heights of a terrain.
pub fn fill(terrain: &Frame<Height>, workers: usize) -> Frame<Height> {
    let across = terrain.columns.div_ceil(SIDE);
    let tiles = across * terrain.rows.div_ceil(SIDE);
    let floods = each(tiles, workers, |number| {
        Flood::new(terrain, Tile::numbered(terrain, number))
    });
    let levels = Levels::new(terrain, &floods);
    let mut filled = Frame::new(terrain.columns, terrain.rows, NODATA);
    let width = filled.width();
    each_rows(filled.body_mut(), width, workers, |first, rows| {
        for (row, cells) in (first..).zip(rows.chunks_exact_mut(width)) {
            for (column, cells) in cells[1..width - 1].chunks_mut(SIDE).enumerate() {
                let number = row / SIDE * across + column;
                floods[number].raise_row(row % SIDE, number, &levels, cells);
            }
        }
    });
    filled
}
