//! D8 directions on filled heights: the steepest neighbour, and on flats the shortest way to where they drain.

use crate::frame::{beside, Frame, Height, NODATA, NO_NUMBER};
use crate::parallel::each_rows;

/// Where the water of a cell goes: a neighbour by its number from 0 in the order of the codes, or a mark.
#[derive(Clone, Copy, PartialEq, Eq)]
pub struct Way(u8);

impl Way {
    const OUTLET: Way = Way(8);
    const NODATA: Way = Way(9);
    /// On a flat, not yet reached.
    const FLAT: Way = Way(10);

    /// The number of the neighbour, where there is one.
    #[inline(always)]
    pub fn neighbour(self) -> Option<usize> {
        (self.0 < 8).then_some(self.0 as usize)
    }

    pub fn is_outlet(self) -> bool {
        self == Way::OUTLET
    }

    pub fn has_data(self) -> bool {
        self != Way::NODATA
    }

    /// The code that a map of directions shows.
    pub fn code(self) -> i32 {
        match self {
            Way::NODATA => NO_NUMBER,
            Way::OUTLET => 0,
            Way(neighbour) => 1 << neighbour,
        }
    }
}

/// The first of the four neighbours with the least height, as its place in the list and its height.
#[inline(always)]
fn lowest(heights: [Height; 4]) -> (u8, Height) {
    let mut found = (0, heights[0]);
    for number in 1..4 {
        if heights[number] < found.1 {
            found = (number as u8, heights[number]);
        }
    }
    found
}

/// Twice the square of drop over distance.
fn weight(drop: Height, neighbour: u8) -> i128 {
    let square = i128::from(drop) * i128::from(drop);
    if neighbour % 2 == 0 {
        2 * square
    } else {
        square
    }
}

/// The way of a cell with data all around.
#[inline(always)]
fn inner_way(height: Height, around: [Height; 8]) -> Way {
    let [e, se, s, sw, w, nw, n, ne] = around;
    let ((side, beside), (corner, across)) = (lowest([e, s, w, n]), lowest([se, sw, nw, ne]));
    if beside.min(across) >= height {
        return Way::FLAT;
    }
    let drop = |lower: Height| height - lower.min(height);
    if weight(drop(beside), 0) >= weight(drop(across), 1) {
        Way(2 * side)
    } else {
        Way(2 * corner + 1)
    }
}

/// The way of a cell at the data's edge.
#[cold]
fn edge_way(height: Height, around: [Height; 8]) -> Way {
    let lower = (0u8..)
        .zip(around)
        .filter(|&(_, other)| other != NODATA && other < height);
    let weights = lower.map(|(number, other)| (weight(height - other, number), number));
    let steepest = weights.reduce(|best, next| if next.0 > best.0 { next } else { best });
    steepest.map_or(Way::OUTLET, |(_, number)| Way(number))
}

/// The way of a cell, `FLAT` where it has no lower neighbour and is no edge cell.
#[inline(always)]
fn way_of(filled: &[Height], place: usize, ways: &[isize; 8]) -> Way {
    let height = filled[place];
    if height == NODATA {
        return Way::NODATA;
    }
    let around = ways.map(|way| filled[beside(place, way)]);
    if around.contains(&NODATA) {
        edge_way(height, around)
    } else {
        inner_way(height, around)
    }
}

/// The directions of the water on filled heights.
pub fn directions(filled: &Frame<Height>, workers: usize) -> Frame<Way> {
    let mut directions = Frame::new(filled.columns, filled.rows, Way::NODATA);
    let (width, ways) = (filled.width(), filled.ways());
    each_rows(directions.body_mut(), width, workers, |first, rows| {
        for (row, cells) in (first..).zip(rows.chunks_exact_mut(width)) {
            let start = (row + 1) * width;
            for (column, cell) in cells[..width - 1].iter_mut().enumerate().skip(1) {
                *cell = way_of(&filled.cells, start + column, &ways);
            }
        }
    });
    drain_flats(filled, &mut directions.cells, &ways);
    directions
}

/// Goes over the flats from where they drain, one step after the other. A cell may go to a cell of the step
/// before alone, so the cells of a step are found first and given their ways after that.
fn drain_flats(filled: &Frame<Height>, directions: &mut [Way], ways: &[isize; 8]) {
    let heights = &filled.cells;
    let is_flat = |directions: &[Way], place: usize, height: Height| {
        directions[place] == Way::FLAT && heights[place] == height
    };
    let drains = |place: &usize| {
        let way = directions[*place];
        way != Way::FLAT
            && way.has_data()
            && ways
                .iter()
                .any(|&way| is_flat(directions, beside(*place, way), heights[*place]))
    };
    let mut last: Vec<u32> = filled
        .places()
        .filter(drains)
        .map(|place| place as u32)
        .collect();
    let mut steps = vec![0u32; heights.len()];
    for step in 1.. {
        let mut reached: Vec<u32> = Vec::new();
        for place in last.iter().map(|&place| place as usize) {
            for next in ways.iter().map(|&way| beside(place, way)) {
                if steps[next] == 0 && is_flat(directions, next, heights[place]) {
                    steps[next] = step;
                    reached.push(next as u32);
                }
            }
        }
        if reached.is_empty() {
            return;
        }
        for place in reached.iter().map(|&place| place as usize) {
            let is_before = |way: &isize| {
                let next = beside(place, *way);
                heights[next] == heights[place]
                    && steps[next] == step - 1
                    && directions[next] != Way::FLAT
            };
            let neighbour = ways
                .iter()
                .position(is_before)
                .expect("a cell of the step before is beside");
            directions[place] = Way(neighbour as u8);
        }
        last = reached;
    }
}
