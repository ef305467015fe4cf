//! Terrains to run maps on, the same for each seed: `hills` has pits at every scale, level lakes, sea below 0
//! and holes without data; `coast` is hills without data below the sea; of `holes` each second cell has no data, at
//! random; `serpentine` is one flat that winds through corridors one cell wide; `smooth` has wide hills alone; and
//! `cone`, `flat`, `checkerboard`, `spikes` and `noise` are what their names say.

use crate::frame::{Frame, Height, NODATA};
use crate::read::Header;
use crate::write::write_map;

/// Side of the largest hills in cells, on a grid that is as large.
const WIDEST: usize = 1024;

/// Heights of hills span about so many whole units.
const SWING: i64 = 4000;

/// The part of the swing, from the bottom, that lies under the sea.
const SEA: i64 = 1650;

/// Lakes lie at multiples of this height.
const LAKE_STEP: i64 = 500;

/// About the side of lakes and of holes in cells, and where in the numbers of a smooth row they begin.
const LAKE_SIDE: i64 = 48;
const LAKES_FROM: i64 = 50_000;
const HOLE_SIDE: i64 = 64;
const HOLES_FROM: i64 = 60_000;

const LEAST_SIDE: usize = 4;

/// Of a thousand cells of `spikes` so many stand out, by so much.
const SPIKES: u64 = 4;
const SPIKE: i64 = 100;

/// Heights of `noise` are from its negative to this, in scaled units.
const NOISE: i64 = 1_000_000_000;

/// The narrowest hills of `smooth` are so many times as narrow as its widest.
const SMOOTH: i64 = 8;

/// A well mixed number for each number.
fn mixed(number: u64) -> u64 {
    let number = number.wrapping_add(0x9E37_79B9_7F4A_7C15);
    let number = (number ^ (number >> 30)).wrapping_mul(0xBF58_476D_1CE4_E5B9);
    let number = (number ^ (number >> 27)).wrapping_mul(0x94D0_49BB_1331_11EB);
    number ^ (number >> 31)
}

/// A number below 2^16 for each point of a lattice.
fn at_point(seed: u64, row: i64, column: i64) -> i64 {
    (mixed(seed ^ mixed((row as u64) << 32 | column as u64)) >> 48) as i64
}

/// Between two numbers, at a part of the way: level at both ends.
fn between(one: i64, other: i64, part: i64, whole: i64) -> i64 {
    let part = (part << 12) / whole;
    let eased = (part * part * ((3 << 12) - 2 * part)) >> 24;
    one + (((other - one) * eased) >> 12)
}

/// Numbers below 2^16 for the cells of one row, smooth between the points of a lattice `step` apart.
fn smooth_row(seed: u64, step: i64, row: i64, columns: usize) -> impl Iterator<Item = i64> {
    let (lattice_row, down) = (row / step, row % step);
    let on_row = move |column: i64| {
        let north = at_point(seed, lattice_row, column);
        let south = at_point(seed, lattice_row + 1, column);
        between(north, south, down, step)
    };
    let mut ends = (on_row(0), on_row(1));
    (0..columns as i64).map(move |column| {
        let east = column % step;
        if east == 0 {
            ends = (on_row(column / step), on_row(column / step + 1));
        }
        between(ends.0, ends.1, east, step)
    })
}

/// The sum of smooth rows of ever smaller lattices, each about half as high, as parts of 2^16 of `swing`, down to the
/// lattice of `least` cells.
fn rough_row(seed: u64, swing: i64, least: i64, widest: i64, row: i64, columns: usize) -> Vec<i64> {
    let mut heights = vec![0; columns];
    let (mut step, mut high) = (widest, swing / 2);
    while step >= least.max(1) {
        let seed = mixed(seed ^ step as u64);
        for (height, part) in heights.iter_mut().zip(smooth_row(seed, step, row, columns)) {
            *height += part * high;
        }
        step /= 2;
        high = (high / 2).max(3);
    }
    heights.into_iter().map(|height| height >> 16).collect()
}

/// Observers stand at the quarters of the sides, which are never without data.
fn is_stand(terrain: &Frame<Height>, row: usize, column: usize) -> bool {
    4 * row % terrain.rows == 0 && 4 * column % terrain.columns == 0
}

fn hills(columns: usize, rows: usize, seed: u64, unit: i64) -> Frame<Height> {
    let widest = columns.max(rows).min(WIDEST) as i64;
    let mut terrain = Frame::new(columns, rows, NODATA);
    for row in 0..rows {
        let heights = rough_row(seed, SWING * unit, 1, widest, row as i64, columns);
        let wet = smooth_row(mixed(seed ^ 1), LAKE_SIDE, row as i64, columns);
        let known = smooth_row(mixed(seed ^ 2), HOLE_SIDE, row as i64, columns);
        let place = terrain.place(row, 0);
        let cells = heights.into_iter().zip(wet).zip(known).enumerate();
        for (column, ((height, wet), known)) in cells {
            if known < HOLES_FROM || is_stand(&terrain, row, column) {
                let height = height - SEA * unit;
                let is_lake = height > 0 && wet > LAKES_FROM;
                let depth = if is_lake {
                    height % (LAKE_STEP * unit)
                } else {
                    0
                };
                terrain.cells[place + column] = height - depth;
            }
        }
    }
    terrain
}

fn serpentine(columns: usize, rows: usize, unit: i64) -> Frame<Height> {
    let (floor, wall) = (unit, 9 * unit);
    let mut terrain = Frame::new(columns, rows, wall);
    for row in (1..rows.saturating_sub(1)).step_by(2) {
        let (west, east) = (terrain.place(row, 1), terrain.place(row, columns - 1));
        terrain.cells[west..east].fill(floor);
        // The way to the next corridor, at the east end and at the west end in turn.
        let turn = if row % 4 == 1 { columns - 2 } else { 1 };
        let below = terrain.place(row + 1, turn);
        if row + 3 < rows {
            terrain.cells[below] = floor;
        }
    }
    if rows > 1 {
        let outlet = terrain.place(1, 0);
        terrain.cells[outlet] = floor;
    }
    terrain
}

/// A terrain without the cells of another that a test of row, column and height picks out, but for the stands.
fn without(
    mut terrain: Frame<Height>,
    picks: impl Fn(usize, usize, Height) -> bool,
) -> Frame<Height> {
    for row in 0..terrain.rows {
        for column in 0..terrain.columns {
            let place = terrain.place(row, column);
            if picks(row, column, terrain.cells[place]) && !is_stand(&terrain, row, column) {
                terrain.cells[place] = NODATA;
            }
        }
    }
    terrain
}

/// A terrain of the heights that a function gives each row.
fn by_rows(columns: usize, rows: usize, heights: impl Fn(i64) -> Vec<i64>) -> Frame<Height> {
    let mut terrain = Frame::new(columns, rows, NODATA);
    for row in 0..rows {
        let place = terrain.place(row, 0);
        for (column, height) in heights(row as i64).into_iter().enumerate() {
            terrain.cells[place + column] = height;
        }
    }
    terrain
}

/// A terrain of the heights that a function gives each row and column.
fn by_cells(columns: usize, rows: usize, height: impl Fn(i64, i64) -> i64) -> Frame<Height> {
    by_rows(columns, rows, |row| {
        (0..columns as i64)
            .map(|column| height(row, column))
            .collect()
    })
}

/// The terrain of this name, of which a unit is so many scaled units.
fn terrain_of(
    name: &str,
    columns: usize,
    rows: usize,
    seed: u64,
    unit: i64,
) -> Option<Frame<Height>> {
    let (middle_row, middle_column) = (rows as i64 / 2, columns as i64 / 2);
    let any = |row, column| mixed(seed ^ mixed((row as u64) << 32 | column as u64));
    Some(match name {
        "hills" => hills(columns, rows, seed, unit),
        "coast" => without(hills(columns, rows, seed, unit), |_, _, height| height < 0),
        "holes" => without(hills(columns, rows, seed, unit), |row, column, _| {
            any(row as i64, column as i64) % 2 == 0
        }),
        "serpentine" => serpentine(columns, rows, unit),
        "smooth" => by_rows(columns, rows, |row| {
            let widest = columns.max(rows).min(WIDEST) as i64;
            rough_row(seed, SWING * unit, widest / SMOOTH, widest, row, columns)
        }),
        "cone" => by_cells(columns, rows, |row, column| {
            ((row - middle_row).abs() + (column - middle_column).abs()) * unit
        }),
        "flat" => by_cells(columns, rows, |_, _| 0),
        "checkerboard" => by_cells(columns, rows, |row, column| (row + column) % 2 * unit),
        "spikes" => by_cells(columns, rows, |row, column| {
            let number = any(row, column);
            if number % 1000 < SPIKES {
                SPIKE * unit
            } else {
                (number >> 32) as i64 % 4 * unit
            }
        }),
        "noise" => by_cells(columns, rows, |row, column| {
            (any(row, column) % (2 * NOISE as u64 + 1)) as i64 - NOISE
        }),
        _ => return None,
    })
}

/// Writes the terrain that the words name: `NAME COLUMNS ROWS SEED [SCALE]`.
pub fn write_terrain(words: &[String]) -> Result<(), String> {
    let number = |place: usize| -> Result<u64, String> {
        let word = words
            .get(place)
            .ok_or("a terrain has a kind, columns, rows and a seed")?;
        word.parse().map_err(|_| format!("{word} is no number"))
    };
    let (columns, rows, seed) = (number(1)? as usize, number(2)? as usize, number(3)?);
    let scale = if words.len() > 4 {
        number(4)? as usize
    } else {
        0
    };
    if columns < LEAST_SIDE || rows < LEAST_SIDE {
        return Err(format!(
            "a terrain has at least {LEAST_SIDE} columns and rows"
        ));
    }
    let unit = 10i64.pow(scale as u32);
    let terrain = terrain_of(&words[0], columns, rows, seed, unit)
        .ok_or_else(|| format!("there is no terrain {}", words[0]))?;
    let header = Header {
        columns,
        rows,
        west: ("xllcorner".to_owned(), "0".to_owned()),
        south: ("yllcorner".to_owned(), "0".to_owned()),
        cell_size: "30".to_owned(),
        nodata: "-9999".to_owned(),
    };
    write_map(&header, &terrain, &header.nodata, scale, 1).map_err(|error| error.to_string())
}
