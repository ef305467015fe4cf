//! A plain Rust twin of `relief`: the same words, the same bytes, and no proof. `make bench` times the two
//! against each other. It stops with a message at a text that it cannot read, without fault numbers.
//!
//!     rustc --edition 2021 -O main.rs -o twin
//!     twin fill|flow|accumulate|basins [--workers N] [--scale D] < grid.asc > map.asc
//!     twin maps [--workers N] [--scale D] MAP.. < grid.asc > maps.asc
//!     twin view [--workers N] [--scale D] [--target N] [--radius N] ROW,COL,EYE.. < grid.asc > map.asc
//!     twin rise [--workers N] [--scale D] [--radius N] ROW,COL,EYE.. < grid.asc > map.asc
//!     twin terrain hills|coast|.. COLUMNS ROWS SEED [SCALE] > grid.asc

mod accumulate;
mod basins;
mod directions;
mod fill;
mod frame;
mod parallel;
mod queue;
mod read;
mod spill_graph;
mod terrain;
mod view;
mod write;

use frame::{Frame, Height, NO_NUMBER};
use read::Header;
use std::io::{self, Read};
use std::process::ExitCode;
use view::{Observer, Sight};

const DEFAULT_RADIUS: u32 = 8192;

/// The words of a command line that makes a map.
struct Wish {
    map: String,
    workers: usize,
    scale: usize,
    target: u32,
    radius: u32,
    observers: Vec<Observer>,
    /// The words of `maps`.
    several: Vec<String>,
}

fn number<T: std::str::FromStr>(word: Option<&String>) -> Result<T, String> {
    let word = word.ok_or("a number is missing")?;
    word.parse()
        .map_err(|_| format!("{word} is no number here"))
}

impl Wish {
    fn from_words(words: &[String]) -> Result<Self, String> {
        let mut words = words.iter();
        let map = words.next().ok_or("no map is named")?.clone();
        let mut wish = Wish {
            map,
            workers: 1,
            scale: 0,
            target: 0,
            radius: DEFAULT_RADIUS,
            observers: Vec::new(),
            several: Vec::new(),
        };
        while let Some(word) = words.next() {
            match word.as_str() {
                "--workers" => wish.workers = number(words.next())?,
                "--scale" => wish.scale = number(words.next())?,
                "--target" => wish.target = number(words.next())?,
                "--radius" => wish.radius = number(words.next())?,
                // The twin cuts tiles of one side.
                "--tile" => drop(number::<u32>(words.next())?),
                _ if wish.map == "maps" => wish.several.push(word.clone()),
                _ => wish.observers.push(word.parse()?),
            }
        }
        Ok(wish)
    }
}

fn make_map(wish: &Wish) -> Result<(), String> {
    let mut text = Vec::new();
    io::stdin()
        .lock()
        .read_to_end(&mut text)
        .map_err(|error| error.to_string())?;
    let (header, terrain) = read::read_grid(&text, wish.scale, wish.workers)?;
    drop(text);
    let sight = Sight {
        terrain: &terrain,
        target: wish.target,
        radius: wish.radius,
    };
    match wish.map.as_str() {
        "view" => write_numbers(wish, &header, &sight.viewshed(&wish.observers, wish.workers)),
        "rise" => write_numbers(wish, &header, &sight.rise(&wish.observers, wish.workers)),
        "maps" => write_drainage(wish, &wish.several, &header, terrain),
        map => write_drainage(wish, &[map.to_string()], &header, terrain),
    }
}

fn write_numbers(wish: &Wish, header: &Header, numbers: &Frame<i32>) -> Result<(), String> {
    write::write_map(header, numbers, "-9999", 0, wish.workers).map_err(|error| error.to_string())
}

/// Writes these maps one after the other, from one filling and one search for directions.
fn write_drainage(wish: &Wish, maps: &[String], header: &Header, terrain: Frame<Height>) -> Result<(), String> {
    let workers = wish.workers;
    let filled = fill::fill(&terrain, workers);
    drop(terrain);
    let ways = if maps.iter().all(|map| map == "fill") {
        None
    } else {
        Some(directions::directions(&filled, workers))
    };
    let filled = maps.iter().any(|map| map == "fill").then_some(filled);
    for map in maps {
        match (map.as_str(), &filled, &ways) {
            ("fill", Some(filled), _) => {
                write::write_map(header, filled, &header.nodata, wish.scale, workers)
                    .map_err(|error| error.to_string())?
            }
            ("flow", _, Some(ways)) => write_numbers(wish, header, &ways.map(NO_NUMBER, |way| way.code()))?,
            ("accumulate", _, Some(ways)) => write_numbers(wish, header, &accumulate::accumulate(ways))?,
            ("basins", _, Some(ways)) => write_numbers(wish, header, &basins::basins(ways))?,
            _ => return Err(format!("there is no map {map}")),
        }
    }
    Ok(())
}

fn main() -> ExitCode {
    let words: Vec<String> = std::env::args().skip(1).collect();
    let done = match words.first().map(String::as_str) {
        Some("terrain") => terrain::write_terrain(&words[1..]),
        _ => Wish::from_words(&words).and_then(|wish| make_map(&wish)),
    };
    match done {
        Ok(()) => ExitCode::SUCCESS,
        Err(message) => {
            eprintln!("twin: {message}");
            ExitCode::FAILURE
        }
    }
}
