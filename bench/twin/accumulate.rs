//! How many other cells' water flows through each cell.

use crate::directions::Way;
use crate::frame::{beside, Frame, NO_NUMBER};

/// How many neighbours give their water to each cell.
fn donors(directions: &Frame<Way>, ways: &[isize; 8]) -> Vec<u8> {
    let mut donors = vec![0u8; directions.cells.len()];
    for (place, way) in directions.cells.iter().enumerate() {
        if let Some(neighbour) = way.neighbour() {
            donors[beside(place, ways[neighbour])] += 1;
        }
    }
    donors
}

/// The accumulation of each cell: from each cell without donors the water is followed as far as all donors of
/// the next cell have been counted.
pub fn accumulate(directions: &Frame<Way>) -> Frame<i32> {
    let ways = directions.ways();
    let mut donors = donors(directions, &ways);
    let mut counts = directions.map(NO_NUMBER, |way| if way.has_data() { 0 } else { NO_NUMBER });
    /// A source that was followed, so that no walk begins at a cell on another's way.
    const DONE: u8 = u8::MAX;
    for source in directions.places() {
        let mut place = source;
        while donors[place] == 0 {
            donors[place] = DONE;
            let Some(neighbour) = directions.cells[place].neighbour() else {
                break;
            };
            let next = beside(place, ways[neighbour]);
            counts.cells[next] += counts.cells[place] + 1;
            donors[next] -= 1;
            place = next;
        }
    }
    counts
}
