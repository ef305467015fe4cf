//! The number of the outlet to which each cell's water flows.

use crate::directions::Way;
use crate::frame::{beside, Frame, NO_NUMBER};

const UNKNOWN: i32 = 0;

/// The outlets by their numbers from 1 in row order, and each other cell by its outlet.
pub fn basins(directions: &Frame<Way>) -> Frame<i32> {
    let ways = directions.ways();
    let mut basins = directions.map(
        NO_NUMBER,
        |way| if way.has_data() { UNKNOWN } else { NO_NUMBER },
    );
    let outlets = directions
        .places()
        .filter(|&place| directions.cells[place].is_outlet());
    for (number, outlet) in (1..).zip(outlets) {
        basins.cells[outlet] = number;
    }
    let mut path = Vec::new();
    for start in directions.places() {
        let mut place = start;
        while basins.cells[place] == UNKNOWN {
            path.push(place);
            let neighbour = directions.cells[place]
                .neighbour()
                .expect("each cell drains");
            place = beside(place, ways[neighbour]);
        }
        let basin = basins.cells[place];
        for place in path.drain(..) {
            basins.cells[place] = basin;
        }
    }
    basins
}
