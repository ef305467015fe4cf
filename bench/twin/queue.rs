//! Cells that wait in a flood, the lowest first.

use crate::frame::Height;
use std::cmp::Reverse;
use std::collections::BinaryHeap;

/// A queue of places by their height.
pub trait Waiting {
    fn push(&mut self, height: Height, place: usize);
    fn pop(&mut self) -> Option<usize>;
}

/// For heights of any span.
#[derive(Default)]
pub struct Heap {
    places: BinaryHeap<Reverse<(Height, u32)>>,
}

impl Waiting for Heap {
    #[inline]
    fn push(&mut self, height: Height, place: usize) {
        self.places.push(Reverse((height, place as u32)));
    }

    #[inline]
    fn pop(&mut self) -> Option<usize> {
        self.places.pop().map(|Reverse((_, place))| place as usize)
    }
}

const NOTHING: u32 = u32::MAX;

/// For a narrow span of heights: a list for each height, linked through one entry a place. What is popped
/// never falls, since a flood pushes nothing below the cell that it came from.
pub struct Buckets {
    lowest: Height,
    current: usize,
    heads: Vec<u32>,
    links: Vec<u32>,
}

impl Buckets {
    pub fn new(lowest: Height, highest: Height, places: usize) -> Self {
        let heads = vec![NOTHING; (highest - lowest) as usize + 1];
        Buckets {
            lowest,
            current: 0,
            heads,
            links: vec![NOTHING; places],
        }
    }
}

impl Waiting for Buckets {
    #[inline]
    fn push(&mut self, height: Height, place: usize) {
        let head = &mut self.heads[(height - self.lowest) as usize];
        self.links[place] = *head;
        *head = place as u32;
    }

    #[inline]
    fn pop(&mut self) -> Option<usize> {
        while *self.heads.get(self.current)? == NOTHING {
            self.current += 1;
        }
        let place = self.heads[self.current] as usize;
        self.heads[self.current] = self.links[place];
        Some(place)
    }
}
