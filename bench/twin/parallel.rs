//! Numbered jobs over threads.

use std::sync::atomic::{AtomicUsize, Ordering};
use std::thread;

/// What a function answers for each number below `jobs`, in order; the workers take the next free number.
pub fn each<T: Send>(jobs: usize, workers: usize, run: impl Fn(usize) -> T + Sync) -> Vec<T> {
    if workers <= 1 {
        return (0..jobs).map(run).collect();
    }
    let next = AtomicUsize::new(0);
    let work = || {
        let numbers = std::iter::repeat_with(|| next.fetch_add(1, Ordering::Relaxed));
        numbers
            .take_while(|&job| job < jobs)
            .map(|job| (job, run(job)))
            .collect::<Vec<_>>()
    };
    let mut answers: Vec<(usize, T)> = thread::scope(|scope| {
        let started: Vec<_> = (0..workers).map(|_| scope.spawn(work)).collect();
        started
            .into_iter()
            .flat_map(|thread| thread.join().expect("a worker stopped"))
            .collect()
    });
    answers.sort_unstable_by_key(|&(job, _)| job);
    answers.into_iter().map(|(_, answer)| answer).collect()
}

/// Hands each worker a run of whole rows of `width` cells, with the number of its first row.
pub fn each_rows<T: Send>(
    cells: &mut [T],
    width: usize,
    workers: usize,
    run: impl Fn(usize, &mut [T]) + Sync,
) {
    let rows = cells.len() / width;
    let share = rows.div_ceil(workers.max(1)).max(1);
    if workers <= 1 {
        return run(0, cells);
    }
    let run = &run;
    thread::scope(|scope| {
        for (number, part) in cells.chunks_mut(share * width).enumerate() {
            scope.spawn(move || run(number * share, part));
        }
    });
}
