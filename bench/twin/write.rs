//! Writes the text of a map: the header, then rows made by all workers.

use crate::frame::{Frame, Value};
use crate::parallel::each;
use crate::read::Header;
use std::io::{self, Write};

/// Rows whose text is made at once by each worker, before it is written.
const ROWS_AT_ONCE: usize = 256;

fn header_text(header: &Header, nodata: &str) -> String {
    let (columns, rows) = (header.columns.to_string(), header.rows.to_string());
    let lines = [
        ("ncols", &*columns),
        ("nrows", &*rows),
        (&*header.west.0, &*header.west.1),
        (&*header.south.0, &*header.south.1),
        ("cellsize", &*header.cell_size),
        ("NODATA_value", nodata),
    ];
    lines
        .iter()
        .map(|(key, value)| format!("{key:<14}{value}\n"))
        .collect()
}

/// Two digits for each number below 100.
const PAIRS: [[u8; 2]; 100] = {
    let mut pairs = [[0; 2]; 100];
    let mut number = 0;
    while number < 100 {
        pairs[number] = [b'0' + number as u8 / 10, b'0' + number as u8 % 10];
        number += 1;
    }
    pairs
};

/// Puts a number in front of the end of a buffer, and answers where it begins.
#[inline(always)]
fn put(buffer: &mut [u8; 24], value: i64, scale: usize) -> usize {
    let (mut start, mut rest) = (buffer.len(), value.unsigned_abs());
    for _ in 0..scale {
        start -= 1;
        buffer[start] = b'0' + (rest % 10) as u8;
        rest /= 10;
    }
    if scale > 0 {
        start -= 1;
        buffer[start] = b'.';
    }
    while rest >= 100 {
        start -= 2;
        buffer[start..start + 2].copy_from_slice(&PAIRS[(rest % 100) as usize]);
        rest /= 100;
    }
    if rest >= 10 {
        start -= 2;
        buffer[start..start + 2].copy_from_slice(&PAIRS[rest as usize]);
    } else {
        start -= 1;
        buffer[start] = b'0' + rest as u8;
    }
    if value < 0 {
        start -= 1;
        buffer[start] = b'-';
    }
    start
}

fn put_row<T: Value>(text: &mut Vec<u8>, row: &[T], nodata: &[u8], scale: usize) {
    let mut buffer = [0; 24];
    for &value in row {
        if value == T::NONE {
            text.extend_from_slice(nodata);
        } else {
            let start = put(&mut buffer, value.into(), scale);
            text.extend_from_slice(&buffer[start..]);
        }
        text.push(b' ');
    }
    if let Some(last) = text.last_mut() {
        *last = b'\n';
    }
}

/// Writes a map to standard output, its values with `scale` decimals.
pub fn write_map<T: Value>(
    header: &Header,
    map: &Frame<T>,
    nodata: &str,
    scale: usize,
    workers: usize,
) -> io::Result<()> {
    let mut out = io::stdout().lock();
    out.write_all(header_text(header, nodata).as_bytes())?;
    let pieces = map.rows.div_ceil(ROWS_AT_ONCE);
    for first in (0..pieces).step_by(workers.max(1)) {
        let texts = each(workers.min(pieces - first), workers, |number| {
            let start = (first + number) * ROWS_AT_ONCE;
            let mut text = Vec::with_capacity(ROWS_AT_ONCE.min(map.rows) * map.columns * 6);
            for row in start..map.rows.min(start + ROWS_AT_ONCE) {
                put_row(&mut text, map.row(row), nodata.as_bytes(), scale);
            }
            text
        });
        for text in texts {
            out.write_all(&text)?;
        }
    }
    out.flush()
}
