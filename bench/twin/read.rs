//! Reads the grid text: the header, then the heights in pieces, one for each worker.

use crate::frame::{Frame, Height, NODATA};
use crate::parallel::each;

const HIGHEST: Height = 1_000_000_000_000_000;

/// The header's words that a map's text takes over.
pub struct Header {
    pub columns: usize,
    pub rows: usize,
    pub west: (String, String),
    pub south: (String, String),
    pub cell_size: String,
    pub nodata: String,
}

fn is_separator(byte: u8) -> bool {
    matches!(byte, b' ' | b'\t' | b'\n' | b'\r')
}

/// The next word of the text from a place on, and the place behind it.
fn word(text: &[u8], from: usize) -> (&[u8], usize) {
    let start = from
        + text[from..]
            .iter()
            .take_while(|&&byte| is_separator(byte))
            .count();
    let length = text[start..]
        .iter()
        .take_while(|&&byte| !is_separator(byte))
        .count();
    (&text[start..start + length], start + length)
}

fn read_header(text: &[u8]) -> Result<(Header, usize), String> {
    let none = || (String::new(), String::new());
    let mut header = Header {
        columns: 0,
        rows: 0,
        west: none(),
        south: none(),
        cell_size: String::new(),
        nodata: "-9999".to_owned(),
    };
    let mut place = 0;
    loop {
        let (key, behind) = word(text, place);
        if !key.first().is_some_and(u8::is_ascii_alphabetic) {
            return Ok((header, place));
        }
        let (value, end) = word(text, behind);
        let key = String::from_utf8_lossy(key).to_lowercase();
        let value = String::from_utf8_lossy(value).into_owned();
        let size = || value.parse().map_err(|_| format!("bad {key}"));
        match key.as_str() {
            "ncols" => header.columns = size()?,
            "nrows" => header.rows = size()?,
            "xllcorner" | "xllcenter" => header.west = (key, value),
            "yllcorner" | "yllcenter" => header.south = (key, value),
            "cellsize" => header.cell_size = value,
            "nodata_value" => header.nodata = value,
            _ => return Err(format!("unknown key {key}")),
        }
        place = end;
    }
}

/// The whole number `word * 10^scale`, where the word has one in the limits of heights.
fn scaled(word: &[u8], scale: usize) -> Option<Height> {
    let digits = word
        .strip_prefix(b"-")
        .or(word.strip_prefix(b"+"))
        .unwrap_or(word);
    let point = digits
        .iter()
        .position(|&byte| byte == b'.')
        .unwrap_or(digits.len());
    let (whole, fraction) = (&digits[..point], digits.get(point + 1..).unwrap_or(&[]));
    let (kept, rest) = fraction.split_at(scale.min(fraction.len()));
    if whole.len() + fraction.len() == 0 || rest.iter().any(|&byte| byte != b'0') {
        return None;
    }
    let zeros = std::iter::repeat_n(&b'0', scale - kept.len());
    let size = whole
        .iter()
        .chain(kept)
        .chain(zeros)
        .try_fold(0, |size, &byte| {
            (byte.is_ascii_digit() && size <= HIGHEST)
                .then(|| size * 10 + Height::from(byte - b'0'))
        })?;
    let value = if word[0] == b'-' { -size } else { size };
    (size <= HIGHEST).then_some(value)
}

/// How the heights of one text are to be read.
struct Heights<'a> {
    scale: usize,
    nodata: &'a [u8],
    nodata_value: Option<Height>,
}

impl Heights<'_> {
    fn value(&self, word: &[u8]) -> Result<Height, String> {
        if word == self.nodata {
            return Ok(NODATA);
        }
        let value = scaled(word, self.scale)
            .ok_or_else(|| format!("bad height {}", String::from_utf8_lossy(word)))?;
        Ok(if Some(value) == self.nodata_value {
            NODATA
        } else {
            value
        })
    }

    /// A number of at most fifteen digits with at most `scale` decimals is read in one pass over its bytes;
    /// `None` where the word is longer or otherwise.
    #[inline(always)]
    fn plain(&self, text: &[u8], from: usize) -> Option<(Height, usize)> {
        let negative = text[from] == b'-';
        let (mut place, mut digits, mut decimals, mut point) =
            (from + usize::from(negative), 0, 0, false);
        let mut size = 0u64;
        while let Some(&byte) = text.get(place) {
            let digit = byte.wrapping_sub(b'0');
            if digit <= 9 {
                size = size.wrapping_mul(10).wrapping_add(u64::from(digit));
                digits += 1;
                decimals += usize::from(point);
            } else if byte == b'.' && !point {
                point = true;
            } else {
                break;
            }
            place += 1;
        }
        let whole_word = text.get(place).is_none_or(|&byte| is_separator(byte));
        if digits == 0
            || decimals > self.scale
            || digits + self.scale - decimals > 15
            || !whole_word
        {
            return None;
        }
        let size = (size * 10u64.pow((self.scale - decimals) as u32)) as Height;
        let value = if negative { -size } else { size };
        Some((
            if Some(value) == self.nodata_value {
                NODATA
            } else {
                value
            },
            place,
        ))
    }

    fn read_piece(&self, piece: &[u8]) -> Result<Vec<Height>, String> {
        let mut heights = Vec::with_capacity(piece.len() / 4);
        let mut place = 0;
        while place < piece.len() {
            if is_separator(piece[place]) {
                place += 1;
            } else if let Some((height, end)) = self.plain(piece, place) {
                heights.push(height);
                place = end;
            } else {
                let (word, end) = word(piece, place);
                heights.push(self.value(word)?);
                place = end;
            }
        }
        Ok(heights)
    }
}

/// Where each worker's piece begins and ends: between words.
fn cuts(text: &[u8], workers: usize) -> Vec<usize> {
    let cut = |number: usize| {
        let near = text.len() * number / workers;
        near + text[near..]
            .iter()
            .take_while(|&&byte| !is_separator(byte))
            .count()
    };
    (0..workers)
        .map(|number| if number == 0 { 0 } else { cut(number) })
        .chain([text.len()])
        .collect()
}

/// The header and the heights of a text, in units of `10^-scale`.
pub fn read_grid(
    text: &[u8],
    scale: usize,
    workers: usize,
) -> Result<(Header, Frame<Height>), String> {
    let (header, start) = read_header(text)?;
    let heights = Heights {
        scale,
        nodata: header.nodata.as_bytes(),
        nodata_value: scaled(header.nodata.as_bytes(), scale),
    };
    let text = &text[start..];
    let cuts = cuts(text, workers);
    let pieces = each(workers, workers, |number| {
        heights.read_piece(&text[cuts[number]..cuts[number + 1]])
    });
    let pieces = pieces.into_iter().collect::<Result<Vec<_>, _>>()?;
    if pieces.iter().map(Vec::len).sum::<usize>() != header.columns * header.rows {
        return Err("too few or too many heights".to_owned());
    }
    let mut grid = Frame::new(header.columns, header.rows, NODATA);
    let (mut row, mut column) = (0, 0);
    for mut piece in pieces.iter().map(Vec::as_slice) {
        while !piece.is_empty() {
            let (part, rest) = piece.split_at(piece.len().min(header.columns - column));
            let place = grid.place(row, column);
            grid.cells[place..place + part.len()].copy_from_slice(part);
            column += part.len();
            if column == header.columns {
                (row, column) = (row + 1, 0);
            }
            piece = rest;
        }
    }
    Ok((header, grid))
}
