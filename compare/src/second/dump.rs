//! Two dumps compared (document 02, k).

use crate::second::numbers;

/// Bytes in a row that differ.
#[derive(Clone, Copy, Debug, PartialEq, Eq)]
pub struct Range {
    pub start: usize,
    pub length: usize,
}

/// 2 for the page size, tested first; 31 for dumps of different length, or a length that is not a whole number
/// of pages.
pub fn refusal(page_size: u32, a: &[u8], b: &[u8]) -> Option<u32> {
    match page_size {
        512 | 1024 if a.len() == b.len() && a.len().is_multiple_of(page_size as usize) => None,
        512 | 1024 => Some(numbers::BAD_DUMPS),
        _ => Some(numbers::BAD_PAGE_SIZE),
    }
}

/// Every place at which the dumps differ; neighbours are one range.
pub fn ranges(a: &[u8], b: &[u8]) -> Vec<Range> {
    let mut ranges: Vec<Range> = Vec::new();
    for place in (0..a.len()).filter(|&place| a[place] != b[place]) {
        match ranges.last_mut() {
            Some(last) if last.start + last.length == place => last.length += 1,
            _ => ranges.push(Range { start: place, length: 1 }),
        }
    }
    ranges
}

/// The page and the offset in it of the first difference.
pub fn first(page_size: u32, a: &[u8], b: &[u8]) -> Option<(usize, usize)> {
    let size = page_size as usize;
    a.chunks(size).zip(b.chunks(size)).enumerate().find_map(|(page, (a, b))| {
        let offset = a.iter().zip(b).position(|(a, b)| a != b)?;
        Some((page, offset))
    })
}
