//! Two dumps compared, behind the face of include/c2_dump.h.

use proved::dump::{Difference, Ranges};

/// 2 for the page size, then 31 for the lengths; 0 for dumps that are accepted.
fn refusal(page_size: u32, a: &[u8], b: &[u8]) -> u32 {
    if page_size != 512 && page_size != 1024 {
        2
    } else if a.len() != b.len() || !a.len().is_multiple_of(page_size as usize) {
        31
    } else {
        0
    }
}

pub fn ranges(page_size: u32, a: &[u8], b: &[u8], list: &mut [u64]) -> Ranges {
    let number = refusal(page_size, a, b);
    if number != 0 {
        return Ranges { number, more: 0, held: 0 };
    }
    let mut held = 0;
    let mut at = 0;
    while let Some(equal) = a[at..].iter().zip(&b[at..]).position(|(a, b)| a != b) {
        let start = at + equal;
        let Some(pair) = list.get_mut(2 * held..2 * held + 2) else {
            return Ranges { number: 0, more: 1, held: held as u64 };
        };
        let end = a[start..].iter().zip(&b[start..]).position(|(a, b)| a == b);
        at = end.map_or(a.len(), |length| start + length);
        pair.copy_from_slice(&[start as u64, (at - start) as u64]);
        held += 1;
    }
    Ranges { number: 0, more: 0, held: held as u64 }
}

/// A page is compared as a whole first, which is the C library's memcmp.
pub fn first(page_size: u32, a: &[u8], b: &[u8]) -> Difference {
    let number = refusal(page_size, a, b);
    if number != 0 {
        return Difference { number, ..Difference::default() };
    }
    let size = page_size as usize;
    for (page, (a, b)) in a.chunks_exact(size).zip(b.chunks_exact(size)).enumerate() {
        if a == b {
            continue;
        }
        if let Some(offset) = a.iter().zip(b).position(|(a, b)| a != b) {
            return Difference { number: 0, differs: 1, page: page as u64, offset: offset as u32 };
        }
    }
    Difference::default()
}
