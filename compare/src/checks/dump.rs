//! Two dumps compared: the proved ranges and the proved quick form against our own.

use proved::dump::{self, Difference, Ranges};

use crate::harness::check::{Check, Run};
use crate::harness::dump::Case;
use crate::harness::random::Random;
use crate::harness::report::{expect, Checked};
use crate::second::dump as second;
use crate::second::numbers;

pub const CHECKS: &[Check] = &[
    Check { name: "dump: every pattern of eight bytes, at borders of pages and stretches", run: patterns },
    Check { name: "dump: every single byte of two pages", run: single_bytes },
    Check { name: "dump: every length of a range from a border on", run: long_ranges },
    Check { name: "dump: lists of every length", run: lists },
    Check { name: "dump: random dumps, sparse and dense", run: random_dumps },
    Check { name: "dump: dumps above 65,536 bytes", run: large_dumps },
    Check { name: "dump: refusals", run: refusals },
    Check { name: "dump: null for slices of length 0", run: nulls },
];

/// Numbers that no range of these dumps has.
fn old_list(length: usize) -> Vec<u64> {
    (0..length as u64).map(|at| u64::MAX - at).collect()
}

/// Two dumps that are equal but for these places.
fn differing(random: &mut Random, length: usize, places: impl Iterator<Item = usize>) -> (Vec<u8>, Vec<u8>) {
    let a = random.bytes(length);
    let mut b = a.clone();
    for place in places {
        b[place] = a[place] ^ random.between(1, 255) as u8;
    }
    (a, b)
}

/// Around the beginning, the ends of the bytes and stretches that are looked at together, the borders of pages
/// and the end.
fn patterns(run: &mut Run) -> Checked {
    let mut cases = 0;
    for page_size in [512, 1024] {
        let length = 2 * page_size;
        for from in [0, 12, 60, 64 + 12, page_size - 4, length - 8] {
            for pattern in 0..256 {
                let places = (0..8).filter(|bit| pattern >> bit & 1 == 1).map(|bit| from + bit);
                let (a, b) = differing(&mut run.random, length, places);
                let list = old_list(run.random.below(13));
                Case { page_size: page_size as u32, a, b, list }.compare()?;
                cases += 1;
            }
        }
    }
    Ok(cases)
}

fn single_bytes(run: &mut Run) -> Checked {
    let mut cases = 0;
    for page_size in [512, 1024] {
        for place in 0..2 * page_size {
            let (a, b) = differing(&mut run.random, 2 * page_size, [place].into_iter());
            let list = old_list(place % 4);
            Case { page_size: page_size as u32, a, b, list }.compare()?;
            cases += 1;
        }
    }
    Ok(cases)
}

/// Up to the end of the dumps, and over the border of pages.
fn long_ranges(run: &mut Run) -> Checked {
    let mut cases = 0;
    for start in [0, 1, 16, 64, 500, 512, 1000] {
        for end in start + 1..=1024 {
            let (a, b) = differing(&mut run.random, 1024, start..end);
            Case { page_size: 512, a, b, list: old_list(3) }.compare()?;
            cases += 1;
        }
    }
    Ok(cases)
}

/// Every second byte differs: as many ranges as a page can have.
fn lists(run: &mut Run) -> Checked {
    let (a, b) = differing(&mut run.random, 512, (0..512).step_by(2));
    let longest = 2 * 256 + 4;
    for length in 0..=longest {
        Case { page_size: 512, a: a.clone(), b: b.clone(), list: old_list(length) }.compare()?;
    }
    Ok(longest as u64 + 1)
}

/// Dumps that differ in runs of bytes, with gaps in between: short or long, so that there are many ranges or few.
fn random_pair(random: &mut Random, length: usize) -> (Vec<u8>, Vec<u8>) {
    let (gap, run) = (random.pick(&[1, 2, 5, 40, 300, 5_000]), random.pick(&[1, 2, 9, 100, 2_000]));
    let mut differs = vec![false; length];
    let mut at = random.below(gap + 1);
    while at < length {
        let end = length.min(at + random.between(1, run));
        differs[at..end].fill(true);
        at = end + random.between(1, gap);
    }
    differing(random, length, (0..length).filter(|&place| differs[place]))
}

fn random_case(random: &mut Random, most_pages: usize) -> Case {
    let page_size = random.pick(&[512, 1024]);
    let length = random.below(most_pages + 1) * page_size;
    let (a, b) = random_pair(random, length);
    let all = 2 * second::ranges(&a, &b).len();
    let some = random.below(all + 1);
    let length = random.pick(&[0, 1, 2, some, some, all.saturating_sub(1), all, all + 1, all + 5]);
    Case { page_size: page_size as u32, a, b, list: old_list(length) }
}

fn random_dumps(run: &mut Run) -> Checked {
    let cases = run.cases(1_500, 100_000);
    for _ in 0..cases {
        random_case(&mut run.random, 16).compare()?;
    }
    Ok(cases)
}

fn large_dumps(run: &mut Run) -> Checked {
    let cases = run.cases(20, 300);
    for _ in 0..cases {
        random_case(&mut run.random, 400).compare()?;
    }
    Ok(cases)
}

/// Each reason alone and both together; also dumps that are equal as far as both go.
fn refusals(run: &mut Run) -> Checked {
    let mut cases = 0;
    let sizes = [0, 1, 2, 256, 511, 512, 513, 1023, 1024, 1025, 1536, 2048, 65_536, 0x0001_0200, u32::MAX];
    for page_size in sizes {
        for a in [0, 1, 511, 512, 513, 1023, 1024, 1536, 2048] {
            for b in [0, 1, 512, 513, 1024, 1536, 2048] {
                let longer = run.random.bytes(a.max(b));
                let (a, b) = (longer[..a].to_vec(), longer[..b].to_vec());
                Case { page_size, a, b, list: old_list(run.random.below(6)) }.compare()?;
                cases += 1;
            }
        }
    }
    Ok(cases)
}

fn nulls(_: &mut Run) -> Checked {
    let inputs = || "null pointers with length 0".to_string();
    for page_size in [512, 1024] {
        expect((Ranges::default(), Difference::default()), dump::on_nothing(page_size), inputs)?;
    }
    let number = numbers::BAD_PAGE_SIZE;
    let refused = (Ranges { number, ..Ranges::default() }, Difference { number, ..Difference::default() });
    expect(refused, dump::on_nothing(0), inputs)?;
    Ok(3)
}
