//! Both implementations of two dumps compared, side by side, on fresh memory.

use proved::dump::{self, Difference, Ranges};

use crate::harness::lent::{first_stray, Lent};
use crate::harness::report::{expect, expect_that, Failure};
use crate::second::dump as second;
use crate::second::numbers::RUNNING;

const GUARD: usize = 5;
const GUARD_NUMBER: u64 = 0xC2C2_C2C2_C2C2_C2C2;

/// What one case is lent. The list buffer holds these numbers before the call.
pub struct Case {
    pub page_size: u32,
    pub a: Vec<u8>,
    pub b: Vec<u8>,
    pub list: Vec<u64>,
}

impl Case {
    /// All of it for small dumps; of large ones where they differ, by our own account.
    fn describe(&self) -> String {
        let Case { page_size, a, b, list } = self;
        let ranges = second::ranges(&a[..a.len().min(b.len())], b);
        let some = &ranges[..ranges.len().min(12)];
        format!(
            "page size {page_size}, dumps of {} and {} bytes with {} ranges, the first {some:?}, list of {}",
            a.len(),
            b.len(),
            ranges.len(),
            list.len()
        )
    }

    /// The answer of the ranges and the list buffer afterwards, by our own account.
    fn ranges(&self) -> (Ranges, Vec<u64>) {
        let mut list = self.list.clone();
        if let Some(number) = second::refusal(self.page_size, &self.a, &self.b) {
            return (Ranges { number, more: 0, held: 0 }, list);
        }
        let ranges = second::ranges(&self.a, &self.b);
        let held = ranges.len().min(list.len() / 2);
        for (pair, range) in list.chunks_exact_mut(2).zip(&ranges) {
            pair.copy_from_slice(&[range.start as u64, range.length as u64]);
        }
        (Ranges { number: RUNNING, more: u32::from(held < ranges.len()), held: held as u64 }, list)
    }

    fn first(&self) -> Difference {
        if let Some(number) = second::refusal(self.page_size, &self.a, &self.b) {
            return Difference { number, ..Difference::default() };
        }
        let found = second::first(self.page_size, &self.a, &self.b);
        found.map_or(Difference::default(), |(page, offset)| Difference {
            number: RUNNING,
            differs: 1,
            page: page as u64,
            offset: offset as u32,
        })
    }

    /// Both calls against our own, every number of the list looked at, and all that no call may write.
    pub fn compare(&self) -> Result<(), Failure> {
        let inputs = || self.describe();
        let (a, b) = (Lent::copy(&self.a), Lent::copy(&self.b));
        let mut list = vec![GUARD_NUMBER; self.list.len() + 2 * GUARD];
        let lent = GUARD..GUARD + self.list.len();
        list[lent.clone()].copy_from_slice(&self.list);

        let (answer, filled) = self.ranges();
        let came = dump::ranges(self.page_size, a.bytes(), b.bytes(), &mut list[lent.clone()]);
        expect(answer, came, inputs)?;
        if let Some(at) = (0..filled.len()).find(|&at| filled[at] != list[lent.start + at]) {
            let tell =
                |list: &[u64]| format!("number {at} of the list: {:?}", &list[at..filled.len().min(at + 6)]);
            expect(tell(&filled), tell(&list[lent.clone()]), inputs)?;
        }
        expect(self.first(), dump::first(self.page_size, a.bytes(), b.bytes()), inputs)?;

        let guards = list[..GUARD].iter().chain(&list[lent.end..]).all(|&number| number == GUARD_NUMBER);
        let kept = [(a.kept(), "dump a"), (b.kept(), "dump b"), (guards, "numbers beside the list")];
        let stray = first_stray(&kept);
        expect_that(stray.is_none(), "nothing else written", stray, inputs)
    }
}
