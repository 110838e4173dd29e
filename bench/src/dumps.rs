//! The table of two dumps compared: 64 KiB each, equal and as different as they can be.

use std::hint::black_box;
use std::ops::Range;

use proved::dump::{self, Difference, Ranges};

use crate::harness::job::Random;
use crate::harness::measure::{self, Work};
use crate::harness::tables::Tables;
use crate::plain::dump as plain;

const PAGE_SIZE: u32 = 512;
const DUMP_BYTES: usize = 64 * 1024;

/// Comparisons to a repetition, so that it is long beside a look at the clock.
const TIMES: usize = 32;

/// A repetition is measured by the KiB.
const KIB: usize = TIMES * DUMP_BYTES / 1024;

#[derive(Clone, Copy)]
enum Call {
    Ranges(fn(u32, &[u8], &[u8], &mut [u64]) -> Ranges),
    First(fn(u32, &[u8], &[u8]) -> Difference),
}

struct Row {
    title: &'static str,
    /// every so manieth byte differs; 0: none
    every: usize,
    plain: Call,
    ours: Call,
}

const RANGES: (Call, Call) = (Call::Ranges(plain::ranges), Call::Ranges(dump::ranges));
const FIRST: (Call, Call) = (Call::First(plain::first), Call::First(dump::first));

const fn row(title: &'static str, every: usize, (plain, ours): (Call, Call)) -> Row {
    Row { title, every, plain, ours }
}

const ROWS: [Row; 4] = [
    row("ranges, equal dumps", 0, RANGES),
    row("ranges, a byte in 4,096 differs", 4096, RANGES),
    row("ranges, every second byte differs", 2, RANGES),
    row("quick form, equal dumps", 0, FIRST),
];

/// Two dumps, and a list buffer for as many ranges as they can have.
#[derive(Clone)]
struct Dumps {
    a: Vec<u8>,
    b: Vec<u8>,
    list: Vec<u64>,
}

impl Dumps {
    fn new(every: usize) -> Dumps {
        let mut random = Random::new(2);
        let a: Vec<u8> = (0..DUMP_BYTES).map(|_| random.next() as u8).collect();
        let differs = |place: usize| every != 0 && place % every == every - 1;
        let b = (0..DUMP_BYTES).map(|place| a[place] ^ u8::from(differs(place))).collect();
        Dumps { a, b, list: vec![0; DUMP_BYTES] }
    }

    #[inline]
    fn call(&mut self, call: Call) -> (Ranges, Difference) {
        match call {
            Call::Ranges(ranges) => {
                (ranges(PAGE_SIZE, &self.a, &self.b, &mut self.list), Difference::default())
            }
            Call::First(first) => (Ranges::default(), first(PAGE_SIZE, &self.a, &self.b)),
        }
    }
}

struct Comparing {
    dumps: Dumps,
    call: Call,
}

impl Work for Comparing {
    fn restart(&mut self) {}

    fn run(&mut self, _: Range<usize>) {
        for _ in 0..TIMES {
            black_box(black_box(&mut self.dumps).call(self.call));
        }
    }
}

/// Both sides give the same answer and the same list.
fn agree(row: &Row) -> Result<(), String> {
    let (mut plain, mut ours) = (Dumps::new(row.every), Dumps::new(row.every));
    if plain.call(row.plain) != ours.call(row.ours) || plain.list != ours.list {
        return Err(format!("{}: plain and ours differ", row.title));
    }
    Ok(())
}

pub fn table(tables: &mut Tables, repeat: usize) -> Result<(), String> {
    let more = format!(", {TIMES} comparisons to a repetition, {repeat} repetitions");
    tables.begin("two dumps of 64 KiB", &more, "ns a KiB");
    for row in &ROWS {
        agree(row)?;
        let mut plain = Comparing { dumps: Dumps::new(row.every), call: row.plain };
        let mut ours = Comparing { dumps: Dumps::new(row.every), call: row.ours };
        tables.row(row.title, &measure::interleaved(&mut plain, &mut ours, KIB, repeat));
    }
    Ok(())
}
