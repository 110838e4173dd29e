//! Intel HEX: a file of a 64 KiB image, read and written, beside plain Rust.

use std::hint::black_box;
use std::ops::Range;

use proved::c2::{Pairs, Settings};
use proved::hex::{HexImage, Written};

use crate::harness::measure::{self, Work};
use crate::harness::tables::Tables;
use crate::plain;

const SETTINGS: Settings = Settings {
    device_id: 4,
    fpdat: 0xB4,
    page_size: 512,
    page_count: 128,
    wait_limit: 20,
    pairs: Pairs::NONE,
};
const IMAGE: usize = 65_536;
/// What a repetition is told in.
const KIB: usize = IMAGE / 1_024;

type Read = fn(Settings, &[u8], &mut [u8]) -> HexImage;
type Write = fn(Settings, u32, &[u8], &mut [u8]) -> Written;

/// Every repetition reads the whole file.
struct Reading<'a> {
    read: Read,
    file: &'a [u8],
    image: Vec<u8>,
}

impl Work for Reading<'_> {
    fn restart(&mut self) {}

    fn run(&mut self, _: Range<usize>) {
        black_box((self.read)(SETTINGS, black_box(self.file), &mut self.image));
    }
}

/// Every repetition writes the whole file.
struct Writing<'a> {
    write: Write,
    image: &'a [u8],
    file: Vec<u8>,
}

impl Work for Writing<'_> {
    fn restart(&mut self) {}

    fn run(&mut self, _: Range<usize>) {
        black_box((self.write)(SETTINGS, 0, black_box(self.image), &mut self.file));
    }
}

fn image() -> Vec<u8> {
    let mut state = 20_127u32;
    let next = |_| {
        state = state.wrapping_mul(1_664_525).wrapping_add(1_013_904_223);
        (state >> 24) as u8
    };
    (0..IMAGE).map(next).collect()
}

/// The image as records of so many bytes; shuffled, each is as far from the one before as it can be.
fn file(image: &[u8], record: usize, shuffled: bool) -> Vec<u8> {
    let count = image.len() / record;
    let step = if shuffled { count / 2 + 1 } else { 1 };
    let mut text = String::new();
    for i in (0..count).map(|i| i * step % count) {
        let at = i * record;
        let mut bytes = vec![record as u8, (at >> 8) as u8, at as u8, 0];
        bytes.extend_from_slice(&image[at..at + record]);
        let sum = bytes.iter().fold(0u8, |sum, &byte| sum.wrapping_add(byte));
        bytes.push(sum.wrapping_neg());
        text.push(':');
        text.extend(bytes.iter().map(|byte| format!("{byte:02X}")));
        text.push('\n');
    }
    (text + ":00000001FF\n").into_bytes()
}

fn reading(tables: &mut Tables, title: &str, image: &[u8], file: &[u8], repeat: usize) -> Result<(), String> {
    let side = |read: Read| Reading { read, file, image: vec![0; IMAGE] };
    let (mut plain, mut ours) = (side(plain::hex::read), side(proved::hex::read));
    for (name, work) in [("plain", &mut plain), ("ours", &mut ours)] {
        let came = (work.read)(SETTINGS, file, &mut work.image);
        if came.number != 0 || work.image != image {
            return Err(format!("{name} reads {title} as {came:?}"));
        }
    }
    tables.row(title, &measure::interleaved(&mut plain, &mut ours, KIB, repeat));
    Ok(())
}

pub fn table(tables: &mut Tables, repeat: usize) -> Result<(), String> {
    let image = black_box(image());
    tables.begin("Intel HEX, 64 KiB image", &format!(", {repeat} repetitions"), "ns a KiB of image");
    for record in [16, 1] {
        for (order, shuffled) in [("rising", false), ("shuffled", true)] {
            let file = file(&image, record, shuffled);
            reading(tables, &format!("read, records of {record}, {order}"), &image, &file, repeat)?;
        }
    }
    let expected = file(&image, 16, false);
    let side = |write: Write| Writing { write, image: &image, file: vec![0; expected.len()] };
    let (mut plain, mut ours) = (side(plain::hex::write), side(proved::hex::write));
    for (name, work) in [("plain", &mut plain), ("ours", &mut ours)] {
        let came = (work.write)(SETTINGS, 0, &image, &mut work.file);
        if came.number != 0 || work.file != expected {
            return Err(format!("{name} writes another file: {came:?}"));
        }
    }
    tables.row("write", &measure::interleaved(&mut plain, &mut ours, KIB, repeat));
    Ok(())
}
