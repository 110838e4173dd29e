//! Intel HEX in plain Rust: the same calls, also without allocation, with a bit for each byte of the flash
//! while the lines are judged, and a second pass that fills the image.

use proved::c2::Settings;
use proved::hex::{HexImage, Written};

use crate::plain::wire::Ranges;

const FLASH_LIMIT: usize = 65_536;
const RECORD: usize = 16;
const LINE: usize = 44;
const END: &[u8] = b":00000001FF\n";

fn refused(number: u32, line: u64) -> HexImage {
    HexImage { number, line, first_page: 0, length: 0 }
}

fn settings_refusal(settings: &Settings) -> Option<u32> {
    settings.check().err().map(u32::from)
}

#[inline]
fn digit(character: u8) -> Option<u8> {
    match character {
        b'0'..=b'9' => Some(character - b'0'),
        b'A'..=b'F' => Some(character - b'A' + 10),
        b'a'..=b'f' => Some(character - b'a' + 10),
        _ => None,
    }
}

#[inline]
fn byte(pair: &[u8]) -> Option<u8> {
    Some(digit(pair[0])? << 4 | digit(pair[1])?)
}

/// A record at the front of what is left of the file.
struct Record<'a> {
    address: usize,
    kind: u8,
    digits: &'a [u8],
    sum: u8,
    line_len: usize,
}

impl<'a> Record<'a> {
    fn at(file: &'a [u8]) -> Option<Record<'a>> {
        let count = usize::from(byte(file.get(1..3)?)?);
        let end = 2 * count + 11;
        let digits = file.get(1..end)?;
        let line_end = match file[end..] {
            [b'\n', ..] => 1,
            [b'\r', b'\n', ..] => 2,
            _ => return None,
        };
        if file[0] != b':' {
            return None;
        }
        let mut sum = 0u8;
        for pair in digits.chunks_exact(2) {
            sum = sum.wrapping_add(byte(pair)?);
        }
        let address = usize::from(byte(&digits[2..])?) << 8 | usize::from(byte(&digits[4..])?);
        let kind = byte(&digits[6..])?;
        Some(Record { address, kind, digits: &digits[8..8 + 2 * count], sum, line_len: end + line_end })
    }

    fn count(&self) -> usize {
        self.digits.len() / 2
    }
}

/// What is set, and from where to where.
struct Marks {
    bits: [u8; FLASH_LIMIT / 8],
    low: usize,
    high: usize,
}

impl Marks {
    fn mark(&mut self, address: usize, count: usize) -> bool {
        for at in address..address + count {
            let (byte, bit) = (&mut self.bits[at / 8], 1 << (at % 8));
            if *byte & bit != 0 {
                return false;
            }
            *byte |= bit;
        }
        self.low = self.low.min(address);
        self.high = self.high.max(address + count);
        true
    }
}

fn judge(record: &Record, flash_len: usize, marks: &mut Marks, ended: &mut bool) -> u32 {
    if record.sum != 0 {
        return 21;
    }
    let count = record.count();
    match record.kind {
        0 if count == 0 => {}
        0 if record.address + count > flash_len => return 22,
        0 if !marks.mark(record.address, count) => return 23,
        0 => {}
        1 if count == 0 && record.address == 0 => {
            if *ended {
                return 24;
            }
            *ended = true;
            return 0;
        }
        _ => return 22,
    }
    if *ended {
        24
    } else {
        0
    }
}

#[inline(never)]
pub fn read(settings: Settings, file: &[u8], image: &mut [u8]) -> HexImage {
    if let Some(number) = settings_refusal(&settings) {
        return refused(number, 0);
    }
    let size = settings.page_size as usize;
    let flash_len = size * settings.page_count as usize;
    let mut marks = Marks { bits: [0; FLASH_LIMIT / 8], low: flash_len, high: 0 };
    let (mut rest, mut line, mut ended) = (file, 0, false);
    while !rest.is_empty() {
        line += 1;
        let Some(record) = Record::at(rest) else { return refused(20, line) };
        let number = judge(&record, flash_len, &mut marks, &mut ended);
        if number != 0 {
            return refused(number, line);
        }
        rest = &rest[record.line_len..];
    }
    if !ended {
        return refused(24, 0);
    }
    if marks.high == 0 {
        return refused(25, 0);
    }
    let first_page = marks.low / size;
    let start = first_page * size;
    let length = ((marks.high - 1) / size + 1) * size - start;
    let Some(image) = image.get_mut(..length) else { return refused(26, 0) };
    fill(image, start, file);
    HexImage { number: 0, line: 0, first_page: first_page as u32, length: length as u64 }
}

/// The lines are known to be right.
fn fill(image: &mut [u8], start: usize, file: &[u8]) {
    image.fill(0xFF);
    let known = |pair: &[u8]| byte(pair).unwrap_or(0);
    let mut rest = file;
    while !rest.is_empty() {
        let count = usize::from(known(&rest[1..]));
        if count > 0 {
            let address = usize::from(known(&rest[3..])) << 8 | usize::from(known(&rest[5..]));
            let digits = rest[9..9 + 2 * count].chunks_exact(2);
            for (place, pair) in image[address - start..][..count].iter_mut().zip(digits) {
                *place = known(pair);
            }
        }
        let end = 2 * count + 11;
        rest = &rest[end + if rest[end] == b'\n' { 1 } else { 2 }..];
    }
}

#[inline(never)]
pub fn write(settings: Settings, first_page: u32, image: &[u8], file: &mut [u8]) -> Written {
    let refused = |number| Written { number, length: 0 };
    if let Some(number) = settings_refusal(&settings) {
        return refused(number);
    }
    let size = settings.page_size as usize;
    if image.is_empty() || image.len() % size != 0 {
        return refused(4);
    }
    if first_page as usize + image.len() / size > settings.page_count as usize {
        return refused(5);
    }
    let length = image.len() / RECORD * LINE + END.len();
    let Some(file) = file.get_mut(..length) else { return refused(26) };
    let (lines, end) = file.split_at_mut(length - END.len());
    let start = first_page as usize * size;
    for ((line, data), at) in
        lines.chunks_exact_mut(LINE).zip(image.chunks_exact(RECORD)).zip((start..).step_by(RECORD))
    {
        put(line, at as u16, data);
    }
    end.copy_from_slice(END);
    Written { number: 0, length: length as u64 }
}

fn put(line: &mut [u8], address: u16, data: &[u8]) {
    const DIGITS: &[u8; 16] = b"0123456789ABCDEF";
    let [high, low] = address.to_be_bytes();
    let head = [RECORD as u8, high, low, 0];
    let sum = head.iter().chain(data).fold(0u8, |sum, &byte| sum.wrapping_add(byte));
    let bytes = head.iter().chain(data).copied().chain([sum.wrapping_neg()]);
    line[0] = b':';
    for (pair, byte) in line[1..].chunks_exact_mut(2).zip(bytes) {
        pair[0] = DIGITS[usize::from(byte >> 4)];
        pair[1] = DIGITS[usize::from(byte & 15)];
    }
    line[LINE - 1] = b'\n';
}
