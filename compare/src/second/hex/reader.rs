//! Reading: a line's faults are gathered, whatever they are, and the lowest is taken.

use std::collections::BTreeMap;

use crate::second::numbers;
use crate::second::settings::Settings;

#[derive(Clone, Debug, PartialEq, Eq)]
pub struct Image {
    pub first_page: u32,
    pub bytes: Vec<u8>,
}

#[derive(Clone, Copy, Debug, PartialEq, Eq)]
pub struct Refused {
    pub number: u32,
    /// the faulty line, from 1; 0 where no line decided
    pub line: u64,
}

/// A record as it stands in its line.
struct Record {
    address: u64,
    kind: u8,
    data: Vec<u8>,
    /// of all its bytes, the checksum too
    sum: u8,
}

impl Record {
    fn is_end(&self) -> bool {
        self.kind == 1 && self.data.is_empty() && self.address == 0
    }

    fn is_data(&self, flash_len: u64) -> bool {
        self.kind == 0 && (self.data.is_empty() || self.address + self.data.len() as u64 <= flash_len)
    }

    fn addresses(&self) -> impl Iterator<Item = u64> {
        self.address..self.address + self.data.len() as u64
    }
}

/// The lines, each with its end; what follows the last LF is one without.
fn lines(file: &[u8]) -> impl Iterator<Item = &[u8]> {
    file.split_inclusive(|&byte| byte == b'\n')
}

fn without_end(line: &[u8]) -> Option<&[u8]> {
    line.strip_suffix(b"\r\n").or_else(|| line.strip_suffix(b"\n"))
}

/// A line that is a colon, an even number of digits that fits the first byte, and its end.
fn record_of(line: &[u8]) -> Option<Record> {
    let digits = without_end(line)?.strip_prefix(b":")?;
    let values: Vec<u8> = digits
        .iter()
        .map(|&digit| char::from(digit).to_digit(16).map(|value| value as u8))
        .collect::<Option<_>>()?;
    if values.len() % 2 != 0 {
        return None;
    }
    let bytes: Vec<u8> = values.chunks(2).map(|pair| pair[0] * 16 + pair[1]).collect();
    let (&count, rest) = bytes.split_first()?;
    if rest.len() != usize::from(count) + 4 {
        return None;
    }
    let sum = bytes.iter().fold(0u8, |sum, &byte| sum.wrapping_add(byte));
    let data = rest[3..rest.len() - 1].to_vec();
    Some(Record { address: u64::from(rest[0]) * 256 + u64::from(rest[1]), kind: rest[2], data, sum })
}

/// Everything that is wrong with a record where it stands.
fn faults(record: &Record, flash_len: u64, set: &BTreeMap<u64, u8>, ended: bool) -> Vec<u32> {
    let twice = record.kind == 0 && record.addresses().any(|address| set.contains_key(&address));
    let all = [
        (record.sum != 0, numbers::BAD_CHECKSUM),
        (!record.is_end() && !record.is_data(flash_len), numbers::BAD_HEX_RECORD),
        (twice, numbers::SET_TWICE),
        (ended, numbers::NO_END_RECORD),
    ];
    all.into_iter().filter(|&(wrong, _)| wrong).map(|(_, number)| number).collect()
}

fn image_of(page_size: u64, set: &BTreeMap<u64, u8>) -> Option<Image> {
    let (first, last) = (set.keys().next()? / page_size, set.keys().next_back()? / page_size);
    let addresses = first * page_size..(last + 1) * page_size;
    let bytes = addresses.map(|address| set.get(&address).copied().unwrap_or(0xFF)).collect();
    Some(Image { first_page: first as u32, bytes })
}

pub fn read(settings: &Settings, file: &[u8], room: usize) -> Result<Image, Refused> {
    let refuse = |number, line| Err(Refused { number, line });
    if let Some(number) = settings.refusal() {
        return refuse(number, 0);
    }
    let (mut set, mut ended) = (BTreeMap::new(), false);
    for (line, number) in lines(file).zip(1..) {
        let Some(record) = record_of(line) else { return refuse(numbers::BAD_LINE, number) };
        if let Some(&lowest) = faults(&record, settings.flash_len(), &set, ended).iter().min() {
            return refuse(lowest, number);
        }
        ended |= record.is_end();
        set.extend(record.addresses().zip(record.data.iter().copied()));
    }
    if !ended {
        return refuse(numbers::NO_END_RECORD, 0);
    }
    match image_of(u64::from(settings.page_size), &set) {
        None => refuse(numbers::NO_DATA, 0),
        Some(image) if image.bytes.len() > room => refuse(numbers::BUFFER_TOO_SMALL, 0),
        Some(image) => Ok(image),
    }
}
