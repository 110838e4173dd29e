//! Writing: rising records of 16 bytes and the end line, upper case, LF.

use crate::second::numbers;
use crate::second::settings::Settings;

const RECORD: usize = 16;

/// A record's line; its checksum makes the sum 0.
pub fn line(address: u16, kind: u8, data: &[u8], end: &str) -> String {
    let [high, low] = address.to_be_bytes();
    let mut bytes = vec![data.len() as u8, high, low, kind];
    bytes.extend_from_slice(data);
    let sum = bytes.iter().fold(0u8, |sum, &byte| sum.wrapping_add(byte));
    bytes.push(sum.wrapping_neg());
    let digits: String = bytes.iter().map(|byte| format!("{byte:02X}")).collect();
    format!(":{digits}{end}")
}

/// The first refusal, as of an opening: those of the settings, 4, 5.
fn refusal(settings: &Settings, first_page: u32, image_len: usize) -> Option<u32> {
    if let Some(number) = settings.refusal() {
        return Some(number);
    }
    let (size, len) = (u64::from(settings.page_size), image_len as u64);
    if len == 0 || len % size != 0 {
        Some(numbers::BAD_IMAGE)
    } else if u64::from(first_page) + len / size > u64::from(settings.page_count) {
        Some(numbers::PAST_LAST_PAGE)
    } else {
        None
    }
}

pub fn write(settings: &Settings, first_page: u32, image: &[u8], room: usize) -> Result<Vec<u8>, u32> {
    if let Some(number) = refusal(settings, first_page, image.len()) {
        return Err(number);
    }
    let start = first_page * settings.page_size;
    let lines = (start..).step_by(RECORD).zip(image.chunks(RECORD));
    let mut text: String = lines.map(|(address, data)| line(address as u16, 0, data, "\n")).collect();
    text += ":00000001FF\n";
    if text.len() > room {
        return Err(numbers::BUFFER_TOO_SMALL);
    }
    Ok(text.into_bytes())
}
