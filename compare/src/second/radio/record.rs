//! The record of a job (docs/RADIO_RECORD.md).

use crate::second::numbers::{BAD_MESSAGE, DONE, ERROR_ANSWER, PAGE_DIFFERS, RUNNING};
use crate::second::radio::job::{is_image_len, is_mask, End, Job, Sent, PAGE};

pub const RECORD: usize = 2 * PAGE + 8;

/// The place in the order as a number, and the page.
fn stage(sent: Sent) -> (u8, usize) {
    match sent {
        Sent::ReadConfiguration => (0, 0),
        Sent::ClockConfiguration => (1, 0),
        Sent::WriteArea => (2, 0),
        Sent::ImagePage(page) => (3, page),
        Sent::WriteConfiguration => (4, 0),
        Sent::Configuration => (5, 0),
        Sent::Byte0 => (6, 0),
        Sent::ReadPage(page) => (7, page),
        Sent::ClockPage(page) => (8, page),
        Sent::Byte1 => (9, 0),
    }
}

/// The message of these numbers in a job of so many pages.
fn sent(stage: u8, page: usize, pages: usize) -> Option<Sent> {
    match (stage, page) {
        (0, 0) => Some(Sent::ReadConfiguration),
        (1, 0) => Some(Sent::ClockConfiguration),
        (2, 0) => Some(Sent::WriteArea),
        (3, _) if page < pages => Some(Sent::ImagePage(page)),
        (4, 0) => Some(Sent::WriteConfiguration),
        (5, 0) => Some(Sent::Configuration),
        (6, 0) => Some(Sent::Byte0),
        (7, _) if page < pages => Some(Sent::ReadPage(page)),
        (8, _) if page < pages => Some(Sent::ClockPage(page)),
        (9, 0) => Some(Sent::Byte1),
        _ => None,
    }
}

/// An end that there is: a code with 42 alone, an offset in the padded image with 43 alone.
fn is_end(End { number, code, offset }: End, pages: usize) -> bool {
    match number {
        BAD_MESSAGE | DONE => code == 0 && offset == 0,
        ERROR_ANSWER => offset == 0,
        PAGE_DIFFERS => code == 0 && (offset as usize) < pages * PAGE,
        _ => false,
    }
}

pub fn pack(job: &Job) -> Vec<u8> {
    let (stage, page) = job.at.map_or((0, 0), stage);
    let End { number, code, offset } = job.told();
    let [len_low, len_high] = (job.image_len as u16).to_le_bytes();
    let [offset_low, offset_high] = (offset as u16).to_le_bytes();
    let numbers = [len_low, len_high, stage, page as u8, number as u8, code, offset_low, offset_high];
    [&job.page[..], &job.mask, &numbers].concat()
}

/// The job that the record holds, if it holds one.
pub fn unpack(record: &[u8]) -> Option<Job> {
    let (page, rest) = record.split_first_chunk::<PAGE>()?;
    let (mask, rest) = rest.split_first_chunk::<PAGE>()?;
    let &[len_low, len_high, stage, at_page, number, code, offset_low, offset_high] = rest.try_into().ok()?;
    let image_len = usize::from(u16::from_le_bytes([len_low, len_high]));
    let offset = u32::from(u16::from_le_bytes([offset_low, offset_high]));
    let pages = image_len.div_ceil(PAGE);
    let end = End { number: u32::from(number), code, offset };
    let at = if end.number == RUNNING {
        let none = code == 0 && offset == 0;
        Ok(sent(stage, usize::from(at_page), pages).filter(|_| none)?)
    } else {
        let none = stage == 0 && at_page == 0;
        Err(Some(end).filter(|&end| none && is_end(end, pages))?)
    };
    let fits = is_mask(mask) && is_image_len(image_len);
    fits.then_some(Job { mask: *mask, page: *page, image_len, at })
}
