//! The proved session's calls. Each is lent fresh memory, which is garbage and then gone when it has
//! returned.

use std::{ptr, slice};

use proved::c2::{self, c2_advance, c2_open, c2_steps_left, Advanced, Opened, Remaining};

use crate::harness::lent::{first_stray, Lent};
use crate::second::settings::{Pairs, Settings};

impl From<&Pairs> for c2::Pairs {
    fn from(pairs: &Pairs) -> c2::Pairs {
        let Pairs { count, registers, values } = *pairs;
        c2::Pairs { count, registers, values }
    }
}

impl From<&Settings> for c2::Settings {
    fn from(settings: &Settings) -> c2::Settings {
        let Settings { device_id, fpdat, page_size, page_count, wait_limit, ref pairs } = *settings;
        c2::Settings { device_id, fpdat, page_size, page_count, wait_limit, pairs: pairs.into() }
    }
}

/// What came back from a call.
pub struct Called<Answer> {
    pub answer: Answer,
    pub record: Vec<u8>,
    pub steps: Vec<u8>,
    /// what was written though no call may write it
    pub stray: Option<&'static str>,
}

pub fn open(record: &[u8], image: &[u8], settings: &Settings, first_page: u32) -> Called<Opened> {
    let (mut record, image) = (Lent::copy(record), Lent::copy(image));
    let answer = c2::open(record.bytes_mut(), image.bytes(), settings.into(), first_page);
    let stray = first_stray(&[(record.guards_kept(), "beside the record"), (image.kept(), "the image")]);
    Called { answer, record: record.bytes().to_vec(), steps: Vec::new(), stray }
}

pub fn advance(record: &[u8], image: &[u8], replies: &[u8], steps: &[u8], place: usize) -> Called<Advanced> {
    let (mut record, image) = (Lent::copy(record), Lent::copy(image));
    let (replies, mut steps) = (Lent::copy(replies), Lent::copy(steps));
    let answer = c2::advance(record.bytes_mut(), image.bytes(), replies.bytes(), steps.bytes_mut(), place);
    let stray = first_stray(&[
        (record.guards_kept(), "beside the record"),
        (image.kept(), "the image"),
        (replies.kept(), "the replies"),
        (steps.guards_kept(), "beside the step buffer"),
    ]);
    Called { answer, record: record.bytes().to_vec(), steps: steps.bytes().to_vec(), stray }
}

/// A call with one reply, on the memory where it stands, for loops that take millions; gives the step too.
pub fn advance_once(record: &mut [u8], image: &[u8], reply: u8) -> (Advanced, u8) {
    let mut step = 0;
    let answer = c2::advance(record, image, &[reply], slice::from_mut(&mut step), 0);
    (answer, step)
}

pub fn steps_left(record: &[u8]) -> Called<Remaining> {
    let record = Lent::copy(record);
    let answer = c2::steps_left(record.bytes());
    let stray = first_stray(&[(record.guards_kept(), "beside the record")]);
    Called { answer, record: record.bytes().to_vec(), steps: Vec::new(), stray }
}

/// Every call, lent nothing at all: every length is 0 and every pointer null.
pub fn lent_nothing(settings: &Settings) -> (Opened, Advanced, Remaining) {
    let (nothing, nothing_mut) = (ptr::null(), ptr::null_mut());
    // SAFETY: a pointer with length 0 is not followed.
    unsafe {
        (
            c2_open(nothing_mut, 0, nothing, 0, settings.into(), 0),
            c2_advance(nothing_mut, 0, nothing, 0, nothing, 0, nothing_mut, 0, 0),
            c2_steps_left(nothing, 0),
        )
    }
}

/// An opening and a call with a record, but null for the other slices, whose lengths are 0.
pub fn lent_a_record_only(record: &[u8], settings: &Settings) -> (Opened, Advanced) {
    let (nothing, nothing_mut) = (ptr::null(), ptr::null_mut());
    let mut record = Lent::copy(record);
    let (record_start, record_len) = (record.bytes_mut().as_mut_ptr(), record.bytes().len());
    // SAFETY: the record is a live copy; a pointer with length 0 is not followed.
    unsafe {
        (
            c2_open(record_start, record_len, nothing, 0, settings.into(), 0),
            c2_advance(record_start, record_len, nothing, 0, nothing, 0, nothing_mut, 0, 0),
        )
    }
}

/// A call without replies and without a step buffer, null both.
pub fn lent_no_replies(record: &[u8], image: &[u8]) -> Advanced {
    let (nothing, nothing_mut) = (ptr::null(), ptr::null_mut());
    let (mut record, image) = (Lent::copy(record), Lent::copy(image));
    let (record, image) = (record.bytes_mut(), image.bytes());
    let (record_start, record_len) = (record.as_mut_ptr(), record.len());
    // SAFETY: record and image are live copies; a pointer with length 0 is not followed.
    unsafe {
        c2_advance(record_start, record_len, image.as_ptr(), image.len(), nothing, 0, nothing_mut, 0, 0)
    }
}
