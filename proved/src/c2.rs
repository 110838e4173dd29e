//! include/c2.h: a session.

/// The length of a session's record.
pub const RECORD_BYTES: usize = 32;

/// Pairs of register and value; entries from the count on are not looked at.
#[repr(C)]
#[derive(Clone, Copy, Debug, Default, PartialEq, Eq)]
pub struct Pairs {
    pub count: u8,
    pub registers: [u8; 4],
    pub values: [u8; 4],
}

impl Pairs {
    pub const NONE: Pairs = Pairs { count: 0, registers: [0; 4], values: [0; 4] };
}

#[repr(C)]
#[derive(Clone, Copy, Debug, PartialEq, Eq)]
pub struct Settings {
    pub device_id: u8,
    pub fpdat: u8,
    pub page_size: u32,
    pub page_count: u32,
    pub wait_limit: u8,
    pub pairs: Pairs,
}

#[repr(C)]
#[derive(Clone, Copy, Debug, PartialEq, Eq)]
pub struct Opened {
    pub number: u32,
    pub step: u32,
}

#[repr(C)]
#[derive(Clone, Copy, Debug, PartialEq, Eq)]
pub struct Advanced {
    pub number: u32,
    pub offset: u32,
    pub taken: u64,
}

#[repr(C)]
#[derive(Clone, Copy, Debug, PartialEq, Eq)]
pub struct Remaining {
    pub number: u32,
    pub steps: u64,
}

extern "C" {
    pub fn c2_open(
        record: *mut u8,
        record_len: usize,
        image: *const u8,
        image_len: usize,
        settings: Settings,
        first_page: u32,
    ) -> Opened;

    pub fn c2_advance(
        record: *mut u8,
        record_len: usize,
        image: *const u8,
        image_len: usize,
        replies: *const u8,
        replies_len: usize,
        steps: *mut u8,
        steps_len: usize,
        place: usize,
    ) -> Advanced;

    pub fn c2_steps_left(record: *const u8, record_len: usize) -> Remaining;
}

// SAFETY, of all calls: each pointer is that of a slice with its length beside it, and a `&mut` overlaps no
// other.

#[inline]
pub fn open(record: &mut [u8], image: &[u8], settings: Settings, first_page: u32) -> Opened {
    let (record_start, record_len) = (record.as_mut_ptr(), record.len());
    unsafe { c2_open(record_start, record_len, image.as_ptr(), image.len(), settings, first_page) }
}

#[inline]
pub fn advance(record: &mut [u8], image: &[u8], replies: &[u8], steps: &mut [u8], place: usize) -> Advanced {
    unsafe {
        c2_advance(
            record.as_mut_ptr(),
            record.len(),
            image.as_ptr(),
            image.len(),
            replies.as_ptr(),
            replies.len(),
            steps.as_mut_ptr(),
            steps.len(),
            place,
        )
    }
}

#[inline]
pub fn steps_left(record: &[u8]) -> Remaining {
    unsafe { c2_steps_left(record.as_ptr(), record.len()) }
}
