//! include/radio.h: the radio module's commands, the job that programs it, and the modelled module.

#[repr(C)]
#[derive(Clone, Copy, Debug, PartialEq, Eq)]
pub struct Command {
    pub number: u32,
    pub command: u8,
    pub p0: u8,
    pub p1: u8,
    pub p2: u8,
}

#[repr(C)]
#[derive(Clone, Copy, Debug, PartialEq, Eq)]
pub struct Opened {
    pub number: u32,
    pub send: u32,
    pub expect: u32,
}

#[repr(C)]
#[derive(Clone, Copy, Debug, PartialEq, Eq)]
pub struct Advanced {
    pub number: u32,
    pub code: u32,
    pub offset: u32,
    pub send: u32,
    pub expect: u32,
}

/// A module's state; the header tells what the numbers mean.
#[repr(C)]
#[derive(Clone, Copy, Debug, PartialEq, Eq)]
pub struct Target {
    pub point: u32,
    pub page: u32,
    pub left: u32,
}

#[repr(C)]
#[derive(Clone, Copy, Debug, PartialEq, Eq)]
pub struct Replied {
    pub number: u32,
    pub reply: u32,
    pub target: Target,
}

extern "C" {
    fn radio_read(bytes: *const u8, len: usize) -> Command;

    fn radio_build(command: u8, p0: u8, p1: u8, p2: u8, out: *mut u8, out_len: usize) -> u32;

    fn radio_open(
        record: *mut u8,
        record_len: usize,
        image: *const u8,
        image_len: usize,
        mask: *const u8,
        mask_len: usize,
        data: *const u8,
        data_len: usize,
        out: *mut u8,
        out_len: usize,
    ) -> Opened;

    fn radio_advance(
        record: *mut u8,
        record_len: usize,
        image: *const u8,
        image_len: usize,
        reply: *const u8,
        reply_len: usize,
        out: *mut u8,
        out_len: usize,
    ) -> Advanced;

    fn radio_target_fresh() -> Target;

    fn radio_target_step(
        target: Target,
        flash: *mut u8,
        flash_len: usize,
        message: *const u8,
        message_len: usize,
        reply: *mut u8,
        reply_len: usize,
    ) -> Replied;
}

// SAFETY, of all calls: each pointer is that of a slice with its length beside it, and a `&mut` overlaps no
// other.

#[inline]
pub fn read(bytes: &[u8]) -> Command {
    unsafe { radio_read(bytes.as_ptr(), bytes.len()) }
}

#[inline]
pub fn build(command: u8, [p0, p1, p2]: [u8; 3], out: &mut [u8]) -> u32 {
    unsafe { radio_build(command, p0, p1, p2, out.as_mut_ptr(), out.len()) }
}

#[inline]
pub fn open(record: &mut [u8], image: &[u8], mask: &[u8], data: &[u8], out: &mut [u8]) -> Opened {
    let (record_start, record_len) = (record.as_mut_ptr(), record.len());
    let (out_start, out_len) = (out.as_mut_ptr(), out.len());
    unsafe {
        radio_open(
            record_start,
            record_len,
            image.as_ptr(),
            image.len(),
            mask.as_ptr(),
            mask.len(),
            data.as_ptr(),
            data.len(),
            out_start,
            out_len,
        )
    }
}

#[inline]
pub fn advance(record: &mut [u8], image: &[u8], reply: &[u8], out: &mut [u8]) -> Advanced {
    let (record_start, record_len) = (record.as_mut_ptr(), record.len());
    let (out_start, out_len) = (out.as_mut_ptr(), out.len());
    unsafe {
        radio_advance(
            record_start,
            record_len,
            image.as_ptr(),
            image.len(),
            reply.as_ptr(),
            reply.len(),
            out_start,
            out_len,
        )
    }
}

pub fn fresh() -> Target {
    unsafe { radio_target_fresh() }
}

#[inline]
pub fn step(target: Target, flash: &mut [u8], message: &[u8], reply: &mut [u8]) -> Replied {
    let (flash_start, flash_len) = (flash.as_mut_ptr(), flash.len());
    let (reply_start, reply_len) = (reply.as_mut_ptr(), reply.len());
    unsafe {
        radio_target_step(
            target,
            flash_start,
            flash_len,
            message.as_ptr(),
            message.len(),
            reply_start,
            reply_len,
        )
    }
}
