//! The frames on the wire, by the library that exports them for the comparison alone.

/// What a reply makes of a place in a frame.
#[derive(Clone, Copy, Debug, PartialEq, Eq)]
pub struct Moved {
    /// `WITHIN`, `STOPPED` or `WAIT_LIMIT`
    pub kind: usize,
    pub strobe: usize,
    pub count: usize,
    pub bits: usize,
}

pub const WITHIN: usize = 0;
pub const STOPPED: usize = 1;
pub const WAIT_LIMIT: usize = 2;

/// The same in the library's width.
#[repr(C)]
struct Followed {
    kind: u32,
    strobe: u32,
    count: u32,
    bits: u32,
}

extern "C" {
    fn wire_step(ins: u8, byte: u8, strobe: u32) -> u8;
    fn wire_follow(ins: u8, strobe: u32, count: u32, bits: u32, reply: u8, limit: u32) -> Followed;
}

fn narrow(number: usize) -> u32 {
    u32::try_from(number).expect("a number of 32 bits")
}

// SAFETY, of both calls: plain numbers go in and come out, and any of them is taken.

pub fn step(ins: u8, byte: u8, strobe: usize) -> u8 {
    unsafe { wire_step(ins, byte, narrow(strobe)) }
}

pub fn follow(ins: u8, strobe: usize, count: usize, bits: usize, reply: u8, limit: usize) -> Moved {
    let [strobe, count, bits, limit] = [strobe, count, bits, limit].map(narrow);
    let Followed { kind, strobe, count, bits } =
        unsafe { wire_follow(ins, strobe, count, bits, reply, limit) };
    let [kind, strobe, count, bits] = [kind, strobe, count, bits].map(|number| number as usize);
    Moved { kind, strobe, count, bits }
}
