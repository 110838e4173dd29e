//! include/c2_target.h: the modelled target.

use crate::c2::{Pairs, Settings};

/// A target's state; the header tells what the numbers mean.
#[repr(C)]
#[derive(Clone, Copy, Debug, Default, PartialEq, Eq)]
pub struct State {
    pub place: u64,
    pub start: u16,
    pub rest: u16,
    pub next: u16,
    pub count: u16,
    pub point: u8,
    pub heard: u8,
    pub value: u8,
    pub left: u8,
    pub zeros: u8,
    pub effect: u8,
    pub byte: u8,
    pub collision: u8,
    pub address: u8,
    pub on: u8,
    pub keys: u8,
    pub met1: u8,
    pub met2: u8,
    pub met3: u8,
    pub met4: u8,
    pub command: u8,
    pub write: u8,
    pub page: u8,
    pub high: u8,
    pub output: u8,
    pub passed: u8,
    pub busy: u8,
    pub late: u8,
}

#[repr(C)]
#[derive(Clone, Copy, Debug, PartialEq, Eq)]
pub struct Replied {
    pub number: u32,
    pub reply: u32,
    pub target: State,
}

extern "C" {
    pub fn c2_target_fresh() -> State;

    pub fn c2_target_step(
        settings: Settings,
        wanted: Pairs,
        target: State,
        flash: *mut u8,
        flash_len: usize,
        delays: *const u8,
        delays_len: usize,
        step: u8,
    ) -> Replied;
}

pub fn fresh() -> State {
    // SAFETY: nothing is lent.
    unsafe { c2_target_fresh() }
}

#[inline]
pub fn step(
    settings: Settings,
    wanted: Pairs,
    target: State,
    flash: &mut [u8],
    delays: &[u8],
    step: u8,
) -> Replied {
    let (flash_start, delays_start) = (flash.as_mut_ptr(), delays.as_ptr());
    let (flash_len, delays_len) = (flash.len(), delays.len());
    // SAFETY: each pointer is that of a slice with its length beside it, and a `&mut` overlaps no other.
    unsafe {
        c2_target_step(settings, wanted, target, flash_start, flash_len, delays_start, delays_len, step)
    }
}
