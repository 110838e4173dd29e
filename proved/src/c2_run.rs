//! A session run against the modelled target in one call.

use crate::c2::Settings;

/// What a whole run comes to: number and offset, the replies taken, the collision mark.
#[repr(C)]
#[derive(Clone, Copy, Debug, Default, PartialEq, Eq)]
pub struct Run {
    pub number: u32,
    pub offset: u32,
    pub replies: usize,
    pub collision: bool,
}

extern "C" {
    fn c2_program(
        settings: Settings,
        first_page: u32,
        image: *const u8,
        image_len: usize,
        flash: *mut u8,
        flash_len: usize,
        delays: *const u8,
        delays_len: usize,
        budget: usize,
    ) -> Run;
}

/// The run takes at most `budget` replies; the target wants no pairs.
#[inline]
pub fn program(
    settings: Settings,
    first_page: u32,
    image: &[u8],
    flash: &mut [u8],
    delays: &[u8],
    budget: usize,
) -> Run {
    // SAFETY: each pointer is that of a slice with its length beside it, and the `&mut` overlaps no other.
    unsafe {
        c2_program(
            settings,
            first_page,
            image.as_ptr(),
            image.len(),
            flash.as_mut_ptr(),
            flash.len(),
            delays.as_ptr(),
            delays.len(),
            budget,
        )
    }
}
