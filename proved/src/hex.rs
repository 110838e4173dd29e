//! include/c2_hex.h: Intel HEX files.

use crate::c2::Settings;

#[repr(C)]
#[derive(Clone, Copy, Debug, PartialEq, Eq)]
pub struct HexImage {
    pub number: u32,
    pub line: u64,
    pub first_page: u32,
    pub length: u64,
}

#[repr(C)]
#[derive(Clone, Copy, Debug, PartialEq, Eq)]
pub struct Written {
    pub number: u32,
    pub length: u64,
}

extern "C" {
    fn c2_hex_read(
        settings: Settings,
        file: *const u8,
        file_len: usize,
        image: *mut u8,
        image_len: usize,
    ) -> HexImage;

    fn c2_hex_write(
        settings: Settings,
        first_page: u32,
        image: *const u8,
        image_len: usize,
        file: *mut u8,
        file_len: usize,
    ) -> Written;
}

// SAFETY, of all calls: each pointer is that of a slice with its length beside it, and a `&mut` overlaps no
// other.

#[inline]
pub fn read(settings: Settings, file: &[u8], image: &mut [u8]) -> HexImage {
    unsafe { c2_hex_read(settings, file.as_ptr(), file.len(), image.as_mut_ptr(), image.len()) }
}

#[inline]
pub fn write(settings: Settings, first_page: u32, image: &[u8], file: &mut [u8]) -> Written {
    let (file_start, file_len) = (file.as_mut_ptr(), file.len());
    unsafe { c2_hex_write(settings, first_page, image.as_ptr(), image.len(), file_start, file_len) }
}
