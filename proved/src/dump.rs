//! The calls of include/c2_dump.h.

/// The ranges that differ: the number, whether there are more, and how many the list holds.
#[repr(C)]
#[derive(Clone, Copy, Debug, Default, PartialEq, Eq)]
pub struct Ranges {
    pub number: u32,
    pub more: u32,
    pub held: u64,
}

/// The first difference: the number, whether there is one, its page and the offset in it.
#[repr(C)]
#[derive(Clone, Copy, Debug, Default, PartialEq, Eq)]
pub struct Difference {
    pub number: u32,
    pub differs: u32,
    pub page: u64,
    pub offset: u32,
}

extern "C" {
    fn c2_dump_ranges(
        page_size: u32,
        a: *const u8,
        a_len: usize,
        b: *const u8,
        b_len: usize,
        list: *mut u64,
        list_len: usize,
    ) -> Ranges;
    fn c2_dump_first(page_size: u32, a: *const u8, a_len: usize, b: *const u8, b_len: usize) -> Difference;
}

// SAFETY, of the first two calls: each pointer is that of a slice with its length beside it, and the `&mut`
// overlaps no other.

#[inline]
pub fn ranges(page_size: u32, a: &[u8], b: &[u8], list: &mut [u64]) -> Ranges {
    unsafe {
        c2_dump_ranges(page_size, a.as_ptr(), a.len(), b.as_ptr(), b.len(), list.as_mut_ptr(), list.len())
    }
}

#[inline]
pub fn first(page_size: u32, a: &[u8], b: &[u8]) -> Difference {
    unsafe { c2_dump_first(page_size, a.as_ptr(), a.len(), b.as_ptr(), b.len()) }
}

/// Both calls with null pointers for dumps and list, all of length 0.
pub fn on_nothing(page_size: u32) -> (Ranges, Difference) {
    let (dump, list) = (std::ptr::null(), std::ptr::null_mut());
    // SAFETY: a pointer whose length is 0 is not followed.
    unsafe {
        (c2_dump_ranges(page_size, dump, 0, dump, 0, list, 0), c2_dump_first(page_size, dump, 0, dump, 0))
    }
}
