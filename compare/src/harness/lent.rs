//! Memory that is lent for one call.

use std::hint::black_box;

/// Odd, so that nothing lent is aligned.
const GUARD: usize = 13;
const GUARD_BYTE: u8 = 0xC2;
const GARBAGE: u8 = 0xA5;

/// A copy in memory of its own, between guard bytes. It is overwritten before it is freed, so that whoever
/// still looks at it finds garbage.
pub struct Lent<'a> {
    original: &'a [u8],
    memory: Vec<u8>,
}

impl Lent<'_> {
    pub fn copy(original: &[u8]) -> Lent<'_> {
        let mut memory = Vec::with_capacity(original.len() + 2 * GUARD);
        memory.extend([GUARD_BYTE; GUARD]);
        memory.extend_from_slice(original);
        memory.extend([GUARD_BYTE; GUARD]);
        Lent { original, memory }
    }

    /// The lent bytes as they are now.
    pub fn bytes(&self) -> &[u8] {
        &self.memory[GUARD..GUARD + self.original.len()]
    }

    /// The same, lent to be written.
    pub fn bytes_mut(&mut self) -> &mut [u8] {
        &mut self.memory[GUARD..GUARD + self.original.len()]
    }

    /// No byte beside the lent ones was written.
    pub fn guards_kept(&self) -> bool {
        let (before, rest) = self.memory.split_at(GUARD);
        let after = &rest[self.original.len()..];
        before.iter().chain(after).all(|&byte| byte == GUARD_BYTE)
    }

    /// No byte was written at all.
    pub fn kept(&self) -> bool {
        self.guards_kept() && self.bytes() == self.original
    }
}

impl Drop for Lent<'_> {
    fn drop(&mut self) {
        self.memory.fill(GARBAGE);
        // what is freed next would else not be worth writing
        black_box(&mut self.memory);
    }
}

/// What was written though no call may write it: the first of these that was not kept.
pub fn first_stray(kept: &[(bool, &'static str)]) -> Option<&'static str> {
    kept.iter().find(|(kept, _)| !kept).map(|&(_, what)| what)
}
