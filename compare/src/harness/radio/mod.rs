//! The radio module: both implementations on fresh memory, side by side.

pub mod command;
pub mod job;
pub mod module;

/// What a buffer holds before it is filled: no two neighbours alike.
fn unfilled(len: usize) -> Vec<u8> {
    (0..len).map(|i| (i % 251) as u8).collect()
}

/// The buffer afterwards: what was written, and every other byte as it was.
fn filled(written: &[u8], len: usize) -> Vec<u8> {
    let mut buffer = unfilled(len);
    buffer[..written.len()].copy_from_slice(written);
    buffer
}
