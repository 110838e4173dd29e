//! The bytes that stand for steps on the wire (document 01, "One step on the wire").

pub const RELEASED: u8 = 0;
pub const LOW: u8 = 2;
pub const HIGH: u8 = 3;
pub const RESET: u8 = 4;
pub const PAUSE: u8 = 5;
pub const OFF: u8 = 6;

/// The strobe that drives this bit of a field; fields go lowest bit first.
pub fn driven(field: u8, bit: u32) -> u8 {
    if field >> bit & 1 == 1 {
        HIGH
    } else {
        LOW
    }
}
