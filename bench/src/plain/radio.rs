//! The radio module in plain Rust: the job over its record, and the modelled module, with the same faces.

mod job;
mod module;

pub use job::{advance, open};
pub use module::step;

const BAD_RECORD: u32 = 6;
const OTHER_IMAGE: u32 = 7;
const NO_POINT: u32 = 17;
const BUFFER_TOO_SMALL: u32 = 26;
const BAD_MESSAGE: u32 = 28;
const BAD_MASK: u32 = 29;
const BAD_IMAGE_LENGTH: u32 = 30;
const DONE: u32 = 32;
const ERROR_ANSWER: u32 = 42;
const PAGE_DIFFERS: u32 = 43;

const PAGE: usize = 256;
const CONFIGURATION: u8 = 127;
const HEAD: [u8; 3] = [0xA5, 0x5A, 0xA5];

const INF_OK: u8 = 0x58;
const INF_ERROR: u8 = 0x99;
const INF_SW_VERSION: u8 = 0x8C;
const RD_SW_VERSION: u8 = 0x4B;
const RD_FLASH_BYTE: u8 = 0x6B;
const WR_FLASH_BYTE: u8 = 0x6C;
const RD_FLASH_PAGE: u8 = 0x69;
const WR_FLASH_PAGE: u8 = 0x6A;
const RD_PRG_AREA: u8 = 0x6D;
const WR_PRG_AREA: u8 = 0x6E;
const WR_PRG_XRAM: u8 = 0x6F;
const WR_BLANK_CHK: u8 = 0x70;
const WR_BIST: u8 = 0x71;

fn sum(bytes: &[u8]) -> u8 {
    bytes.iter().fold(0, |sum, &byte| sum.wrapping_add(byte))
}

/// The eight bytes of a command.
fn command(byte: u8, p0: u8, p1: u8, p2: u8) -> [u8; 8] {
    let [a, b, c] = HEAD;
    [a, b, c, byte, p0, p1, p2, sum(&[c, byte, p0, p1, p2])]
}
