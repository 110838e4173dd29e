//! The Programming Interface's registers, keys, commands and answers (the maker's note, sections 2.2, 3 and
//! 4).

pub const FPCTL: u8 = 0x02;
pub const KEYS: [u8; 3] = [0x02, 0x04, 0x01];

pub const BLOCK_READ: u8 = 0x06;
pub const BLOCK_WRITE: u8 = 0x07;
pub const PAGE_ERASE: u8 = 0x08;

pub const OKAY: u8 = 0x0D;
pub const FAILED: u8 = 0x00;

pub const OUT_READY: u8 = 0x01;
pub const IN_BUSY: u8 = 0x02;
