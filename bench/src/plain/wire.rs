//! What the plain session and the plain target share: steps, INS codes, keys, commands, settings.

use proved::c2::{Pairs, Settings};

/// One step on the wire.
#[derive(Clone, Copy, PartialEq, Eq, Debug)]
#[repr(u8)]
pub enum Step {
    Released = 0,
    Low = 2,
    High = 3,
    Reset = 4,
    Pause = 5,
    Off = 6,
}

impl Step {
    /// The strobe that drives one bit.
    pub fn driving(bit: bool) -> Step {
        if bit {
            Step::High
        } else {
            Step::Low
        }
    }
}

impl TryFrom<u8> for Step {
    type Error = Refusal;

    fn try_from(step: u8) -> Result<Step, Refusal> {
        match step {
            0 => Ok(Step::Released),
            2 => Ok(Step::Low),
            3 => Ok(Step::High),
            4 => Ok(Step::Reset),
            5 => Ok(Step::Pause),
            6 => Ok(Step::Off),
            _ => Err(Refusal::NoStep),
        }
    }
}

/// INS, the two bits after START that name the frame.
pub mod ins {
    pub const DATA_READ: u8 = 0;
    pub const DATA_WRITE: u8 = 1;
    pub const ADDRESS_READ: u8 = 2;
    pub const ADDRESS_WRITE: u8 = 3;
}

/// The bits of FPDAT's status.
pub mod status {
    pub const OUT_READY: u8 = 0x01;
    pub const IN_BUSY: u8 = 0x02;
}

/// The bytes that name a command to the Programming Interface.
pub mod command {
    pub const BLOCK_READ: u8 = 0x06;
    pub const BLOCK_WRITE: u8 = 0x07;
    pub const PAGE_ERASE: u8 = 0x08;
}

/// The register that turns the Programming Interface on, and the bytes that do it.
pub const FPCTL: u8 = 0x02;
pub const KEYS: [u8; 3] = [0x02, 0x04, 0x01];

/// The status of a command that went well.
pub const COMMAND_OK: u8 = 0x0D;

/// Bytes of a block whose length code is 0.
pub const BLOCK: usize = 256;

/// A call that is not carried out: nothing has changed. The numbers are those of include/c2.h.
#[derive(Clone, Copy, PartialEq, Eq, Debug)]
#[repr(u8)]
pub enum Refusal {
    BadFpdat = 1,
    BadPageSize = 2,
    BadPageCount = 3,
    BadImage = 4,
    PastLastPage = 5,
    BadRecord = 6,
    OtherImage = 7,
    NoRoom = 8,
    NoStep = 16,
    NoPoint = 17,
    BadWaitLimit = 18,
    BadPairs = 19,
}

impl From<Refusal> for u32 {
    fn from(refusal: Refusal) -> u32 {
        refusal as u32
    }
}

/// The registers of the pairs that are named, each with its value.
pub fn named(pairs: &Pairs) -> impl Iterator<Item = (u8, u8)> {
    pairs.registers.into_iter().zip(pairs.values).take(pairs.count.into())
}

/// What plain Rust asks of pairs, of settings or of a target.
pub fn check_pairs(pairs: &Pairs, fpdat: u8) -> Result<(), Refusal> {
    let few = usize::from(pairs.count) <= pairs.registers.len();
    if few && named(pairs).all(|(register, _)| register >= 3 && register != fpdat) {
        return Ok(());
    }
    Err(Refusal::BadPairs)
}

/// What plain Rust asks of the settings.
pub trait Ranges {
    fn check(&self) -> Result<(), Refusal>;
    fn flash_len(&self) -> usize;
}

impl Ranges for Settings {
    fn check(&self) -> Result<(), Refusal> {
        if self.fpdat < 3 {
            return Err(Refusal::BadFpdat);
        }
        if self.page_size != 512 && self.page_size != 1024 {
            return Err(Refusal::BadPageSize);
        }
        if self.page_count == 0 || self.page_count > 65_536 / self.page_size {
            return Err(Refusal::BadPageCount);
        }
        if self.wait_limit == 0 {
            return Err(Refusal::BadWaitLimit);
        }
        check_pairs(&self.pairs, self.fpdat)
    }

    fn flash_len(&self) -> usize {
        self.page_size as usize * self.page_count as usize
    }
}
