//! The eight-byte commands: a head of three bytes, the command byte, three parameters, and a checksum.

const HEAD: [u8; 3] = [0xA5, 0x5A, 0xA5];

/// The command list: what each is called, and its byte.
pub const RD_SW_VERSION: u8 = 0x4B;
pub const INF_SW_VERSION: u8 = 0x8C;
pub const RD_FLASH_BYTE: u8 = 0x6B;
pub const WR_FLASH_BYTE: u8 = 0x6C;
pub const RD_FLASH_PAGE: u8 = 0x69;
pub const WR_FLASH_PAGE: u8 = 0x6A;
pub const RD_PRG_AREA: u8 = 0x6D;
pub const WR_PRG_AREA: u8 = 0x6E;
pub const INF_OK: u8 = 0x58;
pub const INF_ERROR: u8 = 0x99;
pub const WR_BLANK_CHK: u8 = 0x70;
pub const WR_BIST: u8 = 0x71;
pub const WR_PRG_XRAM: u8 = 0x6F;

pub const LIST: [u8; 13] = [
    RD_SW_VERSION,
    INF_SW_VERSION,
    RD_FLASH_BYTE,
    WR_FLASH_BYTE,
    RD_FLASH_PAGE,
    WR_FLASH_PAGE,
    RD_PRG_AREA,
    WR_PRG_AREA,
    INF_OK,
    INF_ERROR,
    WR_BLANK_CHK,
    WR_BIST,
    WR_PRG_XRAM,
];

/// A command of the list.
#[derive(Clone, Copy, Debug, PartialEq, Eq)]
pub struct Command {
    pub byte: u8,
    pub parameters: [u8; 3],
}

/// Bytes 2 to 6 of eight, added up, kept to the low byte.
pub fn checksum(message: &[u8; 8]) -> u8 {
    message[2..7].iter().fold(0, |sum, &byte| sum.wrapping_add(byte))
}

pub fn has_head(message: &[u8]) -> bool {
    message.starts_with(&HEAD)
}

/// Eight bytes with the right head and checksum, whatever the command byte is.
pub fn frame(byte: u8, [p0, p1, p2]: [u8; 3]) -> [u8; 8] {
    let mut message = [HEAD[0], HEAD[1], HEAD[2], byte, p0, p1, p2, 0];
    message[7] = checksum(&message);
    message
}

impl Command {
    /// The command, if its byte is in the list.
    pub fn new(byte: u8, parameters: [u8; 3]) -> Option<Command> {
        LIST.contains(&byte).then_some(Command { byte, parameters })
    }

    pub fn build(self) -> [u8; 8] {
        frame(self.byte, self.parameters)
    }

    /// The command that the bytes are, if length, head, checksum and command byte are right.
    pub fn read(message: &[u8]) -> Option<Command> {
        let eight: &[u8; 8] = message.try_into().ok()?;
        let &[.., byte, p0, p1, p2, sum] = eight;
        (has_head(eight) && sum == checksum(eight)).then(|| Command::new(byte, [p0, p1, p2])).flatten()
    }
}
