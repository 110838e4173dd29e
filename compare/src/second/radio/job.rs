//! The programming job: the message that each place of its order sends, and what the reply to it does.

use crate::second::numbers::{
    BAD_IMAGE_LENGTH, BAD_MASK, BAD_MESSAGE, DONE, ERROR_ANSWER, PAGE_DIFFERS, RUNNING,
};
use crate::second::radio::command::{self, Command};

pub const PAGE: usize = 256;

/// The pages of the program area that an image may take; the one after them is the log's.
pub const MOST_PAGES: usize = 126;

const CONFIGURATION: u8 = 127;

/// The message that was sent last.
#[derive(Clone, Copy, Debug, PartialEq, Eq)]
pub enum Sent {
    ReadConfiguration,
    ClockConfiguration,
    WriteArea,
    ImagePage(usize),
    WriteConfiguration,
    Configuration,
    Byte0,
    ReadPage(usize),
    ClockPage(usize),
    Byte1,
}

/// How a job ended.
#[derive(Clone, Copy, Debug, PartialEq, Eq)]
pub struct End {
    pub number: u32,
    pub code: u8,
    pub offset: u32,
}

const fn end(number: u32) -> End {
    End { number, code: 0, offset: 0 }
}

#[derive(Clone, Debug, PartialEq, Eq)]
pub struct Job {
    pub mask: [u8; PAGE],
    /// our data; the merge, once the old configuration is known
    pub page: [u8; PAGE],
    pub image_len: usize,
    pub at: Result<Sent, End>,
}

/// Each byte 0x00 or 0xFF, and bytes 2 and 3 not named.
pub fn is_mask(mask: &[u8]) -> bool {
    mask.len() == PAGE && mask.iter().all(|byte| [0x00, 0xFF].contains(byte)) && mask[2..4] == [0, 0]
}

pub fn is_image_len(len: usize) -> bool {
    (1..=MOST_PAGES * PAGE).contains(&len)
}

/// A page of the image, the last one filled up with 0xFF.
fn padded(image: &[u8], page: usize) -> [u8; PAGE] {
    let mut bytes = [0xFF; PAGE];
    let part = &image[page * PAGE..image.len().min((page + 1) * PAGE)];
    bytes[..part.len()].copy_from_slice(part);
    bytes
}

impl Job {
    pub fn open(image: &[u8], mask: &[u8], data: &[u8]) -> Result<Job, u32> {
        let page = data.try_into().map_err(|_| BAD_MASK)?;
        if !is_mask(mask) {
            return Err(BAD_MASK);
        }
        if !is_image_len(image.len()) {
            return Err(BAD_IMAGE_LENGTH);
        }
        let mask = mask.try_into().expect("a mask has 256 bytes");
        Ok(Job { mask, page, image_len: image.len(), at: Ok(Sent::ReadConfiguration) })
    }

    pub fn pages(&self) -> usize {
        self.image_len.div_ceil(PAGE)
    }

    /// The message that is to be sent now and the bytes to expect; nothing once the job has ended.
    pub fn message(&self, image: &[u8]) -> (Vec<u8>, usize) {
        let frame = |byte, parameters| command::frame(byte, parameters).to_vec();
        let Ok(sent) = self.at else { return (Vec::new(), 0) };
        let expect = match sent {
            Sent::ClockConfiguration | Sent::ClockPage(_) => PAGE,
            Sent::ImagePage(page) if page + 1 < self.pages() => 0,
            _ => 8,
        };
        let message = match sent {
            Sent::ReadConfiguration => frame(command::RD_FLASH_PAGE, [CONFIGURATION, 0, 0]),
            Sent::ClockConfiguration | Sent::ClockPage(_) => Vec::new(),
            Sent::WriteArea => frame(command::WR_PRG_AREA, [self.pages() as u8, 0, 0]),
            Sent::ImagePage(page) => padded(image, page).to_vec(),
            Sent::WriteConfiguration => frame(command::WR_FLASH_PAGE, [CONFIGURATION, 0, 0]),
            Sent::Configuration => self.page.to_vec(),
            Sent::Byte0 => frame(command::WR_FLASH_BYTE, [CONFIGURATION, 0, self.page[0]]),
            Sent::ReadPage(page) => frame(command::RD_FLASH_PAGE, [page as u8, 0, 0]),
            Sent::Byte1 => frame(command::WR_FLASH_BYTE, [CONFIGURATION, 1, self.page[1]]),
        };
        (message, expect)
    }

    /// Takes the reply to what was sent last. An ended job takes none.
    pub fn take(&mut self, image: &[u8], reply: &[u8]) {
        let (_, expect) = self.message(image);
        let Ok(sent) = self.at else { return };
        self.at = match sent {
            _ if reply.len() != expect => Err(end(BAD_MESSAGE)),
            Sent::ClockConfiguration => {
                self.merge(reply);
                Ok(Sent::WriteArea)
            }
            Sent::ClockPage(page) => self.compared(image, page, reply),
            _ if expect == 0 => Ok(self.after(sent)),
            _ => match Command::read(reply) {
                Some(Command { byte: command::INF_OK, .. }) if sent == Sent::Byte1 => Err(end(DONE)),
                Some(Command { byte: command::INF_OK, .. }) => Ok(self.after(sent)),
                Some(Command { byte: command::INF_ERROR, parameters: [code, ..] }) => {
                    Err(End { number: ERROR_ANSWER, code, offset: 0 })
                }
                _ => Err(end(BAD_MESSAGE)),
            },
        };
    }

    /// Our byte where the mask names it, the old one elsewhere.
    fn merge(&mut self, old: &[u8]) {
        for ((byte, &mask), &old) in self.page.iter_mut().zip(&self.mask).zip(old) {
            if mask == 0 {
                *byte = old;
            }
        }
    }

    fn compared(&self, image: &[u8], page: usize, reply: &[u8]) -> Result<Sent, End> {
        match padded(image, page).iter().zip(reply).position(|(a, b)| a != b) {
            Some(at) => Err(End { number: PAGE_DIFFERS, code: 0, offset: (page * PAGE + at) as u32 }),
            None if page + 1 < self.pages() => Ok(Sent::ReadPage(page + 1)),
            None => Ok(Sent::Byte1),
        }
    }

    /// What is sent after a message that went well, where its reply does not matter.
    fn after(&self, sent: Sent) -> Sent {
        match sent {
            Sent::ReadConfiguration => Sent::ClockConfiguration,
            Sent::WriteArea => Sent::ImagePage(0),
            Sent::ImagePage(page) if page + 1 < self.pages() => Sent::ImagePage(page + 1),
            Sent::ImagePage(_) => Sent::WriteConfiguration,
            Sent::WriteConfiguration => Sent::Configuration,
            Sent::Configuration => Sent::Byte0,
            Sent::Byte0 => Sent::ReadPage(0),
            Sent::ReadPage(page) => Sent::ClockPage(page),
            Sent::ClockConfiguration | Sent::ClockPage(_) | Sent::Byte1 => {
                unreachable!("judged by its reply")
            }
        }
    }

    /// Number, code and offset as a call tells them.
    pub fn told(&self) -> End {
        self.at.err().unwrap_or(end(RUNNING))
    }
}
