//! The modelled module: 129 pages of flash, and what each message does to it.

use crate::second::numbers::{BAD_MESSAGE, BUFFER_TOO_SMALL, NO_POINT};
use crate::second::radio::command::{self, checksum, has_head, Command};

const PAGE: usize = 256;
pub const FLASH: usize = 129 * PAGE;
const CONFIGURATION: usize = 127;
const INFORMATION: usize = 128;
const ERASED: u8 = 0xFF;

/// Where the configuration page keeps the code protection: set by 0x00.
const PROTECTION: usize = CONFIGURATION * PAGE + 1;

/// The pages that WR_PRG_XRAM takes at most.
const XRAM_PAGES: usize = 4;

/// The codes of INF_ERROR that a flash without faults gives.
#[derive(Clone, Copy)]
enum Error {
    OutOfMemory = 0,
    Readonly = 1,
    CodeProtection = 2,
    ByteNotErased = 3,
    Checksum = 4,
    BlankCheck = 5,
    UnknowCmd = 8,
}

/// What the module waits for.
#[derive(Clone, Copy, Debug, PartialEq, Eq)]
enum Point {
    Command,
    /// data for so many pages, from this one on
    Data {
        page: usize,
        left: usize,
    },
    /// a program for XRAM, so many pages
    Program {
        left: usize,
    },
    /// the clock for so many pages, from this one on
    Clock {
        page: usize,
        left: usize,
    },
}

/// The module's state as plain numbers.
#[derive(Clone, Copy, Debug, PartialEq, Eq)]
pub struct State {
    pub point: u32,
    pub page: u32,
    pub left: u32,
}

pub const FRESH: State = State { point: 0, page: 0, left: 0 };

impl Point {
    /// The point of a state, if the state is in its bounds.
    fn of(State { point, page, left }: State) -> Option<Point> {
        let (page, left) = (page as usize, left as usize);
        let some_pages_below = |end| left >= 1 && page + left <= end;
        match point {
            0 if page == 0 && left == 0 => Some(Point::Command),
            1 if some_pages_below(128) => Some(Point::Data { page, left }),
            2 if page == 0 && (1..=XRAM_PAGES).contains(&left) => Some(Point::Program { left }),
            3 if some_pages_below(129) => Some(Point::Clock { page, left }),
            _ => None,
        }
    }

    fn state(self) -> State {
        let (point, page, left) = match self {
            Point::Command => (0, 0, 0),
            Point::Data { page, left } => (1, page, left),
            Point::Program { left } => (2, 0, left),
            Point::Clock { page, left } => (3, page, left),
        };
        State { point, page: page as u32, left: left as u32 }
    }

    fn takes(self, message: &[u8]) -> bool {
        match self {
            Point::Command => message.len() == 8 && has_head(message),
            Point::Data { .. } | Point::Program { .. } => message.len() == PAGE,
            Point::Clock { .. } => message.is_empty(),
        }
    }
}

/// A message that is taken: the reply, and the state after it.
#[derive(Debug)]
pub struct Taken {
    pub reply: Vec<u8>,
    pub state: State,
}

/// One message to a module in this state. A refused one changes nothing.
pub fn step(state: State, flash: &mut [u8], message: &[u8], room: usize) -> Result<Taken, u32> {
    let point = if flash.len() == FLASH { Point::of(state) } else { None };
    let point = point.ok_or(NO_POINT)?;
    if room < PAGE {
        return Err(BUFFER_TOO_SMALL);
    }
    if !point.takes(message) {
        return Err(BAD_MESSAGE);
    }
    let (reply, next) = take(point, flash, message);
    Ok(Taken { reply, state: next.state() })
}

/// The reply to a message that the point takes, and the next point.
fn take(point: Point, flash: &mut [u8], message: &[u8]) -> (Vec<u8>, Point) {
    match point {
        Point::Command => {
            let eight = message.try_into().expect("a command has eight bytes");
            let refused = |error| (inf(command::INF_ERROR, error as u8), Point::Command);
            let (answer, next) = run(flash, eight).unwrap_or_else(refused);
            (answer.build().to_vec(), next)
        }
        Point::Data { page, left } => {
            put(flash, page, message);
            match left {
                1 => (OK.build().to_vec(), Point::Command),
                _ => (Vec::new(), Point::Data { page: page + 1, left: left - 1 }),
            }
        }
        Point::Program { left: 1 } => (Vec::new(), Point::Command),
        Point::Program { left } => (Vec::new(), Point::Program { left: left - 1 }),
        Point::Clock { page, left } => {
            let sent = flash[page * PAGE..][..PAGE].to_vec();
            match left {
                1 => (sent, Point::Command),
                _ => (sent, Point::Clock { page: page + 1, left: left - 1 }),
            }
        }
    }
}

/// An answer of the module's, with its code; its other bytes are 0.
fn inf(byte: u8, code: u8) -> Command {
    Command { byte, parameters: [code, 0, 0] }
}

/// Sets a page. The first four bytes of the configuration are not to be had in this way.
fn put(flash: &mut [u8], page: usize, bytes: &[u8]) {
    let kept = if page == CONFIGURATION { 4 } else { 0 };
    flash[page * PAGE + kept..(page + 1) * PAGE].copy_from_slice(&bytes[kept..]);
}

/// A number of pages, if it is 1 to the most.
fn pages(count: u8, most: usize) -> Result<usize, Error> {
    let count = usize::from(count);
    if (1..=most).contains(&count) {
        Ok(count)
    } else {
        Err(Error::OutOfMemory)
    }
}

fn unless(refused: bool, error: Error) -> Result<(), Error> {
    if refused {
        Err(error)
    } else {
        Ok(())
    }
}

/// What a command does: its answer, and what the module waits for then.
type Done = Result<(Command, Point), Error>;

const DONE: Done = Ok((OK, Point::Command));
const OK: Command = Command { byte: command::INF_OK, parameters: [0; 3] };

fn run(flash: &mut [u8], message: &[u8; 8]) -> Done {
    let &[_, _, _, byte, p0, p1, p2, sum] = message;
    unless(sum != checksum(message), Error::Checksum)?;
    let page = usize::from(p0);
    let at = page * PAGE + usize::from(p1);
    let erase_only = p1 == 1;
    match byte {
        command::RD_SW_VERSION => Ok((inf(command::INF_SW_VERSION, 0), Point::Command)),
        command::RD_FLASH_BYTE => read_byte(flash, page, at),
        command::WR_FLASH_BYTE => write_byte(flash, page, at, p2),
        command::RD_FLASH_PAGE => read_page(flash, page),
        command::WR_FLASH_PAGE => write_page(flash, page, erase_only),
        command::RD_PRG_AREA => read_area(flash, p0),
        command::WR_PRG_AREA => write_area(flash, p0, erase_only),
        command::WR_BLANK_CHK => blank_check(flash),
        // the note does not give the CRC, so the test is never claimed to have passed
        command::WR_BIST => Ok((inf(command::INF_OK, 1), Point::Command)),
        command::WR_PRG_XRAM => load(flash, p0),
        _ => Err(Error::UnknowCmd),
    }
}

fn protected(flash: &[u8]) -> bool {
    flash[PROTECTION] == 0
}

/// Code protection hides the program area alone.
fn hidden(flash: &[u8], page: usize) -> bool {
    protected(flash) && page < CONFIGURATION
}

fn read_byte(flash: &[u8], page: usize, at: usize) -> Done {
    unless(hidden(flash, page), Error::Readonly)?;
    unless(page > INFORMATION, Error::OutOfMemory)?;
    Ok((inf(command::INF_OK, flash[at]), Point::Command))
}

fn write_byte(flash: &mut [u8], page: usize, at: usize, byte: u8) -> Done {
    unless(page == INFORMATION, Error::Readonly)?;
    unless(page > INFORMATION, Error::OutOfMemory)?;
    unless(hidden(flash, page), Error::CodeProtection)?;
    unless(flash[at] != ERASED, Error::ByteNotErased)?;
    flash[at] = byte;
    DONE
}

fn read_page(flash: &[u8], page: usize) -> Done {
    unless(hidden(flash, page), Error::Readonly)?;
    unless(page > INFORMATION, Error::OutOfMemory)?;
    Ok((OK, Point::Clock { page, left: 1 }))
}

fn write_page(flash: &mut [u8], page: usize, erase_only: bool) -> Done {
    unless(protected(flash) || page == INFORMATION, Error::Readonly)?;
    unless(page > INFORMATION, Error::OutOfMemory)?;
    put(flash, page, &[ERASED; PAGE]);
    Ok((OK, if erase_only { Point::Command } else { Point::Data { page, left: 1 } }))
}

fn read_area(flash: &[u8], count: u8) -> Done {
    unless(protected(flash), Error::CodeProtection)?;
    Ok((OK, Point::Clock { page: 0, left: pages(count, CONFIGURATION)? }))
}

/// Erases program area and configuration, all 256 bytes of it.
fn write_area(flash: &mut [u8], count: u8, erase_only: bool) -> Done {
    unless(protected(flash), Error::Readonly)?;
    let left = pages(count, CONFIGURATION)?;
    flash[..INFORMATION * PAGE].fill(ERASED);
    Ok((OK, if erase_only { Point::Command } else { Point::Data { page: 0, left } }))
}

fn blank_check(flash: &[u8]) -> Done {
    let blank = flash[..INFORMATION * PAGE].iter().all(|&byte| byte == ERASED);
    unless(!blank, Error::BlankCheck)?;
    DONE
}

fn load(flash: &[u8], count: u8) -> Done {
    unless(protected(flash), Error::Readonly)?;
    Ok((OK, Point::Program { left: pages(count, XRAM_PAGES)? }))
}
