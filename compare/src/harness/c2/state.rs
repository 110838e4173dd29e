//! What the numbers of the proved target's state mean (include/c2_target.h), and which states name a point
//! that a frame and a command have (document 01, number 17). Nothing here asks the proved code.

use std::collections::{HashMap, VecDeque};
use std::ops::Range;

use proved::c2_target::State;

use crate::harness::c2::model::Setup;
use crate::second::c2::frames::Kind;
use crate::second::c2::interface::{BLOCK_READ, BLOCK_WRITE, FAILED, FPCTL, KEYS, OKAY, PAGE_ERASE};
use crate::second::c2::target::{Field, Frame, Target};
use crate::second::settings::Settings;

/// What a frame does at its STOP.
const NOTHING: u8 = 0;
const SETS_ADDRESS: u8 = 1;
const WRITES: u8 = 2;
const COUNTS: u8 = 3;
const READS: u8 = 4;

/// A frame that does nothing at its STOP is taken for one with the longest LENGTH.
const LONGEST: u8 = 3;

/// For each point, which of heard, value, left, zeros and effect are in use.
const POINTS: [[bool; 5]; 11] = {
    let (nothing, bits) = ([false; 5], [true, true, false, false, false]);
    [
        nothing,                            // START
        bits,                               // INS
        bits,                               // LENGTH of a Data Write
        bits,                               // LENGTH of a Data Read
        bits,                               // a written ADDRESS
        bits,                               // DATA of one byte
        [false, false, true, false, false], // DATA of more
        [false, false, true, false, true],  // the first strobe of a WAIT
        [false, false, true, true, true],   // a later one
        [false, true, true, false, true],   // a bit that the target sends
        [false, false, false, false, true], // STOP
    ]
};

/// For each byte that a command waits for, which of write, page, high, start and rest are in use.
const COMMANDS: [[bool; 5]; 8] = [
    [false; 5],                         // a new command
    [false; 5],                         // the page of an erase
    [false, true, false, false, false], // its 0x00
    [true, false, false, false, false], // a block's high byte
    [true, false, true, false, false],  // its low byte
    [true, false, false, true, false],  // its length code
    [false, false, false, true, true],  // a byte to write
    [false, false, false, false, true], // a byte past the end
];

/// For each output, which of passed, next and count are in use.
const OUTPUTS: [[bool; 3]; 4] = [
    [false; 3],           // none
    [true, false, false], // a status
    [false, true, true],  // the status and then a block
    [false, true, true],  // a block
];

/// Our own target in this state, none if no frame or command has such a point.
pub fn read(state: &State, setup: &Setup, flash: &[u8]) -> Option<Target> {
    let settings = &setup.settings;
    let frame = read_frame(state, settings.wait_limit)?;
    let key_writes = KEYS.get(..usize::from(state.keys))?;
    // a frame that is under way has taken all three away at its START
    if frame.is_some() && key_writes.len() == KEYS.len() {
        return None;
    }
    Some(Target {
        address: state.address,
        interface_on: truth(state.on)?,
        collision: truth(state.collision)?,
        delay_place: state.place as usize,
        // a frame that is under way has begun after all key writes
        frame_since: frame.is_some(),
        frame,
        data_writes: key_writes.iter().map(|&key| (FPCTL, key)).collect(),
        last_values: read_last_values(state, setup)?,
        command: read_command(state, settings, flash.len())?,
        output: read_output(state, flash)?,
        busy_reads: state.busy,
        unready_reads: state.late,
    })
}

/// Which wanted pairs are met; of any other register nothing is told. What is told of a pair that is not
/// named is not looked at.
fn read_last_values(state: &State, setup: &Setup) -> Option<HashMap<u8, u8>> {
    let State { met1, met2, met3, met4, .. } = *state;
    let met: Option<Vec<bool>> = [met1, met2, met3, met4].into_iter().map(truth).collect();
    Some(setup.wanted.named().zip(met?).filter(|&(_, met)| met).map(|(pair, _)| pair).collect())
}

fn truth(number: u8) -> Option<bool> {
    [false, true].get(usize::from(number)).copied()
}

/// The tag exists, and every number that it does not use is 0.
fn others_zero<const N: usize>(table: &[[bool; N]], tag: u8, numbers: [u16; N]) -> Option<()> {
    let in_use = table.get(usize::from(tag))?;
    numbers.iter().zip(in_use).all(|(&number, &used)| used || number == 0).then_some(())
}

/// The frame that is under way, if one is.
fn read_frame(state: &State, wait_limit: u8) -> Option<Option<Frame>> {
    let State { point, heard, value, left, zeros, effect, byte, .. } = *state;
    others_zero(&POINTS, point, [heard, value, left, zeros, effect].map(u16::from))?;
    if ![SETS_ADDRESS, WRITES].contains(&effect) && byte != 0 {
        return None;
    }
    match point {
        0 => Some(None),
        1..=5 => read_heard(state).map(Some),
        6 => read_long_data(left).map(Some),
        7..=8 => read_wait(state, wait_limit).map(Some),
        9 => read_sent(state).map(Some),
        _ => Some(Some(Frame { field: Field::Stop, ..frame_of(effect, byte)? })),
    }
}

/// A frame with one byte; LENGTH is longer where it does nothing at its STOP.
fn frame_of(effect: u8, byte: u8) -> Option<Frame> {
    let (kind, length) = match effect {
        NOTHING => (Kind::DataWrite, LONGEST),
        SETS_ADDRESS => (Kind::AddressWrite, 0),
        WRITES => (Kind::DataWrite, 0),
        COUNTS => (Kind::AddressRead, 0),
        READS => (Kind::DataRead, 0),
        _ => return None,
    };
    Some(Frame { ins: kind.ins(), length, written: byte, ..Frame::started() })
}

/// INS, LENGTH, ADDRESS or DATA of one byte: fewer bits heard than there are, and none but those set.
fn read_heard(state: &State) -> Option<Frame> {
    let State { point, heard, value, .. } = *state;
    let width = if point < 4 { 2 } else { 8 };
    if heard >= width || u32::from(value) >= 1 << heard {
        return None;
    }
    let begun = Frame { done: u32::from(heard), ..Frame::started() };
    Some(match point {
        1 => Frame { field: Field::Ins, ins: value, ..begun },
        2 => Frame { field: Field::Length, ins: Kind::DataWrite.ins(), length: value, ..begun },
        3 => Frame { field: Field::Length, ins: Kind::DataRead.ins(), length: value, ..begun },
        4 => Frame { field: Field::Written, ins: Kind::AddressWrite.ins(), written: value, ..begun },
        _ => Frame { field: Field::Written, ins: Kind::DataWrite.ins(), written: value, ..begun },
    })
}

/// DATA of two to four bytes: one to 32 bits are still to come.
fn read_long_data(left: u8) -> Option<Frame> {
    let done = 32_u32.checked_sub(u32::from(left)).filter(|&done| done < 32)?;
    Some(Frame { field: Field::Written, done, ..frame_of(NOTHING, 0)? })
}

/// A WAIT: the bits that the target sends after it tell the frame. It has fewer zeros than its limit, and its
/// first strobe takes one of them.
fn read_wait(state: &State, wait_limit: u8) -> Option<Frame> {
    let State { point, left, zeros, effect, byte, .. } = *state;
    let frame = frame_of(effect, byte)?;
    let frame = match (effect, left) {
        (WRITES | NOTHING, 0) | (READS, 8) => frame,
        (NOTHING, 16 | 24 | 32) => Frame { ins: Kind::DataRead.ins(), length: left / 8 - 1, ..frame },
        _ => return None,
    };
    let begun = u8::from(point == 8);
    let fits = u32::from(zeros) + u32::from(begun) < u32::from(wait_limit);
    fits.then_some(Frame { field: Field::Wait, done: begun.into(), zeros, ..frame })
}

/// Bits that the target sends: those left of an ADDRESS or of a byte, or up to four bytes of zeros.
fn read_sent(state: &State) -> Option<Frame> {
    let State { value, left, effect, .. } = *state;
    let frame = frame_of(effect, 0)?;
    let zeros = Frame { ins: Kind::DataRead.ins(), ..frame.clone() };
    let (frame, width, most) = match effect {
        COUNTS | READS => (frame, 8, 0xFF),
        NOTHING => (zeros, 32, 0),
        _ => return None,
    };
    let done = u32::checked_sub(width, u32::from(left)).filter(|&done| done < width)?;
    let in_range = value <= most && u64::from(value) < 1 << left;
    in_range.then_some(Frame {
        field: Field::Sent,
        done,
        sent: value.checked_shl(done).unwrap_or(0),
        ..frame
    })
}

/// A block of one to 256 bytes, none of them past the end.
fn read_block(start: u16, count: u16, flash_len: usize) -> Option<Range<usize>> {
    let (start, count) = (usize::from(start), usize::from(count));
    ((1..=256).contains(&count) && start + count <= flash_len).then_some(start..start + count)
}

/// The bytes put so far. Of a block write they are made up: as if it had begun with the byte that is next, or
/// as if it were the longest one past the end.
fn read_command(state: &State, settings: &Settings, flash_len: usize) -> Option<Vec<u8>> {
    let State { command, write, page, high, start, rest, .. } = *state;
    others_zero(&COMMANDS, command, [write.into(), page.into(), high.into(), start, rest])?;
    let block = if truth(write)? { BLOCK_WRITE } else { BLOCK_READ };
    let [start_high, start_low] = start.to_be_bytes();
    Some(match command {
        0 => vec![],
        1 => vec![PAGE_ERASE],
        2 if u32::from(page) < settings.page_count => vec![PAGE_ERASE, page],
        3 => vec![block],
        4 => vec![block, high],
        5 => vec![block, start_high, start_low],
        6 => {
            read_block(start, rest, flash_len)?;
            vec![BLOCK_WRITE, start_high, start_low, (rest % 256) as u8]
        }
        7 if (1..=256).contains(&rest) => {
            let mut bytes = vec![BLOCK_WRITE, 0xFF, 0xFF, 0];
            bytes.resize(4 + 256 - usize::from(rest), 0);
            bytes
        }
        _ => return None,
    })
}

fn read_output(state: &State, flash: &[u8]) -> Option<VecDeque<u8>> {
    let State { output, passed, next, count, .. } = *state;
    others_zero(&OUTPUTS, output, [passed.into(), next, count])?;
    let status = if truth(passed)? { OKAY } else { FAILED };
    let mut bytes = VecDeque::new();
    match output {
        0 => {}
        1 => bytes.push_back(status),
        _ => {
            let block = read_block(next, count, flash.len())?;
            if output == 2 {
                bytes.push_back(OKAY);
            }
            bytes.extend(&flash[block]);
        }
    }
    Some(bytes)
}
