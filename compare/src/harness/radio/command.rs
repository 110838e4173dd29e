//! The commands, built and read.

use proved::radio;

use super::{filled, unfilled};
use crate::harness::lent::{first_stray, Lent};
use crate::harness::report::{expect, expect_bytes, hex, Failure};
use crate::second::numbers;
use crate::second::radio::command::Command;

/// Reads the bytes on both sides.
pub fn read(bytes: &[u8]) -> Result<radio::Command, Failure> {
    let inputs = || format!("bytes {}", hex(bytes));
    let lent = Lent::copy(bytes);
    let came = radio::read(lent.bytes());
    let stray = first_stray(&[(lent.kept(), "the bytes")]);
    let expected = match Command::read(bytes) {
        Some(Command { byte, parameters: [p0, p1, p2] }) => {
            radio::Command { number: 0, command: byte, p0, p1, p2 }
        }
        None => radio::Command { number: numbers::BAD_MESSAGE, command: 0, p0: 0, p1: 0, p2: 0 },
    };
    expect(expected, came, inputs)?;
    expect(None, stray, inputs)?;
    Ok(came)
}

/// Builds a command on both sides into a buffer of this length, and gives what stands there.
pub fn build(byte: u8, parameters: [u8; 3], room: usize) -> Result<Option<[u8; 8]>, Failure> {
    let inputs = || format!("command {byte:#04x}, parameters {parameters:?}, room {room}");
    let before = unfilled(room);
    let mut out = Lent::copy(&before);
    let came = radio::build(byte, parameters, out.bytes_mut());
    let stray = first_stray(&[(out.guards_kept(), "beside the buffer")]);
    let own = match Command::new(byte, parameters) {
        None => Err(numbers::BAD_MESSAGE),
        Some(_) if room < 8 => Err(numbers::BUFFER_TOO_SMALL),
        Some(command) => Ok(command.build()),
    };
    expect(own.err().unwrap_or(0), came, inputs)?;
    expect(None, stray, inputs)?;
    let written = own.ok();
    let bytes = written.as_ref().map_or(&[][..], |bytes| bytes);
    expect_bytes("buffer", &filled(bytes, room), out.bytes(), inputs)?;
    Ok(written)
}
