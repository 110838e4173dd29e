//! The commands: built into buffers of every length, read back, changed at every place.

use crate::harness::check::{Check, Run};
use crate::harness::radio::command::{build, read};
use crate::harness::random::Random;
use crate::harness::report::{expect, Checked};
use crate::second::radio::command::{frame, LIST};

pub const CHECKS: &[Check] = &[
    Check {
        name: "radio: every command byte built, into buffers of every length to 9, and read back",
        run: built,
    },
    Check {
        name: "radio: every byte of a command changed to every other value, and other lengths",
        run: changed,
    },
    Check { name: "radio: random messages read", run: random_read },
];

fn built(run: &mut Run) -> Checked {
    let mut cases = 0;
    for byte in 0..=255 {
        for _ in 0..run.cases(16, 400) {
            let random = &mut run.random;
            let parameters = [random.byte(), random.byte(), random.byte()];
            for room in (0..=9).chain([300]) {
                if let Some(message) = build(byte, parameters, room)? {
                    let came = read(&message)?;
                    let inputs = || format!("command {byte:#04x}, parameters {parameters:?}");
                    expect(
                        (0, byte, parameters),
                        (came.number, came.command, [came.p0, came.p1, came.p2]),
                        inputs,
                    )?;
                }
                cases += 1;
            }
        }
    }
    Ok(cases)
}

fn changed(_: &mut Run) -> Checked {
    let mut cases = 0;
    for byte in LIST {
        let message = frame(byte, [0x7F, 0x01, 0xFE]);
        for at in 0..8 {
            for value in 0..=255 {
                let mut other = message;
                other[at] = value;
                read(&other)?;
                cases += 1;
            }
        }
        for len in 0..8 {
            read(&message[..len])?;
            read(&[&message[..], &message[..len], &[0]].concat())?;
            cases += 2;
        }
    }
    Ok(cases)
}

fn random_read(run: &mut Run) -> Checked {
    let cases = run.cases(100_000, 5_000_000);
    for _ in 0..cases {
        let random = &mut run.random;
        let mut message = frame(random.byte(), [random.byte(), random.byte(), random.byte()]).to_vec();
        match random.below(4) {
            0 => {}
            1 => message[random.below(8)] = random.byte(),
            2 => message.swap(random.below(8), random.below(8)),
            _ => message = random_bytes(random, 12),
        }
        read(&message)?;
    }
    Ok(cases)
}

/// Bytes of a random length up to this one.
fn random_bytes(random: &mut Random, most: usize) -> Vec<u8> {
    let len = random.below(most + 1);
    random.bytes(len)
}
