//! The modelled module: directed commands with the answers that the papers give, every command with every
//! first parameter, states at their edges, damaged commands, and runs of messages.

use crate::harness::check::{Check, Run};
use crate::harness::radio::module::Module;
use crate::harness::random::Random;
use crate::harness::report::{expect, expect_bytes, Checked, Failure};
use crate::second::radio::command::{
    frame, INF_ERROR, INF_OK, INF_SW_VERSION, LIST, RD_FLASH_BYTE, RD_FLASH_PAGE, RD_PRG_AREA, RD_SW_VERSION,
    WR_BIST, WR_BLANK_CHK, WR_FLASH_BYTE, WR_FLASH_PAGE, WR_PRG_AREA, WR_PRG_XRAM,
};
use crate::second::radio::module::{State, FLASH};

pub const CHECKS: &[Check] = &[
    Check { name: "radio: commands with the answers that the papers give", run: directed },
    Check {
        name: "radio: every command with every first parameter, on flashes of several kinds",
        run: parameters,
    },
    Check { name: "radio: states, flashes, rooms and messages at their edges", run: edges },
    Check { name: "radio: damaged commands at the module", run: damaged },
    Check { name: "radio: runs of messages", run: runs },
];

const BLANK: u8 = 0xFF;

/// A flash of one value, with code protection or without.
fn flash_of(value: u8, protected: bool) -> Vec<u8> {
    let mut flash = vec![value; FLASH];
    flash[0x7F01] = if protected { 0x00 } else { 0xFF };
    flash
}

/// A command byte with its parameters, its answer with the code, and the state after it.
type Told = (u8, [u8; 3], (u8, u8), State);

const WAITS: State = State { point: 0, page: 0, left: 0 };

const fn error(code: u8) -> (u8, u8) {
    (INF_ERROR, code)
}

const fn ok(code: u8) -> (u8, u8) {
    (INF_OK, code)
}

const fn data(page: u32, left: u32) -> State {
    State { point: 1, page, left }
}

const fn program(left: u32) -> State {
    State { point: 2, page: 0, left }
}

const fn clock(page: u32, left: u32) -> State {
    State { point: 3, page, left }
}

/// What the papers say of each command to a fresh module that holds 0x33, without code protection.
const OPEN: &[Told] = &[
    (RD_SW_VERSION, [9, 9, 9], (INF_SW_VERSION, 0), WAITS),
    (RD_FLASH_BYTE, [0x00, 0x00, 0], ok(0x33), WAITS),
    (RD_FLASH_BYTE, [0x7F, 0x01, 0], ok(0xFF), WAITS),
    (RD_FLASH_BYTE, [0x80, 0xFF, 0], ok(0x33), WAITS),
    (RD_FLASH_BYTE, [0x81, 0x00, 0], error(0), WAITS),
    (RD_FLASH_BYTE, [0x9F, 0x01, 0], error(0), WAITS),
    (WR_FLASH_BYTE, [0x7F, 0x01, 0xFF], ok(0), WAITS),
    (WR_FLASH_BYTE, [0x7F, 0x00, 0x33], error(3), WAITS),
    (WR_FLASH_BYTE, [0x00, 0x00, 0xFF], error(3), WAITS),
    (WR_FLASH_BYTE, [0x80, 0x00, 0x00], error(1), WAITS),
    (WR_FLASH_BYTE, [0xA0, 0x00, 0x00], error(0), WAITS),
    (RD_FLASH_PAGE, [128, 0, 0], ok(0), clock(128, 1)),
    (RD_FLASH_PAGE, [129, 0, 0], error(0), WAITS),
    (WR_FLASH_PAGE, [127, 0, 0], ok(0), data(127, 1)),
    (WR_FLASH_PAGE, [5, 1, 0], ok(0), WAITS),
    (WR_FLASH_PAGE, [5, 2, 0], ok(0), data(5, 1)),
    (WR_FLASH_PAGE, [128, 0, 0], error(1), WAITS),
    (WR_FLASH_PAGE, [129, 0, 0], error(0), WAITS),
    (RD_PRG_AREA, [127, 0, 0], ok(0), clock(0, 127)),
    (RD_PRG_AREA, [128, 0, 0], error(0), WAITS),
    (RD_PRG_AREA, [0, 0, 0], error(0), WAITS),
    (WR_PRG_AREA, [127, 0, 0], ok(0), data(0, 127)),
    (WR_PRG_AREA, [3, 1, 0], ok(0), WAITS),
    (WR_PRG_AREA, [3, 0xFF, 0], ok(0), data(0, 3)),
    (WR_PRG_AREA, [0, 1, 0], error(0), WAITS),
    (WR_PRG_AREA, [128, 0, 0], error(0), WAITS),
    (WR_BLANK_CHK, [0, 0, 0], error(5), WAITS),
    (WR_BIST, [0, 0, 0], ok(1), WAITS),
    (WR_PRG_XRAM, [4, 0, 0], ok(0), program(4)),
    (WR_PRG_XRAM, [5, 0, 0], error(0), WAITS),
    (WR_PRG_XRAM, [0, 0, 0], error(0), WAITS),
    (INF_OK, [0, 0, 0], error(8), WAITS),
    (INF_ERROR, [0, 0, 0], error(8), WAITS),
    (INF_SW_VERSION, [1, 2, 3], error(8), WAITS),
    (0x00, [0, 0, 0], error(8), WAITS),
];

/// The same, with code protection.
const CLOSED: &[Told] = &[
    (RD_FLASH_BYTE, [0x7E, 0xFF, 0], error(1), WAITS),
    (RD_FLASH_BYTE, [0x7F, 0x00, 0], ok(0x33), WAITS),
    (RD_FLASH_BYTE, [0x80, 0x00, 0], ok(0x33), WAITS),
    (RD_FLASH_BYTE, [0x81, 0x00, 0], error(0), WAITS),
    (WR_FLASH_BYTE, [0x7E, 0xFF, 0], error(2), WAITS),
    (WR_FLASH_BYTE, [0x7F, 0x04, 0x33], error(3), WAITS),
    (WR_FLASH_BYTE, [0x80, 0x00, 0], error(1), WAITS),
    (WR_FLASH_BYTE, [0x81, 0x00, 0], error(0), WAITS),
    (RD_FLASH_PAGE, [126, 0, 0], error(1), WAITS),
    (RD_FLASH_PAGE, [127, 0, 0], ok(0), clock(127, 1)),
    (RD_FLASH_PAGE, [200, 0, 0], error(0), WAITS),
    (WR_FLASH_PAGE, [127, 0, 0], error(1), WAITS),
    (WR_FLASH_PAGE, [129, 0, 0], error(1), WAITS),
    (RD_PRG_AREA, [1, 0, 0], error(2), WAITS),
    (RD_PRG_AREA, [200, 0, 0], error(2), WAITS),
    (WR_PRG_AREA, [1, 0, 0], error(1), WAITS),
    (WR_PRG_AREA, [0, 1, 0], error(1), WAITS),
    (WR_PRG_XRAM, [5, 0, 0], error(1), WAITS),
    (WR_BLANK_CHK, [0, 0, 0], error(5), WAITS),
];

fn directed(_: &mut Run) -> Checked {
    for (protected, table) in [(false, OPEN), (true, CLOSED)] {
        for &(byte, parameters, (answer, code), state) in table {
            let mut module = Module::fresh(flash_of(0x33, protected))?;
            let came = module.step(&frame(byte, parameters), 256)?;
            let inputs = || format!("command {byte:#04x}, parameters {parameters:?}, protected {protected}");
            expect((Ok(frame(answer, [code, 0, 0]).to_vec()), state), (came, module.state), inputs)?;
        }
    }
    written(&mut Module::fresh(flash_of(0x33, false))?)?;
    Ok((OPEN.len() + CLOSED.len() + 1) as u64)
}

/// Two pages and the configuration written, byte 0 and the protection after them; then they are read back.
fn written(module: &mut Module) -> Result<(), Failure> {
    let ok = frame(INF_OK, [0, 0, 0]);
    let mut flash = vec![BLANK; FLASH];
    flash[..256].fill(1);
    flash[256..512].fill(2);
    flash[0x7F00..0x7F02].copy_from_slice(&[4, 0]);
    flash[0x7F04..0x8000].fill(3);
    flash[0x8000..].fill(0x33);
    let sent: [(&[u8], &[u8]); 10] = [
        (&frame(WR_PRG_AREA, [2, 0, 0]), &ok),
        (&[1; 256], &[]),
        (&[2; 256], &ok),
        (&frame(WR_FLASH_PAGE, [127, 0, 0]), &ok),
        (&[3; 256], &ok),
        (&frame(WR_FLASH_BYTE, [0x7F, 0x00, 4]), &ok),
        (&frame(WR_FLASH_BYTE, [0x7F, 0x01, 0]), &ok),
        (&frame(RD_FLASH_PAGE, [0, 0, 0]), &frame(INF_ERROR, [1, 0, 0])),
        (&frame(RD_FLASH_PAGE, [127, 0, 0]), &ok),
        (&[], &flash[0x7F00..0x8000]),
    ];
    for (i, (message, reply)) in sent.into_iter().enumerate() {
        let came = module.step(message, 256)?;
        expect(Ok(reply.to_vec()), came, || format!("message {i} of two pages written"))?;
    }
    expect_bytes("flash", &flash, &module.flash, || "two pages and the configuration written".into())
}

fn parameters(run: &mut Run) -> Checked {
    let mut cases = 0;
    let random_flash = run.random.bytes(FLASH);
    let flashes = [flash_of(BLANK, false), flash_of(0x00, true), flash_of(BLANK, true), random_flash];
    let bytes: Vec<u8> = LIST.into_iter().chain([0x00, 0xFF, 0x72, 0x57]).collect();
    for flash in &flashes {
        for &byte in &bytes {
            for p0 in 0..=255 {
                for _ in 0..run.cases(4, 40) {
                    let p1 = run.random.pick(&[0, 1, 1, 2, 3, 4, 255, 128]);
                    let mut module = Module::fresh(flash.clone())?;
                    let _ = module.step(&frame(byte, [p0, p1, run.random.byte()]), 256)?;
                    cases += 1;
                }
            }
        }
    }
    Ok(cases)
}

fn edges(run: &mut Run) -> Checked {
    let mut cases = 0;
    let numbers = [0, 1, 2, 4, 5, 126, 127, 128, 129, 130, u32::MAX - 1, u32::MAX];
    let command = frame(RD_SW_VERSION, [0; 3]);
    let page = run.random.bytes(257);
    let mut wrong_head = command;
    wrong_head[1] = 0xA5;
    let messages: [&[u8]; 9] = [
        &[],
        &command[..7],
        &command,
        &wrong_head,
        &[&command[..], &[0]].concat(),
        &page[..255],
        &page[..256],
        &page,
        &[0xA5],
    ];
    for point in [0, 1, 2, 3, 4, u32::MAX] {
        for page in numbers {
            for left in numbers {
                for message in messages {
                    let state = State { point, page, left };
                    let room = run.random.pick(&[256, 256, 257, 300, 255, 8, 0]);
                    let long = run.random.pick(&[FLASH, FLASH, FLASH, FLASH - 1, FLASH + 1, 0]);
                    let mut module = Module { flash: vec![run.random.byte(); long], state };
                    let _ = module.step(message, room)?;
                    cases += 1;
                }
            }
        }
    }
    Ok(cases)
}

fn damaged(run: &mut Run) -> Checked {
    let flashes = [flash_of(BLANK, false), flash_of(0x11, true)];
    let mut cases = 0;
    for byte in LIST {
        for at in 0..8 {
            for _ in 0..run.cases(60, 2_000) {
                let mut message = frame(byte, [run.random.byte(), run.random.pick(&[0, 1, 2]), 0]);
                message[at] = run.random.byte();
                if at != 7 && run.random.below(2) == 0 {
                    message[7] = message[2..7].iter().fold(0, |sum: u8, &byte| sum.wrapping_add(byte));
                }
                let mut module = Module::fresh(flashes[run.random.below(2)].clone())?;
                let _ = module.step(&message, 256)?;
                cases += 1;
            }
        }
    }
    Ok(cases)
}

/// A message that the module's state takes, or, now and then, one that it does not.
fn next_message(random: &mut Random, state: State) -> Vec<u8> {
    let point = if random.below(12) == 0 { random.below(4) as u32 } else { state.point };
    match point {
        0 => {
            let byte = random.pick(&LIST);
            let p0 = random.pick(&[0, 1, 2, 3, 4, 5, 126, 127, 128, 129, 0xFF]);
            frame(byte, [p0, random.pick(&[0, 0, 1, 2, 0x7F]), random.byte()]).to_vec()
        }
        1 | 2 => random.bytes(256),
        _ => vec![0; random.pick(&[0, 0, 0, 0, 0, 1])],
    }
}

fn runs(run: &mut Run) -> Checked {
    let runs = run.cases(400, 20_000);
    let mut cases = 0;
    for _ in 0..runs {
        let random = &mut run.random;
        let flash = match random.below(3) {
            0 => flash_of(BLANK, false),
            1 => flash_of(random.byte(), random.below(4) == 0),
            _ => random.bytes(FLASH),
        };
        let mut module = Module::fresh(flash)?;
        for _ in 0..120 {
            let message = next_message(&mut run.random, module.state);
            let room = run.random.pick(&[256, 256, 256, 256, 512, 255]);
            let _ = module.step(&message, room)?;
            cases += 1;
        }
    }
    Ok(cases)
}
