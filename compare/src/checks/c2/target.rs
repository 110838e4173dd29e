//! Both targets, each by itself, sentence by sentence of document 01's "The modelled target".

use crate::harness::c2::device::Device;
use crate::harness::c2::model::Proved;
use crate::harness::check::{Check, Run};
use crate::harness::report::{expect, Checked, Failure};
use crate::second::c2::frames::{self, End, Kind};
use crate::second::c2::interface::{
    BLOCK_READ, BLOCK_WRITE, FAILED, FPCTL, IN_BUSY, KEYS, OKAY, OUT_READY, PAGE_ERASE,
};
use crate::second::c2::session::WAIT_LIMIT;
use crate::second::c2::steps::{HIGH, LOW, OFF, PAUSE, RELEASED, RESET};
use crate::second::c2::target::{Modelled, Target};
use crate::second::numbers;
use crate::second::settings::{Pairs, Settings};

pub const CHECKS: &[Check] = &[
    Check { name: "our target: refusals, in their order", run: refusals::<Target> },
    Check { name: "our target: frames and registers", run: registers::<Target> },
    Check { name: "our target: collisions", run: collisions::<Target> },
    Check { name: "our target: delays in WAITs", run: waits::<Target> },
    Check { name: "our target: frames with LENGTH not 0", run: lengths::<Target> },
    Check { name: "our target: the keys that turn the interface on", run: keys::<Target> },
    Check { name: "our target: InBusy and OutReady", run: status_bits::<Target> },
    Check { name: "our target: commands", run: commands::<Target> },
    Check { name: "target: refusals, in their order", run: refusals::<Proved> },
    Check { name: "target: frames and registers", run: registers::<Proved> },
    Check { name: "target: collisions", run: collisions::<Proved> },
    Check { name: "target: delays in WAITs", run: waits::<Proved> },
    Check { name: "target: frames with LENGTH not 0", run: lengths::<Proved> },
    Check { name: "target: the keys that turn the interface on", run: keys::<Proved> },
    Check { name: "target: InBusy and OutReady", run: status_bits::<Proved> },
    Check { name: "target: commands", run: commands::<Proved> },
];

const SETTINGS: Settings = Settings {
    device_id: 0x5A,
    fpdat: 0xB4,
    page_size: 512,
    page_count: 2,
    wait_limit: WAIT_LIMIT,
    pairs: Pairs::NONE,
};

fn device<T: Modelled>(delays: &[u8]) -> Device<T> {
    Device::new(SETTINGS, vec![0xF0; 1024], delays.to_vec())
}

impl<T: Modelled> Device<T> {
    /// These delays come next, in this order. The list lent so far was empty, which leaves the place at 1.
    fn lend_delays(&mut self, delays: &[u8]) {
        assert!(self.delays.is_empty());
        self.delays = delays.to_vec();
        self.delays.rotate_right(1.min(delays.len()));
    }
}

/// A fresh device with its interface on, FPDAT selected, and these delays from there on.
fn ready<T: Modelled>(delays: &[u8]) -> Device<T> {
    let mut device = device(&[]);
    device.write_keys();
    device.step(PAUSE);
    device.address_write(SETTINGS.fpdat);
    device.lend_delays(delays);
    device
}

/// Counts what was compared.
#[derive(Default)]
pub struct Tally(pub u64);

impl Tally {
    pub fn expect<T: PartialEq + std::fmt::Debug>(
        &mut self,
        inputs: &str,
        expected: T,
        came: T,
    ) -> Result<(), Failure> {
        self.0 += 1;
        expect(expected, came, || inputs.to_string())
    }

    pub fn gives(&mut self, inputs: &str, byte: u8, came: End) -> Result<(), Failure> {
        self.expect(inputs, End::Passed(byte), came)
    }
}

fn refusals<T: Modelled>(_: &mut Run) -> Checked {
    let five = Pairs { count: 5, registers: [3, 4, 5, 6], values: [0; 4] };
    let bad = Settings { device_id: 0, fpdat: 2, page_size: 500, page_count: 0, wait_limit: 0, pairs: five };
    let rows = [
        (bad, 1024, 1, numbers::BAD_FPDAT),
        (Settings { fpdat: 3, ..bad }, 1024, 1, numbers::BAD_PAGE_SIZE),
        (Settings { page_size: 512, page_count: 0, ..SETTINGS }, 0, 1, numbers::BAD_PAGE_COUNT),
        (Settings { page_size: 512, fpdat: 3, ..bad }, 0, 1, numbers::BAD_PAGE_COUNT),
        (Settings { page_count: 129, ..SETTINGS }, 66_048, 1, numbers::BAD_PAGE_COUNT),
        (Settings { page_size: 1024, page_count: 65, ..SETTINGS }, 66_560, 1, numbers::BAD_PAGE_COUNT),
        (Settings { page_count: u32::MAX, ..SETTINGS }, 1024, 1, numbers::BAD_PAGE_COUNT),
        (Settings { wait_limit: 0, ..SETTINGS }, 1024, 0, numbers::BAD_WAIT_LIMIT),
        (Settings { wait_limit: 0, pairs: five, ..SETTINGS }, 1023, 1, numbers::BAD_WAIT_LIMIT),
        (Settings { pairs: five, ..SETTINGS }, 1024, 0, numbers::BAD_PAIRS),
        (Settings { pairs: five, ..SETTINGS }, 1023, 1, numbers::BAD_PAIRS),
        (SETTINGS, 1023, 1, numbers::NO_POINT),
        (SETTINGS, 1025, 0, numbers::NO_POINT),
        (SETTINGS, 1024, 1, numbers::NO_STEP),
        (SETTINGS, 1024, 7, numbers::NO_STEP),
        (SETTINGS, 1024, 255, numbers::NO_STEP),
    ];
    let mut tally = Tally::default();
    for (settings, flash_len, step, number) in rows {
        // in the middle of an Address Write, to see that nothing changes
        let mut device = device::<T>(&[]);
        let steps = frames::play(Kind::AddressWrite, 0x77, &[1; 12], WAIT_LIMIT.into()).steps;
        device.steps(&steps[..6]);
        let mut flash = vec![0; flash_len];
        let came = device.target.step(&settings, &Pairs::NONE, &mut flash, &[], step);
        let inputs = format!("{settings:?}, flash of {flash_len}, step {step}");
        tally.expect(&inputs, (number, 1), came)?;
        // wanted pairs come after all settings, and before 17 and 16
        let number =
            if [numbers::NO_POINT, numbers::NO_STEP].contains(&number) { numbers::BAD_PAIRS } else { number };
        let came = device.target.step(&settings, &five, &mut flash, &[], step);
        tally.expect(&format!("{inputs}, wanted {five:?}"), (number, 1), came)?;
        device.steps(&steps[6..]);
        tally.gives(&inputs, 0x77, device.address_read())?;
    }
    Ok(tally.0)
}

fn registers<T: Modelled>(_: &mut Run) -> Checked {
    let mut tally = Tally::default();
    let mut device = device::<T>(&[]);
    tally.gives("device ID after power on", SETTINGS.device_id, device.data_read())?;
    let steps = [0, 3, 3, 2, 3, 2, 2, 2, 2, 2, 2, 0];
    let replies = vec![1, 1, 1, 0, 1, 0, 0, 0, 0, 0, 0, 1];
    tally.expect("replies to an Address Write of 0x02", replies, device.steps(&steps))?;
    tally.gives("Address Read after it", 0x02, device.address_read())?;
    tally.expect("released all through", vec![1; 12], device.steps(&[RELEASED; 12]))?;
    tally.gives("that was an Address Write of 0xFF", 0xFF, device.address_read())?;
    for address in 0..=255 {
        device.address_write(address);
        let inputs = format!("address {address:#04x}, interface off");
        device.data_write(0x99);
        tally.gives(&inputs, address, device.address_read())?;
        let byte = if address == 0 { SETTINGS.device_id } else { 0 };
        tally.gives(&inputs, byte, device.data_read())?;
    }
    tally.expect("replies to 4, 5 and 6", vec![1, 1, 1], device.steps(&[PAUSE, OFF, RESET]))?;
    tally.gives("Address Read after reset", 0, device.address_read())?;
    tally.expect("flash", vec![0xF0; 1024], device.flash)?;
    Ok(tally.0)
}

/// Every strobe of every frame, driven: the mark is set unless the strobe is the master's, and the
/// replies are those of the same frame left alone.
fn collisions<T: Modelled>(_: &mut Run) -> Checked {
    let mut tally = Tally::default();
    for kind in Kind::ALL {
        let replies = device::<T>(&[2]).steps(&frames_steps(kind));
        for strobe in 0..replies.len() {
            for drive in [LOW, HIGH] {
                let mut steps = frames_steps(kind);
                let masters = steps[strobe] != RELEASED;
                if !masters {
                    steps[strobe] = drive;
                }
                let mut device = device::<T>(&[2]);
                let inputs = format!("{kind:?}, steps {steps:?}");
                tally.expect(&inputs, &replies, &device.steps(&steps))?;
                tally.expect(&inputs, !masters, device.target.collision())?;
                device.step(RESET);
                tally.expect("the mark after reset", !masters, device.target.collision())?;
            }
        }
    }
    Ok(tally.0)
}

/// The steps of a frame with two zeros in its WAIT.
fn frames_steps(kind: Kind) -> Vec<u8> {
    let before_wait = if kind.reads() { 5 } else { 13 };
    let mut replies = vec![1; 17];
    replies[before_wait..before_wait + 2].fill(0);
    frames::play(kind, 0x33, &replies, WAIT_LIMIT.into()).steps
}

fn waits<T: Modelled>(_: &mut Run) -> Checked {
    let mut tally = Tally::default();
    let before_wait = [RELEASED, LOW, LOW, LOW, LOW];
    for wait_limit in 1..=255 {
        for delay in 0..=255 {
            let mut device = device::<T>(&[delay]);
            device.settings.wait_limit = wait_limit;
            device.steps(&before_wait);
            let zeros = (0..).take_while(|_| device.step(RELEASED) == 0).count();
            let inputs = format!("zeros in the WAIT of a Data Read, limit {wait_limit}, delay {delay}");
            tally.expect(&inputs, usize::from(delay) % usize::from(wait_limit), zeros)?;
        }
    }
    // a reset just before a WAIT: its delay is not yet taken; a reset within it: it is
    let mut device = device::<T>(&[3, 25]);
    device.steps(&before_wait);
    device.step(RESET);
    for (zeros, inputs) in [(3, "first delay"), (5, "second"), (3, "first again")] {
        device.steps(&before_wait);
        let came = (0..).take_while(|_| device.step(RELEASED) == 0).count();
        tally.expect(inputs, zeros, came)?;
        device.step(RESET);
    }
    Ok(tally.0)
}

/// The bits of a field, driven lowest first.
fn drive(value: u32, width: u32) -> impl Iterator<Item = u8> {
    (0..width).map(move |bit| if value >> bit & 1 == 1 { HIGH } else { LOW })
}

/// A data frame of one to four bytes; its WAIT has no zeros.
pub fn data_frame(kind: Kind, length: u32, data: u32) -> Vec<u8> {
    let width = 8 * (length + 1);
    let mut steps = vec![RELEASED];
    steps.extend(drive(u32::from(kind.ins()), 2).chain(drive(length, 2)));
    match kind {
        Kind::DataWrite => steps.extend(drive(data, width)),
        _ => steps.extend(vec![RELEASED; width as usize]),
    }
    steps.extend([RELEASED; 2]);
    steps
}

fn lengths<T: Modelled>(_: &mut Run) -> Checked {
    let mut tally = Tally::default();
    for length in 1..=3 {
        let mut at_id = device::<T>(&[]);
        let came = at_id.steps(&data_frame(Kind::DataRead, length, 0));
        // START, INS, LENGTH, WAIT, then the zeros read and STOP
        let mut replies = vec![1, 0, 0, (length & 1) as u8, (length >> 1) as u8, 1];
        replies.extend(vec![0; 8 * (length as usize + 1)]);
        replies.push(1);
        tally.expect("Data Read at address 0, LENGTH not 0", replies, came)?;
        tally.gives("the next frame", 0, at_id.address_read())?;

        let mut ready = ready::<T>(&[]);
        ready.steps(&data_frame(Kind::DataWrite, length, 0x0808_0808));
        tally.gives("no command was put", 0, ready.address_read())?;
        ready.data_write(PAGE_ERASE);
        ready.steps(&data_frame(Kind::DataRead, length, 0));
        tally.gives("no output was taken", OUT_READY, ready.address_read())?;
        tally.gives("the status", OKAY, ready.data_read())?;
        tally.expect("no collision", false, ready.target.collision())?;
    }
    Ok(tally.0)
}

/// Where the interface is on, an Address Read at FPDAT gives the status bits.
fn interface_on<T: Modelled>(device: &mut Device<T>) -> bool {
    device.address_write(SETTINGS.fpdat);
    device.address_read() == End::Passed(0)
}

type Act<T> = fn(&mut Device<T>);

fn keys<T: Modelled>(_: &mut Run) -> Checked {
    let nothing: Act<T> = |_| ();
    let rows: [(&str, bool, Act<T>, Act<T>); 11] = [
        ("nothing between or after", true, nothing, nothing),
        ("an Address Read between", true, |d| _ = d.address_read(), nothing),
        ("a Data Read between", true, |d| _ = d.data_read(), nothing),
        ("a longer write between", true, long_write, nothing),
        ("a Data Write between", false, |d| d.data_write(0x02), nothing),
        ("the address left between", false, |d| d.address_write(0x03), nothing),
        ("a reset between", false, |d| _ = d.step(RESET), nothing),
        ("an Address Read after", false, nothing, |d| _ = d.address_read()),
        ("a longer write after", false, nothing, long_write),
        ("a reset after", false, nothing, |d| _ = d.step(RESET)),
        ("a 6 after", true, nothing, |d| _ = d.step(OFF)),
    ];
    let mut tally = Tally::default();
    for (inputs, on, between, after) in rows {
        let mut device = device::<T>(&[]);
        device.data_write(0x02);
        device.address_write(FPCTL);
        device.data_write(KEYS[0]);
        device.data_write(KEYS[0]);
        device.data_write(KEYS[1]);
        between(&mut device);
        device.data_write(KEYS[2]);
        after(&mut device);
        device.step(PAUSE);
        tally.expect(inputs, on, interface_on(&mut device))?;
        device.step(RESET);
        tally.expect("off after reset", false, interface_on(&mut device))?;
    }
    pause_in_mid_frame::<T>(&mut tally)?;
    Ok(tally.0)
}

fn long_write<T: Modelled>(device: &mut Device<T>) {
    device.steps(&data_frame(Kind::DataWrite, 1, 0x0102));
}

/// Step 5 in mid-frame changes nothing: the frame goes on, and its START has spoilt the keys.
fn pause_in_mid_frame<T: Modelled>(tally: &mut Tally) -> Result<(), Failure> {
    let mut device = device::<T>(&[]);
    device.write_keys();
    device.steps(&[RELEASED, PAUSE, LOW, PAUSE, HIGH, OFF]);
    let replies = vec![0, 1, 0, 0, 0, 0, 0, 0, 1];
    tally.expect("an Address Read goes on", replies, device.steps(&[RELEASED; 9]))?;
    tally.expect("step 5 in mid-frame", false, interface_on(&mut device))
}

fn status_bits<T: Modelled>(_: &mut Run) -> Checked {
    let mut tally = Tally::default();
    for (d, e) in [(0, 0), (1, 0), (0, 1), (3, 2), (255, 255)] {
        // the WAIT of the put takes the first delay, then come d and e
        let mut device = ready::<T>(&[7, d, e, 0]);
        device.data_write(PAGE_ERASE);
        let inputs = format!("d {d}, e {e}");
        for _ in 0..d {
            tally.gives(&inputs, IN_BUSY, device.address_read())?;
        }
        for _ in 0..e {
            tally.gives(&inputs, 0, device.address_read())?;
        }
        tally.gives(&inputs, OUT_READY, device.address_read())?;
        tally.gives(&inputs, OKAY, device.data_read())?;
        tally.gives(&inputs, 0, device.address_read())?;
        tally.gives("a read without output", 0, device.data_read())?;
    }
    early_read::<T>(&mut tally)?;
    put_while_busy::<T>(&mut tally)?;
    delay_after_a_read::<T>(&mut tally)?;
    put_without_output::<T>(&mut tally)?;
    Ok(tally.0)
}

/// A Data Read while OutReady is 0 gives 0 and takes nothing away.
fn early_read<T: Modelled>(tally: &mut Tally) -> Result<(), Failure> {
    let mut device = ready::<T>(&[0, 1, 1, 0]);
    device.data_write(PAGE_ERASE);
    tally.gives("a read while InBusy is 1", 0, device.data_read())?;
    tally.gives("d is not used up", IN_BUSY, device.address_read())?;
    tally.gives("e is not used up", 0, device.address_read())?;
    tally.gives("the output is still there", OUT_READY, device.address_read())?;
    // reads at another address use up neither
    device.data_write(0x01);
    device.address_write(0x10);
    tally.gives("another register", 0x10, device.address_read())?;
    device.address_write(SETTINGS.fpdat);
    tally.gives("d is not used up elsewhere", IN_BUSY, device.address_read())
}

/// A put is taken while InBusy is 1, and drops output, d and e.
fn put_while_busy<T: Modelled>(tally: &mut Tally) -> Result<(), Failure> {
    let mut device = ready::<T>(&[0, 200, 200, 0, 0, 0]);
    device.data_write(PAGE_ERASE);
    tally.gives("busy", IN_BUSY, device.address_read())?;
    device.data_write(1);
    tally.gives("page put, d and e 0", OUT_READY, device.address_read())?;
    device.delays.clear();
    device.data_write(0x00);
    tally.gives("status of the erase", OKAY, device.data_read())?;
    tally.gives("one status only", 0, device.address_read())?;
    let mut flash = vec![0xF0; 512];
    flash.extend([0xFF; 512]);
    tally.expect("page 1 erased", &flash, &device.flash)
}

/// After a read with more output waiting a new e is taken.
fn delay_after_a_read<T: Modelled>(tally: &mut Tally) -> Result<(), Failure> {
    let mut device = ready::<T>(&[]);
    for byte in [BLOCK_READ, 0, 0, 2] {
        device.data_write(byte);
    }
    device.lend_delays(&[0, 2]);
    tally.gives("status of the block read", OKAY, device.data_read())?;
    tally.gives("e 2", 0, device.address_read())?;
    tally.gives("e 1", 0, device.address_read())?;
    tally.gives("e 0", OUT_READY, device.address_read())?;
    tally.gives("first byte", 0xF0, device.data_read())?;
    tally.gives("e 2 again", 0, device.address_read())?;
    tally.gives("too early", 0, device.data_read())?;
    tally.gives("e 1 again", 0, device.address_read())?;
    tally.gives("second byte", 0xF0, device.data_read())?;
    tally.gives("no more output", 0, device.address_read())
}

/// A put that brings no output takes d and no e.
fn put_without_output<T: Modelled>(tally: &mut Tally) -> Result<(), Failure> {
    let mut device = ready::<T>(&[]);
    device.data_write(BLOCK_READ);
    device.lend_delays(&[0, 1, 2]);
    device.data_write(0x00);
    for status in [IN_BUSY, 0] {
        tally.gives("address high put: WAIT 0, d 1", status, device.address_read())?;
    }
    device.data_write(0x00);
    tally.gives("address low put: WAIT 2, d 0", 0, device.address_read())?;
    device.data_write(0x01);
    for status in [IN_BUSY, IN_BUSY, OUT_READY] {
        tally.gives("length code put: WAIT 1, d 2, e 0", status, device.address_read())?;
    }
    Ok(())
}

fn put_all<T: Modelled>(device: &mut Device<T>, bytes: &[u8]) {
    for &byte in bytes {
        device.data_write(byte);
    }
}

fn commands<T: Modelled>(_: &mut Run) -> Checked {
    let mut tally = Tally::default();
    for (status, bytes) in [
        (OKAY, &[PAGE_ERASE, 1, 0x00][..]),
        (FAILED, &[PAGE_ERASE, 1, 0x01]),
        (FAILED, &[PAGE_ERASE, 2]),
        (FAILED, &[0x03]),
        (OKAY, &[BLOCK_WRITE, 0x03, 0xFE, 2, 0x3C, 0x0F]),
        (FAILED, &[BLOCK_WRITE, 0x03, 0xFE, 3, 0x3C, 0x0F, 0x55]),
        (OKAY, &[BLOCK_READ, 0x03, 0x00, 0]),
        (FAILED, &[BLOCK_READ, 0x03, 0x01, 0]),
        (OKAY, &[BLOCK_READ, 0x03, 0x01, 255]),
    ] {
        let mut device = ready::<T>(&[]);
        put_all(&mut device, bytes);
        let inputs = format!("puts {bytes:02x?}");
        tally.gives(&inputs, status, device.data_read())?;
        let reads = status == OKAY && bytes[0] == BLOCK_READ;
        tally.gives(&inputs, if reads { OUT_READY } else { 0 }, device.address_read())?;
        tally.expect(&inputs, &flash_after(bytes, status), &device.flash)?;
        put_all(&mut device, &[PAGE_ERASE]);
        tally.gives("the next put is a new command", OKAY, device.data_read())?;
    }
    unknown_commands::<T>(&mut tally)?;
    length_codes::<T>(&mut tally)?;
    Ok(tally.0)
}

fn unknown_commands<T: Modelled>(tally: &mut Tally) -> Result<(), Failure> {
    for command in (0..=255).filter(|command| ![BLOCK_READ, BLOCK_WRITE, PAGE_ERASE].contains(command)) {
        let mut device = ready::<T>(&[]);
        device.data_write(command);
        tally.gives(&format!("command {command:#04x}"), FAILED, device.data_read())?;
    }
    Ok(())
}

fn flash_after(bytes: &[u8], status: u8) -> Vec<u8> {
    let mut flash = vec![0xF0; 1024];
    if status == OKAY && bytes[0] == PAGE_ERASE {
        flash[512..].fill(0xFF);
    }
    if status == OKAY && bytes[0] == BLOCK_WRITE {
        flash[1022..].copy_from_slice(&[0x30, 0x00]);
    }
    flash
}

/// P5 and P6: code 0 means 256, 255 means 255, for writes and reads.
fn length_codes<T: Modelled>(tally: &mut Tally) -> Result<(), Failure> {
    for (code, len) in [(0, 256), (1, 1), (255, 255)] {
        let inputs = format!("length code {code}");
        let mut device = ready::<T>(&[]);
        put_all(&mut device, &[BLOCK_WRITE, 0x01, 0x02, code]);
        for _ in 0..len {
            tally.gives(&inputs, 0, device.address_read())?;
            device.data_write(0x10);
        }
        tally.gives(&inputs, OKAY, device.data_read())?;
        let mut flash = vec![0xF0; 1024];
        flash[0x102..0x102 + len].fill(0x10);
        tally.expect(&inputs, &flash, &device.flash)?;
        put_all(&mut device, &[BLOCK_READ, 0x01, 0x02, code]);
        tally.gives(&inputs, OKAY, device.data_read())?;
        for _ in 0..len {
            tally.gives(&inputs, 0x10, device.data_read())?;
        }
        tally.gives(&inputs, 0, device.address_read())?;
    }
    Ok(())
}
