//! What a modelled target wants written before its flash is touched (document 02, e): both targets, each by
//! itself, and sessions whose pairs meet it or not. The answers are those of the paper's words, literally.

use super::target::{data_frame, Tally};
use crate::harness::c2::calls;
use crate::harness::c2::device::Device;
use crate::harness::c2::model::Proved;
use crate::harness::c2::pairs::{met_by, not_met_by, random_pairs};
use crate::harness::check::{Check, Run};
use crate::harness::report::{expect, expect_bytes, Checked, Failure};
use crate::second::c2::frames::{End, Kind};
use crate::second::c2::interface::{
    BLOCK_READ, BLOCK_WRITE, FAILED, FPCTL, IN_BUSY, KEYS, OKAY, OUT_READY, PAGE_ERASE,
};
use crate::second::c2::record::RECORD_LEN;
use crate::second::c2::session::{Session, FIRST_STEP};
use crate::second::c2::steps::{OFF, PAUSE, RESET};
use crate::second::c2::target::{Modelled, Target};
use crate::second::numbers;
use crate::second::settings::{Pairs, Settings};

pub const CHECKS: &[Check] = &[
    Check { name: "our target: the last value written since the reset", run: last_values::<Target> },
    Check { name: "our target: every register and value that it wants", run: every_value::<Target> },
    Check { name: "our target: lists that it wants", run: lists::<Target> },
    Check { name: "our target: commands that are turned away", run: turned_away::<Target> },
    Check {
        name: "our target: registers written in mid-command, and among the keys",
        run: meanwhile::<Target>,
    },
    Check { name: "target: the last value written since the reset", run: last_values::<Proved> },
    Check { name: "target: every register and value that it wants", run: every_value::<Proved> },
    Check { name: "target: lists that it wants", run: lists::<Proved> },
    Check { name: "target: commands that are turned away", run: turned_away::<Proved> },
    Check { name: "target: registers written in mid-command, and among the keys", run: meanwhile::<Proved> },
    Check { name: "wanted: every small list in settings and target", run: small_lists },
    Check { name: "wanted: whole sessions, met and not met", run: whole_sessions },
];

const SETTINGS: Settings = Settings {
    device_id: 0x5A,
    fpdat: 0xB4,
    page_size: 512,
    page_count: 2,
    wait_limit: 20,
    pairs: Pairs::NONE,
};
/// A register that the device wants, and its value.
const REGISTER: u8 = 0xB2;
const VALUE: u8 = 0x83;

fn wanting<T: Modelled>(wanted: &[(u8, u8)]) -> Device<T> {
    let mut device = Device::new(SETTINGS, vec![0xF0; 1024], Vec::new());
    device.wanted = Pairs::of(wanted);
    device
}

impl<T: Modelled> Device<T> {
    fn write(&mut self, register: u8, value: u8) {
        self.address_write(register);
        self.data_write(value);
    }

    fn turn_on(&mut self) {
        self.write_keys();
        self.step(PAUSE);
    }

    /// The answer to a command byte.
    fn answer(&mut self, command: u8) -> End {
        self.address_write(SETTINGS.fpdat);
        self.data_write(command);
        self.data_read()
    }
}

type Act<T> = fn(&mut Device<T>);

/// What is done, and whether the wanted value is then the last one written to its register since the reset.
fn rows<T: Modelled>() -> [(&'static str, bool, Act<T>); 14] {
    let set: Act<T> = |d| d.write(REGISTER, VALUE);
    [
        ("nothing", false, |_| ()),
        ("the value written", true, set),
        ("another value after it", false, |d| {
            d.write(REGISTER, VALUE);
            d.data_write(VALUE ^ 1);
        }),
        ("another value before it", true, |d| {
            d.write(REGISTER, VALUE ^ 1);
            d.data_write(VALUE);
        }),
        ("the value written to another register", false, |d| d.write(REGISTER + 1, VALUE)),
        ("another register written after it", true, |d| {
            d.write(REGISTER, VALUE);
            d.write(REGISTER + 1, VALUE ^ 1);
        }),
        ("a reset after it", false, |d| {
            d.write(REGISTER, VALUE);
            d.step(RESET);
        }),
        ("steps 5 and 6 after it", true, |d| {
            d.write(REGISTER, VALUE);
            d.steps(&[PAUSE, OFF]);
        }),
        ("its address alone", false, |d| d.address_write(REGISTER)),
        ("reads after it", true, |d| {
            d.write(REGISTER, VALUE);
            d.data_read();
            d.address_read();
        }),
        ("a longer write of it", false, |d| {
            d.address_write(REGISTER);
            d.steps(&data_frame(Kind::DataWrite, 1, u32::from(VALUE) * 0x0101));
        }),
        ("a longer write after it", true, |d| {
            d.write(REGISTER, VALUE);
            d.steps(&data_frame(Kind::DataWrite, 3, 0));
        }),
        ("0x00 written", false, |d| d.write(REGISTER, 0x00)),
        ("the value twice", true, |d| {
            d.write(REGISTER, VALUE);
            d.data_write(VALUE);
        }),
    ]
}

/// Whether the interface is on or off makes no difference, nor do the keys after it.
fn last_values<T: Modelled>(_: &mut Run) -> Checked {
    let mut tally = Tally::default();
    for (done, met, act) in rows::<T>() {
        for on_before in [false, true] {
            for command in [PAGE_ERASE, BLOCK_WRITE] {
                let mut device = wanting::<T>(&[(REGISTER, VALUE)]);
                if on_before {
                    device.turn_on();
                }
                act(&mut device);
                // a reset has turned it off again
                device.turn_on();
                let inputs = format!("{done}, interface on before: {on_before}, command {command:#04x}");
                tally.gives(&inputs, if met { OKAY } else { FAILED }, device.answer(command))?;
            }
        }
    }
    for value in [0x00, 0xFF] {
        let mut device = wanting::<T>(&[(REGISTER, value)]);
        device.turn_on();
        tally.gives("nothing written is no value", FAILED, device.answer(PAGE_ERASE))?;
        device.write(REGISTER, value);
        tally.gives("and this one is", OKAY, device.answer(PAGE_ERASE))?;
    }
    Ok(tally.0)
}

fn every_value<T: Modelled>(_: &mut Run) -> Checked {
    let mut tally = Tally::default();
    for register in (3..=255).filter(|&register| register != SETTINGS.fpdat) {
        let mut device = wanting::<T>(&[(register, VALUE)]);
        device.turn_on();
        let inputs = format!("register {register:#04x}");
        tally.gives(&inputs, FAILED, device.answer(PAGE_ERASE))?;
        device.write(register, VALUE);
        tally.gives(&inputs, OKAY, device.answer(PAGE_ERASE))?;
    }
    for wanted in 0..=255 {
        for value in [wanted, wanted ^ 1, wanted ^ 0x80, !wanted, 0, 255] {
            let mut device = wanting::<T>(&[(REGISTER, wanted)]);
            device.turn_on();
            device.write(REGISTER, value);
            let status = if value == wanted { OKAY } else { FAILED };
            tally.gives(&format!("wanted {wanted}, written {value}"), status, device.answer(PAGE_ERASE))?;
        }
    }
    Ok(tally.0)
}

/// Each pair must be met at once; a pair twice is as once, and a register with two values is never as wanted.
fn lists<T: Modelled>(_: &mut Run) -> Checked {
    let (a, b, c, d) = ((3, 1), (4, 2), (5, 3), (255, 4));
    let (other_a, low) = ((3, 9), 2);
    let rows: [(&[(u8, u8)], &[(u8, u8)], bool); 13] = [
        (&[], &[], true),
        (&[], &[a], true),
        (&[a, b, c, d], &[a, b, c, d], true),
        (&[a, b, c, d], &[d, b, a, c], true),
        (&[a, b, c, d], &[a, b, c], false),
        (&[d, c, b, a], &[a, b, d], false),
        (&[a, b], &[other_a, a, b], true),
        (&[a, b], &[a, b, other_a], false),
        (&[a, a], &[a], true),
        (&[a, b, a, b], &[b, a], true),
        (&[a, other_a], &[a, other_a], false),
        (&[other_a, a], &[a, other_a], false),
        (&[a, b, other_a], &[a, b, other_a, a], false),
    ];
    let mut tally = Tally::default();
    for (wanted, written, met) in rows {
        let mut device = wanting::<T>(wanted);
        // what is not named is not looked at
        device.wanted.registers[wanted.len()..].fill(low);
        device.turn_on();
        written.iter().for_each(|&(register, value)| device.write(register, value));
        let inputs = format!("wanted {wanted:?}, written {written:?}");
        tally.gives(&inputs, if met { OKAY } else { FAILED }, device.answer(PAGE_ERASE))?;
    }
    Ok(tally.0)
}

/// Status 0x00, the end of the command, and nothing else: block reads and unknown commands are as ever.
fn turned_away<T: Modelled>(_: &mut Run) -> Checked {
    let mut tally = Tally::default();
    let mut device = wanting::<T>(&[(REGISTER, VALUE)]);
    device.turn_on();
    for command in [PAGE_ERASE, BLOCK_WRITE] {
        tally.gives("turned away", FAILED, device.answer(command))?;
        tally.gives("one status only", 0, device.address_read())?;
        tally.gives("the next byte is a new command, an unknown one", FAILED, device.answer(0x01))?;
        for byte in [command, BLOCK_READ, 0x00, 0x00, 2] {
            device.data_write(byte);
        }
        for byte in [OKAY, 0xF0, 0xF0] {
            tally.gives("a block read", byte, device.data_read())?;
        }
        // a whole erase, and a whole block write
        for byte in [PAGE_ERASE, 0x00, 0x00, BLOCK_WRITE, 0x00, 0x00, 0x02, 0x00, 0x00] {
            device.data_write(byte);
        }
        tally.expect("flash", &vec![0xF0; 1024], &device.flash)?;
    }
    for (d, e) in [(0, 0), (3, 0), (0, 2), (200, 255)] {
        for command in [PAGE_ERASE, BLOCK_WRITE] {
            let mut device = wanting::<T>(&[(REGISTER, VALUE)]);
            device.turn_on();
            device.address_write(SETTINGS.fpdat);
            // three keys have moved the place to 1: a WAIT without zeros, then d and e
            device.delays = vec![9, 0, d, e];
            device.data_write(command);
            let inputs = format!("command {command:#04x}, d {d}, e {e}");
            for _ in 0..d {
                tally.gives(&inputs, IN_BUSY, device.address_read())?;
            }
            for _ in 0..e {
                tally.gives(&inputs, 0, device.address_read())?;
            }
            tally.gives(&inputs, OUT_READY, device.address_read())?;
        }
    }
    Ok(tally.0)
}

/// Wanted registers are looked at when the command byte is put, and writes to them count among the key
/// writes.
fn meanwhile<T: Modelled>(_: &mut Run) -> Checked {
    let mut tally = Tally::default();
    for (bytes, flash) in [
        (&[PAGE_ERASE, 0x00, 0x00][..], vec![0xFF; 512]),
        (&[BLOCK_WRITE, 0x00, 0x00, 0x02, 0x30, 0x50], [[0x30, 0x50].to_vec(), vec![0xF0; 510]].concat()),
    ] {
        let flash = [flash, vec![0xF0; 512]].concat();
        for other_after in 1..bytes.len() {
            let mut device = wanting::<T>(&[(REGISTER, VALUE)]);
            device.turn_on();
            device.write(REGISTER, VALUE);
            device.address_write(SETTINGS.fpdat);
            bytes[..other_after].iter().for_each(|&byte| device.data_write(byte));
            device.write(REGISTER, VALUE ^ 1);
            device.address_write(SETTINGS.fpdat);
            bytes[other_after..].iter().for_each(|&byte| device.data_write(byte));
            let inputs = format!("puts {bytes:02x?}, another value after {other_after}");
            tally.gives(&inputs, OKAY, device.data_read())?;
            tally.expect(&inputs, &flash, &device.flash)?;
            tally.gives("the next command is turned away", FAILED, device.answer(bytes[0]))?;
        }
    }
    let mut device = wanting::<T>(&[(REGISTER, VALUE)]);
    device.turn_on();
    tally.gives("turned away", FAILED, device.answer(PAGE_ERASE))?;
    device.write(REGISTER, VALUE);
    tally.gives("the page is then an unknown command", FAILED, device.answer(0x01))?;
    tally.gives("and an erase is taken", OKAY, device.answer(PAGE_ERASE))?;

    for between in 0..=KEYS.len() {
        let mut device = wanting::<T>(&[(REGISTER, VALUE)]);
        for (number, key) in KEYS.into_iter().enumerate() {
            if number == between {
                device.write(REGISTER, VALUE);
            }
            device.address_write(FPCTL);
            device.data_write(key);
        }
        if between == KEYS.len() {
            device.write(REGISTER, VALUE);
        }
        device.step(PAUSE);
        device.address_write(SETTINGS.fpdat);
        // with the interface on this is the status, else the address
        let status = if between == 0 { 0 } else { SETTINGS.fpdat };
        tally.gives(
            &format!("a wanted register written before key {between}"),
            status,
            device.address_read(),
        )?;
    }
    Ok(tally.0)
}

/// How a session of the proved code goes on against the proved target: until it ends, or the page number of
/// its first erase is put.
struct Gone {
    number: u32,
    erases: bool,
    flash: Vec<u8>,
}

fn gone(settings: &Settings, wanted: &Pairs, image: &[u8], flash: &[u8], whole: bool) -> Gone {
    let mut device: Device<Proved> = Device::new(*settings, flash.to_vec(), Vec::new());
    device.wanted = *wanted;
    let mut record = calls::open(&[0; RECORD_LEN], image, settings, 0).record;
    let mut step = FIRST_STEP;
    loop {
        let reply = device.step(step);
        let (answer, next) = calls::advance_once(&mut record, image, reply);
        step = next;
        // stage 1 is an erase, whose act 5 puts the page
        let erases = record[10] == 1 && record[13] == 5;
        if answer.number != numbers::RUNNING || erases && !whole {
            return Gone { number: answer.number, erases, flash: device.flash };
        }
    }
}

/// Each wanted pair is the last of the settings' pairs with its register.
pub fn premise(pairs: &[(u8, u8)], wanted: &[(u8, u8)]) -> bool {
    wanted.iter().all(|pair| pairs.iter().rfind(|written| written.0 == pair.0) == Some(pair))
}

/// Every list of at most so many pairs out of these.
fn lists_of(all: &[(u8, u8)], most: usize) -> Vec<Vec<(u8, u8)>> {
    let mut made: Vec<Vec<(u8, u8)>> = vec![vec![]];
    let mut from = 0;
    for _ in 0..most {
        let until = made.len();
        for at in from..until {
            for &pair in all {
                made.push(made[at].iter().copied().chain([pair]).collect());
            }
        }
        from = until;
    }
    made
}

/// The session's first erase goes on exactly if the premise holds; else it ends with 13, and the flash is as
/// before.
fn small_lists(run: &mut Run) -> Checked {
    let all = [(3, 0), (3, 1), (4, 0), (4, 1)];
    let (flash, image) = (run.random.bytes(1024), run.random.bytes(512));
    let most = if run.long { 4 } else { 3 };
    let wanted_lists = lists_of(&all, most - 1);
    let mut cases = 0;
    for pairs in lists_of(&all, most) {
        for wanted in &wanted_lists {
            let settings = Settings { pairs: Pairs::of(&pairs), ..SETTINGS };
            let came = gone(&settings, &Pairs::of(wanted), &image, &flash, false);
            let met = premise(&pairs, wanted);
            let number = if met { numbers::RUNNING } else { numbers::BAD_STATUS };
            let inputs = || format!("settings' pairs {pairs:?}, wanted {wanted:?}");
            expect((number, met), (came.number, came.erases), inputs)?;
            expect_bytes("flash", &flash, &came.flash, inputs)?;
            cases += 1;
        }
    }
    Ok(cases)
}

/// Met: done, with the image in its page and all else as before. Not met: 13, and all as before.
fn whole_sessions(run: &mut Run) -> Checked {
    let cases = run.cases(60, 2_000);
    for case in 0..cases {
        let random = &mut run.random;
        let pairs = random_pairs(random, SETTINGS.fpdat);
        let settings = Settings { pairs, ..SETTINGS };
        let met = case % 2 == 0;
        let wanted = if met { met_by(&pairs, random) } else { not_met_by(&pairs, SETTINGS.fpdat, random) };
        let (flash, image) = (random.bytes(1024), random.bytes(512));
        let inputs = || format!("{settings:?}, wanted {wanted:?}");
        let named = |pairs: &Pairs| pairs.named().collect::<Vec<_>>();
        expect(met, premise(&named(&pairs), &named(&wanted)), || format!("the lists drawn, {}", inputs()))?;
        let came = gone(&settings, &wanted, &image, &flash, true);
        let (number, after) = if met {
            (numbers::DONE, [&image, &flash[512..]].concat())
        } else {
            (numbers::BAD_STATUS, flash.clone())
        };
        expect(number, came.number, inputs)?;
        expect_bytes("flash", &after, &came.flash, inputs)?;
        own_session(&settings, &wanted, &image, &flash, number, &after)?;
    }
    Ok(cases)
}

/// The same of our own session and target.
fn own_session(
    settings: &Settings,
    wanted: &Pairs,
    image: &[u8],
    flash: &[u8],
    number: u32,
    after: &[u8],
) -> Result<(), Failure> {
    let mut device = Device::fresh(*settings, flash.to_vec(), Vec::new());
    device.wanted = *wanted;
    let mut session = Session::open(settings, 0, image).expect("good settings");
    device.run(&mut session, image, |_, _| ());
    let inputs = || format!("our own, {settings:?}, wanted {wanted:?}");
    expect(number, session.outcome().number, inputs)?;
    expect_bytes("flash", after, &device.flash, inputs)
}
