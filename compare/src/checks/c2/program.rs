//! Document 01's program, run on images of every kind of length: its three lines against those that our own
//! session and target come to.

use std::io::{ErrorKind, Write};
use std::path::Path;
use std::process::{Command, Output, Stdio};
use std::{io, thread};

use crate::harness::c2::device::Device;
use crate::harness::check::{Check, Run};
use crate::harness::report::{expect, Checked, Failure};
use crate::second::c2::session::{Session, WAIT_LIMIT};
use crate::second::numbers;
use crate::second::settings::{Pairs, Settings};

pub const CHECKS: &[Check] = &[Check { name: "program: images of every kind of length", run: lengths }];

/// The program's model: 32 pages of 512, a flash all 0, no delays; an old unit that wants no registers
/// written.
const SETTINGS: Settings = Settings {
    device_id: 0x04,
    fpdat: 0xB4,
    page_size: 512,
    page_count: 32,
    wait_limit: WAIT_LIMIT,
    pairs: Pairs::NONE,
};
const FLASH_LEN: usize = 16_384;

/// Empty, no whole page, one page, some, all, one byte too many (where 5 comes before 4), far too many.
const LENGTHS: [usize; 12] = [0, 1, 511, 512, 513, 1_024, 1_536, 16_383, 16_384, 16_385, 16_896, 1_000_000];

fn lengths(run: &mut Run) -> Checked {
    let program = run.program.clone().expect("this check is asked for with a program");
    for len in LENGTHS {
        let image = run.random.bytes(len);
        let inputs = || format!("{} on an image of {len} bytes", program.display());
        let output = output_of(&program, &image).map_err(|error| Failure {
            inputs: inputs(),
            expected: "a program that runs".to_string(),
            came: error.to_string(),
        })?;
        expect(lines(&image), String::from_utf8_lossy(&output.stdout).into_owned(), inputs)?;
        expect(Some(0), output.status.code(), || format!("{}: exit status", inputs()))?;
    }
    Ok(LENGTHS.len() as u64)
}

/// The three lines; a refusal has no pages and no replies.
fn lines(image: &[u8]) -> String {
    let (pages, replies, outcome) = match open(image) {
        Err(number) => (0, 0, number),
        Ok(mut session) => {
            let mut device = Device::fresh(SETTINGS, vec![0; FLASH_LEN], Vec::new());
            let replies = device.run(&mut session, image, |_, _| ());
            (image.len() / SETTINGS.page_size as usize, replies, session.outcome().number)
        }
    };
    format!("pages {pages}\nreplies {replies}\noutcome {outcome}\n")
}

/// Input longer than the flash counts as 5, whole pages or not.
fn open(image: &[u8]) -> Result<Session, u32> {
    if image.len() > FLASH_LEN {
        return Err(numbers::PAST_LAST_PAGE);
    }
    Session::open(&SETTINGS, 0, image)
}

/// Runs the program with this on its standard input.
fn output_of(program: &Path, input: &[u8]) -> io::Result<Output> {
    let mut child = Command::new(program).stdin(Stdio::piped()).stdout(Stdio::piped()).spawn()?;
    let mut stdin = child.stdin.take().expect("its standard input is a pipe");
    thread::scope(|scope| {
        // beside the reading, for either pipe may fill up; dropping our end of this one closes it
        let written = scope.spawn(move || write_all(&mut stdin, input));
        let output = child.wait_with_output();
        written.join().expect("writing does not panic")?;
        output
    })
}

/// A program need not read more than it takes.
fn write_all(stdin: &mut impl Write, input: &[u8]) -> io::Result<()> {
    match stdin.write_all(input) {
        Err(error) if error.kind() == ErrorKind::BrokenPipe => Ok(()),
        written => written,
    }
}
