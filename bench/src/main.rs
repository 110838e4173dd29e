//! The same job in plain Rust and in the proved library, timed side by side.
//!
//!     bench [--quick] [--repeat N]
//!     bench --only SIDE:ROW [--delays none|255] [--repeat N]
//!
//! The second form runs one row of one side, untimed and unchecked, for a profiler: SIDE is plain, ours or
//! kept (the plain structs without the face), ROW many, few, one, target, loop or program.

mod checks;
mod dumps;
mod harness;
mod hex;
mod plain;
mod radio;
mod rows;

use std::hint::black_box;
use std::process::ExitCode;

use checks::{frames, sessions};
use harness::job::{Job, Recording, Wired};
use harness::measure::{self, Work, PIECE};
use harness::options::{Options, Side, LISTS};
use harness::ours::Library;
use harness::sides::Kept;
use harness::tables::Tables;
use plain::Plain;
use rows::Row;

fn work<'a>(side: Side, row: Row, job: &'a Job, recording: &'a Recording) -> Box<dyn Work + 'a> {
    match side {
        Side::Plain => row.work::<Plain>(job, recording),
        Side::Ours => row.work::<Library>(job, recording),
        Side::Kept => row.work::<Kept>(job, recording),
    }
}

/// Only as much of the session is recorded as the repetitions run, so that a profiler need not wait.
fn profile(side: Side, row: Row, options: &Options) {
    let job = black_box(Job::new(options.delays));
    let limit = options.repeat * PIECE;
    let recording = Wired::<Kept>::new(&job).record(&job, limit);
    let mut work = work(side, row, &job, &recording);
    let ran = measure::untimed(work.as_mut(), recording.replies.len(), options.repeat);
    println!("{ran} steps");
}

fn table(tables: &mut Tables, name: &str, delays: &[u8], repeat: usize) -> Result<(), String> {
    // The compiler is not to know what the job is.
    let job = black_box(Job::new(delays));
    let recording = sessions::recorded(&job)?;
    let steps = recording.replies.len();
    let more = format!(": {steps} steps to a session, {repeat} repetitions");
    tables.begin(&format!("16 KiB image, delays {name}"), &more, "ns a step");
    for row in Row::ALL {
        let mut plain = work(Side::Plain, row, &job, &recording);
        let mut ours = work(Side::Ours, row, &job, &recording);
        tables.row(row.title(), &measure::interleaved(plain.as_mut(), ours.as_mut(), steps, repeat));
    }
    scale(&job, &recording, repeat);
    Ok(())
}

/// The plain structs without the face, for scale.
fn scale(job: &Job, recording: &Recording, repeat: usize) {
    println!("\n| ns a step | plain structs, kept by the caller |");
    println!("|---|---|");
    for row in Row::KEPT {
        let mut kept = work(Side::Kept, row, job, recording);
        let summary = measure::alone(kept.as_mut(), recording.replies.len(), repeat);
        println!("| {} | {summary} |", row.title());
    }
}

fn run() -> Result<(), String> {
    let options = Options::from_arguments(std::env::args().skip(1))?;
    if let Some((side, row)) = options.only {
        profile(side, row, &options);
        return Ok(());
    }
    sessions::troubled_sessions_agree()?;
    frames::targets_agree()?;
    let mut tables = Tables::default();
    for (name, delays) in LISTS {
        table(&mut tables, name, delays, options.repeat)?;
    }
    dumps::table(&mut tables, options.repeat)?;
    hex::table(&mut tables, options.repeat)?;
    radio::table(&mut tables, options.repeat)?;
    tables.summary();
    Ok(())
}

fn main() -> ExitCode {
    match run() {
        Ok(()) => ExitCode::SUCCESS,
        Err(words) => {
            eprintln!("bench: {words}");
            ExitCode::FAILURE
        }
    }
}
