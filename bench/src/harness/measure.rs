//! Repetitions in turn, and what they come to.

use std::fmt;
use std::ops::Range;

use crate::harness::clock;

/// Steps to a repetition: more than a page takes without delays, so that every repetition erases, writes and
/// reads; and so few that the machine is alike for both sides of a pair.
pub const PIECE: usize = 1 << 15;

/// One side of a row: it goes through a session piece by piece.
pub trait Work {
    /// Back to the start of the session; not timed.
    fn restart(&mut self);
    fn run(&mut self, piece: Range<usize>);
}

/// What the figures of all repetitions come to.
pub struct Summary {
    min: f64,
    lower: f64,
    pub median: f64,
    upper: f64,
}

impl Summary {
    fn of(samples: impl Iterator<Item = f64>) -> Summary {
        let mut samples: Vec<f64> = samples.collect();
        samples.sort_by(f64::total_cmp);
        let at = |share: usize| samples[(samples.len() - 1) * share / 4];
        Summary { min: at(0), lower: at(1), median: at(2), upper: at(3) }
    }

    /// The median and the quartiles.
    pub fn quartiles(&self) -> String {
        format!("{:.2} ({:.2}-{:.2})", self.median, self.lower, self.upper)
    }
}

/// The median; then the least and the quartiles.
impl fmt::Display for Summary {
    fn fmt(&self, f: &mut fmt::Formatter) -> fmt::Result {
        write!(f, "{:.2} ({:.2}; {:.2}-{:.2})", self.median, self.min, self.lower, self.upper)
    }
}

/// One piece after the other, from the start again at the session's end.
fn pieces(steps: usize) -> impl Iterator<Item = Range<usize>> {
    let starts = (0..steps).step_by(PIECE);
    starts.map(move |start| start..steps.min(start + PIECE)).cycle()
}

/// One repetition. Not inlined, so that a profiler can be told to count here only.
#[inline(never)]
fn repetition(work: &mut dyn Work, piece: Range<usize>) {
    work.run(piece);
}

fn timed(work: &mut dyn Work, piece: Range<usize>) -> f64 {
    if piece.start == 0 {
        work.restart();
    }
    let steps = piece.len() as f64;
    let start = clock::nanoseconds();
    repetition(work, piece);
    (clock::nanoseconds() - start) / steps
}

/// What a row comes to: each side, and ours over plain taken pair by pair.
pub struct Comparison {
    pub plain: Summary,
    pub ours: Summary,
    pub pairs: Summary,
}

/// Both sides in turn, so that whatever slows the machine for a while slows both.
pub fn interleaved(plain: &mut dyn Work, ours: &mut dyn Work, steps: usize, repeat: usize) -> Comparison {
    let time_both = |piece: Range<usize>| (timed(plain, piece.clone()), timed(ours, piece));
    let samples: Vec<(f64, f64)> = pieces(steps).take(repeat).map(time_both).collect();
    Comparison {
        plain: Summary::of(samples.iter().map(|&(plain, _)| plain)),
        ours: Summary::of(samples.iter().map(|&(_, ours)| ours)),
        pairs: Summary::of(samples.iter().map(|&(plain, ours)| ours / plain)),
    }
}

/// One side alone.
pub fn alone(work: &mut dyn Work, steps: usize, repeat: usize) -> Summary {
    Summary::of(pieces(steps).take(repeat).map(|piece| timed(work, piece)))
}

/// One side alone, untimed: for a profiler. Gives the steps that it ran.
pub fn untimed(work: &mut dyn Work, steps: usize, repeat: usize) -> usize {
    let mut ran = 0;
    for piece in pieces(steps).take(repeat) {
        if piece.start == 0 {
            work.restart();
        }
        ran += piece.len();
        repetition(work, piece);
    }
    ran
}
