//! The proved frames, in the terms of our own.

use proved::c2_wire::{self, step, Moved, STOPPED, WAIT_LIMIT, WITHIN};

use crate::second::c2::frames::{End, Kind, Place, Played};

pub fn follow(ins: u8, place: Place, reply: u8, limit: usize) -> Moved {
    c2_wire::follow(ins, place.strobe, place.count, place.bits, reply, limit)
}

/// The reply leaves a frame at this place.
pub fn within(place: Place) -> Moved {
    Moved { kind: WITHIN, strobe: place.strobe, count: place.count, bits: place.bits }
}

/// The reply ends a frame.
pub fn ended(end: End) -> Moved {
    match end {
        End::Passed(byte) => Moved { kind: STOPPED, strobe: 0, count: 0, bits: usize::from(byte) },
        End::WaitLimit => Moved { kind: WAIT_LIMIT, strobe: 0, count: 0, bits: 0 },
    }
}

/// How the frame ended; a byte too wide for one is no end that a frame has.
fn end_of(moved: &Moved) -> Option<End> {
    match moved.kind {
        STOPPED => u8::try_from(moved.bits).ok().map(End::Passed),
        WAIT_LIMIT => Some(End::WaitLimit),
        _ => None,
    }
}

/// Plays a frame through the proved code, as far as the replies reach or until it leaves the frame.
pub fn play(kind: Kind, byte: u8, replies: &[u8], limit: usize) -> Played {
    let ins = kind.ins();
    let mut place = Place::default();
    let mut steps = vec![step(ins, byte, place.strobe)];
    for &reply in replies {
        let moved = follow(ins, place, reply, limit);
        if moved.kind != WITHIN {
            return Played { steps, end: end_of(&moved) };
        }
        place = Place { strobe: moved.strobe, count: moved.count, bits: moved.bits };
        steps.push(step(ins, byte, place.strobe));
    }
    Played { steps, end: None }
}
