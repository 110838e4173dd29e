//! The target's call in plain Rust: its state is a struct of numbers, tested and taken apart at every step.

use proved::c2::{Pairs, Settings};
use proved::c2_target::{Replied, State};

use super::{Access, Command, Effect, Field, Heard, Output, Rest, Target, COMMAND_FAILED};
use crate::plain::wire::{check_pairs, Ranges, Refusal, Step, BLOCK, COMMAND_OK, KEYS};

/// One step of the target whose state this is.
#[inline(never)]
pub fn step(
    settings: Settings,
    wanted: Pairs,
    state: State,
    flash: &mut [u8],
    delays: &[u8],
    step: u8,
) -> Replied {
    match stepped(settings, wanted, &state, flash, delays, step) {
        Ok((reply, target)) => Replied { number: 0, reply: reply.into(), target },
        Err(refusal) => Replied { number: refusal.into(), reply: 1, target: state },
    }
}

fn stepped(
    settings: Settings,
    wanted: Pairs,
    state: &State,
    flash: &mut [u8],
    delays: &[u8],
    step: u8,
) -> Result<(u8, State), Refusal> {
    settings.check()?;
    check_pairs(&wanted, settings.fpdat)?;
    if flash.len() != settings.flash_len() {
        return Err(Refusal::NoPoint);
    }
    let mut target = Target::of(settings, wanted, state).ok_or(Refusal::NoPoint)?;
    let reply = target.reply(Step::try_from(step)?, flash, delays);
    Ok((reply, target.state()))
}

fn flag(number: u8) -> Option<bool> {
    match number {
        0 => Some(false),
        1 => Some(true),
        _ => None,
    }
}

impl Target {
    /// The target of a state, if there is one: numbers that are not in use are 0, and all three keys are
    /// counted only between two frames.
    fn of(settings: Settings, wanted: Pairs, state: &State) -> Option<Target> {
        let (keys, field) = (usize::from(state.keys), Field::of(state, &settings)?);
        let most_keys = if matches!(field, Field::Start) { KEYS.len() } else { KEYS.len() - 1 };
        if keys > most_keys {
            return None;
        }
        Some(Target {
            settings,
            wanted,
            address: state.address,
            interface_on: flag(state.on)?,
            collision: flag(state.collision)?,
            keys,
            met: [flag(state.met1)?, flag(state.met2)?, flag(state.met3)?, flag(state.met4)?],
            delay_place: state.place as usize,
            field,
            command: Command::of(state, &settings)?,
            output: Output::of(state, &settings)?,
            busy: state.busy,
            late: state.late,
        })
    }

    fn state(&self) -> State {
        let [met1, met2, met3, met4] = self.met.map(u8::from);
        let mut state = State {
            place: self.delay_place as u64,
            collision: self.collision.into(),
            address: self.address,
            on: self.interface_on.into(),
            keys: self.keys as u8,
            met1,
            met2,
            met3,
            met4,
            busy: self.busy,
            late: self.late,
            ..State::default()
        };
        self.field.store(&mut state);
        self.command.store(&mut state);
        self.output.store(&mut state);
        state
    }
}

impl Heard {
    /// Fewer bits than the field has, and no others in their value.
    fn of(width: u8, count: u8, value: u8) -> Option<Heard> {
        (count < width && value >> count == 0).then_some(Heard { value, count })
    }
}

impl Field {
    fn of(state: &State, settings: &Settings) -> Option<Field> {
        let State { point, heard, value, left, zeros, effect, byte, .. } = *state;
        let effect = Effect::of(effect, byte)?;
        Some(match (point, heard, value, left, zeros, effect) {
            (0, 0, 0, 0, 0, Effect::Nothing) => Field::Start,
            (1, _, _, 0, 0, Effect::Nothing) => Field::Ins(Heard::of(2, heard, value)?),
            (2, _, _, 0, 0, Effect::Nothing) => Field::Length(Access::Write, Heard::of(2, heard, value)?),
            (3, _, _, 0, 0, Effect::Nothing) => Field::Length(Access::Read, Heard::of(2, heard, value)?),
            (4, _, _, 0, 0, Effect::Nothing) => Field::Address(Heard::of(8, heard, value)?),
            (5, _, _, 0, 0, Effect::Nothing) => Field::Data(Heard::of(8, heard, value)?),
            (6, 0, 0, 1..=32, 0, Effect::Nothing) => Field::LongData { left },
            (7, 0, 0, _, 0, _) => Field::WaitBegins(Rest::of(left, effect)?),
            // the longest WAIT has a zero fewer than its limit, and its first strobe took one
            (8, 0, 0, _, _, _) if zeros < settings.wait_limit - 1 => {
                Field::Wait { zeros, rest: Rest::of(left, effect)? }
            }
            (9, 0, 0, 1..=32, 0, Effect::Nothing) => Field::Sent { value, left, effect },
            (9, 0, _, 1..=8, 0, Effect::CountRead | Effect::TakeOutput) if u16::from(value) >> left == 0 => {
                Field::Sent { value, left, effect }
            }
            (10, 0, 0, 0, 0, _) => Field::Stop(effect),
            _ => return None,
        })
    }

    fn store(self, state: &mut State) {
        match self {
            Field::Start => {}
            Field::Ins(heard) => heard.store(1, state),
            Field::Length(Access::Write, heard) => heard.store(2, state),
            Field::Length(Access::Read, heard) => heard.store(3, state),
            Field::Address(heard) => heard.store(4, state),
            Field::Data(heard) => heard.store(5, state),
            Field::LongData { left } => (state.point, state.left) = (6, left),
            Field::WaitBegins(rest) => {
                state.point = 7;
                rest.store(state);
            }
            Field::Wait { zeros, rest } => {
                (state.point, state.zeros) = (8, zeros);
                rest.store(state);
            }
            Field::Sent { value, left, effect } => {
                (state.point, state.value, state.left) = (9, value, left);
                effect.store(state);
            }
            Field::Stop(effect) => {
                state.point = 10;
                effect.store(state);
            }
        }
    }
}

impl Heard {
    fn store(self, point: u8, state: &mut State) {
        (state.point, state.heard, state.value) = (point, self.count, self.value);
    }
}

impl Rest {
    /// By the bits that are sent after the WAIT.
    fn of(left: u8, effect: Effect) -> Option<Rest> {
        match (left, effect) {
            (0, Effect::Nothing | Effect::Write(_)) => Some(Rest::Written(effect)),
            (8, Effect::TakeOutput) => Some(Rest::Read { length: 0 }),
            (16 | 24 | 32, Effect::Nothing) => Some(Rest::Read { length: left / 8 - 1 }),
            _ => None,
        }
    }

    fn store(self, state: &mut State) {
        match self {
            Rest::Written(effect) => effect.store(state),
            Rest::Read { length: 0 } => {
                state.left = 8;
                Effect::TakeOutput.store(state);
            }
            Rest::Read { length } => state.left = 8 * (length + 1),
        }
    }
}

impl Effect {
    fn of(effect: u8, byte: u8) -> Option<Effect> {
        match (effect, byte) {
            (0, 0) => Some(Effect::Nothing),
            (1, _) => Some(Effect::SetAddress(byte)),
            (2, _) => Some(Effect::Write(byte)),
            (3, 0) => Some(Effect::CountRead),
            (4, 0) => Some(Effect::TakeOutput),
            _ => None,
        }
    }

    fn store(self, state: &mut State) {
        (state.effect, state.byte) = match self {
            Effect::Nothing => (0, 0),
            Effect::SetAddress(address) => (1, address),
            Effect::Write(byte) => (2, byte),
            Effect::CountRead => (3, 0),
            Effect::TakeOutput => (4, 0),
        };
    }
}

impl Access {
    fn of(write: u8) -> Option<Access> {
        flag(write).map(|write| if write { Access::Write } else { Access::Read })
    }
}

/// A block inside the flash: where it starts, and its bytes.
fn block(at: u16, len: u16, settings: &Settings) -> Option<(usize, usize)> {
    let (at, len) = (usize::from(at), usize::from(len));
    ((1..=BLOCK).contains(&len) && at + len <= settings.flash_len()).then_some((at, len))
}

impl Command {
    fn of(state: &State, settings: &Settings) -> Option<Command> {
        let State { command, write, page, high, start, rest, .. } = *state;
        Some(match (command, write, page, high, start, rest) {
            (0, 0, 0, 0, 0, 0) => Command::New,
            (1, 0, 0, 0, 0, 0) => Command::ErasePage,
            (2, 0, _, 0, 0, 0) if u32::from(page) < settings.page_count => Command::EraseConfirm { page },
            (3, _, 0, 0, 0, 0) => Command::High(Access::of(write)?),
            (4, _, 0, _, 0, 0) => Command::Low(Access::of(write)?, high),
            (5, _, 0, 0, _, 0) => Command::LengthCode(Access::of(write)?, start.into()),
            (6, 0, 0, 0, _, _) => {
                let (at, left) = block(start, rest, settings)?;
                Command::Byte { at, left }
            }
            (7, 0, 0, 0, 0, 1..=256) => Command::BytePastEnd { left: rest.into() },
            _ => return None,
        })
    }

    fn store(self, state: &mut State) {
        let write = |access| u8::from(matches!(access, Access::Write));
        match self {
            Command::New => {}
            Command::ErasePage => state.command = 1,
            Command::EraseConfirm { page } => (state.command, state.page) = (2, page),
            Command::High(access) => (state.command, state.write) = (3, write(access)),
            Command::Low(access, high) => {
                (state.command, state.write, state.high) = (4, write(access), high);
            }
            Command::LengthCode(access, at) => {
                (state.command, state.write, state.start) = (5, write(access), at as u16);
            }
            Command::Byte { at, left } => {
                (state.command, state.start, state.rest) = (6, at as u16, left as u16);
            }
            Command::BytePastEnd { left } => (state.command, state.rest) = (7, left as u16),
        }
    }
}

impl Output {
    fn of(state: &State, settings: &Settings) -> Option<Output> {
        let State { output, passed, next, count, .. } = *state;
        Some(match (output, passed, next, count) {
            (0, 0, 0, 0) => Output::None,
            (1, 0, 0, 0) => Output::Status(COMMAND_FAILED),
            (1, 1, 0, 0) => Output::Status(COMMAND_OK),
            (2, 0, _, _) => {
                let (at, len) = block(next, count, settings)?;
                Output::StatusThenBlock { at, len }
            }
            (3, 0, _, _) => {
                let (at, len) = block(next, count, settings)?;
                Output::Block { at, len }
            }
            _ => return None,
        })
    }

    fn store(self, state: &mut State) {
        match self {
            Output::None => {}
            Output::Status(status) => {
                (state.output, state.passed) = (1, u8::from(status == COMMAND_OK));
            }
            Output::StatusThenBlock { at, len } => {
                (state.output, state.next, state.count) = (2, at as u16, len as u16);
            }
            Output::Block { at, len } => {
                (state.output, state.next, state.count) = (3, at as u16, len as u16);
            }
        }
    }
}
