//! The modelled module, message by message.

use proved::radio;

use super::{filled, unfilled};
use crate::harness::lent::{first_stray, Lent};
use crate::harness::report::{expect, expect_bytes, hex, Failure};
use crate::second::radio::module::{self, State};

fn state(target: radio::Target) -> State {
    State { point: target.point, page: target.page, left: target.left }
}

fn target(state: State) -> radio::Target {
    radio::Target { point: state.point, page: state.page, left: state.left }
}

/// A module on both sides: our own flash and state, which the proved step is compared with each time.
pub struct Module {
    pub flash: Vec<u8>,
    pub state: State,
}

impl Module {
    pub fn fresh(flash: Vec<u8>) -> Result<Module, Failure> {
        expect(module::FRESH, state(radio::fresh()), || "a fresh module".into())?;
        Ok(Module { flash, state: module::FRESH })
    }

    /// One message with this room for the reply; the reply, or the number that refused it.
    pub fn step(&mut self, message: &[u8], room: usize) -> Result<Result<Vec<u8>, u32>, Failure> {
        let (from, protection) = (self.state, self.flash.get(0x7F01).copied());
        let inputs = || {
            let long = self.flash.len();
            format!(
                "{from:?}, flash of {long}, its byte 0x7F01 {protection:?}, room {room}, message of {}: {}",
                message.len(),
                hex(&message[..message.len().min(16)])
            )
        };
        let before = unfilled(room);
        let (mut flash, lent, mut out) = (Lent::copy(&self.flash), Lent::copy(message), Lent::copy(&before));
        let came = radio::step(target(from), flash.bytes_mut(), lent.bytes(), out.bytes_mut());
        let stray = first_stray(&[
            (lent.kept(), "the message"),
            (flash.guards_kept(), "beside the flash"),
            (out.guards_kept(), "beside the reply"),
        ]);
        let mut own = self.flash.clone();
        let taken = module::step(from, &mut own, message, room);
        let (number, reply, next) = match &taken {
            Ok(taken) => (0, taken.reply.as_slice(), taken.state),
            Err(number) => (*number, [].as_slice(), from),
        };
        let expected = radio::Replied { number, reply: reply.len() as u32, target: target(next) };
        expect(expected, came, inputs)?;
        expect(None, stray, inputs)?;
        expect_bytes("reply buffer", &filled(reply, room), out.bytes(), inputs)?;
        expect_bytes("flash", &own, flash.bytes(), inputs)?;
        drop(flash);
        (self.flash, self.state) = (own, next);
        Ok(taken.map(|taken| taken.reply))
    }
}
