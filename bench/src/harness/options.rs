//! What the command line asks for.

use crate::rows::Row;

/// Some hundred sessions without delays; one with a list of 255s.
const REPEAT: usize = 3200;
const QUICK_REPEAT: usize = 160;

/// The delay lists by their names.
pub const LISTS: [(&str, &[u8]); 2] = [("none", &[]), ("255", &[255; 256])];

#[derive(Clone, Copy)]
pub enum Side {
    Plain,
    Ours,
    Kept,
}

pub struct Options {
    pub repeat: usize,
    pub only: Option<(Side, Row)>,
    pub delays: &'static [u8],
}

impl Options {
    pub fn from_arguments(mut arguments: impl Iterator<Item = String>) -> Result<Options, String> {
        let mut options = Options { repeat: REPEAT, only: None, delays: &[] };
        while let Some(argument) = arguments.next() {
            if argument == "--quick" {
                options.repeat = QUICK_REPEAT;
                continue;
            }
            let value = arguments.next().ok_or(format!("{argument} is unknown or wants a value"))?;
            match argument.as_str() {
                "--repeat" => options.repeat = repetitions(&value)?,
                "--only" => options.only = Some(side_and_row(&value)?),
                "--delays" => options.delays = delay_list(&value)?,
                _ => return Err(format!("{argument} is unknown")),
            }
        }
        Ok(options)
    }
}

fn repetitions(value: &str) -> Result<usize, String> {
    let repeat = value.parse().ok().filter(|&repeat| repeat > 0);
    repeat.ok_or(format!("{value} is no number of repetitions"))
}

fn side_and_row(value: &str) -> Result<(Side, Row), String> {
    let (side, row) = value.split_once(':').ok_or(format!("{value} is not SIDE:ROW"))?;
    let side = match side {
        "plain" => Side::Plain,
        "ours" => Side::Ours,
        "kept" => Side::Kept,
        _ => return Err(format!("{side} is neither plain, ours nor kept")),
    };
    let row = Row::ALL.into_iter().find(|known| known.name() == row).ok_or(format!("{row} is no row"))?;
    Ok((side, row))
}

fn delay_list(value: &str) -> Result<&'static [u8], String> {
    let list = LISTS.into_iter().find(|(name, _)| *name == value);
    list.map(|(_, delays)| delays).ok_or(format!("{value} is no delay list"))
}
