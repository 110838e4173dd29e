//! Intel HEX: the proved reader and writer on fresh memory, beside our own.

use proved::hex;

use crate::harness::lent::{first_stray, Lent};
use crate::harness::report::{expect, expect_bytes, Failure};
use crate::second::hex::{reader, writer};
use crate::second::settings::Settings;

/// What a buffer holds before it is filled: no byte of an image by chance, and no two neighbours alike.
fn unfilled(len: usize) -> Vec<u8> {
    (0..len).map(|i| (i % 251) as u8).collect()
}

/// The buffer afterwards: what was written, and every other byte as it was.
fn filled(written: &[u8], len: usize) -> Vec<u8> {
    let mut buffer = unfilled(len);
    buffer[..written.len()].copy_from_slice(written);
    buffer
}

fn told(settings: &Settings, room: usize, file: &[u8]) -> String {
    format!("{settings:?}, room {room}, file {:?}", String::from_utf8_lossy(file))
}

/// Reads the file on both sides into a buffer of this length, and gives what came.
pub fn read(settings: &Settings, file: &[u8], room: usize) -> Result<hex::HexImage, Failure> {
    let inputs = || told(settings, room, file);
    let before = unfilled(room);
    let (lent, mut image) = (Lent::copy(file), Lent::copy(&before));
    let came = hex::read(settings.into(), lent.bytes(), image.bytes_mut());
    let stray = first_stray(&[(lent.kept(), "the file"), (image.guards_kept(), "beside the image")]);
    let own = reader::read(settings, file, room);
    let (expected, written) = match &own {
        Ok(reader::Image { first_page, bytes }) => {
            let length = bytes.len() as u64;
            (hex::HexImage { number: 0, line: 0, first_page: *first_page, length }, bytes.as_slice())
        }
        Err(reader::Refused { number, line }) => {
            (hex::HexImage { number: *number, line: *line, first_page: 0, length: 0 }, [].as_slice())
        }
    };
    expect(expected, came, inputs)?;
    expect(None, stray, inputs)?;
    expect_bytes("image", &filled(written, room), image.bytes(), inputs)?;
    Ok(came)
}

/// Writes the image on both sides into a buffer of this length, and gives the file.
pub fn write(settings: &Settings, first_page: u32, image: &[u8], room: usize) -> Result<Vec<u8>, Failure> {
    let inputs = || format!("{settings:?}, first page {first_page}, image of {}, room {room}", image.len());
    let before = unfilled(room);
    let (lent, mut file) = (Lent::copy(image), Lent::copy(&before));
    let came = hex::write(settings.into(), first_page, lent.bytes(), file.bytes_mut());
    let stray = first_stray(&[(lent.kept(), "the image"), (file.guards_kept(), "beside the file")]);
    let own = writer::write(settings, first_page, image, room);
    let number = own.as_ref().err().copied().unwrap_or(0);
    let written = own.unwrap_or_default();
    expect(hex::Written { number, length: written.len() as u64 }, came, inputs)?;
    expect(None, stray, inputs)?;
    expect_bytes("file", &filled(&written, room), file.bytes(), inputs)?;
    Ok(written)
}
