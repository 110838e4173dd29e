//! Intel HEX: directed files with the answers that document 02 gives, every place of a line damaged, records
//! of every shape, damaged files, and the writer.

use crate::harness::c2::pairs::{any_pairs, random_pairs};
use crate::harness::check::{Check, Run};
use crate::harness::hex::{read, write};
use crate::harness::random::Random;
use crate::harness::report::{expect, expect_bytes, Checked, Failure};
use crate::second::hex::writer::line;
use crate::second::settings::{Pairs, Settings};

pub const CHECKS: &[Check] = &[
    Check { name: "hex: files with the answers that the paper gives", run: directed },
    Check { name: "hex: files in the shapes of other tools", run: shapes },
    Check { name: "hex: every byte of a line changed to every other value", run: changed },
    Check { name: "hex: edges of the buffer, the flash and 16 bits", run: edges },
    Check { name: "hex: random records, in any order, also over each other", run: records },
    Check { name: "hex: damaged files", run: damaged },
    Check { name: "hex: images written, and read back", run: written },
];

const END: &str = ":00000001FF\n";

fn settings(page_size: u32, page_count: u32) -> Settings {
    Settings { device_id: 4, fpdat: 0xB4, page_size, page_count, wait_limit: 20, pairs: Pairs::NONE }
}

/// The number and the line that a file gets, in a flash of two pages and a buffer of as many.
fn answer(file: &[u8], number: u32, line: u64) -> Result<(), Failure> {
    let came = read(&settings(512, 2), file, 1_024)?;
    expect((number, line), (came.number, came.line), || format!("file {:?}", String::from_utf8_lossy(file)))
}

fn directed(_: &mut Run) -> Checked {
    let one = line(0x200, 0, &[0x41], "\n");
    let bad_sum = ":0102000041BD\n";
    let past = line(0x3FF, 0, &[1, 2], "\n");
    let nothing = line(0xFFFF, 0, &[], "\n");
    let table: &[(String, u32, u64)] = &[
        (format!("{one}{END}"), 0, 0),
        (format!("{}{END}", one.to_lowercase()), 0, 0),
        (format!("{one}{END}").replace('\n', "\r\n"), 0, 0),
        (format!("{}{END}", one.replace('\n', "\r\n")), 0, 0),
        // no line, no end, no data
        (String::new(), 24, 0),
        (one.clone(), 24, 0),
        (END.into(), 25, 0),
        (format!("{nothing}{END}"), 25, 0),
        (format!("{one}{nothing}{END}"), 0, 0),
        // 20: the colon, the digits, their number, the line end, blanks, text
        ("\n".into(), 20, 1),
        ("\r\n".into(), 20, 1),
        (format!("{one}\n{END}"), 20, 2),
        (format!("{one}{END}\n"), 20, 3),
        (format!("{one}{END} "), 20, 3),
        (format!("{one}{END}\0"), 20, 3),
        (format!("{one}{END}\x1A"), 20, 3),
        (format!("{one}:00000001FF"), 20, 2),
        (format!("{one}:00000001FF\r"), 20, 2),
        (format!("{one}:00000001FF\r\r\n"), 20, 2),
        (format!("{one} {END}"), 20, 2),
        (format!("{one}:00000001FF \n"), 20, 2),
        (format!("{one};comment\n{END}"), 20, 2),
        (format!("{}{END}", one.replace('\n', "\r")), 20, 1),
        (":\n".into(), 20, 1),
        (":00000001F\n".into(), 20, 1),
        (":00000001FF0\n".into(), 20, 1),
        (":01000001FF\n".into(), 20, 1),
        ("::00000001FF\n".into(), 20, 1),
        (":0000000gFF\n".into(), 20, 1),
        // 21, also in an end record, and before 22 and 23
        (format!("{bad_sum}{END}"), 21, 1),
        (format!("{one}:00000001FE\n"), 21, 2),
        (format!("{one}{bad_sum}{END}"), 21, 2),
        (format!("{one}:0000000200\n{END}"), 21, 2),
        // 22: types, an end record with length or address, data past the last flash byte
        (format!("{one}{}{END}", line(0, 2, &[0, 0], "\n")), 22, 2),
        (format!("{one}{}{END}", line(0, 4, &[0, 0], "\n")), 22, 2),
        (format!("{one}{}{END}", line(0, 5, &[0, 0, 0, 0], "\n")), 22, 2),
        (format!("{one}{}", line(1, 1, &[], "\n")), 22, 2),
        (format!("{one}{}", line(0, 1, &[0], "\n")), 22, 2),
        (format!("{past}{END}"), 22, 1),
        (format!("{}{END}", line(0x400, 0, &[1], "\n")), 22, 1),
        (format!("{}{END}", line(0xFFFF, 0, &[1, 2], "\n")), 22, 1),
        // 22 before 23: the second record begins on a byte that is set, and ends past the flash
        (format!("{}{past}{END}", line(0x3FF, 0, &[1], "\n")), 22, 2),
        // 23: the same value, 0xFF, the last byte of a record
        (format!("{one}{one}{END}"), 23, 2),
        (format!("{}{}{END}", line(0, 0, &[0xFF], "\n"), line(0, 0, &[0xFF], "\n")), 23, 2),
        (format!("{one}{}{END}", line(0x1FE, 0, &[1, 2, 3], "\n")), 23, 2),
        // after the end record: the line's own fault, if it has one, else 24
        (format!("{one}{END}{END}"), 24, 3),
        (format!("{one}{END}{nothing}"), 24, 3),
        (format!("{one}{END}{}", line(0, 0, &[1], "\n")), 24, 3),
        (format!("{one}{END}{one}"), 23, 3),
        (format!("{one}{END}{past}"), 22, 3),
        (format!("{one}{END}{bad_sum}"), 21, 3),
        // the first faulty line decides over later ones, and over a missing end
        (format!("{bad_sum}\n"), 21, 1),
        (bad_sum.into(), 21, 1),
    ];
    for (file, number, line) in table {
        answer(file.as_bytes(), *number, *line)?;
    }
    Ok(table.len() as u64)
}

/// Small files in the shapes that other tools write: sdcc's records of 1 to 32 bytes that don't rise
/// throughout, objcopy's CR LF, lower case, one byte a record.
fn shapes(_: &mut Run) -> Checked {
    let data: Vec<u8> = (0..64).map(|i| i * 3 + 1).collect();
    let sdcc = format!(
        "{}{}{}{}{END}",
        line(0x0000, 0, &data[..3], "\n"),
        line(0x0040, 0, &data[..32], "\n"),
        line(0x0003, 0, &data[..1], "\n"),
        line(0x0060, 0, &data[..7], "\n"),
    );
    let objcopy: String = (0u16..4).map(|i| line(i * 16, 0, &data[..16], "\r\n")).collect();
    let srec_cat: String = (0u16..2).map(|i| line(0x200 + i * 32, 0, &data[..32], "\n")).collect();
    let single: String = (0..64).rev().map(|i| line(0x1F0 + i, 0, &[data[usize::from(i)]], "\n")).collect();
    let files = [
        sdcc,
        format!("{objcopy}:00000001FF\r\n"),
        format!("{srec_cat}{END}"),
        format!("{single}{END}").to_lowercase(),
    ];
    for file in &files {
        answer(file.as_bytes(), 0, 0)?;
        // without its last line, and with any line twice, it is no such file
        let lines: Vec<_> = file.split_inclusive('\n').collect();
        answer(lines[..lines.len() - 1].concat().as_bytes(), 24, 0)?;
        for (i, line) in lines.iter().enumerate() {
            let number = if i + 1 == lines.len() { 24 } else { 23 };
            answer(
                [&lines[..=i], &[*line], &lines[i + 1..]].concat().concat().as_bytes(),
                number,
                i as u64 + 2,
            )?;
        }
    }
    Ok(files.len() as u64)
}

fn changed(_: &mut Run) -> Checked {
    let file = format!("{}{}{END}", line(0x1FE, 0, &[1, 2, 3, 0xFF], "\r\n"), line(0, 0, &[0xA5], "\n"));
    let mut cases = 0;
    for at in 0..file.len() {
        for byte in 0..=255 {
            let mut other = file.clone().into_bytes();
            other[at] = byte;
            read(&settings(512, 2), &other, 1_024)?;
            other.remove(at);
            read(&settings(512, 2), &other, 1_024)?;
            other.insert(at, byte);
            other.insert(at, byte);
            read(&settings(512, 2), &other, 1_024)?;
            cases += 3;
        }
        read(&settings(512, 2), &file.as_bytes()[..at], 1_024)?;
    }
    Ok(cases)
}

fn edges(_: &mut Run) -> Checked {
    let mut cases = 0;
    for size in [512, 1_024, 513, 0] {
        for count in [0, 1, 2, 63, 64, 65, 127, 128, 129, u32::MAX] {
            for address in [0, 1, 0x1FF, 0x200, 0x3FF, 0x7FFF, 0xFBFF, 0xFDFF, 0xFFFE, 0xFFFF] {
                for long in [1, 2, 16, 255] {
                    let settings = settings(size, count);
                    let file = format!("{}{END}", line(address, 0, &vec![0x5A; long], "\n"));
                    let pages = read(&settings, file.as_bytes(), 65_536)?.length as usize;
                    for room in [0, pages.saturating_sub(1), pages, pages + 1] {
                        read(&settings, file.as_bytes(), room)?;
                        cases += 1;
                    }
                }
            }
        }
    }
    for fpdat in [0, 1, 2, 3] {
        read(&Settings { fpdat, ..settings(0, 0) }, END.as_bytes(), 0)?;
    }
    Ok(cases)
}

/// A file of random records, most of them right.
fn random_file(random: &mut Random, settings: &Settings) -> String {
    let flash = settings.flash_len() as usize;
    let end = random.pick(&["\n", "\n", "\r\n"]);
    let mut file = String::new();
    let mut at = random.below(flash);
    for _ in 0..random.below(12) {
        let long = random.pick(&[0, 1, 1, 2, 3, 16, 16, 32]);
        let data = random.bytes(long);
        let text = line((at % 65_536) as u16, 0, &data, end);
        file += &if random.below(8) == 0 { text.to_lowercase() } else { text };
        // on, back, anywhere, or over what was just set
        at = match random.below(8) {
            0 => random.below(flash),
            1 => at,
            2 => at.saturating_sub(long + 32),
            _ => at + long,
        };
    }
    file + if random.below(16) == 0 { "" } else { END }
}

fn random_settings(random: &mut Random) -> Settings {
    let size = random.pick(&[512, 512, 1_024]);
    let settings = settings(size, random.between(1, 4) as u32);
    Settings { pairs: random_pairs(random, settings.fpdat), ..settings }
}

fn records(run: &mut Run) -> Checked {
    let cases = run.cases(20_000, 2_000_000);
    for _ in 0..cases {
        let settings = random_settings(&mut run.random);
        let file = random_file(&mut run.random, &settings);
        let room = run.random.pick(&[4_096, 4_096, 1_024, 512, 511, 0]);
        read(&settings, file.as_bytes(), room)?;
    }
    Ok(cases)
}

/// One change anywhere: a byte replaced, lost, doubled or put in, two parts turned round, the rest cut off.
fn damage(random: &mut Random, file: &mut Vec<u8>) {
    let at = random.below(file.len() + 1);
    let common = random.pick(b":0123456789ABCDEFabcdef\r\n \0");
    let byte = if random.below(2) == 0 { common } else { random.byte() };
    match random.below(6) {
        0 => file.insert(at, byte),
        1 => file.truncate(at),
        2 => file.rotate_left(at),
        _ if at == file.len() => file.push(byte),
        3 => drop(file.remove(at)),
        4 => file.insert(at, file[at]),
        _ => file[at] = byte,
    }
}

fn damaged(run: &mut Run) -> Checked {
    let cases = run.cases(60_000, 4_000_000);
    for _ in 0..cases {
        let settings = random_settings(&mut run.random);
        let mut file = random_file(&mut run.random, &settings).into_bytes();
        for _ in 0..run.random.between(1, 3) {
            damage(&mut run.random, &mut file);
        }
        read(&settings, &file, 4_096)?;
    }
    Ok(cases)
}

fn written(run: &mut Run) -> Checked {
    let cases = run.cases(1_500, 100_000);
    for _ in 0..cases {
        let random = &mut run.random;
        let size = random.pick(&[512, 1_024, 1_024, 511]);
        let count = random.pick(&[0, 1, 2, 4, 64, 65, 128, 129]);
        let (fpdat, wait_limit) = (random.pick(&[0xB4, 3, 255, 2]), random.pick(&[20, 1, 255, 255, 0]));
        let pairs = if random.below(2) == 0 { Pairs::NONE } else { any_pairs(random, fpdat) };
        let settings = Settings { fpdat, wait_limit, pairs, ..settings(size, count) };
        let pages = random.pick(&[0, 1, 1, 2, 3]);
        let first = random.pick(&[0, 1, count.wrapping_sub(1), count, count.wrapping_sub(pages), u32::MAX]);
        let len = (pages * size) as usize + random.pick(&[0, 0, 0, 0, 1, 511]);
        let image = random.bytes(len);
        let needed = len / 16 * 44 + 12;
        let room = random.pick(&[needed, needed, needed + 5, needed - 1, 0]);
        let file = write(&settings, first, &image, room)?;
        if !file.is_empty() {
            let came = read(&settings, &file, image.len())?;
            let inputs = || format!("{settings:?}, first page {first}, image of {len}");
            expect((0, first, len as u64), (came.number, came.first_page, came.length), inputs)?;
            let mut back = vec![0; len];
            proved::hex::read((&settings).into(), &file, &mut back);
            expect_bytes("image", &image, &back, inputs)?;
        }
    }
    Ok(cases)
}
