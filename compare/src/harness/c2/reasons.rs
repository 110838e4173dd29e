//! Reasons for a refusal by settings, image and first page, and the calls that test them: of some reasons at
//! once the first in the tests' order decides (document 01, "Numbers that come back"; document 02, d and e).

use proved::c2::Opened;
use proved::hex;

use crate::harness::c2::calls;
use crate::harness::c2::driver::{open, Opening};
use crate::harness::hex::{read as read_hex, write as write_hex};
use crate::harness::report::{expect, Failure};
use crate::second::c2::record::RECORD_LEN;
use crate::second::c2::steps::{OFF, RESET};
use crate::second::numbers;
use crate::second::settings::Settings;

/// The tests of an opening after that of the record, in their order.
pub const TESTS: [u32; 7] = [
    numbers::BAD_FPDAT,
    numbers::BAD_PAGE_SIZE,
    numbers::BAD_PAGE_COUNT,
    numbers::BAD_WAIT_LIMIT,
    numbers::BAD_PAIRS,
    numbers::BAD_IMAGE,
    numbers::PAST_LAST_PAGE,
];
/// How many of them the settings alone decide, and which one the pairs do.
const OF_SETTINGS: usize = 5;
pub const OF_PAIRS: usize = 4;

const IMAGE: [u8; 512] = [0x55; 512];

/// Some of these reasons, by the bits of a number. The settings are good but for them; pairs that are refused
/// stand there as they are.
pub struct Reasons {
    pub bits: usize,
    pub good: Settings,
}

impl Reasons {
    fn among(&self, test: usize) -> bool {
        self.bits >> test & 1 == 1
    }

    /// The first of so many tests that fails.
    fn first(&self, tests: usize) -> Option<u32> {
        (0..tests).find(|&test| self.among(test)).map(|test| TESTS[test])
    }

    /// The first test of the settings that fails.
    pub fn of_settings(&self) -> Option<u32> {
        self.first(OF_SETTINGS)
    }

    pub fn settings(&self) -> Settings {
        let wrong = |test, bad, good| if self.among(test) { bad } else { good };
        Settings {
            fpdat: wrong(0, 2, self.good.fpdat.into()) as u8,
            page_size: wrong(1, 500, self.good.page_size),
            page_count: wrong(2, 0, self.good.page_count),
            wait_limit: wrong(3, 0, self.good.wait_limit.into()) as u8,
            ..self.good
        }
    }

    fn image(&self) -> &'static [u8] {
        &IMAGE[..if self.among(5) { 511 } else { 512 }]
    }

    fn first_page(&self) -> u32 {
        if self.among(6) {
            self.good.page_count
        } else {
            0
        }
    }

    pub fn opening(&self) -> Result<(), Failure> {
        let (settings, first_page) = (self.settings(), self.first_page());
        for (record_len, number) in
            [(RECORD_LEN - 1, Some(numbers::BAD_RECORD)), (RECORD_LEN, self.first(TESTS.len()))]
        {
            let record = vec![0xEE; record_len];
            open(&Opening { record: &record, image: self.image(), settings, first_page })?;
            let came = calls::open(&record, self.image(), &settings, first_page).answer;
            let step = if number.is_some() { OFF } else { RESET };
            let expected = Opened { number: number.unwrap_or(0), step: step.into() };
            let inputs = || format!("{settings:?}, first page {first_page}, record of {record_len}");
            expect(expected, came, inputs)?;
        }
        Ok(())
    }

    /// With too little room (26) besides.
    pub fn hex_writer(&self) -> Result<(), Failure> {
        let (settings, first_page) = (self.settings(), self.first_page());
        write_hex(&settings, first_page, self.image(), 10)?;
        let came = hex::write((&settings).into(), first_page, self.image(), &mut [0; 10]).number;
        let expected = self.first(TESTS.len()).unwrap_or(numbers::BUFFER_TOO_SMALL);
        expect(expected, came, || format!("a file written with {settings:?}, first page {first_page}"))
    }

    /// With a bad line (20) besides.
    pub fn hex_reader(&self) -> Result<(), Failure> {
        let settings = self.settings();
        let came = read_hex(&settings, b"no colon\n", 512)?;
        let expected = self.of_settings().map_or((numbers::BAD_LINE, 1), |number| (number, 0));
        expect(expected, (came.number, came.line), || format!("a file read with {settings:?}"))
    }
}
