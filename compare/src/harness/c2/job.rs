//! Work for a session: a device with its flash and delays, and an image.

use crate::harness::c2::device::Device;
use crate::harness::c2::pairs::{met_by, random_pairs};
use crate::harness::random::Random;
use crate::harness::report::Failure;
use crate::second::c2::session::Session;
use crate::second::settings::Settings;

/// Opens a session of our own, which must be accepted.
pub fn open(settings: &Settings, first_page: u32, image: &[u8]) -> Result<Session, Failure> {
    Session::open(settings, first_page, image).map_err(|number| Failure {
        inputs: format!("{settings:?}, first page {first_page}, image of {}", image.len()),
        expected: "an accepted opening".to_string(),
        came: format!("refusal {number}"),
    })
}

/// A device and a job for it.
pub struct Job {
    pub device: Device,
    pub first_page: usize,
    pub image: Vec<u8>,
}

impl Job {
    /// A job whose session ends done: the settings' pairs leave what the device wants.
    pub fn random(random: &mut Random, pages: usize) -> Job {
        let page_size = random.pick(&[512, 1024]);
        let most_pages = 65_536 / page_size;
        let page_count = random.between(pages, most_pages);
        let fpdat = random.between(3, 255) as u8;
        let settings = Settings {
            device_id: random.byte(),
            fpdat,
            page_size: page_size as u32,
            page_count: page_count as u32,
            wait_limit: random_wait_limit(random),
            pairs: random_pairs(random, fpdat),
        };
        let flash = random.bytes(page_size * page_count);
        let first_page = random.between(0, page_count - pages);
        let image = random.bytes(page_size * pages);
        let delays = random_delays(random, settings.wait_limit);
        let mut device = Device::fresh(settings, flash, delays);
        device.wanted = met_by(&settings.pairs, random);
        Job { device, first_page, image }
    }

    pub fn describe(&self) -> String {
        let Device { settings, wanted, delays, .. } = &self.device;
        let (pages, first_page) = (self.image.len() / settings.page_size as usize, self.first_page);
        format!(
            "{settings:?}, wanted {wanted:?}, first page {first_page}, {pages} pages, delays {delays:?}; \
             image and flash drawn from the seed"
        )
    }

    pub fn session(&self) -> Result<Session, Failure> {
        open(&self.device.settings, self.first_page as u32, &self.image)
    }

    /// The flash with the image laid over the named pages.
    pub fn programmed_flash(&self) -> Vec<u8> {
        let mut flash = self.device.flash.clone();
        let start = self.first_page * self.device.settings.page_size as usize;
        flash[start..start + self.image.len()].copy_from_slice(&self.image);
        flash
    }
}

/// A WAIT limit that settings may have; its edges and those beside document 01's come often.
pub fn random_wait_limit(random: &mut Random) -> u8 {
    let any = random.between(1, 255) as u8;
    random.pick(&[1, 2, 19, 20, 20, 21, 254, 255, any, any])
}

/// Delays about which a WAIT's zeros are the most, none again, and the most again.
pub fn edges_of_waits(wait_limit: u8) -> [u8; 5] {
    let most = wait_limit - 1;
    [most.saturating_sub(1), most, wait_limit, wait_limit.saturating_add(1), most.saturating_add(wait_limit)]
}

/// None, one throughout (those at the edges of WAIT and poll among them), small ones, any.
fn random_delays(random: &mut Random, wait_limit: u8) -> Vec<u8> {
    let count = random.between(1, 60);
    match random.below(5) {
        0 => Vec::new(),
        1 => vec![random.pick(&[1, wait_limit - 1, wait_limit, 255])],
        2 | 3 => (0..count).map(|_| random.below(6) as u8).collect(),
        _ => random.bytes(count),
    }
}
