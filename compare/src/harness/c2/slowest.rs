//! The longest way through a session, written out from document 01's order and document 02, e.

use crate::second::settings::Settings;

/// The replies of the slowest device that still satisfies every WAIT and every poll.
pub struct Slowest {
    replies: Vec<u8>,
    wait_limit: u8,
}

impl Slowest {
    /// Replies that are not looked at.
    fn unused(&mut self, count: usize) {
        self.replies.extend(vec![0; count]);
    }

    fn byte(&mut self, byte: u8) {
        self.replies.extend((0..8).map(|bit| byte >> bit & 1));
    }

    fn wait(&mut self) {
        self.replies.extend(vec![0; usize::from(self.wait_limit) - 1]);
        self.replies.push(1);
    }

    fn address_write(&mut self) {
        self.unused(12);
    }

    fn address_read(&mut self, status: u8) {
        self.unused(3);
        self.byte(status);
        self.unused(1);
    }

    fn data_write(&mut self) {
        self.unused(13);
        self.wait();
        self.unused(1);
    }

    fn data_read(&mut self, byte: u8) {
        self.unused(5);
        self.wait();
        self.byte(byte);
        self.unused(1);
    }

    /// Either poll: InBusy without OutReady, and at the last read the other way round.
    fn poll(&mut self) {
        for _ in 0..255 {
            self.address_read(0x02);
        }
        self.address_read(0x01);
    }

    fn puts(&mut self, count: usize) {
        for _ in 0..count {
            self.data_write();
            self.poll();
        }
    }

    fn get(&mut self, byte: u8) {
        self.poll();
        self.data_read(byte);
    }

    fn page(&mut self, page: &[u8]) {
        self.address_write();
        for _ in 0..3 {
            self.puts(1);
            self.get(0x0D);
        }
        for _ in page.chunks(256) {
            self.address_write();
            self.puts(1);
            self.get(0x0D);
            self.puts(3 + 256);
            self.get(0x0D);
        }
        for block in page.chunks(256) {
            self.address_write();
            self.puts(1);
            self.get(0x0D);
            self.puts(3);
            self.get(0x0D);
            block.iter().for_each(|&byte| self.get(byte));
        }
    }

    pub fn session(settings: &Settings, image: &[u8]) -> Vec<u8> {
        let Settings { device_id, page_size, wait_limit, pairs, .. } = *settings;
        let mut slowest = Slowest { replies: Vec::new(), wait_limit };
        slowest.unused(1);
        slowest.data_read(device_id);
        slowest.unused(1);
        slowest.address_write();
        (0..3).for_each(|_| slowest.data_write());
        slowest.unused(1);
        for _ in 0..pairs.count {
            slowest.address_write();
            slowest.data_write();
        }
        image.chunks(page_size as usize).for_each(|page| slowest.page(page));
        slowest.unused(1);
        slowest.replies
    }
}
