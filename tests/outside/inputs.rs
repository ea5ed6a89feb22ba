//! A seeded generator of inputs: keys, hash inputs, packets, requests and acks, good ones and damaged ones.

use crate::rules::{message, set_count, GET_FLAGS, KEY, MAX_FLAGS, PAGE, SET_FLAGS, SET_KEY, SET_MAPPING};

/// A splitmix64 generator; the seed settles every number.
pub struct Random {
    state: u64,
}

impl Random {
    pub fn new(seed: u64) -> Random {
        Random { state: seed }
    }

    pub fn next(&mut self) -> u64 {
        self.state = self.state.wrapping_add(0x9e37_79b9_7f4a_7c15);
        let mixed = (self.state ^ self.state >> 30).wrapping_mul(0xbf58_476d_1ce4_e5b9);
        let mixed = (mixed ^ mixed >> 27).wrapping_mul(0x94d0_49bb_1331_11eb);
        mixed ^ mixed >> 31
    }

    pub fn below(&mut self, limit: u64) -> u64 {
        self.next() % limit
    }

    pub fn between(&mut self, lowest: u64, highest: u64) -> u64 {
        lowest + self.below(highest - lowest + 1)
    }

    pub fn one_in(&mut self, times: u64) -> bool {
        self.below(times) == 0
    }

    pub fn pick<T: Copy>(&mut self, choices: &[T]) -> T {
        choices[self.below(choices.len() as u64) as usize]
    }

    pub fn octets(&mut self, length: u64) -> Vec<u8> {
        (0..length).map(|_| self.next() as u8).collect()
    }

    /// A number below the limit, or one that differs from such a number in a high octet, or any number.
    pub fn near(&mut self, limit: u64) -> u64 {
        let small = self.below(limit);
        match self.below(8) {
            0 => small | 1 << self.between(8, 63),
            1 => self.next() >> self.below(64),
            _ => small,
        }
    }

    /// Octets at random, all zero, or zero but for a single bit.
    pub fn payload(&mut self, length: u64) -> Vec<u8> {
        let mut octets = self.octets(length);
        if self.one_in(3) {
            octets.fill(0);
            if length > 0 && self.one_in(2) {
                octets[self.below(length) as usize] = 1 << self.below(8);
            }
        }
        octets
    }

    /// A key of 40 octets, often one that repeats or one that repeats but for a single bit.
    pub fn key(&mut self) -> Vec<u8> {
        let period = self.pick(&[1, 2, 4, 16, KEY, KEY]);
        let pattern = self.payload(period as u64);
        let mut key: Vec<u8> = (0..KEY).map(|i| pattern[i % period]).collect();
        if self.one_in(3) {
            key[self.below(KEY as u64) as usize] ^= 1 << self.below(8);
        }
        key
    }

    /// A key, or octets that are none for their number.
    pub fn key_of_any_length(&mut self) -> Vec<u8> {
        if self.one_in(4) {
            let length = self.below(82);
            self.octets(length)
        } else {
            self.key()
        }
    }

    /// A hash input of 0 to 40 octets, or a longer one.
    pub fn hash_input(&mut self) -> Vec<u8> {
        let length = if self.one_in(16) { self.between(41, 1500) } else { self.below(41) };
        self.payload(length)
    }

    /// A packet of 0 to 80 octets or a longer one: IPv4, IPv6 or nearly so, TCP or not, a fragment or not, cut anywhere.
    pub fn packet(&mut self) -> Vec<u8> {
        let length = if self.one_in(32) { self.between(81, 9000) } else { self.below(81) };
        let mut packet = self.octets(length);
        let version_6 = 0x60 | self.below(16) as u8;
        let nearly = self.pick(&[0x05, 0x40, 0x44, 0x46, 0x4f, 0x54, 0x55, 0x5f, 0x65, 0x70, 0xc5, 0xe0]);
        let any = self.next() as u8;
        let first = self.pick(&[0x45, 0x45, 0x45, version_6, version_6, version_6, nearly, any]);
        let protocols = [6, 6, 6, 0, 1, 5, 7, 17, 58, 0x86];
        let [upper, lower] = self.fragment_field().to_be_bytes();
        let sixth = if first >> 4 == 6 { self.pick(&protocols) } else { upper };
        for (at, octet) in [(0, first), (6, sixth), (7, lower), (9, self.pick(&protocols))] {
            if packet.len() > at {
                packet[at] = octet;
            }
        }
        packet
    }

    /// The fragment field of an IPv4 packet: that of a whole one half of the time, else with one bit more, or any.
    fn fragment_field(&mut self) -> u16 {
        let whole = self.pick(&[0, 0x4000, 0x8000, 0xc000]);
        match self.below(4) {
            0 => whole | 1 << self.below(14),
            1 => self.next() as u16,
            _ => whole,
        }
    }

    /// The length of a buffer for a message: about as long as that, or any other.
    pub fn buffer_length(&mut self, message: u64) -> usize {
        let length = match self.below(4) {
            0 => self.below(1200),
            1 => self.below(8),
            _ => (message + self.below(12)).saturating_sub(4),
        };
        length as usize
    }

    /// Mapping entries, 0 to 130 of them or 256, with queues that there may be.
    pub fn entries(&mut self) -> Vec<u64> {
        let entries = match self.below(4) {
            0 => self.below(131),
            1 => 256,
            _ => 1 << self.below(8),
        };
        (0..entries).map(|_| self.near(64)).collect()
    }

    /// A mapping's entries, each a queue of a host with this many.
    pub fn entries_below(&mut self, queues: u64) -> Vec<u64> {
        (0..1u64 << self.below(8)).map(|_| self.below(queues)).collect()
    }

    /// An ack, nearly always to a request of this type, with one octet changed, cut or lengthened half of the time.
    pub fn ack(&mut self, request_type: u32) -> Vec<u8> {
        let status = self.near(5);
        let mut payload = status.to_le_bytes().to_vec();
        if (u64::from(request_type) == GET_FLAGS && status == 0) != self.one_in(8) {
            payload.extend(self.near(20).to_le_bytes());
        }
        let mut ack = message(1, &payload);
        let length = ack.len() as u64;
        match self.below(6) {
            0 => ack[self.below(length) as usize] ^= 1 << self.below(8),
            1 => ack.truncate(self.below(length) as usize),
            2 => ack.resize((length + self.between(1, 9)) as usize, 0),
            _ => {}
        }
        ack
    }

    /// How far a hostile end lets its counts be from the other's: mostly not too far, often just about so.
    pub fn distance(&mut self) -> u32 {
        let distance = match self.below(8) {
            0 => self.between(1022, 1026),
            1 => self.near(1025),
            2 | 3 => self.below(1025),
            _ => self.below(60),
        };
        distance as u32
    }

    /// A count that is about to run over.
    pub fn high_count(&mut self) -> u32 {
        0u32.wrapping_sub(self.below(2000) as u32)
    }

    /// Overwrites octets anywhere on a page, a few or all or none.
    pub fn scribble(&mut self, page: &mut [u8]) {
        let from = self.below(page.len() as u64) as usize;
        let length = self.pick(&[0, 16, 1024, PAGE]).min(page.len() - from);
        page[from..from + length].copy_from_slice(&self.octets(length as u64));
    }

    /// Overwrites two counts on a page.
    pub fn spoil_counts(&mut self, page: &mut [u8], places: [usize; 2]) {
        for at in places {
            set_count(page, at, self.next() as u32);
        }
    }

    /// A page that is too short or too long and else like this one.
    pub fn page_of_other_length(&mut self, page: &[u8]) -> Vec<u8> {
        let length = self.pick(&[0, 1, 15, 16, 2064, PAGE - 1, PAGE + 1, 2 * PAGE]);
        let mut other = page.to_vec();
        other.resize(length, 0);
        other
    }

    /// A request to a host with this many queues, of one of the four types or another, good or wrong in one place.
    pub fn request(&mut self, queues: u64) -> Vec<u8> {
        match self.below(16) {
            0 => message(GET_FLAGS, &[]),
            1..=7 => self.setting(queues),
            8 => message(SET_FLAGS, &self.near(24).to_le_bytes()),
            9 | 10 => message(SET_MAPPING, &self.mapping_with_a_wrong_entry(queues)),
            11 => {
                let size = self.pick(&[0, 1, 4, 7, 9, 12, 24, 40, 1016, 1020, 1024, 1032, 1600, 2048, 4096]);
                message(SET_MAPPING, &self.payload(size))
            }
            12 | 13 => {
                let size = self.pick(&[0, 1, 7, 8, 9, 16, 39, 40, 41, 80]);
                message(self.between(GET_FLAGS, SET_KEY), &self.payload(size))
            }
            14 => {
                let kind = self.below(8) | self.below(2) << self.between(8, 31);
                let size = self.below(64);
                message(kind, &self.payload(size))
            }
            _ => {
                let size = self.between(1025, 3000);
                message(self.below(7), &self.payload(size))
            }
        }
    }

    /// A request that sets flags, key or mapping and that a host with this many queues takes.
    pub fn setting(&mut self, queues: u64) -> Vec<u8> {
        match self.below(3) {
            0 => message(SET_FLAGS, &self.below(MAX_FLAGS + 1).to_le_bytes()),
            1 => message(SET_KEY, &self.key()),
            _ => message(SET_MAPPING, &self.mapping(queues)),
        }
    }

    /// The payload of a mapping that the host takes.
    fn mapping(&mut self, queues: u64) -> Vec<u8> {
        self.entries_below(queues).into_iter().flat_map(u64::to_le_bytes).collect()
    }

    /// The payload of a mapping in which one entry, the first or the last or any, is no queue.
    fn mapping_with_a_wrong_entry(&mut self, queues: u64) -> Vec<u8> {
        let mut payload = self.mapping(queues);
        let last = payload.len() as u64 / 8 - 1;
        let any = self.below(last + 1);
        let at = 8 * self.pick(&[0, last, any]) as usize;
        let wrong = self.below(queues) | 1 << self.between(8, 63);
        let entry = self.pick(&[queues, queues + 1, 255, wrong, wrong]);
        payload[at..at + 8].copy_from_slice(&entry.to_le_bytes());
        payload
    }
}
