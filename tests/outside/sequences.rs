//! Sequences of events on one interface and one page, by guests that keep the rules of the ring and by hostile ones.

use std::collections::VecDeque;

use crate::compare::{Both, Call, Comparison, Difference, DONE};
use crate::library::{Slice, SliceMut};
use crate::rules::{
    message, number, put_octets, set_count, AREA, GET_FLAGS, HEADER, PAGE, REQUESTS, RESPONSES, SET_FLAGS, WAITING,
};

/// One interface and the page that it shares with its guest.
struct Sequence<'a, 'b> {
    comparison: &'a mut Comparison<'b>,
    both: Both,
    page: Vec<u8>,
}

impl<'a, 'b> Sequence<'a, 'b> {
    /// A fresh interface on a page of junk, in one of three cases with counts that are about to run over.
    fn begin(comparison: &'a mut Comparison<'b>) -> Result<Sequence<'a, 'b>, Difference> {
        let queues = comparison.random.pick(&[1, 2, 3, 4, 7, 8, 16, 33, 63, 64]);
        let mut both = comparison.set_up(queues)?.expect("1 to 64 queues are not refused");
        if comparison.random.one_in(3) {
            let [req_cons, rsp_prod] = [(); 2].map(|()| comparison.random.high_count());
            both.start_at(req_cons, rsp_prod);
        }
        let page = comparison.random.octets(PAGE as u64);
        Ok(Sequence { comparison, both, page })
    }

    fn set_guest_counts(&mut self, req_prod: u32, rsp_cons: u32) {
        set_count(&mut self.page, 4, req_prod);
        set_count(&mut self.page, 8, rsp_cons);
    }

    /// Puts octets into the request area, the first at this count.
    fn put_requests(&mut self, from: u32, octets: impl Iterator<Item = u8>) {
        put_octets(&mut self.page, REQUESTS, from, octets);
    }

    /// Overwrites what the page says of the host's own counts, which the host must never read.
    fn spoil_own_counts(&mut self) {
        self.comparison.random.spoil_counts(&mut self.page, [0, 12]);
    }

    fn event(&mut self) -> Result<u32, Difference> {
        self.comparison.event(&mut self.both, Some(&mut self.page))
    }

    /// An event of a guest that has read all acks and is this many request octets ahead.
    fn event_ahead(&mut self, octets: u32) -> Result<u32, Difference> {
        let req_prod = self.both.model.req_cons.wrapping_add(octets);
        self.set_guest_counts(req_prod, self.both.model.rsp_prod);
        self.event()
    }

    /// An event of a guest that has read all acks and whose next request octets are these.
    fn event_with(&mut self, octets: &[u8]) -> Result<u32, Difference> {
        self.put_requests(self.both.model.req_cons, octets.iter().copied());
        self.event_ahead(octets.len() as u32)
    }

    fn ask_packets(&mut self, packets: u64) -> Result<(), Difference> {
        for _ in 0..packets {
            let packet = self.comparison.random.packet();
            self.comparison.steer(&self.both, Some(&packet))?;
        }
        Ok(())
    }
}

/// A guest that keeps the rules of the ring, though not every request of it is a good one.
struct Guest {
    req_prod: u32,
    rsp_cons: u32,
    /// Request octets that are not in the request area yet.
    unsent: VecDeque<u8>,
    /// The types of the requests whose acks are not read yet.
    asked: VecDeque<u32>,
    /// Octets read from the response area that are not a whole ack yet.
    heard: Vec<u8>,
}

impl Guest {
    fn new(both: &Both) -> Guest {
        Guest {
            req_prod: both.model.req_cons,
            rsp_cons: both.model.rsp_prod,
            unsent: VecDeque::new(),
            asked: VecDeque::new(),
            heard: vec![],
        }
    }

    /// Sends at most this many octets of requests, as many as the request area has places for.
    fn send(&mut self, sequence: &mut Sequence, most: u64) {
        let random = &mut sequence.comparison.random;
        while (self.unsent.len() as u64) < most {
            let request = random.request(sequence.both.model.queues);
            self.asked.push_back(number(&request[0..4]) as u32);
            self.unsent.extend(request);
        }
        let places = AREA - self.req_prod.wrapping_sub(sequence.both.model.req_cons);
        let sent = (most as u32).min(places);
        sequence.put_requests(self.req_prod, self.unsent.drain(..sent as usize));
        self.req_prod = self.req_prod.wrapping_add(sent);
    }

    /// Reads at most this many octets of acks; each ack that becomes whole must be one to the request it answers.
    fn hear(&mut self, sequence: &mut Sequence, most: u64) -> Result<(), Difference> {
        for _ in 0..most {
            if self.rsp_cons == sequence.both.model.rsp_prod {
                break;
            }
            self.heard.push(sequence.page[RESPONSES + (self.rsp_cons % AREA) as usize]);
            self.rsp_cons = self.rsp_cons.wrapping_add(1);
            if self.heard.len() < HEADER || self.heard.len() as u64 != HEADER as u64 + number(&self.heard[4..8]) {
                continue;
            }
            let request_type = self.asked.pop_front().expect("every ack answers a request");
            if sequence.comparison.read_ack(request_type, Some(&self.heard))? != DONE {
                let words =
                    format!("the ack {:02x?} of the host is none to a request of type {request_type}\n", self.heard);
                return Err(Difference { call: Call::ReadAck, words });
            }
            self.heard.clear();
        }
        Ok(())
    }
}

/// Requests cut at random into events, with acks read at once or so slowly that octets of them are owed.
pub fn honest(comparison: &mut Comparison, events: u64) -> Result<(), Difference> {
    let mut sequence = Sequence::begin(comparison)?;
    let mut guest = Guest::new(&sequence.both);
    let random = &mut sequence.comparison.random;
    let most_sent = random.pick(&[12, 60, 300, 1500]);
    let most_heard = random.pick(&[2, 8, 20, 1024]);
    let spoils = random.one_in(2);
    for _ in 0..events {
        let random = &mut sequence.comparison.random;
        let (sent, heard) = (random.below(most_sent + 1), random.below(most_heard + 1));
        guest.send(&mut sequence, sent);
        guest.hear(&mut sequence, heard)?;
        sequence.set_guest_counts(guest.req_prod, guest.rsp_cons);
        if spoils {
            sequence.spoil_own_counts();
        }
        sequence.event()?;
        sequence.ask_packets(3)?;
    }
    Ok(())
}

/// A page with any octets, counts and length, in whose request area a request often goes on where the host reads.
pub fn hostile(comparison: &mut Comparison, events: u64) -> Result<(), Difference> {
    let mut sequence = Sequence::begin(comparison)?;
    let mut request = vec![];
    for _ in 0..events {
        let (req_cons, rsp_prod) = (sequence.both.model.req_cons, sequence.both.model.rsp_prod);
        sequence.comparison.random.scribble(&mut sequence.page);
        sequence.spoil_own_counts();

        if sequence.both.model.taken == 0 {
            request = sequence.comparison.random.request(sequence.both.model.queues);
        }
        // A header of junk has a size that keeps the host waiting for the rest of the sequence.
        let is_header = sequence.both.model.taken < HEADER as u64;
        if !sequence.comparison.random.one_in(if is_header { 200 } else { 8 }) {
            sequence.put_requests(req_cons, request.iter().copied().take(AREA as usize));
        }
        let [ahead, behind] = [(); 2].map(|()| sequence.comparison.random.distance());
        sequence.set_guest_counts(req_cons.wrapping_add(ahead), rsp_prod.wrapping_sub(behind));

        if sequence.comparison.random.one_in(16) {
            other_length(&mut sequence)?;
        }
        sequence.event()?;
        let read = sequence.both.model.req_cons.wrapping_sub(req_cons) as usize;
        request.drain(..read.min(request.len()));
        sequence.ask_packets(3)?;
    }
    Ok(())
}

/// An event on a page that is too short or too long.
fn other_length(sequence: &mut Sequence) -> Result<(), Difference> {
    let mut page = sequence.comparison.random.page_of_other_length(&sequence.page);
    sequence.comparison.event(&mut sequence.both, Some(&mut page)).map(|_| ())
}

/// A page and a packet without octets.
pub fn no_octets(comparison: &mut Comparison, page: SliceMut<u8>, packet: Slice<u8>) -> Result<(), Difference> {
    let Sequence { comparison, mut both, .. } = Sequence::begin(comparison)?;
    comparison.event(&mut both, page)?;
    comparison.steer(&both, packet)
}

/// Flags, key and mapping set by requests, and then packets.
pub fn packets(comparison: &mut Comparison, packets: u64) -> Result<(), Difference> {
    let mut sequence = Sequence::begin(comparison)?;
    for _ in 0..6 {
        let request = sequence.comparison.random.setting(sequence.both.model.queues);
        for part in request.chunks(AREA as usize) {
            sequence.event_with(part)?;
        }
    }
    sequence.ask_packets(packets)
}

/// The longest request there can be, whose payload is counted and dropped and whose number of octets is above 32 bits.
pub fn longest(comparison: &mut Comparison) -> Result<(), Difference> {
    let mut sequence = Sequence::begin(comparison)?;
    let header = [SET_FLAGS as u32, u32::MAX].map(u32::to_le_bytes).concat();
    let mut answer = sequence.event_with(&header)?;
    while answer == WAITING {
        answer = sequence.event_ahead(AREA)?;
    }
    sequence.event_with(&message(GET_FLAGS, &[])).map(|_| ())
}
