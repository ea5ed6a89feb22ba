//! Sequences of calls on one guest and one page, against the library's own host and against hostile ones.

use crate::compare::guest::BothGuests;
use crate::compare::{Both, Call, Comparison, Difference};
use crate::library::{Slice, SliceMut};
use crate::rules::{
    count, message, number, put_octets, set_count, Asked, AREA, FAILED, GET_FLAGS, IDLE, KEY, MAX_ENTRIES, NOT_AN_ACK,
    OUTSTANDING, PAGE, PAGE_LENGTH, REQUEST_COUNT, REQUEST_OWED, RESPONSES, RESPONSE_COUNT,
};

const STARTS: [Call; 4] =
    [Call::GuestStartGetFlags, Call::GuestStartSetFlags, Call::GuestStartSetKey, Call::GuestStartSetMapping];

/// A request that the start takes.
fn good(start: Call) -> Asked<'static> {
    match start {
        Call::GuestStartSetFlags => Asked::SetFlags(9),
        Call::GuestStartSetKey => Asked::SetKey(Some(&[0x5a; KEY])),
        Call::GuestStartSetMapping => Asked::SetMapping(Some(&[3; MAX_ENTRIES as usize])),
        _ => Asked::GetFlags,
    }
}

/// A request that the start refuses; a get flags has nothing that could be wrong.
fn wrong(start: Call) -> Asked<'static> {
    match start {
        Call::GuestStartSetFlags => Asked::SetFlags(16),
        Call::GuestStartSetKey => Asked::SetKey(Some(&[0x5a; KEY - 1])),
        Call::GuestStartSetMapping => Asked::SetMapping(Some(&[3; 3])),
        _ => Asked::GetFlags,
    }
}

/// One guest and the page that it shares with its host.
struct Sequence<'a, 'b> {
    comparison: &'a mut Comparison<'b>,
    guests: BothGuests,
    page: Vec<u8>,
}

impl<'a, 'b> Sequence<'a, 'b> {
    /// A fresh guest with these own counts on a page of junk, whose host has read every request and written no ack.
    fn begin_at(
        comparison: &'a mut Comparison<'b>,
        req_prod: u32,
        rsp_cons: u32,
    ) -> Result<Sequence<'a, 'b>, Difference> {
        let mut guests = comparison.guest_set_up()?;
        guests.start_at(req_prod, rsp_cons);
        let page = comparison.random.octets(PAGE as u64);
        let mut sequence = Sequence { comparison, guests, page };
        sequence.set_host_counts(0, 0);
        Ok(sequence)
    }

    /// The same with own counts that are 0 or, in one of three cases, about to run over.
    fn begin(comparison: &'a mut Comparison<'b>) -> Result<Sequence<'a, 'b>, Difference> {
        let runs_over = comparison.random.one_in(3);
        let [req_prod, rsp_cons] = [(); 2].map(|()| if runs_over { comparison.random.high_count() } else { 0 });
        Sequence::begin_at(comparison, req_prod, rsp_cons)
    }

    /// The counts of a host that has not read this many request octets and has written this many that are not read.
    fn set_host_counts(&mut self, unread_requests: u32, unread_acks: u32) {
        set_count(&mut self.page, 0, self.guests.model.req_prod.wrapping_sub(unread_requests));
        set_count(&mut self.page, 12, self.guests.model.rsp_cons.wrapping_add(unread_acks));
    }

    /// Overwrites what the page says of the guest's own counts, which the guest must never read.
    fn spoil_own_counts(&mut self) {
        self.comparison.random.spoil_counts(&mut self.page, [4, 8]);
    }

    fn start(&mut self, asked: Asked) -> Result<u32, Difference> {
        self.comparison.guest_start(&mut self.guests, Some(&mut self.page), asked)
    }

    fn event(&mut self) -> Result<u32, Difference> {
        self.comparison.guest_event(&mut self.guests, Some(&mut self.page)).map(|(answer, _)| answer)
    }

    /// A start, more often of the wanted call than of another, with a value that is mostly good.
    fn start_any(&mut self, wanted: Call, page: &mut [u8], queues: u64) -> Result<u32, Difference> {
        let random = &mut self.comparison.random;
        let start = if STARTS.contains(&wanted) && !random.one_in(4) { wanted } else { random.pick(&STARTS) };
        let (flags, key) = (random.near(21), random.key_of_any_length());
        let entries = if random.one_in(2) { random.entries() } else { random.entries_below(queues) };
        let asked = match start {
            Call::GuestStartSetFlags => Asked::SetFlags(flags),
            Call::GuestStartSetKey => Asked::SetKey(Some(&key)),
            Call::GuestStartSetMapping => Asked::SetMapping(Some(&entries)),
            _ => Asked::GetFlags,
        };
        self.comparison.guest_start(&mut self.guests, Some(page), asked)
    }

    /// A start, mostly while no request is outstanding, or an event. Gives the answer, and the status of an ack.
    fn call(&mut self, wanted: Call, page: &mut [u8], queues: u64) -> Result<(u32, Option<u64>), Difference> {
        let events_to_a_start = match (self.guests.model.phase, STARTS.contains(&wanted)) {
            (OUTSTANDING, false) => 16,
            (OUTSTANDING, true) => 3,
            _ => 2,
        };
        if self.comparison.random.one_in(events_to_a_start) {
            self.start_any(wanted, page, queues).map(|answer| (answer, None))
        } else {
            self.comparison.guest_event(&mut self.guests, Some(page))
        }
    }
}

/// Both ends of the library take turns as they happen to, on a page where each finds what the other left. A guest whose
/// host keeps the rules is refused no call for what is on the page, and is told the status that the host's rules give.
pub fn both_ends(comparison: &mut Comparison, wanted: Call, calls: u64) -> Result<(), Difference> {
    let queues = comparison.random.pick(&[1, 2, 4, 33, 64]);
    let mut host = comparison.set_up(queues)?.expect("1 to 64 queues are not refused");
    let mut sequence = Sequence::begin(comparison)?;
    host.start_at(sequence.guests.model.req_prod, sequence.guests.model.rsp_cons);
    set_count(&mut sequence.page, 4, sequence.guests.model.req_prod);
    set_count(&mut sequence.page, 8, sequence.guests.model.rsp_cons);
    for _ in 0..calls {
        if sequence.comparison.random.one_in(2) {
            sequence.comparison.event(&mut host, Some(&mut sequence.page))?;
        } else {
            turn_of_guest(&mut sequence, &host, wanted)?;
        }
    }
    Ok(())
}

/// A call of the guest on the page of its host, with the guest's own counts on the page overwritten before.
fn turn_of_guest(sequence: &mut Sequence, host: &Both, wanted: Call) -> Result<(), Difference> {
    let own_counts = sequence.page[4..12].to_vec();
    sequence.spoil_own_counts();
    let mut page = std::mem::take(&mut sequence.page);
    let (answer, status) = sequence.call(wanted, &mut page, host.model.queues)?;
    sequence.page = page;
    // A refusal writes no counts, and the host must find good ones.
    if answer >= PAGE_LENGTH {
        sequence.page[4..12].copy_from_slice(&own_counts);
    }
    let request = &sequence.guests.model.request;
    let expected = status.map(|_| {
        let (kind, size) = (number(&request[0..4]), number(&request[4..8]));
        sequence.comparison.rules.status(kind, size, &request[8..], host.model.queues)
    });
    if [REQUEST_COUNT, RESPONSE_COUNT, NOT_AN_ACK].contains(&answer) || status != expected {
        let words = format!("with the library's host the guest's answer is {answer}, its status {status:?}\n");
        return Err(Difference { call: Call::GuestEvent, words });
    }
    Ok(())
}

/// A page with any octets, counts and length, in whose response area an ack, good or wrong, often goes on where the
/// guest reads. A guest that has failed is called some more times before it is set up again.
pub fn hostile(comparison: &mut Comparison, wanted: Call, calls: u64) -> Result<(), Difference> {
    let mut sequence = Sequence::begin(comparison)?;
    let mut ack = vec![];
    for _ in 0..calls {
        if sequence.guests.model.phase == FAILED && sequence.comparison.random.one_in(4) {
            sequence.guests = sequence.comparison.guest_set_up()?;
        }
        let (model, random) = (&sequence.guests.model, &mut sequence.comparison.random);
        random.scribble(&mut sequence.page);
        if model.heard.is_empty() {
            let request_type = if model.phase == IDLE { GET_FLAGS } else { number(&model.request[0..4]) };
            ack = random.ack(request_type as u32);
        }
        if !random.one_in(8) {
            let rest = ack.iter().copied().skip(model.heard.len());
            put_octets(&mut sequence.page, RESPONSES, model.rsp_cons, rest);
        }
        let [unread_requests, unread_acks] = [(); 2].map(|()| random.distance());
        sequence.set_host_counts(unread_requests, unread_acks);
        sequence.spoil_own_counts();
        if sequence.comparison.random.one_in(16) {
            let mut other = sequence.comparison.random.page_of_other_length(&sequence.page);
            sequence.call(wanted, &mut other, 64)?;
        }
        let mut page = std::mem::take(&mut sequence.page);
        sequence.call(wanted, &mut page, 64)?;
        sequence.page = page;
    }
    Ok(())
}

/// A page, a key and a mapping without octets.
pub fn no_octets(
    comparison: &mut Comparison,
    call: Call,
    page: SliceMut<u8>,
    key: Slice<u8>,
    entries: Slice<u64>,
) -> Result<(), Difference> {
    let Sequence { comparison, mut guests, page: mut good_page } = Sequence::begin(comparison)?;
    if call == Call::GuestEvent {
        return comparison.guest_event(&mut guests, page).map(|_| ());
    }
    comparison.guest_start(&mut guests, page, good(call))?;
    let asked = match call {
        Call::GuestStartSetKey => Asked::SetKey(key),
        Call::GuestStartSetMapping => Asked::SetMapping(entries),
        _ => good(call),
    };
    comparison.guest_start(&mut guests, Some(&mut good_page), asked).map(|_| ())
}

/// A start with each room that cuts a short request and some that cut a long one, where the area's end or the highest
/// count is crossed or not; and then events, once the host has read nothing more, a few octets, and all.
pub fn rooms(comparison: &mut Comparison, start: Call) -> Result<(), Difference> {
    for req_prod in [0, 1000, 0u32.wrapping_sub(20)] {
        for room in (0..=60).chain(1000..=AREA) {
            let mut sequence = Sequence::begin_at(comparison, req_prod, 7)?;
            sequence.set_host_counts(AREA - room, 0);
            sequence.start(good(start))?;
            for read in [0, 5, AREA] {
                let unread = sequence.guests.model.req_prod.wrapping_sub(count(&sequence.page, 0));
                sequence.set_host_counts(unread - read.min(unread), 0);
                sequence.event()?;
            }
        }
    }
    Ok(())
}

/// Every combination of reasons to refuse a call: page, counts, an ack refused before or a request outstanding, value.
pub fn refusals(comparison: &mut Comparison, call: Call) -> Result<(), Difference> {
    for reasons in 0..2 * 2 * 2 * 2 * 3 {
        let [long_page, far_requests, far_acks, wrong_value] = [1, 2, 4, 8].map(|bit| reasons & bit != 0);
        let mut sequence = Sequence::begin(comparison)?;
        bring_to_phase(&mut sequence, reasons / 16)?;
        sequence.set_host_counts(AREA + u32::from(far_requests), AREA + u32::from(far_acks));
        sequence.spoil_own_counts();
        if long_page {
            sequence.page.push(0);
        }
        if call == Call::GuestEvent {
            sequence.event()?;
        } else {
            sequence.start(if wrong_value { wrong(call) } else { good(call) })?;
        }
    }
    Ok(())
}

fn bring_to_phase(sequence: &mut Sequence, phase: u32) -> Result<(), Difference> {
    if phase != IDLE {
        sequence.start(Asked::GetFlags)?;
    }
    if phase == FAILED {
        put_octets(&mut sequence.page, RESPONSES, sequence.guests.model.rsp_cons, [0xff; 8].into_iter());
        sequence.set_host_counts(0, 8);
        sequence.event()?;
    }
    Ok(())
}

/// For each request, acks with and without flags: cut in two at every place as they are, and at a random place with an
/// octet changed. They lie over the area's end, over the highest count, or at neither, at times with an ack behind.
pub fn acks(comparison: &mut Comparison) -> Result<(), Difference> {
    for start in STARTS {
        for (status, flags) in (0..5u64).flat_map(|status| [None, Some(15u64), Some(16)].map(|flags| (status, flags))) {
            let payload = [Some(status), flags].into_iter().flatten().flat_map(u64::to_le_bytes).collect::<Vec<u8>>();
            let ack = message(1, &payload);
            for cut in 0..=ack.len() {
                one_ack(comparison, start, &ack, cut)?;
            }
            for (at, change) in (0..ack.len()).flat_map(|at| [0x01, 0x18, 0x80].map(|change| (at, change))) {
                let mut changed = ack.clone();
                changed[at] ^= change;
                let cut = comparison.random.below(ack.len() as u64 + 1) as usize;
                one_ack(comparison, start, &changed, cut)?;
            }
        }
    }
    Ok(())
}

/// A request wholly read by the host, its ack in two parts with an event after each, and another start and event.
fn one_ack(comparison: &mut Comparison, start: Call, ack: &[u8], cut: usize) -> Result<(), Difference> {
    let rsp_cons = comparison.random.pick(&[0, 1010, 0u32.wrapping_sub(10)]);
    let mut sequence = Sequence::begin_at(comparison, 0, rsp_cons)?;
    if sequence.start(good(start))? == REQUEST_OWED {
        sequence.set_host_counts(0, 0);
        sequence.event()?;
    }
    let behind = message(1, &[0; 8]);
    put_octets(&mut sequence.page, RESPONSES, rsp_cons, ack.iter().chain(&behind).copied());
    let whole = ack.len() + sequence.comparison.random.pick(&[0, behind.len()]);
    for octets in [cut, whole] {
        let read = sequence.guests.model.rsp_cons.wrapping_sub(rsp_cons);
        sequence.set_host_counts(0, octets as u32 - read.min(octets as u32));
        sequence.spoil_own_counts();
        sequence.event()?;
    }
    sequence.start(good(start))?;
    sequence.event().map(|_| ())
}
