//! The comparisons of the calls at the guest's end.

use super::{facts, left_on_page, Call, Comparison, Difference, Facts, Left, Value, DONE};
use crate::library::{self, GuestRoom, SliceMut};
use crate::rules::{self, Asked, Guest, Rules};

/// One guest twice: as the library keeps it and as the rules do.
pub struct BothGuests {
    room: Box<GuestRoom>,
    pub model: Guest,
}

impl BothGuests {
    /// Puts other own counts into a guest that has just been set up: calls could have brought it there.
    pub fn start_at(&mut self, req_prod: u32, rsp_cons: u32) {
        let guest = self.room.fields_mut();
        (guest.req_prod, guest.rsp_cons) = (req_prod.into(), rsp_cons.into());
        (self.model.req_prod, self.model.rsp_cons) = (req_prod, rsp_cons);
    }
}

/// What the rules settle of the library's guest; none if a length in it is outside of its array, or a count has more
/// than 32 bits.
fn settled(guest: &library::Guest) -> Option<Guest> {
    let header = &guest.header[..guest.taken.min(8) as usize];
    let payload = guest.payload.get(..guest.taken.saturating_sub(8) as usize)?;
    Some(Guest {
        phase: guest.phase.try_into().ok()?,
        request: guest.request.get(..guest.length as usize)?.to_vec(),
        written: guest.written as usize,
        req_prod: guest.req_prod.try_into().ok()?,
        heard: [header, payload].concat(),
        rsp_cons: guest.rsp_cons.try_into().ok()?,
    })
}

fn fields_of(guest: &Guest) -> Facts {
    facts![
        ("phase", guest.phase),
        ("request", &guest.request[..]),
        ("octets written", guest.written),
        ("own req_prod", guest.req_prod),
        ("octets of the ack", &guest.heard[..]),
        ("own rsp_cons", guest.rsp_cons),
    ]
}

fn fields_in(room: &GuestRoom) -> Facts {
    match settled(room.fields()) {
        Some(guest) => fields_of(&guest),
        None => facts![("guest with a length outside of its array, or a count too long", room.octets())],
    }
}

/// Which call starts a request.
pub fn start_of(asked: Asked) -> Call {
    match asked {
        Asked::GetFlags => Call::GuestStartGetFlags,
        Asked::SetFlags(_) => Call::GuestStartSetFlags,
        Asked::SetKey(_) => Call::GuestStartSetKey,
        Asked::SetMapping(_) => Call::GuestStartSetMapping,
    }
}

fn facts_of(asked: Asked) -> Facts {
    match asked {
        Asked::GetFlags => vec![],
        Asked::SetFlags(flags) => facts![("flags", flags)],
        Asked::SetKey(key) => facts![("key", key)],
        Asked::SetMapping(entries) => facts![("entries", entries)],
    }
}

impl Comparison<'_> {
    /// Setup of both guests.
    pub fn guest_set_up(&mut self) -> Result<BothGuests, Difference> {
        let mut room = GuestRoom::filled(self.random.next() as u8);
        let before = room.octets().to_vec();
        library::guest_set_up(&mut room);
        let model = self.rules.guest_set_up();
        let input = || facts![("guest", &before[..])];
        self.compare(Call::GuestSetUp, input, (DONE, fields_of(&model)), (DONE, fields_in(&room)))?;
        Ok(BothGuests { room, model })
    }

    /// A call of both guests on the page, which is left as the rules leave it; null is a page of no octets. What rules
    /// and library left in the places of a call comes with their answers.
    fn on_guests(
        &mut self,
        call: Call,
        input: impl FnOnce() -> Facts,
        both: &mut BothGuests,
        page: SliceMut<u8>,
        rules: impl FnOnce(&dyn Rules, &mut Guest, &mut [u8]) -> Left,
        library: impl FnOnce(&mut GuestRoom, SliceMut<u8>) -> Left,
    ) -> Result<u32, Difference> {
        let is_null = page.is_none();
        let page = page.unwrap_or_default();
        let (guest_before, phase_before) = (both.room.octets().to_vec(), both.model.phase);
        let mut lent = self.lend(page, is_null);
        // A refusal leaves every octet of the guest, unless it is that of an ack at this call.
        let stays = |answer| {
            answer >= rules::PAGE_LENGTH && !(answer == rules::NOT_AN_ACK && phase_before == rules::OUTSTANDING)
        };

        let (answer, mut by_library) = library(&mut both.room, lent.page());
        let room = &both.room;
        by_library.extend(left_on_page(stays(answer), room.octets(), || fields_in(room), &lent.octets));
        let (rules_answer, mut by_rules) = rules(self.rules, &mut both.model, page);
        let (model, rules_page) = (&both.model, lent.left_by_rules(page));
        by_rules.extend(left_on_page(stays(rules_answer), &guest_before, || fields_of(model), &rules_page));

        let given = || {
            let mut given = input();
            given.extend(facts![("guest", &guest_before[..]), ("page", lent.given())]);
            given
        };
        self.compare(call, given, (rules_answer, by_rules), (answer, by_library))?;
        Ok(answer)
    }

    /// A start of both guests.
    pub fn guest_start(&mut self, both: &mut BothGuests, page: SliceMut<u8>, asked: Asked) -> Result<u32, Difference> {
        let rules = |rules: &dyn Rules, guest: &mut Guest, page: &mut [u8]| {
            (rules.guest_start(guest, page, asked), Facts::new())
        };
        let library = |room: &mut GuestRoom, page: SliceMut<u8>| {
            let answer = match asked {
                Asked::GetFlags => library::guest_start_get_flags(room, page),
                Asked::SetFlags(flags) => library::guest_start_set_flags(room, page, flags),
                Asked::SetKey(key) => library::guest_start_set_key(room, page, key),
                Asked::SetMapping(entries) => library::guest_start_set_mapping(room, page, entries),
            };
            (answer, Facts::new())
        };
        self.on_guests(start_of(asked), || facts_of(asked), both, page, rules, library)
    }

    /// An event of both guests; gives the answer, and the status where the ack is read.
    pub fn guest_event(&mut self, both: &mut BothGuests, page: SliceMut<u8>) -> Result<(u32, Option<u64>), Difference> {
        let before = (self.random.next() as u32, self.random.next() as u32);
        let (mut status, mut flags) = before;
        let left = |status: u64, flags: u64| facts![("status", status), ("flags", flags)];
        let rules = |rules: &dyn Rules, guest: &mut Guest, page: &mut [u8]| match rules.guest_event(guest, page) {
            Ok((status, flags)) => (rules::ACK_READ, left(status, flags.unwrap_or(before.1.into()))),
            Err(answer) => (answer, left(before.0.into(), before.1.into())),
        };
        let library = |room: &mut GuestRoom, page: SliceMut<u8>| {
            let answer = library::guest_event(room, page, &mut status, &mut flags);
            (answer, left(status.into(), flags.into()))
        };
        let answer = self.on_guests(Call::GuestEvent, Facts::new, both, page, rules, library)?;
        Ok((answer, (answer == rules::ACK_READ).then_some(status.into())))
    }
}
