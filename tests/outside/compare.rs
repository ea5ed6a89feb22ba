//! One comparison for each call: the library and the rules get the same input and must leave the same behind.

pub mod guest;
pub mod set_ups;

use std::collections::BTreeMap;
use std::fmt;

use crate::inputs::Random;
use crate::library::{self, InterfaceRoom, Slice, SliceMut};
use crate::rules::{self, number, Rules, Steered};

/// What a call other than an event and the packet question answers where it is not refused.
pub const DONE: u32 = 0;
const UNHASHED: u32 = 0;
const HASHED: u32 = 1;

/// The calls of the library.
#[derive(Clone, Copy, PartialEq, Eq, PartialOrd, Ord)]
pub enum Call {
    SetUp,
    Event,
    Steer,
    Hash,
    TwoWay,
    WriteGetFlags,
    WriteSetFlags,
    WriteSetKey,
    WriteSetMapping,
    ReadAck,
    GuestSetUp,
    GuestStartGetFlags,
    GuestStartSetFlags,
    GuestStartSetKey,
    GuestStartSetMapping,
    GuestEvent,
}

impl Call {
    pub const ALL: [Call; 16] = [
        Call::SetUp,
        Call::Event,
        Call::Steer,
        Call::Hash,
        Call::TwoWay,
        Call::WriteGetFlags,
        Call::WriteSetFlags,
        Call::WriteSetKey,
        Call::WriteSetMapping,
        Call::ReadAck,
        Call::GuestSetUp,
        Call::GuestStartGetFlags,
        Call::GuestStartSetFlags,
        Call::GuestStartSetKey,
        Call::GuestStartSetMapping,
        Call::GuestEvent,
    ];

    /// The name of a call, and every answer that it has.
    pub fn described(self) -> (&'static str, &'static [u32]) {
        match self {
            Call::SetUp => ("zwerfen_set_up", &[DONE, rules::QUEUES]),
            Call::Event => (
                "zwerfen_event",
                &[
                    rules::WAITING,
                    rules::ACK_WRITTEN,
                    rules::ACK_OWED,
                    rules::PAGE_LENGTH,
                    rules::REQUEST_COUNT,
                    rules::RESPONSE_COUNT,
                ],
            ),
            Call::Steer => ("zwerfen_steer", &[UNHASHED, HASHED]),
            Call::Hash => ("zwerfen_hash", &[DONE, rules::INPUT_LENGTH, rules::KEY_LENGTH]),
            Call::TwoWay => ("zwerfen_two_way", &[DONE, rules::KEY_LENGTH, rules::HASH_TYPE]),
            Call::WriteGetFlags => ("zwerfen_write_get_flags", &[DONE, rules::BUFFER_LENGTH]),
            Call::WriteSetFlags => ("zwerfen_write_set_flags", &[DONE, rules::BUFFER_LENGTH, rules::VALUE]),
            Call::WriteSetKey => ("zwerfen_write_set_key", &[DONE, rules::KEY_LENGTH, rules::BUFFER_LENGTH]),
            Call::WriteSetMapping => ("zwerfen_write_set_mapping", &[DONE, rules::BUFFER_LENGTH, rules::VALUE]),
            Call::ReadAck => ("zwerfen_read_ack", &[DONE, rules::NOT_AN_ACK]),
            Call::GuestSetUp => ("zwerfen_guest_set_up", &[DONE]),
            // The numbers of the rules: 13 is of starts alone, 1 of events alone, and 8 and 11 are the writer's.
            Call::GuestStartGetFlags => ("zwerfen_guest_start_get_flags", &[0, 2, 3, 4, 5, 12, 13]),
            Call::GuestStartSetFlags => ("zwerfen_guest_start_set_flags", &[0, 2, 3, 4, 5, 11, 12, 13]),
            Call::GuestStartSetKey => ("zwerfen_guest_start_set_key", &[0, 2, 3, 4, 5, 8, 12, 13]),
            Call::GuestStartSetMapping => ("zwerfen_guest_start_set_mapping", &[0, 2, 3, 4, 5, 11, 12, 13]),
            Call::GuestEvent => ("zwerfen_guest_event", &[0, 1, 2, 3, 4, 5, 12]),
        }
    }
}

/// A number, octets, or a null pointer, as an input or as something that a call left.
#[derive(PartialEq)]
enum Value {
    Number(u64),
    Octets(Vec<u8>),
    Null,
}

impl Value {
    /// Where octets begin to be others than these.
    fn first_other_octet(&self, other: &Value) -> Option<usize> {
        match (self, other) {
            (Value::Octets(these), Value::Octets(those)) => these.iter().zip(those).position(|(a, b)| a != b),
            _ => None,
        }
    }
}

impl fmt::Display for Value {
    fn fmt(&self, out: &mut fmt::Formatter) -> fmt::Result {
        match self {
            Value::Number(number) => write!(out, "0x{number:x}"),
            Value::Octets(octets) => {
                write!(out, "{} octets ", octets.len())?;
                octets.iter().try_for_each(|octet| write!(out, "{octet:02x}"))
            }
            Value::Null => write!(out, "null"),
        }
    }
}

impl From<u32> for Value {
    fn from(number: u32) -> Value {
        Value::Number(number.into())
    }
}

impl From<u64> for Value {
    fn from(number: u64) -> Value {
        Value::Number(number)
    }
}

impl From<usize> for Value {
    fn from(number: usize) -> Value {
        Value::Number(number as u64)
    }
}

impl From<&[u8]> for Value {
    fn from(octets: &[u8]) -> Value {
        Value::Octets(octets.to_vec())
    }
}

impl From<&[u64]> for Value {
    fn from(numbers: &[u64]) -> Value {
        Value::Octets(numbers.iter().flat_map(|number| number.to_le_bytes()).collect())
    }
}

impl<'a, T> From<Slice<'a, T>> for Value
where
    Value: From<&'a [T]>,
{
    fn from(slice: Slice<'a, T>) -> Value {
        slice.map_or(Value::Null, Value::from)
    }
}

/// Values with their names.
type Facts = Vec<(&'static str, Value)>;

macro_rules! facts {
    ($(($name:literal, $value:expr)),* $(,)?) => { vec![$(($name, Value::from($value))),*] };
}

use facts;

/// What a call left: its answer, and what is in each place and slice that it was lent.
type Left = (u32, Facts);

/// An input for which the library left something else than the rules, in words.
pub struct Difference {
    pub call: Call,
    pub words: String,
}

/// A page as the library gets it: null, or with octets behind it that no call may touch.
struct Lent {
    before: Vec<u8>,
    is_null: bool,
    behind: Vec<u8>,
    octets: Vec<u8>,
}

impl Lent {
    /// The page for the library.
    fn page(&mut self) -> SliceMut<'_, u8> {
        if self.is_null {
            None
        } else {
            Some(&mut self.octets[..self.before.len()])
        }
    }

    /// The page as it was given.
    fn given(&self) -> Slice<'_, u8> {
        if self.is_null {
            None
        } else {
            Some(&self.before)
        }
    }

    /// What the rules leave of the page, and what is behind it.
    fn left_by_rules(&self, page: &[u8]) -> Vec<u8> {
        [page, &self.behind].concat()
    }
}

/// One interface twice: as the library keeps it and as the rules do.
pub struct Both {
    room: Box<InterfaceRoom>,
    pub model: rules::Interface,
}

impl Both {
    /// Puts other own counts into an interface that has just been set up: events could have brought it there.
    pub fn start_at(&mut self, req_cons: u32, rsp_prod: u32) {
        let interface = self.room.fields_mut();
        (interface.req_cons, interface.rsp_prod) = (req_cons.into(), rsp_prod.into());
        (self.model.req_cons, self.model.rsp_prod) = (req_cons, rsp_prod);
    }
}

/// What the rules settle of the library's interface; none if a length in it is outside of its array, or a count has
/// more than 32 bits.
fn settled(interface: &library::Interface) -> Option<rules::Interface> {
    let header = &interface.header[..interface.taken.min(8) as usize];
    let payload_kept = match number(&interface.header[4..8]) {
        0..=rules::MAX_PAYLOAD => interface.taken.saturating_sub(8),
        _ => 0,
    };
    let owed = interface.ack_written as usize..interface.ack_length as usize;
    Some(rules::Interface {
        queues: interface.queues,
        flags: interface.flags,
        key: interface.key.to_vec(),
        mapping: interface.entries.get(..interface.entry_count as usize)?.iter().map(|&e| e.into()).collect(),
        taken: interface.taken,
        kept: [header, interface.payload.get(..payload_kept as usize)?].concat(),
        req_cons: interface.req_cons.try_into().ok()?,
        owed: interface.ack.get(owed)?.to_vec(),
        rsp_prod: interface.rsp_prod.try_into().ok()?,
    })
}

fn fields_of(interface: &rules::Interface) -> Facts {
    facts![
        ("queues", interface.queues),
        ("flags", interface.flags),
        ("key", &interface.key[..]),
        ("mapping", &interface.mapping[..]),
        ("octets taken", interface.taken),
        ("octets kept", &interface.kept[..]),
        ("own req_cons", interface.req_cons),
        ("ack octets owed", &interface.owed[..]),
        ("own rsp_prod", interface.rsp_prod),
    ]
}

fn fields_in(room: &InterfaceRoom) -> Facts {
    match settled(room.fields()) {
        Some(interface) => fields_of(&interface),
        None => facts![("interface with a length outside of its array, or a count too long", room.octets())],
    }
}

/// What a call on a page leaves: the fields of the state or, where they must stay, all octets of it; and the page.
fn left_on_page(stays: bool, state: &[u8], fields: impl FnOnce() -> Facts, page: &[u8]) -> Facts {
    let mut facts = if stays { facts![("state", state)] } else { fields() };
    facts.extend(facts![("page and what is behind it", page)]);
    facts
}

/// The comparisons, with what they have counted so far.
pub struct Comparison<'a> {
    pub rules: &'a dyn Rules,
    pub random: Random,
    /// How often each call gave each of its answers.
    pub answers: BTreeMap<Call, BTreeMap<u32, u64>>,
}

impl<'a> Comparison<'a> {
    pub fn new(rules: &'a dyn Rules, seed: u64) -> Comparison<'a> {
        Comparison { rules, random: Random::new(seed), answers: BTreeMap::new() }
    }

    /// How many inputs a call has been compared on.
    pub fn inputs(&self, call: Call) -> u64 {
        self.answers.get(&call).map_or(0, |answers| answers.values().sum())
    }

    /// Counts an input, and reports it in full unless rules and library left the same.
    fn compare(
        &mut self,
        call: Call,
        input: impl FnOnce() -> Facts,
        rules: Left,
        library: Left,
    ) -> Result<(), Difference> {
        *self.answers.entry(call).or_default().entry(library.0).or_default() += 1;
        if rules == library {
            return Ok(());
        }
        let mut words = format!("{}: the library differs from the rules\n", call.described().0);
        for (name, value) in input() {
            words += &format!("  given    {name}: {value}\n");
        }
        for (who, these, those) in [("rules", &rules, &library), ("library", &library, &rules)] {
            words += &format!("  {who:7}  answer {}\n", these.0);
            for (name, value) in these.1.iter().filter(|fact| !those.1.contains(fact)) {
                let other = those.1.iter().find(|(other_name, _)| other_name == name);
                let place = other.and_then(|(_, other)| value.first_other_octet(other));
                let place = place.map_or(String::new(), |at| format!(", another from octet {at} on"));
                words += &format!("  {who:7}  {name}{place}: {value}\n");
            }
        }
        Err(Difference { call, words })
    }

    /// Octets to stand behind a buffer; with none, its memory ends there and a memory checker sees an access behind it.
    fn behind(&mut self) -> Vec<u8> {
        let length = self.random.pick(&[0, 32]);
        self.random.octets(length)
    }

    /// A page to lend to the library, with a copy of it.
    fn lend(&mut self, page: &[u8], is_null: bool) -> Lent {
        let behind = self.behind();
        Lent { before: page.to_vec(), is_null, octets: [page, &behind].concat(), behind }
    }

    /// Setup of both; gives the interface unless it is refused.
    pub fn set_up(&mut self, queues: u32) -> Result<Option<Both>, Difference> {
        let mut room = InterfaceRoom::filled(self.random.next() as u8);
        let before = room.octets().to_vec();
        let answer = library::set_up(&mut room, queues);
        let by_library = if answer == DONE { fields_in(&room) } else { facts![("interface", room.octets())] };
        let model = self.rules.set_up(queues);
        let by_rules = match &model {
            Ok(model) => (DONE, fields_of(model)),
            Err(refusal) => (*refusal, facts![("interface", &before[..])]),
        };
        let input = || facts![("queues", queues), ("interface", &before[..])];
        self.compare(Call::SetUp, input, by_rules, (answer, by_library))?;
        Ok(model.ok().map(|model| Both { room, model }))
    }

    /// One event of both on the page, which is left as the rules leave it; null is a page of no octets.
    pub fn event(&mut self, both: &mut Both, page: SliceMut<u8>) -> Result<u32, Difference> {
        let is_null = page.is_none();
        let page = page.unwrap_or_default();
        let interface_before = both.room.octets().to_vec();
        let mut lent = self.lend(page, is_null);

        let answer = library::event(&mut both.room, lent.page());
        let is_refused = |answer| answer >= rules::PAGE_LENGTH;
        let room = &both.room;
        let by_library = left_on_page(is_refused(answer), room.octets(), || fields_in(room), &lent.octets);
        let rules_answer = self.rules.event(&mut both.model, page);
        let (model, rules_page) = (&both.model, lent.left_by_rules(page));
        let by_rules = left_on_page(is_refused(rules_answer), &interface_before, || fields_of(model), &rules_page);

        let input = || facts![("interface", &interface_before[..]), ("page", lent.given())];
        self.compare(Call::Event, input, (rules_answer, by_rules), (answer, by_library))?;
        Ok(answer)
    }

    /// The packet question to both, and whether the queue is one that there is.
    pub fn steer(&mut self, both: &Both, packet: Slice<u8>) -> Result<(), Difference> {
        let before = [(); 3].map(|()| self.random.next() as u32);
        let [mut hash_type, mut hash, mut queue] = before;
        let answer = library::steer(&both.room, packet, &mut hash_type, &mut hash, &mut queue);
        let is_queue = u64::from(queue) < both.model.queues;
        let left = |hash_type: u32, hash: u32, queue: u64, is_queue: bool| {
            facts![("hash type", hash_type), ("hash", hash), ("queue", queue), ("queue is below", u32::from(is_queue))]
        };
        let by_rules = match self.rules.steer(&both.model, packet.unwrap_or_default()) {
            Some(Steered { hash_type, hash, queue }) => (HASHED, left(hash_type, hash, queue, true)),
            None => (UNHASHED, left(before[0], before[1], 0, true)),
        };
        let input = || facts![("interface", both.room.octets()), ("packet", packet)];
        self.compare(Call::Steer, input, by_rules, (answer, left(hash_type, hash, queue.into(), is_queue)))
    }

    pub fn hash(&mut self, key: Slice<u8>, input: Slice<u8>) -> Result<(), Difference> {
        let before = self.random.next() as u32;
        let mut hash = before;
        let answer = library::hash(key, input, &mut hash);
        let by_rules = match self.rules.hash(key.unwrap_or_default(), input.unwrap_or_default()) {
            Ok(hash) => (DONE, facts![("hash", hash)]),
            Err(refusal) => (refusal, facts![("hash", before)]),
        };
        self.compare(Call::Hash, || facts![("key", key), ("input", input)], by_rules, (answer, facts![("hash", hash)]))
    }

    pub fn two_way(&mut self, key: Slice<u8>, hash_type: u32) -> Result<(), Difference> {
        let before = (self.random.next() as u32, self.random.next() as usize);
        let (mut meet, mut bit) = before;
        let answer = library::two_way(key, hash_type, &mut meet, &mut bit);
        let left = |meet: u32, bit: usize| facts![("meet", meet), ("bit", bit)];
        let by_rules = match self.rules.two_way(key.unwrap_or_default(), hash_type) {
            Ok(None) => (DONE, left(1, before.1)),
            Ok(Some(bit)) => (DONE, left(0, bit)),
            Err(refusal) => (refusal, left(before.0, before.1)),
        };
        let input = || facts![("key", key), ("hash type", hash_type)];
        self.compare(Call::TwoWay, input, by_rules, (answer, left(meet, bit)))
    }

    /// A writer of requests; a buffer length of none is a null buffer.
    fn write(
        &mut self,
        call: Call,
        input: impl FnOnce() -> Facts,
        buffer_length: Option<usize>,
        rules: impl FnOnce(&dyn Rules, &mut [u8]) -> Result<usize, u32>,
        library: impl FnOnce(SliceMut<u8>, &mut usize) -> u32,
    ) -> Result<(), Difference> {
        let length_before = self.random.next() as usize;
        let mut buffer = self.random.octets(buffer_length.unwrap_or(0) as u64);
        buffer.extend(self.behind());
        buffer.shrink_to_fit();
        let before = buffer.clone();
        let mut by_rules = buffer.clone();
        let rules_answer = rules(self.rules, &mut by_rules[..buffer_length.unwrap_or(0)]);
        let mut length = length_before;
        let answer = library(buffer_length.map(|length| &mut buffer[..length]), &mut length);
        let left = |buffer: &[u8], length: usize| facts![("buffer and what is behind it", buffer), ("length", length)];
        let (rules_answer, rules_length) = match rules_answer {
            Ok(length) => (DONE, length),
            Err(refusal) => (refusal, length_before),
        };
        let given = || {
            let mut given = input();
            given.extend(facts![("buffer and what is behind it", &before[..])]);
            given.push(("buffer length", buffer_length.map_or(Value::Null, Value::from)));
            given
        };
        self.compare(call, given, (rules_answer, left(&by_rules, rules_length)), (answer, left(&buffer, length)))
    }

    pub fn write_get_flags(&mut self, buffer_length: Option<usize>) -> Result<(), Difference> {
        let rules = |rules: &dyn Rules, buffer: &mut [u8]| rules.write_get_flags(buffer);
        self.write(Call::WriteGetFlags, Facts::new, buffer_length, rules, library::write_get_flags)
    }

    pub fn write_set_flags(&mut self, buffer_length: Option<usize>, flags: u64) -> Result<(), Difference> {
        let rules = |rules: &dyn Rules, buffer: &mut [u8]| rules.write_set_flags(buffer, flags);
        let library = |buffer: SliceMut<u8>, length: &mut usize| library::write_set_flags(buffer, flags, length);
        self.write(Call::WriteSetFlags, || facts![("flags", flags)], buffer_length, rules, library)
    }

    pub fn write_set_key(&mut self, buffer_length: Option<usize>, key: Slice<u8>) -> Result<(), Difference> {
        let rules = |rules: &dyn Rules, buffer: &mut [u8]| rules.write_set_key(buffer, key.unwrap_or_default());
        let library = |buffer: SliceMut<u8>, length: &mut usize| library::write_set_key(buffer, key, length);
        self.write(Call::WriteSetKey, || facts![("key", key)], buffer_length, rules, library)
    }

    pub fn write_set_mapping(&mut self, buffer_length: Option<usize>, entries: Slice<u64>) -> Result<(), Difference> {
        let rules = |rules: &dyn Rules, buffer: &mut [u8]| rules.write_set_mapping(buffer, entries.unwrap_or_default());
        let library = |buffer: SliceMut<u8>, length: &mut usize| library::write_set_mapping(buffer, entries, length);
        self.write(Call::WriteSetMapping, || facts![("entries", entries)], buffer_length, rules, library)
    }

    /// The ack reader of both; gives the answer.
    pub fn read_ack(&mut self, request_type: u32, message: Slice<u8>) -> Result<u32, Difference> {
        let before = (self.random.next() as u32, self.random.next() as u32);
        let (mut status, mut flags) = before;
        let answer = library::read_ack(request_type, message, &mut status, &mut flags);
        let left = |status: u64, flags: u64| facts![("status", status), ("flags", flags)];
        let by_rules = match self.rules.read_ack(request_type, message.unwrap_or_default()) {
            Ok((status, flags)) => (DONE, left(status, flags.unwrap_or(before.1.into()))),
            Err(refusal) => (refusal, left(before.0.into(), before.1.into())),
        };
        let input = || facts![("request type", request_type), ("message", message)];
        self.compare(Call::ReadAck, input, by_rules, (answer, left(status.into(), flags.into())))?;
        Ok(answer)
    }
}
