//! The rules of every call, one bit or octet at a time and written apart from the library, to compare the library with.
//!
//! A rule is a method of `Rules`, so that the self-check can change one of them and keep the others.

pub const WAITING: u32 = 0;
pub const ACK_WRITTEN: u32 = 1;
pub const ACK_OWED: u32 = 2;
pub const PAGE_LENGTH: u32 = 3;
pub const REQUEST_COUNT: u32 = 4;
pub const RESPONSE_COUNT: u32 = 5;
pub const QUEUES: u32 = 6;
pub const INPUT_LENGTH: u32 = 7;
pub const KEY_LENGTH: u32 = 8;
pub const HASH_TYPE: u32 = 9;
pub const BUFFER_LENGTH: u32 = 10;
pub const VALUE: u32 = 11;
pub const NOT_AN_ACK: u32 = 12;
pub const REQUEST_OUTSTANDING: u32 = 13;

pub const REQUEST_PENDING: u32 = 0;
pub const ACK_READ: u32 = 1;
pub const REQUEST_OWED: u32 = 2;

pub const IDLE: u32 = 0;
pub const OUTSTANDING: u32 = 1;
pub const FAILED: u32 = 2;

pub const ACK: u64 = 1;
pub const GET_FLAGS: u64 = 2;
pub const SET_FLAGS: u64 = 3;
pub const SET_KEY: u64 = 4;
pub const SET_MAPPING: u64 = 5;

pub const SUCCESS: u64 = 0;
pub const NOT_SUPPORTED: u64 = 1;
pub const INVALID_PARAMETER: u64 = 2;
pub const BUFFER_OVERFLOW: u64 = 3;

pub const PAGE: usize = 4096;
pub const AREA: u32 = 1024;
pub const REQUESTS: usize = 16;
pub const RESPONSES: usize = 1040;
pub const HEADER: usize = 8;
pub const KEY: usize = 40;
pub const MAX_PAYLOAD: u64 = 1024;
pub const MAX_REQUEST: usize = 1032;
pub const MAX_ENTRIES: u64 = 128;
pub const MAX_FLAGS: u64 = 15;

/// One interface of the host, as far as the rules settle it.
#[derive(Clone, PartialEq)]
pub struct Interface {
    pub queues: u64,
    pub flags: u64,
    pub key: Vec<u8>,
    pub mapping: Vec<u64>,
    /// How many octets of the present request are read.
    pub taken: u64,
    /// Those of them that are kept: the header, and a payload of at most 1,024 octets.
    pub kept: Vec<u8>,
    pub req_cons: u32,
    /// The ack's octets that are not on the page yet.
    pub owed: Vec<u8>,
    pub rsp_prod: u32,
}

/// The guest's end of a ring, as far as the rules settle it.
#[derive(Clone, PartialEq)]
pub struct Guest {
    pub phase: u32,
    /// The present request, or the last one.
    pub request: Vec<u8>,
    /// How many octets of it are on the page.
    pub written: usize,
    pub req_prod: u32,
    /// The octets read of the present ack.
    pub heard: Vec<u8>,
    pub rsp_cons: u32,
}

/// A request that a guest is asked to start; none is a null pointer, which has no octets and no entries.
#[derive(Clone, Copy)]
pub enum Asked<'a> {
    GetFlags,
    SetFlags(u64),
    SetKey(Option<&'a [u8]>),
    SetMapping(Option<&'a [u64]>),
}

/// What an ack says: a status, and flags if it has any.
pub type AckSays = (u64, Option<u64>);

/// Type, hash and queue of a packet.
pub struct Steered {
    pub hash_type: u32,
    pub hash: u32,
    pub queue: u64,
}

/// Octets are a number with the lowest octet first.
pub fn number(octets: &[u8]) -> u64 {
    octets.iter().rev().fold(0, |number, &octet| number << 8 | u64::from(octet))
}

/// A count on the page is four octets.
pub fn count(page: &[u8], at: usize) -> u32 {
    number(&page[at..at + 4]) as u32
}

pub fn set_count(page: &mut [u8], at: usize, count: u32) {
    page[at..at + 4].copy_from_slice(&count.to_le_bytes());
}

/// An octet with count c stands at c modulo 1,024 in its area; these begin with this count.
pub fn put_octets(page: &mut [u8], area: usize, from: u32, octets: impl Iterator<Item = u8>) {
    for (i, octet) in octets.enumerate() {
        page[area + (from.wrapping_add(i as u32) % AREA) as usize] = octet;
    }
}

/// A message is its type and the size of its payload in four octets each, and the payload.
pub fn message(kind: u64, payload: &[u8]) -> Vec<u8> {
    [&kind.to_le_bytes()[..4], &payload.len().to_le_bytes()[..4], payload].concat()
}

/// Bit 0 is the top bit of octet 0.
fn bit(octets: &[u8], i: usize) -> bool {
    octets[i / 8] >> (7 - i % 8) & 1 == 1
}

/// The lengths of a mapping are 1, 2, 4, .. 128.
fn is_mapping_length(entries: u64) -> bool {
    (0..8).any(|power| entries == 1 << power)
}

pub trait Rules {
    /// The window at i is the key's bits i to i + 31, with bit i on top.
    fn window(&self, key: &[u8], i: usize) -> u32 {
        (i..i + 32).fold(0, |window, i| window << 1 | u32::from(bit(key, i)))
    }

    /// The published hash is the XOR of the windows at the set bits of the input.
    fn published_hash(&self, key: &[u8], input: &[u8]) -> u32 {
        (0..8 * input.len()).filter(|&i| bit(input, i)).fold(0, |hash, i| hash ^ self.window(key, i))
    }

    /// The longest hash input has 36 octets.
    fn longest_input(&self) -> usize {
        36
    }

    /// The hash is answered for a key of 40 octets, looked at first, and an input that is not too long.
    fn hash(&self, key: &[u8], input: &[u8]) -> Result<u32, u32> {
        if key.len() != KEY {
            return Err(KEY_LENGTH);
        }
        if input.len() > self.longest_input() {
            return Err(INPUT_LENGTH);
        }
        Ok(self.published_hash(key, input))
    }

    /// An input begins with two addresses, of 4 octets for the types 0 and 1 and of 16 for 2 and 3.
    fn address_octets(&self, hash_type: u32) -> usize {
        if hash_type < 2 {
            2 * 4
        } else {
            2 * 16
        }
    }

    /// An input of a TCP type, 1 or 3, ends with two ports of 2 octets.
    fn port_octets(&self, hash_type: u32) -> usize {
        if hash_type % 2 == 1 {
            2 * 2
        } else {
            0
        }
    }

    /// The reverse of an input has its addresses exchanged, and its ports.
    fn reverse(&self, hash_type: u32, input: &[u8]) -> Vec<u8> {
        let (addresses, ports) = input.split_at(self.address_octets(hash_type));
        let (source, destination) = addresses.split_at(addresses.len() / 2);
        let (source_port, destination_port) = ports.split_at(ports.len() / 2);
        [destination, source, destination_port, source_port].concat()
    }

    /// Whether an input with this bit alone set has another published hash than its reverse.
    fn tells_apart(&self, key: &[u8], hash_type: u32, bit: usize) -> bool {
        let mut input = vec![0; self.address_octets(hash_type) + self.port_octets(hash_type)];
        input[bit / 8] = 0x80 >> (bit % 8);
        self.published_hash(key, &input) != self.published_hash(key, &self.reverse(hash_type, &input))
    }

    /// The two-way answer is the lowest bit that tells an input from its reverse, or none; the key is looked at first.
    fn two_way(&self, key: &[u8], hash_type: u32) -> Result<Option<usize>, u32> {
        if key.len() != KEY {
            return Err(KEY_LENGTH);
        }
        if hash_type > 3 {
            return Err(HASH_TYPE);
        }
        let bits = 8 * (self.address_octets(hash_type) + self.port_octets(hash_type));
        Ok((0..bits).find(|&bit| self.tells_apart(key, hash_type, bit)))
    }

    /// An interface has 1 to 64 queues.
    fn most_queues(&self) -> u32 {
        64
    }

    /// An interface begins with no flags, a key of zeros, the mapping of one entry 0, nothing read and nothing owed.
    fn set_up(&self, queues: u32) -> Result<Interface, u32> {
        if queues == 0 || queues > self.most_queues() {
            return Err(QUEUES);
        }
        Ok(Interface {
            queues: u64::from(queues),
            flags: 0,
            key: vec![0; KEY],
            mapping: vec![0],
            taken: 0,
            kept: vec![],
            req_cons: 0,
            owed: vec![],
            rsp_prod: 0,
        })
    }

    /// A setup writes every octet, so that it leaves what another one alike left, whatever memory and stack had before. A
    /// refused one leaves what was there.
    fn after_set_up(&self, is_refused: bool, alike: &[u8], before: &[u8]) -> Vec<u8> {
        if is_refused { before } else { alike }.to_vec()
    }

    /// A producer's count may be at most this far ahead of the consumer's.
    fn farthest(&self) -> u32 {
        AREA
    }

    /// An event writes what is owed or else reads the present request; its own counts go back to the page.
    fn event(&self, interface: &mut Interface, page: &mut [u8]) -> u32 {
        if page.len() != PAGE {
            return PAGE_LENGTH;
        }
        if count(page, 4).wrapping_sub(interface.req_cons) > self.farthest() {
            return REQUEST_COUNT;
        }
        if interface.rsp_prod.wrapping_sub(count(page, 8)) > self.farthest() {
            return RESPONSE_COUNT;
        }
        if interface.owed.is_empty() {
            self.read_request(interface, page);
        }
        let answer = if interface.owed.is_empty() { WAITING } else { self.write_ack(interface, page) };
        set_count(page, 0, interface.req_cons);
        set_count(page, 12, interface.rsp_prod);
        answer
    }

    /// Octets of the present request are read until it is whole or none is left; a whole one is carried out.
    fn read_request(&self, interface: &mut Interface, page: &[u8]) {
        let req_prod = count(page, 4);
        while interface.req_cons != req_prod {
            let octet = page[REQUESTS + (interface.req_cons % AREA) as usize];
            interface.req_cons = interface.req_cons.wrapping_add(1);
            self.take(interface, octet);
            if self.is_whole(interface) {
                interface.owed = self.carry_out(interface);
                return;
            }
        }
    }

    /// Every octet of a request is counted; those of a payload above 1,024 octets are not kept.
    fn take(&self, interface: &mut Interface, octet: u8) {
        if interface.taken < HEADER as u64 || number(&interface.kept[4..8]) <= MAX_PAYLOAD {
            interface.kept.push(octet);
        }
        interface.taken += 1;
    }

    /// A request is whole with its header and as many octets behind it as the header says.
    fn is_whole(&self, interface: &Interface) -> bool {
        interface.taken >= HEADER as u64 && interface.taken == HEADER as u64 + number(&interface.kept[4..8])
    }

    /// A whole request is judged, replaces its setting whole if it succeeds, and is acked.
    fn carry_out(&self, interface: &mut Interface) -> Vec<u8> {
        let request = std::mem::take(&mut interface.kept);
        interface.taken = 0;
        let (kind, size, payload) = (number(&request[0..4]), number(&request[4..8]), &request[8..]);
        let status = self.status(kind, size, payload, interface.queues);
        if status == SUCCESS {
            match kind {
                SET_FLAGS => interface.flags = number(payload),
                SET_KEY => interface.key = payload.to_vec(),
                SET_MAPPING => interface.mapping = payload.chunks(8).map(number).collect(),
                _ => {}
            }
        }
        self.ack(kind, status)
    }

    /// A request's status follows from its type, and for the types 2 to 5 from its size and payload.
    fn status(&self, kind: u64, size: u64, payload: &[u8], queues: u64) -> u64 {
        match kind {
            GET_FLAGS if size != 0 => INVALID_PARAMETER,
            SET_FLAGS if size != 8 || number(payload) > MAX_FLAGS => INVALID_PARAMETER,
            SET_KEY if size != KEY as u64 => INVALID_PARAMETER,
            SET_MAPPING => self.mapping_status(size, payload, queues),
            GET_FLAGS | SET_FLAGS | SET_KEY => SUCCESS,
            _ => NOT_SUPPORTED,
        }
    }

    /// A mapping has entries of 8 octets, a power of two of them, at most 128, and each is a queue that there is.
    fn mapping_status(&self, size: u64, payload: &[u8], queues: u64) -> u64 {
        if size % 8 != 0 || !(size / 8).is_power_of_two() {
            return INVALID_PARAMETER;
        }
        if size / 8 > MAX_ENTRIES {
            return BUFFER_OVERFLOW;
        }
        let good = payload.chunks(8).all(|entry| self.is_queue(number(entry), queues));
        if good {
            SUCCESS
        } else {
            INVALID_PARAMETER
        }
    }

    /// Queues are numbered from 0, and all 8 octets of an entry count.
    fn is_queue(&self, entry: u64, queues: u64) -> bool {
        entry < queues
    }

    /// An ack has the status in 8 octets, and for a get flags that succeeds 8 more with the supported flags, 15.
    fn ack(&self, kind: u64, status: u64) -> Vec<u8> {
        let mut payload = status.to_le_bytes().to_vec();
        if kind == GET_FLAGS && status == SUCCESS {
            payload.extend(MAX_FLAGS.to_le_bytes());
        }
        message(ACK, &payload)
    }

    /// Owed octets are written in order as long as the response area has a free place.
    fn write_ack(&self, interface: &mut Interface, page: &mut [u8]) -> u32 {
        while !interface.owed.is_empty() && interface.rsp_prod.wrapping_sub(count(page, 8)) < AREA {
            page[RESPONSES + (interface.rsp_prod % AREA) as usize] = interface.owed.remove(0);
            interface.rsp_prod = interface.rsp_prod.wrapping_add(1);
        }
        if interface.owed.is_empty() {
            ACK_WRITTEN
        } else {
            ACK_OWED
        }
    }

    /// An IPv4 packet has 20 octets or more and begins with 0x45.
    fn is_ipv4(&self, packet: &[u8]) -> bool {
        packet.len() >= 20 && packet[0] == 0x45
    }

    /// An IPv6 packet has 40 octets or more and its top four bits are 6.
    fn is_ipv6(&self, packet: &[u8]) -> bool {
        packet.len() >= 40 && packet[0] >> 4 == 6
    }

    /// Octets 6 and 7 of an IPv4 packet are 16 bits, the upper octet first (RFC 791).
    fn fragment_field(&self, packet: &[u8]) -> u16 {
        u16::from_be_bytes([packet[6], packet[7]])
    }

    /// Below a reserved bit and the don't-fragment bit, these are the more-fragments bit and 13 bits of fragment offset.
    fn fragment_bits(&self) -> u16 {
        1 << 13 | (1 << 13) - 1
    }

    /// An IPv4 packet is a fragment if any of these bits is set.
    fn is_fragment(&self, packet: &[u8]) -> bool {
        self.fragment_field(packet) & self.fragment_bits() != 0
    }

    /// A packet is TCP if its protocol, octet 9 of IPv4 and octet 6 of IPv6, is 6 and both ports are there; a fragment of
    /// IPv4 is not.
    fn is_tcp(&self, packet: &[u8]) -> bool {
        self.is_ipv4(packet) && packet[9] == 6 && packet.len() >= 24 && !self.is_fragment(packet)
            || self.is_ipv6(packet) && packet[6] == 6 && packet.len() >= 44
    }

    /// A packet may use its TCP type, if it is TCP, and behind it its plain type.
    fn types_of(&self, packet: &[u8]) -> Vec<u32> {
        match (self.is_ipv4(packet), self.is_ipv6(packet), self.is_tcp(packet)) {
            (true, _, true) => vec![1, 0],
            (true, _, false) => vec![0],
            (_, true, true) => vec![3, 2],
            (_, true, false) => vec![2],
            _ => vec![],
        }
    }

    /// The hash input is the addresses, from octet 12 of IPv4 and 8 of IPv6, and for TCP types the ports behind them.
    fn input_of(&self, hash_type: u32, packet: &[u8]) -> Vec<u8> {
        let from = if hash_type < 2 { 12 } else { 8 };
        packet[from..from + self.address_octets(hash_type) + self.port_octets(hash_type)].to_vec()
    }

    /// The first type whose flag is set gives the hash; the queue is the mapping's entry at hash modulo its length.
    fn steer(&self, interface: &Interface, packet: &[u8]) -> Option<Steered> {
        let hash_type = self.types_of(packet).into_iter().find(|hash_type| interface.flags >> hash_type & 1 == 1)?;
        let hash = self.published_hash(&interface.key, &self.input_of(hash_type, packet));
        Some(Steered { hash_type, hash, queue: interface.mapping[hash as usize % interface.mapping.len()] })
    }

    /// A message that fits goes to the start of the buffer, and what is behind it stays.
    fn put(&self, buffer: &mut [u8], message: &[u8]) -> Result<usize, u32> {
        if buffer.len() < message.len() {
            return Err(BUFFER_LENGTH);
        }
        buffer[..message.len()].copy_from_slice(message);
        Ok(message.len())
    }

    /// A get flags has no payload.
    fn write_get_flags(&self, buffer: &mut [u8]) -> Result<usize, u32> {
        self.put(buffer, &message(GET_FLAGS, &[]))
    }

    /// A set flags has the flags, at most 15, in 8 octets.
    fn write_set_flags(&self, buffer: &mut [u8], flags: u64) -> Result<usize, u32> {
        if flags > MAX_FLAGS {
            return Err(VALUE);
        }
        self.put(buffer, &message(SET_FLAGS, &flags.to_le_bytes()))
    }

    /// A set key has the 40 octets of the key.
    fn write_set_key(&self, buffer: &mut [u8], key: &[u8]) -> Result<usize, u32> {
        if key.len() != KEY {
            return Err(KEY_LENGTH);
        }
        self.put(buffer, &message(SET_KEY, key))
    }

    /// A set mapping has 1, 2, 4, .. 128 entries of 8 octets, whatever queues they name.
    fn write_set_mapping(&self, buffer: &mut [u8], entries: &[u64]) -> Result<usize, u32> {
        if !is_mapping_length(entries.len() as u64) {
            return Err(VALUE);
        }
        let payload: Vec<u8> = entries.iter().flat_map(|entry| entry.to_le_bytes()).collect();
        self.put(buffer, &message(SET_MAPPING, &payload))
    }

    /// An ack's status is at most 3, and 1 alone for a request that is none of the four.
    fn is_status(&self, request_type: u64, status: u64) -> bool {
        if (GET_FLAGS..=SET_MAPPING).contains(&request_type) {
            status <= BUFFER_OVERFLOW
        } else {
            status == NOT_SUPPORTED
        }
    }

    /// An ack has type 1, its size, and a status; only a get flags that succeeds has flags, at most 15, behind it.
    fn read_ack(&self, request_type: u32, message: &[u8]) -> Result<AckSays, u32> {
        let kind = u64::from(request_type);
        if message.len() < 16 || number(&message[0..4]) != ACK || number(&message[4..8]) + 8 != message.len() as u64 {
            return Err(NOT_AN_ACK);
        }
        let status = number(&message[8..16]);
        let has_flags = kind == GET_FLAGS && status == SUCCESS;
        if !self.is_status(kind, status) || message.len() != if has_flags { 24 } else { 16 } {
            return Err(NOT_AN_ACK);
        }
        if has_flags && number(&message[16..24]) > MAX_FLAGS {
            return Err(NOT_AN_ACK);
        }
        Ok((status, has_flags.then(|| number(&message[16..24]))))
    }

    /// A guest begins with no request, nothing written and nothing read.
    fn guest_set_up(&self) -> Guest {
        Guest { phase: IDLE, request: vec![], written: 0, req_prod: 0, heard: vec![], rsp_cons: 0 }
    }

    /// A guest looks at the page's length, at the distances from its own counts, and whether an ack was refused before.
    fn guest_refusal(&self, guest: &Guest, page: &[u8]) -> Option<u32> {
        if page.len() != PAGE {
            return Some(PAGE_LENGTH);
        }
        if guest.req_prod.wrapping_sub(count(page, 0)) > self.farthest() {
            return Some(REQUEST_COUNT);
        }
        if count(page, 12).wrapping_sub(guest.rsp_cons) > self.farthest() {
            return Some(RESPONSE_COUNT);
        }
        (guest.phase == FAILED).then_some(NOT_AN_ACK)
    }

    /// The message of a request is what the writer makes where it has room enough.
    fn message_of(&self, asked: Asked) -> Result<Vec<u8>, u32> {
        let mut buffer = [0; MAX_REQUEST];
        let length = match asked {
            Asked::GetFlags => self.write_get_flags(&mut buffer),
            Asked::SetFlags(flags) => self.write_set_flags(&mut buffer, flags),
            Asked::SetKey(key) => self.write_set_key(&mut buffer, key.unwrap_or_default()),
            Asked::SetMapping(entries) => self.write_set_mapping(&mut buffer, entries.unwrap_or_default()),
        };
        Ok(buffer[..length?].to_vec())
    }

    /// A start is refused while a request is outstanding, and then as the writer refuses; else the request is begun.
    fn guest_start(&self, guest: &mut Guest, page: &mut [u8], asked: Asked) -> u32 {
        if let Some(refusal) = self.guest_refusal(guest, page) {
            return refusal;
        }
        if guest.phase == OUTSTANDING {
            return REQUEST_OUTSTANDING;
        }
        let message = match self.message_of(asked) {
            Ok(message) => message,
            Err(refusal) => return refusal,
        };
        (guest.phase, guest.request, guest.written) = (OUTSTANDING, message, 0);
        let answer = self.guest_write(guest, page);
        self.guest_counts(guest, page);
        answer
    }

    /// An event writes what is owed of the request or else reads the ack; without a request it does neither. It gives
    /// what the ack says, or the number of any other answer.
    fn guest_event(&self, guest: &mut Guest, page: &mut [u8]) -> Result<AckSays, u32> {
        if let Some(refusal) = self.guest_refusal(guest, page) {
            return Err(refusal);
        }
        let answer = if guest.phase == IDLE {
            Err(REQUEST_PENDING)
        } else if guest.written < guest.request.len() {
            Err(self.guest_write(guest, page))
        } else {
            self.guest_hear(guest, page)
        };
        if answer != Err(NOT_AN_ACK) {
            self.guest_counts(guest, page);
        }
        answer
    }

    /// Octets of the request are written in order as long as the request area has a free place.
    fn guest_write(&self, guest: &mut Guest, page: &mut [u8]) -> u32 {
        while guest.written < guest.request.len() && guest.req_prod.wrapping_sub(count(page, 0)) < AREA {
            page[REQUESTS + (guest.req_prod % AREA) as usize] = guest.request[guest.written];
            guest.written += 1;
            guest.req_prod = guest.req_prod.wrapping_add(1);
        }
        if guest.written < guest.request.len() {
            REQUEST_OWED
        } else {
            REQUEST_PENDING
        }
    }

    /// Octets of the ack are read until it is known to be good or wrong, or until none is left.
    fn guest_hear(&self, guest: &mut Guest, page: &[u8]) -> Result<AckSays, u32> {
        let (rsp_cons, rsp_prod) = (guest.rsp_cons, count(page, 12));
        while guest.rsp_cons != rsp_prod {
            guest.heard.push(page[RESPONSES + (guest.rsp_cons % AREA) as usize]);
            guest.rsp_cons = guest.rsp_cons.wrapping_add(1);
            let Some(answer) = self.judged(&guest.request, &guest.heard) else { continue };
            guest.heard.clear();
            guest.phase = IDLE;
            if answer.is_err() {
                (guest.phase, guest.rsp_cons) = (FAILED, rsp_cons);
            }
            return answer;
        }
        Err(REQUEST_PENDING)
    }

    /// An ack is wrong at its header if its size is neither 8 nor 16; else its reader judges it when it is whole.
    fn judged(&self, request: &[u8], heard: &[u8]) -> Option<Result<AckSays, u32>> {
        if heard.len() < HEADER {
            return None;
        }
        let size = number(&heard[4..8]);
        if size != 8 && size != 16 {
            return Some(Err(NOT_AN_ACK));
        }
        let is_whole = heard.len() as u64 == HEADER as u64 + size;
        is_whole.then(|| self.read_ack(number(&request[0..4]) as u32, heard))
    }

    /// The guest's own counts go back to the page.
    fn guest_counts(&self, guest: &Guest, page: &mut [u8]) {
        set_count(page, 4, guest.req_prod);
        set_count(page, 8, guest.rsp_cons);
    }
}

/// The rules as they are written, none of them changed.
pub struct Written;

impl Rules for Written {}
