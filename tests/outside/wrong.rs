//! Rules that are wrong in one place each, for the self-check: a comparison with any of them must find a difference.

use crate::compare::Call;
use crate::rules::*;

/// These octets, but for one that is as it was before.
fn with_one_left(octets: &[u8], before: &[u8], at: usize) -> Vec<u8> {
    let mut octets = octets.to_vec();
    octets[at] = before[at];
    octets
}

macro_rules! wrong_rules {
    ($($call:ident, $words:literal: { $rule:item })*) => {
        /// Each set of rules with one wrong, the call that must tell it from the library, and what is wrong in words.
        pub fn all() -> Vec<(Call, &'static str, Box<dyn Rules>)> {
            vec![$({
                struct Wrong;
                impl Rules for Wrong { $rule }
                (Call::$call, $words, Box::new(Wrong) as Box<dyn Rules>)
            }),*]
        }
    };
}

wrong_rules! {
    SetUp, "65 queues are taken": {
        fn most_queues(&self) -> u32 {
            65
        }
    }
    SetUp, "the key begins with an octet other than zero": {
        fn set_up(&self, queues: u32) -> Result<Interface, u32> {
            let mut interface = Written.set_up(queues)?;
            interface.key[39] = 1;
            Ok(interface)
        }
    }
    SetUp, "the first octet stays as it was": {
        fn after_set_up(&self, is_refused: bool, alike: &[u8], before: &[u8]) -> Vec<u8> {
            if is_refused { before.to_vec() } else { with_one_left(alike, before, 0) }
        }
    }
    SetUp, "the top octet of a count stays as it was": {
        fn after_set_up(&self, is_refused: bool, alike: &[u8], before: &[u8]) -> Vec<u8> {
            if is_refused { before.to_vec() } else { with_one_left(alike, before, 39) }
        }
    }
    SetUp, "the last octet of the payload stays as it was": {
        fn after_set_up(&self, is_refused: bool, alike: &[u8], before: &[u8]) -> Vec<u8> {
            if is_refused { before.to_vec() } else { with_one_left(alike, before, 1095) }
        }
    }
    SetUp, "the last octet stays as it was": {
        fn after_set_up(&self, is_refused: bool, alike: &[u8], before: &[u8]) -> Vec<u8> {
            if is_refused { before.to_vec() } else { with_one_left(alike, before, alike.len() - 1) }
        }
    }
    SetUp, "a refused setup writes the last octet": {
        fn after_set_up(&self, is_refused: bool, alike: &[u8], before: &[u8]) -> Vec<u8> {
            if is_refused { with_one_left(before, alike, alike.len() - 1) } else { alike.to_vec() }
        }
    }
    Event, "the page's own req_cons is read": {
        fn event(&self, interface: &mut Interface, page: &mut [u8]) -> u32 {
            if page.len() == PAGE {
                interface.req_cons = count(page, 0);
            }
            Written.event(interface, page)
        }
    }
    Event, "the page's own rsp_prod is read": {
        fn event(&self, interface: &mut Interface, page: &mut [u8]) -> u32 {
            if page.len() == PAGE {
                interface.rsp_prod = count(page, 12);
            }
            Written.event(interface, page)
        }
    }
    Event, "counts 1,025 apart are good": {
        fn farthest(&self) -> u32 {
            AREA + 1
        }
    }
    Event, "counts 1,024 apart are refused": {
        fn farthest(&self) -> u32 {
            AREA - 1
        }
    }
    Event, "a refused page gets the own counts": {
        fn event(&self, interface: &mut Interface, page: &mut [u8]) -> u32 {
            let answer = Written.event(interface, page);
            if page.len() == PAGE {
                set_count(page, 0, interface.req_cons);
            }
            answer
        }
    }
    Event, "the request behind is carried out too": {
        fn event(&self, interface: &mut Interface, page: &mut [u8]) -> u32 {
            match Written.event(interface, page) {
                ACK_WRITTEN => Written.event(interface, page),
                answer => answer,
            }
        }
    }
    Event, "a key is stored while it is read": {
        fn take(&self, interface: &mut Interface, octet: u8) {
            Written.take(interface, octet);
            if interface.kept.len() > HEADER && interface.kept.starts_with(&[4, 0, 0, 0, 40, 0, 0, 0]) {
                interface.key[interface.kept.len() - HEADER - 1] = octet;
            }
        }
    }
    Event, "mapping entries are stored while they are checked": {
        fn carry_out(&self, interface: &mut Interface) -> Vec<u8> {
            let request = interface.kept.clone();
            let ack = Written.carry_out(interface);
            if number(&request[0..4]) == SET_MAPPING && number(&ack[8..16]) == INVALID_PARAMETER {
                let entries = request[8..].chunks(8).map(number).take_while(|&entry| entry < interface.queues);
                let stored: Vec<u64> = entries.take(interface.mapping.len()).collect();
                interface.mapping[..stored.len()].copy_from_slice(&stored);
            }
            ack
        }
    }
    Event, "get flags is answered with the flags that are set": {
        fn carry_out(&self, interface: &mut Interface) -> Vec<u8> {
            let mut ack = Written.carry_out(interface);
            if ack.len() == 24 {
                ack[16] = interface.flags as u8;
            }
            ack
        }
    }
    Event, "an entry equal to the queue count is taken": {
        fn is_queue(&self, entry: u64, queues: u64) -> bool {
            entry <= queues
        }
    }
    Event, "only the low octet of an entry is compared": {
        fn is_queue(&self, entry: u64, queues: u64) -> bool {
            entry & 0xff < queues
        }
    }
    Event, "a mapping of more than 128 entries gets status 2": {
        fn mapping_status(&self, size: u64, payload: &[u8], queues: u64) -> u64 {
            Written.mapping_status(size, payload, queues).min(INVALID_PARAMETER)
        }
    }
    Event, "a payload above 1,024 octets gets status 3": {
        fn status(&self, kind: u64, size: u64, payload: &[u8], queues: u64) -> u64 {
            if size > MAX_PAYLOAD { BUFFER_OVERFLOW } else { Written.status(kind, size, payload, queues) }
        }
    }
    Event, "only the low octet of a type is compared": {
        fn status(&self, kind: u64, size: u64, payload: &[u8], queues: u64) -> u64 {
            Written.status(kind & 0xff, size, payload, queues)
        }
    }
    Event, "an ack runs over octets that the guest has not read": {
        fn write_ack(&self, interface: &mut Interface, page: &mut [u8]) -> u32 {
            let rsp_cons = count(page, 8);
            set_count(page, 8, interface.rsp_prod);
            let answer = Written.write_ack(interface, page);
            set_count(page, 8, rsp_cons);
            answer
        }
    }
    Event, "an ack is written from the start of the response area": {
        fn write_ack(&self, interface: &mut Interface, page: &mut [u8]) -> u32 {
            page[RESPONSES..RESPONSES + interface.owed.len()].copy_from_slice(&interface.owed);
            Written.write_ack(interface, page)
        }
    }
    Steer, "a TCP packet uses its TCP type alone": {
        fn types_of(&self, packet: &[u8]) -> Vec<u32> {
            Written.types_of(packet).into_iter().take(1).collect()
        }
    }
    Steer, "an IPv4 packet may have options": {
        fn is_ipv4(&self, packet: &[u8]) -> bool {
            packet.len() >= 20 && packet[0] >> 4 == 4
        }
    }
    Steer, "an IPv6 packet needs 41 octets": {
        fn is_ipv6(&self, packet: &[u8]) -> bool {
            packet.len() > 40 && Written.is_ipv6(packet)
        }
    }
    Steer, "a TCP packet needs 45 octets": {
        fn is_tcp(&self, packet: &[u8]) -> bool {
            packet.len() > 44 && Written.is_tcp(packet)
        }
    }
    Steer, "an IPv4 packet is typed by octet 9 alone": {
        fn fragment_bits(&self) -> u16 {
            0
        }
    }
    Steer, "the first fragment is TCP": {
        fn fragment_bits(&self) -> u16 {
            0x1fff
        }
    }
    Steer, "the don't-fragment bit is taken for more-fragments": {
        fn fragment_bits(&self) -> u16 {
            0x5fff
        }
    }
    Steer, "the fragment offset has no top bit": {
        fn fragment_bits(&self) -> u16 {
            0x2fff
        }
    }
    Steer, "the fragment offset has no lowest bit": {
        fn fragment_bits(&self) -> u16 {
            0x3ffe
        }
    }
    Steer, "the fragment field is little-endian": {
        fn fragment_field(&self, packet: &[u8]) -> u16 {
            Written.fragment_field(packet).swap_bytes()
        }
    }
    Steer, "the queue follows from the hash without its lowest bit": {
        fn steer(&self, interface: &Interface, packet: &[u8]) -> Option<Steered> {
            let mut steered = Written.steer(interface, packet)?;
            steered.queue = interface.mapping[steered.hash as usize / 2 % interface.mapping.len()];
            Some(steered)
        }
    }
    Hash, "the window begins one bit late": {
        fn window(&self, key: &[u8], i: usize) -> u32 {
            Written.window(key, i + 1)
        }
    }
    Hash, "the last octet is left out": {
        fn published_hash(&self, key: &[u8], input: &[u8]) -> u32 {
            Written.published_hash(key, &input[..input.len().saturating_sub(1)])
        }
    }
    Hash, "octets that fill no group of four are left out": {
        fn published_hash(&self, key: &[u8], input: &[u8]) -> u32 {
            Written.published_hash(key, &input[..input.len() / 4 * 4])
        }
    }
    Hash, "the first window of each octet is that of octet 1": {
        fn window(&self, key: &[u8], i: usize) -> u32 {
            Written.window(key, if i % 8 == 0 { 8 } else { i })
        }
    }
    Hash, "the last bit drawn into a window is the one before": {
        fn window(&self, key: &[u8], i: usize) -> u32 {
            Written.window(key, i) & !1 | Written.window(key, i) >> 1 & 1
        }
    }
    Hash, "36 octets are too long": {
        fn longest_input(&self) -> usize {
            35
        }
    }
    Hash, "the input is looked at before the key": {
        fn hash(&self, key: &[u8], input: &[u8]) -> Result<u32, u32> {
            if input.len() > self.longest_input() { Err(INPUT_LENGTH) } else { Written.hash(key, input) }
        }
    }
    TwoWay, "the reverse keeps its ports": {
        fn reverse(&self, hash_type: u32, input: &[u8]) -> Vec<u8> {
            let ports = self.address_octets(hash_type);
            [&Written.reverse(hash_type, input)[..ports], &input[ports..]].concat()
        }
    }
    TwoWay, "the first bit is not asked": {
        fn tells_apart(&self, key: &[u8], hash_type: u32, bit: usize) -> bool {
            bit > 0 && Written.tells_apart(key, hash_type, bit)
        }
    }
    TwoWay, "the hash type is looked at before the key": {
        fn two_way(&self, key: &[u8], hash_type: u32) -> Result<Option<usize>, u32> {
            if hash_type > 3 { Err(HASH_TYPE) } else { Written.two_way(key, hash_type) }
        }
    }
    WriteGetFlags, "the octet behind the message is cleared": {
        fn write_get_flags(&self, buffer: &mut [u8]) -> Result<usize, u32> {
            let length = Written.write_get_flags(buffer)?;
            buffer.iter_mut().skip(length).take(1).for_each(|octet| *octet = 0);
            Ok(length)
        }
    }
    WriteGetFlags, "the buffer must be longer than the message": {
        fn put(&self, buffer: &mut [u8], message: &[u8]) -> Result<usize, u32> {
            if buffer.len() == message.len() { Err(BUFFER_LENGTH) } else { Written.put(buffer, message) }
        }
    }
    WriteSetFlags, "only the low octet of the flags is looked at": {
        fn write_set_flags(&self, buffer: &mut [u8], flags: u64) -> Result<usize, u32> {
            Written.write_set_flags(buffer, flags & 0xff)
        }
    }
    WriteSetFlags, "the buffer is looked at before the flags": {
        fn write_set_flags(&self, buffer: &mut [u8], flags: u64) -> Result<usize, u32> {
            if buffer.len() < 16 { Err(BUFFER_LENGTH) } else { Written.write_set_flags(buffer, flags) }
        }
    }
    WriteSetKey, "a buffer that is too short gets the first octets": {
        fn put(&self, buffer: &mut [u8], message: &[u8]) -> Result<usize, u32> {
            let length = buffer.len().min(message.len());
            buffer[..length].copy_from_slice(&message[..length]);
            Written.put(buffer, message)
        }
    }
    WriteSetKey, "the buffer is looked at before the key": {
        fn write_set_key(&self, buffer: &mut [u8], key: &[u8]) -> Result<usize, u32> {
            if buffer.len() < 48 { Err(BUFFER_LENGTH) } else { Written.write_set_key(buffer, key) }
        }
    }
    WriteSetMapping, "only the low octet of an entry is written": {
        fn write_set_mapping(&self, buffer: &mut [u8], entries: &[u64]) -> Result<usize, u32> {
            let entries: Vec<u64> = entries.iter().map(|entry| entry & 0xff).collect();
            Written.write_set_mapping(buffer, &entries)
        }
    }
    WriteSetMapping, "128 entries are too many": {
        fn write_set_mapping(&self, buffer: &mut [u8], entries: &[u64]) -> Result<usize, u32> {
            if entries.len() == 128 { Err(VALUE) } else { Written.write_set_mapping(buffer, entries) }
        }
    }
    ReadAck, "any request may have any status": {
        fn is_status(&self, _request_type: u64, status: u64) -> bool {
            status <= BUFFER_OVERFLOW
        }
    }
    ReadAck, "the status 4 is one": {
        fn is_status(&self, request_type: u64, status: u64) -> bool {
            status == 4 || Written.is_status(request_type, status)
        }
    }
    ReadAck, "octets behind the ack are let through": {
        fn read_ack(&self, request_type: u32, message: &[u8]) -> Result<AckSays, u32> {
            let cut = &message[..message.len().min(16)];
            Written.read_ack(request_type, message).or_else(|_| Written.read_ack(request_type, cut))
        }
    }
    GuestSetUp, "the own req_prod begins at 1": {
        fn guest_set_up(&self) -> Guest {
            Guest { req_prod: 1, ..Written.guest_set_up() }
        }
    }
    GuestSetUp, "the first octet of the request stays as it was": {
        fn after_set_up(&self, _is_refused: bool, alike: &[u8], before: &[u8]) -> Vec<u8> {
            with_one_left(alike, before, 48)
        }
    }
    GuestSetUp, "the last octet stays as it was": {
        fn after_set_up(&self, _is_refused: bool, alike: &[u8], before: &[u8]) -> Vec<u8> {
            with_one_left(alike, before, alike.len() - 1)
        }
    }
    GuestStartGetFlags, "a start is taken while a request is outstanding": {
        fn guest_start(&self, guest: &mut Guest, page: &mut [u8], asked: Asked) -> u32 {
            match Written.guest_start(guest, page, asked) {
                REQUEST_OUTSTANDING => {
                    guest.phase = IDLE;
                    Written.guest_start(guest, page, asked)
                }
                answer => answer,
            }
        }
    }
    GuestStartGetFlags, "a refused ack is forgotten at the next start": {
        fn guest_start(&self, guest: &mut Guest, page: &mut [u8], asked: Asked) -> u32 {
            if guest.phase == FAILED {
                guest.phase = IDLE;
            }
            Written.guest_start(guest, page, asked)
        }
    }
    GuestStartSetFlags, "a start reads octets of the ack too": {
        fn guest_start(&self, guest: &mut Guest, page: &mut [u8], asked: Asked) -> u32 {
            let answer = Written.guest_start(guest, page, asked);
            if answer == REQUEST_PENDING && matches!(asked, Asked::SetFlags(_)) {
                let _ = Written.guest_event(guest, page);
            }
            answer
        }
    }
    GuestStartSetFlags, "the flags are looked at before the page": {
        fn guest_start(&self, guest: &mut Guest, page: &mut [u8], asked: Asked) -> u32 {
            self.message_of(asked).map_or_else(|refusal| refusal, |_| Written.guest_start(guest, page, asked))
        }
    }
    GuestStartSetKey, "the key is looked at before the outstanding request": {
        fn guest_start(&self, guest: &mut Guest, page: &mut [u8], asked: Asked) -> u32 {
            match (Written.guest_start(guest, page, asked), self.message_of(asked)) {
                (REQUEST_OUTSTANDING, Err(refusal)) => refusal,
                (answer, _) => answer,
            }
        }
    }
    GuestStartSetKey, "the outstanding request is looked at before the counts": {
        fn guest_start(&self, guest: &mut Guest, page: &mut [u8], asked: Asked) -> u32 {
            match Written.guest_start(guest, page, asked) {
                REQUEST_COUNT | RESPONSE_COUNT if guest.phase == OUTSTANDING => REQUEST_OUTSTANDING,
                answer => answer,
            }
        }
    }
    GuestStartSetKey, "the own counts are not written to the page": {
        fn guest_counts(&self, _guest: &Guest, _page: &mut [u8]) {}
    }
    GuestStartSetMapping, "a request runs over octets that the host has not read": {
        fn guest_write(&self, guest: &mut Guest, page: &mut [u8]) -> u32 {
            let req_cons = count(page, 0);
            set_count(page, 0, guest.req_prod);
            let answer = Written.guest_write(guest, page);
            set_count(page, 0, req_cons);
            answer
        }
    }
    GuestStartSetMapping, "a request is written from the start of the request area": {
        fn guest_write(&self, guest: &mut Guest, page: &mut [u8]) -> u32 {
            let length = guest.request.len().min(AREA as usize);
            page[REQUESTS..REQUESTS + length].copy_from_slice(&guest.request[..length]);
            Written.guest_write(guest, page)
        }
    }
    GuestStartSetMapping, "a request that does not fit is refused": {
        fn guest_start(&self, guest: &mut Guest, page: &mut [u8], asked: Asked) -> u32 {
            let before = guest.clone();
            match Written.guest_start(guest, page, asked) {
                REQUEST_OWED => {
                    *guest = before;
                    BUFFER_LENGTH
                }
                answer => answer,
            }
        }
    }
    GuestEvent, "the page's own req_prod is read": {
        fn guest_event(&self, guest: &mut Guest, page: &mut [u8]) -> Result<AckSays, u32> {
            if page.len() == PAGE {
                guest.req_prod = count(page, 4);
            }
            Written.guest_event(guest, page)
        }
    }
    GuestEvent, "the page's own rsp_cons is read": {
        fn guest_event(&self, guest: &mut Guest, page: &mut [u8]) -> Result<AckSays, u32> {
            if page.len() == PAGE {
                guest.rsp_cons = count(page, 8);
            }
            Written.guest_event(guest, page)
        }
    }
    GuestEvent, "counts 1,025 apart are good": {
        fn farthest(&self) -> u32 {
            AREA + 1
        }
    }
    GuestEvent, "counts 1,024 apart are refused": {
        fn farthest(&self) -> u32 {
            AREA - 1
        }
    }
    GuestEvent, "an ack is its first 16 octets, whatever its size says": {
        fn judged(&self, _request: &[u8], heard: &[u8]) -> Option<Result<AckSays, u32>> {
            (heard.len() == 16).then(|| Ok((number(&heard[8..16]), None)))
        }
    }
    GuestEvent, "an ack is waited for, whatever its size says": {
        fn judged(&self, request: &[u8], heard: &[u8]) -> Option<Result<AckSays, u32>> {
            let is_whole = heard.len() >= HEADER && heard.len() as u64 == HEADER as u64 + number(&heard[4..8]);
            is_whole.then(|| self.read_ack(number(&request[0..4]) as u32, heard))
        }
    }
    GuestEvent, "an ack is read as one to a get flags": {
        fn judged(&self, _request: &[u8], heard: &[u8]) -> Option<Result<AckSays, u32>> {
            Written.judged(&message(GET_FLAGS, &[]), heard)
        }
    }
    GuestEvent, "the status handed back is always 0": {
        fn guest_event(&self, guest: &mut Guest, page: &mut [u8]) -> Result<AckSays, u32> {
            Written.guest_event(guest, page).map(|(_, flags)| (SUCCESS, flags))
        }
    }
    GuestEvent, "the flags handed back are 0 where the ack has none": {
        fn guest_event(&self, guest: &mut Guest, page: &mut [u8]) -> Result<AckSays, u32> {
            Written.guest_event(guest, page).map(|(status, flags)| (status, flags.or(Some(0))))
        }
    }
    GuestEvent, "a refused ack is forgotten at the next event": {
        fn guest_event(&self, guest: &mut Guest, page: &mut [u8]) -> Result<AckSays, u32> {
            if guest.phase == FAILED {
                guest.phase = OUTSTANDING;
            }
            Written.guest_event(guest, page)
        }
    }
    GuestEvent, "a refused ack ends its request": {
        fn guest_hear(&self, guest: &mut Guest, page: &[u8]) -> Result<AckSays, u32> {
            let answer = Written.guest_hear(guest, page);
            if guest.phase == FAILED {
                guest.phase = IDLE;
            }
            answer
        }
    }
    GuestEvent, "the octets of a refused ack are counted as read": {
        fn guest_hear(&self, guest: &mut Guest, page: &[u8]) -> Result<AckSays, u32> {
            let answer = Written.guest_hear(guest, page);
            if guest.phase == FAILED {
                guest.rsp_cons = count(page, 12);
            }
            answer
        }
    }
    GuestEvent, "the page gets the own counts where an ack is refused": {
        fn guest_event(&self, guest: &mut Guest, page: &mut [u8]) -> Result<AckSays, u32> {
            let answer = Written.guest_event(guest, page);
            if answer == Err(NOT_AN_ACK) {
                self.guest_counts(guest, page);
            }
            answer
        }
    }
    GuestEvent, "octets behind the ack are read with it": {
        fn guest_hear(&self, guest: &mut Guest, page: &[u8]) -> Result<AckSays, u32> {
            let says = Written.guest_hear(guest, page)?;
            guest.rsp_cons = count(page, 12);
            Ok(says)
        }
    }
    GuestEvent, "octets of the ack are read behind those of the request that are owed": {
        fn guest_event(&self, guest: &mut Guest, page: &mut [u8]) -> Result<AckSays, u32> {
            let owed = guest.written < guest.request.len();
            match Written.guest_event(guest, page) {
                Err(REQUEST_PENDING) if owed => Written.guest_event(guest, page),
                answer => answer,
            }
        }
    }
    GuestEvent, "octets are read without a request": {
        fn guest_event(&self, guest: &mut Guest, page: &mut [u8]) -> Result<AckSays, u32> {
            if guest.phase == IDLE && self.guest_refusal(guest, page).is_none() {
                guest.rsp_cons = count(page, 12);
            }
            Written.guest_event(guest, page)
        }
    }
}
