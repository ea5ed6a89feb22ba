//! The calls of the library as its C header declares them, each in a safe function that lends slices and places.

use std::mem::size_of;
use std::ptr::{null, null_mut, NonNull};

/// A struct that stands in the caller's memory between calls. Its fields are numbers, which have no invalid values.
pub trait State: Copy {}

/// Declares a struct as the header does, and sees that all of its octets are of its fields: that there is no padding.
macro_rules! state {
    ($name:ident of $size:ident octets { $($field:ident: $type:ty,)* }) => {
        #[repr(C)]
        #[derive(Clone, Copy)]
        pub struct $name {
            $(pub $field: $type,)*
        }

        impl State for $name {}

        const _: () = assert!(size_of::<$name>() == $size && $(size_of::<$type>() +)* 0 == $size);
    };
}

const INTERFACE: usize = 1288;

state!(Interface of INTERFACE octets {
    queues: u64,
    flags: u64,
    entry_count: u64,
    taken: u64,
    req_cons: u64,
    ack_length: u64,
    ack_written: u64,
    rsp_prod: u64,
    header: [u8; 8],
    payload: [u8; 1024],
    ack: [u8; 24],
    key: [u8; 40],
    entries: [u8; 128],
});

const GUEST: usize = 1104;

state!(Guest of GUEST octets {
    phase: u64,
    length: u64,
    written: u64,
    req_prod: u64,
    taken: u64,
    rsp_cons: u64,
    request: [u8; 1032],
    header: [u8; 8],
    payload: [u8; 16],
});

extern "C" {
    fn zwerfen_set_up(interface: *mut Interface, queues: u32) -> u32;
    fn zwerfen_event(interface: *mut Interface, page: *mut u8, page_length: usize) -> u32;
    fn zwerfen_steer(
        interface: *const Interface,
        packet: *const u8,
        packet_length: usize,
        hash_type: *mut u32,
        hash: *mut u32,
        queue: *mut u32,
    ) -> u32;
    fn zwerfen_hash(key: *const u8, key_length: usize, input: *const u8, input_length: usize, hash: *mut u32) -> u32;
    fn zwerfen_two_way(key: *const u8, key_length: usize, hash_type: u32, meet: *mut u32, bit: *mut usize) -> u32;
    fn zwerfen_write_get_flags(buffer: *mut u8, buffer_length: usize, length: *mut usize) -> u32;
    fn zwerfen_write_set_flags(buffer: *mut u8, buffer_length: usize, flags: u64, length: *mut usize) -> u32;
    fn zwerfen_write_set_key(
        buffer: *mut u8,
        buffer_length: usize,
        key: *const u8,
        key_length: usize,
        length: *mut usize,
    ) -> u32;
    fn zwerfen_write_set_mapping(
        buffer: *mut u8,
        buffer_length: usize,
        entries: *const u64,
        entry_count: usize,
        length: *mut usize,
    ) -> u32;
    fn zwerfen_read_ack(
        request_type: u32,
        message: *const u8,
        message_length: usize,
        status: *mut u32,
        flags: *mut u32,
    ) -> u32;
    fn zwerfen_guest_set_up(guest: *mut Guest);
    fn zwerfen_guest_start_get_flags(guest: *mut Guest, page: *mut u8, page_length: usize) -> u32;
    fn zwerfen_guest_start_set_flags(guest: *mut Guest, page: *mut u8, page_length: usize, flags: u64) -> u32;
    fn zwerfen_guest_start_set_key(
        guest: *mut Guest,
        page: *mut u8,
        page_length: usize,
        key: *const u8,
        key_length: usize,
    ) -> u32;
    fn zwerfen_guest_start_set_mapping(
        guest: *mut Guest,
        page: *mut u8,
        page_length: usize,
        entries: *const u64,
        entry_count: usize,
    ) -> u32;
    fn zwerfen_guest_event(
        guest: *mut Guest,
        page: *mut u8,
        page_length: usize,
        status: *mut u32,
        flags: *mut u32,
    ) -> u32;
}

/// A slice to read: none is a null pointer, an empty one a pointer that points at nothing.
pub type Slice<'a, T> = Option<&'a [T]>;
/// A slice to write, handed over in the same way.
pub type SliceMut<'a, T> = Option<&'a mut [T]>;

fn parts<T>(slice: Slice<T>) -> (*const T, usize) {
    match slice {
        None => (null(), 0),
        Some([]) => (NonNull::dangling().as_ptr(), 0),
        Some(slice) => (slice.as_ptr(), slice.len()),
    }
}

fn parts_mut<T>(slice: SliceMut<T>) -> (*mut T, usize) {
    match slice {
        None => (null_mut(), 0),
        Some([]) => (NonNull::dangling().as_ptr(), 0),
        Some(slice) => (slice.as_mut_ptr(), slice.len()),
    }
}

/// The memory of a struct, seen by its fields and by its octets.
pub union Room<T: State, const SIZE: usize> {
    fields: T,
    octets: [u8; SIZE],
}

pub type InterfaceRoom = Room<Interface, INTERFACE>;
pub type GuestRoom = Room<Guest, GUEST>;

impl<T: State, const SIZE: usize> Room<T, SIZE> {
    /// Memory as it happens to be before setup.
    pub fn with(octets: [u8; SIZE]) -> Box<Self> {
        Box::new(Room { octets })
    }

    pub fn filled(octet: u8) -> Box<Self> {
        Room::with([octet; SIZE])
    }

    pub fn octets(&self) -> &[u8] {
        // Every octet was written when the room was made, and octets have no invalid values.
        unsafe { &self.octets }
    }

    pub fn fields(&self) -> &T {
        // The fields are numbers and have no invalid values.
        unsafe { &self.fields }
    }

    pub fn fields_mut(&mut self) -> &mut T {
        // As above.
        unsafe { &mut self.fields }
    }
}

// In each call below the pointers are of live slices of the lengths given and of live places, or are null or dangling
// with length 0, and what is written is borrowed for this call alone. Calls on a room are made only once it is set up.

pub fn set_up(room: &mut InterfaceRoom, queues: u32) -> u32 {
    unsafe { zwerfen_set_up(room.fields_mut(), queues) }
}

pub fn event(room: &mut InterfaceRoom, page: SliceMut<u8>) -> u32 {
    let (page, page_length) = parts_mut(page);
    unsafe { zwerfen_event(room.fields_mut(), page, page_length) }
}

pub fn steer(room: &InterfaceRoom, packet: Slice<u8>, hash_type: &mut u32, hash: &mut u32, queue: &mut u32) -> u32 {
    let (packet, packet_length) = parts(packet);
    unsafe { zwerfen_steer(room.fields(), packet, packet_length, hash_type, hash, queue) }
}

pub fn hash(key: Slice<u8>, input: Slice<u8>, hash: &mut u32) -> u32 {
    let ((key, key_length), (input, input_length)) = (parts(key), parts(input));
    unsafe { zwerfen_hash(key, key_length, input, input_length, hash) }
}

pub fn two_way(key: Slice<u8>, hash_type: u32, meet: &mut u32, bit: &mut usize) -> u32 {
    let (key, key_length) = parts(key);
    unsafe { zwerfen_two_way(key, key_length, hash_type, meet, bit) }
}

pub fn write_get_flags(buffer: SliceMut<u8>, length: &mut usize) -> u32 {
    let (buffer, buffer_length) = parts_mut(buffer);
    unsafe { zwerfen_write_get_flags(buffer, buffer_length, length) }
}

pub fn write_set_flags(buffer: SliceMut<u8>, flags: u64, length: &mut usize) -> u32 {
    let (buffer, buffer_length) = parts_mut(buffer);
    unsafe { zwerfen_write_set_flags(buffer, buffer_length, flags, length) }
}

pub fn write_set_key(buffer: SliceMut<u8>, key: Slice<u8>, length: &mut usize) -> u32 {
    let ((buffer, buffer_length), (key, key_length)) = (parts_mut(buffer), parts(key));
    unsafe { zwerfen_write_set_key(buffer, buffer_length, key, key_length, length) }
}

pub fn write_set_mapping(buffer: SliceMut<u8>, entries: Slice<u64>, length: &mut usize) -> u32 {
    let ((buffer, buffer_length), (entries, entry_count)) = (parts_mut(buffer), parts(entries));
    unsafe { zwerfen_write_set_mapping(buffer, buffer_length, entries, entry_count, length) }
}

pub fn read_ack(request_type: u32, message: Slice<u8>, status: &mut u32, flags: &mut u32) -> u32 {
    let (message, message_length) = parts(message);
    unsafe { zwerfen_read_ack(request_type, message, message_length, status, flags) }
}

pub fn guest_set_up(room: &mut GuestRoom) {
    unsafe { zwerfen_guest_set_up(room.fields_mut()) }
}

pub fn guest_start_get_flags(room: &mut GuestRoom, page: SliceMut<u8>) -> u32 {
    let (page, page_length) = parts_mut(page);
    unsafe { zwerfen_guest_start_get_flags(room.fields_mut(), page, page_length) }
}

pub fn guest_start_set_flags(room: &mut GuestRoom, page: SliceMut<u8>, flags: u64) -> u32 {
    let (page, page_length) = parts_mut(page);
    unsafe { zwerfen_guest_start_set_flags(room.fields_mut(), page, page_length, flags) }
}

pub fn guest_start_set_key(room: &mut GuestRoom, page: SliceMut<u8>, key: Slice<u8>) -> u32 {
    let ((page, page_length), (key, key_length)) = (parts_mut(page), parts(key));
    unsafe { zwerfen_guest_start_set_key(room.fields_mut(), page, page_length, key, key_length) }
}

pub fn guest_start_set_mapping(room: &mut GuestRoom, page: SliceMut<u8>, entries: Slice<u64>) -> u32 {
    let ((page, page_length), (entries, entry_count)) = (parts_mut(page), parts(entries));
    unsafe { zwerfen_guest_start_set_mapping(room.fields_mut(), page, page_length, entries, entry_count) }
}

pub fn guest_event(room: &mut GuestRoom, page: SliceMut<u8>, status: &mut u32, flags: &mut u32) -> u32 {
    let (page, page_length) = parts_mut(page);
    unsafe { zwerfen_guest_event(room.fields_mut(), page, page_length, status, flags) }
}
