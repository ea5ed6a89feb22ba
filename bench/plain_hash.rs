//! The Toeplitz hash in plain Rust, bit by bit: a peer of zwerfen_hash.

const KEY: usize = 40;

fn hash(key: &[u8; KEY], input: &[u8]) -> u32 {
    let mut window = u32::from_be_bytes([key[0], key[1], key[2], key[3]]);
    let mut hash = 0;
    for (at, octet) in input.iter().enumerate() {
        let next = key[at + 4];
        for bit in (0..8).rev() {
            if octet >> bit & 1 == 1 {
                hash ^= window;
            }
            window = window << 1 | u32::from(next >> bit & 1);
        }
    }
    hash
}

/// # Safety
/// The key has 40 octets; the input has `length` octets, at most 36.
#[no_mangle]
pub unsafe extern "C" fn rust_hash(key: *const u8, input: *const u8, length: usize) -> u32 {
    hash(&*key.cast(), std::slice::from_raw_parts(input, length))
}
