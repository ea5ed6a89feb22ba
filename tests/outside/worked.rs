//! Hashes and two-way answers that are known from elsewhere, so that the rules themselves are compared with something.

use crate::rules::{Rules, Written, KEY};

const RSS_KEY: &str = "6d5a56da255b0ec24167253d43a38fb0d0ca2bcbae7b30b477cb2da38030f20c6a42b73bbeac01fa";

/// The RSS vectors that Microsoft publishes: source, destination and ports, the hash without ports, the hash with them.
const RSS_HASHES: [(&str, u32, u32); 8] = [
    ("420995bba18e64500aea06e6", 0x323e_8fc2, 0x51cc_c178),
    ("c75c6f0241458c5337961283", 0xd718_262a, 0xc626_b0ea),
    ("1813c65f0c16cfb832629488", 0xd2d0_a5de, 0x5c2b_394a),
    ("261bcd1ed18ea306bc6408a9", 0x8298_9176, 0xafc7_327f),
    ("9927a3bfcabc7f02acdb0517", 0x5d18_09c5, 0x10e8_28a2),
    ("3ffe250102001fff00000000000000073ffe25010200000300000000000000010aea06e6", 0x2cc1_8cd5, 0x4020_7d3d),
    ("3ffe050100080000026097fffe40efabff02000000000000000000000000000137961283", 0x0f0c_461c, 0xdde5_1bbf),
    ("3ffe1900454500030200f8fffe2167cffe800000000000000200f8fffe2167cfacdb9488", 0x4b61_e985, 0x02d1_feef),
];

/// Hashes under the key 00 01 02 .. 27.
const COUNTING_HASHES: [(&str, u32); 6] = [
    ("", 0),
    ("80", 0x0001_0203),
    ("c0", 0x0003_0605),
    ("0080", 0x0102_0304),
    ("8080", 0x0103_0107),
    ("000000000000000000000000000000000000000000000000000000000000000000000001", 0x9212_9313),
];

fn octets(hex: &str) -> Vec<u8> {
    (0..hex.len()).step_by(2).map(|at| u8::from_str_radix(&hex[at..at + 2], 16).expect("two digits")).collect()
}

fn counting_key() -> Vec<u8> {
    (0..KEY as u8).collect()
}

/// Keys and inputs with their known hashes.
pub fn hashes() -> Vec<(Vec<u8>, Vec<u8>, u32)> {
    let rss = RSS_HASHES.iter().flat_map(|&(input, without_ports, with_ports)| {
        let (key, input) = (octets(RSS_KEY), octets(input));
        let addresses = input[..input.len() - 4].to_vec();
        [(key.clone(), addresses, without_ports), (key, input, with_ports)]
    });
    rss.chain(COUNTING_HASHES.iter().map(|&(input, hash)| (counting_key(), octets(input), hash))).collect()
}

/// Keys and hash types with the known lowest bit that tells an input from its reverse.
pub fn two_ways() -> Vec<(Vec<u8>, u32, Option<usize>)> {
    let mut one_bit = vec![0; KEY];
    one_bit[15] = 2;
    let mut rows = vec![
        (one_bit.clone(), 0, None),
        (one_bit.clone(), 1, Some(79)),
        (one_bit, 2, Some(95)),
        (counting_key(), 0, Some(0)),
    ];
    for hash_type in 0..4 {
        rows.push((vec![0; KEY], hash_type, None));
        rows.push((octets("6d5a").repeat(20), hash_type, None));
    }
    rows
}

/// Whether the rules answer what is known.
pub fn rules_agree() -> bool {
    hashes().iter().all(|(key, input, hash)| Written.hash(key, input) == Ok(*hash))
        && two_ways().iter().all(|(key, hash_type, bit)| Written.two_way(key, *hash_type) == Ok(*bit))
}
