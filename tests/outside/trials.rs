//! The inputs of each call: first those that every run must have, then as many from the generator as are asked for.

use crate::compare::{Call, Comparison, Difference};
use crate::rules::message;
use crate::{guests, sequences, worked};

/// Compares a call on at least this many inputs.
pub fn run(call: Call, comparison: &mut Comparison, inputs: u64) -> Result<(), Difference> {
    let enough = comparison.inputs(call) + inputs;
    no_octets(call, comparison)?;
    settled_inputs(call, comparison)?;
    while comparison.inputs(call) < enough {
        generated_input(call, comparison)?;
    }
    Ok(())
}

/// Each slice without octets, by a null pointer and by one that points at nothing.
fn no_octets(call: Call, comparison: &mut Comparison) -> Result<(), Difference> {
    let key = [7; 40];
    for (nothing, no_entries, no_page, no_buffer) in
        [(None, None, None, None), (Some(&[][..]), Some(&[][..]), Some(&mut [][..]), Some(0))]
    {
        match call {
            Call::SetUp => {}
            Call::Event | Call::Steer => sequences::no_octets(comparison, no_page, nothing)?,
            Call::Hash => {
                comparison.hash(nothing, Some(&key))?;
                comparison.hash(Some(&key), nothing)?;
                comparison.hash(nothing, nothing)?;
            }
            Call::TwoWay => comparison.two_way(nothing, 0)?,
            Call::WriteGetFlags => comparison.write_get_flags(no_buffer)?,
            Call::WriteSetFlags => comparison.write_set_flags(no_buffer, 0)?,
            Call::WriteSetKey => {
                comparison.write_set_key(no_buffer, Some(&key))?;
                comparison.write_set_key(Some(48), nothing)?;
                comparison.write_set_key(no_buffer, nothing)?;
            }
            Call::WriteSetMapping => {
                comparison.write_set_mapping(no_buffer, Some(&[0]))?;
                comparison.write_set_mapping(Some(8), no_entries)?;
                comparison.write_set_mapping(no_buffer, no_entries)?;
            }
            Call::ReadAck => comparison.read_ack(2, nothing).map(|_| ())?,
            Call::GuestSetUp => {}
            Call::GuestStartGetFlags
            | Call::GuestStartSetFlags
            | Call::GuestStartSetKey
            | Call::GuestStartSetMapping
            | Call::GuestEvent => guests::no_octets(comparison, call, no_page, nothing, no_entries)?,
        }
    }
    Ok(())
}

/// Known answers, all small numbers, setups that must leave the same, every damage of every ack, and every combination of
/// refusals.
fn settled_inputs(call: Call, comparison: &mut Comparison) -> Result<(), Difference> {
    match call {
        Call::SetUp => (0..=70).chain([256, 257, u32::MAX]).try_for_each(|queues| {
            comparison.set_up(queues)?;
            comparison.set_ups_alike(queues)
        }),
        Call::GuestSetUp => comparison.guest_set_ups_alike(),
        Call::Hash => worked::hashes().iter().try_for_each(|(key, input, _)| comparison.hash(Some(key), Some(input))),
        Call::TwoWay => {
            let mut ask = |(key, hash_type, _): &(Vec<u8>, u32, _)| comparison.two_way(Some(key), *hash_type);
            worked::two_ways().iter().try_for_each(&mut ask)
        }
        Call::WriteSetMapping => (0..=130).try_for_each(|entries| {
            let entries: Vec<u64> = (0..entries).collect();
            comparison.write_set_mapping(Some(8 + 8 * entries.len()), Some(&entries))
        }),
        Call::ReadAck => damaged_acks(comparison),
        Call::GuestStartGetFlags | Call::GuestStartSetFlags | Call::GuestStartSetKey | Call::GuestStartSetMapping => {
            guests::rooms(comparison, call)?;
            guests::refusals(comparison, call)
        }
        Call::GuestEvent => {
            guests::acks(comparison)?;
            guests::refusals(comparison, call)
        }
        _ => Ok(()),
    }
}

/// For request types 0 to 7, acks with and without flags: as they are, each octet changed, cut, and lengthened.
fn damaged_acks(comparison: &mut Comparison) -> Result<(), Difference> {
    for request_type in 0..8 {
        for (status, flags) in
            (0..5u64).flat_map(|status| [None, Some(0u64), Some(15), Some(16)].map(|flags| (status, flags)))
        {
            let mut payload = status.to_le_bytes().to_vec();
            payload.extend(flags.iter().flat_map(|flags| flags.to_le_bytes()));
            let ack = message(1, &payload);
            comparison.read_ack(request_type, Some(&ack))?;
            for at in 0..ack.len() {
                comparison.read_ack(request_type, Some(&ack[..at]))?;
                for change in [0x01, 0x02, 0x18, 0x80] {
                    let mut changed = ack.clone();
                    changed[at] ^= change;
                    comparison.read_ack(request_type, Some(&changed))?;
                }
            }
            for more in 1..=9 {
                let longer = [&ack[..], &[0; 9][..more]].concat();
                comparison.read_ack(request_type, Some(&longer))?;
            }
        }
    }
    Ok(())
}

/// One input of a call from the generator, or for events and packets one sequence of them.
fn generated_input(call: Call, comparison: &mut Comparison) -> Result<(), Difference> {
    let random = &mut comparison.random;
    match call {
        Call::SetUp => {
            let queues = random.near(71) as u32;
            comparison.set_up(queues).map(|_| ())
        }
        Call::Event => {
            let guest = random.pick(&[sequences::honest, sequences::hostile]);
            guest(comparison, 200)
        }
        Call::Steer => sequences::packets(comparison, 200),
        Call::Hash => {
            let (key, input) = (random.key_of_any_length(), random.hash_input());
            comparison.hash(Some(&key), Some(&input))
        }
        Call::TwoWay => {
            let (key, hash_type) = (random.key_of_any_length(), random.near(7) as u32);
            comparison.two_way(Some(&key), hash_type)
        }
        Call::WriteGetFlags => {
            let buffer_length = random.buffer_length(8);
            comparison.write_get_flags(Some(buffer_length))
        }
        Call::WriteSetFlags => {
            let (buffer_length, flags) = (random.buffer_length(16), random.near(21));
            comparison.write_set_flags(Some(buffer_length), flags)
        }
        Call::WriteSetKey => {
            let (buffer_length, key) = (random.buffer_length(48), random.key_of_any_length());
            comparison.write_set_key(Some(buffer_length), Some(&key))
        }
        Call::WriteSetMapping => {
            let entries = random.entries();
            let buffer_length = random.buffer_length(8 + 8 * entries.len() as u64);
            comparison.write_set_mapping(Some(buffer_length), Some(&entries))
        }
        Call::ReadAck => {
            let request_type = random.near(8) as u32;
            let ack = random.ack(request_type);
            comparison.read_ack(request_type, Some(&ack)).map(|_| ())
        }
        Call::GuestSetUp => comparison.guest_set_up().map(|_| ()),
        Call::GuestStartGetFlags
        | Call::GuestStartSetFlags
        | Call::GuestStartSetKey
        | Call::GuestStartSetMapping
        | Call::GuestEvent => {
            let host = random.pick(&[guests::both_ends, guests::hostile]);
            host(comparison, call, 200)
        }
    }
}
