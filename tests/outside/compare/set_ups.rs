//! Setups alike, on memory and above a stack that had different octets before: nothing of those may be seen in the struct.

use std::hint::black_box;

use super::{facts, Call, Comparison, Difference, Facts, Value, DONE};
use crate::library::{self, GuestRoom, InterfaceRoom, Room, State};

/// Octets that fill the memory of a struct, or the stack, before a setup.
const FILLINGS: [u8; 3] = [0x00, 0xff, 0xa5];

/// More octets than any call of the library has on its stack.
const STACK: usize = 1 << 16;

/// Leaves this octet all over the part of the stack that the next call gets.
#[inline(never)]
fn fill_stack(octet: u8) {
    black_box(&mut [octet; STACK]);
}

impl Comparison<'_> {
    /// What the memory may have in it before a setup: one octet everywhere, or octets at random.
    fn memories<const SIZE: usize>(&mut self) -> Vec<[u8; SIZE]> {
        let mut memories = FILLINGS.map(|octet| [octet; SIZE]).to_vec();
        memories.push([(); SIZE].map(|()| self.random.next() as u8));
        memories
    }

    /// Compares every octet that a setup leaves, for each memory and each stack before it, with what the rules make of the
    /// octets that the first of these setups left. The rules' answer is the same for all.
    fn compare_set_ups<T: State, const SIZE: usize>(
        &mut self,
        call: Call,
        given: impl Fn() -> Facts,
        rules_answer: u32,
        set_up: impl Fn(&mut Room<T, SIZE>) -> u32,
    ) -> Result<(), Difference> {
        let mut first = None;
        for before in self.memories::<SIZE>() {
            for stack in FILLINGS {
                let mut room = Room::with(before);
                fill_stack(stack);
                let answer = set_up(&mut room);
                let alike = first.get_or_insert_with(|| room.octets().to_vec());
                let by_rules = self.rules.after_set_up(rules_answer != DONE, alike, &before);
                let input = || {
                    let mut input = given();
                    input.extend(facts![("memory", &before[..]), ("stack", u32::from(stack))]);
                    input
                };
                let left = |octets: &[u8]| facts![("every octet", octets)];
                self.compare(call, input, (rules_answer, left(&by_rules)), (answer, left(room.octets())))?;
            }
        }
        Ok(())
    }

    /// Setups of an interface with this many queues.
    pub fn set_ups_alike(&mut self, queues: u32) -> Result<(), Difference> {
        let rules_answer = self.rules.set_up(queues).err().unwrap_or(DONE);
        let set_up = |room: &mut InterfaceRoom| library::set_up(room, queues);
        self.compare_set_ups(Call::SetUp, || facts![("queues", queues)], rules_answer, set_up)
    }

    /// Setups of a guest, which are never refused.
    pub fn guest_set_ups_alike(&mut self) -> Result<(), Difference> {
        let set_up = |room: &mut GuestRoom| {
            library::guest_set_up(room);
            DONE
        };
        self.compare_set_ups(Call::GuestSetUp, Facts::new, DONE, set_up)
    }
}
