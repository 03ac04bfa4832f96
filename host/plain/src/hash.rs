//! A small map from states to numbers, and a quick hasher for sets of rules.

use crate::State;
use std::collections::HashMap;
use std::hash::{BuildHasherDefault, Hasher};

/// No state: states lie below 2^24.
const EMPTY: State = State::MAX;

/// A map from states to numbers: open addressing, at most half full.
pub(crate) struct StateMap {
    slots: Vec<(State, u32)>,
    filled: usize,
    /// The hash is the product's highest bits, as many as the size has.
    shift: u32,
}

impl StateMap {
    pub fn new() -> StateMap {
        StateMap::of_bits(6)
    }

    fn of_bits(bits: u32) -> StateMap {
        StateMap { slots: vec![(EMPTY, 0); 1 << bits], filled: 0, shift: u64::BITS - bits }
    }

    /// The slot where the state is, or where it would go.
    #[inline]
    fn slot(&self, state: State) -> usize {
        debug_assert!(state != EMPTY);
        let product = u64::from(state).wrapping_mul(0x9E37_79B9_7F4A_7C15);
        let mut slot = (product >> self.shift) as usize;
        loop {
            let key = self.slots[slot].0;
            if key == state || key == EMPTY {
                return slot;
            }
            slot = (slot + 1) & (self.slots.len() - 1);
        }
    }

    /// The state's number, if it has one.
    #[inline]
    pub fn get(&self, state: State) -> Option<u32> {
        let (key, number) = self.slots[self.slot(state)];
        (key == state).then_some(number)
    }

    /// Gives the state a number unless it has one.
    pub fn insert_if_new(&mut self, state: State, number: u32) {
        let slot = self.slot(state);
        if self.slots[slot].0 == state {
            return;
        }
        self.slots[slot] = (state, number);
        self.filled += 1;
        if 2 * self.filled > self.slots.len() {
            self.grow();
        }
    }

    #[cold]
    fn grow(&mut self) {
        let mut larger = StateMap::of_bits(u64::BITS - self.shift + 1);
        for &(state, number) in self.slots.iter().filter(|slot| slot.0 != EMPTY) {
            let slot = larger.slot(state);
            larger.slots[slot] = (state, number);
        }
        larger.filled = self.filled;
        *self = larger;
    }
}

/// A map with the quick hasher below.
pub(crate) type QuickMap<K, V> = HashMap<K, V, BuildHasherDefault<Mix>>;

/// Mixes words by multiplying and folding the product's halves together.
#[derive(Default)]
pub(crate) struct Mix(u64);

impl Hasher for Mix {
    fn finish(&self) -> u64 {
        self.0
    }

    fn write(&mut self, bytes: &[u8]) {
        for chunk in bytes.chunks(8) {
            let mut word = [0; 8];
            word[..chunk.len()].copy_from_slice(chunk);
            let mixed = u128::from(self.0 ^ u64::from_le_bytes(word) ^ 0xA076_1D64_78BD_642F)
                * 0xE703_7ED1_A0B4_28DB;
            self.0 = (mixed >> 64) as u64 ^ mixed as u64;
        }
    }
}
