//! The hash tables of a solve: where each item of a list stands, and which results are known.

use crate::widths::NUMBERS;

/// An odd number for each word of a hash, a kind and the numbers of a linear: the upper half of a sum of products is the
/// hash.
const FACTORS: [u64; 1 + NUMBERS] = [
    0x9E37_79B9_7F4A_7C15,
    0xC2B2_AE3D_27D4_EB4F,
    0x1656_67B1_9E37_79F9,
    0xD6E8_FEB8_6659_FD93,
    0xA076_1D64_78BD_642F,
    0xE703_7ED1_A0B4_28DB,
    0x8EBC_6AF0_9C88_C6E3,
    0x5899_65CC_7537_4CC3,
    0x1D8E_4E27_C47D_124F,
    0xEB44_ACCA_B455_D165,
];

pub fn hash<const N: usize>(words: [u64; N]) -> u32 {
    const { assert!(N <= FACTORS.len()) };
    let products = words.iter().zip(FACTORS).map(|(word, factor)| word.wrapping_mul(factor));
    (products.fold(0, u64::wrapping_add) >> 32) as u32
}

fn pair(high: u32, low: u32) -> u64 {
    u64::from(high) << 32 | u64::from(low)
}

/// A free slot's place.
const FREE: u32 = u32::MAX;

#[derive(Clone, Copy)]
struct Slot {
    hash: u32,
    place: u32,
}

fn free_slots(count: usize) -> Vec<Slot> {
    vec![Slot { hash: 0, place: FREE }; count]
}

/// The places of a list's items by their hashes: open addressing, at most half of the slots taken. Items are entered in
/// the order of their places, from 0 on, and taken out from the last one on.
pub struct Places {
    slots: Vec<Slot>,
    count: u32,
}

impl Places {
    pub fn new() -> Places {
        Places { slots: free_slots(256), count: 0 }
    }

    fn first_slot(&self, hash: u32) -> usize {
        hash as usize >> (32 - self.slots.len().trailing_zeros())
    }

    fn slot_after(&self, slot: usize) -> usize {
        (slot + 1) & (self.slots.len() - 1)
    }

    /// The place of the item that `is` says yes to.
    pub fn find(&self, hash: u32, is: impl Fn(u32) -> bool) -> Option<u32> {
        let mut at = self.first_slot(hash);
        loop {
            let slot = self.slots[at];
            if slot.place == FREE {
                return None;
            }
            if slot.hash == hash && is(slot.place) {
                return Some(slot.place);
            }
            at = self.slot_after(at);
        }
    }

    /// Enters an item that is not there, and says its place.
    pub fn enter(&mut self, hash: u32) -> u32 {
        if 2 * self.count as usize == self.slots.len() {
            self.widen();
        }
        let place = self.count;
        self.put(Slot { hash, place });
        self.count += 1;
        place
    }

    fn put(&mut self, slot: Slot) {
        let mut at = self.first_slot(slot.hash);
        while self.slots[at].place != FREE {
            at = self.slot_after(at);
        }
        self.slots[at] = slot;
    }

    /// In the order of the places, as `take_last` asks for.
    fn widen(&mut self) {
        let wider = free_slots(2 * self.slots.len());
        let mut hashes = vec![0; self.count as usize];
        for slot in std::mem::replace(&mut self.slots, wider) {
            if slot.place != FREE {
                hashes[slot.place as usize] = slot.hash;
            }
        }
        for (place, hash) in (0..).zip(hashes) {
            self.put(Slot { hash, place });
        }
    }

    /// Takes out the last item. No other was put behind it, so that all others are still found.
    pub fn take_last(&mut self, hash: u32) {
        self.count -= 1;
        let mut at = self.first_slot(hash);
        while self.slots[at].place != self.count {
            at = self.slot_after(at);
        }
        self.slots[at].place = FREE;
    }
}

/// What a result is known by: a rule and three numbers.
pub type Key = (u32, [u32; 3]);

#[derive(Clone, Copy, Default)]
struct Entry {
    /// The operation and the rule, as one number; 0 in an entry without a result.
    stamp: u32,
    operands: [u32; 3],
    result: u32,
}

/// The computed cache: each key has one entry, which a later key may take over. It is as large as what it holds asks
/// for, up to a limit.
pub struct Computed {
    entries: Vec<Entry>,
    /// The operation at work, from 1 on: results of earlier ones are not found again.
    operation: u32,
    kept: usize,
}

const RULES: u32 = 16;
const ENTRIES_MOST: usize = 1 << 16;

impl Computed {
    pub fn new() -> Computed {
        Computed { entries: vec![Entry::default(); 512], operation: 1, kept: 0 }
    }

    /// Forgets all results.
    pub fn forget(&mut self) {
        self.operation += 1;
        self.kept = 0;
    }

    fn stamp(&self, rule: u32) -> u32 {
        self.operation * RULES + rule
    }

    fn place(&self, stamp: u32, [a, b, c]: [u32; 3]) -> usize {
        let spread = hash([pair(stamp, c), b.into()]);
        spread.wrapping_add(a) as usize & (self.entries.len() - 1)
    }

    pub fn find(&self, (rule, operands): Key) -> Option<u32> {
        let stamp = self.stamp(rule);
        let entry = &self.entries[self.place(stamp, operands)];
        (entry.stamp == stamp && entry.operands == operands).then_some(entry.result)
    }

    pub fn keep(&mut self, (rule, operands): Key, result: u32) {
        if self.kept == self.entries.len() && self.kept < ENTRIES_MOST {
            self.widen();
        }
        self.kept += 1;
        let stamp = self.stamp(rule);
        let place = self.place(stamp, operands);
        self.entries[place] = Entry { stamp, operands, result };
    }

    fn widen(&mut self) {
        let wider = vec![Entry::default(); 2 * self.entries.len()];
        for entry in std::mem::replace(&mut self.entries, wider) {
            if entry.stamp / RULES == self.operation {
                let place = self.place(entry.stamp, entry.operands);
                self.entries[place] = entry;
            }
        }
    }
}

#[cfg(test)]
mod tests {
    use super::*;

    #[test]
    fn items_left_are_found() {
        // Many hashes fall together, and the slots are widened twice.
        let hash = |place: u32| super::hash([u64::from(place % 300)]);
        let mut places = Places::new();
        for place in 0..600 {
            assert_eq!(places.enter(hash(place)), place);
        }
        for last in (0..600).rev() {
            places.take_last(hash(last));
            assert_eq!(places.find(hash(last), |place| place == last), None);
            assert!((0..last).all(|item| places.find(hash(item), |place| place == item) == Some(item)));
        }
    }
}
