//! Keys under their places: a table of places beside a list of keys.

const FREE: u64 = u64::MAX;

/// A hash of numbers of 64 bits: each is multiplied in, and the halves of the product are joined.
#[derive(Default)]
pub struct Mixer(u64);

impl Mixer {
    pub fn add(&mut self, word: u64) {
        let product = ((self.0 ^ word) as u128).wrapping_mul(0x9E37_79B9_7F4A_7C15_u128 << 1 | 1);
        self.0 = (product as u64) ^ ((product >> 64) as u64);
    }
}

pub trait Key: Eq {
    fn mix(&self, mixer: &mut Mixer);
}

/// A slot is the high half of a key's hash and its place, or free. At most three quarters of the slots are taken.
pub struct Table<K> {
    slots: Vec<u64>,
    pub keys: Vec<K>,
}

impl<K> Default for Table<K> {
    fn default() -> Table<K> {
        Table { slots: Vec::new(), keys: Vec::new() }
    }
}

fn hash<K: Key>(key: &K) -> u64 {
    let mut mixer = Mixer::default();
    key.mix(&mut mixer);
    mixer.0
}

impl<K: Key> Table<K> {
    /// The place of the key, and whether it is new.
    pub fn insert(&mut self, key: K) -> (u32, bool) {
        if self.keys.len() * 4 >= self.slots.len() * 3 {
            self.grow();
        }
        let mask = self.slots.len() - 1;
        let hash = hash(&key);
        let mut at = hash as usize & mask;
        loop {
            let slot = self.slots[at];
            if slot == FREE {
                break;
            }
            if slot >> 32 == hash >> 32 && self.keys[slot as u32 as usize] == key {
                return (slot as u32, false);
            }
            at = (at + 1) & mask;
        }
        let place = self.keys.len() as u32;
        self.slots[at] = hash >> 32 << 32 | place as u64;
        self.keys.push(key);
        (place, true)
    }

    fn grow(&mut self) {
        let count = (self.slots.len() * 2).max(8);
        self.slots.clear();
        self.slots.resize(count, FREE);
        for (place, key) in self.keys.iter().enumerate() {
            let hash = hash(key);
            let mut at = hash as usize & (count - 1);
            while self.slots[at] != FREE {
                at = (at + 1) & (count - 1);
            }
            self.slots[at] = hash >> 32 << 32 | place as u64;
        }
    }
}
