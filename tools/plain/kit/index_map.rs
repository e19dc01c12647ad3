//! Stands for the kit's `indexmap`. It differs in its hash, whose seed is fixed as there, and in the table of places, which
//! is searched one place after the other.

use crate::alloc::{AllocError, Global};
use std::borrow::Borrow;
use std::hash::{Hash, Hasher};
use std::mem;

/// Keys in the order of their first insertion, each with a value.
pub struct IndexMap<K, V> {
    entries: Vec<(K, V)>,
    /// For each hash the place of an entry, beside all of the hash, or `FREE`. At least half of them are free.
    places: Vec<(usize, u64)>,
}

const FREE: usize = usize::MAX;
const FEWEST: usize = 16;

impl<K: Hash + Eq, V> IndexMap<K, V> {
    pub fn new(_: Global) -> Self {
        IndexMap {
            entries: Vec::new(),
            places: Vec::new(),
        }
    }

    pub fn len(&self) -> usize {
        self.entries.len()
    }

    pub fn get_index(&self, index: usize) -> Option<(&K, &V)> {
        self.entries.get(index).map(|(key, value)| (key, value))
    }

    pub fn get_index_of<Q: Hash + Eq + ?Sized>(&self, key: &Q) -> Option<usize>
    where
        K: Borrow<Q>,
    {
        if self.places.is_empty() {
            return None;
        }
        let hash = hash_of(key);
        let mut at = self.slot(hash);
        loop {
            let (place, held) = self.places[at];
            if place == FREE {
                return None;
            }
            if held == hash && self.entries[place].0.borrow() == key {
                return Some(place);
            }
            at = self.slot(at as u64 + 1);
        }
    }

    pub fn get<Q: Hash + Eq + ?Sized>(&self, key: &Q) -> Option<&V>
    where
        K: Borrow<Q>,
    {
        self.get_index_of(key).map(|place| &self.entries[place].1)
    }

    pub fn contains_key<Q: Hash + Eq + ?Sized>(&self, key: &Q) -> bool
    where
        K: Borrow<Q>,
    {
        self.get_index_of(key).is_some()
    }

    pub fn insert(&mut self, key: K, value: V) -> Result<Option<V>, AllocError> {
        if let Some(place) = self.get_index_of(&key) {
            return Ok(Some(mem::replace(&mut self.entries[place].1, value)));
        }
        self.entries.try_reserve(1).map_err(|_| AllocError)?;
        if self.places.len() < 2 * (self.entries.len() + 1) {
            self.grow()?;
        }
        self.take(self.entries.len(), hash_of(&key));
        self.entries.push((key, value));
        Ok(None)
    }

    /// Doubles the table of places.
    fn grow(&mut self) -> Result<(), AllocError> {
        let count = FEWEST.max(2 * self.places.len());
        let mut places = Vec::new();
        places.try_reserve_exact(count).map_err(|_| AllocError)?;
        places.resize(count, (FREE, 0));
        for (place, hash) in mem::replace(&mut self.places, places) {
            if place != FREE {
                self.take(place, hash);
            }
        }
        Ok(())
    }

    /// Writes the place of an entry where the first is free.
    fn take(&mut self, place: usize, hash: u64) {
        let mut at = self.slot(hash);
        while self.places[at].0 != FREE {
            at = self.slot(at as u64 + 1);
        }
        self.places[at] = (place, hash);
    }

    /// A number's rest by the size of the table, which is a power of two.
    fn slot(&self, number: u64) -> usize {
        number as usize & (self.places.len() - 1)
    }
}

fn hash_of<Q: Hash + ?Sized>(key: &Q) -> u64 {
    let mut hash = Mixed(0);
    key.hash(&mut hash);
    hash.finish()
}

/// A hash that takes eight bytes at a time. Its high bits are the mixed ones, so they become the low ones at the end.
struct Mixed(u64);

impl Hasher for Mixed {
    fn write(&mut self, bytes: &[u8]) {
        for part in bytes.chunks(8) {
            let mut word = [0; 8];
            word[..part.len()].copy_from_slice(part);
            self.0 = (self.0.rotate_left(5) ^ u64::from_le_bytes(word)).wrapping_mul(0x517c_c1b7_2722_0a95);
        }
    }

    fn finish(&self) -> u64 {
        self.0.rotate_left(26)
    }
}
