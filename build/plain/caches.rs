//! What the programs take of the crates `lru`, `indexmap`, `rand_core` and `rand_pcg`.

pub mod lru {
    use crate::alloc::{AllocError, Global};
    use std::collections::HashMap;
    use std::hash::Hash;
    use std::num::NonZeroUsize;

    struct Entry<K, V> {
        key: K,
        value: V,
        newer: usize,
        older: usize,
    }

    const NONE: usize = usize::MAX;

    /// Entries in the order of their use, at most so many. Places of entries that went are used again.
    pub struct LruCache<K, V> {
        most: usize,
        places: HashMap<K, usize>,
        entries: Vec<Option<Entry<K, V>>>,
        free: Vec<usize>,
        newest: usize,
        oldest: usize,
    }

    impl<K: Hash + Eq + Copy, V> LruCache<K, V> {
        fn of(most: usize) -> Self {
            let (places, entries, free) = (HashMap::new(), Vec::new(), Vec::new());
            LruCache { most, places, entries, free, newest: NONE, oldest: NONE }
        }

        pub fn unbounded(_: Global) -> Result<Self, AllocError> {
            Ok(Self::of(usize::MAX))
        }

        pub fn sparse(_: Global, most: NonZeroUsize) -> Result<Self, AllocError> {
            Ok(Self::of(most.get()))
        }

        pub fn len(&self) -> usize {
            self.places.len()
        }

        pub fn contains(&self, key: &K) -> bool {
            self.places.contains_key(key)
        }

        fn entry(&mut self, place: usize) -> &mut Entry<K, V> {
            self.entries[place].as_mut().expect("an entry stands at each place that is named")
        }

        fn unlink(&mut self, place: usize) {
            let Entry { newer, older, .. } = *self.entry(place);
            match newer {
                NONE => self.newest = older,
                _ => self.entry(newer).older = older,
            }
            match older {
                NONE => self.oldest = newer,
                _ => self.entry(older).newer = newer,
            }
        }

        fn link(&mut self, place: usize) {
            let newest = self.newest;
            let entry = self.entry(place);
            (entry.newer, entry.older) = (NONE, newest);
            match newest {
                NONE => self.oldest = place,
                _ => self.entry(newest).newer = place,
            }
            self.newest = place;
        }

        /// The entry is the newest one from now on.
        pub fn promote(&mut self, key: &K) -> bool {
            let Some(place) = self.places.get(key).copied() else { return false };
            self.unlink(place);
            self.link(place);
            true
        }

        pub fn put(&mut self, key: K, value: V) -> Result<Option<V>, AllocError> {
            if let Some(place) = self.places.get(&key).copied() {
                self.promote(&key);
                return Ok(Some(std::mem::replace(&mut self.entry(place).value, value)));
            }
            if self.places.len() == self.most {
                self.pop_lru();
            }
            let entry = Some(Entry { key, value, newer: NONE, older: NONE });
            let place = match self.free.pop() {
                Some(place) => {
                    self.entries[place] = entry;
                    place
                }
                None => {
                    self.entries.push(entry);
                    self.entries.len() - 1
                }
            };
            self.places.insert(key, place);
            self.link(place);
            Ok(None)
        }

        pub fn peek_lru(&self) -> Option<(&K, &V)> {
            let entry = self.entries.get(self.oldest)?.as_ref()?;
            Some((&entry.key, &entry.value))
        }

        pub fn pop_lru(&mut self) -> Option<(K, V)> {
            let (key, _) = self.peek_lru()?;
            let key = *key;
            self.pop(&key).map(|value| (key, value))
        }

        pub fn pop(&mut self, key: &K) -> Option<V> {
            let place = self.places.remove(key)?;
            self.unlink(place);
            self.free.push(place);
            self.entries[place].take().map(|entry| entry.value)
        }
    }
}

pub mod indexmap {
    use crate::alloc::{AllocError, Global};
    use std::collections::HashMap;
    use std::hash::Hash;

    /// Values, each at a place.
    pub struct IndexSet<T> {
        places: HashMap<T, usize>,
        values: Vec<T>,
    }

    impl<T: Hash + Eq> IndexSet<T> {
        pub fn new(_: Global) -> Self {
            IndexSet { places: HashMap::new(), values: Vec::new() }
        }

        pub fn len(&self) -> usize {
            self.places.len()
        }
    }

    /// Keys, each at a place with its value.
    pub struct IndexMap<K, V> {
        places: HashMap<K, usize>,
        entries: Vec<(K, V)>,
    }

    impl<K: Hash + Eq + Copy, V: Copy> IndexMap<K, V> {
        pub fn new(_: Global) -> Self {
            IndexMap { places: HashMap::new(), entries: Vec::new() }
        }

        pub fn len(&self) -> usize {
            self.entries.len()
        }

        pub fn get_index_of(&self, key: &K) -> Option<usize> {
            self.places.get(key).copied()
        }

        pub fn get_index(&self, place: usize) -> Option<(&K, &V)> {
            self.entries.get(place).map(|entry| (&entry.0, &entry.1))
        }

        pub fn get_index_mut(&mut self, place: usize) -> Option<&mut V> {
            self.entries.get_mut(place).map(|entry| &mut entry.1)
        }

        pub fn insert(&mut self, key: K, value: V) -> Result<Option<V>, AllocError> {
            if let Some(place) = self.places.get(&key) {
                return Ok(Some(std::mem::replace(&mut self.entries[*place].1, value)));
            }
            self.places.insert(key, self.entries.len());
            self.entries.push((key, value));
            Ok(None)
        }

        /// The last entry comes to the place of the one that goes.
        pub fn swap_remove_index(&mut self, place: usize) -> Option<(K, V)> {
            if place >= self.entries.len() {
                return None;
            }
            let entry = self.entries.swap_remove(place);
            self.places.remove(&entry.0);
            if let Some(moved) = self.entries.get(place) {
                self.places.insert(moved.0, place);
            }
            Some(entry)
        }
    }

    /// A set of texts, from which none goes.
    impl IndexSet<crate::prelude::Vec<u8>> {
        pub fn get_index_of(&self, value: &[u8]) -> Option<usize> {
            self.places.get(value).copied()
        }

        pub fn insert_full(&mut self, value: crate::prelude::Vec<u8>) -> Result<(usize, bool), AllocError> {
            let next = self.places.len();
            let place = *self.places.entry(value).or_insert(next);
            Ok((place, place == next))
        }
    }

    impl<T: Hash + Eq + Copy> IndexSet<T> {
        pub fn contains(&self, value: &T) -> bool {
            self.places.contains_key(value)
        }

        pub fn insert(&mut self, value: T) -> Result<bool, AllocError> {
            if self.contains(&value) {
                return Ok(false);
            }
            self.places.insert(value, self.values.len());
            self.values.push(value);
            Ok(true)
        }

        /// The last value comes to the place of the one that goes.
        pub fn swap_remove_index(&mut self, place: usize) -> Option<T> {
            if place >= self.values.len() {
                return None;
            }
            let value = self.values.swap_remove(place);
            self.places.remove(&value);
            if let Some(moved) = self.values.get(place) {
                self.places.insert(*moved, place);
            }
            Some(value)
        }
    }
}

pub mod rand_core {
    pub mod utils {
        pub trait NextWord<W> {
            fn next_word(&mut self) -> W;
        }
    }
}

pub mod rand_pcg {
    use super::rand_core::utils::NextWord;

    /// PCG XSH RR 64/32.
    #[derive(Clone, Debug)]
    pub struct Pcg32 {
        state: u64,
        increment: u64,
    }

    impl Pcg32 {
        pub fn new(state: u64, stream: u64) -> Self {
            let increment = stream << 1 | 1;
            let mut made = Pcg32 { state: state.wrapping_add(increment), increment };
            made.step();
            made
        }

        fn step(&mut self) {
            self.state = self.state.wrapping_mul(6_364_136_223_846_793_005).wrapping_add(self.increment);
        }
    }

    impl NextWord<u32> for Pcg32 {
        fn next_word(&mut self) -> u32 {
            let state = self.state;
            self.step();
            ((((state >> 18) ^ state) >> 27) as u32).rotate_right((state >> 59) as u32)
        }
    }
}
