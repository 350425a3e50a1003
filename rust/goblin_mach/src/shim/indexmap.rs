//! Sets and maps whose items stay in the order in which they came.
use super::{AllocError, TryGrow, try_vec};
use alloc::vec::Vec;
use core::borrow::Borrow;
use core::hash::{BuildHasher, Hash};

/// A hasher of `core`, which has no other.
#[allow(deprecated)]
pub type FoldHasher = core::hash::SipHasher;

/// No index.
const FREE: usize = usize::MAX;

/// Items, each once. The index of an item is in the table at its hash, or at the next place that was free.
pub struct IndexSet<T, S> {
    items: Vec<T>,
    table: Vec<usize>,
    hasher: S,
}

impl<T: Hash + Eq, S: BuildHasher + Default> IndexSet<T, S> {
    pub fn new() -> IndexSet<T, S> {
        IndexSet {
            items: Vec::new(),
            table: Vec::new(),
            hasher: S::default(),
        }
    }

    pub fn len(&self) -> usize {
        self.items.len()
    }

    pub fn as_slice(&self) -> &[T] {
        &self.items
    }

    /// The place of an item in the table, or the free one for it. The table is not full.
    fn place<Q: Hash + Eq + ?Sized>(&self, item: &Q) -> usize
    where
        T: Borrow<Q>,
    {
        let mut at = self.hasher.hash_one(item) as usize % self.table.len();
        while self.table[at] != FREE && self.items[self.table[at]].borrow() != item {
            at = (at + 1) % self.table.len();
        }
        at
    }

    pub fn get_index_of<Q: Hash + Eq + ?Sized>(&self, item: &Q) -> Option<usize>
    where
        T: Borrow<Q>,
    {
        if self.table.is_empty() {
            return None;
        }
        Some(self.table[self.place(item)]).filter(|&index| index != FREE)
    }

    /// Adds an item at the end, and returns whether it is new. The set is unchanged if memory is refused.
    pub fn try_insert(&mut self, item: T) -> Result<bool, AllocError> {
        if self.table.len() <= 2 * self.items.len() {
            let wider = try_vec(FREE, (4 * self.items.len()).max(8))?;
            self.table = wider;
            for index in 0..self.items.len() {
                let at = self.place(&self.items[index]);
                self.table[at] = index;
            }
        }
        let at = self.place(&item);
        if self.table[at] != FREE {
            return Ok(false);
        }
        self.items.try_push(item)?;
        self.table[at] = self.items.len() - 1;
        Ok(true)
    }
}

/// Values by their keys.
pub struct IndexMap<K, V, S> {
    keys: IndexSet<K, S>,
    values: Vec<V>,
}

impl<K: Hash + Eq, V, S: BuildHasher + Default> IndexMap<K, V, S> {
    pub fn new() -> IndexMap<K, V, S> {
        IndexMap {
            keys: IndexSet::new(),
            values: Vec::new(),
        }
    }

    pub fn get<Q: Hash + Eq + ?Sized>(&self, key: &Q) -> Option<&V>
    where
        K: Borrow<Q>,
    {
        self.values.get(self.keys.get_index_of(key)?)
    }

    /// Sets the value of a key, and returns the one that it had. The map is unchanged if memory is refused.
    pub fn try_insert(&mut self, key: K, value: V) -> Result<Option<V>, AllocError> {
        if let Some(index) = self.keys.get_index_of(&key) {
            return Ok(Some(core::mem::replace(&mut self.values[index], value)));
        }
        self.values.try_room(1)?;
        self.keys.try_insert(key)?;
        self.values.try_push(value)?;
        Ok(None)
    }
}

#[cfg(test)]
mod tests {
    use super::{FoldHasher, IndexMap, IndexSet};
    use alloc::vec::Vec;
    use core::hash::BuildHasherDefault;

    #[test]
    fn keeps_order() {
        let mut set: IndexSet<u64, BuildHasherDefault<FoldHasher>> = IndexSet::new();
        let mut wanted: Vec<u64> = Vec::new();
        for n in 0..3000 {
            let item = n * n % 1009;
            assert_eq!(
                set.get_index_of(&item),
                wanted.iter().position(|x| *x == item)
            );
            let is_new = !wanted.contains(&item);
            assert_eq!(set.try_insert(item), Ok(is_new));
            wanted.extend(is_new.then_some(item));
        }
        assert_eq!(set.as_slice(), wanted);
        assert_eq!(set.len(), wanted.len());
    }

    #[test]
    fn keeps_the_last_value() {
        let mut map: IndexMap<u64, u64, BuildHasherDefault<FoldHasher>> = IndexMap::new();
        for n in 0..3000 {
            let key = n * n % 1009;
            let before = map.get(&key).copied();
            assert_eq!(map.try_insert(key, n), Ok(before));
            assert_eq!(map.get(&key), Some(&n));
        }
        assert_eq!(map.get(&1009), None);
    }
}
