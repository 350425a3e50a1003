//! A sorted map that may be refused memory. (That of Rust's std ends the process then.)
use super::AllocError;
use alloc::vec::Vec;
use core::borrow::Borrow;
use core::mem;

/// The most items of a chunk.
const CHUNK: usize = 512;

/// Keys and their values, in chunks. The keys ascend in each chunk and from chunk to chunk, and no chunk is empty.
pub struct BTreeMap<K, V> {
    chunks: Vec<Vec<(K, V)>>,
}

impl<K: Ord, V> BTreeMap<K, V> {
    pub fn new() -> BTreeMap<K, V> {
        BTreeMap { chunks: Vec::new() }
    }

    /// The index of the chunk that has the key or would have it.
    fn chunk<Q: Ord + ?Sized>(&self, key: &Q) -> usize
    where
        K: Borrow<Q>,
    {
        let after = self
            .chunks
            .partition_point(|chunk| chunk[0].0.borrow() <= key);
        after.saturating_sub(1)
    }

    pub fn get<Q: Ord + ?Sized>(&self, key: &Q) -> Option<&V>
    where
        K: Borrow<Q>,
    {
        let chunk = self.chunks.get(self.chunk(key))?;
        let at = chunk
            .binary_search_by(|item| item.0.borrow().cmp(key))
            .ok()?;
        Some(&chunk[at].1)
    }

    pub fn contains_key<Q: Ord + ?Sized>(&self, key: &Q) -> bool
    where
        K: Borrow<Q>,
    {
        self.get(key).is_some()
    }

    /// Sets the value of a key, and returns the value that it had. The map is unchanged if memory is refused.
    pub fn try_insert(&mut self, key: K, value: V) -> Result<Option<V>, AllocError> {
        let mut n = self.chunk(&key);
        let Some(chunk) = self.chunks.get_mut(n) else {
            let mut first = Vec::new();
            first.try_reserve(1)?;
            self.chunks.try_reserve(1)?;
            first.push((key, value));
            self.chunks.push(first);
            return Ok(None);
        };
        let at = match chunk.binary_search_by(|item| item.0.cmp(&key)) {
            Ok(at) => return Ok(Some(mem::replace(&mut chunk[at].1, value))),
            Err(at) => at,
        };
        if chunk.len() < CHUNK {
            chunk.try_reserve(1)?;
            chunk.insert(at, (key, value));
            return Ok(None);
        }
        let mut rest = Vec::new();
        rest.try_reserve_exact(CHUNK)?;
        self.chunks.try_reserve(1)?;
        rest.extend(self.chunks[n].drain(CHUNK / 2..));
        self.chunks.insert(n + 1, rest);
        let mut at = at;
        if at > CHUNK / 2 {
            n += 1;
            at -= CHUNK / 2;
        }
        self.chunks[n].insert(at, (key, value));
        Ok(None)
    }
}

#[cfg(test)]
mod tests {
    use super::BTreeMap;

    /// Against the map of std.
    #[test]
    fn same_as_std() {
        let mut wanted = alloc::collections::BTreeMap::new();
        let mut map = BTreeMap::new();
        let mut seed = 1u64;
        for round in 0..30_000u64 {
            seed = seed
                .wrapping_mul(6364136223846793005)
                .wrapping_add(1442695040888963407);
            let key = if round < 5_000 { round } else { seed >> 49 };
            assert_eq!(map.get(&key), wanted.get(&key));
            assert_eq!(map.try_insert(key, round), Ok(wanted.insert(key, round)));
            assert!(map.contains_key(&key));
        }
        let items = map
            .chunks
            .iter()
            .flatten()
            .map(|&(key, value)| (key, value));
        assert!(items.eq(wanted));
    }
}
