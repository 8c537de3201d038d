//! Written for this build, not the original's: its `src/store/traits.rs` is not at hand.
//!
//! The signatures and the fields are read off the impls in the original's `hashmap.rs`. There is no body here, so no answer
//! can come from this file: each call goes to the original's own impl.

/// A store at its capacity refuses a new key.
#[derive(Debug)]
pub struct StoreFull;

/// The counters of a store. They are written by the original and read by no call that is compared.
#[derive(Debug)]
pub struct StoreMetrics {
    pub hits: u64,
    pub misses: u64,
    pub inserts: u64,
    pub updates: u64,
    pub removes: u64,
    pub evictions: u64,
    pub expirations: u64,
}

pub trait StoreCore<K, V> {
    fn get(&self, key: &K) -> Option<&V>;
    fn contains(&self, key: &K) -> bool;
    fn len(&self) -> usize;
    fn capacity(&self) -> usize;
    fn metrics(&self) -> StoreMetrics;
}

pub trait StoreMut<K, V>: StoreCore<K, V> {
    fn try_insert(&mut self, key: K, value: V) -> Result<Option<V>, StoreFull>;
    fn remove(&mut self, key: &K) -> Option<V>;
    fn clear(&mut self);
}

pub trait StoreFactory<K, V> {
    type Store;
    fn create(capacity: usize) -> Self::Store;
}
