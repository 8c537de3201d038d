//! Written for this build, not the original's: its `src/traits.rs` is not at hand.
//!
//! The signatures are read off the impls in the original's `lfu.rs`. There is no body here, so no answer can come from this
//! file: each call goes to the original's own impl.

pub trait Cache<K, V> {
    fn contains(&self, key: &K) -> bool;
    fn len(&self) -> usize;
    fn capacity(&self) -> usize;
    fn peek(&self, key: &K) -> Option<&V>;
    fn insert(&mut self, key: K, value: V) -> Option<V>;
    fn get(&mut self, key: &K) -> Option<&V>;
    fn remove(&mut self, key: &K) -> Option<V>;
    fn clear(&mut self);
}

pub trait EvictingCache<K, V>: Cache<K, V> {
    fn evict_one(&mut self) -> Option<(K, V)>;
}

pub trait VictimInspectable<K, V>: Cache<K, V> {
    fn peek_victim(&self) -> Option<(&K, &V)>;
}

pub trait FrequencyTracking<K, V>: Cache<K, V> {
    fn frequency(&self, key: &K) -> Option<u64>;
}
