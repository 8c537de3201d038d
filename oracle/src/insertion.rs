//! A cache insert and what became of it, as document 01 reports it.
//!
//! The original's `insert` answers the old value or nothing, and so does not tell a victim, nor a refusal at capacity 0.
//! Both are found out from outside, by what is bound before and after the call.

use crate::policy::lfu::LfuCache;
use crate::traits::Cache;
use std::sync::Arc;

pub enum Insertion {
    New,
    NewWithVictim(u64),
    Old(u64),
    Full,
}

pub fn insert(cache: &mut LfuCache<u64, u64>, key: u64, value: u64) -> Insertion {
    let bound_before = cache.len();
    let candidate = cache.peek_lfu().map(|(key, _)| *key);
    if let Some(old) = cache.insert(key, Arc::new(value)) {
        return Insertion::Old(*old);
    }
    if cache.len() > bound_before {
        return Insertion::New;
    }
    if !cache.contains(&key) {
        return Insertion::Full;
    }
    let victim = candidate.expect("a full cache names its least used key");
    assert!(
        !cache.contains(&victim),
        "the key that went is not the one that peek_lfu named"
    );
    Insertion::NewWithVictim(victim)
}
