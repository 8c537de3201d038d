//! `drive`'s cache calls, 40 to 48 and 63 to 65, on the original's cache.
//!
//! A cache passes some bucket calls on to its buckets; these are answered here too (2, 8, 14, 15, 16, 20). The other bucket
//! calls would need its private buckets.

use crate::answers::{ABSENT, BAD, EMPTY, FULL, SKIP, batch_keys, done, pair_or, refused, value_or, walked, yes_or_no};
use crate::cache_walk::walk;
use crate::input::Record;
use crate::insertion::{Insertion, insert};
use crate::policy::lfu::LfuCache;
use crate::slots::Slots;
use crate::traits::Cache;
use std::sync::Arc;

/// The cache; a second one that is given the same calls, batches key by key, so that it is seen which key takes which slot; and
/// the slots by document 02's rule.
pub struct JudgedCache {
    cache: LfuCache<u64, u64>,
    stepwise: LfuCache<u64, u64>,
    slots: Slots,
}

impl JudgedCache {
    pub fn new(capacity: usize) -> Self {
        JudgedCache { cache: LfuCache::new(capacity), stepwise: LfuCache::new(capacity), slots: Slots::new(capacity) }
    }

    pub fn answer(&mut self, record: Record) -> String {
        match record.operation {
            40..=48 => {
                self.follow(record.operation, record.first, record.second);
                single(&mut self.cache, record)
            }
            63..=65 => self.batch(record),
            2 | 8 | 14..=16 | 20 => self.passed_on(record),
            1..=22 | 24 | 25 | 30 | 31 | 49 | 60..=62 | 66 => SKIP.to_string(),
            _ => BAD.to_string(),
        }
    }

    /// Makes a single call on the second cache, and follows the slots that it hands out and takes back. A reset keeps its slot.
    fn follow(&mut self, operation: u8, key: u64, value: u64) -> bool {
        let cache = &mut self.stepwise;
        match operation {
            40 => match insert(cache, key, value) {
                Insertion::New => self.slots.bind(key),
                Insertion::NewWithVictim(victim) => {
                    self.slots.release(victim);
                    self.slots.bind(key);
                }
                Insertion::Old(_) | Insertion::Full => return false,
            },
            41 => return cache.get(&key).is_some(),
            43 if cache.remove(&key).is_some() => self.slots.release(key),
            44 => {
                cache.clear();
                self.slots.clear();
            }
            46 => match cache.pop_lfu() {
                Some((key, _)) => self.slots.release(key),
                None => return false,
            },
            47 => return cache.reset_frequency(&key).is_some(),
            _ => return false,
        }
        true
    }

    fn batch(&mut self, record: Record) -> String {
        let Some(keys) = batch_keys(record.first, record.second) else {
            return BAD.to_string();
        };
        // Insert, remove and get of each key: what the original's batch counts is how many of them were done.
        let single = [40, 43, 41][usize::from(record.operation - 63)];
        let stepwise = keys.iter().filter(|key| self.follow(single, **key, **key)).count();
        let count = match record.operation {
            63 => self.insert_batch(keys),
            64 => self.cache.remove_batch(keys),
            _ => self.cache.touch_batch(keys),
        };
        assert_eq!(count, stepwise, "a batch is its single calls");
        done(&[count as u64])
    }

    /// Each key with itself as its value. At capacity 0 the original counts every key though it binds none; document 01
    /// counts newly bound keys, and so none.
    fn insert_batch(&mut self, keys: Vec<u64>) -> usize {
        let offered = keys.len();
        let counted = self.cache.insert_batch(keys.into_iter().map(|key| (key, Arc::new(key))));
        if self.cache.capacity() > 0 {
            return counted;
        }
        assert_eq!(counted, offered, "at capacity 0 the original counts every item");
        0
    }

    fn passed_on(&mut self, record: Record) -> String {
        let (cache, key) = (&mut self.cache, record.first);
        match record.operation {
            2 => {
                self.stepwise.increment_frequency(&key);
                value_or(ABSENT, cache.increment_frequency(&key))
            }
            8 => value_or(ABSENT, cache.frequency(&key)),
            14 => done(&[cache.len() as u64]),
            15 => yes_or_no(cache.len() == 0),
            16 => yes_or_no(cache.contains(&key)),
            _ => walked(walk(cache, record.first).into_iter().map(|(key, epoch)| (self.slots.of(key), key, epoch))),
        }
    }
}

fn single(cache: &mut LfuCache<u64, u64>, record: Record) -> String {
    let key = record.first;
    match record.operation {
        40 => inserted(insert(cache, key, record.second)),
        41 => value_or(ABSENT, cache.get(&key).map(|value| **value)),
        42 => value_or(ABSENT, cache.peek(&key).map(|value| **value)),
        43 => value_or(ABSENT, cache.remove(&key).map(|value| *value)),
        44 => {
            cache.clear();
            done(&[])
        }
        45 => pair_or(EMPTY, cache.peek_lfu().map(|(key, value)| (*key, **value))),
        // evict_min_freq is private; pop_lfu calls it and, without metrics, does nothing else.
        46 => pair_or(EMPTY, cache.pop_lfu().map(|(key, value)| (key, *value))),
        47 => value_or(ABSENT, cache.reset_frequency(&key)),
        _ => done(&[cache.len() as u64]),
    }
}

fn inserted(insertion: Insertion) -> String {
    match insertion {
        Insertion::New => "0 NEW".to_string(),
        Insertion::NewWithVictim(key) => format!("0 NEW OUT {key}"),
        Insertion::Old(value) => format!("0 OLD {value}"),
        Insertion::Full => refused(FULL),
    }
}
