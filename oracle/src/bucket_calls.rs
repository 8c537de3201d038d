//! `drive`'s bucket calls, 1 to 22, 24, 25 and 60 to 62, on the original's frequency buckets.
//!
//! The original grows without bound. Document 01's fixed capacity is kept here, at the only calls that it concerns: an
//! insert of an absent key with no free slot is FULL and never reaches the original. Slots are followed by document 02's rule.

use crate::answers::{
    ABSENT, BAD, EMPTY, FULL, PRESENT, SKIP, batch_keys, done, pair_or, refused, value_or, walked, yes_or_no,
};
use crate::ds::FrequencyBuckets;
use crate::input::Record;
use crate::regrouping::{halved, rebased};
use crate::slots::Slots;

pub struct BoundedBuckets {
    buckets: FrequencyBuckets<u64>,
    capacity: usize,
    slots: Slots,
}

impl BoundedBuckets {
    pub fn new(capacity: usize) -> Self {
        let buckets = FrequencyBuckets::with_capacity(capacity);
        BoundedBuckets { buckets, capacity, slots: Slots::new(capacity) }
    }

    pub fn answer(&mut self, record: Record) -> String {
        match record.operation {
            1..=5 | 13 => self.change(record),
            10 | 12 | 17..=19 | 22 => self.silent_change(record),
            6..=9 | 11 | 14..=16 | 20 | 21 | 24 | 25 => self.question(record),
            60..=62 => self.batch(record),
            30 | 31 | 40..=49 | 63..=66 => SKIP.to_string(),
            _ => BAD.to_string(),
        }
    }

    /// The calls that change something and answer with a number, and insert.
    fn change(&mut self, record: Record) -> String {
        let key = record.first;
        match record.operation {
            1 => self.insert(key),
            2 => value_or(ABSENT, self.buckets.touch(&key)),
            3 => value_or(ABSENT, self.buckets.touch_capped(&key, record.second)),
            4 => value_or(ABSENT, self.remove(key)),
            5 => pair_or(EMPTY, self.pop_min()),
            _ => done(&[self.buckets.advance_epoch()]),
        }
    }

    /// The calls that change something and answer DONE with no number.
    fn silent_change(&mut self, record: Record) -> String {
        match record.operation {
            10 => {
                if !self.buckets.set_entry_epoch(&record.first, record.second) {
                    return refused(ABSENT);
                }
            }
            12 => self.buckets.set_epoch(record.first),
            17 => self.buckets = halved(&self.buckets, 1),
            18 => self.buckets = rebased(&self.buckets),
            22 => self.buckets = halved(&self.buckets, record.first),
            _ => {
                self.buckets.clear();
                self.slots.clear();
            }
        }
        done(&[])
    }

    /// The calls that change nothing.
    fn question(&self, record: Record) -> String {
        let (buckets, key) = (&self.buckets, record.first);
        match record.operation {
            6 => pair_or(EMPTY, buckets.peek_min().map(|(key, frequency)| (*key, frequency))),
            7 => value_or(EMPTY, buckets.min_freq()),
            8 => value_or(ABSENT, buckets.frequency(&key)),
            9 => value_or(ABSENT, buckets.entry_epoch(&key)),
            11 => done(&[buckets.current_epoch()]),
            14 => done(&[buckets.len() as u64]),
            15 => yes_or_no(buckets.is_empty()),
            16 => yes_or_no(buckets.contains(&key)),
            20 => self.walk(record.first),
            24 => done(&[buckets.iter_bucket_entries(record.first).count() as u64]),
            25 => done(&[buckets.iter().filter(|(_, entry)| entry.freq <= record.first).count() as u64]),
            _ => {
                // The original has its check in builds with debug assertions only.
                #[cfg(debug_assertions)]
                buckets.debug_validate_invariants();
                done(&[])
            }
        }
    }

    fn walk(&self, frequency: u64) -> String {
        let entries = self.buckets.iter_bucket_entries(frequency);
        walked(entries.map(|(_, entry)| (self.slots.of(*entry.key), *entry.key, entry.last_epoch)))
    }

    fn insert(&mut self, key: u64) -> String {
        if self.buckets.len() == self.capacity && !self.buckets.contains(&key) {
            return refused(FULL);
        }
        if self.buckets.insert(key) {
            self.slots.bind(key);
            done(&[])
        } else {
            refused(PRESENT)
        }
    }

    fn remove(&mut self, key: u64) -> Option<u64> {
        let frequency = self.buckets.remove(&key)?;
        self.slots.release(key);
        Some(frequency)
    }

    fn pop_min(&mut self) -> Option<(u64, u64)> {
        let (key, frequency) = self.buckets.pop_min()?;
        self.slots.release(key);
        Some((key, frequency))
    }

    fn batch(&mut self, record: Record) -> String {
        let Some(keys) = batch_keys(record.first, record.second) else {
            return BAD.to_string();
        };
        let count = match record.operation {
            60 => self.insert_batch(keys),
            61 => self.buckets.touch_batch(keys),
            _ => self.remove_batch(keys),
        };
        done(&[count as u64])
    }

    /// The original's own batch where every key would find room, else key by key within the capacity.
    fn insert_batch(&mut self, keys: Vec<u64>) -> usize {
        if self.buckets.len() + keys.len() <= self.capacity {
            let new = keys.iter().filter(|key| !self.buckets.contains(*key));
            new.for_each(|key| self.slots.bind(*key));
            return self.buckets.insert_batch(keys);
        }
        keys.into_iter().filter(|key| self.insert(*key) == done(&[])).count()
    }
    /// The keys of a batch differ, so those that are bound before it are those that it removes.
    fn remove_batch(&mut self, keys: Vec<u64>) -> usize {
        let bound = keys.iter().filter(|key| self.buckets.contains(*key));
        bound.for_each(|key| self.slots.release(*key));
        self.buckets.remove_batch(keys)
    }
}
