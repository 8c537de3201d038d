//! Halving and rebasing by document 02's rule (K1). The original takes its keys in the order of their slots and binds each
//! anew; the rule moves whole lists, and leaves epochs as they are.
//!
//! Only lists and epochs are ours to put right: that every key has the frequency that the original's own call gives it is
//! checked at each call. What the rule asks for is then brought about by the original's public calls alone, on a new table.

use std::collections::BTreeMap;

use crate::ds::FrequencyBuckets;

type Buckets = FrequencyBuckets<u64>;

struct Guest {
    key: u64,
    epoch: u64,
}

/// Each list of keys, head first, by its frequency.
type Lists = BTreeMap<u64, Vec<Guest>>;

/// n halvings: the larger of 1 and f / 2^n.
pub fn halved(buckets: &Buckets, times: u64) -> Buckets {
    let mut original = buckets.clone();
    (0..times.min(64)).for_each(|_| original.decay_halve());
    let shift = |f: u64| if times < 64 { (f >> times).max(1) } else { 1 };
    regrouped(buckets, &original, shift)
}

/// Every frequency less the lowest, plus 1.
pub fn rebased(buckets: &Buckets) -> Buckets {
    let mut original = buckets.clone();
    original.rebase_min_freq();
    let less = buckets.min_freq().map_or(0, |lowest| lowest - 1);
    regrouped(buckets, &original, |f| f - less)
}

fn regrouped(buckets: &Buckets, original: &Buckets, new: impl Fn(u64) -> u64) -> Buckets {
    let mut lists = Lists::new();
    // From the highest list down, each behind what has come to the same frequency before it.
    for (frequency, guests) in lists_of(buckets).into_iter().rev() {
        lists.entry(new(frequency)).or_default().extend(guests);
    }
    for (frequency, guests) in &lists {
        for guest in guests {
            assert_eq!(original.frequency(&guest.key), Some(*frequency), "the original's own frequency");
        }
    }
    table_with(&lists, buckets.current_epoch())
}

fn lists_of(buckets: &Buckets) -> Lists {
    let mut lists = Lists::new();
    let frequencies: Vec<u64> = buckets.iter().map(|(_, entry)| entry.freq).collect();
    for frequency in frequencies {
        lists.entry(frequency).or_insert_with(|| {
            let entries = buckets.iter_bucket_entries(frequency);
            entries.map(|(_, entry)| Guest { key: *entry.key, epoch: entry.last_epoch }).collect()
        });
    }
    lists
}

/// A table with these lists: each key is bound and brought to its frequency, the tail of each list first.
fn table_with(lists: &Lists, epoch: u64) -> Buckets {
    let mut table = Buckets::new();
    for (frequency, guests) in lists {
        for guest in guests.iter().rev() {
            assert!(table.insert(guest.key));
            (1..*frequency).for_each(|_| {
                table.touch(&guest.key);
            });
        }
    }
    for guest in lists.values().flatten() {
        assert!(table.set_entry_epoch(&guest.key, guest.epoch));
    }
    table.set_epoch(epoch);
    table
}
