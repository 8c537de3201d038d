//! Lines of `drive`: document 01's number for the answer, then its values, each after one space.

pub const ABSENT: u64 = 1;
pub const PRESENT: u64 = 2;
pub const FULL: u64 = 3;
pub const EMPTY: u64 = 4;
pub const CAPACITY: u64 = 7;

/// An operation that the format does not have, or a batch that is too long.
pub const BAD: &str = "BAD";

/// A call that the original cannot be asked in this run. Compared inputs have none.
pub const SKIP: &str = "SKIP";

const DONE: u64 = 0;

pub fn done(values: &[u64]) -> String {
    after_done(values.iter().map(u64::to_string))
}

pub fn refused(number: u64) -> String {
    number.to_string()
}

/// The one value of a call, or its refusal where the original answers nothing.
pub fn value_or(refusal: u64, value: Option<u64>) -> String {
    value.map_or_else(|| refused(refusal), |value| done(&[value]))
}

/// The two values of a call, or its refusal where the original answers nothing.
pub fn pair_or(refusal: u64, pair: Option<(u64, u64)>) -> String {
    pair.map_or_else(|| refused(refusal), |(first, second)| done(&[first, second]))
}

pub fn yes_or_no(answer: bool) -> String {
    done(&[u64::from(answer)])
}

/// A walk: `slot:key:epoch` for each entry, head first.
pub fn walked(entries: impl Iterator<Item = (usize, u64, u64)>) -> String {
    after_done(entries.map(|(slot, key, epoch)| format!("{slot}:{key}:{epoch}")))
}

fn after_done(words: impl Iterator<Item = String>) -> String {
    let mut line = DONE.to_string();
    for word in words {
        line.push(' ');
        line.push_str(&word);
    }
    line
}

const LONGEST_BATCH: u64 = 4096;

/// The keys of a batch, going on from 0 after 2^64 - 1; nothing when there are too many.
pub fn batch_keys(first: u64, count: u64) -> Option<Vec<u64>> {
    (count <= LONGEST_BATCH).then(|| (0..count).map(|step| first.wrapping_add(step)).collect())
}
