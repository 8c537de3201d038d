//! `drive` over the original: one call for each record, its answer as a line.
//!
//! `drive` has one set of tables for the bucket calls and the cache calls. The original's cache keeps its buckets to itself,
//! so a run is on buckets or on a cache: the first record that only one of the two can answer decides.

use oracle::answers::{CAPACITY, refused};
use oracle::bucket_calls::BoundedBuckets;
use oracle::cache_calls::JudgedCache;
use oracle::input::{Input, Record};
use std::io::{self, BufWriter, Write};

const LARGEST_CAPACITY: usize = 4096;

fn main() -> io::Result<()> {
    let mut out = BufWriter::new(io::stdout().lock());
    let Some(input) = Input::read()? else {
        return writeln!(out, "CUT");
    };
    if input.capacity > LARGEST_CAPACITY {
        return writeln!(out, "{}", refused(CAPACITY));
    }
    let mut answer = answerer(&input);
    for record in input.records() {
        writeln!(out, "{}", answer(record))?;
    }
    writeln!(out, "{}", if input.is_cut() { "CUT" } else { "END" })
}

/// What answers the records of this run.
fn answerer(input: &Input) -> Box<dyn FnMut(Record) -> String> {
    let decides = |operation: &u8| is_cache_call(*operation) || is_bucket_call(*operation);
    let first = input.records().map(|record| record.operation).find(decides);
    if first.is_some_and(is_cache_call) {
        let mut cache = JudgedCache::new(input.capacity);
        return Box::new(move |record| cache.answer(record));
    }
    let mut buckets = BoundedBuckets::new(input.capacity);
    Box::new(move |record| buckets.answer(record))
}

/// Whether only a cache can answer.
fn is_cache_call(operation: u8) -> bool {
    matches!(operation, 40..=48 | 63..=65)
}

/// Whether only buckets that are no part of a cache can answer.
fn is_bucket_call(operation: u8) -> bool {
    matches!(operation, 1 | 3..=7 | 9..=13 | 17..=19 | 21 | 22 | 24 | 25 | 60..=62)
}
