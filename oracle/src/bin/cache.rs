//! The trace program of document 01 over the original's cache: standard input to standard output.

use oracle::input::{Input, Record};
use oracle::insertion::{Insertion, insert};
use oracle::policy::lfu::LfuCache;
use oracle::traits::Cache;
use std::io::{self, BufWriter, Write};

const LARGEST_CAPACITY: usize = 256;

fn main() -> io::Result<()> {
    let mut out = BufWriter::new(io::stdout().lock());
    let Some(input) = Input::read()? else {
        return writeln!(out, "CUT");
    };
    if input.capacity > LARGEST_CAPACITY {
        return writeln!(out, "CAPACITY");
    }
    let mut cache = LfuCache::new(input.capacity);
    for record in input.records() {
        write_line(&mut out, &mut cache, record)?;
    }
    if input.is_cut() {
        return writeln!(out, "CUT");
    }
    writeln!(out, "END {}", cache.len())
}

fn write_line(out: &mut impl Write, cache: &mut LfuCache<u64, u64>, record: Record) -> io::Result<()> {
    let key = record.first;
    match record.operation {
        1 => match insert(cache, key, record.second) {
            Insertion::New => writeln!(out, "NEW"),
            Insertion::NewWithVictim(victim) => writeln!(out, "NEW OUT {victim}"),
            Insertion::Old(old) => writeln!(out, "OLD {old}"),
            Insertion::Full => writeln!(out, "FULL"),
        },
        2 => write_found(out, "HIT", cache.get(&key).map(|value| **value)),
        3 => write_found(out, "SEE", cache.peek(&key).map(|value| **value)),
        4 => write_found(out, "GONE", cache.remove(&key).map(|value| *value)),
        5 => write_least(out, "LEAST", cache.peek_lfu().map(|(key, value)| (*key, **value))),
        6 => write_found(out, "RESET", cache.reset_frequency(&key)),
        7 => {
            cache.clear();
            writeln!(out, "OK")
        }
        // evict_min_freq is private; pop_lfu calls it and, without metrics, does nothing else.
        8 => write_least(out, "OUT", cache.pop_lfu().map(|(key, value)| (key, *value))),
        _ => writeln!(out, "BAD"),
    }
}

/// The answer of a call that needs its key bound.
fn write_found(out: &mut impl Write, word: &str, value: Option<u64>) -> io::Result<()> {
    match value {
        Some(value) => writeln!(out, "{word} {value}"),
        None => writeln!(out, "MISS"),
    }
}

/// The answer of a call that needs any key bound.
fn write_least(out: &mut impl Write, word: &str, pair: Option<(u64, u64)>) -> io::Result<()> {
    match pair {
        Some((key, value)) => writeln!(out, "{word} {key} {value}"),
        None => writeln!(out, "NONE"),
    }
}
