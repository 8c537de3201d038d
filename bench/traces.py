"""The kinds of traces that are measured. Each takes a source of randomness, a capacity and a number of records."""

import struct

RECORD = struct.Struct("<BQQ")
INSERT, GET, PEEK, REMOVE, PEEK_LFU, RESET, CLEAR, EVICT = range(1, 9)


def even(rng, capacity, records):
    """Inserts and gets over keys of which two thirds fit, and some of every other call."""
    keys = [rng.getrandbits(64) for _ in range(capacity + capacity // 2 + 1)]
    weights = {INSERT: 30, GET: 50, PEEK: 6, REMOVE: 4, PEEK_LFU: 4, RESET: 3, EVICT: 3}
    return written(capacity, drawn(rng, weights, keys, records))


def hits(rng, capacity, records):
    """A full table, then gets that all find their key."""
    keys = [rng.getrandbits(64) for _ in range(capacity)]
    filled = [(INSERT, key, key) for key in keys]
    return written(capacity, filled + drawn(rng, {GET: 1}, keys, records - capacity))


def evictions(rng, capacity, records):
    """Keys that never come again: each insert into the full table has a victim."""
    return written(capacity, [(INSERT, rng.getrandbits(64), place) for place in range(records)])


def alike(rng, capacity, records):
    """As `even`, over keys that are equal in their low six bytes, which an index by low bytes cannot tell apart."""
    keys = [(place << 48) + 7 for place in range(capacity + capacity // 2 + 1)]
    weights = {INSERT: 30, GET: 50, PEEK: 6, REMOVE: 4, PEEK_LFU: 4, RESET: 3, EVICT: 3}
    return written(capacity, drawn(rng, weights, keys, records))


def drawn(rng, weights, keys, count):
    calls = rng.choices(list(weights), list(weights.values()), k=count)
    return [(call, rng.choice(keys), place) for place, call in enumerate(calls)]


def written(capacity, records):
    return capacity.to_bytes(2, "little") + b"".join(RECORD.pack(*record) for record in records)


TRACES = {
    "every call, random keys": even,
    "gets of bound keys": hits,
    "inserts that evict": evictions,
    "every call, keys alike in their low bytes": alike,
}
