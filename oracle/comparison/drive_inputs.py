"""Inputs of `drive`: its edges, all short sequences, random runs.

A run is on the buckets or on the cache, since the original cannot mix the two. Damage (30, 31), the cache's check (49) and
values that are no pairs with their keys (66) are left out: the original owns its memory, keeps its buckets to itself and takes pairs.
"""

from comparison.generation import (
    PLACE, RUN_LENGTHS, all_sequences, choices, choose, key_pool, packed, some_key, some_number, some_rest,
)
from comparison.records import TOP, Input

(INSERT, TOUCH, TOUCH_CAPPED, REMOVE, POP_MIN, PEEK_MIN, MIN_FREQ, FREQUENCY, ENTRY_EPOCH, SET_ENTRY_EPOCH,
 CURRENT_EPOCH, SET_EPOCH, ADVANCE_EPOCH, LEN, IS_EMPTY, CONTAINS, DECAY_HALVE, REBASE_MIN_FREQ, CLEAR, WALK,
 CHECK, DECAY_HALVE_TIMES) = range(1, 23)
BUCKET_LEN, LEN_UP_TO = 24, 25
INSERT_BATCH, TOUCH_BATCH, REMOVE_BATCH, CACHE_INSERT_BATCH, CACHE_REMOVE_BATCH, CACHE_TOUCH_BATCH = range(60, 66)
(CACHE_INSERT, CACHE_GET, CACHE_PEEK, CACHE_REMOVE, CACHE_CLEAR, CACHE_PEEK_LFU, CACHE_EVICT, CACHE_RESET,
 CACHE_LEN) = range(40, 49)
BATCHES = range(60, 66)
BAD_OPERATIONS = (0, 23, *range(26, 30), *range(32, 40), *range(50, 60), *range(67, 256))
LARGEST_CAPACITY = LONGEST_BATCH = 4096

# A capacity and how often it comes up in random runs. 4,097 and more are refused.
CAPACITIES = {0: 2, 1: 4, 2: 8, 3: 8, 4: 8, 5: 6, 7: 6, 8: 6, 16: 6, 31: 4, 64: 3, 256: 1, 1000: 0.5, 4095: 0.5,
              4096: 1, 4097: 0.2, 65535: 0.1}

# Calls that change nothing but show much: every list of a low frequency.
SHOWN_FREQUENCIES = 12
BUCKET_SHOW = [(WALK, frequency, 0) for frequency in range(SHOWN_FREQUENCIES + 1)] + [(CHECK, 0, 0)]
CACHE_SHOW = [(WALK, frequency, 0) for frequency in range(SHOWN_FREQUENCIES + 1)] + [(CACHE_LEN, 0, 0)]

BUCKET_QUESTIONS = {PEEK_MIN: 3, MIN_FREQ: 3, FREQUENCY: 3, ENTRY_EPOCH: 3, CURRENT_EPOCH: 1, LEN: 1, IS_EMPTY: 1,
                    CONTAINS: 2, WALK: 6, CHECK: 2, BUCKET_LEN: 2, LEN_UP_TO: 2, "bad": 0.5, "show": 1}
BUCKET_EVEN_RUN = BUCKET_QUESTIONS | {
    INSERT: 22, TOUCH: 20, TOUCH_CAPPED: 10, REMOVE: 8, POP_MIN: 5, SET_ENTRY_EPOCH: 3, SET_EPOCH: 1, ADVANCE_EPOCH: 3,
    DECAY_HALVE: 1, DECAY_HALVE_TIMES: 1, REBASE_MIN_FREQ: 1, CLEAR: 0.2, INSERT_BATCH: 2, TOUCH_BATCH: 2, REMOVE_BATCH: 1}
BUCKET_LONG_LIVES = BUCKET_QUESTIONS | {
    INSERT: 20, TOUCH: 45, TOUCH_CAPPED: 10, REMOVE: 1, POP_MIN: 1, ADVANCE_EPOCH: 2, DECAY_HALVE: 0.2, DECAY_HALVE_TIMES: 0.2,
    REBASE_MIN_FREQ: 0.3, INSERT_BATCH: 1, TOUCH_BATCH: 2}

CACHE_QUESTIONS = {CACHE_PEEK: 6, CACHE_PEEK_LFU: 6, CACHE_LEN: 2, FREQUENCY: 3, LEN: 1, IS_EMPTY: 1, CONTAINS: 2,
                   WALK: 3, "bad": 0.5, "show": 0.5}
CACHE_EVEN_RUN = CACHE_QUESTIONS | {
    CACHE_INSERT: 30, CACHE_GET: 25, TOUCH: 3, CACHE_REMOVE: 8, CACHE_EVICT: 6, CACHE_RESET: 6, CACHE_CLEAR: 0.2,
    CACHE_INSERT_BATCH: 2, CACHE_REMOVE_BATCH: 1, CACHE_TOUCH_BATCH: 2}
CACHE_LONG_LIVES = CACHE_QUESTIONS | {
    CACHE_INSERT: 20, CACHE_GET: 50, TOUCH: 5, CACHE_REMOVE: 1, CACHE_EVICT: 1, CACHE_RESET: 2, CACHE_INSERT_BATCH: 1,
    CACHE_TOUCH_BATCH: 3}


def edges():
    """Inputs that end early, every other operation byte, the ends of the numbers, of the capacity and of batches."""
    yield Input(None, [])
    yield Input(None, [], b"\x02")
    for capacity in (0, 1, 255, 256, 257, 4095, 4096, 4097, 65535):
        yield Input(capacity, [])
        yield Input(capacity, [(INSERT, 1, 0), (TOUCH, 1, 0), (LEN, 0, 0)])
        yield Input(capacity, [(CACHE_INSERT, 1, 5), (CACHE_GET, 1, 0), (CACHE_LEN, 0, 0)])
    for length in range(1, 17):
        yield Input(2, [(INSERT, 1, 0)], b"\x01" * length)
    yield Input(1, [(INSERT, 5, 0)] + [record for operation in BAD_OPERATIONS
                                       for record in ((operation, 5, 7), (TOUCH, 5, 0), (FREQUENCY, 5, 0))])
    for epoch in (0, 1, TOP - 1, TOP):
        yield Input(2, [(SET_EPOCH, epoch, 0), (INSERT, TOP, 0), (ADVANCE_EPOCH, 0, 0), (CURRENT_EPOCH, 0, 0),
                        (TOUCH, TOP, 0), (SET_ENTRY_EPOCH, TOP, epoch), (WALK, 2, 0), (WALK, TOP, 0)])
    yield from batch_edges()


def batch_edges():
    """Batches that are empty, as long as allowed, too long, longer than the table, or go on from key 0."""
    bounds = [(first, count) for first in (0, 9, TOP - 1, TOP)
              for count in (0, 1, 2, 4, LONGEST_BATCH, LONGEST_BATCH + 1, TOP)]
    for capacity in (0, 1, 3, 4096):
        for show, calls in (
            (BUCKET_SHOW, (INSERT_BATCH, TOUCH_BATCH, INSERT_BATCH, "show", REMOVE_BATCH, CLEAR)),
            (CACHE_SHOW, (CACHE_INSERT_BATCH, CACHE_TOUCH_BATCH, CACHE_INSERT_BATCH, "show", CACHE_REMOVE_BATCH,
                          CACHE_CLEAR)),
        ):
            yield Input(capacity, [record for first, count in bounds for call in calls
                                   for record in (show if call == "show" else [(call, first, count)])])


def short_on_buckets(depth):
    """Every sequence over two keys; then all lists, and the free slots in order as fresh keys take them."""
    keys = (1, 2)
    alphabet = [(operation, key, 2) for operation in (INSERT, TOUCH, TOUCH_CAPPED, REMOVE) for key in keys]
    alphabet += [(operation, 0, 0) for operation in (POP_MIN, DECAY_HALVE, REBASE_MIN_FREQ, ADVANCE_EPOCH)]
    alphabet.append((DECAY_HALVE_TIMES, 2, 0))
    for capacity in (0, 1, 2):
        tail = [(WALK, frequency, 0) for frequency in range(1, depth + 1)]
        tail += [(CHECK, 0, 0), (PEEK_MIN, 0, 0), (INSERT_BATCH, 100, capacity), (WALK, 1, 0), (CLEAR, 0, 0)]
        yield from packed(capacity, all_sequences(alphabet, depth), tail)


def short_on_cache(depth):
    """Every sequence over three keys; then all lists, and the free slots in order as fresh keys take them."""
    keys = (1, 2, 3)
    alphabet = [(operation, key, PLACE) for operation in (CACHE_INSERT, CACHE_GET, CACHE_REMOVE, CACHE_RESET)
                for key in keys]
    alphabet.append((CACHE_EVICT, 0, 0))
    for capacity in (0, 1, 2):
        tail = [(CACHE_PEEK_LFU, 0, 0)] + [(WALK, frequency, 0) for frequency in range(1, depth + 1)]
        tail += [(CACHE_PEEK, key, 0) for key in keys]
        tail += [(CACHE_INSERT_BATCH, 100, capacity), (WALK, 1, 0), (CACHE_CLEAR, 0, 0)]
        yield from packed(capacity, all_sequences(alphabet, depth), tail)


def random_on_buckets(rng, calls):
    """Random runs of the bucket calls with at least `calls` records in all."""
    yield from random_runs(rng, calls, bucket_run)


def random_on_cache(rng, calls):
    """Random runs of the cache calls with at least `calls` records in all."""
    yield from random_runs(rng, calls, cache_run)


def random_runs(rng, calls, run):
    while calls > 0:
        capacity = choose(rng, CAPACITIES)
        given = run(rng, capacity, min(longest_run(capacity), choose(rng, RUN_LENGTHS)))
        yield given
        calls -= len(given.records)


def longest_run(capacity):
    """A public call reads all of its tables, so runs on large ones are kept short."""
    if capacity <= 64:
        return 30_000
    return 3_000 if capacity <= LARGEST_CAPACITY else 10


def bucket_run(rng, capacity, count):
    return random_run(rng, capacity, count, rng.choice((BUCKET_EVEN_RUN, BUCKET_LONG_LIVES)), BUCKET_SHOW)


def cache_run(rng, capacity, count):
    return random_run(rng, capacity, count, rng.choice((CACHE_EVEN_RUN, CACHE_LONG_LIVES)), CACHE_SHOW)


def random_run(rng, capacity, count, weights, show):
    pool = key_pool(rng, capacity)
    records = []
    for operation in choices(rng, weights, count):
        records += show if operation == "show" else [random_record(rng, operation, pool)]
    return Input(capacity, records, some_rest(rng))


def random_record(rng, operation, pool):
    if operation == "bad":
        return rng.choice(BAD_OPERATIONS), some_number(rng), some_number(rng)
    if operation in (WALK, BUCKET_LEN, LEN_UP_TO):
        return operation, rng.choice((rng.randrange(1, 4), rng.randrange(40), some_number(rng))), some_number(rng)
    if operation == TOUCH_CAPPED:
        return operation, some_key(rng, pool), rng.choice((0, 1, 2, 3, 4, 8, TOP))
    if operation == DECAY_HALVE_TIMES:
        return operation, rng.choice((0, 1, 1, 2, 3, 5, 63, 64, 65, TOP)), some_number(rng)
    if operation == SET_EPOCH:
        return operation, some_number(rng), 0
    if operation in BATCHES:
        most = min(len(pool), LONGEST_BATCH)
        return operation, some_key(rng, pool), rng.choice((0, 1, 2, 3, most // 2, most, LONGEST_BATCH + 1))
    return operation, some_key(rng, pool), some_number(rng)
