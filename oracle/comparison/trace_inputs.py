"""Inputs of the trace program: its edges, all short sequences, random runs."""

from comparison.generation import (
    PLACE, RUN_LENGTHS, all_sequences, choices, choose, key_pool, packed, some_key, some_number, some_rest,
)
from comparison.records import TOP, Input

INSERT, GET, PEEK, REMOVE, PEEK_LFU, RESET, CLEAR, EVICT = range(1, 9)
BAD_OPERATIONS = (0, *range(9, 256))

LARGEST_CAPACITY = 256

# A capacity and how often it comes up in random runs. 257 is refused.
CAPACITIES = {0: 1, 1: 3, 2: 4, 3: 4, 7: 4, 16: 4, 256: 4, 257: 1}

EVEN_RUN = {INSERT: 30, GET: 30, PEEK: 6, REMOVE: 8, PEEK_LFU: 8, RESET: 6, CLEAR: 0.3, EVICT: 6, "bad": 1}
LONG_LIVES = {INSERT: 25, GET: 60, PEEK: 3, REMOVE: 1, PEEK_LFU: 5, RESET: 2, CLEAR: 0.01, EVICT: 1, "bad": 0.2}


def edges():
    """Inputs that end early, every operation byte, the ends of the numbers and of the capacity."""
    yield Input(None, [])
    yield Input(None, [], b"\x02")
    for capacity in (0, 1, 2, 255, 256, 257, 511, 512, 65535):
        yield Input(capacity, [])
        yield Input(capacity, [(INSERT, 1, 1), (GET, 1, 0)])
    for length in range(1, 17):
        yield Input(2, [], b"\x01" * length)
        yield Input(2, [(INSERT, 1, 2)], b"\x01" * length)
    yield Input(1, [(INSERT, 5, 6)] + [record for operation in BAD_OPERATIONS
                                       for record in ((operation, 5, 7), (GET, 5, 0), (RESET, 5, 0))])
    ends = (0, 1, TOP - 1, TOP)
    for capacity in (1, 3):
        yield Input(capacity, [(INSERT, key, value) for key in ends for value in ends]
                    + [(GET, key, TOP) for key in ends] + [(EVICT, 0, 0)] * 5)


def short(depth):
    """Every sequence over three keys, followed by what shows the values and the order of eviction."""
    keys = (1, 2, 3)
    alphabet = [(operation, key, PLACE) for operation in (INSERT, GET, REMOVE, RESET) for key in keys]
    alphabet.append((EVICT, 0, 0))
    tail = [(PEEK, key, 0) for key in keys] + [(PEEK_LFU, 0, 0)] + [(EVICT, 0, 0)] * 3 + [(CLEAR, 0, 0)]
    for capacity in (0, 1, 2):
        yield from packed(capacity, all_sequences(alphabet, depth), tail)


def random_runs(rng, calls):
    """Random runs with at least `calls` records in all."""
    while calls > 0:
        capacity = choose(rng, CAPACITIES)
        count = choose(rng, RUN_LENGTHS) if capacity <= LARGEST_CAPACITY else 10
        yield random_run(rng, capacity, count)
        calls -= count


def random_run(rng, capacity, count):
    pool = key_pool(rng, capacity)
    weights = rng.choice((EVEN_RUN, LONG_LIVES))
    records = [
        (rng.choice(BAD_OPERATIONS) if operation == "bad" else operation, some_key(rng, pool), some_number(rng))
        for operation in choices(rng, weights, count)
    ]
    return Input(capacity, records, some_rest(rng))
