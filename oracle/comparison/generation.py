"""What the inputs of both formats are made with: pools of keys, weighted choices, all short sequences."""

import itertools

from comparison.records import TOP, Input

# The lengths of random runs, and how often each comes up.
RUN_LENGTHS = {30: 6, 300: 6, 3_000: 3, 30_000: 0.3}

# Stands for the second number of a record in an alphabet: the record's place in its sequence, so that values differ.
PLACE = object()


def all_sequences(alphabet, depth):
    """Every sequence of at most `depth` records of the alphabet, shortest first."""
    for length in range(depth + 1):
        for records in itertools.product(alphabet, repeat=length):
            yield [
                (operation, first, place if second is PLACE else second)
                for place, (operation, first, second) in enumerate(records)
            ]


def packed(capacity, sequences, tail, size=40_000):
    """Sequences in few inputs. The tail shows what a sequence led to and ends in `clear`, which gives a new table."""
    records = []
    for sequence in sequences:
        records += sequence
        records += tail
        if len(records) >= size:
            yield Input(capacity, records)
            records = []
    yield Input(capacity, records)


def key_pool(rng, capacity):
    """Somewhat more keys than fit, so that hits, misses, victims and refusals are all frequent."""
    size = capacity + capacity // 2 + 2
    kind = rng.randrange(4)
    if kind == 0:
        return list(range(size))
    if kind == 1:  # around the largest key, going on from 0
        return [(TOP - size // 2 + step) & TOP for step in range(size)]
    if kind == 2:  # far apart, and alike in their low bytes
        return [(step * 2**48 + 7) & TOP for step in range(size)]
    return [rng.getrandbits(64) for _ in range(size)]


def some_key(rng, pool):
    """A key of the pool; those at its front come up more often, so that frequencies spread."""
    return pool[int(len(pool) * rng.random() ** 2)]


def some_number(rng):
    """Any number: often small, at times at an end of the range."""
    return rng.choice((0, 1, 2, rng.randrange(1000), rng.getrandbits(64), TOP - 1, TOP))


def choices(rng, weights, count):
    """`count` operations, each as often as its weight says."""
    return rng.choices(list(weights), list(weights.values()), k=count)


def choose(rng, weights):
    return choices(rng, weights, 1)[0]


def some_rest(rng):
    """What follows the last record: mostly nothing, at times a record that is cut."""
    return bytes(rng.randrange(1, 17)) if rng.randrange(4) == 0 else b""
