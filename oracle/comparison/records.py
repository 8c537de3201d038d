"""Inputs of both formats: a capacity and records, as bytes and as text that a person can read."""

import struct
from dataclasses import dataclass

RECORD = struct.Struct("<BQQ")
TOP = 2**64 - 1

# For each operation its name, and how many of a record's two numbers it uses.
TRACE_CALLS = {
    1: ("insert", 2), 2: ("get", 1), 3: ("peek", 1), 4: ("remove", 1),
    5: ("peek_lfu", 0), 6: ("reset", 1), 7: ("clear", 0), 8: ("evict", 0),
}
BUCKET_CALLS = {
    1: ("insert", 1), 2: ("touch", 1), 3: ("touch_capped", 2), 4: ("remove", 1), 5: ("pop_min", 0),
    6: ("peek_min", 0), 7: ("min_freq", 0), 8: ("frequency", 1), 9: ("entry_epoch", 1),
    10: ("set_entry_epoch", 2), 11: ("current_epoch", 0), 12: ("set_epoch", 1), 13: ("advance_epoch", 0),
    14: ("len", 0), 15: ("is_empty", 0), 16: ("contains", 1), 17: ("decay_halve", 0),
    18: ("rebase_min_freq", 0), 19: ("clear", 0), 20: ("walk", 1), 21: ("check", 0), 22: ("decay_halve_times", 1),
    24: ("bucket_len", 1), 25: ("len_up_to", 1),
    60: ("insert_batch", 2), 61: ("touch_batch", 2), 62: ("remove_batch", 2),
}
CACHE_CALLS = {
    40: ("cache insert", 2), 41: ("cache get", 1), 42: ("cache peek", 1), 43: ("cache remove", 1),
    44: ("cache clear", 0), 45: ("cache peek_lfu", 0), 46: ("cache evict_min_freq", 0),
    47: ("cache reset_frequency", 1), 48: ("cache len", 0), 49: ("cache check", 0),
    63: ("cache insert_batch", 2), 64: ("cache remove_batch", 2), 65: ("cache touch_batch", 2),
    66: ("cache insert_batch with a value too many", 2),
}
DRIVE_CALLS = BUCKET_CALLS | CACHE_CALLS


@dataclass(frozen=True)
class Input:
    """A whole input. Without a capacity it ends before its second byte; `rest` follows the last whole record."""

    capacity: int | None
    records: list
    rest: bytes = b""

    def to_bytes(self):
        head = b"" if self.capacity is None else self.capacity.to_bytes(2, "little")
        return head + b"".join(RECORD.pack(*record) for record in self.records) + self.rest

    def describe(self, calls):
        """One line for the capacity and one for each record, with the names of the format."""
        lines = ["no capacity" if self.capacity is None else f"capacity {self.capacity}"]
        lines += [describe(record, calls) for record in self.records]
        if self.rest:
            lines.append(f"then {len(self.rest)} bytes")
        return lines


def describe(record, calls):
    operation, first, second = record
    name, used = calls.get(operation, (f"operation {operation}", 2))
    return " ".join([name, *map(str, (first, second)[:used])])
