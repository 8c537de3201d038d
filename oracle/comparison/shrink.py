"""A short input that still shows a difference, found by leaving out and making smaller what can be."""

from dataclasses import replace


def shrink(judge, given):
    """Smaller and smaller inputs that differ, until nothing more can be left out."""
    place, _, _ = judge.first_difference(given)
    candidate = replace(given, records=given.records[: place + 1], rest=b"")
    if judge.differs(candidate):
        given = candidate
    shrunk = None
    while shrunk != given:
        shrunk = given
        for smaller in (without_records, smaller_capacity, smaller_numbers):
            given = smaller(judge, given)
    return given


def without_records(judge, given):
    """Leaves out stretches of records: half of all at first, single ones at last."""
    stretch = max(1, len(given.records) // 2)
    while True:
        start = 0
        while start < len(given.records):
            candidate = replace(given, records=given.records[:start] + given.records[start + stretch :])
            if judge.differs(candidate):
                given = candidate
            else:
                start += stretch
        if stretch == 1:
            return given
        stretch //= 2


def smaller_capacity(judge, given):
    for capacity in range(min(given.capacity or 0, 16)):
        candidate = replace(given, capacity=capacity)
        if judge.differs(candidate):
            return candidate
    return given


def smaller_numbers(judge, given):
    """The first numbers become 1, 2, 3 in order of appearance, then single numbers smaller, where that still differs."""
    names = {}
    for _, first, _ in given.records:
        names.setdefault(first, len(names) + 1)
    candidate = replace(given, records=[(op, names[first], second) for op, first, second in given.records])
    if judge.differs(candidate):
        given = candidate
    for place in range(len(given.records)):
        for record in smaller_records(*given.records[place]):
            candidate = replace(given, records=given.records[:place] + [record] + given.records[place + 1 :])
            if judge.differs(candidate):
                given = candidate
                break
    return given


def smaller_records(operation, first, second):
    for smaller in (1, 2):
        if smaller < first:
            yield operation, smaller, second
    for smaller in (0, 1, 2):
        if smaller < second:
            yield operation, first, smaller
