"""One program of this project beside the original: what each writes for an input, and where the two part."""

import subprocess
from dataclasses import dataclass

# A program that has not ended after so many seconds has failed.
PATIENCE = 120


@dataclass(frozen=True)
class Judge:
    """Two commands, the original's and ours, and the names of the format's calls."""

    original: list
    ours: list
    calls: dict

    def outputs(self, given):
        sent = given.to_bytes()
        return output(self.original, sent, "the original"), output(self.ours, sent, "our program")

    def differs(self, given):
        expected, actual = self.outputs(given)
        return expected != actual

    def agreed_calls(self, given):
        """How many calls the two answered alike; nothing when they differ. The last line answers no call."""
        expected, actual = self.outputs(given)
        return expected.count(b"\n") - 1 if expected == actual else None

    def first_difference(self, given):
        """The place of the first line that differs, with both lines. The outputs must differ."""
        expected, actual = (lines.split(b"\n") for lines in self.outputs(given))
        place = 0
        while expected[place : place + 1] == actual[place : place + 1]:
            place += 1
        return place, line_at(expected, place), line_at(actual, place)


def output(command, sent, name):
    """What a program writes. One that fails or does not end has that said after its lines, and so agrees with no other."""
    try:
        ended = subprocess.run(command, input=sent, capture_output=True, timeout=PATIENCE)
    except subprocess.TimeoutExpired:
        return f"({name} did not end)".encode()
    if ended.returncode == 0:
        return ended.stdout
    complaint = b" ".join(ended.stderr.split())
    return ended.stdout + f"({name} ended with status {ended.returncode}) ".encode() + complaint


def line_at(lines, place):
    return lines[place].decode(errors="replace") if place < len(lines) else "(nothing)"
