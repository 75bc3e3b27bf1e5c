"""The report of a table of messages, worked out from the definition: of the text byte by byte, of the plan line by line.

It shares nothing with the engine's reader, plan or report. Run by itself it prints the report of standard input.
"""

import re
import sys
from dataclasses import dataclass
from math import lcm

from literal import UNSETTLED, Message, Plan, message_bound

LONGEST_TEXT = 16_384
MOST_MESSAGES = 64
LONGEST_CYCLE = 4_194_304


@dataclass(frozen=True)
class Either:
    """Any one of some forms. A form is a sequence; each part is an `Either`, or the bytes that one byte may be."""

    ways: tuple


def literally(words):
    return tuple(frozenset([byte]) for byte in words)


def up_to(most, byte):
    """Such a byte, at most so many times."""
    return () if most == 0 else (Either(((), (byte,) + up_to(most - 1, byte))),)


DIGIT = frozenset(b"0123456789")
NUMBER = (Either((literally(b"0"), (DIGIT - frozenset(b"0"),) + up_to(9, DIGIT))),)
TIMED = literally(b" (timed ") + NUMBER + literally(b" ") + NUMBER + literally(b")")
EVENT = literally(b" (event ") + NUMBER + literally(b")")
LINE = (
    literally(b"(message ")
    + NUMBER
    + literally(b" (node ")
    + NUMBER
    + literally(b") (bytes ")
    + NUMBER
    + literally(b")")
    + (Either((TIMED, EVENT, TIMED + EVENT)),)
    + literally(b" (jitter ")
    + NUMBER
    + literally(b") (due ")
    + NUMBER
    + literally(b"))\n")
)


def opened(form):
    """The form as forms that begin with a byte, or are empty."""
    if form and isinstance(form[0], Either):
        return [begun for way in form[0].ways for begun in opened(way + form[1:])]
    return [form]


def shared(text):
    """How long the longest beginning of the text is that some lawful line shares, and whether it is that whole line."""
    # what a lawful line that shares the beginning so far can go on with; each of them can be completed
    left = {LINE}
    for length, byte in enumerate(text):
        left = {form[1:] for begun in left for form in opened(begun) if form and byte in form[0]}
        if not left:
            return length, False
        if () in left:
            return length + 1, True
    return len(text), False


def message_of(line):
    """The message of a lawful line."""
    numbers = {}
    for part in re.findall("[a-z]+|[0-9]+", line.decode("ascii")):
        if part.isalpha():
            word = part
            numbers[word] = []
        else:
            numbers[word].append(int(part))
    return Message(
        identifier=numbers["message"][0],
        node=numbers["node"][0],
        data_bytes=numbers["bytes"][0],
        timed=tuple(numbers["timed"]) if "timed" in numbers else None,
        event=numbers["event"][0] if "event" in numbers else None,
        jitter=numbers["jitter"][0],
        due=numbers["due"][0],
    )


def cycles(messages):
    periods = {}
    for message in messages:
        if message.timed is not None:
            periods.setdefault(message.node, []).append(message.timed[0])
    return [lcm(*some) for some in periods.values()]


def limits_broken(message):
    """The numbers of the limits that the message does not keep by itself."""
    intervals = [] if message.event is None else [message.event]
    offset_below = True
    if message.timed is not None:
        period, offset = message.timed
        intervals.append(period)
        offset_below = offset < period
    kept = {
        1: message.identifier <= 2047,
        2: message.node <= 15,
        3: message.data_bytes <= 8,
        4: all(1 <= interval <= 1_048_576 for interval in intervals),
        5: offset_below,
        6: message.jitter <= 1_048_576,
        7: 1 <= message.due <= 4_194_304,
    }
    return [number for number, holds in kept.items() if not holds]


def refusal(message, held):
    """The lowest number that refuses the message where others are held, or none."""
    kept = {
        31: message.identifier not in [other.identifier for other in held],
        33: len(held) < MOST_MESSAGES,
        34: all(cycle <= LONGEST_CYCLE for cycle in cycles(held + [message])),
    }
    return min(limits_broken(message) + [number for number, holds in kept.items() if not holds], default=None)


def fault(line, place, layer, number):
    return f"(fault {line} {place} {layer} {number})\n"


def verdict(plan, message):
    bound = message_bound(plan, message.identifier)
    if bound == UNSETTLED:
        return f"(bound {message.identifier} unsettled)\n"
    return f"(bound {message.identifier} {bound} {'met' if bound <= message.due else 'late'})\n"


def report(text):
    """What is to be printed of a table, given as bytes."""
    if len(text) > LONGEST_TEXT:
        return fault(0, 0, "text", 9)
    held = []
    line = 1
    while text:
        length, whole = shared(text)
        if not whole:
            return fault(line, length + 1, "text", 8)
        message = message_of(text[:length])
        number = refusal(message, held)
        if number is not None:
            return fault(line, 1, "plan", number)
        held.append(message)
        text = text[length:]
        line += 1
    plan = Plan(held)
    return "".join(verdict(plan, message) for message in sorted(held, key=lambda message: message.identifier))


if __name__ == "__main__":
    sys.stdout.write(report(sys.stdin.buffer.read()))
