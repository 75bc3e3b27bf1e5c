"""The book of a plan: what each call of its life is answered, worked out from the definition.

It shares nothing with the plan or the engine. Run by itself it prints the answers to the calls on standard input.
"""

import re
import sys

from literal import Plan
from table import LONGEST_CYCLE, cycles, limits_broken, message_of, refusal, shared, verdict

NUMBER = re.compile(rb"(0|[1-9][0-9]{0,9})\n")
WHILE_SETTLED = ("reopen", "verdict", "row")


def read_call(text):
    """The call on the line that begins the text, as a word and its argument, and how long the line is; or none."""
    for word in (b"enter ", b"alter "):
        if text.startswith(word):
            length, whole = shared(text[len(word) :])
            if whole:
                return word.decode().strip(), message_of(text[len(word) : len(word) + length]), len(word) + length
    for word in (b"strike ", b"verdict ", b"row "):
        number = NUMBER.match(text, len(word)) if text.startswith(word) else None
        if number:
            return word.decode().strip(), int(number[1]), number.end()
    for word in (b"settle\n", b"reopen\n"):
        if text.startswith(word):
            return word.decode().strip(), None, len(word)
    return None


class Book:
    """Open or settled, with the records in their order."""

    def __init__(self):
        self.settled = False
        self.records = []

    def may(self, word):
        return self.settled == (word in WHILE_SETTLED)

    def answer(self, word, argument):
        """The answer to a call that may come, and the book is then as the call leaves it."""
        return getattr(self, word)(argument)

    def at(self, identifier):
        """Where the record with the identifier stands, as a list of no place or one."""
        return [place for place, held in enumerate(self.records) if held.identifier == identifier]

    def held(self, records):
        self.records = records
        return f"held {len(records)}\n"

    def enter(self, message):
        number = refusal(message, self.records)
        return self.held(self.records + [message]) if number is None else f"refused {number}\n"

    def alter(self, message):
        numbers = limits_broken(message)
        records = list(self.records)
        for place in self.at(message.identifier):
            records[place] = message
        if not self.at(message.identifier):
            numbers.append(32)
        elif not numbers and max(cycles(records), default=1) > LONGEST_CYCLE:
            numbers.append(34)
        return f"refused {min(numbers)}\n" if numbers else self.held(records)

    def strike(self, identifier):
        for place in self.at(identifier):
            return self.held(self.records[:place] + self.records[place + 1 :])
        return "refused 32\n"

    def settle(self, _):
        self.settled = True
        return "settled\n"

    def reopen(self, _):
        self.settled = False
        return "open\n"

    def verdict(self, identifier):
        for place in self.at(identifier):
            return verdict(Plan(self.records), self.records[place])
        return "refused 32\n"

    def row(self, position):
        return verdict(Plan(self.records), self.records[position]) if position < len(self.records) else "refused 10\n"


def answers(text):
    """What is to be printed of a list of calls, given as bytes."""
    book = Book()
    told = []
    line = 1
    while text:
        call = read_call(text)
        if call is None:
            return "".join(told) + f"unread {line}\n"
        word, argument, length = call
        if not book.may(word):
            return "".join(told) + f"misplaced {line}\n"
        told.append(book.answer(word, argument))
        text = text[length:]
        line += 1
    return "".join(told)


if __name__ == "__main__":
    sys.stdout.write(answers(sys.stdin.buffer.read()))
