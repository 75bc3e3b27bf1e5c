"""Makes lists of calls at random, and what the program `replay` must answer to them.

Each list begins and ends with an empty open plan, so that all of them are one input. The last line comes where it may not.

    lives.py calls      prints the lists
    lives.py answers    prints the answers, as the model of the book gives them
"""

import sys
from random import Random

from book import Book, answers, read_call
from cases import line

LISTS = 400
MOST_HELD = 64
SHORT_PERIODS = (250, 500)
# their least common multiples pass the limit with one another, and with 3 they do not
LONG_PERIODS = (1_048_576, 1_048_575, 4_097, 5, 3, 1)


class Life:
    """A list of calls in the making, with the book that they make."""

    def __init__(self, random):
        self.random = random
        self.book = Book()
        self.calls = []

    def call(self, text):
        word, argument, _ = read_call(text.encode())
        if not self.book.may(word):
            return
        # the figures do not matter to the book
        if word not in ("verdict", "row"):
            self.book.answer(word, argument)
        self.calls.append(text)

    def end(self):
        """Strikes all that is held."""
        self.call("reopen\n")
        for message in self.random.sample(self.book.records, len(self.book.records)):
            self.call(f"strike {message.identifier}\n")

    def identifier(self):
        """One that is held, most of the time."""
        if self.book.records and self.random.random() < 0.8:
            return self.random.choice(self.book.records).identifier
        return self.random.choice((0, 7, 2047, 2048, 9_999_999_999))

    def read(self):
        position = self.random.randrange(len(self.book.records) + 2)
        self.call(self.random.choice((f"verdict {self.identifier()}\n", f"row {position}\n")))


def spoilt(random, fields):
    """The fields of a message, one of them past its limit, or at it."""
    where, value = random.choice(
        (
            ("identifier", 2047),
            ("identifier", 2048),
            ("node", 15),
            ("node", 16),
            ("data_bytes", 8),
            ("data_bytes", 9),
            ("event", 0),
            ("event", 1_048_576),
            ("event", 1_048_577),
            ("timed", (0, 0)),
            ("timed", (500, 499)),
            ("timed", (500, 500)),
            ("timed", (1_048_577, 0)),
            ("jitter", 1_048_577),
            ("due", 0),
            ("due", 4_194_304),
            ("due", 4_194_305),
        )
    )
    return {**fields, where: value}


def message(random, identifier, periods, gaps):
    fields = {
        "identifier": identifier,
        "node": random.randrange(3),
        "data_bytes": random.randrange(2),
        "jitter": random.choice((0, 0, 0, 1, 50, 500)),
        "due": random.choice((100, 200, 400, 1000)),
    }
    kind = random.randrange(3)
    if kind != 0:
        period = random.choice(periods)
        fields["timed"] = (period, random.randrange(period))
    if kind != 1:
        fields["event"] = random.choice(gaps)
    return line(**(spoilt(random, fields) if random.random() < 0.15 else fields))


def common(random, periods=SHORT_PERIODS, gaps=(1000, 2000, 5000)):
    """A few messages, changed and settled again and again."""
    life = Life(random)
    for _ in range(random.randrange(6, 16)):
        if life.book.settled:
            for _ in range(random.randrange(3)):
                life.read()
            life.call("reopen\n")
        what = random.random()
        if what < 0.45 and len(life.book.records) < 5:
            life.call("enter " + message(random, random.randrange(40), periods, gaps))
        elif what < 0.65:
            life.call("alter " + message(random, life.identifier() if random.random() < 0.9 else 3, periods, gaps))
        elif what < 0.8:
            life.call(f"strike {life.identifier()}\n")
        else:
            life.call("settle\n")
    return life


def crowded(random):
    """More than the bus can carry, often."""
    return common(random, (1, 2), (55, 56, 110, 400, 1000))


def lengthy(random):
    """Periods whose cycles pass the limit, or nearly do. They are not settled: over so many phases that would take too long."""
    life = Life(random)
    for _ in range(random.randrange(8, 20)):
        change = random.choice(("enter ", "enter ", "alter "))
        identifier = life.identifier() if change == "alter " else random.randrange(30)
        life.call(change + message(random, identifier, LONG_PERIODS, (1000, 1_048_576)))
        if random.random() < 0.2:
            life.call(f"strike {life.identifier()}\n")
    return life


def full(random):
    """As many messages as a plan holds, and more."""
    life = Life(random)
    for identifier in random.sample(range(2048), MOST_HELD + 2):
        life.call("enter " + line(identifier, random.randrange(16), random.randrange(9), event=random.randrange(20_000, 1_048_577), due=random.randrange(1, 20_000)))
    life.call(f"strike {life.identifier()}\n")
    for identifier in random.sample(range(2048), 3):
        life.call("enter " + line(identifier, event=50_000))
    life.call("settle\n")
    for _ in range(12):
        life.read()
    life.call("reopen\n")
    life.call("alter " + line(life.identifier(), 3, 8, event=30_000, jitter=20_000))
    life.call("settle\n")
    for _ in range(12):
        life.read()
    return life


def kind_of(number):
    if number % 100 == 0:
        return full
    if number % 40 == 1:
        return crowded
    return lengthy if number % 5 == 0 else common


def lists():
    """The empty plan settled, and then the lists."""
    yield "settle\nverdict 0\nrow 0\nreopen\nstrike 0\n"
    for number in range(LISTS):
        random = Random(number)
        life = kind_of(number)(random)
        life.end()
        yield "".join(life.calls)
    yield "settle\nsettle\n"


def main():
    text = "".join(lists())
    sys.stdout.write(text if sys.argv[1:] == ["calls"] else answers(text.encode()))


if __name__ == "__main__":
    main()
