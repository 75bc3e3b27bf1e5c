"""Makes the tables of the test program `cases`, and prints what the program must print: each table's name and its report.

The reports are those of the literal calculation. Where a report is known beforehand, the two are held against each other.
"""

import sys
from pathlib import Path
from random import Random

from literal import longest_frame
from table import LONGEST_TEXT, fault, report

DATA = Path(__file__).parent.parent / "crates" / "cases" / "data"


def line(identifier=10, node=1, data_bytes=0, timed=None, event=None, jitter=0, due=400):
    parts = [f"(message {identifier} (node {node}) (bytes {data_bytes})"]
    if timed is not None:
        parts.append(f"(timed {timed[0]} {timed[1]})")
    if event is not None:
        parts.append(f"(event {event})")
    parts.append(f"(jitter {jitter}) (due {due}))\n")
    return " ".join(parts)


def worked(*lines, known):
    """Lines whose report is known."""
    return "".join(lines), known


def refused(number, *lines):
    """Lines of which the last is refused by the plan, and none before it."""
    return "".join(lines), fault(len(lines), 1, "plan", number)


def broken(text):
    """A text in which the mark | stands where the longest beginning ends that a lawful line shares with the faulty line."""
    before, after = text.split("|")
    lines = before.split("\n")
    return before + after, fault(len(lines), len(lines[-1]) + 1, "text", 8)


def spoilt(old, new):
    """A lawful line with something else in one place."""
    lawful = "(message 10 (node 1) (bytes 0) (timed 400 0) (event 300) (jitter 0) (due 500))\n"
    assert lawful.count(old) == 1
    return broken(lawful.replace(old, new))


def worked_examples():
    yield "worked-timed", worked(line(timed=(400, 0)), known="(bound 10 110 met)\n")
    first = line(timed=(400, 0))
    yield "worked-one-node", worked(first, line(20, timed=(400, 200), due=100), known="(bound 10 110 met)\n(bound 20 110 late)\n")
    yield "worked-two-nodes", worked(first, line(20, 2, timed=(400, 200), due=165), known="(bound 10 110 met)\n(bound 20 165 met)\n")
    yield "worked-mixed", worked(line(timed=(400, 0), event=400, due=164), known="(bound 10 165 late)\n")
    yield "worked-last-bit", worked(line(1, event=110), line(2, 2, event=5000, due=219), known="(bound 1 110 met)\n(bound 2 220 late)\n")
    yield "worked-jitter", worked(line(event=200, jitter=450, due=560), known="(bound 10 560 met)\n")
    yield "worked-full", worked(line(event=55, due=4_194_304), known="(bound 10 unsettled)\n")
    yield "worked-near-full", worked(line(event=56), known="(bound 10 110 met)\n")
    largest = line(2047, 15, 8, event=1_048_576, jitter=1_048_576, due=4_194_304)
    yield "worked-largest", worked(largest, known="(bound 2047 1048846 met)\n")
    yield "worked-smallest", worked(line(0, 0, 0, timed=(1, 0), event=1, jitter=0, due=1), known="(bound 0 unsettled)\n")


def refusals():
    """Each limit: where there are two lines, the first is just within it."""
    yield "refused-identifier", refused(1, line(2047, event=400), line(2048, event=400))
    yield "refused-node", refused(2, line(node=15, event=400), line(11, 16, event=400))
    yield "refused-bytes", refused(3, line(data_bytes=8, event=400), line(11, data_bytes=9, event=400))
    yield "refused-period-0", refused(4, line(timed=(1, 0)), line(11, timed=(0, 0)))
    yield "refused-period", refused(4, line(timed=(1_048_576, 1_048_575)), line(11, timed=(1_048_577, 0)))
    yield "refused-gap-0", refused(4, line(event=1), line(11, event=0))
    yield "refused-gap", refused(4, line(event=1_048_576), line(11, event=1_048_577))
    yield "refused-mixed-period", refused(4, line(timed=(1_048_577, 0), event=400))
    yield "refused-mixed-gap", refused(4, line(timed=(400, 0), event=1_048_576), line(11, timed=(400, 0), event=1_048_577))
    yield "refused-offset", refused(5, line(timed=(400, 399)), line(11, timed=(400, 400)))
    yield "refused-mixed-offset", refused(5, line(timed=(400, 399), event=1000), line(11, timed=(400, 400), event=1000))
    yield "refused-jitter", refused(6, line(event=400, jitter=1_048_576), line(11, event=400, jitter=1_048_577))
    yield "refused-due-0", refused(7, line(event=400, due=1), line(11, event=400, due=0))
    yield "refused-due", refused(7, line(event=400, due=4_194_304), line(11, event=400, due=4_194_305))
    yield "refused-held", refused(31, line(event=400), line(11, event=400), line(10, 2, timed=(500, 0)))
    few = [line(k, k % 15, event=60_000) for k in range(63)]
    full = few + [line(63, 15, event=60_000)]
    yield "refused-full", refused(33, *full, line(64, event=60_000))

    long = line(1, timed=(1_048_576, 0))
    yield "refused-cycle-5", refused(34, long, line(timed=(5, 0)))
    yield "refused-cycle-3-5", refused(34, long, line(2, timed=(3, 1)), line(timed=(5, 0)))
    yield "refused-cycle-4097", refused(34, long, line(timed=(4097, 0)))
    yield "refused-cycle-1985", refused(34, line(1, timed=(1985, 0)), line(timed=(2113, 0)))
    yield "refused-cycle-2047", refused(34, line(1, timed=(2047, 0)), line(2, timed=(2049, 0)), line(timed=(2, 0)))
    yield "refused-cycle-mixed", refused(34, long, line(2, timed=(4, 3), event=7), line(timed=(5, 4), event=1_048_576))
    # neither another node's period nor a gap lengthens the cycle
    yield "refused-cycle-apart", refused(34, long, line(2, 2, timed=(5, 0)), line(3, event=5), line(4, 2, timed=(1_048_576, 0)))

    # several at once: the lowest is told
    wrong = dict(identifier=9_999_999_999, node=9_999_999_999, data_bytes=9, timed=(0, 0), jitter=1_048_577, due=0)
    amended = [("identifier", 2047), ("node", 15), ("data_bytes", 8), ("timed", (7, 7)), ("timed", (7, 0)), ("jitter", 1_048_576)]
    for number in range(1, 8):
        yield f"several-{number}", refused(number, line(**wrong))
        if number < 7:
            part, value = amended[number - 1]
            wrong[part] = value
    yield "several-31", refused(31, line(64, timed=(1_048_576, 0)), *few, line(7, timed=(5, 0)))
    yield "several-33", refused(33, line(64, timed=(1_048_576, 0)), *few, line(65, timed=(5, 0)))

    # numbers that would be lawful if they were cut to 32 bits
    wrap = 4_294_967_296
    yield "digits-identifier", refused(1, line(wrap + 10, event=400))
    yield "digits-node", refused(2, line(node=wrap + 1, event=400))
    yield "digits-bytes", refused(3, line(data_bytes=wrap, event=400))
    yield "digits-period", refused(4, line(timed=(wrap + 400, 0)))
    yield "digits-gap", refused(4, line(timed=(400, 0), event=wrap + 400))
    yield "digits-offset", refused(5, line(timed=(400, wrap)))
    yield "digits-jitter", refused(6, line(event=400, jitter=wrap))
    yield "digits-due", refused(7, line(event=400, due=wrap + 400))


def text_faults():
    lawful = line(timed=(400, 0), event=300)
    other = line(11, event=400)
    yield "text-empty", worked(known="")
    yield "text-line-feed", broken("|\n")
    yield "text-empty-line", broken(lawful + "|\n" + other)
    yield "text-no-line-feed", spoilt("\n", "|")
    yield "text-no-last-line-feed", broken(lawful + other.replace("\n", "|"))
    yield "text-carriage-return", spoilt("\n", "|\r\n")
    yield "text-ends-in-a-word", broken("(message 10 (nod|")

    yield "text-first-word", spoilt("message", "mess|enger")
    yield "text-wrong-word", spoilt("node", "n|umber")
    yield "text-short-word", spoilt("node", "nod|")
    yield "text-long-word", spoilt("timed", "timed|s")
    yield "text-parts-swapped", spoilt("(node 1) (bytes 0)", "(|bytes 0) (node 1)")
    yield "text-neither-part", spoilt("(timed 400 0) (event 300) (jitter", "(|jitter")
    yield "text-event-before-timed", spoilt("(timed 400 0) (event 300)", "(event 300) (|timed 400 0)")

    yield "text-double-space", spoilt("(message ", "(message | ")
    yield "text-tab", spoilt("node 1", "node|\t1")
    yield "text-no-space", spoilt(" (bytes", "|(bytes")
    yield "text-no-opening-bracket", spoilt("(bytes", "|bytes")
    yield "text-no-closing-bracket", spoilt("1) ", "1| ")
    yield "text-no-last-bracket", spoilt("))", ")|")

    yield "text-leading-zero", spoilt("10", "0|10")
    yield "text-two-zeros", spoilt("400 0)", "400 0|0)")
    yield "text-eleventh-digit", spoilt("500", "1234567890|1")
    yield "text-no-number", spoilt("node 1", "node |")
    yield "text-minus", spoilt("jitter 0", "jitter |-1")
    yield "text-letter-in-a-number", spoilt("bytes 0", "bytes 0|x0")
    yield "text-offset-absent", spoilt("400 0", "400|")

    # lawful but for the highest bit of a byte
    yield "text-high-bit-in-a-word", spoilt("bytes", "byte|\xf3")
    yield "text-high-bit-in-a-number", spoilt("300", "3|\xb00")
    yield "text-high-bit-at-the-end", spoilt("\n", "|\x8a")

    # the first faulty line is told, and of a line its text before its numbers
    yield "text-before-plan", broken("(message 9999 (node 99) (bytes 99) (event 0) (jitter 0) (due 0)|")
    yield "text-after-plan", worked(lawful, lawful, "(message 11 (node 1)\n", known=fault(2, 1, "plan", 31))
    yield "text-then-plan", broken(lawful + "(message 11 (node 1)|\n" + lawful)
    full = "".join(line(k, k % 15, event=60_000) for k in range(64))
    yield "text-longest", broken(full + "|" + "x" * (LONGEST_TEXT - len(full)))
    yield "text-too-long", worked("x" * (LONGEST_TEXT + 1), known=fault(0, 0, "text", 9))


class Draw:
    """Draws that are the same in every run."""

    def __init__(self, seed):
        self.random = Random(seed).random

    def below(self, limit):
        return int(self.random() * limit)

    def one_of(self, choices):
        return choices[self.below(len(choices))]


def load(message):
    """How much of the bus the message takes."""
    rate = (1 / message["timed"][0] if message["timed"] else 0) + (1 / message["event"] if message["event"] else 0)
    return rate * longest_frame(message["data_bytes"])


def drawn(seed, most, senders, load_below, periods=(), gaps=(), jitters=(0,)):
    """At most so many messages, and as many as a thousand draws give that keep the load. A sender is the nodes that it may
    be and the kind of its message: t, e or te."""
    draw = Draw(seed)
    messages = {}
    for _ in range(1000):
        identifier = draw.below(2048)
        nodes, kind = draw.one_of(senders)
        period = draw.one_of(periods) if "t" in kind else None
        message = dict(
            identifier=identifier,
            node=draw.one_of(nodes),
            data_bytes=draw.below(9),
            timed=(period, draw.below(period)) if "t" in kind else None,
            event=draw.one_of(gaps) if "e" in kind else None,
            jitter=draw.one_of(jitters),
            due=1 + draw.below(10_000),
        )
        kept = load(message) + sum(map(load, messages.values())) < load_below
        if len(messages) < most and identifier not in messages and kept:
            messages[identifier] = message
    return list(messages.values())


def calculated(messages):
    """Lines whose report is not known beforehand."""
    return "".join(line(**message) for message in messages), None


def due_at_the_bound(messages):
    """The same messages, each due when its bound ends or one bit before."""
    bounds = [int(printed.split()[2]) for printed in report(calculated(messages)[0].encode()).splitlines()]
    rising = sorted(messages, key=lambda message: message["identifier"])
    return [dict(message, due=bound - k % 2) for k, (message, bound) in enumerate(zip(rising, bounds))]


def large_tables():
    """Cycles have at most some thousands of phases, since the literal calculation looks at each."""
    every = range(1, 16)
    kinds = [([1, 2, 3, 6, 7, 8, 9, 10, 11, 12, 13, 14, 15], "e")] * 12 + [([4, 5], "t"), ([4, 5], "te")]
    yield "large-all-kinds", calculated(drawn(2, 64, kinds, 0.7, [1000, 2000], [20_000, 40_000, 64_000], [0, 0, 50, 200]))
    yield "large-sporadic", calculated(drawn(2, 64, [(every, "e")], 0.98, gaps=[4000, 5000, 6000, 8000, 10_000], jitters=[0, 0, 100, 500]))

    periodic = drawn(3, 64, [(range(1, 6), "t")], 0.9, periods=[500, 1000, 2000])
    yield "large-periodic", calculated(periodic)
    yield "large-due", calculated(due_at_the_bound(periodic))
    yield "large-one-node", calculated(drawn(8, 64, [([3], "t")], 0.95, periods=[1000, 2000]))
    yield "large-cycles", calculated(drawn(2, 64, [([0, 7, 15], "t")], 0.8, periods=[360, 400, 450, 1800]))
    clocks = [dict(identifier=3 * k, node=k, data_bytes=k % 9, timed=(1000 + 97 * k, 31 * k), event=None, due=1000) for k in every]
    yield "large-clocks", calculated(clocks)
    yield "large-mixed", calculated(drawn(6, 64, [(range(1, 5), "te")], 0.95, [800, 1600], [2000, 3000]))

    both = [(range(1, 4), "t"), (range(1, 4), "e")]
    yield "large-jitter", calculated(drawn(4, 64, both, 0.8, [400, 600, 1200], [1000, 1500], [0, 900, 2500, 5000]))
    yield "large-long-jitter", calculated(drawn(5, 64, [(every, "e")], 0.6, gaps=[2000, 5000, 10_000], jitters=[0, 10_000, 1_048_576]))

    near = drawn(7, 64, both, 0.998, [600, 1200], [900, 1111, 4321], [0, 10])
    last = [dict(identifier=k, node=k % 4, data_bytes=8, timed=None, event=4000, due=4_194_304) for k in range(2045, 2048)]
    yield "large-near-full", calculated(near)
    yield "large-overload", calculated(near + last)
    full = [dict(identifier=k, node=k, data_bytes=8, timed=None, event=540, due=4_194_304) for k in range(1, 5)]
    yield "large-exactly-full", calculated(full)


def main():
    named = [*worked_examples(), *refusals(), *text_faults(), *large_tables()]
    made = dict(named)
    assert len(made) == len(named)
    DATA.mkdir(parents=True, exist_ok=True)
    for file in DATA.glob("*.table"):
        if file.stem not in made:
            file.unlink()
    (DATA / "index").write_text("".join(f"{name}\n" for name in sorted(made)))
    wrong = 0
    for name, (text, known) in sorted(made.items()):
        content = text.encode("latin-1")
        (DATA / f"{name}.table").write_bytes(content)
        found = report(content)
        if known is not None and found != known:
            wrong += 1
            sys.stderr.write(f"{name}: {found} not {known}")
        sys.stdout.write(f"{name}\n{found}")
    return 1 if wrong else 0


if __name__ == "__main__":
    raise SystemExit(main())
