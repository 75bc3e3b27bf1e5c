"""Respells the repository's own definitions and lemmas: words in snake case, types in camel case.

    python3 tools/respell.py [--list]

Run once at the top, after the kit's port. Names that Rattle makes of the source (goals, steps, answers) keep their
dashes; so do functions of src/, strings and comments. With --list it only prints old and new names.
"""
import pathlib
import re
import sys

TOKEN = re.compile(r"[^\s(){}\[\];,.\"`]+")
NAME = r"[A-Za-z][^\s(){}\[\];,.\":]*"
SIGNATURE = re.compile(r"^\s*(?:(?:abbrev|unfoldable|pub)\s+)*(" + NAME + r")\s+:\s+(.*)$")
FAMILY = re.compile(r"^\s*(?:(?:abbrev|unfoldable|pub)\s+)*(?:record|data)\s+(" + NAME + r")")


def respelt(name):
    if name[0].isupper():
        return "".join(part[:1].upper() + part[1:] for part in name.split("-"))
    return name.replace("-", "_")


def declared(files):
    """The declared names that have a dash, and those of them that are fields of records."""
    names, fields = set(), set()
    for file in files:
        depth = None
        for line in file.read_text().splitlines():
            if not line.strip() or line.lstrip().startswith("--"):
                continue
            indent = len(line) - len(line.lstrip())
            if depth is not None and indent <= depth:
                depth = None
            family = FAMILY.match(line)
            if family:
                names.add(family[1])
                depth = indent
                continue
            found = SIGNATURE.match(line)
            if not found or line.lstrip().startswith(("let ", "|", "use ")):
                continue
            name, type_ = found[1], found[2]
            if re.match(r"(goal|given|need)\.", type_):
                continue
            names.add(name)
            if depth is not None:
                fields.add(name)
    return {n for n in names if "-" in n.strip("-")}, {n for n in fields if "-" in n}


def code_spans(line, comment):
    """The parts of a line outside strings and its comment, each with whether it is code."""
    at, start, quoted = 0, 0, False
    while at < len(line):
        if line[at] == '"' and (at == 0 or line[at - 1] != "\\"):
            if quoted:
                yield line[start : at + 1], False
                start = at + 1
            else:
                yield line[start:at], True
                start = at
            quoted = not quoted
        elif not quoted and line.startswith(comment, at) and (comment != "--" or at == 0 or line[at - 1] == " "):
            yield line[start:at], True
            yield line[at:], False
            return
        at += 1
    yield line[start:], not quoted


def turn(text, comment, names, fields):
    def of_code(code):
        def one(found):
            name, at = found[0], found.start()
            if name not in names:
                return name
            if at > 0 and code[at - 1] == ".":
                before = code[: at - 1]
                if name not in fields or re.search(r"(^|[\s(\[{,;])(c|w|l|goal|given|need)$", before):
                    return name
            return respelt(name)

        return TOKEN.sub(one, code)

    return "\n".join(
        "".join(of_code(part) if is_code else part for part, is_code in code_spans(line, comment))
        for line in text.split("\n")
    )


def main():
    top = pathlib.Path("crates")
    proofs = sorted(f for f in top.glob("*/*/**/*.antt") if "out" not in f.parts)
    sources = sorted(f for f in top.glob("*/src/**/*.rt"))
    pages = [pathlib.Path("README.md"), *sorted(pathlib.Path("docs").glob("*.md"))]
    names, fields = declared(proofs)
    if "--list" in sys.argv:
        for name in sorted(names):
            print(name, respelt(name), "field" if name in fields else "")
        return
    for file in proofs + sources:
        old = file.read_text()
        new = turn(old, "//" if file.suffix == ".rt" else "--", names, fields)
        taken = set(TOKEN.findall(old))
        for name in sorted(names & taken):
            if respelt(name) in taken:
                print(f"{file}: {name} falls together with {respelt(name)}")
        if new != old:
            file.write_text(new)
    for page in pages:
        old = page.read_text()
        new = re.sub(r"`([^`\n]+)`", lambda m: f"`{respelt(m[1]) if m[1] in names else m[1]}`", old)
        if new != old:
            page.write_text(new)


main()
