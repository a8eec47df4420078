"""Reads files of worked cases: each case goes from a line `== NAME` to the next, and has sections from lines `-- NAME`.

.ci/cases says which sections there are and what they mean. A text is held here to those that speak of it.
"""
import os
import re

from frames import capture

HERE = os.path.dirname(os.path.realpath(__file__))

def expanded(lines):
    """The lines, with those of each `repeat` in its place."""
    made = []
    for line in lines:
        repeated = re.match(r"repeat (\d+)\.\.(\d+) (.*)$", line)
        if repeated:
            pieces = [it.strip() for it in repeated[3].split(" | ")]
            for n in range(int(repeated[1]), int(repeated[2])):
                made += [it.format(n=n, high=n // 256, low=n % 256) for it in pieces]
        else:
            made.append(line)
    return made


def batch(lines):
    return "".join(f"{it}\n" for it in expanded(lines)).encode()


def cases_of(path):
    """Name, words and sections of each case; a section has the words behind its name, and its lines. A file's name is part of its section's."""
    cases = []
    with open(path, encoding="utf-8") as file:
        for line in file.read().splitlines():
            if line.startswith("== "):
                cases.append((line[3:], [], {}))
                section = None
            elif line.startswith("-- "):
                section, *more = re.match(r"((?:file|given|holds) \S+|\S+)(?: (.*))?$", line[3:]).groups("")
                cases[-1][2][section] = ("".join(more), [])
            elif cases and section:
                cases[-1][2][section][1].append(line)
            elif cases and line:
                cases[-1][1].extend(line.split(" "))
    for _, _, sections in cases:
        for section in sections.values():
            while section[1] and not section[1][-1]:
                section[1].pop()
    return cases


def short_batches(*more):
    """Names and bytes of the batches of all cases (and of more files of cases) that are quickly applied, and of those of examples/."""
    for path in [*(os.path.join(HERE, it) for it in sorted(os.listdir(HERE)) if it.endswith(".txt")), *more]:
        for name, _, sections in cases_of(path):
            data = batch(sections.get("batch", ("", []))[1])
            if len(data) < 100_000:
                yield name, data
    examples = os.path.join(os.path.dirname(HERE), "examples")
    for name in sorted(os.listdir(examples)):
        path = os.path.join(examples, name, "rules.tc")
        if os.path.exists(path):
            with open(path, "rb") as file:
                yield name, file.read()


def end_of(sections):
    """The exit number of a case, and what is told on standard error."""
    first, more = sections.get("ends", ("0", []))
    number, _, told = first.partition(" ")
    return int(number), "".join(f"{it}\n" for it in [told, *more] if it)


def put_inputs(sections, room):
    """The files that are there before the program runs."""
    how, packets = sections.get("capture", ("", []))
    made = capture(list(enumerate(expanded(packets), 1)), how.startswith("big"))
    if how.startswith("cut"):
        made = made[: int(how.split()[1])]
    given = [(section[6:], batch(it)) for section, (_, it) in sections.items() if section.startswith("given ")]
    for name, data in [("batch", batch(sections.get("batch", ("", []))[1])), ("capture", made), *given]:
        with open(os.path.join(room, name), "wb") as file:
            file.write(data)


def text_faults(sections, written):
    """What differs between the text that is wanted and the one that was written."""
    wanted = {name: (how, "".join(f"{it}\n" for it in lines)) for name, (how, lines) in sections.items()}
    begins, text = wanted.get("text", ("", ""))
    in_parts = begins or "last" in wanted
    if (written[: len(text)] if in_parts else written) != text:
        yield "writes another text:\n" + written[:2000]
    if not written.endswith(wanted.get("last", ("", ""))[1]):
        yield "ends with another text:\n" + written[-2000:]
    for name in wanted:
        if name.startswith("holds ") and "\n" + wanted[name][1] not in written:
            yield f"its text doesn't have the lines of {name}"
    lines = written.splitlines()
    for count, pattern in (it.split(" ", 1) for it in sections.get("counts", ("", []))[1]):
        found = sum(bool(re.fullmatch(pattern, line)) for line in lines)
        if found != int(count):
            yield f"has {found} lines, not {count}, of {pattern}"
