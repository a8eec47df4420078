"""Reads the manual pages of man/, and lays them out as plain text where there is no program for it.

The pages are written in the mdoc language. Known here are the macros that they use and no others; an
unknown one is a fault, so that a page isn't shown in part. `.ci/manuals` compares the words of this text
with those of mandoc(1).
"""
import re
import textwrap
from dataclasses import dataclass
from typing import Any

from tool_ends import Fault, shown

CLOSING = set(".,:;)]?!")
OPENING = set("([")
# What stands before and behind the words of a macro that may stand within a line.
AROUND = {"Ar": ("", ""), "Cm": ("", ""), "Pa": ("", ""), "No": ("", ""), "Fl": ("-", ""), "Ql": ("'", "'")}
MARKS = {"Oo": "[", "Oc": "]"}
INLINE = {"Ns", "Op", "Xr", *MARKS}
WIDTH = 78
STEP = 6
UNBROKEN: Any = {"break_long_words": False, "break_on_hyphens": False}


@dataclass
class Piece:
    """A part of a page, with the column at which it stands, and the section that it is of.

    Kinds are `heading`, `tag`, `text` (a paragraph), `literal` (a line that stands as it is) and `gap`.
    """

    kind: str
    text: str
    column: int
    section: str


class Words:
    """Words that are set one behind the other, with a space between where one belongs."""

    def __init__(self) -> None:
        self.text, self.is_tight = "", True

    def add(self, word: str, is_closing: bool = False) -> None:
        space = "" if self.is_tight or is_closing or not self.text else " "
        self.text += space + word
        self.is_tight = False

    def take(self) -> str:
        text, self.text, self.is_tight = self.text, "", True
        return text


def plain(word: str) -> str:
    """The word without the marks of the language."""
    return word.replace("\\&", "").replace("\\e", "\\").replace("\\-", "-")


def set_macros(line: list[str], out: Words) -> None:
    """Sets the words of a macro's line, of which the first is a macro."""
    while line:
        name = line.pop(0)
        if name == "Ns":
            out.is_tight = True
        elif name == "Op":
            set_optional(line, out)
        elif name == "Xr":
            out.add(f"{line.pop(0)}({line.pop(0)})")
        elif name in AROUND:
            set_words(*AROUND[name], taken(line), out)
        elif MARKS.get(name, name) in CLOSING | OPENING:
            mark = MARKS.get(name, name)
            out.add(mark, mark in CLOSING)
            out.is_tight = mark in OPENING
        else:
            out.add(plain(name))


def taken(line: list[str]) -> list[str]:
    """Takes the words up to the next macro or to closing marks at the line's end."""
    words = []
    while line and line[0] not in AROUND and line[0] not in INLINE:
        if all(it in CLOSING for it in line):
            break
        words.append(line.pop(0))
    return words


def set_words(before: str, behind: str, words: list[str], out: Words) -> None:
    """Sets words with what stands around them. Marks among them stand close to the word before."""
    texts: list[str] = []
    for word in words:
        if word in CLOSING and texts:
            texts[-1] += word
        else:
            texts.append(plain(word))
    if before + behind:
        out.add(before + " ".join(texts) + behind)
    for word in texts * (not before + behind):
        out.add(word)


def set_optional(line: list[str], out: Words) -> None:
    """Sets the rest of the line in brackets."""
    inner = Words()
    set_macros(line, inner)
    out.add(f"[{inner.take()}]")


class Reader:
    """Reads a page line by line into pieces."""

    def __init__(self, name: str) -> None:
        self.name, self.number, self.depth, self.section = name, 0, 0, ""
        self.pieces: list[Piece] = []
        self.words = Words()
        self.is_literal = False
        self.page = ""

    def put(self, kind: str, text: str, column: int) -> None:
        self.pieces.append(Piece(kind, text, column, self.section))

    def flush(self) -> None:
        """Ends the paragraph."""
        text = self.words.take()
        if text:
            self.put("text", text, STEP * (self.depth + 1))

    def line(self, line: str) -> None:
        self.number += 1
        if self.is_literal and line != ".Ed":
            self.put("literal", plain(line), STEP * (self.depth + 1))
        elif line.startswith('.\\"'):
            return
        elif line.startswith("."):
            self.macro(*re.fullmatch(r"\.(\S+) ?(.*)", line).groups())  # type: ignore[union-attr]
        else:
            self.words.add(plain(line))

    def macro(self, name: str, rest: str) -> None:
        known = getattr(self, f"macro_{name}", None)
        if known:
            known(rest)
        elif name in AROUND or name in INLINE:
            set_macros([name, *rest.split()], self.words)
        else:
            raise Fault(f"{shown(self.name)}:{self.number}: no such macro here: {name}")

    def macro_Dd(self, rest: str) -> None:
        """The date isn't shown."""

    macro_Os = macro_Dd

    def macro_Dt(self, rest: str) -> None:
        self.put("heading", "{}({})".format(*rest.split()), 0)

    def macro_Sh(self, rest: str) -> None:
        self.flush()
        self.section = rest
        self.put("heading", rest, 0)

    def macro_Ss(self, rest: str) -> None:
        self.flush()
        self.put("heading", rest, STEP // 2)

    def macro_Nm(self, rest: str) -> None:
        self.page = self.page or rest
        if self.section == "SYNOPSIS":
            self.flush()
        set_macros([self.page], self.words)

    def macro_Nd(self, rest: str) -> None:
        self.words.add(f"- {rest}")

    def macro_Pp(self, rest: str) -> None:
        self.flush()

    def macro_Bd(self, rest: str) -> None:
        self.flush()
        self.is_literal = True
        self.put("gap", "", 0)

    def macro_Ed(self, rest: str) -> None:
        self.is_literal = False
        self.put("gap", "", 0)

    def macro_Bl(self, rest: str) -> None:
        self.flush()
        self.depth += 1

    def macro_El(self, rest: str) -> None:
        self.flush()
        self.depth -= 1

    def macro_It(self, rest: str) -> None:
        self.flush()
        tag = Words()
        set_macros(rest.split() or ["*"], tag)
        self.put("tag", tag.take(), STEP * self.depth)


def pieces_of(path: str) -> list[Piece]:
    """The pieces of a page."""
    try:
        with open(path, encoding="utf-8") as file:
            lines = file.read().splitlines()
    except (OSError, UnicodeDecodeError) as error:
        raise Fault(f"{shown(path)}: cannot read: {getattr(error, 'strerror', 'not a page')}") from None
    reader = Reader(path)
    for line in lines:
        reader.line(line)
    reader.flush()
    return reader.pieces


def text_of(pieces: list[Piece]) -> str:
    """The pieces laid out as text, from the leftmost column on, with one blank line where there is any."""
    left = min(it.column for it in pieces if it.kind != "gap")
    lines = [line for piece in pieces for line in lines_of(piece, piece.column - left)]
    return re.sub(r"\n{3,}", "\n\n", "\n".join(lines)).strip("\n") + "\n"


def lines_of(piece: Piece, column: int) -> list[str]:
    """The lines of a piece, with blank ones around it."""
    if piece.kind == "gap":
        return [""]
    line = " " * column + piece.text
    if piece.kind == "text" and piece.section != "SYNOPSIS":
        return [*textwrap.wrap(line, WIDTH, subsequent_indent=" " * column, **UNBROKEN), ""]
    return ["", line] if piece.kind in ("heading", "tag") else [line]


def item_of(pieces: list[Piece], command: str) -> list[Piece]:
    """The tags that begin with this word, and what they say; nothing where there is none."""
    found, is_in = list[Piece](), False
    for it in pieces:
        if it.kind in ("tag", "heading"):
            is_in = it.kind == "tag" and it.text.split()[0] == command
        found += [it] * is_in
    return found
