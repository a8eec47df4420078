"""A line as it is told, with carets under the words that it is about. Columns count characters from 1."""
import re

from batch_lines import Line, seen_text


def span(line: Line, first: int, behind: int) -> tuple[int, int]:
    """The columns of a line's words from one on and up to another, or the one behind the last word."""
    if first >= len(line.words):
        return line.end, line.end + 1
    last = line.words[behind - 1]
    return line.words[first].column, last.column + len(last.text)


def picture(line: Line, first: int, behind: int) -> str:
    """The line, and carets under the columns."""
    before, under = seen_text(line.text[: first - 1]), seen_text(line.text[first - 1: behind - 1]) or " "
    below = re.sub(r"[^\t]", " ", before) + re.sub(r"[^\t]", "^", under)
    return f"{seen_text(line.text)}\n{below}"
