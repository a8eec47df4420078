"""Says which words the command line takes, and which word is wrong where one is.

`./clsact` calls it: with `--all` for the whole usage; with `--of` and a word for what clsact(1) says of that
command; behind a program that ended with 2, with the words that it had; and with `--line` before them where no
program is built, so that nobody waits for a build to hear of a slip. The commands are those of the synopsis of
clsact(1), less the words of tools in the script. What isn't promised: that a word is found wherever the program
finds one.
"""
import difflib
import os
import re
import sys

from manual_text import item_of, pieces_of, text_of
from tool_ends import FAULT, end_with, shown

TOP = os.path.dirname(os.path.dirname(os.path.realpath(__file__)))
PAGE = os.path.join(TOP, "man", "clsact.1")
HOOKS = ("ingress", "egress")
COUNT = re.compile("[1-9][0-9]{0,3}")
PREFIX = re.compile("[!-\"$-~]{1,200}")


def synopsis() -> list[list[str]]:
    """The words of each command and tool."""
    pieces = pieces_of(PAGE)
    return [it.text.split()[1:] for it in pieces if it.section == "SYNOPSIS" and it.kind == "text"]


def tool_words() -> list[str]:
    """The words in the script that belong to tools."""
    with open(os.path.join(TOP, "clsact"), encoding="utf-8") as file:
        return re.findall(r"^    ([a-z]+)\) exec python3", file.read(), re.M)


def forms() -> list[list[str]]:
    """The program's commands, each with the words behind it. One word may have several."""
    tools = tool_words()
    return [form for form in synopsis() if form[0] not in tools]


def forms_of(command: str) -> list[list[str]]:
    """The words that stand behind a command, in each of its forms; nothing where there is no such command. A last
    word in brackets may be left away."""
    those = [form[1:] for form in forms() if form[0] == command]
    return [[it.strip("[]") for it in form[:length]] for form in those for length in lengths_of(form)]


def lengths_of(form: list[str]) -> list[int]:
    """How many words a form may have."""
    return [len(form) - 1, len(form)] if form and form[-1].startswith("[") else [len(form)]


def whole_usage() -> str:
    """All commands and tools, and where more is said."""
    forms = "\n".join("    " + " ".join(["./clsact", *it]) for it in synopsis())
    more = "./clsact WORD --help tells of one, ./clsact help of all, ./clsact --version which version it is."
    return f"usage:\n{forms}\n{more}\n"


def usage_line() -> str:
    """The program's own usage, which it writes on standard error."""
    return "usage: " + " | ".join(map(" ".join, forms())).replace("[", "[ ").replace("]", " ]")


def wrong_value(name: str, word: str) -> str:
    """Why this word can't stand where one of this name is due; nothing where it may."""
    if any("\ud800" <= it <= "\udfff" for it in word):
        return f"{shown(word)}, which stands for {name}, isn't UTF-8"
    if name == "HOOK" and word not in HOOKS:
        return f"{shown(word)} is no hook: ingress or egress"
    if name == "force" and word != "force":
        return f"{shown(word)} stands where only force may"
    if name == "N" and not (COUNT.fullmatch(word) and int(word) <= 4096):
        return f"{shown(word)} is no N: 1 to 4096, in decimal without a leading 0"
    if name == "PREFIX" and not PREFIX.fullmatch(word):
        return f"{shown(word)} is no PREFIX: 1 to 200 bytes of 0x21 to 0x7E, none of them #"
    return ""


def unknown(command: str) -> str:
    """That there is no such command, and which one is the nearest."""
    nearest = difflib.get_close_matches(command, [it[0] for it in synopsis()], 1)
    return f"{shown(command)}: no such command" + (f"; the nearest is {nearest[0]}" if nearest else "")


def meant(those: list[list[str]], given: list[str]) -> list[str]:
    """Which of a command's forms is meant by these words: one of as many words, a longer one that they begin
    well, or the longest."""
    same = [it for it in those if len(it) == len(given)]
    begun = [it for it in those if len(it) > len(given) and not any(map(wrong_value, it, given))]
    return (same + begun + [max(those, key=len)])[0]


def fault_of(words: list[str]) -> str:
    """What is wrong with the words, as far as it is seen here; nothing where they may be a command."""
    those, given = forms_of(words[0]), words[1:]
    if not those:
        return unknown(words[0])
    names = meant(those, given)
    for name, word in zip(names, given):
        if why := wrong_value(name, word):
            return f"{words[0]}: {why}"
    if len(given) > len(names):
        return f"{words[0]}: {shown(given[len(names)])} is one word too many"
    if len(given) < len(names):
        return f"{words[0]}: a word is missing behind {names[len(given) - 1] if given else words[0]}: {names[len(given)]}"
    return ""


def told_of(words: list[str]) -> list[str]:
    """The lines on what is wrong, and on the tools where the first word is no command's."""
    told = [f"clsact: {it}" for it in [fault_of(words) if words else ""] if it]
    if not words or not forms_of(words[0]):
        told.append(f"tools beside the program: {' '.join(tool_words())}; ./clsact help tells of all")
    return told


def main(words: list[str]) -> int:
    if words[:1] == ["--all"]:
        sys.stdout.write(whole_usage())
        return 0
    if words[:1] == ["--of"] and forms_of(words[1]):
        sys.stdout.write(text_of(item_of([it for it in pieces_of(PAGE) if it.section == "DESCRIPTION"], words[1])))
        return 0
    is_first = words[:1] in (["--line"], ["--of"])
    told = told_of(words[1:] if is_first else words)
    if is_first and not told:
        return 0
    print(*([usage_line()] if is_first else []), *told, sep="\n", end="\n" if told else "", file=sys.stderr)
    return FAULT


if __name__ == "__main__":
    end_with(main)
