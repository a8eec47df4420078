"""Which filters of a batch decided nothing, by the text of a trace: it ends with a line for each filter that
stands.

What isn't promised: that a filter which decided nothing is of no use; other packets may meet it.
"""
from collections.abc import Iterator
from dataclasses import dataclass, field

from clsact_texts import Object, read_line

MOST = 20


@dataclass
class Decided:
    """How often the filters of a trace decided: how many there are, what is told of those that never did."""

    count: int = 0
    never: list[Object] = field(default_factory=list)

    def packets(self, lines: Iterator[bytes]) -> Iterator[bytes]:
        """The lines of packets. What stands of filters behind them is taken on the way."""
        for line in lines:
            if line.startswith(b"packet "):
                yield line.removesuffix(b"\n")
            elif line.startswith(b"decided "):
                self.count += 1
                if line.startswith(b"decided 0 "):
                    self.never.append(read_line(line.decode("ascii").removesuffix("\n")) or {})

    def told(self, batch: str, capture: str) -> Iterator[str]:
        """Each filter that decided nothing, by the line that brought it, so many of them as may be read."""
        if self.never:
            yield f"{capture}: {len(self.never)} of {self.count} filters decided nothing"
        for it in self.never[:MOST]:
            place = "{hook} chain {chain} pref {pref} handle {handle}".format(**it)
            yield f"{batch}:{it['line']}: warning: decided nothing: {place}"
        if len(self.never) > MOST:
            yield f"{batch}: {len(self.never) - MOST} more filters that decided nothing"
