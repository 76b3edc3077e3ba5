"""The lines of a trace, and what they say."""

import re
from typing import Dict, Optional, Tuple

# An item is one word, but for those that name a row, a processor or a number behind a space, or have a place in them.
_ITEM = re.compile(
    r"trap \d+ [0-9a-f]{8}|conflict \d+ \d+|(?:starts|unlink) \d+|tlb \d+=[0-9a-f]{8} [0-9a-f]{8}"
    r"|(?:cirqe|cipi) \d+=[0-9a-f]{8}|cram \d+ \d+=[0-9a-f]{8}|[\[(][0-9a-f]{8} <\S+>[\])]=[0-9a-f]{8}|\S+"
)
_STORE = re.compile(r"\[([0-9a-f]{8})(?: <\S+>)?\]=([0-9a-f]{8})")
_LOAD = re.compile(r"\(([0-9a-f]{8})(?: <\S+>)?\)=([0-9a-f]{8})")
# A name has no space in it, but may have the signs of a place.
_STEP = re.compile(r"\d+ (\d+) ([0-9a-f]{8})(?: <(\S+)>)? (?:-|([0-9a-f]{8}) (.*))")


def _word(found: "Optional[re.Match[str]]") -> Optional[Tuple[int, int]]:
    """The address and the word of an item."""
    return (int(found[1], 16), int(found[2], 16)) if found else None


class TraceLine(str):
    """A line as `s161 trace` prints it: a text, whose parts have names.

    `number` is the event's, from 0. Of a Step there are `processor`, the `address` of its instruction, and the fetched `word`
    and its text, `instruction`, which are None where it fetched none: an interrupt was taken before the fetch, or it was idle.
    `place` is the address by the nearest symbol, `main+4` with the distance in hexadecimal, where the trace was asked for symbols and
    there is one. `key` is the byte of a key. `items` are what the event changed, in the line's order, and how it ended if not by its
    instruction alone; the first is what it loaded, where the trace was asked for loads.
    """

    number: int
    processor: Optional[int]
    address: Optional[int]
    place: Optional[str]
    word: Optional[int]
    instruction: Optional[str]
    key: Optional[int]
    items: Tuple[str, ...]

    def __new__(cls, text: str) -> "TraceLine":
        line = super().__new__(cls, text)
        head, _, items = text.partition("  ")
        number, what, *rest = head.split(" ", 2)
        line.number = int(number)
        line.processor = line.address = line.place = line.word = line.instruction = line.key = None
        line.items = tuple(_ITEM.findall(items))
        step = _STEP.fullmatch(head)
        if what == "k":
            line.key = int(rest[0], 16)
        elif step:
            line.processor, line.address, line.place = int(step[1]), int(step[2], 16), step[3]
            if step[4]:
                line.word, line.instruction = int(step[4], 16), step[5]
        return line

    @property
    def is_transfer(self) -> bool:
        """Whether the event is the end of a console transfer."""
        return self.processor is None and self.key is None

    @property
    def changes(self) -> "Dict[str, str]":
        """What the event changed, by its name in the line: `{"r9": "00006600"}`, `{"tlb 53": "00400140 00005600"}`."""
        pairs = (item.rpartition("=") for item in self.items if not _LOAD.fullmatch(item))
        return {name: value for name, sign, value in pairs if sign}

    @property
    def stored(self) -> "Optional[Tuple[int, int]]":
        """The physical address of the word of RAM that was stored, and the word; None where none was."""
        return _word(next(filter(None, map(_STORE.fullmatch, self.items)), None))

    @property
    def loaded(self) -> "Optional[Tuple[int, int]]":
        """The physical address of the word that was loaded, and the word; None where none was, or the trace wasn't asked for loads."""
        return _word(next(filter(None, map(_LOAD.fullmatch, self.items)), None))

    @property
    def trap(self) -> "Optional[Tuple[int, int]]":
        """The code of the trap and the address of its vector; None where there was no trap."""
        words = next((item.split() for item in self.items if item.startswith("trap ")), None)
        return (int(words[1]), int(words[2], 16)) if words else None

    @property
    def is_idle(self) -> bool:
        """Whether it is an idle Step: of a processor that waits, or was not started."""
        return "idle" in self.items
