"""The values that go in and come out beside bytes: numbers, limits, records, refusals."""
from __future__ import annotations

import operator
from dataclasses import dataclass
from typing import Optional, Tuple

#: The largest number that a call takes: as a limit no limit, and as a budget enough for every file.
MOST = 2**64 - 1

#: What each number of a refusal means. 4 is also that of a Huffman table, used or not, that lists a symbol twice or a symbol that no
#: block takes.
MEANINGS = {
    1: "more bytes than the limit on input",
    2: "the price is above the budget",
    3: "the header is cut short, or the bytes ran out in a block of the scan",
    4: "a rule of the format is broken, in header, tables or scan",
    5: "a form of JPEG that is not read",
    6: "a side, or the samples, above a limit",
    7: "a lent buffer is too short",
    8: "the record is not the file's",
    9: "a block wants an end-of-block code, and its table has none",
    10: "in a block of the scan, a 255 that is followed by neither 0 nor the end",
    11: "in a block of the scan, sixteen bits that are no code of its table",
}

#: What the line of a refusal says where a scan broke. 4 may be the restart before the block, or the end of the scan.
IN_SCAN = {
    3: "the bytes ran out in block {block}, which begins at byte {place}",
    4: "the scan breaks a rule of the format at block {block}, whose reading began at byte {place}",
    10: "a 255 is followed by neither 0 nor the end in block {block}, which begins at byte {place}",
    11: "no code of the table matches in block {block}, which begins at byte {place}",
}

#: And where no scan broke, of the numbers that a scan may have too.
IN_HEADER = {3: "the header is cut short", 4: "a rule of the format is broken, in header or tables"}


def number(name: str, value: int) -> int:
    """The value, where it is a whole number of 64 bits; it is never cut down to one."""
    try:
        whole = operator.index(value)
    except TypeError:
        raise TypeError(f"{name} must be a whole number, not {type(value).__name__}") from None
    if not 0 <= whole <= MOST:
        raise ValueError(f"{name} must be from 0 to 2**64 - 1, not {whole}")
    return whole


def counted(value: int) -> str:
    """A number for people: with commas from 10,000 on."""
    return f"{value:,}" if value > 9999 else str(value)


class Refused(Exception):
    """Why a call did not do what was asked. Every lent buffer is as it was."""

    def __init__(self, number: int, meaning: str, left: int, needed: Optional[int] = None, path: Optional[str] = None,
                 block: int = 0, place: int = 0, length: Optional[int] = None):
        # The arguments are kept as they came, so that a refusal can be sent to another process.
        super().__init__(number, meaning, left, needed, path, block, place, length)
        #: 1 to 11.
        self.number = number
        #: What the number means, for people.
        self.meaning = meaning
        #: What is left of the budget.
        self.left = left
        #: The bytes of the settled file, where settle is refused for want of room; else None.
        self.needed = needed
        #: The file's path, where the call was given one; else None.
        self.path = path
        #: Where a scan broke, the number of the block it broke in, counted from 0; the block count where the end of the scan is wrong.
        #: Else 0.
        self.block = block
        #: Where a scan broke, the first byte that was not yet taken when the reading of that block began, before any restart, counted
        #: from the file's start. It is never 0 there; 0 says that no scan broke.
        self.place = place
        #: The bytes of the file, where they are known; else None.
        self.length = length

    def _said(self) -> str:
        """What happened to this file: the number alone does not tell header and scan apart."""
        if not self.place or self.number not in IN_SCAN:
            return IN_HEADER.get(self.number, self.meaning)
        said = IN_SCAN[self.number].format(block=counted(self.block), place=counted(self.place))
        return said if self.length is None else f"{said} of {counted(self.length)}"

    def __str__(self) -> str:
        line = f"refused {self.number}: {self._said()}"
        line = line if self.path is None else f"{self.path}: {line}"
        return line if self.needed is None else f"{line}; {self.needed} bytes are needed"


@dataclass(frozen=True)
class Limits:
    """What a file may hold before it is refused. A value equal to its limit passes."""

    #: The bytes of the file; above it the file is refused 1.
    input: int = MOST
    #: The width and the height; above it the file is refused 6.
    side: int = MOST
    #: The bytes of the picture, and those of the scratch; above it the file is refused 6.
    output: int = MOST


NO_LIMITS = Limits()

Four = Tuple[int, int, int, int]


@dataclass(frozen=True)
class Record:
    """What inspect finds in a file. Any numbers may come back into decode, which refuses a record that is not the file's;
    ``dataclasses.replace`` makes a changed one."""

    width: int = 0
    height: int = 0
    #: 1 to 4.
    channels: int = 0
    #: For each channel its sampling: its blocks in an MCU, across and down, each 1 to 4; 0 behind the last channel. A single channel has
    #: 1 and 1.
    across: Four = (0, 0, 0, 0)
    down: Four = (0, 0, 0, 0)
    #: For each channel its id, and the ids of its quantizer, DC table and AC table; 0 behind the last channel.
    ids: Four = (0, 0, 0, 0)
    qids: Four = (0, 0, 0, 0)
    dcids: Four = (0, 0, 0, 0)
    acids: Four = (0, 0, 0, 0)
    #: By id, the place in the file of each quantizer, DC table and AC table; 0 where there is none.
    quants: Four = (0, 0, 0, 0)
    dcs: Four = (0, 0, 0, 0)
    acs: Four = (0, 0, 0, 0)
    #: MCUs between restarts, or 0.
    interval: int = 0
    #: The place of the first coded byte.
    start: int = 0
    #: The blocks of the picture.
    blocks: int = 0
    #: The bytes that decode needs for the samples of all blocks.
    scratch: int = 0
    #: The bytes of the picture.
    output: int = 0
    #: The price of the scan.
    work: int = 0
    #: 1: a picture of three channels is red, green, blue; 0: its channels as they are coded, as those of every other picture always are.
    colour: int = 0
