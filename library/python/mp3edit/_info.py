"""What `info` says, line by line."""
from __future__ import annotations

import re
from dataclasses import dataclass
from typing import NamedTuple, Optional, Tuple


class Range(NamedTuple):
    least: int
    greatest: int


class Counts(NamedTuple):
    """Numbers of frames and of bytes, as far as a head has them."""

    frames: Optional[int]
    bytes: Optional[int]


@dataclass(frozen=True)
class Info:
    """What a file is. The manual says what each line of `text` means."""

    text: str
    version: str
    """`MPEG-1`, `MPEG-2` or `MPEG-2.5`."""
    frequency: int
    """In Hz."""
    channels: int

    frames: int
    lost: int
    """How many frames have main data that aren't in the file."""
    duration: str
    """Of all frames, as the program writes it: minutes, seconds and hundredths."""

    rates: Range
    """The lowest and the highest bit rate, in kbit/s."""
    main_data: int
    areas: int
    """How many bytes main data have, and how many they could have."""

    head: Optional[str]
    """`Xing`, `Info`, or None."""
    said: Counts
    """The numbers in the head."""
    here: Optional[Counts]
    """What is in the file, if the head says otherwise."""

    delay: Optional[int]
    padding: Optional[int]
    """What players skip at both ends, if LAME or ffmpeg wrote it."""
    samples: int
    """How many samples players play in each channel."""

    gains: Tuple[Optional[Range], ...]
    """The gains that `gain` moves, of each channel, or None if nothing can be heard."""
    channel_steps: Tuple[Optional[Range], ...]
    """By how many steps those of each channel can move: a number below 0, and one above."""
    steps: Optional[Range]
    """By how many steps those of all channels can move."""


_TEXT = re.compile(
    r"(?P<version>MPEG-[\d.]+), (?P<frequency>\d+) Hz, (?P<channels>\d+) channels\n"
    r"(?P<frames>\d+) frames, (?P<lost>\d+) lost, (?P<duration>[\d.]+)\n"
    r"(?P<lowest>\d+)(?: to (?P<highest>\d+))? kbit/s\n"
    r"(?P<main_data>\d+) of (?P<areas>\d+) bytes are main data\n"
    r"(?:no head|(?P<head>\w+) head(?:, (?P<said>\d+) frames)?(?:, (?P<size>\d+) bytes)?)\n"
    r"(?:but (?P<here>\d+) frames, (?P<size_here>\d+) bytes are here\n)?"
    r"(?:delay (?P<delay>\d+), padding (?P<padding>\d+), )?plays (?P<samples>\d+) samples\n"
)
_CHANNEL = re.compile(
    r"^(\w+): (?:gains (\d+) to (\d+), )?(?:no gains|steps (-\d+) to \+(\d+))$", re.M
)


def _number(digits: Optional[str]) -> Optional[int]:
    return None if digits is None else int(digits)


def _range(least: str, greatest: str) -> Optional[Range]:
    return Range(int(least), int(greatest)) if least else None


def info_of(text: str) -> Info:
    """The fields of what `info` says."""
    found = _TEXT.match(text)
    assert found, text
    lines = _CHANNEL.findall(text)
    channels = [it for it in lines if it[0] != "both"]
    return Info(
        text=text,
        version=found["version"],
        frequency=int(found["frequency"]),
        channels=int(found["channels"]),
        frames=int(found["frames"]),
        lost=int(found["lost"]),
        duration=found["duration"],
        rates=Range(int(found["lowest"]), int(found["highest"] or found["lowest"])),
        main_data=int(found["main_data"]),
        areas=int(found["areas"]),
        head=found["head"],
        said=Counts(_number(found["said"]), _number(found["size"])),
        here=Counts(int(found["here"]), int(found["size_here"])) if found["here"] else None,
        delay=_number(found["delay"]),
        padding=_number(found["padding"]),
        samples=int(found["samples"]),
        gains=tuple(_range(*it[1:3]) for it in channels),
        channel_steps=tuple(_range(*it[3:5]) for it in channels),
        steps=_range(*lines[-1][3:5]),
    )
