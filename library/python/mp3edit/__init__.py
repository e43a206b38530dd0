"""Edits MP3 files in memory, without decoding or encoding anything.

Each function does what the command of this name does, on bytes: `gain(song, -2)` gives the bytes of
a file that is 3 dB quieter. What the program refuses is raised as `Refused`. `Session` runs any
command over any number of files in memory.

Places are written as for the program: `"1.30"` is a minute and a half, `"EOF"` the end, and a
number without a dot counts frames, so `90` and `"90"` are frame 90. The manual of the program says
what else can be written, and what each command does.
"""
from __future__ import annotations

import operator
from collections.abc import Iterable, Mapping
from typing import TYPE_CHECKING, NamedTuple, Optional, Tuple, Union, cast

from ._info import Counts, Info, Range, info_of
from ._session import Session

if TYPE_CHECKING:
    from _typeshed import ReadableBuffer

__version__ = "1.0.0"
__all__ = [
    "Counts",
    "Info",
    "Place",
    "Points",
    "Range",
    "Refused",
    "Salvaged",
    "Session",
    "cut",
    "fade",
    "gain",
    "info",
    "join",
    "listing",
    "pack",
    "remove",
    "salvage",
    "split",
    "undo",
]

Place = Union[str, int]
"""A place in a file: a word of the program, or the number of a frame."""
Points = Iterable[Tuple[Place, int]]
"""The points of a fade: places, each with a number of steps."""

# The names that lines of refusals have.
_SONG, _OUT, _SHEET, _PIECE = "song.mp3", "out.mp3", "sheet", "piece"


class Refused(ValueError):
    """A file, or what was asked of it, is refused. As text it is the program's line."""

    def __init__(self, status: int, line: str) -> None:
        super().__init__(status, line)
        self.status = status
        """1: the file or what was asked of it is refused. 2: the words are no command."""
        self.line = line

    def __str__(self) -> str:
        return self.line


class Salvaged(NamedTuple):
    """What could be read of a damaged file, and what `salvage` says about the rest."""

    song: bytes
    text: str


def gain(
    song: ReadableBuffer,
    steps: Optional[int] = None,
    *,
    left: Optional[int] = None,
    right: Optional[int] = None,
    wrap: bool = False,
    tags: bool = True,
) -> bytes:
    """Changes the volume by steps of 1.5 dB, of both channels or of one.

    The change is noted in the file's tag, so that `undo` takes it back, unless `tags` is false.
    With `wrap` gains that would leave 0 to 255 wrap around, instead of being refused.
    """
    modes = [
        [*words, _number(it)]
        for words, it in ((["-g"], steps), (["-l", "0"], left), (["-l", "1"], right))
        if it is not None
    ]
    if len(modes) != 1:
        raise TypeError("gain takes one of steps, left and right")
    options = [*([] if tags else ["-s", "s"]), *(["-w"] if wrap else [])]
    return _edited({_SONG: song}, "gain", *options, *modes[0], _SONG, _OUT)


def undo(song: ReadableBuffer) -> bytes:
    """Takes back all changes that the file's tag records."""
    return _edited({_SONG: song}, "gain", "-u", _SONG, _OUT)


def cut(
    song: ReadableBuffer, start: Place, end: Place, *, exact: bool = False, least: bool = False
) -> bytes:
    """The part between two places: whole frames, or with `exact` samples, as players play them.

    With `least` each frame gets the lowest bit rate at which all main data fit.
    """
    if exact and least:
        raise TypeError("cut takes one of exact and least")
    options = [*(["--exact"] if exact else []), *(["--least"] if least else [])]
    return _edited({_SONG: song}, "cut", *options, _SONG, _word(start), _word(end), _OUT)


def split(
    song: ReadableBuffer,
    *places: Place,
    sheet: Union[str, ReadableBuffer, None] = None,
    exact: bool = False,
) -> list[bytes]:
    """The pieces between each two adjacent places, or by the tracks of a cue sheet.

    They are whole frames, or with `exact` samples, as players play them.
    """
    if places and sheet is not None:
        raise TypeError("split takes places or a sheet")
    files, at = {_SONG: song}, [_word(it) for it in places]
    if sheet is not None:
        files[_SHEET] = _sheet_bytes(sheet)
        at = ["-c", _SHEET]
    with Session(files) as session:
        _run(session, "split", *(["--exact"] if exact else []), _SONG, _PIECE, *at)
        return [session.pop(it) for it in session if it.startswith(_PIECE)]


def join(pieces: Iterable[ReadableBuffer], *, seamless: bool = False) -> bytes:
    """One file of up to 64. With `seamless`, pieces in order become the recording again."""
    files = {f"{_PIECE}{number:02}.mp3": it for number, it in enumerate(pieces, 1)}
    return _edited(files, "join", *(["--seamless"] if seamless else []), _OUT, *files)


def remove(song: ReadableBuffer, *stretches: Tuple[Place, Place]) -> bytes:
    """The file without up to 50 stretches, each from a place to another."""
    if any(isinstance(it, str) for it in stretches):
        raise TypeError("a stretch is a pair of places")
    words = [_word(it) for start, end in stretches for it in (start, end)]
    return _edited({_SONG: song}, "remove", _SONG, _OUT, *words)


def pack(
    song: ReadableBuffer,
    *,
    best: bool = False,
    constant: Optional[int] = None,
    floor: Optional[int] = None,
) -> bytes:
    """The same sound in fewer bytes: each frame at the lowest bit rate at which all main data fit.

    With `best` in the fewest bytes of all, with `constant` at one bit rate throughout, and with
    `floor` at none below it.
    """
    options = [["--best"]] if best else []
    options += [["--constant", _number(constant)]] if constant is not None else []
    options += [["--floor", _number(floor)]] if floor is not None else []
    if len(options) > 1:
        raise TypeError("pack takes one of best, constant and floor")
    return _edited({_SONG: song}, "pack", *(it for words in options for it in words), _SONG, _OUT)


def fade(
    song: ReadableBuffer,
    points: Union[str, ReadableBuffer, Points],
    *,
    back: bool = False,
) -> bytes:
    """A volume that changes from frame to frame: pairs of a place and steps, or a sheet of them.

    Between two points the steps change evenly. With `back` they go the other way, which undoes a
    fade by the same points.
    """
    files = {_SONG: song, _SHEET: _points_bytes(points)}
    return _edited(files, "fade", *(["--back"] if back else []), _SONG, _OUT, _SHEET)


def salvage(data: ReadableBuffer) -> Salvaged:
    """What can be read of a damaged file, and a text that says what is missing."""
    with Session({_SONG: data}) as session:
        _run(session, "salvage", _SONG, _OUT)
        return Salvaged(session[_OUT], session.text)


def info(song: ReadableBuffer) -> Info:
    """What the file is, with a field for each number that the program says."""
    return info_of(_text({_SONG: song}, "info", _SONG))


def listing(song: ReadableBuffer) -> str:
    """What is in the file, as `mp3edit list` writes it."""
    return _text({_SONG: song}, "list", _SONG)


def _run(session: Session, *words: str) -> None:
    status = session.run(*words)
    if status in (1, 2):
        raise Refused(status, session.line)
    # Each input is there, so a file or a text fails only where memory is refused as it grows.
    if status:
        raise MemoryError(session.line)


def _edited(files: Mapping[str, ReadableBuffer], *words: str) -> bytes:
    with Session(files) as session:
        _run(session, *words)
        return session[_OUT]


def _text(files: Mapping[str, ReadableBuffer], *words: str) -> str:
    with Session(files) as session:
        _run(session, *words)
        return session.text


def _number(it: int) -> str:
    return str(operator.index(it))


def _word(place: Place) -> str:
    return place if isinstance(place, str) else _number(place)


def _sheet_bytes(sheet: Union[str, ReadableBuffer]) -> ReadableBuffer:
    return sheet.encode() if isinstance(sheet, str) else sheet


def _points_bytes(points: Union[str, ReadableBuffer, Points]) -> ReadableBuffer:
    if isinstance(points, (str, bytes, bytearray, memoryview)):
        return _sheet_bytes(points)
    pairs = cast(Points, points)
    return "".join(f"{_word(place)} {_number(steps)}\n" for place, steps in pairs).encode()
