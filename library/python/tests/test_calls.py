"""Each function gives the bytes that the program writes for the words of its command."""
import mmap
import re
from array import array
from pathlib import Path

import pytest

import mp3edit
from program import by_program, output

CUE = 'FILE "a" MP3\nTRACK 01 AUDIO\nINDEX 01 00:00:00\nTRACK 02 AUDIO\nINDEX 01 00:02:00\n'
POINTS = [("0.0", -40), ("0.2", 0), (150, 3), ("EOF", -9)]
SHEET = "0.0 -40\n0.2 0\n150 3\nEOF -9\n"

CALLS = {
    "gain -g -2 song.mp3 out.mp3": lambda it: mp3edit.gain(it, -2),
    "gain -g +5 song.mp3 out.mp3": lambda it: mp3edit.gain(it, steps=5),
    "gain -l 0 3 song.mp3 out.mp3": lambda it: mp3edit.gain(it, left=3),
    "gain -l 1 -3 song.mp3 out.mp3": lambda it: mp3edit.gain(it, right=-3),
    "gain -w -g 100 song.mp3 out.mp3": lambda it: mp3edit.gain(it, 100, wrap=True),
    "gain -s s -g 1 song.mp3 out.mp3": lambda it: mp3edit.gain(it, 1, tags=False),
    "gain -s s -w -g 90 song.mp3 out.mp3": lambda it: mp3edit.gain(it, 90, wrap=True, tags=False),
    "cut song.mp3 0.1 0.3.50 out.mp3": lambda it: mp3edit.cut(it, "0.1", "0.3.50"),
    "cut song.mp3 10 EOF out.mp3": lambda it: mp3edit.cut(it, 10, "EOF"),
    "cut --least song.mp3 10 50 out.mp3": lambda it: mp3edit.cut(it, 10, 50, least=True),
    "cut --exact song.mp3 1.005s EOF-1s out.mp3": lambda it: mp3edit.cut(
        it, "1.005s", "EOF-1s", exact=True
    ),
    "remove song.mp3 out.mp3 1s 2.5s": lambda it: mp3edit.remove(it, ("1s", "2.5s")),
    "remove song.mp3 out.mp3 0 9 EOF-1s EOF": lambda it: mp3edit.remove(
        it, (0, 9), ("EOF-1s", "EOF")
    ),
    "pack song.mp3 out.mp3": mp3edit.pack,
    "pack --best song.mp3 out.mp3": lambda it: mp3edit.pack(it, best=True),
    "pack --constant 160 song.mp3 out.mp3": lambda it: mp3edit.pack(it, constant=160),
    "pack --floor 96 song.mp3 out.mp3": lambda it: mp3edit.pack(it, floor=96),
    "fade song.mp3 out.mp3 sheet": lambda it: mp3edit.fade(it, POINTS),
    "fade --back song.mp3 out.mp3 sheet": lambda it: mp3edit.fade(it, SHEET, back=True),
    "join out.mp3 song.mp3 song.mp3": lambda it: mp3edit.join([it, it]),
}


@pytest.mark.parametrize("words", CALLS)
def test_bytes(song, words):
    assert CALLS[words](song) == output(words, {"song.mp3": song, "sheet": SHEET.encode()})


def test_undo(song):
    assert mp3edit.undo(mp3edit.gain(mp3edit.gain(song, 3), left=-1)) == song


def test_a_fade_back(song):
    assert mp3edit.fade(mp3edit.fade(song, POINTS), SHEET.encode(), back=True) == song


@pytest.mark.parametrize("exact", [False, True])
def test_split_and_join(song, exact):
    words, places = ["--exact"] if exact else [], ["0", "0.2", "0.3.50", "EOF"]
    files = {"song.mp3": song}
    done = by_program(["split", *words, "song.mp3", "p", *places], files)
    pieces = mp3edit.split(song, *places, exact=exact)
    assert pieces == [done.files[f"p0{it}.mp3"] for it in (1, 2, 3)]
    whole = output(" ".join(["cut", *words, "song.mp3", "0", "EOF", "out.mp3"]), files)
    assert mp3edit.join(pieces, seamless=True) == whole


@pytest.mark.parametrize("sheet", [CUE, CUE.encode(), bytearray(CUE.encode())])
def test_split_by_a_sheet(song, sheet):
    done = by_program("split song.mp3 p -c cue".split(), {"song.mp3": song, "cue": CUE.encode()})
    assert mp3edit.split(song, sheet=sheet) == [done.files["p01.mp3"], done.files["p02.mp3"]]


def test_99_pieces(song):
    assert len(mp3edit.split(song, *range(100))) == 99


def test_salvage(song):
    done = by_program(["salvage", "a", "b"], {"a": song[:60_000]})
    assert mp3edit.salvage(song[:60_000]) == (done.files["b"], done.text)


def test_listing(song):
    assert mp3edit.listing(song) == by_program(["list", "a"], {"a": song}).text


def test_anything_like_bytes(song):
    quieter = mp3edit.gain(song, -1)
    for same in (bytearray(song), memoryview(song), memoryview(bytearray(song)), array("B", song)):
        assert mp3edit.gain(same, -1) == quieter


def test_a_mapped_file(song, tmp_path: Path):
    path = tmp_path / "song.mp3"
    path.write_bytes(song)
    with path.open("rb") as file, mmap.mmap(file.fileno(), 0, access=mmap.ACCESS_READ) as data:
        assert mp3edit.pack(data) == mp3edit.pack(song)


def steps_of(steps) -> str:
    return f"steps {steps.least or '-0'} to {steps.greatest:+}" if steps else "no gains"


def lines_of(it: mp3edit.Info) -> str:
    """The lines of `info`, from the fields alone."""
    lines = [f"{it.version}, {it.frequency} Hz, {it.channels} channels"]
    lines.append(f"{it.frames} frames, {it.lost} lost, {it.duration}")
    low, high = it.rates
    lines.append(f"{low} kbit/s" if low == high else f"{low} to {high} kbit/s")
    lines.append(f"{it.main_data} of {it.areas} bytes are main data")
    head = f"{it.head} head" if it.head else "no head"
    head += "" if it.said.frames is None else f", {it.said.frames} frames"
    lines.append(head + ("" if it.said.bytes is None else f", {it.said.bytes} bytes"))
    if it.here:
        lines.append(f"but {it.here.frames} frames, {it.here.bytes} bytes are here")
    skipped = "" if it.delay is None else f"delay {it.delay}, padding {it.padding}, "
    lines.append(f"{skipped}plays {it.samples} samples")
    names = ["left", "right"] if it.channels == 2 else ["mono"]
    for name, gains, steps in zip(names, it.gains, it.channel_steps):
        ends = f"gains {gains.least} to {gains.greatest}, " if gains else ""
        lines.append(f"{name}: {ends}{steps_of(steps)}")
    if it.channels == 2:
        lines.append(f"both: {steps_of(it.steps)}")
    return "".join(f"{line}\n" for line in lines)


def test_info(song, changed_files):
    """The fields say what the lines say."""
    packed = output("pack a out.mp3", {"a": song})
    exact = output("cut --exact a 1s 3s out.mp3", {"a": song})
    seen = ""
    for data in [song, packed, packed[:1042], exact, *(files["x"] for files, _ in changed_files)]:
        wanted = by_program(["info", "a"], {"a": data})
        if wanted.status == 0:
            it = mp3edit.info(data)
            assert it.text == lines_of(it) == wanted.text
            seen += wanted.text
    kinds = ["no head", "Xing head", "but", "delay", "left", r"\d to \d+ kbit"]
    assert [it for it in kinds if not re.search(it, seen)] == []
