"""What is raised, and when."""
import os
import pickle
import subprocess
import sys
from pathlib import Path

import pytest

import mp3edit
from mp3edit import _session

CALLS = [
    lambda it: mp3edit.gain(it, 1),
    mp3edit.undo,
    lambda it: mp3edit.cut(it, 0, 1),
    lambda it: mp3edit.split(it, 0, 1),
    lambda it: mp3edit.join([it]),
    lambda it: mp3edit.remove(it, (0, 1)),
    mp3edit.pack,
    lambda it: mp3edit.fade(it, [(0, 1)]),
    mp3edit.salvage,
    mp3edit.info,
    mp3edit.listing,
]


@pytest.mark.parametrize(
    "call, status, line",
    [
        (lambda it: mp3edit.info(it[:5000]), 1, "song.mp3: truncated at 4597"),
        (mp3edit.undo, 1, "no undo item"),
        (lambda it: mp3edit.gain(it, 200), 1, "gain 169 out of range at 0, granule 0, channel 0"),
        (lambda it: mp3edit.gain(it, 1000), 2, "bad word 3"),
        (lambda it: mp3edit.cut(it, 5, 5), 1, "range 5 to 5 of 193 frames"),
        (lambda it: mp3edit.cut(it, -1, "soon"), 2, "bad word 3"),
        (lambda it: mp3edit.split(it), 2, "bad word 4"),
        (lambda it: mp3edit.join([]), 2, "bad word 3"),
        (lambda it: mp3edit.join([it, b""]), 1, "piece02.mp3: no frame at 0"),
        (lambda it: mp3edit.remove(it, (0, "EOF")), 1, "range 0 to 193 of 193 frames"),
        (lambda it: mp3edit.pack(it, constant=100), 1, "no rate 100"),
        (lambda it: mp3edit.fade(it, "x"), 1, "sheet: bad line 1"),
        (lambda it: mp3edit.split(it, sheet=""), 1, "sheet: no tracks"),
        (lambda it: mp3edit.salvage(b"x"), 1, "song.mp3: no frame at 0"),
    ],
)
def test_refusals(song, call, status, line):
    with pytest.raises(mp3edit.Refused) as caught:
        call(song)
    it = caught.value
    assert (it.status, it.line, str(it)) == (status, line, line)
    assert str(pickle.loads(pickle.dumps(it))) == line


class NoCalls:
    """A library none of whose calls may come, but the one that gives back what isn't there."""

    def __getattr__(self, name):
        raise AssertionError(f"{name} was called")


@pytest.mark.parametrize("call", CALLS)
@pytest.mark.parametrize("data", ["song.mp3", None, 3, Path("song.mp3"), [1, 2]])
def test_anything_else_than_bytes(monkeypatch, call, data):
    monkeypatch.setattr(_session, "library", NoCalls())
    # Closing a session is the one call that has to come.
    monkeypatch.setattr(mp3edit.Session, "close", lambda it: None)
    with pytest.raises(TypeError):
        call(data)


@pytest.mark.parametrize(
    "call",
    [
        lambda it: mp3edit.gain(it),
        lambda it: mp3edit.gain(it, 1, left=1),
        lambda it: mp3edit.gain(it, 1.5),
        lambda it: mp3edit.cut(it, 1.5, 2.5),
        lambda it: mp3edit.cut(it, 1, 2, exact=True, least=True),
        lambda it: mp3edit.split(it, 0, 1, sheet="x"),
        lambda it: mp3edit.join(it),
        lambda it: mp3edit.remove(it, "12"),
        lambda it: mp3edit.pack(it, best=True, floor=96),
        lambda it: mp3edit.fade(it, 3),
    ],
)
def test_arguments_that_do_not_fit(song, call):
    with pytest.raises(TypeError):
        call(song)


# In a process that may have little more memory than it has: what the library refuses is raised, the
# session holds what it held, words that were left are forgotten, and small work is still done.
LITTLE_MEMORY = """
import resource, sys
import mp3edit
song = open(sys.argv[1], "rb").read()
large, others = bytes(200_000_000), [song * it for it in range(5, 300, 5)]
session = mp3edit.Session({"a": song, "b": song * 200})
pages = int(open("/proc/self/statm").read().split()[0])
room = pages * resource.getpagesize() + 8_000_000
resource.setrlimit(resource.RLIMIT_AS, (room, room))

def raises(call):
    try:
        call()
    except MemoryError as it:
        return str(it)

begun = "memory was refused before the work began"
assert raises(lambda: mp3edit.gain(large, 1)) == begun
assert raises(lambda: session.update(c=large)) == begun
assert list(session) == ["a", "b"]
assert session.run("gain", "-g", "1", "b", "c") in (3, 4)
assert session.line in ("out of memory", "c: write fault"), session.line
session.pop("c", None)
assert session.run("gain", "-g", "1", "a", "b") == 0 and session["a"] == song
assert mp3edit.undo(mp3edit.gain(song, 1)) == song
# Of files of many lengths some fit, and some whose output doesn't.
said = {raises(lambda: mp3edit.gain(it, 1)) for it in others}
assert None in said and said & {"out of memory", "out.mp3: write fault"}, said
"""


def test_want_of_memory():
    top = Path(__file__).resolve().parents[3]
    words = [sys.executable, "-c", LITTLE_MEMORY, top / "samples/plain.mp3"]
    environment = {**os.environ, "PYTHONPATH": str(Path(mp3edit.__file__).parents[1])}
    done = subprocess.run(words, capture_output=True, text=True, env=environment)
    assert done.returncode == 0, done.stderr


def test_words_that_were_left_are_forgotten(song, monkeypatch):
    """Words for which there is no memory leave those before them; the next run is without these."""
    calls = _session.library

    class Refusing:
        """The library, but there is no memory for the last word."""

        def mp3edit_word(self, handle, word, length):
            return 7 if word == b"b" else calls.mp3edit_word(handle, word, length)

        def __getattr__(self, name):
            return getattr(calls, name)

    with mp3edit.Session({"a": song}) as session:
        with monkeypatch.context() as patch:
            patch.setattr(_session, "library", Refusing())
            with pytest.raises(MemoryError):
                session.run("gain", "-g", "1", "a", "b")
        assert session.run("drill", "1", "1") == 0
        assert session.text.startswith("1 frames") and list(session) == ["a"]
