"""The library does what the program does: status, text, line and every byte."""
import random

import pytest

import mp3edit
import program
from program import by_program, by_session, command_lines, same

# Sheets that the documents' commands name.
SHEETS = {
    "in.txt": b"0 -40\n0.2 0\n",
    "out.txt": b"100 0\nEOF -40\n",
    "duck.txt": b"0.1 0\n0.2 -8\n0.3 -8\n0.4 0\n",
    "album.cue": b"TRACK 01 AUDIO\nINDEX 01 00:00:00\nTRACK 02 AUDIO\nINDEX 01 00:20:37\n",
}


@pytest.fixture(scope="module")
def shelf(song):
    """The files that the documents' commands name."""
    names = ["samples/plain.mp3", "song.mp3", "music/one.mp3"]
    files = {**dict.fromkeys(names, song), **SHEETS}
    album = by_program(["join", "out.mp3", *["song.mp3"] * 13], files).files["out.mp3"]
    return {**files, "album.mp3": album, "podcast.mp3": album, "broken.mp3": song[:60_000]}


@pytest.mark.parametrize("section, lines", list(command_lines()))
def test_documents(shelf, section, lines):
    """One session takes all commands of a section, and so does one folder."""
    files = shelf
    with mp3edit.Session(files) as session:
        for words in lines:
            wanted, got = by_program(words, files), by_session(words, session)
            assert got[:3] == wanted[:3], words
            assert got.files == wanted.files, words
            files = wanted.files


def test_changed_files(changed_files):
    for files, commands in changed_files:
        for words in commands:
            same(words, files)


def test_kept_files(changed_files):
    """With -n, outputs that exist are refused."""
    for files, commands in changed_files:
        words = next(it for it in commands if it[0] == "split")
        made = sorted(same(["-n", *words], files).files.keys() - files.keys())
        for name in made[:1]:
            same(["-n", *words], {**files, name: b"kept"})


@pytest.mark.parametrize("seed", range(8))
def test_damaged_files(song, seed):
    """What is read of a damaged file is also what another reader of such files says."""
    damaged, draw = bytearray(song), random.Random(seed)
    for _ in range(draw.randint(1, 20)):
        damaged[draw.randrange(len(damaged))] ^= 0x55
    del damaged[draw.randrange(len(damaged)) : draw.choice([0, len(damaged)])]
    read = program.damaged.Damaged(bytes(damaged))
    assert mp3edit.salvage(damaged).text == read.text()
    for words in ("salvage a b", "list a", "info a", "gain -g 1 a b"):
        same(words.split(), {"a": bytes(damaged)})


@pytest.mark.parametrize(
    "words", ["", "--help", "-h", "--version", "drill 1 1", "drill 5 2000", "gain", "list none"]
)
def test_other_words(words):
    same(words.split(), {})
