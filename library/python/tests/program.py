"""Runs the program and the library on the same words and files. MP3EDIT names the program; the
default is the one that was built here. ROUNDS says how many changed files there are."""
import os
import re
import subprocess
import sys
import tempfile
from functools import lru_cache
from pathlib import Path
from random import Random
from typing import Dict, Iterator, List, NamedTuple, Sequence, Tuple

import pytest

import mp3edit

TOP = Path(__file__).resolve().parents[3]
PROGRAM = Path(os.environ.get("MP3EDIT", TOP / "crates/mp3edit/out/mp3edit")).resolve()
ROUNDS = int(os.environ.get("ROUNDS", "40"))
sys.dont_write_bytecode = True
sys.path.insert(0, str(TOP / "checks"))
import changes  # noqa: E402
import damaged  # noqa: E402, F401

Files = Dict[str, bytes]


class Ran(NamedTuple):
    """What a command says, and the files after it."""

    status: int
    text: str
    line: str
    files: Files


@lru_cache(maxsize=None)
def needed() -> str:
    if not PROGRAM.exists():
        pytest.skip(f"{PROGRAM} is missing")
    return str(PROGRAM)


def by_program(words: Sequence[str], files: Files) -> Ran:
    with tempfile.TemporaryDirectory() as name:
        folder = Path(name)
        for it in [*files, *words]:
            os.makedirs(os.path.dirname(f"{name}/{it}"), exist_ok=True)
        for it, data in files.items():
            (folder / it).write_bytes(data)
        done = subprocess.run(
            [needed(), *words], cwd=folder, stdin=subprocess.DEVNULL, capture_output=True
        )
        left = {
            str(it.relative_to(folder)): it.read_bytes() for it in folder.rglob("*") if it.is_file()
        }
    return Ran(done.returncode, done.stdout.decode(), done.stderr.decode(), left)


def by_session(words: Sequence[str], session: mp3edit.Session) -> Ran:
    status = session.run(*words)
    line = f"{session.line}\n" if session.line else ""
    return Ran(status, session.text, line, dict(session))


def by_library(words: Sequence[str], files: Files) -> Ran:
    with mp3edit.Session(files) as session:
        return by_session(words, session)


def same(words: Sequence[str], files: Files) -> Ran:
    """What both do for these words and files."""
    wanted, got = by_program(words, files), by_library(words, files)
    # Files apart from the rest, since a comparison of bytes that fails should say little.
    assert got[:3] == wanted[:3], words
    assert sorted(got.files) == sorted(wanted.files), words
    assert [it for it in got.files if got.files[it] != wanted.files[it]] == [], words
    return wanted


def output(words: str, files: Files) -> bytes:
    """The bytes that the program writes to `out.mp3`."""
    done = by_program(words.split(), files)
    assert done.status == 0, done.line
    return done.files["out.mp3"]


def changed_files() -> Iterator[Tuple[Files, List[List[str]]]]:
    with tempfile.TemporaryDirectory() as name:
        sample = changes.pieces_of((TOP / "samples/plain.mp3").read_bytes())
        sources = [sample[:20], sample[-20:], *changes.encoded(Path(name))]
    for number in range(ROUNDS):
        random = Random(f"library {number}")
        files = changes.files(random, sources)
        yield files, list(changes.commands(random, files))


def command_lines() -> Iterator[Tuple[str, List[List[str]]]]:
    """Sections of the documents, each with the commands in what is run there, as far as they need
    no shell."""
    for path in [TOP / "README.md", TOP / "docs/MANUAL.md", TOP / "docs/COOKBOOK.md"]:
        for section in re.split(r"^(?=##? )", path.read_text(encoding="utf-8"), flags=re.M):
            blocks = "".join(re.findall(r"^```sh run[^\n]*\n(.*?)^```", section, re.M | re.S))
            found = re.findall(r"^ *mp3edit ([^#|>&$'\"*?()<;]+?) *(?:[#|>&12].*)?$", blocks, re.M)
            lines = [it.split() for it in found if "/dev/" not in it]
            if lines:
                yield f"{path.name}: {section.splitlines()[0].strip('# ')}", lines
