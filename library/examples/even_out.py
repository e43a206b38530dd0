#!/usr/bin/env python3
"""Evens out the loudness of the MP3 files of a folder: even_out.py FOLDER OUT.

mp3gain, which is started once for each processor, says by how many steps each file is to change; it
never writes to one. The gains are moved in memory, in threads, since the interpreter's lock is free
meanwhile. A file that exists in OUT is kept.
"""
import os
import subprocess
import sys
from concurrent.futures import ThreadPoolExecutor
from pathlib import Path
from typing import Optional, Sequence

import mp3edit


def steps_of(songs: Sequence[Path]) -> dict[Path, int]:
    """By how many steps of 1.5 dB each file differs from 89 dB."""
    words = ["mp3gain", "-q", "-s", "s", "-o", *map(str, songs)]
    said = subprocess.run(words, stdout=subprocess.PIPE, stderr=subprocess.DEVNULL)
    rows = [it.split("\t") for it in os.fsdecode(said.stdout).split("\n")[1:]]
    return {Path(it[0]): int(it[1]) for it in rows if Path(it[0]) in songs}


def even_out(song: Path, steps: Optional[int], folder: Path) -> tuple[bool, str]:
    """Writes the file anew in the folder, and says whether it did, and by how much or why not."""
    if steps is None:
        return False, f"{song}: mp3gain has no number for it"
    try:
        louder = mp3edit.gain(song.read_bytes(), steps)
        with open(folder / song.name, "xb") as out:
            out.write(louder)
    except mp3edit.Refused as it:
        return False, f"{song}: {it}"
    except FileExistsError:
        return False, f"{folder / song.name}: exists"
    return True, f"{song}: {steps:+} steps"


def main(source: str, target: str) -> int:
    sys.stdout.reconfigure(errors="surrogateescape")  # for names that aren't UTF-8
    songs = sorted(it for it in Path(source).iterdir() if it.suffix.lower() == ".mp3")
    Path(target).mkdir(exist_ok=True)
    steps: dict[Path, int] = {}
    status = 0
    with ThreadPoolExecutor() as pool:
        shares = [songs[it :: os.cpu_count() or 1] for it in range(os.cpu_count() or 1)]
        for found in pool.map(steps_of, filter(None, shares)):
            steps.update(found)
        for done, line in pool.map(lambda it: even_out(it, steps.get(it), Path(target)), songs):
            print(line, file=sys.stdout if done else sys.stderr)
            status |= not done
    return status


if __name__ == "__main__":
    sys.exit(main(*sys.argv[1:]) if len(sys.argv) == 3 else "even_out.py FOLDER OUT")
