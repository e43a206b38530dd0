#!/usr/bin/env python3
"""Compares a file that was split and joined again with the decoded whole, sample by sample, in mpg123 and in ffmpeg.

  joins.py WAY FILE SEED [JUDGE..]     splits the file into five at random times, and joins the pieces; prints a line for each judge, and fails
                                       if one of the named judges finds more than a rounding

A way is how the file is split and how it is joined: see WAYS. A judge is a decoder, and whether it plays all frames or what delay and padding
leave: mpg123-all, mpg123-played, ffmpeg-all, ffmpeg-played. A line says how many samples of each channel are missing or extra in all, and
how many samples of the whole differ from those where their piece is, and by how much. mpg123 rounds, so a difference of one unit doesn't
count there.
"""
import array
import os
import random
import subprocess
import sys
import tempfile
from functools import lru_cache
from pathlib import Path

sys.dont_write_bytecode = True
import exact  # noqa: E402

JUDGES = tuple(f"{decoder}-{what}" for decoder in exact.ROUNDS for what in ("all", "played"))
PIECES = 5
FFMPEG = ["ffmpeg", "-nostdin", "-v", "quiet", "-y"]
# A piece is found again by PROBE samples that are the same, at most FARTHEST from where they were. A seam is at most NEAR from where it was
# asked for.
PROBE, FARTHEST, NEAR = 64, 40_000, 5_000


# ---- ways


def by_program(*flags):
    def split(file, times, folder):
        words = [exact.PROGRAM, "split", *flags, str(file), str(folder / "part"), "0.0", *map(exact.word_of, times), "EOF"]
        return exact.split_by(words, folder)

    return split


def by_mp3splt(*flags):
    def split(file, times, folder):
        words = ["mp3splt", "-Q", "-f", *flags, "-n", "-d", str(folder), "-o", "part@n2", str(file), "0.0", *map(exact.word_of, times), "EOF"]
        return exact.split_by(words, folder)

    return split


def by_segments(file, times, folder):
    inner = ",".join(str(it / 100) for it in times)
    return exact.split_by([*FFMPEG, "-i", str(file), "-c", "copy", "-f", "segment", "-segment_times", inner, str(folder / "part%02d.mp3")], folder)


def by_copies(file, times, folder):
    return exact.split("ffmpeg", file, times, folder)


def joined_by(*flags):
    def join(pieces, output):
        return exact.run([exact.PROGRAM, "join", *flags, str(output), *map(str, pieces)])

    return join


def cat(pieces, output):
    output.write_bytes(b"".join(it.read_bytes() for it in pieces))
    return True


def concat(pieces, output):
    listed = output.with_suffix(".txt")
    listed.write_text("".join(f"file '{it}'\n" for it in pieces))
    return exact.run([*FFMPEG, "-f", "concat", "-safe", "0", "-i", str(listed), "-c", "copy", str(output)])


WAYS = {
    "frames": (by_program(), joined_by("--seamless")),
    "exact": (by_program("--exact"), joined_by("--seamless")),
    "frames-join": (by_program(), joined_by()),
    "exact-join": (by_program("--exact"), joined_by()),
    "mp3splt-cat": (by_mp3splt(), cat),
    "mp3splt-b-cat": (by_mp3splt("-b"), cat),
    "mp3splt-b-seamless": (by_mp3splt("-b"), joined_by("--seamless")),
    "mp3splt-x-cat": (by_mp3splt("-x"), cat),
    "segments": (by_segments, concat),
    "copies": (by_copies, concat),
}


# ---- what is played


def decoded(judge, path):
    decoder, what = judge.split("-")
    if what == "played":
        return exact.decoded(decoder, path)
    words = {
        "mpg123": ["mpg123", "-q", "-s", "--no-gapless", "-e", "s16", str(path)],
        "ffmpeg": ["ffmpeg", "-nostdin", "-v", "quiet", "-flags2", "+skip_manual", "-i", str(path), "-f", "s16le", "-"],
    }[decoder]
    samples = array.array("h")
    samples.frombytes(subprocess.run(words, capture_output=True, check=False).stdout)
    return samples


def shift_of(whole, other, begin, end, channels, guess):
    """By how much the samples from `begin` on and before `end` come later in the other sound, judged by some that are the same in both."""
    size = PROBE * channels
    for at in range(begin, end - size, size):
        probe = whole[at : at + size]
        if len(set(probe)) < PROBE:
            continue
        front = max(0, at + guess - FARTHEST * channels)
        space = other[front : at + guess + FARTHEST * channels + size].tobytes()
        found = space.find(probe.tobytes())
        while found >= 0 and found % (2 * channels):
            found = space.find(probe.tobytes(), found + 1)
        if found >= 0:
            return front + found // 2 - at
    return guess


def off_by(whole, other, begin, end, shifts):
    """For each sample from `begin` on and before `end` the least difference from the samples that come later by one of the shifts; 0 if there
    are none."""
    size, places = len(other), range(begin, end)
    if len(shifts) == 1 and 0 <= begin + shifts[0] and end + shifts[0] <= size and whole[begin:end] == other[begin + shifts[0] : end + shifts[0]]:
        return [0] * (end - begin)
    return [min((abs(whole[at] - other[at + it]) for it in shifts if 0 <= at + it < size), default=0) for at in places]


def beside(whole, other, seams, unit, channels):
    """How many samples of each channel are missing in the other sound and extra, how many of the whole differ from those where their piece is,
    and by how much at most. The whole has a seam at, or near, each sample in `seams`; near one a sample may be where either piece has it."""
    near, ends = NEAR * channels, [*seams[1:], len(whole)]
    shifts, guess = [], 0
    for begin, end in zip(seams, ends):
        guess = shift_of(whole, other, begin + (near if begin else 0), end - near, channels, guess)
        shifts.append(guess)
    off = []
    for number, (begin, end) in enumerate(zip(seams, ends)):
        front, back = begin + (near if begin else 0), end - (near if end < len(whole) else 0)
        off += off_by(whole, other, begin, front, sorted({*shifts[max(0, number - 1) : number + 1]}))
        off += off_by(whole, other, front, back, [shifts[number]])
        off += off_by(whole, other, back, end, sorted({*shifts[number : number + 2]}))
    places = {at // channels for at, it in enumerate(off) if it > unit}
    apart = (len(other) - len(whole)) // channels
    return max(0, -apart), max(0, apart), len(places), max(off) if places else 0


def drawn(seed, length):
    """Four times within this length, all in hundredths of a second, in order, at least half a second apart and from both ends."""
    chance, least = random.Random(int(seed)), 50
    while True:
        times = sorted(chance.sample(range(least, length - least), PIECES - 1))
        if min(b - a for a, b in zip(times, times[1:])) >= least:
            return times


@lru_cache(maxsize=1)
def wholes_of(file, _written):
    """What each judge plays of a file that was written at this time (which is part of the cache's key)."""
    return {judge: decoded(judge, file) for judge in JUDGES}


def compared(way, file, seed):
    """What each judge found, or None if a tool refuses."""
    file = Path(file).resolve()
    frequency, channels = exact.shape_of(file)
    wholes = wholes_of(file, os.stat(file).st_mtime_ns)
    length = min(len(it) for it in wholes.values()) // channels
    times = drawn(seed, length * 100 // frequency)
    split, join = WAYS[way]
    with tempfile.TemporaryDirectory() as name:
        folder = Path(name)
        pieces = split(file, times, folder)
        output = folder / "joined.mp3"
        if not pieces or not join(pieces, output):
            return None
        inner = [it * frequency // 100 * channels for it in times]
        return {
            judge: beside(whole, decoded(judge, output), [0, *inner], exact.ROUNDS[judge.split("-")[0]], channels)
            for judge, whole in wholes.items()
        }


def main():
    words = sys.argv[1:]
    if len(words) < 3 or words[0] not in WAYS or not set(words[3:]) <= set(JUDGES):
        sys.exit(__doc__)
    told = compared(*words[:3])
    if told is None:
        sys.exit("it is refused")
    for judge, (missing, more, different, most) in told.items():
        print(f"{judge}: {missing} missing, {more} more, {different} different by up to {most}")
    return 1 if any(any(told[judge][:3]) for judge in words[3:]) else 0


if __name__ == "__main__":
    sys.exit(main())
