#!/usr/bin/env python3
"""Compares exact pieces with the decoded whole, sample by sample, in mpg123 and in ffmpeg.

  exact.py pieces TOOL FILE SEED COUNT [DECODER..]   COUNT cuts of the file between random times, and splits into 5 by times and by a cue sheet,
                                                     made by a tool; prints two lines for each decoder, one for cuts and one for splits, and
                                                     fails if a piece isn't right in one of the named decoders

A tool is 'ours', which is 'cut --exact' and 'split --exact' of the program that MP3EDIT names; 'plain', its 'cut' and 'split'; 'mp3splt', which
cuts with '-f -b'; or 'ffmpeg', which cuts with '-c copy'. A piece is right if a player that leaves out delay and padding, as the piece's
head gives them, plays exactly the samples of the whole between the two times. A line says how many of all are right and how many were
refused; and for the others the greatest numbers of samples that are missing at the end, extra, and different, and the greatest difference.
mpg123 rounds, so a difference of one unit doesn't count there. The pieces of a split are played in order.
"""
import array
import os
import random
import subprocess
import sys
import tempfile
from pathlib import Path

ROUNDS = {"mpg123": 1, "ffmpeg": 0}
EXACT = {"ours": ["--exact"], "plain": []}
PROGRAM = os.environ.get("MP3EDIT", "mp3edit")


def decoded(decoder, path):
    """The samples of a file as the decoder plays them, channels interleaved."""
    words = {
        "mpg123": ["mpg123", "-q", "-s", "-e", "s16", str(path)],
        "ffmpeg": ["ffmpeg", "-v", "quiet", "-i", str(path), "-f", "s16le", "-"],
    }[decoder]
    samples = array.array("h")
    samples.frombytes(subprocess.run(words, capture_output=True, check=False).stdout)
    return samples


def shape_of(path):
    """The sampling frequency and the number of channels."""
    told = subprocess.run(["ffprobe", "-v", "quiet", "-select_streams", "a", "-show_entries", "stream=sample_rate,channels", "-of", "csv=p=0", str(path)],
                          capture_output=True, text=True, check=True).stdout.strip().rstrip(",")
    return tuple(int(it) for it in told.split(","))


def word_of(time):
    """A time in hundredths of a second as minutes, seconds and hundredths."""
    return f"{time // 6000}.{time // 100 % 60:02}.{time % 100:02}"


def run(words):
    return subprocess.run(words, capture_output=True, check=False).returncode == 0


def cut(tool, file, first, last, folder):
    """The piece between two times in hundredths of a second, or None if the tool refuses."""
    begin, end = word_of(first), word_of(last)
    piece = folder / "piece.mp3"
    piece.unlink(missing_ok=True)
    if tool in EXACT:
        done = run([PROGRAM, "cut", *EXACT[tool], str(file), begin, end, str(piece)])
    elif tool == "mp3splt":
        done = run(["mp3splt", "-Q", "-f", "-b", "-n", "-d", str(folder), "-o", "piece", str(file), begin, end])
    else:
        done = run(["ffmpeg", "-v", "quiet", "-y", "-ss", str(first / 100), "-to", str(last / 100), "-i", str(file), "-c", "copy", str(piece)])
    return piece if done and piece.exists() else None


def split(tool, file, times, folder):
    """The pieces between the beginning, these times in hundredths of a second and the end, in order; or None if the tool refuses."""
    words = [word_of(it) for it in (0, *times)]
    if tool in EXACT:
        return split_by([PROGRAM, "split", *EXACT[tool], str(file), str(folder / "part"), *words, "EOF"], folder)
    if tool == "mp3splt":
        return split_by(["mp3splt", "-Q", "-f", "-b", "-n", "-d", str(folder), "-o", "part@n2", str(file), *words, "EOF"], folder)
    for number, last in enumerate([*times, 10**7]):
        piece = cut(tool, file, [0, *times][number], last, folder)
        if piece is None:
            return None
        piece.rename(folder / f"part{number:02}.mp3")
    return sorted(folder.glob("part*"))


def split_by_sheet(tool, file, times, folder):
    """The same by a cue sheet, with times in its unit, 1/75 s; ffmpeg has no sheets."""
    sheet = folder / "sheet.cue"
    tracks = (f"TRACK {number:02} AUDIO\nINDEX 01 {it // 4500:02}:{it // 75 % 60:02}:{it % 75:02}" for number, it in enumerate((0, *times), 1))
    sheet.write_text("\n".join(['FILE "x" MP3', *tracks]) + "\n")
    if tool in EXACT:
        return split_by([PROGRAM, "split", *EXACT[tool], str(file), str(folder / "part"), "-c", str(sheet)], folder)
    if tool == "mp3splt":
        return split_by(["mp3splt", "-Q", "-f", "-b", "-n", "-d", str(folder), "-o", "part@n2", "-c", str(sheet), str(file)], folder)
    return None


def split_by(words, folder):
    for old in folder.glob("part*"):
        old.unlink()
    return sorted(folder.glob("part*")) if run(words) else None


def beside(whole, piece, unit, channels):
    """How many samples a channel of the piece lacks, has extra and has different, and by how much they differ at most."""
    here = min(len(whole), len(piece))
    off = {}
    if whole[:here] != piece[:here]:
        for at, (one, other) in enumerate(zip(whole[:here], piece[:here])):
            if abs(one - other) > unit:
                off[at // channels] = max(off.get(at // channels, 0), abs(one - other))
    return max(0, len(whole) - here) // channels, max(0, len(piece) - here) // channels, len(off), max(off.values(), default=0)


class Told:
    def __init__(self):
        self.right = self.all = self.refused = 0
        self.worst = [0, 0, 0, 0]

    def add(self, found):
        self.all += 1
        if found is None:
            self.refused += 1
        elif any(found):
            self.worst = [max(a, b) for a, b in zip(self.worst, found)]
        else:
            self.right += 1

    def line(self):
        missing, extra, different, most = self.worst
        return f"{self.right} of {self.all} right, {self.refused} refused, worst: {missing} missing, {extra} extra, {different} different by up to {most}"


def compared(tool, file, seed, count):
    """What was found about the pieces, by decoder and by 'cuts' or 'splits'."""
    file = Path(file).resolve()
    frequency, channels = shape_of(file)
    wholes = {decoder: decoded(decoder, file) for decoder in ROUNDS}
    length = min(len(it) for it in wholes.values()) // channels
    draw = random.Random(int(seed))
    told = {(decoder, what): Told() for decoder in ROUNDS for what in ("cuts", "splits")}
    with tempfile.TemporaryDirectory() as name:
        folder = Path(name)
        for _ in range(int(count)):
            first, last = sorted(draw.sample(range(length * 100 // frequency), 2))
            begin, end = (it * frequency // 100 * channels for it in (first, last))
            piece = cut(tool, file, first, last, folder)
            for decoder, unit in ROUNDS.items():
                told[decoder, "cuts"].add(beside(wholes[decoder][begin:end], decoded(decoder, piece), unit, channels) if piece else None)
        for parts, how in ((100, split), (75, split_by_sheet)):
            got = how(tool, file, sorted(draw.sample(range(20, length * parts // frequency - 20), 4)), folder)
            for decoder, unit in ROUNDS.items():
                joined = array.array("h")
                for piece in got or []:
                    joined.extend(decoded(decoder, piece))
                told[decoder, "splits"].add(beside(wholes[decoder], joined, unit, channels) if got else None)
    return told


def pieces(tool, file, seed, count, *judges):
    told = compared(tool, file, seed, count)
    for (decoder, what), it in told.items():
        print(f"{decoder}, {what}: {it.line()}")
    return all(it.right == it.all for (decoder, _), it in told.items() if decoder in judges)


def main():
    words = sys.argv[1:]
    if len(words) < 5 or words[0] != "pieces" or not set(words[5:]) <= set(ROUNDS):
        sys.exit(__doc__)
    if not pieces(*words[1:]):
        sys.exit(1)


if __name__ == "__main__":
    main()
