#!/usr/bin/env python3
"""What mp3edit does for its words and the files that exist. It shares no code with the program that it helps to check.

  results.py WORD..      with the files that the words name: the files that are written, each with its name and length, the text, and the
                         program's line and status

The words are those of "Synopsis" in docs/MANUAL.md, the lines those of its "Messages", and their order is "The order of refusals" in
docs/DECISIONS.md. Files are given as their bytes, by name. frames.py says what is in a file and moves gains, laid.py lays main data,
fades.py reads positions and fade sheets, spans.py makes exact pieces, seams.py joins without seams, removed.py takes stretches out, about.py
says what 'info' says, drill.py draws streams from seeds, and damaged.py says what can be read of a damaged file.
"""
import re
import sys
from dataclasses import dataclass, field
from functools import lru_cache
from pathlib import Path

sys.dont_write_bytecode = True
import about  # noqa: E402
import damaged  # noqa: E402
import drill as drills  # noqa: E402
import fades  # noqa: E402
import frames  # noqa: E402
import laid  # noqa: E402
import removed  # noqa: E402
import seams  # noqa: E402
import spans  # noqa: E402
from fades import frame_at, place  # noqa: E402

LONGEST_SHEET = 65_536


@dataclass
class Result:
    """Status, text, line, and the bytes of each file written; which frames of which inputs each of these has (chosen); and by how many steps
    the gains of the left and of the right channel move: the same for all frames (moved), or for each frame its own (faded)."""

    status: int = 0
    text: str = ""
    line: str = ""
    outputs: dict = field(default_factory=dict)
    chosen: dict = field(default_factory=dict)  # by output: [(input, first frame, end)]
    moved: tuple = (0, 0)
    faded: list = field(default_factory=list)


class Answer(Exception):
    """A status and the line that goes with it."""


# ---- words


def name(word):
    return word != "" and not word.startswith("-")


def steps(word):
    return re.fullmatch(r"[+-]?[0-9]{1,3}", word) and abs(int(word)) <= 255


def channel(word):
    return word in ("0", "1")


def rate(word):
    return re.fullmatch(r"[0-9]{1,3}", word)


def is_place(word):
    return place(word) is not None


def is_exact_place(word):
    return spans.exact_place(word) is not None


def seed(word):
    return re.fullmatch(r"[0-9]{1,10}", word) and int(word) < 2**31


def frame_count(word):
    return re.fullmatch(r"[0-9]{1,5}", word) and 1 <= int(word) <= 20_000


# The kinds of the words of each form, a fixed word as itself, and how often the last kind may occur.
FRONTS = [[], ["-s", "s"], ["-w"], ["-s", "s", "-w"], ["-w", "-s", "s"]]
MODES = [["-g", steps], ["-l", channel, steps]]
FORMS = [(["gain", *front, *mode, name, name], 1) for front in FRONTS for mode in MODES]
FORMS += [
    (["list", name], 1),
    (["info", name], 1),
    (["gain", "-u", name, name], 1),
    (["cut", name, is_place, is_place, name], 1),
    (["cut", "--least", name, is_place, is_place, name], 1),
    (["cut", "--exact", name, is_exact_place, is_exact_place, name], 1),
    (["pack", name, name], 1),
    (["pack", "--constant", rate, name, name], 1),
    (["pack", "--floor", rate, name, name], 1),
    (["pack", "--best", name, name], 1),
    (["split", name, name, is_place, is_place], 99),
    (["split", name, name, "-c", name], 1),
    (["split", "--exact", name, name, is_exact_place, is_exact_place], 99),
    (["split", "--exact", name, name, "-c", name], 1),
    (["join", name, name], 64),
    (["join", "--seamless", name, name], 64),
    (["fade", name, name, name], 1),
    (["fade", "--back", name, name, name], 1),
    (["salvage", name, name], 1),
    (["drill", seed, frame_count], 1),
]
FORMS += [(["remove", name, name, *[is_exact_place, is_exact_place] * pairs], 1) for pairs in range(1, 51)]


def judge_words(words, before):
    """Refuses the first word that fits no form, or, if a word is missing, the position after the last one. Before these words there are some
    that are counted too."""
    longest = 0
    for kinds, most in FORMS:
        kinds_of_words = kinds + kinds[-1:] * (most - 1)
        count = 0
        for kind, word in zip(kinds_of_words, words):
            if not (kind(word) if callable(kind) else kind == word):
                break
            count += 1
        if len(kinds) <= len(words) == count:
            return
        longest = max(longest, count)
    raise Answer(2, f"bad word {before + longest + 1}")


# ---- positions and sheets


def ranges_of(places, found):
    """The pairs of frame numbers, from each position to the next."""
    at = [frame_at(it, found) for it in places]
    count = len(found.frames)
    for pair in zip(at, at[1:]):
        if not pair[0] < pair[1] <= count:
            raise Answer(1, f"range {pair[0]} to {pair[1]} of {count} frames")
    return list(zip(at, at[1:]))


class Sheet:
    """A cue sheet, line by line."""

    def __init__(self):
        self.file, self.tracks, self.has_start, self.starts = False, 0, False, []

    def take(self, words):
        """Takes the words of a line, and returns what is at fault in it, or None."""
        kind = words[0].upper() if words else b""
        if kind == b"FILE":
            again, self.file = self.file, True
            return "bad line" if again else None
        if kind == b"TRACK":
            return self.take_track(words[1:])
        return self.take_index(words[1:]) if kind == b"INDEX" else None

    def take_track(self, words):
        if len(words) != 2 or not re.fullmatch(rb"[0-9]{1,2}", words[0]) or int(words[0]) == 0 or words[1].upper() != b"AUDIO":
            return "bad line"
        self.tracks, self.has_start = self.tracks + 1, False
        return "bad line" if self.tracks == 100 else None

    def take_index(self, words):
        time = re.fullmatch(rb"([0-9]{2,4}):([0-5][0-9]):([0-6][0-9]|7[0-4])", words[1]) if len(words) == 2 else None
        if not time or not re.fullmatch(rb"[0-9]{1,2}", words[0]) or self.tracks == 0:
            return "bad line"
        if int(words[0]) != 1:
            return None
        if self.has_start:
            return "bad line"
        self.has_start = True
        start = (60 * int(time[1]) + int(time[2])) * 75 + int(time[3])
        if self.starts and start <= self.starts[-1]:
            return "not rising at line"
        self.starts.append(start)
        return None


def bytes_of_sheet(word, files):
    if word not in files:
        raise Answer(3, f"{word}: absent")
    if len(files[word]) > LONGEST_SHEET:
        raise Answer(1, f"{word}: sheet too large, {len(files[word])} bytes")
    return files[word]


def places_of(word, files):
    """The positions where the tracks of a cue sheet start, and the end."""
    data, sheet = bytes_of_sheet(word, files), Sheet()
    for number, line in enumerate(data.removeprefix(b"\xef\xbb\xbf").split(b"\n"), 1):
        fault = sheet.take([it for it in re.split(rb"[ \t]+", line.removesuffix(b"\r")) if it])
        if fault:
            raise Answer(1, f"{word}: {fault} {number}")
    if not sheet.starts:
        raise Answer(1, f"{word}: no tracks")
    return [(it, 75) for it in sheet.starts] + ["EOF"]


# ---- commands


@lru_cache(maxsize=8)
def survey_or_fault(data):
    try:
        return frames.survey_of(data)
    except frames.Refused as it:
        return it


def surveyed(word, files):
    if word not in files:
        raise Answer(3, f"{word}: absent")
    found = survey_or_fault(files[word])
    if isinstance(found, frames.Refused):
        raise Answer(1, f"{word}: {found}")
    return found


def judge_names(inputs, outputs):
    for it in inputs:
        if it in outputs:
            raise Answer(1, f"{it}: input is an output")


def list_file(words, files):
    return Result(text="".join(f"{it}\n" for it in frames.lines_of(surveyed(words[1], files))))


def info(words, files):
    found = surveyed(words[1], files)
    return Result(text="".join(f"{it}\n" for it in about.lines_of(files[words[1]], found)))


def gain(words, files):
    source, output = words[-2:]
    judge_names([source], [output])
    found, data = surveyed(source, files), files[source]
    if words[1] == "-u":
        new = frames.taken_back(data, found)
        moved = frames.tag_of(data, found)[0].undo()[:2]
    else:
        mode = words[:-2]
        which = mode[-2] if "-l" in mode else "both"
        new = frames.gained(data, found, which, mode[-1], "-w" in mode, "-s" not in mode)
        moved = frames.steps_of(which, mode[-1])
    return Result(outputs={output: new}, chosen={output: [(source, 0, len(found.frames))]}, moved=moved)


def cut(words, files):
    source, first, end, output = words[-4:]
    judge_names([source], [output])
    found = surveyed(source, files)
    if words[1] == "--exact":
        return cut_exact(source, first, end, output, files[source], found)
    [(first, end)] = ranges_of([place(first), place(end)], found)
    new = laid.laid_file(files[source], found, first, end, laid.SLOTS if words[1] == "--least" else None)[0]
    return Result(outputs={output: new}, chosen={output: [(source, first, end)]})


def cut_exact(source, first, end, output, data, found):
    try:
        p, q = spans.range_of(data, found, [spans.exact_place(first), spans.exact_place(end)])
    except spans.Fault as it:
        raise Answer(1, str(it))
    return Result(outputs={output: spans.piece_of(data, found, p, q)}, chosen={output: [(source, *spans.frames_for(found, p, q))]})


def remove(words, files):
    source, output, *places = words[1:]
    judge_names([source], [output])
    found = surveyed(source, files)
    places = [spans.exact_place(it) for it in places]
    try:
        new = removed.without(files[source], found, places)[0]
    except spans.Fault as it:
        raise Answer(1, str(it))
    parts = [(source, part[0], part[-1] + 1) for part in removed.parts_of(places, found)]
    return Result(outputs={output: new}, chosen={output: parts})


def pack(words, files):
    *mode, source, output = words[1:]
    judge_names([source], [output])
    found = surveyed(source, files)
    slots = laid.SLOTS
    if mode == ["--best"]:
        slots = laid.BEST
    elif mode:
        slots = laid.menu_of(found, mode[0].removeprefix("--"), int(mode[1]))
    if not slots:
        raise Answer(1, f"no rate {int(mode[1])}")
    new = laid.laid_file(files[source], found, 0, None, slots, True)[0]
    return Result(outputs={output: new}, chosen={output: [(source, 0, len(found.frames))]})


def exact_pieces(words, data, found):
    """The bytes of the piece from each place to the next, and the numbers of the frames in it."""
    pieces = []
    for places in zip(words, words[1:]):
        try:
            p, q = spans.range_of(data, found, places)
        except spans.Fault as it:
            raise Answer(1, str(it))
        pieces.append((p, q))
    return [(spans.piece_of(data, found, p, q), spans.frames_for(found, p, q)) for p, q in pieces]


def split(words, files):
    is_exact = words[1] == "--exact"
    source, prefix, *rest = words[2:] if is_exact else words[1:]
    sheets = rest[1:] if rest[0] == "-c" else []
    judge_names([source, *sheets], [f"{prefix}{it:02}.mp3" for it in range(1, 100)])
    found = surveyed(source, files)
    done = Result()
    if is_exact:
        at = [("position", it) for it in places_of(sheets[0], files)] if sheets else [spans.exact_place(it) for it in rest]
        for number, (new, chosen) in enumerate(exact_pieces(at, files[source], found), 1):
            done.outputs[f"{prefix}{number:02}.mp3"] = new
            done.chosen[f"{prefix}{number:02}.mp3"] = [(source, *chosen)]
        return done
    ranges = ranges_of(places_of(sheets[0], files) if sheets else map(place, rest), found)
    for number, (first, end) in enumerate(ranges, 1):
        piece = f"{prefix}{number:02}.mp3"
        done.outputs[piece] = laid.laid_file(files[source], found, first, end, None)[0]
        done.chosen[piece] = [(source, first, end)]
    return done


def join(words, files):
    is_seamless = words[1] == "--seamless"
    output, *sources = words[2:] if is_seamless else words[1:]
    judge_names(sources, [output])
    surveys = []
    for it in sources:
        surveys.append(surveyed(it, files))
        if surveys[-1].frames[0].kind != surveys[0].frames[0].kind:
            raise Answer(1, f"{it}: other class than the first input")
    counts = [len(it.frames) for it in surveys]
    if is_seamless:
        new, out, lines = seams.joined_file([seams.Input(it, files[it], found) for it, found in zip(sources, surveys)])
        return Result(text="".join(f"{it}\n" for it in lines), outputs={output: new}, chosen={output: list(zip(sources, out, counts))})
    new = laid.joined_file([files[it] for it in sources], surveys)[0]
    return Result(outputs={output: new}, chosen={output: [(it, 0, count) for it, count in zip(sources, counts)]})


def fade(words, files):
    *flags, source, output, sheet = words[1:]
    judge_names([source, sheet], [output])
    found = surveyed(source, files)
    try:
        steps = fades.all_steps(bytes_of_sheet(sheet, files), found, flags == ["--back"])
    except fades.Fault as it:
        raise Answer(1, f"{sheet}: {it}")
    new = fades.fade(files[source], found, steps)
    return Result(outputs={output: new}, chosen={output: [(source, 0, len(found.frames))]}, faded=[(it, it) for it in steps])


@lru_cache(maxsize=8)
def damaged_or_fault(data):
    try:
        return damaged.Damaged(data)
    except damaged.Refused as it:
        return it


def salvage(words, files):
    source, output = words[1:]
    judge_names([source], [output])
    if source not in files:
        raise Answer(3, f"{source}: absent")
    found = damaged_or_fault(files[source])
    if isinstance(found, damaged.Refused):
        raise Answer(1, f"{source}: {found}")
    new = laid.laid_file(files[source], found, 0, None, None)[0]
    return Result(text=found.text(), outputs={output: new}, chosen={output: [(source, 0, len(found.frames))]})


def drill(words, files):
    stream = drills.stream(int(words[1]), int(words[2]))
    packed, written = laid.laid_file(stream, frames.survey_of(stream), 0, None, laid.SLOTS)
    lead_ins = written - int(words[2])
    return Result(text=f"{int(words[2])} frames, {len(stream)} bytes in, {len(packed)} bytes out, {lead_ins} lead-ins\n")


COMMANDS = {
    **{"list": list_file, "info": info, "gain": gain, "cut": cut, "remove": remove, "pack": pack, "split": split, "join": join, "fade": fade},
    **{"salvage": salvage, "drill": drill},
}


def result_of(words, files):
    before = 1 if words[:1] == ["-n"] else 0
    words = words[before:]
    try:
        judge_words(words, before)
        result = COMMANDS[words[0]](words, files)
        for it in result.outputs if before else ():
            if it in files:
                raise Answer(1, f"{it}: exists")
        return result
    except Answer as it:
        return Result(it.args[0], line=f"{it.args[1]}\n")
    except frames.Unfit as it:
        return Result(1, line=f"{it}\n")


def main(words):
    names = [*words, *(f"{it}{number:02}.mp3" for it in words for number in range(1, 100))]
    result = result_of(words, {it: Path(it).read_bytes() for it in names if Path(it).is_file()})
    for it, data in result.outputs.items():
        print(f"{it}: {len(data)} bytes")
    print(end=result.text)
    print(end=result.line, file=sys.stderr)
    sys.exit(result.status)


if __name__ == "__main__":
    main(sys.argv[1:])
