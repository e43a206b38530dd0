#!/usr/bin/env python3
"""Takes stretches out of a file, and compares what is left with the decoded whole, sample by sample, in mpg123 and in ffmpeg.

  joints.py tried FILE SEED [JUDGE..]    takes out each list of stretches that removed.py draws; prints a line about all the files, one for each
                                         judge and one about the joints, and what is wrong of what follows, with status 1 then
  joints.py WAY FILE SEED                takes out one stretch, drawn, whose ends are between frames at whole hundredths of a second, and prints
                                         a line for each judge. A way is 'remove', or how to split and to join again: see WAYS

A file that 'remove' writes has the bytes that removed.py gives. Its frames are those of 'split' and 'join --seamless' of the pieces that stay,
where removed.py says that they are; and if one part stays, those of 'cut'. Judges are those of joins.py. If all frames are played, there
are as many samples as frames have, and those of each part are those of the whole, but for the first 1,056 of a part that doesn't begin the
whole. If what delay and padding leave is played, it begins with the first and ends with the last sample that stays of what is played of the
whole, but never before sample 529. mpg123 rounds, so a difference of one unit doesn't count there. Within 1,152 samples of a joint none is
louder by more than LOUDEST dB than the loudest of the whole within 1,152 samples of the two places that meet there.

A line about a way says how many samples of each channel are missing or extra, how many differ from those of the whole, and by how much.
"""
import array
import math
import operator
import random
import sys
import tempfile
from pathlib import Path

sys.dont_write_bytecode = True
import exact  # noqa: E402
import frames  # noqa: E402
import joins  # noqa: E402
import removed  # noqa: E402
import spans  # noqa: E402

WARM_UP, AROUND, LOUDEST = 1056, 1152, 3
# A joint isn't measured if no sample around is farther from 0 than this, 50 dB below full scale.
QUIETEST = 104
# How many samples a decoder leaves out of a file whose head has no delay.
SKIPS = {"mpg123": 529, "ffmpeg": 0}

# ---- files by the program


def ran(*words):
    return exact.run([exact.PROGRAM, *map(str, words)])


def frames_in(path):
    """The bytes of the frames of a file that the program wrote."""
    data = path.read_bytes()
    found = frames.survey_of(data).frames
    return data[found[0].offset : found[-1].end]


def instead(made, file, folder):
    """Files that have the same frames, by 'split' and 'join --seamless', and for one part by 'cut'; none if one of these is refused."""
    at, stay = made
    pieces = [folder / f"q{it:02}.mp3" for it in stay]
    joined, piece = folder / "joined.mp3", folder / "piece.mp3"
    if not ran("split", file, folder / "q", *at) or not ran("join", "--seamless", joined, *pieces):
        return []
    if len(stay) > 1:
        return [joined]
    return [joined, piece] if ran("cut", file, at[stay[0] - 1], at[stay[0]], piece) else []


# ---- sound


def by_ffmpeg(paths):
    """What ffmpeg plays of each file, of all frames and as delay and padding say; in one run, since it takes long to begin."""
    words, names = list(joins.FFMPEG), []
    for it in paths:
        words += ["-flags2", "+skip_manual", "-i", str(it), "-i", str(it)]
        names += [f"{it}.all", f"{it}.played"]
    exact.run(words + [word for at, it in enumerate(names) for word in ("-map", f"{at}:a", "-f", "s16le", it)])
    return [array.array("h", Path(it).read_bytes()) for it in names]


def sounds_of(paths):
    """What each judge plays of each file."""
    found = {(f"mpg123-{what}", it): joins.decoded(f"mpg123-{what}", it) for it in paths for what in ("all", "played")}
    return found | dict(zip(((f"ffmpeg-{what}", it) for it in paths for what in ("all", "played")), by_ffmpeg(paths)))


def farthest(one, other):
    """The greatest difference between two sounds of the same length."""
    return 0 if one == other else max(map(abs, map(operator.sub, one, other)), default=0)


def peak(samples):
    return max(max(samples, default=0), -min(samples, default=0))


class Output:
    """A file without some stretches: the words for these, the bytes that it should have, and the number of each frame in the whole."""

    def __init__(self, source, path, words):
        self.source, self.path, self.words = source, path, words
        self.places = [spans.exact_place(it) for it in words]
        self.new, self.numbers = removed.without(source.data, source.found, self.places)
        self.pieces = removed.pieces_of(source.data, source.found, self.places)

    def fault(self):
        """What is wrong with the bytes that the program writes, or None."""
        if not ran("remove", self.source.file, self.path, *self.words) or self.path.read_bytes() != self.new:
            return "another file than that of removed.py"
        if self.pieces:
            others = instead(self.pieces, self.source.file, self.path.parent)
            if not others or any(frames_in(it) != frames_in(self.path) for it in others):
                return "other frames than those of pieces"
        return None

    def parts(self):
        """Of each part the number of its first frame, how many frames it has, and where it is in the output."""
        found = []
        for at, number in enumerate(self.numbers):
            if number is not None and at and self.numbers[at - 1] == number - 1:
                found[-1][1] += 1
            elif number is not None:
                found.append([number, 1, at])
        return found

    def wrong_in_all(self, whole, other, unit):
        """What is wrong if all frames are played, or None."""
        channels = self.source.channels
        each = self.source.size * channels
        if len(other) != len(self.numbers) * each:
            return f"{len(other) // channels} samples of {len(self.numbers)} frames"
        for first, count, at in self.parts():
            edge = WARM_UP * channels if first else 0
            one, there = whole[first * each + edge : (first + count) * each], other[at * each + edge : (at + count) * each]
            if (off := farthest(one, there)) > unit:
                return f"a sample in the part from frame {first} on is {off} off"
        return None

    def wrong_in_played(self, decoder, other, played):
        """What is wrong if players play what delay and padding leave, or None. Without these they play all, but for what the decoder skips."""
        begin, end, channels = SKIPS[decoder], len(self.numbers) * self.source.size, self.source.channels
        if removed.numbers_of(self.source.data, self.source.found, self.numbers):
            first, last = removed.heard(*spans.played(self.source.data, self.source.found), self.source.size, self.numbers)
            begin, end = max(spans.DECODER_DELAY, first), last + 1
        is_so = played == other[begin * channels : end * channels]
        return None if is_so else f"{len(played) // channels} samples, not those from {begin} to {end}"

    def louder_by(self, whole, other):
        """For each joint that isn't too quiet by how many dB the loudest sample there is louder than that of the whole around both places that
        meet."""
        each, near, found = self.source.size * self.source.channels, AROUND * self.source.channels, []
        parts = self.parts()
        for (before, count, place), (first, _, at) in zip(parts, parts[1:]):
            own = peak(other[(place + count) * each - near : at * each + near])
            around = max(peak(whole[it * each - near : it * each + near]) for it in (before + count, first))
            if around > QUIETEST:
                found.append(20 * math.log10(max(own, 1) / around))
        return found


class Source:
    """A file out of which stretches are taken."""

    def __init__(self, file):
        self.file, self.data = file, file.read_bytes()
        self.found = frames.survey_of(self.data)
        self.size, self.channels = spans.samples_of(self.found), self.found.frames[0].channels


class Told:
    """What was found about files without stretches: how many there are, and so on; how many are right for each judge; the joints of each
    decoder; and what is wrong, with the judge or None."""

    def __init__(self):
        self.files = self.stretches = self.lead_ins = self.laws = 0
        self.right, self.louder, self.wrong = dict.fromkeys(joins.JUDGES, 0), {it: [] for it in exact.ROUNDS}, []

    def add(self, output, fault):
        self.files, self.stretches = self.files + 1, self.stretches + len(output.words) // 2
        self.lead_ins += output.numbers[1:].count(None)
        self.laws += output.pieces is not None
        self.judge(output, None, fault)

    def judge(self, output, judge, fault):
        if fault:
            self.wrong.append((judge, f"{' '.join(output.words)}: {judge or 'bytes'}: {fault}"))
        elif judge:
            self.right[judge] += 1

    def lines(self):
        yield f"{self.files} files without {self.stretches} stretches, {self.lead_ins} lead-ins between parts; {self.laws} beside those of pieces"
        yield ", ".join(f"{judge}: {right} right" for judge, right in self.right.items())
        for decoder, louder in self.louder.items():
            above = ", ".join(f"{sum(it > limit for it in louder)} by {limit}" for limit in (0.1, 1, LOUDEST))
            joints = sorted(louder) or [0]
            middle, last = joints[len(joints) // 2], joints[-1]
            yield f"{decoder}: {len(louder)} joints, louder by more than so many dB: {above}; median {middle:.1f}, at most {last:.1f}"


def tried(file, seed, told):
    """Adds what is found about the file without each list of stretches."""
    source = Source(Path(file).resolve())
    with tempfile.TemporaryDirectory() as folder:
        outputs = [Output(source, Path(folder, f"{at}.mp3"), words) for at, words in enumerate(removed.drawn(source.found, seed))]
        for it in outputs:
            told.add(it, it.fault())
        whole = Path(folder, "whole.mp3")
        whole.symlink_to(source.file)
        sounds = sounds_of([whole, *(it.path for it in outputs)])
        for it in outputs:
            for decoder, unit in exact.ROUNDS.items():
                all_of_it = sounds[f"{decoder}-all", whole], sounds[f"{decoder}-all", it.path]
                told.judge(it, f"{decoder}-all", it.wrong_in_all(*all_of_it, unit))
                told.judge(it, f"{decoder}-played", it.wrong_in_played(decoder, all_of_it[1], sounds[f"{decoder}-played", it.path]))
                told.louder[decoder] += it.louder_by(*all_of_it)
    return told


# ---- other ways

WAYS = {
    "frames": joins.WAYS["frames"],
    "mp3splt-cat": joins.WAYS["mp3splt-cat"],
    "mp3splt-x-cat": joins.WAYS["mp3splt-x-cat"],
    "copies": joins.WAYS["copies"],
}


def drawn_times(found, seed):
    """Two times in hundredths of a second, at least half a second apart and from both ends, at which frames begin."""
    size, frequency = spans.samples_of(found), found.frames[0].frequency
    last = len(found.frames) * size * 100 // frequency - 50
    times = [it for it in range(50, last) if it * frequency % (100 * size) == 0]
    chance = random.Random(int(seed))
    while True:
        first, end = sorted(chance.sample(times, 2))
        if end - first >= 50:
            return first, end


def taken_out(way, file, times, output):
    """Writes the file without what is between the times, in a way; whether that was done."""
    if way == "remove":
        return ran("remove", file, output, *map(exact.word_of, times))
    split, join = WAYS[way]
    pieces = split(file, times, output.parent)
    return bool(pieces) and len(pieces) == 3 and join([pieces[0], pieces[2]], output)


def compared(way, file, seed):
    """What each judge found, or None if a tool refuses."""
    file = Path(file).resolve()
    found = frames.survey_of(file.read_bytes())
    channels, frequency = found.frames[0].channels, found.frames[0].frequency
    times = drawn_times(found, seed)
    first, end = (it * frequency // 100 * channels for it in times)
    told = {}
    with tempfile.TemporaryDirectory() as name:
        output = Path(name) / "output.mp3"
        if not taken_out(way, file, times, output):
            return None
        for judge in joins.JUDGES:
            # What is played begins later than the first frame.
            start = spans.played(file.read_bytes(), found)[0] * channels if judge.endswith("played") else 0
            whole = joins.decoded(judge, file)
            wanted = whole[: first - start] + whole[end - start :]
            told[judge] = joins.beside(wanted, joins.decoded(judge, output), [0, first - start], exact.ROUNDS[judge.split("-")[0]], channels)
    return told


def main():
    words = sys.argv[1:]
    is_way = len(words) == 3 and words[0] in {"remove", *WAYS}
    if not is_way and (words[:1] != ["tried"] or len(words) < 3 or not set(words[3:]) <= set(joins.JUDGES)):
        sys.exit(__doc__)
    if not is_way:
        told = tried(*words[1:3], Told())
        wrong = [line for judge, line in told.wrong if judge is None or judge in words[3:]]
        print(*told.lines(), *wrong, sep="\n")
        return 1 if wrong or any(it > LOUDEST for louder in told.louder.values() for it in louder) else 0
    told = compared(*words)
    if told is None:
        sys.exit("it is refused")
    for judge, (missing, more, different, most) in told.items():
        print(f"{judge}: {missing} missing, {more} more, {different} different by up to {most}")
    return 0


if __name__ == "__main__":
    sys.exit(main())
