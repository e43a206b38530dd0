#!/usr/bin/env python3
"""Fades of MP3 files by a sheet. It shares no code with the program that it helps to check.

  fades.py faded IN SHEET WAY OUT        writes OUT: IN with the gains of each frame moved by its steps, or by as many the other way (WAY is
                                         'there' or 'back'), except silent ones and those of lost frames, with right check words, without junk
  fades.py levels IN SHEET BEFORE AFTER  BEFORE and AFTER are what a decoder makes of IN and of the faded file: 32-bit floats, no sample left
                                         out. The level of each frame has to be what its steps say within 0.1 dB; if earlier frames that overlap
                                         it have other steps, it may be anywhere between what all these steps say, within 0.1 dB
  fades.py table IN SHEET BEFORE AFTER OTHER SECONDS     prints rows of a table, one for each quarter of a second of the fade: the steps, the
                                         levels of AFTER and of OTHER against BEFORE in dB, and the difference between the two; status 1 if the
                                         difference is 1.7 dB or more anywhere

A point of a sheet is a position (a frame, a time or EOF) and a number of steps of 1.5 dB, each a factor of 2 to the power of 1/4. Between
points the steps are interpolated linearly and rounded toward zero.
"""
import array
import math
import re
import sys
from fractions import Fraction

sys.dont_write_bytecode = True
import frames  # noqa: E402

MOST_POINTS = 1000
# A level quieter than this, 100 dB below full scale, isn't measured.
LEAST = 1e-5


class Fault(Exception):
    """What the program's line says after the name of the sheet."""


# ---- positions


def place(word):
    """A frame's number, a pair of a time and of its units in a second, or 'EOF'; or None."""
    time = re.fullmatch(r"([0-9]{1,4})\.([0-9]{1,2})(?:\.([0-9]{1,2}))?", word)
    if time and int(time[2]) < 60:
        return (60 * int(time[1]) + int(time[2])) * 100 + int(time[3] or 0), 100
    if re.fullmatch(r"[0-9]{1,7}", word):
        return int(word)
    return word if word == "EOF" else None


def frame_at(place, found):
    first = found.frames[0]
    if place == "EOF":
        return len(found.frames)
    if isinstance(place, int):
        return place
    time, parts = place
    return time * first.frequency // (parts * 576 * first.version.granules)


# ---- sheets


def point_of(words):
    """The position and the steps in the words of a line, or None."""
    if len(words) != 2 or not re.fullmatch(rb"[+-]?[0-9]{1,3}", words[1]) or abs(int(words[1])) > 255:
        return None
    # A word with bytes outside ASCII is no position.
    where = place(words[0].decode("latin-1")) if words[0].isascii() else None
    return None if where is None else (where, int(words[1]))


def points_of(sheet):
    """The points, each with the number of its line."""
    points = []
    for number, line in enumerate(sheet.removeprefix(b"\xef\xbb\xbf").split(b"\n"), 1):
        words = [it for it in re.split(rb"[ \t]+", line.removesuffix(b"\r")) if it]
        if not words or words[0].startswith(b"#"):
            continue
        point = point_of(words)
        if point is None or len(points) == MOST_POINTS:
            raise Fault(f"bad line {number}")
        points.append((number, *point))
    if not points:
        raise Fault("no points")
    return points


def curve_of(sheet, found):
    """The points as pairs of frame number and steps."""
    curve = []
    for number, where, steps in points_of(sheet):
        frame = frame_at(where, found)
        if curve and frame <= curve[-1][0]:
            raise Fault(f"not rising at line {number}")
        curve.append((frame, steps))
    return curve


def steps_at(curve, frame):
    (first, steps), (last, end) = curve[0], curve[-1]
    if frame <= first:
        return steps
    if frame >= last:
        return end
    for (f1, s1), (f2, s2) in zip(curve, curve[1:]):
        if f1 <= frame < f2:
            # int() rounds toward zero.
            return int(s1 + Fraction((s2 - s1) * (frame - f1), f2 - f1))


def all_steps(sheet, found, back):
    """The steps of each frame."""
    curve = curve_of(sheet, found)
    return [-it if back else it for it in (steps_at(curve, number) for number in range(len(found.frames)))]


def fade(data, found, steps):
    """The file with the gains of each frame moved by its own steps, on both channels."""
    return frames.with_steps(data, found, [(it, it) for it in steps], False, None)


def faded(name, sheet, way, output):
    data = frames.bytes_of(name)
    found = frames.survey_of(data)
    frames.write(output, fade(data, found, all_steps(frames.bytes_of(sheet), found, way == "back")))


# ---- sound


def floats(name):
    values = array.array("f", frames.bytes_of(name))
    if sys.byteorder == "big":
        values.byteswap()
    return values


def power(values, at, end):
    """The mean square of a stretch."""
    return sum(it * it for it in values[at:end]) / max(end - at, 1)


def level(before, after, at, end):
    """By how many dB a stretch is louder after than before, or None if it is too quiet to say."""
    a, b = power(before, at, end), power(after, at, end)
    return 10 * math.log10(b / a) if min(a, b) > LEAST**2 else None


def dB(steps):
    return steps * 20 * math.log10(2) / 4


def levels(name, sheet, before, after):
    found = frames.survey_of(frames.bytes_of(name))
    steps = all_steps(frames.bytes_of(sheet), found, False)
    a, b = floats(before), floats(after)
    granules, each = found.frames[0].version.granules, len(a) // len(found.frames)
    # A granule's samples depend on it and on the two granules before it: it overlaps one, and the filter bank holds 480 samples.
    reach = -(-2 // granules)
    measured, held, between, farthest = 0, 0.0, 0.0, set()
    for number in range(len(steps)):
        near = steps[max(number - reach, 0) : number + 1]
        found_level = level(a, b, number * each, (number + 1) * each)
        if found_level is None:
            continue
        measured += 1
        outside = max(min(map(dB, near)) - found_level, found_level - max(map(dB, near)), 0)
        if len(set(near)) == 1:
            held = max(held, outside)
            farthest.add(near[0])
        else:
            between = max(between, outside)
    print(
        f"{len(steps)} frames, {measured} measured; steps that hold for a while from {min(farthest, default=0)} to {max(farthest, default=0)}, "
        f"farthest {held:.4f} dB; from one to the next farthest outside {between:.4f} dB"
    )
    if len(a) != len(b) or held > 0.1 or between > 0.1 or measured < len(steps) // 2 or not farthest:
        sys.exit(1)


def table(name, sheet, before, after, other, seconds):
    found = frames.survey_of(frames.bytes_of(name))
    steps = all_steps(frames.bytes_of(sheet), found, False)
    first = found.frames[0]
    a, b, c = floats(before), floats(after), floats(other)
    each, worst = 576 * first.version.granules, 0
    for quarter in range(1, 4 * int(seconds) + 1):
        # A twentieth of a second around the time.
        at = first.channels * (quarter * first.frequency // 4 - first.frequency // 40)
        end = at + first.channels * (first.frequency // 20)
        ours, theirs = level(a, b, at, end), level(a, c, at, end)
        if ours is None or theirs is None:
            continue
        worst = max(worst, abs(ours - theirs))
        number = quarter * first.frequency // (4 * each)
        print(f"| {quarter / 4:.2f} | {steps[number]} | {dB(steps[number]):.1f} | {ours:.1f} | {theirs:.1f} | {ours - theirs:+.1f} |")
    if worst >= 1.7:
        sys.exit(1)


COMMANDS = {"faded": (faded, 4), "levels": (levels, 4), "table": (table, 6)}

if __name__ == "__main__":
    call, count = COMMANDS.get(sys.argv[1] if sys.argv[1:] else "", (None, 0))
    if not call or len(sys.argv) != count + 2:
        sys.exit(__doc__)
    try:
        call(*sys.argv[2:])
    except (frames.Refused, frames.Unfit, Fault) as it:
        sys.exit(f"refused: {it}")
