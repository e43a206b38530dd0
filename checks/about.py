#!/usr/bin/env python3
"""What `mp3edit info` says about MP3 files. It shares no code with the program that it helps to check.

  about.py info FILE              what 'mp3edit info FILE' sends to standard output
  about.py ends FILE              the lowest and the highest gain, including those of silent granules but not those of lost frames

The payload of a frame is the length of its main data in bytes; a lost frame has none. The areas, including the head's, are where main data
can be. The head has a number if the number's flag is set and its field is whole. Delay and padding are shown if the head counts (see
spans.py). The gains that move are those of granules with main data, in frames that aren't lost; they can move by as many steps as keep each
of them in 0 to 255.
"""
import sys

sys.dont_write_bytecode = True
import frames  # noqa: E402
import laid  # noqa: E402
import spans  # noqa: E402


def numbers_of(data, head):
    """The numbers of frames and of bytes that a head has, each None if the head doesn't have it."""
    fields = data[laid.text_of(data, head) : head.end]
    flags = int.from_bytes(fields[4:8], "big") if len(fields) >= 8 else 0
    said, at = [None, None], 8
    for bit in (0, 1):
        if not flags >> bit & 1:
            continue
        if at + 4 > len(fields):
            break
        said[bit] = int.from_bytes(fields[at : at + 4], "big")
        at += 4
    return said


def head_lines(data, found):
    if found.head is None:
        return ["no head"]
    text = laid.text_of(data, found.head)
    count, size = numbers_of(data, found.head)
    line = f"{data[text : text + 4].decode('ascii')} head"
    line += "" if count is None else f", {count} frames"
    line += "" if size is None else f", {size} bytes"
    there = len(found.frames), found.head.length + sum(it.length for it in found.frames)
    is_right = count in (None, there[0]) and size in (None, there[1])
    return [line] if is_right else [line, f"but {there[0]} frames, {there[1]} bytes are here"]


def played_line(data, found):
    counts = spans.counts_of(data, found.head)
    start, end = spans.played(data, found)
    numbers = f"delay {counts[1]}, padding {counts[2]}, " if counts else ""
    return f"{numbers}plays {max(0, end - start)} samples"


def gains_of(found, channels):
    """Those gains of these channels that move."""
    return [it.gain for frame in found.frames for it in frame.moving() if it.channel in channels]


def gain_lines(found):
    names = {"mono": [0]} if found.frames[0].channels == 1 else {"left": [0], "right": [1], "both": [0, 1]}
    lines = []
    for name, channels in names.items():
        gains = gains_of(found, channels)
        ends = f"gains {min(gains)} to {max(gains)}, " if gains and name != "both" else ""
        steps = f"steps -{min(gains)} to +{255 - max(gains)}" if gains else "no gains"
        lines.append(f"{name}: {ends}{steps}")
    return lines


def lines_of(data, found):
    first = found.frames[0]
    lost = sum(it.lost for it in found.frames)
    time = frames.time_of(len(found.frames) * spans.samples_of(found), first.frequency)
    rates = [it.rate for it in found.frames]
    payload = sum(-(-it.payload_bits // 8) for it in found.frames if not it.lost)
    areas = (found.head.area if found.head else 0) + sum(it.area for it in found.frames)
    lines = [f"{first.version.name}, {first.frequency} Hz, {first.channels} channels"]
    lines.append(f"{len(found.frames)} frames, {lost} lost, {time}")
    lines.append(f"{min(rates)} kbit/s" if min(rates) == max(rates) else f"{min(rates)} to {max(rates)} kbit/s")
    lines.append(f"{payload} of {areas} bytes are main data")
    return [*lines, *head_lines(data, found), played_line(data, found), *gain_lines(found)]


def info(name):
    data = frames.bytes_of(name)
    print(*lines_of(data, frames.survey_of(data)), sep="\n")


def ends(name):
    found = frames.survey_of(frames.bytes_of(name))
    gains = [it.gain for frame in found.frames for it in frame.granules if not frame.lost]
    print(min(gains), max(gains))


if __name__ == "__main__":
    call = {"info": info, "ends": ends}.get(sys.argv[1] if sys.argv[1:] else "")
    if not call or len(sys.argv) != 3:
        sys.exit(__doc__)
    try:
        call(sys.argv[2])
    except frames.Refused as it:
        sys.exit(f"refused: {it}")
