#!/usr/bin/env python3
"""Exact pieces of MP3 files: which samples players play, and which frames, delay and padding make them play only some. It shares no code
with the program that it helps to check.

  spans.py cut IN FROM TO OUT     writes OUT: the exact piece of IN from one place among its samples to another
  spans.py says IN                the delay and the padding in the head of IN, and how many samples are played

A frame has 1,152 positions, or 576 in MPEG-2 and MPEG-2.5. A head counts if it has a number of frames other than 0 and an extension
that begins with LAME, Lavf or Lavc. Players leave out the first delay + 529 positions and, if there are no more frames than the head says,
the last padding - 529 positions of the frames that it says. To play a position a decoder needs the granule before the one with the position
480 earlier, and all granules from there on; so a piece begins with the frame of the position 1,056 before its first. A lead-in, one silent
frame, comes first if main data have no room otherwise, or if the first position is before 529. The head's area holds no main data here: a
frame whose main data begin in it is lost if all earlier frames are silent or lost. A place among the samples is a position as in `cut`, with
frames counted as time; digits and `samples`; M.SS.mmm; a decimal number of seconds and `s`; or EOF- and M.SS, M.SS.hh, M.SS.mmm or such
seconds.
"""
import copy
import re
import sys
from dataclasses import replace

sys.dont_write_bytecode = True
import fades  # noqa: E402
import frames  # noqa: E402
import laid  # noqa: E402

DECODER_DELAY = 529
# The greatest delay or padding: each has 12 bits.
MOST = 4095
WARM_UP = 576 + 480
ENCODERS = (b"LAME", b"Lavf", b"Lavc")


class Fault(Exception):
    """What the program's line says about two places."""


# ---- places


def millis(word, pattern):
    """A time in thousandths of a second, or None."""
    time = re.fullmatch(r"([0-9]{1,4})\.([0-9]{1,2})" + pattern, word)
    if not time or int(time[2]) > 59:
        return None
    return 1000 * (60 * int(time[1]) + int(time[2])) + int(((time[3] or "") + "000")[:3])


def seconds(word):
    """A decimal number of seconds and `s`, in thousandths; or None."""
    time = re.fullmatch(r"([0-9]{1,6})(?:\.([0-9]{1,3}))?s", word)
    return 1000 * int(time[1]) + int(((time[2] or "") + "000")[:3]) if time else None


def exact_place(word):
    """The kind of a place among the samples, and its value; or None."""
    if fades.place(word) is not None:
        return "position", fades.place(word)
    if re.fullmatch(r"[0-9]{1,10}samples", word) and int(word[:-7]) < 2**32:
        return "sample", int(word[:-7])
    for time in (millis(word, r"\.([0-9]{3})"), seconds(word)):
        if time is not None:
            return "time", time
    if word.startswith("EOF-"):
        for time in (millis(word[4:], r"(?:\.([0-9]{2,3}))?"), seconds(word[4:])):
            if time is not None:
                return "back", time
    return None


def samples_of(found):
    """The samples of a frame in each channel."""
    return 576 * found.frames[0].version.granules


def number_of(place, found, length):
    """The number of the sample that a place names, in a file that plays `length` samples."""
    what, it = place
    frequency = found.frames[0].frequency
    if what == "position":
        if it == "EOF":
            return length
        return it * samples_of(found) if isinstance(it, int) else it[0] * frequency // it[1]
    if what == "sample":
        return it
    time = it * frequency // 1000
    return time if what == "time" else max(0, length - time)


# ---- what a head says


def counts_of(data, head):
    """The frames, the delay and the padding of a head that counts, or None."""
    if head is None:
        return None
    fields = data[laid.text_of(data, head) : head.end]
    flagged = len(fields) >= 12 and fields[7] & 1
    count = int.from_bytes(fields[8:12], "big") if flagged else 0
    extension = laid.head_fields(data, head)[1]
    if count == 0 or extension[:4] not in ENCODERS:
        return None
    numbers = int.from_bytes(extension[21:24], "big")
    return count, numbers >> 12, numbers & 0xFFF


def played(data, found):
    """The first position that is played, and the one after the last."""
    count, size = len(found.frames), samples_of(found)
    counts = counts_of(data, found.head)
    if counts is None:
        return 0, count * size
    counted, delay, padding = counts
    end = count * size
    if counted >= count:
        end = min(end, max(0, counted * size + DECODER_DELAY - padding))
    return delay + DECODER_DELAY, end


# ---- the frames


def apart(found):
    """The survey in which frames are also lost if their main data begin in the head and all earlier frames are silent or lost."""
    if found.head is None:
        return found
    rows, before, leading = [], 0, True
    for frame in found.frames:
        new = copy.copy(frame)
        new.lost = leading and frame.begin > before
        leading = leading and (new.lost or frame.payload_bits == 0)
        before += frame.area
        rows.append(new)
    return replace(found, frames=rows)


def range_of(data, found, places):
    """The positions of two places; refuses them if there is no piece between them."""
    start, end = played(data, found)
    length = max(0, end - start)
    a, b = (number_of(it, found, length) for it in places)
    if not a < b <= length:
        raise Fault(f"range {a} to {b} of {length} samples")
    return start + a, start + b


def frames_for(found, p, q):
    """The numbers of the first frame that is needed for the positions from p on and before q, and of the frame after the last."""
    size = samples_of(found)
    return max(0, p - WARM_UP) // size, -(-q // size)


def tag_crc(data):
    """CRC-16/ARC, in reversed bits."""
    word = 0
    for byte in data:
        word ^= byte
        for _ in range(8):
            word = word >> 1 ^ (0xA001 if word & 1 else 0)
    return word


def sealed(frame, side_size):
    """The Info frame with its number of bytes as the music length, and with its tag CRC."""
    text = 4 + side_size
    frame = frame[: text + 148] + frame[text + 12 : text + 16] + frame[text + 152 :]
    return frame[: text + 154] + tag_crc(frame[: text + 154]).to_bytes(2, "big") + frame[text + 156 :]


def numbered_info(places, written, quality, old, delay, padding):
    """The Info frame of these frames, with the rest of its extension as it was."""
    extension = old[:21] + (delay << 12 | padding).to_bytes(3, "big") + old[24:28] + bytes(8)
    return sealed(laid.info_frame(places, written, quality, extension), places[0][0].side_size)


def piece_of(data, found, p, q):
    """The file of which players play exactly the positions from p on and before q."""
    own, size = apart(found), samples_of(found)
    first, end = frames_for(found, p, q)
    needs = laid.main_data(data, own)[first:end]
    places = laid.placed([needs], None, laid.SLOTS, led=p < DECODER_DELAY)
    written = laid.laid(places)
    lead_ins = len(written) - len(needs)
    delay = lead_ins * size + p - first * size - DECODER_DELAY
    padding = end * size - q + DECODER_DELAY
    quality, old = laid.head_fields(data, found.head)
    if old[:4] not in ENCODERS:
        old = b"LAME" + bytes(32)
    return laid.with_blocks(data, found, [numbered_info(places, written, quality, old, delay, padding), *written])


# ---- the command


def cut(name, first, last, output):
    data = frames.bytes_of(name)
    found = frames.survey_of(data)
    p, q = range_of(data, found, [exact_place(first), exact_place(last)])
    new = piece_of(data, found, p, q)
    frames.write(output, new)
    print(f"{len(data)} bytes, {len(new)} written, positions {p} to {q}")


def says(name):
    data = frames.bytes_of(name)
    found = frames.survey_of(data)
    start, end = played(data, found)
    print(*(counts_of(data, found.head) or (0, 0, 0))[1:], max(0, end - start))


def main(words):
    if len(words) == 5 and words[0] == "cut":
        cut(*words[1:])
    elif len(words) == 2 and words[0] == "says":
        says(words[1])
    else:
        sys.exit(__doc__)


if __name__ == "__main__":
    try:
        main(sys.argv[1:])
    except (Fault, frames.Refused) as it:
        sys.exit(f"refused: {it}")
