#!/usr/bin/env python3
"""Writes the frames of an MP3 file with all main data laid into new areas. It shares no code with the program that it helps to check.

  laid.py cut IN FROM TO OUT      writes OUT: the frames of IN from number FROM on and before TO, in their own slots
  laid.py least IN FROM TO OUT    the same, each frame in the smallest slot with which all main data have room
  laid.py pack IN OUT             all frames of IN in the slots of 'least', with the quality and the extension of its head
  laid.py constant B IN OUT       like 'pack', but only in slots of B kbit/s, for the lead-in too
  laid.py floor B IN OUT          like 'pack', but only in slots of at least B kbit/s
  laid.py best IN OUT             like 'pack', but in the slots that take the fewest bytes in all
  laid.py tried N                 compares the two ways to find the slots of 'best', for N random parts of one to four frames
  laid.py join OUT IN..           all frames of the inputs, in their own slots, with the lead-ins that each input needs by itself; the only tags
                                  kept are ID3v2 tags before the first frame of the first input

A slot is a bit rate and a padding bit. Of the lists of slots in which all main data have room, the lexicographically first by area is
taken; a lead-in, one silent frame, comes first if the frames alone have no such list. Main data begin as early as they
may, at most 511 bytes (MPEG-1) or 255 before the frame's own area (main_data_begin; ISO/IEC 11172-3 and 13818-3, 2.4.2.7). A frame
that frames.py calls lost has no main data here. With only some bit rates there may be no room: then the fault names the first
frame up to which there is none, even with the largest slots and a lead-in. The slots that take the fewest bytes are the list with
the least sum of areas, and among several such lists the lexicographically first. For few frames all lists are tried; for
more, a table has the least sums after each number of free bytes. The Info frame has the number of frames, the bytes of itself and all
frames, and how many 256ths of these bytes come before each hundredth of the frames. ID3v2 tags that were before the first frame
come first, and all other tags follow the frames.
"""
import itertools
import math
import random
import sys
from dataclasses import dataclass

sys.dont_write_bytecode = True
import frames  # noqa: E402

HEAD_BYTES = 156
SLOTS = [(index, padding) for index in range(1, 15) for padding in (0, 1)]
# Given instead of a list of slots: use the slots that take the fewest bytes.
BEST = "best"


def in_slot(header, slot, protected):
    """The frame with this header in this slot, with a check word or without."""
    index, padding = slot
    first = header[1] & 0xFE | (0 if protected else 1)
    return frames.Frame(bytes([header[0], first, header[2] & 0x0D | index << 4 | padding << 1, header[3]]), 0)


def slot_of(header):
    return header[2] >> 4, header[2] >> 1 & 1


@dataclass
class Need:
    """A frame to be laid: its header, its side information as a number, and its main data."""

    header: bytes
    side: int
    data: bytes

    def __post_init__(self):
        self.protected = not self.header[1] & 1

    def shapes(self, slots):
        """The frame in each of these slots, or in its own alone."""
        return [in_slot(self.header, slot, self.protected) for slot in slots or [slot_of(self.header)]]


def main_data(data, found):
    """The needs of all frames of a survey."""
    areas = [found.head] if found.head else []
    main = b"".join(data[it.side_end : it.end] for it in areas + found.frames)
    needs, place = [], found.head.area if found.head else 0
    for frame in found.frames:
        if frame.lost:
            needs.append(Need(frame.header, 0, b""))
        else:
            start, bits = place - frame.begin, frame.payload_bits
            payload = bytearray(main[start : start + (bits + 7) // 8])
            if bits % 8:
                payload[-1] &= 0xFF00 >> bits % 8
            needs.append(Need(frame.header, frame.side, bytes(payload)))
        place += frame.area
    return needs


def slots_with(header, allowed):
    """The slots whose bit rate is allowed."""
    return [slot for slot in SLOTS if allowed(in_slot(header, slot, False).rate)]


def judge_room(needs, slots, window):
    """Refuses the first frame up to which the main data have no room, even after a lead-in and in the largest slots."""
    free = min(window, max(in_slot(needs[0].header, slot, False).area for slot in slots))
    for number, need in enumerate(needs):
        room = free + max(it.area for it in need.shapes(slots))
        if room < len(need.data):
            raise frames.Unfit(f"frame {number} does not fit")
        free = min(window, room - len(need.data))


def reserves(needs, slots):
    """The free bytes that are needed before each frame and after the last."""
    found = [0]
    for need in reversed(needs):
        found.append(max(0, found[-1] + len(need.data) - max(it.area for it in need.shapes(slots))))
    return found[::-1]


def first_with(shapes, area):
    return next(it for it in shapes if it.area >= area)


def placed(parts, slots, lead_in_slots, led=False):
    """Shape, main_data_begin, side information and main data of each frame in one of the slots, or in its own if none are given. A lead-in
    comes before each part that needs one, or with `led` before every part. Slots may be given only for a single part."""
    window = (1 << frames.Frame(parts[0][0].header, 0).version.begin_bits) - 1
    found, free = [], 0
    for needs in parts:
        if slots:
            judge_room(needs, slots, window)
        wanted = reserves(needs, slots)
        if wanted[0] or led:
            shape = first_with([in_slot(needs[0].header, slot, False) for slot in lead_in_slots], wanted[0])
            found.append((shape, free, 0, b""))
            free = min(window, free + shape.area)
        for need, behind in zip(needs, wanted[1:]):
            shape = first_with(need.shapes(slots), len(need.data) + behind - free)
            found.append((shape, free, need.side, need.data))
            free = min(window, free + shape.area - len(need.data))
    return found


def has_room(areas, sizes, window, free=0):
    """Whether main data of these sizes have room in these areas, with `free` bytes free before the first."""
    free = min(window, free)
    for area, size in zip(areas, sizes):
        if free + area < size:
            return False
        free = min(window, free + area - size)
    return True


def best_by_trying(choices, sizes, window):
    """For each frame the index of one of its areas, which ascend, such that main data of these sizes have room: the list with the least sum,
    the first if there are several, or None if there is none. Every list is tried, in lexicographic order."""
    least, best = math.inf, None
    for places in itertools.product(*(range(len(it)) for it in choices)):
        areas = [it[at] for it, at in zip(choices, places)]
        if sum(areas) < least and has_room(areas, sizes, window):
            least, best = sum(areas), list(places)
    return best


def best_by_table(choices, sizes, window):
    """The same list, by a table of the least sums from each frame on, after each number of free bytes."""
    later, rows = [0] * (window + 1), []
    for areas, size in zip(reversed(choices), reversed(sizes)):
        sums, places = [], []
        for free in range(window + 1):
            least, place = math.inf, None
            for at, area in enumerate(areas):
                left = free + area - size
                if left >= 0 and area + later[min(left, window)] < least:
                    least, place = area + later[min(left, window)], at
                if left >= window:
                    break
            sums.append(least)
            places.append(place)
        rows.append(places)
        later = sums
    if later[0] == math.inf:
        return None
    best, free = [], 0
    for areas, size, places in zip(choices, sizes, reversed(rows)):
        best.append(places[free])
        free = min(window, free + areas[best[-1]] - size)
    return best


def best_placed(needs):
    """Like `placed`, for one part, in the slots that take the fewest bytes."""
    window = (1 << frames.Frame(needs[0].header, 0).version.begin_bits) - 1
    lead_in = Need(bytes([needs[0].header[0], needs[0].header[1] | 1]) + needs[0].header[2:], 0, b"")
    for front in [], [lead_in]:
        items = front + needs
        shapes = {it.header: it.shapes(SLOTS) for it in items}
        choices = [[it.area for it in shapes[need.header]] for need in items]
        search = best_by_trying if len(items) < 4 else best_by_table
        best = search(choices, [len(it.data) for it in items], window)
        if best is not None:
            break
    found, free = [], 0
    for need, at in zip(items, best):
        shape = shapes[need.header][at]
        found.append((shape, free, need.side, need.data))
        free = min(window, free + shape.area - len(need.data))
    return found


def try_parts(count):
    """Compares the two ways to find the best list, for `count` random parts of one to four frames, each with some areas of a class."""
    chance = random.Random(1)
    headers = [bytes.fromhex(it) for it in ("fffb9000", "fffa9000", "fffb94c0", "fff398c0", "fff290c0")]
    none = 0
    for number in range(count):
        header = chance.choice(headers)
        window = (1 << frames.Frame(header, 0).version.begin_bits) - 1
        areas = [it.area for it in Need(header, 0, b"").shapes(SLOTS)]
        frames_of_part = chance.randint(1, 4)
        many = (28, 28, 14, 8)[frames_of_part - 1]
        choices = [sorted(chance.sample(areas, many)) for _ in range(frames_of_part)]
        sizes = [chance.choice((0, chance.randint(0, 100), chance.randint(0, areas[-1] + window // 2))) for _ in choices]
        tried = best_by_trying(choices, sizes, window)
        none += tried is None
        if best_by_table(choices, sizes, window) != tried:
            sys.exit(f"part {number}: {choices}, {sizes}")
    print(f"{count} parts, of which {none} have no room")


def without_begin(frame, side):
    """The side information with main_data_begin 0."""
    return side & (1 << 8 * frame.side_size - frame.version.begin_bits) - 1


def laid(found):
    """The bytes of frames as they were placed."""
    main, place = bytearray(sum(it[0].area for it in found)), 0
    for shape, begin, _, data in found:
        main[place - begin : place - begin + len(data)] = data
        place += shape.area
    written, place = [], 0
    for shape, begin, side, _ in found:
        side = without_begin(shape, side) | begin << 8 * shape.side_size - shape.version.begin_bits
        word = shape.right_word(side).to_bytes(2, "big") if shape.protected else b""
        written.append(shape.header + word + side.to_bytes(shape.side_size, "big") + main[place : place + shape.area])
        place += shape.area
    return written


def info_frame(found, written, quality, extension):
    shape = first_with([in_slot(found[0][0].header, slot, False) for slot in SLOTS], HEAD_BYTES)
    starts = [shape.length]
    for frame in written:
        starts.append(starts[-1] + len(frame))
    count, total = len(written), starts[-1]
    text = b"Info" if len({it[0].rate for it in found}) == 1 else b"Xing"
    table = bytes(min(255, 256 * starts[i * count // 100] // total) for i in range(100))
    numbers = [it.to_bytes(4, "big") for it in (15, count, total)]
    head = text + b"".join(numbers) + table + quality + extension
    return shape.header + bytes(shape.side_size) + head + bytes(shape.area - len(head))


def text_of(data, head):
    """The offset of a head's text, 'Xing' or 'Info'."""
    ends = head.side_end, head.offset + 4 + head.side_size
    return next(it for it in sorted(ends) if data[it : it + 4] in (b"Xing", b"Info"))


def head_fields(data, head):
    """The quality and the extension of a head, or zeros."""
    quality, extension = bytes(4), bytes(36)
    if head is None:
        return quality, extension
    fields = data[text_of(data, head) : head.end]
    flags, place = int.from_bytes(fields[4:8], "big") if len(fields) >= 8 else 0, 8
    for bit, size in enumerate((4, 4, 100, 4)):
        if flags >> bit & 1:
            if bit == 3 and place + size <= len(fields):
                quality = fields[place : place + size]
            place += size
    return quality, (fields[place : place + 36] + extension)[:36]


def front_blocks(found):
    """The ID3v2 blocks before the head or the first frame."""
    begin = (found.head or found.frames[0]).offset
    return [it for it in found.blocks if it.kind == "ID3v2" and it.offset < begin]


def with_blocks(data, found, written):
    """These frames behind the ID3v2 blocks before the head or the first frame of a file, and then all its other blocks."""
    fronts = front_blocks(found)
    backs = [it for it in found.blocks if it not in fronts]
    return b"".join([*(data[it.offset : it.end] for it in fronts), *written, *(data[it.offset : it.end] for it in backs)])


def laid_file(data, found, first, end, slots, keeps_head=False):
    """The file of the frames from `first` on and before `end`, in these slots, in their own, or in the best ones; and the number of frames
    written."""
    quality, extension = head_fields(data, found.head if keeps_head else None)
    needs = main_data(data, found)[first:end]
    places = best_placed(needs) if slots == BEST else placed([needs], slots, slots or SLOTS)
    written = laid(places)
    return with_blocks(data, found, [info_frame(places, written, quality, extension), *written]), len(written)


def joined_file(files, surveys):
    """The file of all frames of these files, and the number of frames written."""
    places = placed([main_data(data, found) for data, found in zip(files, surveys)], None, SLOTS)
    written = laid(places)
    parts = [files[0][it.offset : it.end] for it in front_blocks(surveys[0])]
    parts += [info_frame(places, written, bytes(4), bytes(36)), *written]
    return b"".join(parts), len(written)


def menu_of(found, mode, rate):
    """The slots of the file's class in a mode of packing; none if the class doesn't have the bit rate."""
    header = found.frames[0].header
    if not slots_with(header, lambda it: it == rate):
        return []
    return slots_with(header, lambda it: it == rate if mode == "constant" else it >= rate)


def pack(mode, rate, name, output):
    found = frames.survey_of(frames.bytes_of(name))
    slots = menu_of(found, mode, int(rate))
    if not slots:
        sys.exit(f"no rate {int(rate)}")
    try:
        write(name, output, 0, None, slots, True)
    except frames.Unfit as it:
        sys.exit(str(it))


def write(name, output, first, end, slots, keeps_head):
    data = frames.bytes_of(name)
    new, count = laid_file(data, frames.survey_of(data), first, end, slots, keeps_head)
    frames.write(output, new)
    print(f"{len(data)} bytes, {len(new)} written, {count} frames")


def join(output, names):
    files = [frames.bytes_of(name) for name in names]
    new, count = joined_file(files, [frames.survey_of(data) for data in files])
    frames.write(output, new)
    print(f"{len(new)} written, {count} frames")


def main(words):
    if len(words) == 5 and words[0] in ("cut", "least"):
        write(words[1], words[4], int(words[2]), int(words[3]), SLOTS if words[0] == "least" else None, False)
    elif len(words) == 3 and words[0] == "pack":
        write(words[1], words[2], 0, None, SLOTS, True)
    elif len(words) == 4 and words[0] in ("constant", "floor"):
        pack(*words)
    elif len(words) == 3 and words[0] == "best":
        write(words[1], words[2], 0, None, BEST, True)
    elif len(words) == 2 and words[0] == "tried":
        try_parts(int(words[1]))
    elif len(words) > 2 and words[0] == "join":
        join(words[1], words[2:])
    else:
        sys.exit(__doc__)


if __name__ == "__main__":
    main(sys.argv[1:])
