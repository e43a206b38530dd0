#!/usr/bin/env python3
"""Reads damaged MP3 files. It shares no code with the program that it helps to check.

  damaged.py told FILE    what is read of the file: the head, blocks, frames and gaps in order of offset
  damaged.py text FILE    the lines that say what is missing: gaps and emptied frames in order of offset, and how many there are

If nothing is read, both print the reason ('no frame at O', 'too many frames at O', 'too long: N') and end with status 1.

The first frame is the usable one at the offset where the blocks and zero bytes at the front of the file end, or the first usable one
after it that is anchored. From there on usable frames, whole blocks and zero bytes are read, end to end. Where none of them follows, a
gap begins; it ends at the next usable frame that is anchored, or at the end of the file. A frame is usable if it is whole, of the first
frame's class, and its check word, if it has one, is right; the first may be a head with any check word. After each gap main data are
counted from 0 again. A frame becomes an empty one if its main data begin before that 0 or before the end of an earlier sound frame's main
data, or end after the frame's own area.
"""
import sys

from frames import LONGEST, MOST_FRAMES, Frame, block_at, header_at, is_anchored


class Refused(Exception):
    """Why nothing is read."""


def is_right(data, frame):
    """Whether the frame's check word is right, if it has one."""
    frame.read_side(data)
    return not frame.protected or frame.word == frame.right_word(frame.side)


def frame_at(data, at):
    """The whole frame at the offset, or None."""
    there = header_at(data, at)
    return there if isinstance(there, Frame) and there.end <= len(data) else None


def usable_at(data, at, kind):
    """The usable frame at the offset, or None: of this class, or as the first frame if no class is given."""
    frame = frame_at(data, at)
    if frame is None:
        return None
    if kind is None:
        return frame if frame.is_head(data) or is_right(data, frame) else None
    return frame if frame.kind == kind and is_right(data, frame) else None


def next_usable(data, at, kind):
    """The first usable frame that is anchored, at this offset or after it; or None."""
    while True:
        at = data.find(b"\xff", at)
        if at < 0:
            return None
        there = frame_at(data, at)
        if there and is_anchored(data, there) and usable_at(data, at, kind):
            return usable_at(data, at, kind)
        at += 1


def other_end(data, at, blocks):
    """The offset after the whole block or the zero byte at this offset, or None. A block is added to the blocks."""
    block = block_at(data, at)
    if block and block.end <= len(data):
        blocks.append(block)
        return block.end
    return at + 1 if data[at : at + 1] == b"\0" else None


def front_end(data, blocks):
    at = 0
    while (end := other_end(data, at, blocks)) is not None:
        at = end
    return at


def is_sound(frame, before, ended):
    start = before - frame.begin
    end = start + (frame.payload_bits + 7) // 8
    return frame.begin <= before and ended <= start and end <= before + frame.area


class Damaged:
    """What is read of a file."""

    def __init__(self, data):
        if len(data) > LONGEST:
            raise Refused(f"too long: {len(data)}")
        self.data, self.frames, self.gaps, self.blocks = data, [], [], []
        front = front_end(data, self.blocks)
        first = usable_at(data, front, None) or next_usable(data, front + 1, None)
        if first is None:
            raise Refused(f"no frame at {front}")
        if front < first.offset:
            self.gaps.append((front, first.offset - front))
        self.head = first if first.is_head(data) else None
        self.before, self.ended = (first.area if self.head else 0), 0
        self.walk(first.end if self.head else first.offset, first.kind)
        if not self.frames:
            raise Refused(f"no frame at {front}")

    def walk(self, at, kind):
        while at < len(self.data):
            frame = usable_at(self.data, at, kind)
            if frame:
                self.judge(frame)
                at = frame.end
                continue
            end = other_end(self.data, at, self.blocks)
            if end is None:
                there = next_usable(self.data, at + 1, kind)
                end = there.offset if there else len(self.data)
                self.gaps.append((at, end - at))
                self.before, self.ended = 0, 0
            at = end

    def judge(self, frame):
        if len(self.frames) == MOST_FRAMES:
            raise Refused(f"too many frames at {frame.offset}")
        frame.lost = not is_sound(frame, self.before, self.ended)
        if not frame.lost and frame.payload_bits:
            self.ended = self.before - frame.begin + (frame.payload_bits + 7) // 8
        self.before += frame.area
        self.frames.append(frame)

    def told(self):
        lines = [(self.head.offset, "head")] if self.head else []
        lines += [(it.offset, f"block: {it.end - it.offset}") for it in self.blocks]
        lines += [(it.offset, "empty frame" if it.lost else "frame") for it in self.frames]
        lines += [(at, f"gap: {size}") for at, size in self.gaps]
        return "".join(f"{at} {what}\n" for at, what in sorted(lines))

    def text(self):
        lines = [(at, f"gap at {at}: {size} bytes\n") for at, size in self.gaps]
        empty = [(it.offset, f"empty frame {number} at {it.offset}\n") for number, it in enumerate(self.frames) if it.lost]
        count = f"{len(self.frames)} frames, {len(self.gaps)} gaps, {len(empty)} empty\n"
        return "".join(line for _, line in sorted(lines + empty)) + count


def main(words):
    what, name = words
    with open(name, "rb") as file:
        data = file.read()
    try:
        found = Damaged(data)
    except Refused as it:
        print(it)
        return 1
    sys.stdout.write({"told": found.told, "text": found.text}[what]())
    return 0


if __name__ == "__main__":
    sys.exit(main(sys.argv[1:]))
