#!/usr/bin/env python3
"""Files joined without seams, as 'mp3edit join --seamless' joins them. It shares no code with the program that it helps to check.

  seams.py join OUT IN..          writes OUT: the inputs joined in this order; and says for each input from the second on what is left out of
                                  it, and how many of its other frames are lost

The frames are written as one part. As in spans.py, a frame whose main data begin in the head is lost. Each input except the first loses
frames at its front by the first of these rules that applies. It follows: its head and that of the input before it count, and if its first
played position comes right after the last one played of that input, the two overlap by a whole number of frames. These frames go if the
last of them, from the one in which playing begins but at least one, are like the last frames written, and the other frames have room.
Its lead-in goes: the first frame, if its side information is all 0, its header is that of a lead-in for the other frames, and these need
one by themselves but have room here without it. Otherwise the input stays whole. The first frame written of an input may get a larger slot
than its own: the smallest in which all frames have room, with 511 bytes (MPEG-1) or 255 free before the first of all. Finally the lead-in
of the first input goes if the other frames need one, and a lead-in for all frames comes instead.

Frames are alike if they differ only in their slots, main_data_begin and gains. Delay and padding are such that the samples played begin
with those of the first input and end with those of the last, if the head of the first counts and the delay fits in 12 bits.
"""
import sys
from dataclasses import dataclass, replace

sys.dont_write_bytecode = True
import frames  # noqa: E402
import laid  # noqa: E402
import spans  # noqa: E402

# Peak and ReplayGain in the extension of a head.
LOUDNESS = slice(11, 19)


@dataclass
class Input:
    """A file to be joined: its bytes, its survey, in which frames whose main data begin in the head are lost, and each frame's need."""

    name: str
    data: bytes
    found: frames.Survey

    def __post_init__(self):
        self.found = spans.apart(self.found)
        self.needs = laid.main_data(self.data, self.found)
        self.counts = spans.counts_of(self.data, self.found.head) is not None
        self.start, end = spans.played(self.data, self.found)
        self.rest = len(self.needs) * self.samples - end

    @property
    def samples(self):
        return spans.samples_of(self.found)

    def alike(self):
        """The part of each frame that is compared."""
        return [alike_part(need, frame) for need, frame in zip(self.needs, self.found.frames)]

    def lost_text(self, count):
        """What is said of the lost frames behind the first `count`."""
        lost = sum(frame.lost for frame in self.found.frames[count:])
        return f", {lost} frames lost" if lost else ""


def alike_part(need, frame):
    """The header without its slot, the side information without main_data_begin and gains, and the main data."""
    side = laid.without_begin(frame, need.side)
    for it in frame.granules:
        side &= ~(0xFF << it.behind)
    return need.header[:2] + bytes([need.header[2] & 0x0D]) + need.header[3:], side, need.data


def window_of(needs):
    return (1 << frames.Frame(needs[0].header, 0).version.begin_bits) - 1


def fits(needs, free):
    """Whether the frames have room in their own slots, with `free` bytes free before the first."""
    areas = [it.shapes(None)[0].area for it in needs]
    return not needs or laid.has_room(areas, [len(it.data) for it in needs], window_of(needs), free)


def in_slot(need, slot):
    return replace(need, header=laid.in_slot(need.header, slot, need.protected).header)


def joining(run, needs):
    """The frames as they come after those written so far, the first in the smallest slot that leaves room; or None if no slot does."""
    if not needs:
        return []
    for slot in laid.SLOTS[laid.SLOTS.index(laid.slot_of(needs[0].header)) :]:
        moved = [in_slot(needs[0], slot), *needs[1:]]
        if fits(run + moved, window_of(needs)):
            return moved
    return None


def lead_in_header(needs):
    """The header of a lead-in for these frames."""
    shapes = (laid.in_slot(needs[0].header, slot, False) for slot in laid.SLOTS)
    return next(it.header for it in shapes if fits(needs, it.area))


def has_header_of_lead_in(needs):
    """Whether the first frame has the header of a lead-in for the others."""
    first, *others = needs
    return bool(others) and first.header == lead_in_header(others)


def has_lead_in(source):
    return source.found.frames[0].side == 0 and has_header_of_lead_in(source.needs)


def following(before, source, written):
    """How many frames of an input go because it follows the one before it, or None. `written` has what is compared of all frames written."""
    if not before.counts or not source.counts or (source.start + before.rest) % source.samples:
        return None
    count = (source.start + before.rest) // source.samples
    first = min(source.start // source.samples, count - 1)
    if count > len(source.needs) or count - first > len(written):
        return None
    return count if source.alike()[first:count] == written[len(written) - (count - first) :] else None


def decided(before, source, run, written):
    """For an input after the first: what is said about it, how many frames go, and the others as they are written."""
    count = following(before, source, written)
    moved = None if count is None else joining(run, source.needs[count:])
    if moved is not None:
        return f"follows, {count} frames left out", count, moved
    if has_lead_in(source) and not fits(source.needs[1:], 0):
        moved = joining(run, source.needs[1:])
        if moved is not None:
            return "lead-in left out", 1, moved
    return "whole", 0, joining(run, source.needs)


def run_of(inputs):
    """The frames that are written; how many go at the front of each input; and the lines that say so."""
    run, written, out, lines = list(inputs[0].needs), inputs[0].alike(), [0], []
    for before, source in zip(inputs, inputs[1:]):
        said, count, moved = decided(before, source, run, written)
        run += moved
        written += source.alike()[count:]
        out.append(count)
        lines.append(f"{source.name}: {said}{source.lost_text(count)}")
    if has_lead_in(inputs[0]) and not fits(run[1:], 0):
        run, out[0] = run[1:], 1
    return run, out, lines


def extension_of(source):
    return laid.head_fields(source.data, source.found.head)[1]


def kept_extension(inputs):
    """The extension of the first input's head, with peak and ReplayGain only if all inputs have the same."""
    old = extension_of(inputs[0])
    if all(it.counts and extension_of(it)[LOUDNESS] == old[LOUDNESS] for it in inputs):
        return old
    return old[: LOUDNESS.start] + bytes(8) + old[LOUDNESS.stop :]


def joined_file(inputs):
    """The file; how many frames go at the front of each input; and the lines."""
    run, out, lines = run_of(inputs)
    first = inputs[0]
    places = laid.placed([run], None, laid.SLOTS)
    written = laid.laid(places)
    delay = first.start + (len(written) - len(run) - out[0]) * first.samples - spans.DECODER_DELAY
    if first.counts and delay <= spans.MOST:
        quality = laid.head_fields(first.data, first.found.head)[0]
        info = spans.numbered_info(places, written, quality, kept_extension(inputs), delay, inputs[-1].rest + spans.DECODER_DELAY)
    else:
        info = laid.info_frame(places, written, bytes(4), bytes(36))
    parts = [first.data[it.offset : it.end] for it in laid.front_blocks(first.found)]
    return b"".join([*parts, info, *written]), out, lines


def main(words):
    if len(words) < 3 or words[0] != "join":
        sys.exit(__doc__)
    files = [frames.bytes_of(name) for name in words[2:]]
    new, _, lines = joined_file([Input(name, data, frames.survey_of(data)) for name, data in zip(words[2:], files)])
    frames.write(words[1], new)
    for it in lines:
        print(it)


if __name__ == "__main__":
    try:
        main(sys.argv[1:])
    except frames.Refused as it:
        sys.exit(f"refused: {it}")
