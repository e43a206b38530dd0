#!/usr/bin/env python3
"""Reads MP3 files (Layer III of MPEG-1, MPEG-2 and MPEG-2.5). It shares no code with the program that it helps to check.

  frames.py survey FILE            what is in the file; or why it is refused, with status 1
  frames.py list FILE              what 'mp3edit list FILE' sends to standard output
  frames.py heard LISTING WAV      compares the last line of a listing with what mpg123 decoded of the file, no sample left out
  frames.py counted LISTING HZ,CHANNELS,PACKETS   compares the last line of a listing with what ffprobe says about the file
  frames.py refusal FILE           for a file that is refused: what the program's line says after the name
  frames.py past FILE N            'gain V out of range at O, granule G, channel C' for the first gain that N steps take out of 0 to 255
  frames.py ends FILE              the lowest and the highest gain, except silent ones and those of lost frames
  frames.py moved IN N OUT         writes OUT: IN with each gain moved by N steps, except silent ones and those of lost frames, with right
                                   check words, and without junk; and says what is in IN
  frames.py wrapped IN C N OUT     like 'moved', but gains wrap, and only those of channel C (0 or 1) move, or those of 'both'
  frames.py noted IN C N W OUT     like 'wrapped', with the change noted in the tag; gains wrap if W is 'W', and don't if it is 'N'
  frames.py undone IN OUT          writes OUT: IN with all changes that its tag notes undone, and without the note
  frames.py items FILE             the items of the tag, one on each line: KEY: VALUE
  frames.py note FILE              the value of the undo item
  frames.py stripped IN OUT        writes OUT: IN without its tag
  frames.py without-junk IN OUT    writes OUT: IN without the bytes between its blocks and its first frame
  frames.py spoilt IN PLACE OUT    writes OUT: IN with a wrong check word in its 'first' or 'last' frame
  frames.py differ A B N           says where A and B differ; status 1 unless B is A with only the gains of silent granules and of lost
                                   frames moved by N steps, and with the check words that are right for them
  frames.py sounds WHOLE LISTING FROM TO WAV   the file that WAV was decoded from has this listing: at most one lead-in, and the frames of WHOLE
                                   from FROM on and before TO. They sound as in WHOLE, within 1; unless FROM is 0, the first granule and the 480
                                   samples after it don't count
  frames.py beside WAV LISTING FROM TO BEGIN OTHER   the file that WAV was decoded from has this listing: at most one lead-in, and the frames of a
                                   stream from FROM on and before TO. From sample BEGIN of the stream on they sound like OTHER, within 1
  frames.py decoded A B FACTOR     compares two WAV files of 16 bits: B is A times FACTOR, within rounding, and A is not silent

The layout of frames is that of ISO/IEC 11172-3 and 13818-3, 2.4.1 and 2.4.2; blocks are ID3v2, ID3v1 and APEv2 tags. The tag is the first
APEv2 block. Its item MP3GAIN_UNDO has the steps that undo all changes, left and right, and W if gains wrap. A granule of a channel is silent
if its part2_3_length is 0. The main data bytes of a file are the areas of its frames (what is left of a frame after header, check word and
side information) end to end; a frame's main data begin main_data_begin bytes before its own area there. A frame is lost if that is before
the first area, and no earlier frame has main data, except lost ones: a program that cuts at frames leaves such frames.
"""
import array
import re
import sys
import wave
from dataclasses import dataclass, field, replace

MODES = ("stereo", "joint", "dual", "mono")
MOST_JUNK = 65_536
LONGEST = 1_073_741_824
MOST_FRAMES = 2_900_000


@dataclass(frozen=True)
class Version:
    """How the versions differ. Pairs are for one channel and for two."""

    name: str
    rates: tuple  # kbit/s
    frequencies: tuple  # Hz
    factor: int  # of a frame's length
    side_size: tuple  # bytes
    begin_bits: int  # of main_data_begin
    front_bits: tuple  # before the granules
    granules: int
    granule_bits: int


MPEG_1 = Version(
    name="MPEG-1",
    rates=(32, 40, 48, 56, 64, 80, 96, 112, 128, 160, 192, 224, 256, 320),
    frequencies=(44100, 48000, 32000),
    factor=144,
    side_size=(17, 32),
    begin_bits=9,
    front_bits=(18, 20),
    granules=2,
    granule_bits=59,
)
MPEG_2 = Version(
    name="MPEG-2",
    rates=(8, 16, 24, 32, 40, 48, 56, 64, 80, 96, 112, 128, 144, 160),
    frequencies=(22050, 24000, 16000),
    factor=72,
    side_size=(9, 17),
    begin_bits=8,
    front_bits=(9, 10),
    granules=1,
    granule_bits=63,
)

# The side information and the bit rates of MPEG-2, at half its frequencies.
MPEG_2_5 = replace(MPEG_2, name="MPEG-2.5", frequencies=(11025, 12000, 8000))


class Refused(Exception):
    """What the program's line says after the name of the file."""


class Unfit(Exception):
    """What the program's line says if it names no file, since the change can't be made."""


def check_word(data):
    """The CRC with x^16 + x^15 + x^2 + 1, starting with all ones (ISO/IEC 11172-3, 2.4.3.1)."""
    word = 0xFFFF
    for byte in data:
        for bit in range(7, -1, -1):
            carry = word >> 15 ^ byte >> bit & 1
            word = word << 1 & 0xFFFF ^ 0x8005 * carry
    return word


# ---- what is at an offset


@dataclass
class Granule:
    """One granule of a channel: part2_3_length, global_gain, and how many bits of the side information follow the gain."""

    granule: int
    channel: int
    length: int
    gain: int
    behind: int


class Frame:
    """A Layer III frame at an offset, as its header says."""

    def __init__(self, header, offset):
        self.offset = offset
        self.header = header
        self.version = MPEG_1 if header[1] & 8 else MPEG_2 if header[1] & 16 else MPEG_2_5
        self.protected = not header[1] & 1
        self.rate = self.version.rates[(header[2] >> 4) - 1]
        self.frequency = self.version.frequencies[header[2] >> 2 & 3]
        self.mode = MODES[header[3] >> 6]
        self.channels = 1 if self.mode == "mono" else 2
        self.kind = self.version, self.frequency, self.channels
        padding = header[2] >> 1 & 1
        self.padded = padding == 1
        self.length = 1000 * self.version.factor * self.rate // self.frequency + padding
        self.end = offset + self.length
        self.side_at = offset + (6 if self.protected else 4)
        self.side_size = self.version.side_size[self.channels - 1]
        self.side_end = self.side_at + self.side_size
        self.area = self.end - self.side_end

    def is_head(self, data):
        """Whether 'Xing' or 'Info' follows the side information, or is where it would be if there were no check word."""
        places = {self.side_end, self.offset + 4 + self.side_size}
        return any(data[at : min(at + 4, self.end)] in (b"Xing", b"Info") for at in places)

    def read_side(self, data):
        side = data[self.side_at : self.side_end]
        self.word = int.from_bytes(data[self.offset + 4 : self.offset + 6], "big")
        self.side = int.from_bytes(side, "big")
        self.begin = self.bits(0, self.version.begin_bits)
        self.granules = [self.granule(number) for number in range(self.version.granules * self.channels)]
        self.payload_bits = sum(it.length for it in self.granules)

    def behind(self, at, width):
        return 8 * self.side_size - at - width

    def bits(self, at, width):
        return self.side >> self.behind(at, width) & (1 << width) - 1

    def granule(self, number):
        at = self.version.front_bits[self.channels - 1] + self.version.granule_bits * number
        place = divmod(number, self.channels)
        return Granule(*place, self.bits(at, 12), self.bits(at + 21, 8), self.behind(at + 21, 8))

    def moving(self):
        """The granules whose gains move; the others aren't heard."""
        return [] if self.lost else [it for it in self.granules if it.length]

    def right_word(self, side):
        return check_word(self.header[2:] + side.to_bytes(self.side_size, "big"))


@dataclass
class Block:
    kind: str
    offset: int
    end: int


class Free:
    """A header of free format."""


def header_at(data, at):
    """The frame that a header at this offset describes, a free format header, or None."""
    header = data[at : at + 4]
    if len(header) < 4 or header[0] != 0xFF or header[1] & 0xE6 != 0xE2 or header[1] & 0x18 == 0x08:
        return None
    rate, frequency = header[2] >> 4, header[2] >> 2 & 3
    if rate == 15 or frequency == 3:
        return None
    return Frame(header, at) if rate else Free()


def block_at(data, at):
    front = data[at : at + 32]
    if front[:3] == b"TAG":
        return Block("ID3v1", at, at + 128)
    if front[:3] == b"ID3" and len(front) >= 10 and 0xFF not in front[3:5] and max(front[6:10]) < 0x80:
        size = sum(byte << 7 * place for place, byte in enumerate(reversed(front[6:10])))
        return Block("ID3v2", at, at + 10 + size + (10 if front[5] & 0x10 else 0))
    if front[:8] == b"APETAGEX" and len(front) == 32:
        version, size, _, flags = (int.from_bytes(front[at : at + 4], "little") for at in (8, 12, 16, 20))
        if version == 2000 and size >= 32 and flags >> 31 & 1 and flags >> 29 & 1:
            return Block("APEv2", at, at + 32 + size)
    return None


# ---- the tag


UNDO_KEY = b"MP3GAIN_UNDO"
LONGEST_TAG = 1_048_576


def number_of(data, at):
    return int.from_bytes(data[at : at + 4], "little")


def four(number):
    return number.to_bytes(4, "little")


def item_at(block, at, end):
    """The item at this offset of a block, and where it ends; or None if no item ends by `end`."""
    end_of_key = block.find(b"\0", at + 8, end)
    key = block[at + 8 : end_of_key]
    if end_of_key < 0 or not re.fullmatch(rb"[ -~]{2,255}", key):
        return None
    size, flags = number_of(block, at), number_of(block, at + 4)
    end_of_item = end_of_key + 1 + size
    return ((key, flags, block[end_of_key + 1 : end_of_item]), end_of_item) if end_of_item <= end else None


def bytes_of_items(items):
    return b"".join(four(len(value)) + four(flags) + key + b"\0" + value for key, flags, value in items)


class Tag:
    """An APEv2 block: a 32-byte header, items of value size, flags, key, zero byte and value, and a 32-byte footer."""

    def __init__(self, block=None, offset=0):
        self.offset = offset
        self.flags = 0xA0000000, 0x80000000
        self.items = []  # (key, flags, value)
        if block:
            self.read(block)

    def judge(self, is_right, place):
        if not is_right:
            raise Unfit(f"bad tag at {self.offset + place}")

    def read(self, block):
        end, at = len(block) - 32, 32
        self.judge(block[24:32] == bytes(8), 24)
        for _ in range(number_of(block, 16)):
            found = item_at(block, at, end)
            self.judge(found and not (self.note() is not None and found[0][0].upper() == UNDO_KEY), at)
            self.items.append(found[0])
            at = found[1]
        self.judge(at == end, at)
        self.flags = number_of(block, 20), number_of(block, end + 20)
        # The header is already what is written for these items, so only the footer can differ.
        self.judge(bytes(self) == block and not self.flags[1] >> 29 & 1, end)

    def __bytes__(self):
        items = bytes_of_items(self.items)
        ends = [b"APETAGEX" + four(2000) + four(len(items) + 32) + four(len(self.items)) + four(it) + bytes(8) for it in self.flags]
        return ends[0] + items + ends[1]

    def place_of_note(self):
        """How many items are before the undo item, or None if there is none."""
        return next((place for place, it in enumerate(self.items) if it[0].upper() == UNDO_KEY), None)

    def note(self):
        """The value of the undo item, or None."""
        place = self.place_of_note()
        return None if place is None else self.items[place][2]

    def undo(self):
        """The noted steps of the left and of the right channel, and whether gains wrap."""
        note = self.note()
        if note is None:
            return 0, 0, False
        if not re.fullmatch(rb"[+-]\d{3},[+-]\d{3},[NW]", note):
            before = bytes_of_items(self.items[: self.place_of_note()])
            raise Unfit(f"bad undo item at {self.offset + 32 + len(before)}")
        left, right, wraps = note.decode("ascii").split(",")
        return int(left), int(right), wraps == "W"

    def set_note(self, left, right, wraps):
        value = f"{left:+04},{right:+04},{'W' if wraps else 'N'}".encode("ascii")
        if self.note() is None:
            self.items.append((UNDO_KEY, 0, value))
        self.items = [(key, flags, value if key.upper() == UNDO_KEY else old) for key, flags, old in self.items]

    def drop_note(self):
        self.items = [it for it in self.items if it[0].upper() != UNDO_KEY]


# ---- a whole file


@dataclass
class Survey:
    """What is in a file: the frames without the head, and where the junk before the first frame is."""

    frames: list
    head: object = None
    blocks: list = field(default_factory=list)
    junk: tuple = (0, 0)  # from, to

    def text(self, data):
        frames = self.frames
        silent = sum(not it.length for frame in frames for it in frame.granules)
        words = sum(it.protected for it in frames)
        back = sum(it.begin > 0 for it in frames)
        lost = sum(it.lost for it in frames)
        rates = sorted({it.rate for it in frames})
        modes = sorted({it.mode for it in frames})
        more = [f"{len(frames)} frames, {len(data)} bytes, {frames[0].version.name}, {frames[0].frequency} Hz"]
        more.append("/".join(modes))
        more.append(f"{'/'.join(map(str, rates))} kbit/s" if len(rates) < 4 else f"{rates[0]} to {rates[-1]} kbit/s")
        more.append(f"{words} check words")
        more.append(f"{back} back pointers")
        more.append(f"{silent} silent granules")
        more += [f"{lost} lost frames"] if lost else []
        more += ["a head"] if self.head else []
        more += [it.kind for it in self.blocks]
        more += [f"{self.junk[1] - self.junk[0]} bytes of junk"] if self.junk[0] < self.junk[1] else []
        return ", ".join(more)


def passed(data, at, blocks):
    """The offset after the blocks and zero bytes at this offset."""
    while at < len(data):
        block = block_at(data, at)
        if block and block.end > len(data):
            raise Refused(f"truncated at {at}")
        if block:
            blocks.append(block)
        elif data[at]:
            break
        at = block.end if block else at + 1
    return at


def is_anchored(data, frame):
    if frame.end > len(data):
        return False
    there = header_at(data, frame.end)
    if isinstance(there, Frame):
        return there.kind == frame.kind
    return frame.end == len(data) or block_at(data, frame.end) is not None


def first_frame(data, front):
    there = header_at(data, front)
    if isinstance(there, Free):
        raise Refused(f"free format at {front}")
    if there and there.end > len(data):
        raise Refused(f"truncated at {front}")
    if there:
        return there
    for at in range(front + 1, min(front + MOST_JUNK, len(data)) + 1):
        there = header_at(data, at)
        if isinstance(there, Frame) and is_anchored(data, there):
            return there
    raise Refused(f"no frame at {front}")


def stream_from(data, first, blocks):
    """The frames from the first on, and why they end before the file does, or None."""
    frames, at = [], first.offset
    while True:
        try:
            at = passed(data, at, blocks)
        except Refused as it:
            return frames, it
        if at == len(data):
            return frames, None
        there = header_at(data, at)
        if there is None:
            return frames, Refused(f"lost synchronisation at {at}")
        if isinstance(there, Free):
            return frames, Refused(f"free format at {at}")
        if there.end > len(data):
            return frames, Refused(f"truncated at {at}")
        there.read_side(data)
        frames.append(there)
        at = there.end


def judge_main_data(frame, before, ended):
    """Returns where the main data up to this frame's end, or refuses the frame. `before` bytes of areas come before its own."""
    at = frame.offset
    if frame.begin > before:
        raise Refused(f"back pointer at {at} is {frame.begin}, present {before}")
    start = before - frame.begin
    if start < ended:
        raise Refused(f"overlap at {at}")
    end = start + (frame.payload_bits + 7) // 8
    if end > before + frame.area:
        raise Refused(f"overrun at {at}, bits {frame.payload_bits}, room {8 * (frame.begin + frame.area)}")
    return end if frame.payload_bits else ended


def judge(frames, head):
    """Refuses the first frame that is at fault, and marks the lost frames."""
    kind = (head or frames[0]).kind
    before, ended, leading = head.area if head else 0, 0, True
    for number, frame in enumerate(frames):
        at = frame.offset
        frame.lost = leading and frame.begin > before
        leading = leading and (frame.lost or not frame.payload_bits)
        if frame.kind != kind:
            raise Refused(f"mixed class at {at}")
        if frame.protected and frame.word != frame.right_word(frame.side):
            raise Refused(f"check word at {at} is {frame.word:04x}, right is {frame.right_word(frame.side):04x}")
        if not frame.lost:
            ended = judge_main_data(frame, before, ended)
        if number == MOST_FRAMES:
            raise Refused(f"too many frames at {at}")
        before += frame.area


def survey_of(data):
    if len(data) > LONGEST:
        raise Refused(f"too long, {len(data)} bytes")
    blocks = []
    front = passed(data, 0, blocks)
    first = first_frame(data, front)
    frames, why = stream_from(data, first, blocks)
    head = frames.pop(0) if first.is_head(data) else None
    if frames:
        judge(frames, head)
    if why:
        raise why
    if not frames:
        raise Refused(f"no frame at {len(data)}")
    return Survey(frames, head, blocks, (front, first.offset))


# ---- the commands


def bytes_of(name):
    with open(name, "rb") as it:
        return it.read()


def write(name, data):
    with open(name, "wb") as it:
        it.write(data)


def survey(name):
    data = bytes_of(name)
    print(survey_of(data).text(data))


def line_of(number, frame):
    padded = " padded" if frame.padded else ""
    lost = ", lost" if frame.lost else ""
    return f"frame {number} at {frame.offset}: {frame.rate} kbit/s{padded}, begin {frame.begin}, bits {frame.payload_bits}{lost}"


def time_of(samples, frequency):
    seconds, hundredths = divmod(samples * 100 // frequency, 100)
    return f"{seconds // 60}.{seconds % 60:02}.{hundredths:02}"


def lines_of(it):
    """The lines of `mp3edit list`, from a survey."""
    lines = [(block.offset, f"block {block.kind} at {block.offset}: {block.end - block.offset} bytes") for block in it.blocks]
    if it.junk[0] < it.junk[1]:
        lines.append((it.junk[0], f"junk at {it.junk[0]}: {it.junk[1] - it.junk[0]} bytes"))
    if it.head:
        lines.append((it.head.offset, f"head at {it.head.offset}: {it.head.length} bytes"))
    lines += [(frame.offset, line_of(number, frame)) for number, frame in enumerate(it.frames)]
    first = it.frames[0]
    time = time_of(len(it.frames) * 576 * first.version.granules, first.frequency)
    summary = f"{len(it.frames)} frames, {first.version.name}, {first.frequency} Hz, {first.channels} channels, {time}"
    return [line for _, line in sorted(lines)] + [summary]


def list_lines(name):
    print(*lines_of(survey_of(bytes_of(name))), sep="\n")


def summary_of(listing):
    """Frames, version, frequency, channels and time, as the last line has them."""
    with open(listing, encoding="ascii") as it:
        frames, version, frequency, channels, time = it.read().splitlines()[-1].split(", ")
    return int(frames.split()[0]), version, int(frequency.split()[0]), int(channels.split()[0]), time


def heard(listing, wav):
    frames, version, frequency, channels, time = summary_of(listing)
    with wave.open(wav) as it:
        samples = it.getnframes()
        there = it.getframerate(), it.getnchannels(), samples, time_of(samples, frequency)
    if there != (frequency, channels, frames * (1152 if version == "MPEG-1" else 576), time):
        sys.exit(f"mpg123: {there}; listed: {frames} frames, {version}, {frequency} Hz, {channels} channels, {time}")


def counted(listing, told):
    frames, _, frequency, channels, _ = summary_of(listing)
    if told.rstrip(",") != f"{frequency},{channels},{frames}":
        sys.exit(f"ffprobe: {told}; listed: {frequency},{channels},{frames}")


def refusal(name):
    try:
        survey_of(bytes_of(name))
    except Refused as it:
        print(it)
    else:
        sys.exit("it is not refused")


def past(name, steps):
    try:
        for frame in survey_of(bytes_of(name)).frames:
            side_of(frame, steps_of("both", steps), False)
    except Unfit as it:
        print(it)
    else:
        sys.exit("no gain leaves the range")


def ends(name):
    frames = survey_of(bytes_of(name)).frames
    gains = [it.gain for frame in frames for it in frame.moving()]
    print(min(gains), max(gains))


def side_of(frame, steps, wraps):
    """The side information with the gains of each channel moved by its own steps."""
    side = frame.side
    for it in frame.moving():
        new = it.gain + steps[it.channel]
        if wraps:
            new %= 256
        if not 0 <= new <= 255:
            raise Unfit(f"gain {it.gain} out of range at {frame.offset}, granule {it.granule}, channel {it.channel}")
        side += new - it.gain << it.behind
    return side


def steps_of(channel, steps):
    """The steps of the left and of the right channel."""
    return tuple(int(steps) if channel in ("both", number) else 0 for number in "01")


def moved(name, steps, output):
    change(name, output, gained, "both", steps, False, False)


def wrapped(name, channel, steps, output):
    change(name, output, gained, channel, steps, True, False)


def noted(name, channel, steps, wraps, output):
    change(name, output, gained, channel, steps, wraps == "W", True)


def undone(name, output):
    change(name, output, taken_back)


def tag_of(data, found):
    """The tag, and where it is or would be."""
    for it in found.blocks:
        if it.kind == "APEv2":
            if it.end - it.offset > LONGEST_TAG:
                raise Unfit(f"tag too large, {it.end - it.offset}")
            return Tag(data[it.offset : it.end], it.offset), (it.offset, it.end)
    end = found.frames[-1].end
    return Tag(), (end, end)


def judge_channel(found, channel):
    """Refuses a change to one channel alone if it can't be made."""
    if channel != "both":
        if found.frames[0].channels == 1:
            raise Unfit("one channel only")
        for frame in found.frames:
            if frame.mode == "joint":
                raise Unfit(f"joint stereo at {frame.offset}")


def add_to_note(tag, old, steps, wraps):
    """Notes a change in the tag; `old` is what its note said before."""
    sums = [number - step for number, step in zip(old, steps)]
    for it in sums:
        if not -999 <= it <= 999:
            raise Unfit(f"undo sum {it} is out of range")
    tag.set_note(*sums, old[2] or wraps)
    if len(bytes(tag)) > LONGEST_TAG:
        raise Unfit(f"tag too large, {len(bytes(tag))}")


def gained(data, found, channel, steps, wraps, with_note):
    """The file with the gains of a channel moved, or of 'both', and with the change noted in the tag if asked for."""
    steps, place, tag = steps_of(channel, steps), None, None
    if with_note:
        tag, place = tag_of(data, found)
        old = tag.undo()
    judge_channel(found, channel)
    if with_note:
        add_to_note(tag, old, steps, wraps)
    return with_gains(data, found, steps, wraps, (place, bytes(tag)) if with_note else None)


def taken_back(data, found):
    """The file with all changes that its tag notes undone."""
    tag, place = tag_of(data, found)
    if tag.note() is None:
        raise Unfit("no undo item")
    left, right, wraps = tag.undo()
    tag.drop_note()
    return with_gains(data, found, (left, right), wraps, (place, bytes(tag) if tag.items else b""))


def items(name):
    data = bytes_of(name)
    for key, _, value in tag_of(data, survey_of(data))[0].items:
        print(f"{key.decode('ascii')}: {value.decode()}")


def note(name):
    data = bytes_of(name)
    print((tag_of(data, survey_of(data))[0].note() or b"").decode("ascii"))


def with_gains(data, found, steps, wraps, tag):
    """The file with moved gains, without junk, and with other bytes where the tag is or would be, if given."""
    return with_steps(data, found, [steps] * len(found.frames), wraps, tag)


def with_steps(data, found, steps, wraps, tag):
    """Like with_gains, but the gains of each frame move by its own steps."""
    new = bytearray(data)
    for frame, own in zip(found.frames, steps):
        side = side_of(frame, own, wraps)
        new[frame.side_at : frame.side_end] = side.to_bytes(frame.side_size, "big")
        if frame.protected:
            new[frame.offset + 4 : frame.side_at] = frame.right_word(side).to_bytes(2, "big")
    # From the end to the beginning, so that the offsets that are still needed stay right.
    for place, there in sorted([(found.junk, b"")] + ([tag] if tag else []), reverse=True):
        new[slice(*place)] = there
    return bytes(new)


def change(name, output, how, *words):
    """Writes the changed file, and says what is in the file."""
    data = bytes_of(name)
    found = survey_of(data)
    write(output, how(data, found, *words))
    print(found.text(data))


def stripped(name, output):
    data = bytearray(bytes_of(name))
    del data[slice(*tag_of(bytes(data), survey_of(bytes(data)))[1])]
    write(output, data)


def without_junk(name, output):
    data = bytearray(bytes_of(name))
    found = survey_of(bytes(data))
    del data[slice(*found.junk)]
    write(output, data)


def spoilt(name, place, output):
    data = bytearray(bytes_of(name))
    frame = survey_of(bytes(data)).frames[{"first": 0, "last": -1}[place]]
    if not frame.protected:
        sys.exit(f"no check word at {frame.offset}")
    data[frame.offset + 5] ^= 1
    write(output, data)


def differ(one, other, steps):
    a, b, steps = bytes_of(one), bytes_of(other), int(steps)
    faults, silent, words, place = [], 0, 0, 0
    if len(a) != len(b):
        faults.append(f"{len(a)} and {len(b)} bytes")
    for frame in survey_of(a).frames:
        theirs = int.from_bytes(b[frame.side_at : frame.side_end], "big")
        apart = frame.side ^ theirs
        for it in frame.granules:
            if (frame.lost or not it.length) and apart >> it.behind & 0xFF == it.gain ^ it.gain + steps:
                silent += 1
                apart &= ~(0xFF << it.behind)
        if apart:
            faults.append(f"side information of the frame at {frame.offset}")
        if b[place : frame.offset + 4] != a[place : frame.offset + 4]:
            faults.append(f"between {place} and the end of the header at {frame.offset}")
        if frame.protected:
            word = int.from_bytes(b[frame.offset + 4 : frame.side_at], "big")
            words += word != frame.word
            if word != frame.right_word(theirs):
                faults.append(f"check word of the frame at {frame.offset}")
        place = frame.side_end
    if b[place:] != a[place:]:
        faults.append(f"after {place}")
    print(
        f"silent granules moved by {steps}: {silent}, with other check words in {words} frames; "
        f"other differences: {len(faults)}"
    )
    for it in faults[:5]:
        print(f"  {it}")
    sys.exit(bool(faults))


def samples(name):
    with wave.open(name) as it:
        if it.getsampwidth() != 2:
            sys.exit(f"{name}: not 16 bits")
        values = array.array("h", it.readframes(it.getnframes()))
    if sys.byteorder == "big":
        values.byteswap()
    return values


def decoded(one, other, factor):
    a, b, factor = samples(one), samples(other), float(factor)
    # Each sample was rounded once in each file.
    room = 0.5 * factor + 0.5 + 0.01
    peaks = max(map(abs, a), default=0), max(map(abs, b), default=0)
    worst = max((abs(y - factor * x) for x, y in zip(a, b)), default=0)
    print(f"{len(a)} samples, peaks {peaks[0]} and {peaks[1]}, farthest from the factor {worst:g}")
    if len(a) != len(b) or peaks[0] < 500 or peaks[1] > 32700 or worst > room:
        sys.exit(1)


def sounds(whole, listing, first, end, piece):
    frames, version, _, channels, _ = summary_of(listing)
    first, chosen, each = int(first), int(end) - int(first), channels * (1152 if version == "MPEG-1" else 576)
    lead_ins = frames - chosen
    edge = 0 if first == 0 else channels * (576 + 480)
    # The decoder's filter bank starts at another of its 16 positions, so one sample in some thousands is rounded the other way.
    a, b = samples(whole)[first * each + edge:][:chosen * each - edge], samples(piece)[lead_ins * each + edge:]
    worst = max((abs(x - y) for x, y in zip(a, b)), default=0)
    print(f"{frames} frames, {lead_ins} lead-ins, {len(a)} and {len(b)} samples, farthest {worst}")
    if lead_ins not in (0, 1) or len(a) != len(b) or worst > 1:
        sys.exit(1)


def beside(piece, listing, first, end, begin, other):
    frames, version, _, channels, _ = summary_of(listing)
    each = channels * (1152 if version == "MPEG-1" else 576)
    lead_ins = frames - (int(end) - int(first))
    b = samples(other)
    a = samples(piece)[lead_ins * each + channels * int(begin) - int(first) * each:][:len(b)]
    worst = max((abs(x - y) for x, y in zip(a, b)), default=0)
    print(f"{lead_ins} lead-ins, {len(a)} and {len(b)} samples, farthest {worst}")
    if lead_ins not in (0, 1) or len(a) != len(b) or worst > 1 or max(map(abs, b), default=0) < 500:
        sys.exit(1)


COMMANDS = {
    "survey": (survey, 1),
    "list": (list_lines, 1),
    "heard": (heard, 2),
    "counted": (counted, 2),
    "refusal": (refusal, 1),
    "past": (past, 2),
    "ends": (ends, 1),
    "moved": (moved, 3),
    "wrapped": (wrapped, 4),
    "noted": (noted, 5),
    "undone": (undone, 2),
    "items": (items, 1),
    "note": (note, 1),
    "stripped": (stripped, 2),
    "without-junk": (without_junk, 2),
    "spoilt": (spoilt, 3),
    "differ": (differ, 3),
    "decoded": (decoded, 3),
    "sounds": (sounds, 5),
    "beside": (beside, 6),
}

if __name__ == "__main__":
    call, count = COMMANDS.get(sys.argv[1] if sys.argv[1:] else "", (None, 0))
    if not call or len(sys.argv) != count + 2:
        sys.exit(__doc__)
    try:
        call(*sys.argv[2:])
    except (Refused, Unfit) as it:
        sys.exit(f"refused: {it}")
