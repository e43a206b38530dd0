"""Small MP3 files, and random changes to them, for mutated-files: each function takes the source of random numbers. A file is changed
first as a list of pieces (frames, blocks and other bytes) and then as bytes.
"""
import array
import shutil
import subprocess
import sys
import wave
import zlib
from random import Random

sys.dont_write_bytecode = True
import frames  # noqa: E402
import laid  # noqa: E402
import removed  # noqa: E402
import results  # noqa: E402
import spans  # noqa: E402

VERSION_BITS = ((3, frames.MPEG_1), (2, frames.MPEG_2), (0, frames.MPEG_2_5))
OTHER_LINES = (
    *(b"", b"TITLE x", b"file", b"TRACK 00 AUDIO", b"TRACK 7 audio", b"\tTRACK 99 AUDIO\r", b"TRACK 1 AUDIO x", b"INDEX 00 00:00:00"),
    *(b"INDEX 1 00:00:09", b"INDEX 01 0:00:00", b"index 1 99:59:74 ", b"INDEX 02 00:00:75"),
)
OTHER_POINTS = (b"", b"# x", b"\t#", b"0", b"EOF 1 1", b"0.0 1", b"1 256", b"EOF -255", b"0 +-1", b"0.60 1", b"eof 1", b"x 1", b"3 1 # x", b"7\xc2\xa01")
HEADER_FIELDS = ((11, 1), (12, 1), (13, 2), (15, 1), (16, 4), (20, 2), (22, 1), (23, 1), (24, 2), (26, 2), (28, 1), (29, 1), (30, 2))


# ---- files to start from: lists of pieces, such as frames and blocks


def pieces_of(data):
    found = frames.survey_of(data)
    ends = {0, len(data), *found.junk}
    ends.update(place for it in [*found.frames, *found.blocks] for place in (it.offset, it.end))
    places = sorted(ends)
    return [data[a:b] for a, b in zip(places, places[1:])]


def sound(random, frequency, channels, name):
    """A third of a second of noise that swells, and some silence."""
    with wave.open(name, "wb") as it:
        it.setnchannels(channels)
        it.setsampwidth(2)
        it.setframerate(frequency)
        count = frequency // 3 * channels
        noise = [(byte - 128) * at * 128 // count for at, byte in enumerate(random.randbytes(count))]
        it.writeframes(array.array("h", noise + [0] * (frequency // 10 * channels)).tobytes())


def encoded(folder):
    """Files by the encoders that are installed, as pieces."""
    random, found = Random(0), []
    options = ("-V 2", "-p --abr 64 --tt x", "-t -p -V 6", "--nores -b 64 -m d", "-m m -t", "-p -m m -V 4", "-b 160 -m s --tt x")
    for turn, frequency in enumerate(it for _, version in VERSION_BITS for it in version.frequencies * 2):
        sound(random, frequency, 2, str(folder / "sound.wav"))
        commands = [["lame", "--quiet", *options[turn % 7].split(), "sound.wav", "made.mp3"]]
        if turn % 6 == 0:
            commands.append(["ffmpeg", "-nostdin", "-v", "error", "-i", "sound.wav", "-metadata", "title=x", "-y", "made.mp3"])
        for command in commands:
            if shutil.which(command[0]) and subprocess.run(command, cwd=folder, stdin=subprocess.DEVNULL).returncode == 0:
                found.append(pieces_of((folder / "made.mp3").read_bytes()))
    return found


def with_bits(data, at, width, value):
    """The bytes with another number in these bits."""
    behind = 8 * len(data) - at - width
    number = int.from_bytes(data, "big")
    number += (value - (number >> behind & (1 << width) - 1)) << behind
    return number.to_bytes(len(data), "big")


def with_lengths(random, shape, side, bits):
    """Side information whose granules have this many bits of main data in total, or nearly."""
    count = shape.version.granules * shape.channels
    for number in range(count):
        here = min(4095, bits if number == count - 1 else random.choice((0, bits // 2, random.randint(0, bits))))
        at = shape.version.front_bits[shape.channels - 1] + shape.version.granule_bits * number
        side, bits = with_bits(side, at, 12, here), bits - here
    return side


def made(random):
    """Up to 40 frames of any class, whose main data begin and end anywhere in the areas that they may use."""
    bits, version = random.choice(VERSION_BITS)
    kind = random.randrange(3) << 2, random.choice((0, 1, 2, 3)) << 6
    window, rate, protection = (1 << version.begin_bits) - 1, random.randint(1, 14), random.choice((0, 1, None))
    found, free, fill = [], 0, random.choice((1, 3, 8))
    for _ in range(random.randint(1, random.choice((3, 12, 40)))):
        index = random.choice((rate, rate, random.randint(1, 14)))
        open_ = random.getrandbits(1) if protection is None else protection
        header = bytes([255, 0xE2 | bits << 3 | open_, index << 4 | kind[0] | random.getrandbits(2), kind[1] | random.getrandbits(6)])
        shape = frames.Frame(header, 0)
        begin = min(window, random.choice((free, free, 0, random.randint(0, free))))
        most = 8 * (begin + shape.area)
        bits_here = random.choice((0, most, most, max(0, most - random.randint(0, 9)), *[random.randint(0, most)] * fill))
        side = with_lengths(random, shape, random.randbytes(shape.side_size), bits_here)
        shape.side_at, shape.side_end = 0, shape.side_size
        shape.read_side(side)
        data = bytearray(random.randbytes((shape.payload_bits + 7) // 8))
        if shape.payload_bits % 8:
            data[-1] &= 0xFF00 >> shape.payload_bits % 8
        found.append((frames.Frame(header, 0), begin, shape.side, bytes(data)))
        free = min(window, (begin if data else free) + shape.area - len(data))
    return laid.laid(found)


# ---- changes to pieces


def note(random):
    numbers = [random.choice((0, random.randint(-20, 20), random.randint(-999, 999), 999, -999)) for _ in range(2)]
    right = f"{numbers[0]:+04},{numbers[1]:+04},{random.choice('NW')}".encode()
    return random.choice((right,) * 12 + (right.lower(), right[1:], right + b" ", b"", b"-000,-000,N", right.replace(b"+", b" ")))


def item(random):
    if random.random() < 0.4:
        key = random.choice((b"MP3GAIN_UNDO",) * 3 + (b"mp3gain_undo", b"Mp3Gain_Undo", b"MP3GAIN_UNDO "))
        return key, random.choice((0, 2)), note(random)
    keys = (b"Title", b"MP3GAIN_MINMAX", b"~ ", b"x" * 255) * 9 + (b"a", b"x" * 256, b"k\x1f", b"k\x7f")
    return random.choice(keys), random.getrandbits(32), random.randbytes(random.choice((0, 1, 9, 300)))


def ape(random):
    tag = frames.Tag()
    tag.items = [item(random) for _ in range(random.choice((0, 1, 1, 2, 3)))]
    tag.flags = tag.flags[0] | random.choice((0, random.getrandbits(29))), random.choice((tag.flags[1], 0, random.getrandbits(29)))
    if random.random() < 0.02:
        # At the limit of what is read, or of what may be written.
        size = frames.LONGEST_TAG - len(bytes(tag)) - 13 - random.choice((-1, 0, 1, 31, 32, 33))
        tag.items.append((b"Long", 0, bytes(size)))
    return bytes(tag)


def id3v2(random):
    size = random.choice((0, 5, 300, 300, random.randint(62_000, 66_000)))
    flags = random.choice((0, 0, 0x10, random.getrandbits(8)))
    front = b"ID3" + bytes([random.choice((3, 4, 254)), 0, flags]) + bytes(size >> place & 127 for place in (21, 14, 7, 0))
    return front + random.choice((bytes(1), b"\xff\xfb\x90\x00", random.randbytes(1))) * size + bytes(10 if flags & 16 else 0)


def block(random):
    kind = random.randrange(5)
    data = ape(random) if kind > 1 else id3v2(random) if kind else b"TAG" + random.randbytes(125)
    if random.random() < 0.15:
        at = random.choice((random.randrange(len(data)), random.randrange(min(len(data), 100)), random.randint(-32, -1) % len(data)))
        data = data[:at] + bytes([data[at] ^ 1 << random.randrange(8)]) + data[at + 1 :]
    return data


def letters(random):
    """Bytes that don't belong to a stream, sometimes about as many as the 65,536 that may come before it."""
    most = random.choice((3, 40, 500, 500))
    if random.random() < 0.1:
        return b"U" * random.randint(65_535, 65_537)
    return random.choice((b"\xff\xfb\x90\x64", b"\xff", b"\xff\xfb\x00\x00", b"U")) + random.randbytes(random.randint(0, most))


def frame_places(pieces):
    """The indices of the pieces that begin with a whole frame."""
    found = [(at, frames.header_at(it, 0), len(it)) for at, it in enumerate(pieces)]
    return [at for at, it, length in found if isinstance(it, frames.Frame) and it.length <= length]


def put_in(random, pieces, what):
    pieces.insert(random.choice((0, len(pieces), random.randint(0, len(pieces)))), what)


def put_block(random, pieces, _):
    put_in(random, pieces, block(random))


def put_zeros(random, pieces, _):
    put_in(random, pieces, bytes(random.choice((1, 2, 40, 4096) if random.random() < 0.97 else (65_535, 70_000))))


def put_letters(random, pieces, _):
    pieces.insert(random.choice((0, 0, 0, random.randint(0, len(pieces)))), letters(random))


def put_others(random, pieces, others):
    """Inserts some frames or blocks of another file."""
    other = random.choice(others)
    at = random.randrange(len(other))
    put_in(random, pieces, b"".join(other[at : at + random.randint(1, 4)]))


def take_out(random, pieces, _):
    at = random.choice((0, 1, random.randrange(len(pieces))))
    del pieces[at : at + random.randint(1, 3)]


def leave_few(random, pieces, _):
    """Leaves one piece, after bytes that belong to no stream, and a prefix of the next piece."""
    at = random.randrange(len(pieces))
    pieces[:] = [letters(random), *pieces[at : at + 1], *[it[: random.randint(0, len(it))] for it in pieces[at + 1 : at + 2]]]


def double(random, pieces, _):
    at = random.randrange(len(pieces))
    pieces[at:at] = pieces[at : at + random.randint(1, 3)]


def put_head(random, pieces, _):
    """Puts a head before the first frame, or makes the first frame one; its text may be at either place."""
    places = frame_places(pieces)
    if places:
        at = places[0]
        header = pieces[at][:2] + bytes([random.choice((9, 9, random.randint(1, 14))) << 4 | pieces[at][2] & 0x0C]) + pieces[at][3:4]
        shape = frames.Frame(header, 0)
        text = random.choice((b"Info", b"Xing")) + bytes(3) + bytes([random.getrandbits(4)]) + random.randbytes(random.choice((0, 60, 160)))
        place = random.choice((4, shape.side_at)) + shape.side_size
        frame = (header + bytes(place - 4) + text + bytes(1441))[: shape.length]
        pieces[at : at + random.choice((0, 0, 1))] = [frame]


def change_header(random, pieces, _):
    places = frame_places(pieces)
    if places:
        at = random.choice(places)
        place, width = random.choice(HEADER_FIELDS)
        pieces[at] = pieces[at][:0] + with_bits(pieces[at][:4], place, width, random.getrandbits(width)) + pieces[at][4:]


def change_side(random, pieces, _):
    """Puts another number into a field of the side information, mostly with a matching check word."""
    places = frame_places(pieces)
    for _ in range(random.choice((1, 1, 3)) if places else 0):
        at = random.choice((*places[:2], random.choice(places)))
        shape = frames.Frame(pieces[at][:4], 0)
        granule = random.randrange(shape.version.granules * shape.channels)
        place = shape.version.front_bits[shape.channels - 1] + shape.version.granule_bits * granule
        begin, any_bit = (0, shape.version.begin_bits), (random.randrange(8 * shape.side_size), 1)
        place, width = random.choice((begin, begin, (place, 12), (place + 21, 8), any_bit))
        value = random.choice((0, 0, random.getrandbits(width), (1 << width) - 1))
        side = with_bits(pieces[at][shape.side_at : shape.side_end], place, width, value)
        word = shape.right_word(int.from_bytes(side, "big")).to_bytes(2, "big") if shape.protected else b""
        if word and random.random() < 0.1:
            word = pieces[at][4:6]
        pieces[at] = pieces[at][:4] + word + side + pieces[at][shape.side_end :]


# ---- changes to bytes


def turned(random, data):
    """The bytes with one bit flipped, or up to three."""
    new = bytearray(data)
    for _ in range(random.choice((1, 1, 3))):
        new[random.randrange(len(new))] ^= 1 << random.randrange(8)
    return bytes(new)


def bytes_out(random, data):
    at = random.randrange(len(data))
    return data[:at] + data[at + random.choice((1, 4, 417, random.randint(1, 99))) :]


def bytes_in(random, data):
    at = random.randint(0, len(data))
    return data[:at] + random.randbytes(random.choice((1, 4, 32))) + data[at:]


def without_tail(random, data):
    return data[: random.randint(0, len(data))]


def without_front(random, data):
    return data[random.choice((1, random.randint(0, len(data)))) :]


PIECE_CHANGES = (put_block,) * 4 + (put_zeros, put_letters, put_others, take_out, leave_few, double, put_head, change_header, change_side)
BYTE_CHANGES = (turned, turned, bytes_out, bytes_in, without_tail, without_front)


def any_pieces(random, sources):
    return random.choice(sources) if random.random() < 0.6 else made(random)


def changed(random, pieces, sources):
    """The bytes of the pieces, or of some of them, after some changes."""
    pieces = list(pieces)
    if random.random() < 0.3:
        at = random.randrange(len(pieces))
        pieces = pieces[at : at + random.randint(1, 12)]
    for _ in range(random.choice((0, 1, 1, 2, 3))):
        if pieces:
            random.choice(PIECE_CHANGES)(random, pieces, sources)
    data = b"".join(pieces) * (random.randint(5, 30) if random.random() < 0.01 else 1)
    for _ in range(random.choice((0, 0, 0, 0, 0, 0, 1, 2))):
        if data:
            data = random.choice(BYTE_CHANGES)(random, data)
    return data


def sheet(random):
    """A cue sheet of some tracks, maybe with faults."""
    lines, time = [b'FILE "x" MP3'], 0
    for track in range(1, random.choice((2, 3, 5, 5, 101))):
        lines += [b"TRACK %02d AUDIO" % track, b"  INDEX 01 %02d:%02d:%02d" % (time // 4500, time // 75 % 60, time % 75)]
        time += random.choice((1, 3, 9))
    for _ in range(random.choice((0, 0, 0, 0, 1, 3))):
        at = random.randint(0, len(lines))
        lines[at : at + random.randint(0, 1)] = [random.choice(OTHER_LINES)]
    data = random.choice((b"", b"", b"\xef\xbb\xbf")) + random.choice((b"\n", b"\r\n")).join(lines) + random.choice((b"", b"\n", b"\r\n"))
    data += b"\n" * (random.choice((65_536, 65_537)) - len(data)) if random.random() < 0.02 else b""
    return turned(random, data) if random.random() < 0.05 else data


def fade_sheet(random, data):
    """A fade sheet for a file, maybe with faults."""
    found = results.survey_or_fault(data)
    count = len(found.frames) if isinstance(found, frames.Survey) else 3
    points = random.choice((1, 2, 2, 3, 4, 7))
    gains = [it.gain for frame in getattr(found, "frames", []) for it in frame.moving()] or [100]
    farthest = random.choice((3, 9, 9, 40, 255 - max(gains), min(gains), 256))
    lines = []
    for place in places(random, points, count):
        steps = random.randint(-farthest, farthest)
        lines.append(f"{place}{random.choice((' ', '  ', chr(9)))}{steps:{random.choice(('', '+', '03'))}}".encode())
    for _ in range(random.choice((0, 0, 0, 0, 1, 3))):
        lines.insert(random.randint(0, len(lines)), random.choice(OTHER_POINTS))
    if random.random() < 0.02:
        lines += [b"%d 0" % (count + it) for it in range(random.choice((998, 1001)))]
    data = random.choice((b"", b"", b"\xef\xbb\xbf")) + random.choice((b"\n", b"\r\n")).join(lines) + random.choice((b"", b"\n", b"\r\n"))
    data += b"\n" * (random.choice((65_536, 65_537)) - len(data)) if random.random() < 0.02 else b""
    return turned(random, data) if random.random() < 0.05 else data


def files(random, sources):
    """A file and another one, mostly made of the same frames, two sheets, and maybe an output that already exists."""
    pieces = any_pieces(random, sources)
    others = pieces if random.random() < 0.7 else any_pieces(random, sources)
    found = {"x": changed(random, pieces, sources), "y": changed(random, others, sources), "s": sheet(random)}
    # The fade sheet has its own random numbers, so that those of everything else stay the same.
    fade = {"f": fade_sheet(Random(zlib.crc32(found["x"])), found["x"])}
    return found | fade | ({"o": b"old" * random.choice((1, 50_000))} if random.random() < 0.3 else {})


# ---- words


def places(random, count, frames_there):
    """`count` words for positions, mostly rising."""
    numbers = sorted(random.sample(range(frames_there + 1), min(count, frames_there + 1)))
    if random.random() < 0.1:
        random.shuffle(numbers)
    words = ([str(it) for it in numbers] + ["EOF"] * count)[:count]
    if random.random() < 0.3:
        words[0] = random.choice(("0", "0.0"))
    if random.random() < 0.3:
        words[-1] = random.choice(("EOF", str(frames_there)))
    if random.random() < 0.2:
        words[random.randrange(count)] = random.choice((f"0.00.{random.randint(0, 99)}", "0.0.5", "EOF", "1.00", str(frames_there + 1)))
    return words


def exact_places(random, data, found, many=2):
    """Words for places among the samples, mostly rising."""
    start, end = spans.played(data, found) if isinstance(found, frames.Survey) else (0, 3000)
    length, frequency = max(0, end - start), found.frames[0].frequency if isinstance(found, frames.Survey) else 44_100
    chosen = sorted(random.choice((0, length, random.randint(0, length), random.randint(0, length))) for _ in range(many))
    if random.random() < 0.05:
        chosen.reverse()
    words = []
    for it in chosen:
        time, back = 1000 * it // frequency, 1000 * (length - it) // frequency
        places = (f"{it}samples", f"{it}samples", f"{it:010}samples", f"0.{time // 1000}.{time % 1000:03}", f"EOF-0.{back // 1000}.{back % 1000:03}")
        places += f"EOF-0.{back // 1000}.{back % 1000 // 10:02}", str(it // 1152), "EOF"
        places += f"{time // 1000}.{time % 1000:03}s", f"EOF-{back // 1000}.{back % 1000 // 10:02}s", f"{time // 1000}.{time % 1000 // 100}s"
        words.append(random.choice(places))
    if random.random() < 0.1:
        others = (f"{length + 1}samples", "EOF-9.0", "EOF-0.0", "4294967296samples", "0.0.0005", "EOF-0.0.5", "1.0samples", "eof-0.1")
        others += "0.60.000", "samples", "s", "1.s", "1.5000s", "30s", "999999.999s", "EOF-30s"
        words[random.randrange(many)] = random.choice(others)
    return words


def stretches(random, found):
    """Words for pairs of places that name frames, mostly in order; some stretches touch."""
    if not isinstance(found, frames.Survey):
        return random.choice(("0 1", "1s EOF", "0", "EOF-1s 3 0 EOF")).split()
    count, pairs = len(found.frames), random.choice((1, 1, 1, 2, 3, 3, 5))
    numbers = sorted(random.sample(range(count + 1), min(2 * pairs, (count + 1) // 2 * 2)))
    for at in range(1, len(numbers) - 2, 2):
        numbers[at] = random.choice((numbers[at], numbers[at], numbers[at + 1]))
    if random.random() < 0.1:
        random.shuffle(numbers)
    words = [removed.word_of(random, it, found) for it in numbers]
    if random.random() < 0.3:
        words[0] = random.choice(("0", "0.0", "0s"))
    if random.random() < 0.3:
        words[-1] = random.choice(("EOF", "EOF-0s"))
    if random.random() < 0.1:
        others = (f"{count + 1}", "9999999", "EOF", "EOF-9.0", "EOF-10s", "4294967295samples", "4294967296samples", "30s", "0.0.0005")
        words[random.randrange(len(words))] = random.choice((*others, "1.5000s", "EOF-3", "x"))
    return words[: random.choice((len(words) - 1, *[len(words)] * 19))]


def mode(random, data):
    """Words that say how many steps the gains move: mostly a few, or as many as they may, or one more."""
    found = results.survey_or_fault(data)
    gains = [it.gain for frame in getattr(found, "frames", []) for it in frame.moving()] or [100]
    edges = [255 - max(gains), 256 - max(gains), -min(gains), -1 - min(gains)]
    steps = random.choice((*edges, *[random.randint(-9, 9)] * 5, random.randint(-255, 255)))
    wraps = ["-w"] if random.random() < 0.3 else []
    return wraps + random.choice((["-g"], ["-g"], ["-g"], ["-l", "0"], ["-l", "1"])) + [f"{steps:{random.choice(('', '+', '03'))}}"]


def bit_rate(random, found):
    """A word for a bit rate: mostly a frame's, or another one of its version."""
    if not isinstance(found, frames.Survey) or random.random() < 0.1:
        return random.choice(("0", "8", "100", "144", "256", "999", "032", "1000", "-1", "x"))
    it = random.choice(found.frames)
    return str(random.choice((it.rate, *it.version.rates)))


def commands(random, files):
    data = files["x"]
    found = results.survey_or_fault(data)
    count = len(found.frames) if isinstance(found, frames.Survey) else 3
    yield ["list", "x"]
    yield ["info", "x"]
    yield ["gain", "-s", "s", *mode(random, data), "x", "o"]
    yield ["gain", *mode(random, data), "x", "o"]
    yield ["gain", "-u", "x", "o"]
    yield ["cut", "x", *places(random, 2, count), "o"]
    yield ["cut", "--least", "x", *places(random, 2, count), "o"]
    yield ["pack", "x", "o"]
    yield ["pack", "--constant", bit_rate(random, found), "x", "o"]
    yield ["pack", "--floor", bit_rate(random, found), "x", "o"]
    yield ["pack", "--best", "x", "o"]
    yield ["split", "x", "p", *places(random, random.choice((2, 3, 3, 5, 9)), count)]
    yield ["split", "x", "p", "-c", "s"]
    yield ["join", "o", *random.choice((["x", "y"], ["y", "x"], ["x", "x", "y"], ["y", "x", "y", "x"]))]
    yield ["fade", "x", "o", "f"]
    yield ["fade", "--back", "x", "o", "f"]
    # Few frames, since Python has to lay each of them too.
    yield ["drill", str(random.choice((0, 1, 2**31 - 1, random.randrange(2**31)))), str(random.choice((1, 2, random.randint(1, 60))))]
    words = random.choice(
        ("gain -w -s s -l 1 3 x o", "cut --least x 0 1 o", "split x p 0 EOF", "join o x", "fade --back x o f", "drill 0000000005 00002")
    ).split()
    at = random.randint(0, len(words))
    words[at : at + random.randint(0, 2)] = random.choice(([], ["-w"], ["0.60"], ["x"], ["o"], ["p03.mp3"], ["none"], ["256"], [""]))
    yield words
    # What follows is drawn separately, like the fade sheet.
    yield ["salvage", "x", "o"]
    random = Random(zlib.crc32(data) + 1)
    yield ["cut", "--exact", "x", *exact_places(random, data, found), "o"]
    yield ["cut", "--exact", "x", *exact_places(random, data, found), "o"]
    yield ["split", "--exact", "x", "p", *exact_places(random, data, found, random.choice((2, 3, 3, 5)))]
    yield ["split", "--exact", "x", "p", "-c", "s"]
    yield ["join", "--seamless", "o", *Random(zlib.crc32(data) + 2).choice((["x"], ["x", "y"], ["y", "x"], ["x", "x", "y"], ["y", "x", "y", "x"]))]
    yield ["remove", "x", "o", *stretches(Random(zlib.crc32(data) + 3), found)]
    yield ["remove", "x", "o", *stretches(Random(zlib.crc32(data) + 4), found)]
    others = ("salvage", "salvage x", "salvage x x", "salvage o x", "salvage none o", "salvage -w x o", "salvage s o", "salvage y o")
    yield Random(zlib.crc32(data)).choice(others).split()
