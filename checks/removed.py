#!/usr/bin/env python3
"""Files without some stretches of frames, as 'mp3edit remove' writes them. It shares no code with the program that it helps to check.

  removed.py remove IN OUT FROM TO [FROM TO ..]    writes OUT: IN without the frames from each FROM on and before its TO
  removed.py pieces IN FROM TO [FROM TO ..]        how 'split' and 'join --seamless' make the same frames: a line with the places for 'split',
                                                   and one with the numbers of the pieces to join; nothing where they may make others
  removed.py drawn IN SEED                         stretches to take out of IN, drawn at random, as words: a line of one, of three and of ten, of
                                                   the front, of the end, and of both with one between them

A word is a place of spans.py, but names a frame, counted from the first frame: the one that a position is before; the one in which a sample
or a moment is; or as many whole frames before the end as a time takes. Stretches have frames, are in order and don't overlap, but may touch,
and some frame stays. Frames that stay one after another are a part. As in spans.py, a frame whose main data begin in the head is lost.

The frames of all parts are laid as one part. The first frame of each part but the first gets the smallest slot, from its own on, with which
all frames up to the end of the part have room; as in seams.py, 511 bytes (MPEG-1) or 255 are free before the first of all. If no slot is
enough, the lead-in that the part needs by itself comes before it, and all slots stay. Delay and padding are such that what is played begins
with the first sample that is played of the file and stays, and ends with the last, except that players always leave out 529 samples. If there
is no such sample, the head doesn't count, or a number has more than 12 bits, quality and extension are 0. All tags stay.

The pieces make the same frames unless one of the file is lost because it points into the head, or a piece begins with a frame that is like
a lead-in.
"""
import itertools
import random
import sys

sys.dont_write_bytecode = True
import fades  # noqa: E402
import frames  # noqa: E402
import laid  # noqa: E402
import seams  # noqa: E402
import spans  # noqa: E402

# Between stretches that are drawn at least so many frames stay.
LEAST_PART = 4

# ---- stretches


def frame_of(place, found):
    """The number of the frame that a place names."""
    what, it = place
    if what == "position":
        return fades.frame_at(it, found)
    if what == "sample":
        return it // spans.samples_of(found)
    whole = it * found.frames[0].frequency // (1000 * spans.samples_of(found))
    return whole if what == "time" else max(0, len(found.frames) - whole)


def judged(numbers, count):
    """The pairs of these numbers of frames; refuses the first neighbours that aren't in order in a file of `count` frames."""
    for at, (x, y) in enumerate(zip(numbers, numbers[1:])):
        if not (x <= y if at % 2 else x < y <= count):
            raise spans.Fault(f"range {x} to {y} of {count} frames")
    return list(zip(numbers[::2], numbers[1::2]))


def parts_of(places, found):
    """The numbers of the frames in each part, if what is between pairs of these places goes."""
    count = len(found.frames)
    gone = set(itertools.chain(*(range(*it) for it in judged([frame_of(it, found) for it in places], count))))
    if len(gone) == count:
        raise spans.Fault(f"range 0 to {count} of {count} frames")
    return [list(part) for goes, part in itertools.groupby(range(count), gone.__contains__) if not goes]


# ---- the file


def run_of(needs, parts):
    """The frames that are written, but for a lead-in in front, and the number of each in the file; a lead-in has None."""
    run, numbers = [], []
    for part in parts:
        own = [needs[it] for it in part]
        moved = seams.joining(run, own) if run else own
        if moved is None:
            moved, part = [laid.Need(seams.lead_in_header(own), 0, b""), *own], [None, *part]
        run += moved
        numbers += part
    return run, numbers


def heard(start, end, size, numbers):
    """Where the first and the last position from `start` on and before `end` are in what is written; or None if there is none. The numbers are
    those of the frames that are written."""
    found = []
    for at, number in enumerate(numbers):
        if number is not None and max(start, number * size) < min(end, (number + 1) * size):
            found += [at * size + max(0, start - number * size), at * size + min(size, end - number * size) - 1]
    return (found[0], found[-1]) if found else None


def numbers_of(data, found, written):
    """The delay and the padding of what is written, given the number of each of its frames; or None."""
    place = heard(*spans.played(data, found), spans.samples_of(found), written)
    if place is None or spans.counts_of(data, found.head) is None:
        return None
    first, last = place
    delay = max(0, first - spans.DECODER_DELAY)
    padding = len(written) * spans.samples_of(found) - (last + 1) + spans.DECODER_DELAY
    return (delay, padding) if max(delay, padding) <= spans.MOST else None


def without(data, found, places):
    """The file without what is between pairs of these places, and for each of its frames its number in the file, or None for a lead-in."""
    run, numbers = run_of(laid.main_data(data, spans.apart(found)), parts_of(places, found))
    slots = laid.placed([run], None, laid.SLOTS)
    written = laid.laid(slots)
    numbers = [None] * (len(written) - len(run)) + numbers
    told = numbers_of(data, found, numbers)
    if told is None:
        info = laid.info_frame(slots, written, bytes(4), bytes(36))
    else:
        info = spans.numbered_info(slots, written, *laid.head_fields(data, found.head), *told)
    return laid.with_blocks(data, found, [info, *written]), numbers


# ---- the pieces


def points_into_head(found):
    return any(own.lost and not it.lost for own, it in zip(spans.apart(found).frames, found.frames))


def begins_like_lead_in(frame, needs):
    """Whether a piece of these frames, the first of which is given, gets no lead-in but begins with a frame that is like one."""
    return seams.fits(needs, 0) and not laid.without_begin(frame, needs[0].side) and seams.has_header_of_lead_in(needs)


def pieces_of(data, found, places):
    """The numbers of frames at which to split, and which of the pieces, counted from 1, to join; or None if these may make other frames."""
    parts, needs = parts_of(places, found), laid.main_data(data, found)
    at = sorted({0, len(found.frames), *(frame_of(it, found) for it in places)})
    if points_into_head(found) or any(begins_like_lead_in(found.frames[it[0]], [needs[number] for number in it]) for it in parts):
        return None
    return at, [at.index(part[0]) + 1 for part in parts]


# ---- random stretches


def word_of(draw, number, found):
    """One of the words that name this frame."""
    size, frequency, count = spans.samples_of(found), found.frames[0].frequency, len(found.frames)
    # The first thousandth of a second in the frame, and the least that takes all frames from there to the end.
    time, back = (-(-it * size * 1000 // frequency) for it in (number, count - number))
    hundredths = -(-time // 10)
    return draw.choice(
        (
            str(number),
            f"{number * size + draw.randrange(size)}samples",
            f"{time // 60_000}.{time // 1000 % 60}.{time % 1000:03}",
            f"{time // 1000}.{time % 1000:03}s",
            f"{hundredths // 6000}.{hundredths // 100 % 60:02}.{hundredths % 100:02}",
            f"EOF-{back // 1000}.{back % 1000:03}s",
            f"EOF-{back // 60_000}.{back // 1000 % 60}.{back % 1000:03}",
        )
    )


def spaced(draw, count, many):
    """So many numbers below `count`, in order, with at least LEAST_PART frames between them and before the first."""
    free = count - LEAST_PART * (many + 1)
    return [at + LEAST_PART * place for place, at in enumerate(sorted(draw.choices(range(free + 1), k=many)), 1)]


def drawn(found, seed):
    """Some lists of words, each for stretches of one file."""
    draw, count = random.Random(int(seed)), len(found.frames)
    for many, front, end in ((2, [], []), (6, [], []), (20, [], []), (1, ["0"], []), (1, [], ["EOF"]), (4, ["0.0"], ["EOF"])):
        yield [*front, *(word_of(draw, it, found) for it in spaced(draw, count, many)), *end]


# ---- the command


def surveyed(name):
    data = frames.bytes_of(name)
    return data, frames.survey_of(data)


def main(words):
    pairs = words[3:] if words[:1] == ["remove"] else words[2:]
    places = [spans.exact_place(it) for it in pairs]
    are_pairs = len(pairs) > 1 and len(pairs) % 2 == 0 and None not in places
    if words[:1] == ["remove"] and are_pairs:
        frames.write(words[2], without(*surveyed(words[1]), places)[0])
    elif words[:1] == ["pieces"] and are_pairs:
        for it in pieces_of(*surveyed(words[1]), places) or []:
            print(*it)
    elif words[:1] == ["drawn"] and len(words) == 3:
        for it in drawn(surveyed(words[1])[1], words[2]):
            print(*it)
    else:
        sys.exit(__doc__)


if __name__ == "__main__":
    try:
        main(sys.argv[1:])
    except (spans.Fault, frames.Refused) as it:
        sys.exit(str(it))
