#!/usr/bin/env python3
"""Writes to standard output the stream that `mp3edit drill SEED COUNT` makes and packs, by the rules of its generator. It shares no
code with the program that it helps to check.

  drill.py SEED COUNT
"""
import sys

HEADER = bytes.fromhex("fffb9000")
# The bytes of a frame that hold main data, and how far back main_data_begin can point.
AREA, WINDOW = 381, 511


def draws(state):
    """The numbers drawn from this state on, each from 0 to 32,767."""
    while True:
        state = (state * 1103515245 + 12345) % 2**31
        yield state // 65536


def stream(seed, count):
    draw = draws(seed).__next__
    fronts, main, end = [], bytearray(AREA * count), 0
    for place in range(0, AREA * count, AREA):
        start = max(end, place - WINDOW)
        room = place + AREA - start
        lengths = [draw() % (2 * room + 1) for _ in range(4)]
        gains = [100 + draw() % 100 for _ in range(4)]
        bits = sum(lengths)
        data = bytearray(draw() % 64 for _ in range((bits + 7) // 8))
        if bits % 8:
            data[-1] &= 0xFF00 >> bits % 8
        end = start + len(data)
        main[start:end] = data
        # main_data_begin, three private bits and scfsi; then 59 bits for each granule and channel.
        side = (place - start) << 11
        for length, gain in zip(lengths, gains):
            side = side << 59 | length << 47 | gain << 30
        fronts.append(HEADER + side.to_bytes(32, "big"))
    return b"".join(front + main[i * AREA : (i + 1) * AREA] for i, front in enumerate(fronts))


if __name__ == "__main__":
    sys.stdout.buffer.write(stream(*map(int, sys.argv[1:])))
