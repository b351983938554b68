#!/usr/bin/env python3
"""Writes the sample inputs of this folder: python3 samples/make.py"""
import pathlib
import struct

HERE = pathlib.Path(__file__).resolve().parent

TAKE, HOLD, RESUME, CLEAR = 0, 1, 2, 3


def cue(channel, action, item, frame):
    """A cue record of 16 bytes: channel, action, two ignored, item, frame."""
    return struct.pack("<BBxxIQ", channel, action, item, frame)


# An evening on three channels, with each fault that Check looks for.
DAY = [
    cue(3, TAKE, 7, 100),
    cue(3, HOLD, 0, 90),  # before the last good frame of channel 3
    cue(3, HOLD, 0, 150),
    cue(0, HOLD, 0, 150),  # hold on black: good, and ignored on air
    cue(3, RESUME, 0, 150),  # the same frame again is good
    cue(0, TAKE, 4_000_000_000, 200),
    cue(16, TAKE, 8, 200),  # no such channel
    cue(0, 4, 0, 210),  # no such action
    cue(15, TAKE, 1, 2_159_999),
    cue(15, CLEAR, 0, 2_160_000),  # no such frame
    cue(15, CLEAR, 0, 2_159_999),
    cue(3, TAKE, 9, 300),
]

SAMPLES = {"day.cues": b"".join(DAY)}

if __name__ == "__main__":
    for name, data in SAMPLES.items():
        (HERE / name).write_bytes(data)
