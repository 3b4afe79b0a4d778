#!/usr/bin/env python3
"""Makes an image of the greatest size of version 1, for `run.sh`: 1,024 entries, 65,536 words of program, of each kind of
instruction and with branches and jumps into it, and 65,536 words of data, all drawn from one seed.

    bench/greatest_image.py IMAGE
"""
import random
import struct
import sys

WORDS, ENTRIES = 65_536, 1_024


def branch(at, to, rest):
    far = 4 * (to - at)
    return (far >> 12 & 1) << 31 | (far >> 5 & 63) << 25 | rest << 12 | (far >> 1 & 15) << 8 | (far >> 11 & 1) << 7 | 0x63


def jump(at, to, rd):
    far = 4 * (to - at)
    return (far >> 20 & 1) << 31 | (far >> 1 & 1023) << 21 | (far >> 11 & 1) << 20 | (far >> 12 & 255) << 12 | rd << 7 | 0x6F


def word(draw, at):
    rd, rs1, rs2, imm = draw.randrange(32), draw.randrange(32), draw.randrange(32), draw.randrange(4096)
    return draw.choice((
        branch(at, max(0, min(WORDS - 1, at + draw.randrange(-500, 500))), rs2 << 8 | rs1 << 3 | draw.choice((0, 1, 4, 5, 6, 7))),
        jump(at, draw.randrange(WORDS), rd),
        imm << 20 | rs1 << 15 | draw.choice((0, 1, 2, 4, 5)) << 12 | rd << 7 | 0x03,
        imm >> 5 << 25 | rs2 << 20 | rs1 << 15 | draw.choice((0, 1, 2)) << 12 | (imm & 31) << 7 | 0x23,
        draw.randrange(1 << 20) << 12 | rd << 7 | draw.choice((0x17, 0x37)),
        rs2 << 20 | rs1 << 15 | draw.randrange(8) << 12 | rd << 7 | 0x33,
        imm << 20 | rs1 << 15 | draw.choice((0, 2, 3, 4, 6, 7)) << 12 | rd << 7 | 0x13,
        draw.randrange(32) << 20 | rs1 << 15 | draw.choice((1, 5)) << 12 | rd << 7 | 0x13,
    ))


def main(image):
    draw = random.Random(1)
    entries = [4 * (WORDS // ENTRIES) * n for n in range(ENTRIES)]
    registers = [draw.getrandbits(32) for _ in range(31)]
    text = [word(draw, at) for at in range(WORDS)]
    data = [draw.getrandbits(32) for _ in range(WORDS)]
    head = b"SVCI" + struct.pack("<HHIIII", 1, len(entries), len(text), len(data), 65_536, entries[0])
    words = registers + entries + text + data
    with open(image, "wb") as it:
        it.write(head + struct.pack(f"<{len(words)}I", *words))


main(sys.argv[1])
