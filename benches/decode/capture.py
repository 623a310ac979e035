"""Writes a capture of 64 MiB to the file named: frames of many sizes, noise between them, and damaged frames."""
import random
import sys

SIZE = 64 * 1024 * 1024
COMMANDS = [0x06, 0x15, 0x20, 0x21, 0x30, 0x40, 0x41, 0x50, 0x51, 0x62, 0x63, 0x99]


def crc(data):
    value = 0
    for byte in data:
        value ^= byte
        for _ in range(8):
            value = (value >> 1) ^ (0x8408 if value & 1 else 0)
    return value


def frame(rng):
    length = rng.choice([0, 1, 2, 8, 30, 100, 158, 250])
    covered = bytes([length + 4, rng.choice(COMMANDS)]) + rng.randbytes(length)
    value = crc(covered)
    return b"\xff\x02" + covered + bytes([value & 0xFF, value >> 8, 0x03])


def piece(rng):
    kind = rng.random()
    if kind < 0.80:
        return frame(rng)
    if kind < 0.90:
        return rng.randbytes(rng.randint(1, 200))
    damaged = bytearray(frame(rng))
    damaged[rng.randrange(len(damaged))] ^= 1 << rng.randrange(8)
    return bytes(damaged)


rng = random.Random(20)
pieces = [piece(rng) for _ in range(6000)]
with open(sys.argv[1], "wb") as out:
    written = 0
    while written < SIZE:
        one = rng.choice(pieces)
        out.write(one)
        written += len(one)
