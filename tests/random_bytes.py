#!/usr/bin/env python3
"""random_bytes.py SEED COUNT: bytes of every kind, with many line ends, blanks, digits and parts of calls among them."""
import random
import sys

rng = random.Random(int(sys.argv[1]))
PARTS = [b'enter ', b'show ', b'mode ', b'set ', b'blank ', b'strike ', b'clear', b'-', b'#', b'\r', b'\t', '\u00e9'.encode(), b'\xff', b'\x00', b'x' * 4096]
out = bytearray()
while len(out) < int(sys.argv[2]):
    kind = rng.random()
    if kind < 0.3: out += rng.choice(PARTS[:-1])
    elif kind < 0.6: out += str(rng.choice([0, 1, 7, 8, 64, 1000, 10 ** rng.randrange(12)])).encode() + b' '
    elif kind < 0.97: out += b'\n'
    elif kind < 0.999: out.append(rng.randrange(256))
    else: out += PARTS[-1]
sys.stdout.buffer.write(out)
