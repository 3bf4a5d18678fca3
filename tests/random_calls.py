#!/usr/bin/env python3
"""random_calls.py SEED COUNT: calls of all kinds, most of them good, some at and beyond each limit, and lines that are no calls."""
import random
import sys

rng = random.Random(int(sys.argv[1]))
EDGES = {'place': [0, 7, 8], 'rate': [0, 1, 100000000, 100000001], 'share': [0, 1, 999, 1000, 1001], 'row': [0, 63, 64],
         'field': [0, 1, 8, 9], 'value': [0, 1, 5, 6, 64, 65, 66, 67, 10000, 10001, 200000, 200001, 4294967295]}
USUAL = {'place': 3, 'rate': 500000, 'share': 1000, 'row': 40, 'field': 8, 'value': 12000}
ODD = ['', '#', '  # only a comment', 'show', 'show -', 'show 1 2', 'show +1', 'show 4294967296', 'show 000000000000000007', 'SHOW 1',
       'mode', 'mode LH', 'mode é', 'mode \t H', 'clear now', 'strike x y', 'strike 1 2', 'enter 0 1 2', 'enter 1 - 500 600', 'set 1 2',
       'set 1 2 3 4', 'blank 1 1#comment', 'enter\t2  1000 500 600 ', '\r', 'longest', '0', '-']


def number(kind):
    if rng.random() < 0.06:
        return rng.choice(EDGES[kind])
    return rng.randrange(USUAL[kind] + 1) if kind != 'rate' else 1 + rng.randrange(10 ** rng.randint(1, 8))


def share():
    return '-' if rng.random() < 0.01 else number('share')


def line():
    kind = rng.choices(['enter', 'strike', 'set', 'blank', 'mode', 'clear', 'show', 'odd'], [40, 14, 10, 4, 3, 0.4, 40, 6])[0]
    if kind == 'enter':
        return f'enter {number("place")} {number("rate")} {share()} {share()}'
    if kind == 'strike':
        return f'strike {number("row")}'
    if kind == 'set':
        return f'set {number("place")} {number("field")} {number("value")}'
    if kind == 'blank':
        return f'blank {number("place")} {number("field")}'
    if kind == 'mode':
        return 'mode ' + rng.choice('LHLHLHlhX')
    if kind == 'show':
        return f'show {number("place")}'
    return kind if kind == 'clear' else rng.choice(ODD)


for _ in range(int(sys.argv[2])):
    print(line())
