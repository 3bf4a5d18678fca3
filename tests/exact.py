#!/usr/bin/env python3
"""The console's answers worked anew, with exact fractions, to hold the program to: exact.py FILE prints what `sil FILE` should print.

It shares no code with the program and keeps the sheet in another way: settings in a dictionary, rows as tuples, percentages by
comparing fractions.
"""
import re
import sys
from fractions import Fraction

LIMITS = {1: (1, 200000), 2: (0, 10000), 3: (0, 10000), 4: (0, 10000), 5: (0, 10000), 6: (0, 10000), 7: (65, 66), 8: (1, 5)}
WORDS = {1: 'place over 7', 2: 'rate outside 1 to 100000000', 3: 'safe share or coverage over 1000', 4: '64 rows stand already',
         5: 'no such row', 6: 'field not 1 to 8', 7: 'value outside the limits of its field', 8: 'mode letter not L or H',
         11: 'place without rows', 12: 'safe share or coverage blank'}
ARGUMENTS = {'enter': 'nnss', 'strike': 'n', 'set': 'nnn', 'blank': 'nn', 'mode': 'c', 'clear': '', 'show': 'n'}
LINE_LIMIT = 4096


class NotCall(Exception):
    pass


class Refused(Exception):
    def __init__(self, number, place=None, item=None):
        parts = [f'refused {number}'] + ([f'place {place}'] if place is not None else []) + ([f'item {item}'] if item is not None else [])
        super().__init__(' '.join(parts) + f' layer 1: {WORDS[number]}')


def argument(kind, word):
    if kind == 'c':
        if len(word) != 1:
            raise NotCall('not a single character')
        return word
    if kind == 's' and word == '-':
        return None
    if not re.fullmatch('[0-9]+', word, re.ASCII):
        raise NotCall('not a number')
    digits = word.lstrip('0') or '0'
    if len(digits) > 10 or int(digits) > 4294967295:
        raise NotCall('number too large')
    return int(digits)


def parse(line):
    if len(line) > LINE_LIMIT:
        raise NotCall(f'line is longer than {LINE_LIMIT} bytes')
    try:
        text = line.decode('utf-8')
    except UnicodeDecodeError:
        raise NotCall('line is not text')
    words = [w for w in re.split('[ \t\r\n]', text.split('#')[0]) if w]
    if not words:
        return None
    if words[0] not in ARGUMENTS:
        raise NotCall('no call has this name')
    kinds, given, values = ARGUMENTS[words[0]], words[1:], []
    for i, kind in enumerate(kinds):
        if i >= len(given):
            raise NotCall('a word is missing')
        values.append(argument(kind, given[i]))
    if len(given) > len(kinds):
        raise NotCall('too many words')
    return words[0], values


def tenths(x):
    """The nearest whole number of tenths of a per cent, the upper of two."""
    low = int(x * 1000)
    t = min((low, low + 1), key=lambda t: (abs(x - Fraction(t, 1000)), -t))
    return f'{t // 10}.{t % 10}'


class Sheet:
    def __init__(self):
        self.clear()

    def clear(self):
        self.letter, self.settings, self.rows = None, {}, []
        return 'done'

    def enter(self, place, rate, safe, coverage):
        if place > 7: raise Refused(1, place)
        if not 1 <= rate <= 10**8: raise Refused(2, place)
        if max(safe or 0, coverage or 0) > 1000: raise Refused(3, place)
        if len(self.rows) == 64: raise Refused(4, place)
        self.rows.append((place, rate, safe, coverage))
        return f'row {len(self.rows) - 1}'

    def strike(self, row):
        if row >= len(self.rows): raise Refused(5, None, row)
        del self.rows[row]
        return 'done'

    def named(self, place, field):
        if place > 7: raise Refused(1, place, field)
        if field not in LIMITS: raise Refused(6, place, field)

    def set(self, place, field, value):
        self.named(place, field)
        if not LIMITS[field][0] <= value <= LIMITS[field][1]: raise Refused(7, place, field)
        self.settings[place, field] = value
        return 'done'

    def blank(self, place, field):
        self.named(place, field)
        self.settings.pop((place, field), None)
        return 'done'

    def mode(self, letter):
        if letter not in 'LH': raise Refused(8)
        self.letter = letter
        return 'done'

    def show(self, place):
        if place > 7: raise Refused(1, place)
        mine = [(n, r) for n, r in enumerate(self.rows) if r[0] == place]
        if not mine: raise Refused(11, place)
        for n, (_, _, safe, coverage) in mine:
            if safe is None or coverage is None: raise Refused(12, place, n)
        total = sum(Fraction(r[1]) for _, r in mine)
        safe = sum(Fraction(r[1] * r[2], 1000) for _, r in mine)
        found = sum(Fraction(r[1], 1) * (1 - Fraction(r[2], 1000)) * Fraction(r[3], 1000) for _, r in mine)
        dangerous = total - safe
        return f'sff {tenths((safe + found) / total)} dc {tenths(found / dangerous) if dangerous else "-"}'


def main():
    sheet = Sheet()
    with open(sys.argv[1], 'rb') as f:
        data = f.read()
    for line in data.split(b'\n'):
        try:
            call = parse(line)
            if call:
                print(getattr(sheet, call[0])(*call[1]))
        except NotCall as why:
            print(f'not a call: {why}')
        except Refused as why:
            print(why)


if __name__ == '__main__':
    main()
