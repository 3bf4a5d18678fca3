"""The card of a sheet worked anew, over the exact calculation of the console's answers: the order of fields by comparing tuples."""
import exact


class CardRefused(Exception):
    def __init__(self, number, byte=None):
        self.number, self.byte = number, byte


class Sheet(exact.Sheet):
    def load(self, card):
        fresh, at, last = Sheet(), 0, (0,)
        while at < len(card):
            try:
                last, at = fresh.field(card, at, last)
            except exact.Refused as why:
                raise CardRefused(int(str(why).split()[1]), at)
            except CardRefused as why:
                why.byte = at
                raise
        self.letter, self.settings, self.rows = fresh.letter, fresh.settings, fresh.rows

    def field(self, card, at, last):
        """One field of a card, after a field of rank `last`: its rank, and where the next one starts."""
        if at + 3 > len(card): raise CardRefused(14)
        tag, size, value = card[at], int.from_bytes(card[at + 1:at + 3], 'big'), card[at + 3:]
        if tag not in (1, 2, 3): raise CardRefused(15)
        if size != {1: 1, 2: 6, 3: 9}[tag]: raise CardRefused(16)
        if len(value) < size: raise CardRefused(14)
        rank = (tag, *value[:2]) if tag == 2 else (tag,)
        if tag != 3 and rank <= last: raise CardRefused(17)
        if tag == 1:
            self.mode(chr(value[0]))
        elif tag == 2:
            self.set(value[0], value[1], int.from_bytes(value[2:6], 'big'))
        else:
            shares = [int.from_bytes(value[i:i + 2], 'big') for i in (5, 7)]
            self.enter(value[0], int.from_bytes(value[1:5], 'big'), *(None if s == 65535 else s for s in shares))
        return rank, at + 3 + size

    def card(self):
        out = b'' if self.letter is None else bytes([1, 0, 1]) + self.letter.encode()
        for (place, field), value in sorted(self.settings.items()):
            out += bytes([2, 0, 6, place, field]) + value.to_bytes(4, 'big')
        for place, rate, safe, coverage in self.rows:
            out += bytes([3, 0, 9, place]) + rate.to_bytes(4, 'big')
            out += b''.join((65535 if s is None else s).to_bytes(2, 'big') for s in (safe, coverage))
        return out
