#!/usr/bin/env python3
"""What the program card_changes should print, worked anew: what becomes of every cut and of every change of one byte of a short card."""
from exact_card import CardRefused, Sheet

CARD = bytes.fromhex('01000148' '020006000100002238' '020006010700000042' '03000900000186a001f40258' '0300090300000007ffff03e8')


def judged(card):
    """Loaded onto the sheet of the card: 'back' where it is written back, the refusal and its byte, or 'wrong'."""
    sheet = Sheet()
    sheet.load(CARD)
    try:
        sheet.load(card)
    except CardRefused as why:
        return (why.number, why.byte) if sheet.card() == CARD else 'wrong'
    return 'back' if sheet.card() == card else 'wrong'


def tally(name, cards):
    verdicts = [judged(card) for card in cards]
    line = f'{name}: {verdicts.count("back")} written back, {verdicts.count("wrong")} wrong'
    refused = [v for v in verdicts if isinstance(v, tuple)]
    for number in sorted({n for n, _ in refused}):
        bytes_told = [b for n, b in refused if n == number]
        line += f', {len(bytes_told)} refused {number} at bytes of sum {sum(bytes_told)}'
    print(line)


tally('cuts', [CARD[:end] for end in range(len(CARD) + 1)])
tally('changes', [CARD[:at] + bytes([b]) + CARD[at + 1:] for at in range(len(CARD)) for b in range(256) if b != CARD[at]])
