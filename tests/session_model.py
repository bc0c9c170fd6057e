#!/usr/bin/env python3
"""An independent model of sessions, and the sessions of the programs `chartline` and `chartbag`.

`python3 tests/session_model.py session > crates/chartline/stdin` writes a clerk's session;
`python3 tests/session_model.py line < crates/chartline/stdin` (or `bag`) writes the text that it
gives. The gate does not run this script: it compares the proved programs with the stored texts.
"""
import sys

from chart_model import greedy, read, written


def most_acts(lines, ordered):
    """How many acts a greedy run carries over a channel of 32 messages a pair."""
    waiting = {}

    def carry(party, letter, peer, name):
        if letter == "S":
            queue = waiting.setdefault((party, peer), [])
            if len(queue) == 32:
                return False
            queue.append(name)
        else:
            queue = waiting.get((peer, party), [])
            if name not in (queue[:1] if ordered else queue):
                return False
            queue.remove(name)
        return True

    return greedy(lines, carry)


def add(book, ident, lines, ordered):
    if ident > 7:
        return 9, ident
    if ident in book:
        return 10, ident
    for held in book.values():
        if len(held) != len(lines):
            return 11, len(held)
    for other, held in sorted(book.items()):
        if held == lines:
            return 12, other
    most = most_acts(lines, ordered)
    if most < sum(map(len, lines)):
        return 13, most
    book[ident] = lines
    return 0, len(book)


def withdraw(book, ident):
    if ident > 7:
        return 9, ident
    if ident not in book:
        return 14, ident
    del book[ident]
    return 0, len(book)


def transcript(data, ordered):
    data = data[:32768]
    book, at, out = {}, 0, []
    while at < len(data):
        letter = chr(data[at])
        if letter == "A":
            head = data[at + 1:at + 4]
            size = head[1] * 256 + head[2] if len(head) == 3 else 0
            file = data[at + 4:at + 4 + size]
            if len(head) < 3 or len(file) < size:
                return out + ["? 25 %d 0" % len(data)]
            got = read(bytes(file))
            number, place = add(book, head[0], got[1], ordered) if got[0] == "ok" else got
            at += 4 + size
        elif letter == "W":
            if at + 1 == len(data):
                return out + ["? 25 %d 0" % len(data)]
            number, place = withdraw(book, data[at + 1])
            at += 2
        else:
            return out + ["? 24 %d 0" % at]
        out.append("%s %d %d 0" % (letter, number, place))
    return out


def chart(*lines):
    return written([[tuple(a) for a in line] for line in lines])


def session():
    def a(ident, file):
        return bytes([65, ident, len(file) >> 8, len(file) & 255]) + file

    def w(ident):
        return bytes([87, ident])

    h = bytes.fromhex
    one = chart([("S", 1, 5)], [("R", 0, 5)])
    reply = chart([("S", 1, 5), ("R", 1, 6)], [("R", 0, 5), ("S", 0, 6)])
    crossing = chart([("S", 1, 1), ("S", 1, 2)], [("R", 0, 2), ("R", 0, 1)])
    ring = chart([("S", 1, 0), ("R", 2, 2)], [("R", 0, 0), ("S", 2, 1)], [("R", 1, 1), ("S", 0, 2)])
    many = chart([("S", 1, k) for k in range(32)], [("R", 0, k) for k in range(32)])
    full = h("43024c00") + h("530105") * 33 + h("4c015a")
    out = [w(0), a(0, one), a(1, reply), a(0, many), a(8, many), a(2, one), a(2, ring), a(2, crossing),
           a(3, b""), a(3, h("43024c005a")), a(3, h("430753")), a(3, full), a(3, one + b"!"),
           a(3, h("43024c005301054c015a")), a(3, h("43024c005201015301024c015200025300015a")),
           w(9), w(5), w(0), a(0, many), a(7, chart([], [])), a(255, one), a(4, one), w(1), w(4), w(0), w(7), w(2), w(2), a(6, ring), a(5, one), w(6),
           a(5, one)]
    for ident in range(8):
        out.append(a(ident, chart([("S", 1, ident)], [("R", 0, ident)])))
    out += [a(3, one), w(3), a(3, reply)]
    # two rows at once: the first in the order of the rows answers
    ring_crossing = chart([("S", 1, 1), ("S", 1, 2)], [("R", 0, 2), ("R", 0, 1)], [])
    out += [a(9, ring), a(9, reply), a(9, crossing), a(3, ring), a(3, reply), a(3, crossing), w(2), a(2, ring_crossing), b"Q"]
    return b"".join(out)


if __name__ == "__main__":
    if sys.argv[1:] == ["session"]:
        sys.stdout.buffer.write(session())
    elif sys.argv[1:] in (["line"], ["bag"]):
        for text in transcript(sys.stdin.buffer.read(), sys.argv[1] == "line"):
            print(text)
    else:
        sys.exit(__doc__)
