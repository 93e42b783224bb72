#!/usr/bin/env python3
"""Writes frames for the program `trials` and for model.py.

    make.py SEED          the frames, to standard output; the same bytes for the same seed
    make.py bad DIR       the inputs that end in a bad frame: DIR/00, DIR/01, ...
    make.py count SEED    how many frames of each call, and what the model answers to them

Texts are kept small so that frames and lines can be read; the few at the limits stand in `limits`.
"""

import collections
import itertools
import os
import sys

sys.dont_write_bytecode = True
import model
from model import A, B, C, EXTEND, PROJECT, RAISE, frame

GREATEST = 2 ** 64 - 1
EMPTY = b"x 0 0 1 7\n\n0 3 0"
SUM = b"w 1 6 1 9\n6\n1 0 -1 wsum lin 2 > 4"
WIDE = b"lent 3 2 3 100\n2 2 2\n1 0 1 1\n1 3\n2 1 2 4 1\n1 0 9\n3 2 0 1 5 2\n0 0 1 8\n1 1 0 100"
PAIR = b"pair 2 3 3 6\n2 3\n1 1 1 1\n2 2\n2 1 0 2 2\n0 1 6\n2 0 3\n0 1 0"


class Dice:
    """A small generator of its own, so that a seed gives the same frames under every Python."""

    def __init__(self, seed):
        self.state = seed % 2 ** 64

    def below(self, n):
        self.state = (self.state + 0x9E3779B97F4A7C15) % 2 ** 64
        z = self.state
        z = (z ^ z >> 30) * 0xBF58476D1CE4E5B9 % 2 ** 64
        z = (z ^ z >> 27) * 0x94D049BB133111EB % 2 ** 64
        return (z ^ z >> 31) % n

    def pick(self, things):
        return things[self.below(len(things))]

    def one_in(self, n):
        return self.below(n) == 0

    def order(self, things):
        left, out = list(things), []
        while left:
            out.append(left.pop(self.below(len(left))))
        return out


def words_of(*parts):
    return model.line(*parts).encode()


def own_record(text):
    """The finished search of a text and its record's words."""
    net, costs = model.read(text)
    done = model.Search(net, costs, 10 ** 6)
    return done, model.to_words(model.record_of(net, done))


def check_frame(text, words):
    record = words if isinstance(words, bytes) else model.to_bytes(words)
    return frame("check", text, len(record), record=record)


# ----------------------------------------------------------------------------------- (a) the figures of document 01, every call

def every_call(text):
    net, costs = model.read(text)
    e, sizes = len(costs), net.sizes[:net.n]
    done, words = own_record(text)
    room = 8 * len(words)
    for entries in sorted({0, max(0, e - 1), e, e + 1, e + 5}):
        yield frame("read", text, entries)
    for plan in itertools.product(*map(range, sizes)):
        yield frame("price", text, net.n, *plan)
    for node in itertools.product(*[range(size + 1) for size in sizes]):
        yield frame("pass", text, *node)
    for i in range(net.n):
        least = min(costs[net.unary(i, a)] for a in range(sizes[i]))
        for amount in sorted({1, least, least + 1}):
            yield frame("shift", text, RAISE, 0, i, 0, amount)
    for f in range(net.functions):
        for i in net.scope(f):
            for a in range(sizes[i]):
                least = min(costs[p] for p in model.live_cells(net, [0] * net.n, f, i, a))
                yield frame("shift", text, PROJECT, f, i, a, max(1, least))
                yield frame("shift", text, EXTEND, f, i, a, max(1, costs[net.unary(i, a)]))
    for budget in (0, done.nodes - 1, done.nodes, done.nodes + 1, 1000000, GREATEST):
        yield frame("search", text, budget, 1, room)
    for asked, bytes_ in ((1, room - 1), (1, room + 9), (1, 0), (0, 0), (0, room), (0, 3)):
        yield frame("search", text, done.nodes, asked, bytes_)
    yield frame("search", text, done.nodes - 1, 1, room - 1)
    yield check_frame(text, words)
    for which in (0, 1):
        for f in list(range(net.functions + 1)) + [65535, GREATEST]:
            yield frame("show", text, which, f)


def hand():
    for text in (A, B, C, EMPTY, SUM):
        yield from every_call(text)
    # the four shifts of the P table, alone and beside a dead variable's entries
    for x, y, unary, kind, amount in ((7, 10, 0, 2, 7), (7, 10, 0, 2, 8), (7, 10, 6, 2, 7), (8, 0, 3, 3, 3)):
        yield frame("shift", b"s 2 2 2 10\n1 2\n2 0 1 %d 1\n0 1 %d\n1 0 %d 0" % (x, y, unary), kind, 0, 0, 0, amount)
        yield frame("shift", b"s 3 2 2 10\n1 2 2\n3 0 1 2 0 2\n0 0 1 %d\n0 1 1 %d\n1 0 %d 0" % (x, y, unary),
                    kind, 0, 0, 0, amount, 0, 0, 2)
    for text in (b"", b"x 64 1 0 1\n" + 64 * b" 1", b"x 65 1 0 1\n" + 65 * b" 1", b"x 1 16 0 1 16", b"x 1 16 0 1 17",
                 b"x 1 17 0 1 17"):
        yield frame("read", text, 64)
        yield frame("search", text, 1000000, 0, 0)


# -------------------------------------------------------------------------------------------------------- (b) refusals of texts

WHOLE = b"""rep 4 3 9 20
2 3 1 2
0 5 0
1 0 1 1
1 7
1 1 -1 wsum lin 2 > 1
2 0 1 3 2
0 2 4
1 1 0
2 3 1 -1 wsum hard 0 == 2
3 0 1 3 1 2
0 0 0 9
1 2 1 2
3 1 2 0 -1 wsum quad 1 <= 1
1 3 2 0
0 0 0
"""

OTHER_CALLS = (("price", 4), ("shift", 4, 0, 0, 0, 1), ("pass",), ("search", 99, 1, 64), ("check", 0), ("show", 0, 0))


def whole_tokens():
    """Each token of WHOLE, with what stands before and behind it."""
    at = 0
    for token in WHOLE.split():
        at = WHOLE.index(token, at)
        yield WHOLE[:at], token, WHOLE[at + len(token):]
        at += len(token)


def damaged_texts():
    """Every token of WHOLE missing, cut off, and replaced in each way."""
    for number, (before, token, after) in enumerate(whole_tokens()):
        yield before.rstrip()
        yield before + after
        for other in (b"x", b"-1", b"0", b"17", b"257", b"00000000000001", b"9999999999999"):
            if other != token:
                yield before + other + after
        if token.isdigit():
            yield before + b"%d" % (int(token) + 1) + after
            yield before + (b"+" + token, b"0" + token, token + b"\v", token + b".")[number % 4] + after
        if number % 5 == 0:
            yield before


EDGES = (
    # names and what separates
    b"n" * 64 + b" 0 0 0 1", b"n" * 65 + b" 0 0 0 1", b"  " + b"n" * 65, b"\xc3\xa9\x00\x0b\x0c\xff 0 0 0 1", b"0 0 0 0 1",
    b"-1 0 0 0 1", b"\t\r\n n\r\n0\t0 0\r1\r\n\t ", b"n 0 0 0 1\x00", b"n 0 0 0 1\x0b", b"n 0 0\x0c0 1", b"n\xa00 0 0 1",
    b" ", b"\n\n\n", b"n", b"n ", b"n 0 0 0", b"n 0 0 0 \n",
    # numbers: digits and ranges
    b"n 0 0 0 1000000000000", b"n 0 0 0 1000000000001", b"n 0 0 0 0000000000001", b"n 0 0 0 00000000000001", b"n 0 0 0 0",
    b"n 0 0 0 1.", b"n 0 0 0 +1", b"n 0 0 0 -1", b"n 0 0 0 1e2", b"n 0 0 0 0x1", b"n 0 0 0 18446744073709551617",
    b"n 00 00 00 01", b"n 0 0 256 1", b"n 0 0 257 1", b"n 65 0 0 1", b"n 65 99 999 0", b"n 64 17 0 1", b"n 0 16 0 1",
    b"n 0 17 0 1", b"n 0 1 257 1",
    # sizes and the greatest of them
    b"n 1 0 0 1 1", b"n 1 0 0 1 0", b"n 1 1 0 1 0", b"n 1 1 0 1 x", b"n 1 2 0 1", b"n 2 2 0 1 1 1", b"n 2 1 0 1 2 1",
    b"n 2 1 0 1 2 17", b"n 2 2 0 1 2 2 ", b"n 2 16 0 1 16 17", b"n 2 2 0 1 3 2", b"n 2 2 0 1 3", b"n 2 2 0 1 3 y",
    b"n 2 3 0 1 2 2 text",
    # arity 0
    b"n 0 0 1 5 0 7 0", b"n 0 0 1 5 0 7 1", b"n 0 0 1 5 0 7", b"n 0 0 1 5 0 -1 0", b"n 0 0 1 5 0 -1 wsum lin 1 == 0",
    b"n 0 0 1 5 0 x 1", b"n 0 0 1 5 0 9999999999999 0", b"n 0 0 1 5 0 10000000000000 0", b"n 0 0 2 5 0 3 0 0 4 0",
    b"n 0 0 1 5 1 0 0 0", b"n 0 0 1 5 4", b"n 0 0 1 5 0 1 9999999999999", b"n 0 0 3 1 0 0 0 0 1 0 0 1 0",
    # scopes
    b"n 2 2 1 5 2 2 1 2 0 0", b"n 2 2 1 5 2 2 1 9999999999999 0 0", b"n 2 2 1 5 2 2 1 99999999999999 0 0",
    b"n 2 2 1 5 2 2 2 1 1 0 0", b"n 2 2 1 5 2 2 2 0 2 0 0", b"n 3 2 1 5 2 2 2 3 0 1 0 0 0", b"n 3 2 1 5 2 2 2 3 2 1 1 0 0",
    b"n 3 2 1 5 2 2 2 3 2 2 1 0 0", b"n 3 2 1 5 2 2 2 3 2 3 2 0 0", b"n 3 2 1 5 2 2 2 2 01 1 0 0",
    b"n 3 2 2 5 2 2 2 2 0 1 0 0 2 0 1 1 0", b"n 3 2 2 5 2 2 2 2 0 1 0 0 2 1 0 1 0",
    # tuples
    b"n 1 2 1 5 2 1 0 0 2 0 1 1 2", b"n 1 2 1 5 2 1 0 0 3 0 1 1 2 1 1", b"n 1 2 1 5 2 1 0 0 2 1 1 1 2",
    b"n 1 2 1 5 2 1 0 0 2 1 1 1", b"n 1 2 1 5 2 1 0 0 2 1 1 1 x", b"n 1 2 1 5 2 1 0 0 2 1 1 01 x",
    b"n 1 2 1 5 2 1 0 0 2 1 1 2", b"n 1 2 1 5 2 1 0 0 2 1 1 x 1", b"n 2 2 1 5 2 2 2 0 1 0 2 1 0 3 1 0 3",
    b"n 2 2 1 5 2 2 2 0 1 0 2 1 0 3 0 1 3", b"n 2 2 1 5 2 2 2 0 1 0 2 1 0 3 1 2 3", b"n 2 2 1 5 2 2 2 0 1 0 2 1 0 3 2 0 3",
    b"n 2 2 1 5 2 2 2 0 1 0 4 0 0 1 0 1 1 1 0 1 1 1 1", b"n 2 2 1 5 2 2 2 0 1 0 5 0 0 1",
    b"n 3 2 1 5 2 2 2 3 2 0 1 4 2 1 0 1 6 1 0 1 2", b"n 3 2 1 5 2 2 2 3 2 0 1 4 2 1 0 1 6 1 1 0 2",
    b"n 3 2 1 5 2 2 2 3 2 0 1 4 8", b"n 3 2 1 5 2 2 2 3 2 0 1 4 9", b"n 1 1 1 5 1 1 0 0 1 0 9999999999999",
    b"n 1 1 1 5 1 1 0 0 1 0 10000000000000", b"n 1 2 2 5 2 1 0 1 1 1 0 1 0 4 1 0 9",
    # soft sums
    b"n 1 2 1 5 2 1 0 -1 wsum lin 1 == 1", b"n 1 2 1 5 2 1 0 -1 WSUM lin 1 == 1", b"n 1 2 1 5 2 1 0 -01 wsum lin 1 == 1",
    b"n 1 2 1 5 2 1 0 -1 wsu lin 1 == 1", b"n 1 2 1 5 2 1 0 -1 wsumm lin 1 == 1", b"n 1 2 1 5 2 1 0 -1 wsum Lin 1 == 1",
    b"n 1 2 1 5 2 1 0 -1 wsum linear 1 == 1", b"n 1 2 1 5 2 1 0 -1 wsum lin 1 = 1", b"n 1 2 1 5 2 1 0 -1 wsum lin 1 === 1",
    b"n 1 2 1 5 2 1 0 -1 wsum lin 1 => 1", b"n 1 2 1 5 2 1 0 -1 wsum lin 1 == 1000",
    b"n 1 2 1 5 2 1 0 -1 wsum lin 1 == 1001", b"n 1 2 1 5 2 1 0 -1 wsum lin 1 == -1",
    b"n 1 2 1 5 2 1 0 -1 wsum lin 1000000000000 == 0", b"n 1 2 1 5 2 1 0 -1 wsum hard 1000000000001 == 0",
    b"n 1 2 1 5 2 1 0 -1 wsum lin -1 == 0", b"n 1 2 1 5 2 1 0 -1 1", b"n 1 2 1 5 2 1 0 --1 wsum",
    b"n 1 2 1 5 2 1 0 -1wsum lin 1 == 1", b"n 1 2 1 5 2 1 0 -1 wsum lin 1==1", b"n 1 2 1 5 2 1 0 -1 wsum lin 1 == 1 0",
    b"n 1 2 1 1000000000000 2 1 0 -1 wsum quad 1000000000000 > 1000", b"n 1 2 1 1000000000000 2 1 0 -1 wsum quad 1 > 1000",
    b"n 1 2 1 1000000000000 2 1 0 -1 wsum quad 999999 == 1000",
    # text after the last function
    b"n 0 0 0 1 \n ", b"n 0 0 0 1 x", b"n 0 0 0 1\t\tx y", b"n 0 0 1 1 0 0 0 0", b"n 0 0 0 1 \x00", b"n 1 1 0 1 1 1",
)


def text_refusals():
    for text in damaged_texts():
        yield frame("read", text, 44)
    for text in EDGES:
        yield frame("read", text, 12)
    for call, *numbers in OTHER_CALLS:
        for text in (b"", b"n 0 0 0 00000000000001 ", b"n 0 0 0 0", b"n 2 2 1 5 2 2 2 1 1 0 0", b"n 1 2 1 5 2 1 0 0 2 1 1 1 2",
                     WHOLE + b"0"):
            yield frame(call, text, *numbers)
    for entries in range(0, 46, 5):
        yield frame("read", WHOLE, entries)
        yield frame("read", WHOLE + b"0", entries)
    yield frame("read", WHOLE, 39)
    yield frame("read", WHOLE, 40)


# ------------------------------------------------------------------------------------------------------- (b) the bytes of a name

FOREIGN = (b"\x01", b"\x1f", b"\x7f", b"\x80", b"\xc3\xa9", b"\xff")


def with_bytes(some, length):
    """Names of a length that have these bytes first, in the middle and last."""
    for at in (0, (length - len(some)) // 2, length - len(some)):
        yield b"n" * at + some + b"n" * (length - len(some) - at)


def plain_names():
    """Request M-101: a name's bytes are 33 to 126; in other tokens nothing moved."""
    for some in FOREIGN + (b"!", b"~"):
        for length in (len(some), 9, 64, 65):
            for name in with_bytes(some, length):
                yield frame("read", name + b" 0 0 1 7\n0 3 0", 3)
                yield frame("read", b"\r\n\t" + name + b" 0 0 1 7\n0 3 0", 3)
    for byte in range(256):
        yield frame("read", b"%c 0 0 0 1" % byte, 3)
        yield frame("read", b"a%cz 0 0 0 1" % byte, 3)
    for lowest in (33, 63):
        yield frame("read", bytes(range(lowest, lowest + 64)) + b" 0 0 0 1", 3)
    # whatever else is wrong with the name, and with the text behind it; a text that is too long comes before
    for name in (b"n" * 65, b"\xc3\xa9" * 33, b"n" * 64 + b"\xc3\xa9", b"\x00" * 65, b"\xff"):
        for rest in (b"", b" ", b" 0 0 0 1", b" 65 17 257 0", b" x", b" \xc3\xa9"):
            yield frame("read", b" " + name + rest, 3)
    for spaces in (65534, 65535):
        yield frame("read", b"\xc3\xa9" + b" " * spaces, 3)
    for call, *numbers in OTHER_CALLS:
        for name in (b"caf\xc3\xa9", b"\x7f"):
            yield frame(call, b"\n" + name + WHOLE[len(b"rep"):], *numbers)
    for entries in (0, 39, 40):
        yield frame("read", b"\xff" + WHOLE, entries)
        yield frame("read", b"!" + WHOLE, entries)
    # under another name a network has the same costs and the same record
    for text in (A, B, C, WIDE):
        done, words = own_record(text)
        renamed = b"~!" + text[text.index(b" "):]
        yield frame("read", renamed, 20)
        yield frame("search", renamed, done.nodes, 1, 8 * len(words))
        yield check_frame(renamed, words)
    # an e-acute and one of the bytes in each other token, and behind the last
    for number, (before, token, after) in enumerate(list(whole_tokens())[1:]):
        for some in (b"\xc3\xa9", FOREIGN[number % len(FOREIGN)]):
            for other in (some, some + token, token + some):
                yield frame("read", before + other + after, 44)
    for some in FOREIGN:
        yield frame("read", WHOLE + some, 44)


# ----------------------------------------------------------------------------------------- (b) refusals of plans, nodes, shifts

def call_refusals():
    for text in (A, PAIR, WIDE, EMPTY):
        net, costs = model.read(text)
        sizes, n = net.sizes[:net.n], net.n
        for count in (0, 1, n - 1, n, n + 1, 63, 64, 65, 255, 256 + n, 2 ** 32 + n, GREATEST):
            if count >= 0:
                yield frame("price", text, count, *[0] * min(count, n))
                yield frame("price", text, count, 9, 255, 7)
        yield frame("price", text, n, *[0] * n + [255] * (64 - n))
        for i in range(n):
            for value in (sizes[i] - 1, sizes[i], 16, 255):
                yield frame("price", text, n, *[0] * i + [value] + [255] * (n - i - 1))
                yield frame("price", text, n, *[0] * i + [value])
                for node in ([0] * i + [value + 1 if value < 255 else 255], [1] * i + [min(value + 1, 255)] + [0] * (63 - i)):
                    yield frame("pass", text, *node)
                    yield frame("shift", text, RAISE, 0, 0, 0, 1, *node)
        yield frame("pass", text, *[0] * n + [255] * (64 - n))
        yield frame("shift", text, RAISE, 0, 0, 0, 1, *[0] * n + [255] * (64 - n))
        yield from illegal_shifts(text, net, costs)


def illegal_shifts(text, net, costs):
    """Each reason, with the legal shift beside it."""
    n, sizes = net.n, net.sizes
    for i in list(range(n)) + [n, 63, 64, 255]:
        least = min(costs[net.unary(i, a)] for a in range(sizes[i])) if i < n else 1
        for amount in (0, 1, least, least + 1, net.k, net.k + 1, GREATEST):
            yield frame("shift", text, RAISE, 0, i, 0, amount)
        for a in range(sizes[i] if i < n else 0):
            cost = costs[net.unary(i, a)]
            for amount in (cost, cost + 1):
                yield frame("shift", text, RAISE, 0, i, 0, amount, *[0] * i + [a + 1])
    for f in range(net.functions):
        for i in net.scope(f):
            node = [0] * n
            for a in range(sizes[i]):
                least = min(costs[p] for p in model.live_cells(net, node, f, i, a))
                unary = costs[net.unary(i, a)]
                for amount in sorted({0, 1, least, least + 1, net.k, net.k + 1, GREATEST}):
                    yield frame("shift", text, PROJECT, f, i, a, amount)
                for amount in sorted({0, 1, unary, unary + 1, net.k, net.k + 1, GREATEST}):
                    yield frame("shift", text, EXTEND, f, i, a, amount)
                for other in net.scope(f):
                    for b in range(sizes[other]):
                        fixed = [0] * other + [b + 1]
                        full = fixed + [0] * (n - len(fixed))
                        if other == i and b != a:
                            least = 1
                        else:
                            least = min(costs[p] for p in model.live_cells(net, full, f, i, a))
                        yield frame("shift", text, PROJECT, f, i, a, max(1, least), *fixed)
                        yield frame("shift", text, EXTEND, f, i, a, max(1, unary), *fixed)
            for kind in (PROJECT, EXTEND):
                for a in (sizes[i], 16, 255):
                    yield frame("shift", text, kind, f, i, a, 1)
        for kind in (PROJECT, EXTEND):
            for i in range(n + 1):
                if i not in net.scope(f):
                    yield frame("shift", text, kind, f, i, 0, 1)
            yield frame("shift", text, kind, f, 255, 0, 1)
    for kind in (PROJECT, EXTEND):
        for f in (net.functions, 255, 256, 65535):
            yield frame("shift", text, kind, f, 0, 0, 1)


# ----------------------------------------------------------------------------------------------------- (b) spoiled lent numbers

def lent_calls(text):
    """One frame of each call that takes a lent network, each of which is done when nothing is spoiled."""
    net, costs = model.read(text)
    done, words = own_record(text)
    constant, _, shifts = model.passed(net, costs, [0] * net.n)
    short = model.record_words(net, 0, constant, done.plan, shifts + [(5, 0, 0, 0, 0)])
    yield frame("price", text, net.n, *[0] * net.n)
    yield frame("shift", text, PROJECT, 0, 1, 1, 2)
    yield frame("pass", text)
    yield frame("search", text, 99, 1, 8 * len(words) + 2)
    yield check_frame(text, short)
    yield frame("show", text, 0, net.functions - 1)
    yield frame("show", text, 1, net.functions - 1)


def spoils(text):
    net, costs = model.read(text)
    e, k, n, f = len(costs), net.k, net.n, net.functions
    for H, W in ((e, e), (e - 1, e), (e, e - 1), (e - 1, e - 1), (0, e), (e, 0), (e + 1, e + 5), (5000, 5000)):
        yield H, W, 0, 0, 0
    for value in (0, 1, max(costs) - 1, max(costs), k + 1, 10 ** 12, 10 ** 12 + 1, GREATEST):
        yield e, e, 1, 0, value
    for value in (0, k - 1, k, k + 1, GREATEST):
        yield e, e, 2, 0, value
    for value in (0, n - 1, n + 1, 64, 65, 255, 256, GREATEST):
        yield e, e, 3, 0, value
    for place, value in ((0, 0), (0, 1), (0, 3), (n - 1, 0), (n - 1, 16), (n - 1, 17), (1, 255), (n, 5), (63, 255)):
        yield e, e, 4, place, value
    for value in (0, f - 1, f + 1, 256, 257, 65535, GREATEST):
        yield e, e, 5, 0, value
    for place, value in ((0, 0), (0, 1), (0, 2), (0, 3), (0, 4), (f - 1, 2), (f - 1, 3), (f - 1, 255), (f, 7), (255, 1)):
        yield e + 8, e + 8, 6, place, value
    for place, value in ((0, 0), (0, 1), (1, 1), (0, n), (0, 255), (2, 255), (3 * f - 3, n), (3 * f - 1, 0), (3 * f - 1, 200),
                         (767, 9)):
        yield e, e, 7, place, value
    start = net.start[f - 1]
    for place, value in ((0, net.start[0] + 1), (0, 0), (f - 1, start - 1), (f - 1, start + 1), (f - 1, 65535), (f, 3),
                         (0, GREATEST), (f - 1, GREATEST), (255, GREATEST)):
        yield e, e, 8, place, value
    for place, value in ((0, k), (0, k + 1), (e - 1, k), (e - 1, k + 1), (e - 1, GREATEST), (e, GREATEST), (start, 0),
                         (start, k)):
        yield e + 1, e + 1, 9, place, value
    for place, value in ((0, k), (0, k + 1), (e - 1, k + 1), (e - 1, k), (start, GREATEST), (e, GREATEST)):
        yield e + 1, e + 1, 10, place, value
    # 8 before 7: what is there of a short table is judged
    yield e - 1, e, 9, 0, k + 1
    yield e - 2, e, 9, e - 3, k + 1
    yield 1, e, 9, 0, k
    yield e - 1, e - 1, 10, 0, k + 1
    yield e - 1, e, 1, 0, 0
    yield e, 0, 2, 0, k + 1


def lends():
    for text in (WIDE, PAIR):
        for spoil in spoils(text):
            for call in lent_calls(text):
                yield frame("lend", b"", *spoil)
                yield call
    # 8 and 7 before 9, 10, 11, 12 and 13
    for spoil in ((5, 5, 1, 0, 0), (5, 5, 0, 0, 0), (30, 30, 2, 0, 101), (30, 30, 0, 0, 0)):
        for call in (frame("price", WIDE, 7), frame("price", WIDE, 3, 9), frame("shift", WIDE, 2, 9, 9, 9, 0, 9),
                     frame("pass", WIDE, 9), frame("search", WIDE, 0, 1, 0), frame("search", WIDE, 99, 1, 0),
                     check_frame(WIDE, b""), frame("show", WIDE, 0, 9)):
            yield frame("lend", b"", *spoil)
            yield call
    # raising an arity: the third variable is 0, and the new cells are the 77s behind the costs
    for text in (b"up 3 2 1 100\n2 2 2\n2 1 2 4 1\n1 0 9", b"up 3 2 1 76\n2 2 2\n2 1 2 4 1\n1 0 9"):
        for H in (13, 14, 15):
            for call in (frame("price", text, 3, 1, 0, 1), frame("shift", text, PROJECT, 0, 0, 1, 4), frame("pass", text, 2),
                         frame("search", text, 99, 1, 3000), frame("show", text, 0, 0), frame("show", text, 1, 0)):
                yield frame("lend", b"", H, H, 6, 0, 3)
                yield call
    # E past its limit, and sizes past theirs, with everything else in order
    for sizes, e in (((16, 16, 15), 47 + 3840), ((16, 16, 16), 48 + 4096)):
        text = words_of("big", 3, 16, 1, 100) + b"\n" + words_of(list(sizes)) + b"\n2 1 2 5 0"
        for H in (e - 1, e, 5000):
            for call in (frame("price", text, 3, 15, 0, 1), frame("pass", text, 16, 1), frame("show", text, 0, 0)):
                yield frame("lend", b"", H, 5000, 6, 0, 3)
                yield call
    for text, place in ((b"bare 2 3 0 99\n3 2", 1), (b"bare 1 1 0 77\n1", 0), (b"bare 1 1 0 76\n1", 0)):
        for size in (0, 16, 17, 255):
            for call in (frame("price", text, 1 + place, 0, 15), frame("pass", text, 0, 9),
                         frame("shift", text, RAISE, 0, place, 0, 77, 0, 5)):
                yield frame("lend", b"", 300, 300, 4, place, size)
                yield call
    # a lend is spent by whatever follows
    priced = frame("price", B, 1, 1)
    for spends in (frame("read", B, 2), frame("price", b"", 1, 1), frame("lend", b"", 2, 2, 9, 1, 8) + priced):
        yield frame("lend", b"", 0, 0, 0, 0, 0) + spends + priced
    # a network without functions and one without anything
    for text in (b"bare 2 3 0 9\n3 2", EMPTY):
        for spoil in ((0, 0, 0, 0, 0), (5, 5, 3, 0, 1), (5, 5, 3, 0, 0), (5, 5, 4, 1, 1), (5, 5, 4, 0, 4), (5, 5, 5, 0, 1),
                      (9, 9, 9, 8, 99)):
            for call in (frame("price", text, 1, 2), frame("price", text, 0), frame("pass", text),
                         frame("search", text, 99, 1, 600), frame("show", text, 0, 0)):
                yield frame("lend", b"", *spoil)
                yield call


# ---------------------------------------------------------------------------------------------------------- (c) hostile records

TWO = b"two 2 2 3 8\n2 2\n1 0 1 1\n1 3\n2 1 0 0 2\n0 0 4\n1 1 2\n0 1 0"
HARD = b"hard 2 2 1 4\n2 2\n2 0 1 -1 wsum hard 0 > 2"
SLOW = b"slow 2 3 3 9\n1 3\n1 1 2 1\n0 8\n2 0 1 3 1\n0 2 1\n1 0 1 0"


def each_word(text, values):
    done, words = own_record(text)
    for at, word in enumerate(words):
        for value in sorted({value(word) % 2 ** 64 for value in values} - {word}):
            yield check_frame(text, words[:at] + [value] + words[at + 1:])


def each_byte(text):
    done, words = own_record(text)
    whole = model.to_bytes(words)
    for at, byte in enumerate(whole):
        yield check_frame(text, whole[:at] + bytes([255 - byte]) + whole[at + 1:])


def step_changes(text, dice):
    """Steps swapped, dropped, doubled and cut off, the header following."""
    net, costs = model.read(text)
    done, words = own_record(text)
    verdict, cost = words[2], words[3]

    def record(steps):
        return check_frame(text, model.record_words(net, verdict, cost, done.plan, steps))
    steps = done.steps
    for at in range(len(steps)):
        yield record(steps[:at] + steps[at + 1:])
        yield record(steps[:at + 1] + steps[at:])
        if at > 0 and steps[at - 1] != steps[at]:
            yield record(steps[:at - 1] + [steps[at], steps[at - 1]] + steps[at + 1:])
        i = dice.below(net.n + 1)
        if at % 2 == 0:
            extra = dice.pick([(1, 0, i, 0, 0), (2, 0, i, 0, 1), (3, 0, i, 0, 1), (4, 0, i, 0, 1), (5, 0, 0, 0, 0)])
            yield record(steps[:at] + [extra] + steps[at:])
        yield record(steps[:at])
    for extra in ((5, 0, 0, 0, 0), (1, 0, 0, 0, 0), (4, 0, 0, 0, 1), (0, 0, 0, 0, 0)):
        yield record(steps + [extra])


def record_shapes(text, dice):
    """Lengths, bytes and header words that no search writes."""
    net, costs = model.read(text)
    done, words = own_record(text)
    whole = model.to_bytes(words)
    for length in [0, 1, 7, 8, 56, 63, 64, 65, 71, 72, 104] + [8 * dice.below(len(words)) for _ in range(4)]:
        yield check_frame(text, whole[:length])
    for less in (1, 8, 40):
        yield check_frame(text, whole[:-less])
    for extra in (b"\0", b"\x01" * 7, bytes(8), bytes(40), b"\xff" * 16):
        yield check_frame(text, whole + extra)
    for _ in range(12):
        at, bit = dice.below(len(whole)), dice.below(8)
        yield check_frame(text, whole[:at] + bytes([whole[at] ^ 1 << bit]) + whole[at + 1:])
    # the total length, reckoned with overflow, would be right
    for more in (2 ** 61, 2 ** 62, 2 ** 63, 7 * 2 ** 61):
        yield check_frame(text, words[:7] + [words[7] + more] + words[8:])
    # other claims, and plans that are dearer or of the wrong kind
    for verdict, cost in ((0, net.k), (1, net.k), (1, net.k - 1), (0, net.k - 1), (0, max(0, words[3] - 1)), (0, words[3] + 1),
                          (1, GREATEST)):
        for plan in ([], done.plan, [size - 1 for size in net.sizes[:net.n]]):
            yield check_frame(text, model.record_words(net, verdict, cost, plan, done.steps))
    for plan in itertools.product(*map(range, net.sizes[:net.n])):
        cost = model.cost_of(net, costs, plan)
        yield check_frame(text, model.record_words(net, 0, cost, plan, done.steps))
        # the tree of all plans proves what is true
        yield check_frame(text, model.record_words(net, 0, cost, plan, tree(dice, net, costs, cost, 0)))
    yield check_frame(text, model.record_words(net, 1, net.k, [], tree(dice, net, costs, net.k, 0)))


def tree(dice, net, costs, cost, noise):
    """The steps of somebody else's proof: any order of branching, closed where the pass reaches the cost; `noise` is how often
    a cost goes there and back before the pass."""
    steps = []

    def grow(node):
        constant, _, shifts = model.passed(net, costs, node)
        free = [i for i in range(net.n) if node[i] == 0]
        if not free or constant >= cost and not dice.one_in(4):
            if noise and dice.below(4) < noise and net.functions:
                f = dice.below(net.functions)
                i = dice.pick(net.scope(f))
                a = dice.pick(list(model.live(net, node, i)))
                unary = costs[net.unary(i, a)]
                if unary > 0:
                    amount = 1 + dice.below(unary)
                    steps.extend([(EXTEND, f, i, a, amount), (PROJECT, f, i, a, amount)])
            steps.extend(shifts + [(5, 0, 0, 0, 0)])
            return
        i = dice.pick(free)
        steps.append((1, 0, i, 0, 0))
        for a in range(net.sizes[i]):
            grow(node[:i] + [a + 1] + node[i + 1:])
    grow([0] * net.n)
    return steps


def records(dice):
    by_one = (lambda word: word + 1, lambda word: word - 1)
    widely = by_one + (lambda word: 0, lambda word: 2, lambda word: 5, lambda word: GREATEST, lambda word: word + 2 ** 32)
    yield from each_word(B, widely)
    yield from each_word(C, by_one + widely[-3:])
    yield from each_byte(B)
    yield from each_byte(C)
    yield from each_word(EMPTY, by_one + widely[-3:])
    yield from each_word(TWO, by_one)
    yield from each_word(HARD, by_one[:1])
    yield from each_word(SLOW, by_one[:1])
    for text in (B, C, EMPTY, TWO, HARD, SLOW):
        yield from record_shapes(text, dice)
        yield from step_changes(text, dice)
    done, words = own_record(A)
    for at in range(len(words)):
        if at < 11 or at % 9 == 0:
            yield check_frame(A, words[:at] + [words[at] + 1] + words[at + 1:])
    # legal, though no search writes it: a cost taken from k stays k; extend, then project elsewhere
    net, costs = model.read(TWO)
    for steps in ([(4, 0, 0, 0, 1), (5, 0, 0, 0, 0)],
                  [(3, 0, 0, 0, 1), (2, 0, 1, 0, 1), (5, 0, 0, 0, 0)],
                  [(3, 0, 0, 0, 2), (5, 0, 0, 0, 0)],
                  [(4, 1, 0, 0, 1), (5, 0, 0, 0, 0)], [(4, 0, 0, 1, 1), (5, 0, 0, 0, 0)],
                  [(1, 0, 1, 0, 0), (1, 0, 1, 0, 0)], [(1, 0, 2, 0, 0)], [(1, 0, GREATEST, 0, 0)],
                  [(2, GREATEST, 0, 0, 1)], [(2, 0, GREATEST, 0, 1)], [(2, 0, 0, GREATEST, 1)], [(3, 2 ** 32, 0, 0, 1)],
                  [(3, 0, 2 ** 32, 0, 1)], [(3, 0, 0, 2 ** 32, 1)], [(2, 256, 0, 0, 1)], [(4, 0, 256, 0, 1)],
                  [(3, 0, 256, 0, 1)],
                  [(4, 0, 0, 0, GREATEST)], [(4, 0, 0, 0, 9)], [(4, 0, 0, 0, 0)], [(6, 0, 0, 0, 0)], [(GREATEST, 0, 0, 0, 0)],
                  [(5 + 2 ** 32, 0, 0, 0, 0)], [(5, 1, 0, 0, 0)], [(5, 0, 1, 0, 0)], [(5, 0, 0, 1, 0)], [(5, 0, 0, 0, 1)]):
        done, words = own_record(TWO)
        yield check_frame(TWO, model.record_words(net, 0, words[3], done.plan, steps))


# ---------------------------------------------------------------------------------------------------------- (d) random networks

COMPARISONS = ("==", "!=", "<", "<=", ">", ">=")


def random_text(dice):
    """A small network in many ways of writing: the text is not refused."""
    n = dice.pick([0, 1, 1, 2, 2, 2, 3, 3, 3, 4, 4, 5])
    while True:
        sizes = [dice.pick([1, 1, 2, 2, 2, 3, 3, 4]) for _ in range(n)]
        plans = 1
        for size in sizes:
            plans *= size
        if plans <= 24:
            break
    k = dice.pick([1, 2, 3, 4, 5, 7, 10, 15, 30, 100, 10 ** 12])
    dearest = dice.pick([1, 2, 3, 5, k, k + 3])
    functions = []
    for _ in range(dice.below(6) + (n > 1)):
        arity = min(n, dice.pick([0, 1, 1, 2, 2, 2, 3, 3]))
        scope = dice.order(range(n))[:arity]
        words = [arity, scope]
        if arity > 0 and dice.one_in(3):
            most = sum(sizes[v] - 1 for v in scope)
            words += [-1, "wsum", dice.pick(["hard", "lin", "quad"]), dice.pick([0, 1, 1, 2, 3, 10 ** 12]),
                      dice.pick(COMPARISONS), dice.pick([0, dice.below(most + 2), dice.below(most + 2), most, 1000])]
        else:
            cells = [list(cell) for cell in itertools.product(*[range(sizes[v]) for v in scope])] if arity else []
            shown = [cell for cell in dice.order(cells) if dice.one_in(2)]
            words += [dice.pick([0, 0, 0, 1, dice.below(dearest + 1), 9999999999999 if dice.one_in(6) else 2]), len(shown)]
            words += [[cell, dice.below(dearest + 1)] for cell in shown]
        functions.append(words)
    return spelled(dice, ["r%d" % n, n, max(sizes, default=0), len(functions), k], sizes, functions)


def flat(words):
    out = []
    for word in words:
        out += flat(word) if isinstance(word, list) else [str(word)]
    return out


def spelled(dice, header, sizes, functions):
    plain = not dice.one_in(4)
    lines = [flat(header), flat(sizes)] + [flat(f) for f in functions]
    if plain:
        return "\n".join(" ".join(words) for words in lines).encode()
    out = ""
    for words in lines:
        for word in words:
            if word.isdigit() and dice.one_in(4):
                word = "0" * dice.below(14 - len(word)) + word
            out += word + dice.pick([" ", " ", " ", "  ", "\t", "\n", "\r\n"])
    return (out if dice.one_in(2) else out.rstrip()).encode()


def random_node(dice, net):
    return [0 if dice.one_in(2) else 1 + dice.below(net.sizes[i]) for i in range(net.n)]


def random_shift(dice, net, costs, text):
    """A shift that is legal if there is one to be had, three times in four."""
    node = random_node(dice, net)
    shifts = [(RAISE, 0, i, 0, [net.unary(i, a) for a in model.live(net, node, i)]) for i in range(net.n)]
    for f in range(net.functions):
        for i in net.scope(f):
            for a in model.live(net, node, i):
                shifts.append((PROJECT, f, i, a, model.live_cells(net, node, f, i, a)))
                shifts.append((EXTEND, f, i, a, [net.unary(i, a)]))
    shifts = [shift[:4] + (min(costs[p] for p in shift[4]),) for shift in shifts] or [(RAISE, 0, 0, 0, 0)]
    kind, f, i, a, least = dice.pick([shift for shift in shifts if shift[4] > 0] or shifts)
    amount = dice.pick([least, least, 1 + dice.below(max(1, least))])
    if dice.one_in(4):
        kind, f, i, a, least = dice.pick(shifts)
        a = dice.below(net.sizes[i] + 1) if kind != RAISE and dice.one_in(2) else a
        amount = dice.pick([least, least + 1, net.k])
    return frame("shift", text, kind, f, i, a, amount, *node)


def changed(dice, words, at):
    return words[:at] + [dice.pick([words[at] + 1, max(0, words[at] - 1), dice.below(6)])] + words[at + 1:]


def random_networks(dice, count):
    for _ in range(count):
        text = random_text(dice)
        net, costs = model.read(text)
        done, words = own_record(text)
        room = 8 * len(words)
        yield frame("read", text, len(costs) + dice.pick([0, 0, 0, 1, 3, 0 if not costs else -1]))
        for _ in range(2):
            yield frame("price", text, net.n, *[dice.below(net.sizes[i]) for i in range(net.n)])
        if dice.one_in(3):
            plan = [dice.below(net.sizes[i] + 1) for i in range(net.n)]
            yield frame("price", text, dice.pick([net.n, net.n, net.n + 1]), *plan)
        for _ in range(3):
            yield random_shift(dice, net, costs, text)
        yield frame("pass", text)
        yield frame("pass", text, *random_node(dice, net))
        if room <= 3000:
            yield frame("search", text, done.nodes + dice.below(2), 1, room + dice.pick([0, 0, 5]))
            yield frame("search", text, done.nodes - dice.below(2), dice.below(2), max(0, room - dice.pick([0, 1, 40])))
        else:
            yield frame("search", text, done.nodes, 0, 4)
            yield frame("search", text, done.nodes - 1, 0, 0)
        yield frame("show", text, dice.below(2), dice.below(net.functions + 1))
        if net.functions:
            yield frame("show", text, 1, dice.below(net.functions))
        if room <= 1200:
            yield check_frame(text, words)
            yield check_frame(text, changed(dice, words, dice.below(len(words))))
        steps = tree(dice, net, costs, words[3], 3)
        if len(steps) <= 30:
            other = model.record_words(net, words[2], words[3], done.plan, steps)
            yield check_frame(text, other)
            yield check_frame(text, changed(dice, other, 8 + len(done.plan) + dice.below(5 * len(steps))))


def soft_sums(dice):
    """Every measure and comparison at every arity."""
    for measure in ("hard", "lin", "quad"):
        for comparison in COMPARISONS:
            for arity, sizes in ((1, [5]), (2, [3, 4]), (3, [2, 3, 3])):
                k = dice.pick([3, 9, 40, 1000])
                sum_ = ["wsum", measure, dice.pick([1, 2, 3]), comparison, dice.pick([2, 3, 3])]
                text = b"\n".join((words_of("w", arity, max(sizes), 1, k), words_of(sizes),
                                   words_of(arity, list(range(arity))[::-1], -1, sum_)))
                yield frame("read", text, model.read(text)[0].entries())
                yield frame("search", text, 60, 0, 0)


def strict_text(measure, sizes, wish, comparison, K):
    """A soft sum beside a wish of each variable for its low or its high end, each step away from it costing 4."""
    n = len(sizes)
    wishes = [words_of(1, i, 0, size, [word for a in range(size) for word in (a, 4 * (a if wish == "low" else size - 1 - a))])
              for i, size in enumerate(sizes)]
    return b"\n".join([words_of("w", n, max(sizes), n + 1, 60), words_of(sizes)] + wishes +
                      [words_of(n, list(range(n)), -1, "wsum", measure, 5, comparison, K)])


def strict_sums():
    """`<` as request M-103 has it: sums about K, K 0 and K 1,000, and records from before the request."""
    for measure in ("hard", "lin", "quad"):
        for sizes in ([7], [4, 4], [3, 3, 3]):
            plans = {sum(plan): plan for plan in itertools.product(*map(range, sizes))}
            for K in (0, 1, 4, 6, 1000):
                text = strict_text(measure, sizes, "high", "<", K)
                done, words = own_record(text)
                yield frame("read", text, model.read(text)[0].entries())
                for total in (0, K - 1, K, K + 1, 6):
                    if total in plans:
                        yield frame("price", text, len(sizes), *plans[total])
                yield frame("pass", text)
                yield frame("pass", text, sizes[0])
                yield frame("search", text, done.nodes, 1, 8 * len(words))
                yield check_frame(text, words)
            # before the request `< K` cost what `<= K + 1` costs
            for wish in ("high", "low"):
                for K in (0, 1, 4, 6):
                    yield check_frame(strict_text(measure, sizes, wish, "<", K),
                                      own_record(strict_text(measure, sizes, wish, "<=", K + 1))[1])


# ---------------------------------------------------------------------------------------------------------- where a plan breaks

# sizes, a plan in which no value is its variable's number (but for LONG), and the functions' scopes
MIXED = ((2, 3, 2), (1, 2, 0), ((2, 0), (1, 2, 0), (0, 1)))
TWICE = ((2, 1, 4, 3), (1, 0, 3, 2), ((3, 1, 2), (0, 3), (0, 3), (2, 3, 0)))
BARE = ((2, 4, 3), (1, 3, 0), ())
FEW = ((2, 1), (1, 0), ((1, 0),))
NOTHING = ((), (), ())
LONG = ((1,) * 64, (0,) * 64, ((63, 0), (62, 63, 1)))


def costing(shape, k, costs):
    """A network whose parts cost these at the shape's plan: the constant, the unary costs, the functions. Elsewhere a part that is
    free at the plan costs k, any other nothing. The text has them in another order, and the constant in two."""
    sizes, plan, scopes = shape
    constant, unary, functions = costs[0], costs[1:1 + len(sizes)], costs[1 + len(sizes):]

    def written(scope, cost):
        return words_of(len(scope), list(scope), 0 if cost else k, 1, [plan[v] for v in scope], cost)
    ones = [written((i,), cost) for i, cost in enumerate(unary)][::-1]
    others = [written(scope, cost) for scope, cost in zip(scopes, functions)]
    body = [words for two in itertools.zip_longest(others, ones) for words in two if words]
    body += [words_of(0, constant // 2, 0), words_of(0, constant - constant // 2, 0)]
    return b"\n".join([words_of("b", len(sizes), max(sizes, default=0), len(body), k), words_of(list(sizes))] + body)


def parts_in(shape):
    sizes, _, scopes = shape
    return 1 + len(sizes) + len(scopes)


def planned(shape, text):
    plan = shape[1]
    return frame("price", text, len(plan), *plan)


def spread(total, count):
    """A total over so many parts; the first takes what is left over."""
    return [total // count + (total % count if at == 0 else 0) for at in range(count)]


def about(k, before, behind):
    """Costs by which the running sum reaches k at the part with so many before and behind it, or just does not."""
    free, full = [0] * behind, [k] * behind
    if before == 0:
        yield from ([k] + free, [k] + full, [k - 1] + free, [k - 1] + [1] * behind)
        return
    first, last, even = [k - 1] + [0] * (before - 1), [0] * (before - 1) + [k - 1], spread(k - 1, before)
    yield first + [1] + free                                    # just enough, with nothing behind it
    yield last + [1] + full                                     # and with parts behind it that would do alone
    yield last + [k] + full                                     # more than enough
    yield [0] * before + [k] + free                             # alone
    yield spread(k // 2, before) + [k - k // 2 + 1] + free      # with one more than it takes
    yield even + [1] + [1] * behind
    yield even + [0] + free                                     # one short of it
    yield [0] * before + [k - 1] + [1] * behind                 # so that the next part reaches it, if there is one


def breaking_parts():
    """Each part as the one that breaks."""
    for shape, ks in ((MIXED, (10, 1)), (TWICE, (10 ** 12,)), (BARE, (10,)), (FEW, (1, 2)), (NOTHING, (10, 1, 10 ** 12))):
        count = parts_in(shape)
        for k in ks:
            for at in range(count):
                for costs in about(k, at, count - at - 1):
                    yield planned(shape, costing(shape, k, costs))
    # every part costs 1, so the k-th breaks
    for shape, ks in ((TWICE, range(1, 11)), (LONG, (1, 2, 33, 64, 65, 66, 67, 68))):
        for k in ks:
            yield planned(shape, costing(shape, k, [1] * parts_in(shape)))
    for k in (1, 2, 128, 129, 255, 256, 257):
        yield frame("price", b"f 2 1 256 %d\n1 1\n" % k + 256 * b"2 1 0 1 0\n", 2)
    # costs of soft sums, and a variable's cost out of two functions of the text: it is one part
    for text in (b"w 2 4 4 12\n4 4\n2 1 0 -1 wsum lin 4 == 3\n2 0 1 -1 wsum hard 0 != 3\n0 2 0\n1 1 -1 wsum quad 1 < 1",
                 b"u 2 2 4 9\n2 2\n1 1 0 1\n1 5\n1 0 0 1\n1 4\n1 1 0 1\n1 4\n1 0 0 1\n1 4"):
        for plan in itertools.product(*map(range, model.read(text)[0].sizes[:2])):
            yield frame("price", text, 2, *plan)


def refused_breaks():
    """Refusals of plans and texts where the sum reaches k early: no part is told, and none keeps the rest from being judged."""
    sizes, plan, _ = MIXED
    for at in (0, 1, 3):
        text = costing(MIXED, 10, [0] * at + [10] + [0] * (6 - at))
        yield frame("price", text, 3, *plan + (255,) * 61)
        for count in (0, 2, 4, GREATEST):
            yield frame("price", text, count, *plan)
        for i, size in enumerate(sizes):
            for value in (size, 255):
                yield frame("price", text, 3, *plan[:i] + (value,) + plan[i + 1:])
        yield planned(MIXED, text + b" 0")
    for count in (1, GREATEST):
        yield frame("price", costing(NOTHING, 10, [10]), count)


def lent_breaks():
    """A replaced number moves the part, or is refused."""
    def lent(text, plan, entries, *number):
        return frame("lend", b"", entries, 0, *number) + frame("price", text, len(plan), *plan)
    # network A, its constant and its k; plan 111 is one short of k
    for plan in ((1, 1, 0), (1, 1, 1)):
        for constant in (0, 2, 6, 7, 9, 10, 11):
            yield lent(A, plan, 14, 2, 0, constant)
        for k in (4, 5, 9, 11, 13, 14):
            yield lent(A, plan, 14, 1, 0, k)
    # each of its costs, and an entry past them
    for place, cost in enumerate(model.read(A)[1]):
        yield lent(A, (1, 1, 0), 14, 9, place, 10)
        yield lent(A, (1, 1, 1), 14, 9, place, cost + 1)
    yield lent(A, (1, 1, 0), 15, 9, 14, GREATEST)
    # a scope's variables, and the third of an arity of 2
    for place, value in ((0, 2), (1, 2), (2, 1), (3, 0), (4, 0)):
        for plan in ((1, 1, 0), (1, 0, 1)):
            yield lent(A, plan, 14, 7, place, value)
    # parts past a count are none
    ones = costing(TWICE, 8, [1] * 9)
    for functions in range(6):
        yield lent(ones, TWICE[1], model.read(ones)[0].entries(), 5, 0, functions)
    bare = costing(BARE, 8, [2] * 4)
    for n in range(4):
        yield lent(bare, BARE[1][:n], 9, 3, 0, n)
    # another size moves the unary costs behind it; with a greater one, a 77 is among the costs
    bare = costing(BARE, 4, [2] * 4)
    for place, size, plan in ((0, 1, (0, 0, 0)), (1, 3, (0, 0, 1)), (1, 4, (0, 0, 1)), (0, 3, (0, 0, 0))):
        yield lent(bare, plan, 12, 4, place, size)
    # without variables
    for constant in (9, 10, 11):
        yield lent(costing(NOTHING, 10, [4]), (), 0, 2, 0, constant)
    for k in (3, 4, 5):
        yield lent(costing(NOTHING, 10, [4]), (), 0, 1, 0, k)
    # at the constant already, and refused: 7, 8 for a cost that the plan does not pay, and 8 before 9
    text = costing(MIXED, 10, [10] + [0] * 6)
    e = model.read(text)[0].entries()
    for entries, *number in ((e - 1, 0, 0, 0), (0, 0, 0, 0), (e, 9, 0, 11), (e, 9, e - 1, 11), (e, 1, 0, 9), (e, 2, 0, 11)):
        yield lent(text, MIXED[1], entries, *number)
    yield lent(text, (9, 9, 9), e, 9, 0, 11)
    yield lent(text, (1, 2), e - 1, 0, 0, 0)


def breaks():
    """Request M-108: the first part at which the running sum reaches k."""
    yield from once(breaking_parts())
    yield from once(refused_breaks())
    yield from lent_breaks()


# --------------------------------------------------------------------------------------------------------------- (e) the limits

def limits(dice):
    # texts of the greatest lengths; a token missing at the greatest place
    head, tail = b"one 1 2 1 9", b"2\n1 0 4 1\n1 6"
    for length in (65536, 65537):
        yield frame("read", head + b" " * (length - len(head + tail)) + tail, 2)
    yield frame("price", head + b"\n" * (65536 - len(head)), 1)
    yield frame("search", b"n" * 70000, 1, 0, 0)
    # E exactly 4,096, and one more
    for ones, entries in ((3, 4096), (4, 4096)):
        text = b"\n".join([words_of("e", 3 + ones, 16, 16, 50), words_of(16, 16, 13, [1] * ones)] + 15 * [b"2 0 1 2 0"] +
                          [b"2 1 2 1 1", b"3 4 9"])
        yield frame("read", text, entries)
        if ones == 3:
            yield frame("read", text, 4095)
            yield frame("pass", text)
            yield frame("pass", text, 16, 0, 13)
            yield frame("show", text, 1, 15)
            yield frame("search", text, 2, 1, 400000)
            yield frame("price", text, 6, 15, 15, 12)
            for H, W in ((4095, 4096), (4096, 4095), (4096, 4096)):
                yield frame("lend", b"", H, W, 0, 0, 0)
                yield frame("pass", text, 1, 1)
            yield frame("lend", b"", 4097, 4097, 4, 3, 2)
            yield frame("pass", text, 1, 1)
    yield frame("read", b"e 3 16 1 9\n16 16 15\n3 2 0 1 -1 wsum hard 0 >= 0", 5000)
    yield frame("read", b"e 3 16 1 9\n16 16 16\n3 2 0 1 -1 wsum hard 0 >= 0", 5000)
    yield frame("read", b"e 3 16 2 9\n16 16 15\n3 2 0 1 4 0\n2 0 2 3 0", 4000)
    yield frame("read", b"e 2 16 1 1000000000000\n16 16\n2 0 1 -1 wsum quad 7 == 15", 288)
    yield frame("pass", b"e 2 16 1 1000000000000\n16 16\n2 0 1 -1 wsum quad 7 == 15", 0, 16)
    # the greatest gap of `<`: K 0 and the greatest sum
    for base in (7, 10 ** 12):
        yield frame("read", b"e 3 16 1 1000000000000\n16 16 15\n3 0 1 2 -1 wsum quad %d < 0" % base, 3887)
    # functions: 256, numbered or not, and 257
    yield frame("read", b"f 0 0 256 99\n" + 256 * b"0 1 0\n", 0)
    yield frame("read", b"f 0 0 257 99\n" + 257 * b"0 1 0\n", 0)
    many = b"f 2 1 256 999\n1 1\n" + 256 * b"2 1 0 1 0\n"
    for call in (frame("read", many, 258), frame("pass", many), frame("search", many, 3, 0, 0), frame("show", many, 1, 255),
                 frame("show", many, 1, 256), frame("shift", many, PROJECT, 255, 0, 0, 1),
                 frame("shift", many, PROJECT, 256, 0, 0, 1)):
        yield call
    # sixty-four variables: of size 1, of size 2 and of size 16
    ones = b"n 64 1 3 50\n" + 64 * b"1 " + b"\n1 63 2 0\n2 63 0 1 0\n3 62 63 1 4 0"
    done, words = own_record(ones)
    for call in (frame("read", ones, 70), frame("price", ones, 64, *[0] * 64), frame("price", ones, 64, *[0] * 63 + [1]),
                 frame("price", ones, 65), frame("price", ones, 63, *[0] * 63), frame("pass", ones, *[1] * 64),
                 frame("pass", ones, *[1] * 63 + [2]),
                 frame("shift", ones, RAISE, 0, 63, 0, 2, *[1] * 64), frame("shift", ones, RAISE, 0, 64, 0, 1),
                 frame("search", ones, 65, 1, 8 * len(words)), frame("search", ones, 64, 1, 8 * len(words)),
                 frame("search", ones, 65, 1, 8 * len(words) - 1), check_frame(ones, words), check_frame(ones, words[:-5]),
                 check_frame(ones, words[:71] + [1] + words[72:])):
        yield call
    full = b"n 64 16 1 9\n" + 64 * b"16 " + b"\n1 63 1 1\n15 0"
    done, words = own_record(full)
    yield frame("read", full, 1024)
    yield frame("pass", full, *[16] * 64)
    yield frame("price", full, 64, *[15] * 64)
    yield frame("search", full, done.nodes, 1, 8 * len(words))
    yield frame("search", full, done.nodes - 1, 0, 0)
    # greatest costs
    top = b"k 2 2 4 1000000000000\n2 2\n1 0 999999999999 1\n1 1000000000000\n1 1 9999999999999 1\n0 500000000000\n" \
          b"2 0 1 600000000000 1\n0 0 400000000000\n0 1 0"
    yield from every_call(top)
    # the longest header, the greatest rooms
    yield b"price 00025" + 47 * (b" %020d" % 1) + 13 * b" 0" + b"\n" + B + b"\n"
    yield b"pass 25" + 64 * b" 000000000001" + b"\n" + B + b"\n"
    yield b"search 0025 00000000000000000003 01 00000000000000000272\n" + B + b"\n"
    yield frame("search", B, 3, 1, 400000)
    yield frame("search", C, 0, 1, 400000)
    yield frame("read", B, 5000)
    yield frame("lend", b"", 5000, 5000, 0, GREATEST, GREATEST) + frame("pass", B)
    # larger trees, without a record
    for n, size in ((6, 3), (7, 3), (9, 2), (5, 4)):
        sizes = [size] * n
        functions = []
        for f in range(2 * n):
            scope = dice.order(range(n))[:2 + dice.one_in(4)]
            cells = [list(cell) for cell in itertools.product(*[range(size)] * len(scope))]
            shown = [cell for cell in cells if not dice.one_in(3)]
            functions.append([len(scope), scope, 0, len(shown), [[cell, dice.below(5)] for cell in shown]])
        text = "\n".join(" ".join(flat(words)) for words in [["t", n, size, len(functions), 60], sizes] + functions).encode()
        yield frame("search", text, 1000000, 0, 0)
        yield frame("search", text, own_record(text)[0].nodes - 1, 0, 9)


# --------------------------------------------------------------------------------------------------------------- the bad frames

GOOD = frame("read", B, 3) + frame("search", B, 3, 1, 272)

BAD = [
    ("empty input", None),
    ("an unknown call", b"solve 25 3\n" + B + b"\n"),
    ("a call in capitals", b"Read 25 2\n" + B + b"\n"),
    ("an empty header line", b"\n" + frame("read", B, 2)),
    ("a call alone", b"read\n\n"),
    ("two spaces", b"read 25  2\n" + B + b"\n"),
    ("a space last", b"read 25 2 \n" + B + b"\n"),
    ("a space first", b" read 25 2\n" + B + b"\n"),
    ("a tab between words", b"read\t25 2\n" + B + b"\n"),
    ("a CR before the LF", b"read 25 2\r\n" + B + b"\n"),
    ("a number with a sign", b"read 25 +2\n" + B + b"\n"),
    ("a number of 21 digits", b"price 25 000000000000000000001 0\n" + B + b"\n"),
    ("a number of 2^64", b"price 25 18446744073709551616 0\n" + B + b"\n"),
    ("too few words", b"search 25 3 1\n" + B + b"\n"),
    ("too many words", b"read 25 2 2\n" + B + b"\n"),
    ("65 choices", b"price 25 1" + 65 * b" 0" + b"\n" + B + b"\n"),
    ("65 node words", b"pass 25" + 65 * b" 0" + b"\n" + B + b"\n"),
    ("a choice of 256", b"price 25 1 256\n" + B + b"\n"),
    ("a node word of 256", b"pass 25 0 256\n" + B + b"\n"),
    ("a header of 1,025 bytes", b"price 00025" + 47 * (b" %020d" % 1) + 12 * b" 0" + b" 00\n" + B + b"\n"),
    ("a header cut off", b"read 25 2"),
    ("a payload cut off", b"read 25 2\n" + B[:-1]),
    ("no LF after the payload", b"read 25 2\n" + B),
    ("another byte after the payload", b"read 25 2\n" + B + b" "),
    ("T too small for its payload", b"read 24 2\n" + B + b"\n"),
    ("T of 70,001", b"read 70001 2\n" + B + b" " * (70001 - 25) + b"\n"),
    ("a record cut off", b"check 25 64\n" + B + bytes(63)),
    ("R of 400,001", b"check 25 400001\n" + B + bytes(64) + b"\n"),
    ("L of 5,001", b"read 25 5001\n" + B + b"\n"),
    ("room of 400,001", b"search 25 3 1 400001\n" + B + b"\n"),
    ("asked 2", b"search 25 3 2 272\n" + B + b"\n"),
    ("kind 1", b"shift 25 1 0 0 0 0\n" + B + b"\n"),
    ("kind 5", b"shift 25 5 0 0 0 0\n" + B + b"\n"),
    ("a raise with a function", b"shift 25 4 1 0 0 1\n" + B + b"\n"),
    ("a raise with a value", b"shift 25 4 0 0 1 1\n" + B + b"\n"),
    ("function 65,536", b"shift 25 2 65536 0 0 1\n" + B + b"\n"),
    ("variable 256", b"shift 25 2 0 256 0 1\n" + B + b"\n"),
    ("value 256", b"shift 25 3 0 0 256 1\n" + B + b"\n"),
    ("which 2", b"show 25 2 0\n" + B + b"\n"),
    ("lend with a text", b"lend 1 2 2 0 0 0\nx\n"),
    ("lend without its second LF", b"lend 0 2 2 0 0 0\nprice 25 1 0\n" + B + b"\n"),
    ("lend of 5,001 entries", b"lend 0 5001 2 0 0 0\n\n"),
    ("lend of a working table of 5,001", b"lend 0 2 5001 0 0 0\n\n"),
    ("field 11", b"lend 0 2 2 11 0 0\n\n"),
    ("size of variable 64", b"lend 0 2 2 4 64 1\n\n"),
    ("arity of function 256", b"lend 0 2 2 6 256 2\n\n"),
    ("scope place 768", b"lend 0 2 2 7 768 0\n\n"),
    ("start of function 256", b"lend 0 2 2 8 256 0\n\n"),
    ("a held entry past the table", b"lend 0 2 3 9 2 0\n\n"),
    ("a worked entry past the table", b"lend 0 3 2 10 2 0\n\n"),
    ("a size of 256", b"lend 0 2 2 4 0 256\n\n"),
    ("a lend before the bad frame", frame("lend", b"", 2, 2, 0, 0, 0) + b"price 25 x\n" + B + b"\n"),
]


def write_bad(folder):
    os.makedirs(folder, exist_ok=True)
    for number, (_, bad) in enumerate(BAD):
        with open(os.path.join(folder, "%02d" % number), "wb") as out:
            out.write(b"" if bad is None else GOOD + bad)


# -------------------------------------------------------------------------------------------------------------------------- all

def once(made):
    """The frames without those that have been before; not for frames that follow a lend."""
    return dict.fromkeys(made)


def sections(seed):
    dice = Dice(seed)
    yield "hand", once(hand())
    yield "texts", once(text_refusals())
    yield "names", once(plain_names())
    yield "calls", once(call_refusals())
    yield "lends", lends()
    yield "records", once(records(dice))
    yield "sums", once(soft_sums(dice))
    yield "strict sums", once(strict_sums())
    yield "breaks", breaks()
    yield "random", once(random_networks(dice, 75))
    yield "limits", limits(dice)
    yield "last", [frame("search", A, 9, 1, 1200), frame("read", A, 16), frame("search", B, 3, 1, 272)]


def outcome(text):
    words = text.split()
    return " ".join(words[:2]) if words[0] in ("refused", "unread") else words[0]


def count(seed):
    for name, made in sections(seed):
        data = b"".join(made)
        calls = [call.decode() for call, _, _, _ in model.frames(data)]
        answers = list(model.lines(data))
        length = sum(len(text) + 1 for text in answers)
        print("%s: %d frames, %d bytes, %d bytes of lines" % (name, len(calls), len(data), length))
        for (call, answer), times in sorted(collections.Counter(zip(calls, map(outcome, answers))).items()):
            print("    %-7s %-12s %d" % (call, answer, times))


def main():
    arguments = sys.argv[1:]
    if len(arguments) == 2 and arguments[0] == "bad":
        write_bad(arguments[1])
    elif len(arguments) == 2 and arguments[0] == "count":
        count(int(arguments[1]))
    elif len(arguments) == 1 and arguments[0].isdigit():
        for _, made in sections(int(arguments[0])):
            sys.stdout.buffer.write(b"".join(made))
    else:
        sys.exit(__doc__)


if __name__ == "__main__":
    main()
