#!/usr/bin/env python3
"""A second implementation of the base and the landed requests, in plain Python, for the frames of the program `trials`.

    model.py < frames > lines        one line for each frame
    model.py --self-test             the figures that document 01 reckons by hand, and more

It was written from the papers alone (document 01, the requests, the readings, the description of the frames) and shares no code with the
proved program.

WHAT IT DECIDES WHERE THE DESCRIPTION OF THE FRAMES IS SILENT
 1. The header line is what stands before its LF: at most 1,024 bytes, the LF not counted. Words are separated by exactly one
    space; a space first or last, two spaces, an empty line, a CR or any other byte in a number make a bad frame. Calls are in
    small letters.
 2. A number is 1 to 20 digits 0 to 9, below 2^64; leading zeros are allowed, signs are not.
 3. The number of words fits the call (the call's own word counted): read 3, price 3 to 67, shift 7 to 71, pass 2 to 66,
    search 5, check 3, show 4, lend 7.
 4. Limits, each a bad frame when passed: T 70,000; R and room 400,000; L, H and W 5,000; choices and node words 255; kind 2 to
    4; the f of a `shift` 65,535; i and a 255; asked and which 0 or 1. n, m, budget and the f of a `show` are any number.
 5. A `shift` of kind 4 whose f or a is not 0 is a bad frame.
 6. `lend`: T is 0 (so the payload is empty, and its LF follows the header's). Field is 0 to 10. The place is below 64 for
    field 4, 256 for 6 and 8, 768 for 7 (3 x function + position), H for 9, W for 10. The value is at most 255 for fields 4, 6
    and 7, which are bytes, and any number for the others. A place or value that the field has no use for is any number.
    Whatever else is a bad frame.
 7. The payload is followed by one LF, the last frame's too; another byte there, or the end, is a bad frame. The lines of the
    frames before a bad one have been written. Nothing after it is looked at. The model's exit status is 0 then too.
 8. A line's words are separated by one space also where a buffer or a list is empty: `part`, `cost 3 plan nodes 1 work record`.
 9. A `lend` is spent by the frame after it, whatever that is: a `read`, a text that is refused, or another `lend`, which takes
    its place.
10. The held table under a `lend` is the costs and then 77s, H entries in all; the working table is W entries of 77. The number
    is replaced last, in a place past a count or past E as anywhere else.
11. `show`: the worked table is made before anything else, by a pass at the free node over the network and costs as read; then
    both tables are cut or lengthened with 77s, then the number is replaced. Without a `lend` both have E + 2 entries.
12. Field 10 does nothing for a call other than `show`.
13. The start of a function (field 8) counts table entries from 0: in network A the two functions start at 6 and 10.
14. Scope places past an arity are 0 as read: an arity of 2 raised to 3 by a `lend` makes variable 0 the third.
15. Node words and choices past N are taken and ignored.
"""

import re
import sys
from itertools import groupby, product

# ------------------------------------------------------------------------------------------------------------------- the limits

MAX_TEXT, MAX_NAME, MAX_DIGITS = 65536, 64, 13
MAX_N, MAX_SIZE, MAX_FUNCTIONS, MAX_E = 64, 16, 256, 4096
MAX_COST, MAX_SUM = 10 ** 12, 1000
PROJECT, EXTEND, RAISE = 2, 3, 4


class Refused(Exception):
    def __init__(self, number, place=0):
        self.number, self.place = number, place


# ------------------------------------------------------------------------------------------------------------------ the network

class Network:
    """The numbers of a network; the costs stand in a table beside it. Places past a count are 0 as read."""

    def __init__(self):
        self.k = self.constant = self.n = self.functions = 0
        self.sizes = [0] * MAX_N
        self.arity = [0] * MAX_FUNCTIONS
        self.scopes = [0] * (3 * MAX_FUNCTIONS)
        self.start = [0] * MAX_FUNCTIONS

    def scope(self, f):
        return self.scopes[3 * f:3 * f + self.arity[f]]

    def unary(self, i, a):
        """The place of variable i's cost for value a."""
        return sum(self.sizes[:i]) + a

    def cells(self, f):
        """How many costs function f has."""
        count = 1
        for v in self.scope(f):
            count *= self.sizes[v]
        return count

    def entries(self):
        """E."""
        return sum(self.sizes[:self.n]) + sum(self.cells(f) for f in range(self.functions))


# --------------------------------------------------------------------------------------------------------------------- the text

class Tokens:
    """A text's tokens one after the other; `at` is the offset of the last one taken."""

    def __init__(self, text):
        self.tokens = re.finditer(rb"[^ \t\n\r]+", text)
        self.end = len(text)
        self.at = 0

    def take(self):
        found = next(self.tokens, None)
        if found is None:
            raise Refused(2, self.end)
        self.at = found.start()
        return found.group()

    def value(self, token, low=0, high=10 ** MAX_DIGITS):
        if not token.isdigit() or len(token) > MAX_DIGITS:
            raise Refused(2, self.at)
        if not low <= int(token) <= high:
            raise Refused(3, self.at)
        return int(token)

    def number(self, low=0, high=10 ** MAX_DIGITS):
        return self.value(self.take(), low, high)

    def word(self, words):
        token = self.take()
        if token not in words:
            raise Refused(2, self.at)
        return token

    def nothing_left(self):
        found = next(self.tokens, None)
        if found is not None:
            raise Refused(6, found.start())


GAPS = {
    b"==": lambda total, K: abs(K - total),
    b"!=": lambda total, K: 1 if total == K else 0,
    b"<": lambda total, K: max(0, total - K + 1),  # request M-103
    b"<=": lambda total, K: max(0, total - K),
    b">": lambda total, K: max(0, K - total + 1),
    b">=": lambda total, K: max(0, K - total),
}


def soft_sum(t, sizes, k):
    """The costs of a `wsum` over variables of these sizes; its mark `-1` has been taken."""
    t.word((b"wsum",))
    measure = t.word((b"hard", b"lin", b"quad"))
    base = t.number(0, MAX_COST)
    gap_of = GAPS[t.word(GAPS)]
    K = t.number(0, MAX_SUM)
    totals = [0]
    for size in sizes:
        totals = [s + a for s in totals for a in range(size)]
    gaps = [gap_of(total, K) for total in totals]
    if measure == b"hard":
        return [k if gap > 0 else 0 for gap in gaps]
    power = 1 if measure == b"lin" else 2
    return [min(k, base * gap ** power) for gap in gaps]


def listed(t, default, sizes, k):
    """The costs of a function with a default and tuples; the default has been taken."""
    cells = 1
    for size in sizes:
        cells *= size
    costs = [min(k, default)] * cells
    seen = set()
    for _ in range(t.number(0, cells if sizes else 0)):
        cell = 0
        for size in sizes:
            a = t.number()
            if a >= size:
                raise Refused(4, t.at)
            cell = cell * size + a
        if cell in seen:
            raise Refused(5, t.at)
        seen.add(cell)
        costs[cell] = min(k, t.number())
    return costs


def read(text):
    """The network of a text and its costs, in the order of the table; refusals 1 to 6."""
    if len(text) > MAX_TEXT:
        raise Refused(1, 0)
    t = Tokens(text)
    name = t.take()
    if len(name) > MAX_NAME or min(name) < 33 or max(name) > 126:  # the bytes by request M-101
        raise Refused(2, t.at)
    net = Network()
    net.n = t.number(0, MAX_N)
    greatest = t.number(0, MAX_SIZE)
    if net.n == 0 and greatest != 0:
        raise Refused(4, t.at)
    count = t.number(0, MAX_FUNCTIONS)
    k = net.k = t.number(1, MAX_COST)
    for i in range(net.n):
        net.sizes[i] = t.number(1, MAX_SIZE)
    e = sum(net.sizes)
    if e > MAX_E:
        raise Refused(3, t.at)
    if net.n > 0 and max(net.sizes) != greatest:
        raise Refused(4, t.at)
    unary = [[0] * net.sizes[i] for i in range(net.n)]
    stretches = []
    for _ in range(count):
        arity = t.number(0, 3)
        scope = []
        for _ in range(arity):
            v = t.number()
            if v >= net.n or v in scope:
                raise Refused(4, t.at)
            scope.append(v)
        sizes = [net.sizes[v] for v in scope]
        if arity >= 2:
            f = net.functions
            net.functions, net.arity[f], net.start[f] = f + 1, arity, e
            net.scopes[3 * f:3 * f + arity] = scope
            e += net.cells(f)
            if e > MAX_E:
                raise Refused(3, t.at)
        first = t.take()
        if first == b"-1" and arity > 0:
            costs = soft_sum(t, sizes, k)
        else:
            costs = listed(t, t.value(first), sizes, k)
        if arity == 0:
            net.constant = min(k, net.constant + costs[0])
        elif arity == 1:
            unary[scope[0]] = [min(k, old + new) for old, new in zip(unary[scope[0]], costs)]
        else:
            stretches.append(costs)
    t.nothing_left()
    return net, [cost for stretch in unary + stretches for cost in stretch]


# -------------------------------------------------------------------------------------------------------------------- the judge

def is_network(net, table):
    if not 1 <= net.k <= MAX_COST or net.constant > net.k or net.n > MAX_N or net.functions > MAX_FUNCTIONS:
        return False
    if not all(1 <= size <= MAX_SIZE for size in net.sizes[:net.n]):
        return False
    e = sum(net.sizes[:net.n])
    for f in range(net.functions):
        scope = net.scope(f)
        if net.arity[f] not in (2, 3) or any(v >= net.n for v in scope) or len(set(scope)) < len(scope) or net.start[f] != e:
            return False
        e += net.cells(f)
    return e <= MAX_E and all(cost <= net.k for cost in table[:e])


def judge(net, held, *others):
    """8, then 7; the other tables are lent for writing, and only their lengths are judged."""
    if not is_network(net, held):
        raise Refused(8)
    if min(len(table) for table in (held,) + others) < net.entries():
        raise Refused(7)


def judge_node(net, node):
    if any(node[i] > net.sizes[i] for i in range(net.n)):
        raise Refused(10)


# -------------------------------------------------------------------------------------------------------------------- the price

def parts(net, table, plan):
    """Each part of a price in the order of request M-108, with what the plan pays for it."""
    yield "constant", net.constant
    for i in range(net.n):
        yield "unary %d" % i, table[net.unary(i, plan[i])]
    for f in range(net.functions):
        cell = 0
        for v in net.scope(f):
            cell = cell * net.sizes[v] + plan[v]
        yield "function %d" % f, table[net.start[f] + cell]


def cost_of(net, table, plan):
    return min(net.k, sum(cost for _, cost in parts(net, table, plan)))


def breaks_at(net, table, plan):
    """The first part at which the running sum reaches k (request M-108)."""
    running = 0
    for part, cost in parts(net, table, plan):
        running = min(net.k, running + cost)
        if running == net.k:
            return part
    return "nowhere"


def price(net, held, count, choices):
    """The price, and where the plan breaks."""
    judge(net, held)
    if count != net.n:
        raise Refused(9, 0)
    for i in range(net.n):
        if choices[i] >= net.sizes[i]:
            raise Refused(9, i)
    return cost_of(net, held, choices), breaks_at(net, held, choices)


# ------------------------------------------------------------------------------------------------------------------- the shifts
# A node is one number per variable: 0 free, v + 1 fixed to v.

def live(net, node, i):
    return range(net.sizes[i]) if node[i] == 0 else range(node[i] - 1, node[i])


def live_cells(net, node, f, i, a):
    """The places of f's live tuples in which variable i has value a."""
    places = [0]
    for v in net.scope(f):
        values = (a,) if v == i else live(net, node, v)
        places = [p * net.sizes[v] + b for p in places for b in values]
    return [net.start[f] + p for p in places]


def move(net, constant, table, node, kind, f, i, a, amount):
    """Does a legal shift and gives the constant after it; gives None and changes nothing where it is illegal."""
    if not 1 <= amount <= net.k or i >= net.n:
        return None
    if kind == RAISE:
        givers, takers = [net.unary(i, b) for b in live(net, node, i)], []
    else:
        if f >= net.functions or i not in net.scope(f) or a not in live(net, node, i):
            return None
        givers, takers = live_cells(net, node, f, i, a), [net.unary(i, a)]
        if kind == EXTEND:
            givers, takers = takers, givers
    if any(table[p] < amount for p in givers):
        return None
    for p in givers:
        if table[p] != net.k:
            table[p] -= amount
    for p in takers:
        table[p] = min(net.k, table[p] + amount)
    return min(net.k, constant + amount) if kind == RAISE else constant


def shift(net, held, node, kind, f, i, a, amount):
    """Changes the held table; gives the constant."""
    judge(net, held)
    judge_node(net, node)
    constant = move(net, net.constant, held, node, kind, f, i, a, amount)
    if constant is None:
        raise Refused(10)
    return constant


# --------------------------------------------------------------------------------------------------------------------- the pass

def passed(net, costs, node):
    """The constant, the worked costs and the shifts of the pass at a node."""
    constant, table, shifts = net.constant, list(costs), []
    for f in range(net.functions):
        for i in net.scope(f):
            for a in live(net, node, i):
                least = min(table[p] for p in live_cells(net, node, f, i, a))
                if least > 0:
                    move(net, constant, table, node, PROJECT, f, i, a, least)
                    shifts.append((PROJECT, f, i, a, least))
    for i in range(net.n):
        least = min(table[net.unary(i, a)] for a in live(net, node, i))
        if least > 0:
            constant = move(net, constant, table, node, RAISE, 0, i, 0, least)
            shifts.append((RAISE, 0, i, 0, least))
    return constant, table, shifts


def pass_at(net, held, work, node):
    """Fills the working table; gives the constant."""
    judge(net, held, work)
    judge_node(net, node)
    e = net.entries()
    constant, work[:e], _ = passed(net, held[:e], node)
    return constant


# ------------------------------------------------------------------------------------------------------------------- the search

class Search:
    def __init__(self, net, costs, budget):
        self.net, self.costs, self.budget = net, costs, budget
        self.best, self.plan, self.nodes, self.steps = net.k, [], 0, []
        self.enter([0] * net.n)

    def enter(self, node):
        if self.nodes == self.budget:
            raise Refused(11)
        self.nodes += 1
        constant, _, shifts = passed(self.net, self.costs, node)
        if constant < self.best and 0 in node:
            i = node.index(0)
            self.steps.append((1, 0, i, 0, 0))
            for a in range(self.net.sizes[i]):
                self.enter(node[:i] + [a + 1] + node[i + 1:])
            return
        if constant < self.best:
            self.best, self.plan = constant, [x - 1 for x in node]
        self.steps += shifts + [(5, 0, 0, 0, 0)]


def search(net, held, work, budget, asked, room):
    """The finished search and the record's bytes, empty if not asked for."""
    judge(net, held, work)
    done = Search(net, held[:net.entries()], budget)
    record = record_of(net, done) if asked else b""
    if len(record) > room:
        raise Refused(12)
    return done, record


# ------------------------------------------------------------------------------------------------------------------- the record

def to_bytes(words):
    return b"".join(word.to_bytes(8, "little") for word in words)


def to_words(record):
    return [int.from_bytes(record[at:at + 8], "little") for at in range(0, len(record), 8)]


def record_words(net, verdict, cost, plan, steps):
    header = [1, net.n, verdict, cost, 8, len(plan), 8 + len(plan), len(steps)]
    return header + list(plan) + [word for step in steps for word in step]


def record_of(net, done):
    return to_bytes(record_words(net, 0 if done.best < net.k else 1, done.best, done.plan, done.steps))


# --------------------------------------------------------------------------------------------------------------------- the desk

def check(net, held, work, record):
    """Comes back if the record keeps the rules."""
    judge(net, held, work)
    if len(record) < 64 or len(record) % 8 != 0:
        raise Refused(13, 0)
    words = to_words(record)
    check_header(net, words)
    verdict, cost, count = words[2], words[3], words[5]
    plan = words[8:8 + count]
    for i in range(count):
        if plan[i] >= net.sizes[i]:
            raise Refused(13, 8 + i)
    if verdict == 0 and cost_of(net, held, plan) != cost:
        raise Refused(13, 3)
    check_steps(net, held[:net.entries()], cost, words, 8 + count)


def check_header(net, words):
    _, _, verdict, cost, _, count, _, steps = words[:8]
    good = [
        words[0] == 1,
        words[1] == net.n,
        verdict in (0, 1),
        cost < net.k if verdict == 0 else cost == net.k,
        words[4] == 8,
        count == (net.n if verdict == 0 else 0),
        words[6] == 8 + count,
        len(words) == 8 + count + 5 * steps,
    ]
    if False in good:
        raise Refused(13, good.index(False))


def check_steps(net, costs, cost, words, first):
    node, branched, closed = [0] * net.n, [], False
    constant, table, fresh = net.constant, list(costs), True
    for at in range(first, len(words), 5):
        kind, f, i, a, amount = words[at:at + 5]
        if closed:
            raise Refused(13, at)
        if kind == 1:
            if not fresh or (f, a, amount) != (0, 0, 0) or i >= net.n or node[i] != 0:
                raise Refused(13, at)
            node[i] = 1
            branched.append(i)
        elif kind in (PROJECT, EXTEND, RAISE):
            if kind == RAISE and (f, a) != (0, 0):
                raise Refused(13, at)
            constant = move(net, constant, table, node, kind, f, i, a, amount)
            if constant is None:
                raise Refused(13, at)
            fresh = False
        elif kind == 5:
            if (f, i, a, amount) != (0, 0, 0, 0) or constant < cost:
                raise Refused(13, at)
            constant, table, fresh = net.constant, list(costs), True
            while branched and node[branched[-1]] == net.sizes[branched[-1]]:
                node[branched.pop()] = 0
            if branched:
                node[branched[-1]] += 1
            else:
                closed = True
        else:
            raise Refused(13, at)
    if not closed:
        raise Refused(13, len(words))


def show(net, held, worked, which, f):
    if not is_network(net, held) or not is_network(net, worked):
        return []
    if min(len(held), len(worked)) < net.entries() or f >= net.functions:
        return []
    return (held, worked)[which][net.start[f]:net.start[f] + net.cells(f)]


# ------------------------------------------------------------------------------------------------------------------- the frames

class BadFrame(Exception):
    pass


MAX_HEADER, MAX_T, MAX_R, MAX_TABLE = 1024, 70000, 400000, 5000
ANY, WORD, BYTE, BIT = 2 ** 64 - 1, 65535, 255, 1
FILL = 77  # a record buffer's 170s are never seen again: every byte of it is written, whatever the outcome

# for each call: the greatest value of each number after T, and of each number that may follow
HEADERS = {
    b"read": ([MAX_TABLE], None),
    b"price": ([ANY], BYTE),
    b"shift": ([RAISE, WORD, BYTE, BYTE, ANY], BYTE),
    b"pass": ([], BYTE),
    b"search": ([ANY, BIT, MAX_R], None),
    b"check": ([MAX_R], None),
    b"show": ([BIT, ANY], None),
    b"lend": ([MAX_TABLE, MAX_TABLE, 10, ANY, ANY], None),
}


def need(good):
    if not good:
        raise BadFrame


def header_number(word):
    need(word.isdigit() and len(word) <= 20 and int(word) <= ANY)
    return int(word)


def header_of(header):
    """The call, T, and the numbers after it."""
    words = header.split(b" ")
    need(words[0] in HEADERS and len(words) >= 2)
    call, length, *numbers = [words[0]] + [header_number(word) for word in words[1:]]
    limits, more = HEADERS[call]
    extra = len(numbers) - len(limits)
    need(0 <= extra <= (0 if more is None else MAX_N))
    need(all(number <= limit for number, limit in zip(numbers, limits + [more] * extra)))
    need(length <= (0 if call == b"lend" else MAX_T))
    if call == b"shift":
        kind, f, _, a = numbers[:4]
        need(kind >= PROJECT and (kind != RAISE or (f, a) == (0, 0)))
    if call == b"lend":
        H, W, field, place, value = numbers
        need(place < {4: MAX_N, 6: MAX_FUNCTIONS, 7: 3 * MAX_FUNCTIONS, 8: MAX_FUNCTIONS, 9: H, 10: W}.get(field, ANY + 1))
        need(value <= {4: BYTE, 6: BYTE, 7: BYTE}.get(field, ANY))
    return call, length, numbers


def frames(data):
    """The frames one after the other: call, numbers after T, text, record."""
    at = 0
    while at < len(data):
        end = data.find(b"\n", at, at + MAX_HEADER + 1)
        need(end >= 0)
        call, length, numbers = header_of(data[at:end])
        text_end = end + 1 + length
        at = text_end + (numbers[0] if call == b"check" else 0)
        need(data[at:at + 1] == b"\n")
        yield call, numbers, data[end + 1:text_end], data[text_end:at]
        at += 1


def runs(buffer):
    return ["%d*%d" % (value, sum(1 for _ in run)) for value, run in groupby(buffer)]


def line(*words):
    flat = []
    for word in words:
        flat += word if isinstance(word, list) else [word]
    return " ".join(str(word) for word in flat)


def frame(call, text, *numbers, record=b""):
    """A frame's bytes, for those who write frames."""
    return ("%s\n" % line(call, len(text), list(numbers))).encode() + text + record + b"\n"


def padded(numbers):
    return numbers + [0] * (MAX_N - len(numbers))


def resized(table, entries):
    return (table + [FILL] * entries)[:entries]


def replace(net, held, worked, field, place, value):
    if field == 1:
        net.k = value
    elif field == 2:
        net.constant = value
    elif field == 3:
        net.n = value
    elif field == 5:
        net.functions = value
    elif field != 0:
        {4: net.sizes, 6: net.arity, 7: net.scopes, 8: net.start, 9: held, 10: worked}[field][place] = value


def set_up(text, lent, shown):
    """The network, the held table and the working table of a call; the worked one for `show`."""
    net, costs = read(text)
    held = costs + [FILL] * 2
    work = (passed(net, costs, [0] * net.n)[1] if shown else [FILL] * len(costs)) + [FILL] * 2
    if lent is not None:
        H, W, field, place, value = lent
        held, work = resized(held, H), resized(work, W)
        if field != 10 or shown:
            replace(net, held, work, field, place, value)
    return net, held, work


def answer_read(text, entries):
    try:
        net, costs = read(text)
        if entries < len(costs):
            raise Refused(7)
    except Refused as no:
        return line("refused", no.number, "at", no.place, "table", runs([0] * entries))
    functions = [word for f in range(net.functions) for word in [net.arity[f]] + net.scope(f)]
    return line("done", net.k, net.constant, net.n, net.sizes[:net.n], net.functions, functions,
                "table", runs(resized(costs, entries)))


def answer_price(net, held, work, numbers, record):
    try:
        return line("done", *price(net, held, numbers[0], padded(numbers[1:])))
    except Refused as no:
        return line("refused", no.number, "at", no.place)


def answer_shift(net, held, work, numbers, record):
    try:
        constant = shift(net, held, padded(numbers[5:]), *numbers[:5])
        return line("done", constant, "table", runs(held))
    except Refused as no:
        return line("refused", no.number, "at", no.place, "table", runs(held))


def answer_pass(net, held, work, numbers, record):
    try:
        constant = pass_at(net, held, work, padded(numbers))
        return line("done", constant, "work", runs(work))
    except Refused as no:
        return line("refused", no.number, "at", no.place, "work", runs([0] * len(work)))


def answer_search(net, held, work, numbers, record):
    room = numbers[2]
    clear = line("work", runs([0] * len(work)), "record")
    try:
        done, record = search(net, held, work, *numbers)
    except Refused as no:
        return line("refused", no.number, "at", no.place, clear, runs(bytes(room)))
    if done.best < net.k:
        outcome = line("cost", done.best, "plan", done.plan)
    else:
        outcome = line("none", net.k)
    return line(outcome, "nodes", done.nodes, clear, runs(record + bytes(room - len(record))))


def answer_check(net, held, work, numbers, record):
    clear = line("work", runs([0] * len(work)))
    try:
        check(net, held, work, record)
        return line("accepted", clear)
    except Refused as no:
        return line("refused", no.number, "at", no.place, clear)


def answer_show(net, held, work, numbers, record):
    return line("part", runs(show(net, held, work, *numbers)))


ANSWERS = {b"price": answer_price, b"shift": answer_shift, b"pass": answer_pass, b"search": answer_search,
           b"check": answer_check, b"show": answer_show}


def lines(data):
    """The line of each frame."""
    lent = None
    try:
        for call, numbers, text, record in frames(data):
            if call == b"lend":
                lent = numbers
                yield "lent"
                continue
            spent, lent = lent, None
            if call == b"read":
                yield answer_read(text, numbers[0])
                continue
            try:
                net, held, work = set_up(text, spent, call == b"show")
            except Refused as no:
                yield line("unread", no.number, "at", no.place)
            else:
                yield ANSWERS[call](net, held, work, numbers, record)
    except BadFrame:
        yield "bad frame"


# ---------------------------------------------------------------------------------------------------------------- the self-test

A = b"plan 3 2 4 10\n2 2 2\n1 0 0 1\n1 3\n2 0 1 0 2\n0 0 5\n1 1 5\n2 1 2 0 1\n1 0 4\n0 1 0\n"
B = b"one 1 2 1 9\n2\n1 0 4 1\n1 6"
C = b"none 1 1 1 5\n1\n1 0 5 0"
RECORD_B = [1, 1, 0, 4, 8, 1, 9, 5, 0, 1, 0, 0, 0, 0, 4, 0, 0, 0, 4, 5, 0, 0, 0, 0, 4, 0, 0, 0, 6, 5, 0, 0, 0, 0]
RECORD_C = [1, 1, 1, 5, 8, 0, 8, 2, 4, 0, 0, 0, 5, 5, 0, 0, 0, 0]


def one(call, text, *numbers, record=b""):
    [got] = lines(frame(call, text, *numbers, record=record))
    return got


def expect(got, wanted):
    if got != wanted:
        raise SystemExit("self-test: got %r, wanted %r" % (got, wanted))


def printed(text):
    """What the program of document 01 prints, as one line."""
    found = re.match(r"(?:(cost .*) (plan.*) (nodes \d+)|(none .*) (nodes \d+)|unread (\d+ at \d+)) ?",
                     one("search", text, 1000000, 0, 0).split("work")[0])
    cost, plan, nodes, none, nodes_none, unread = found.groups()
    return [cost, plan, nodes] if cost else [none, nodes_none] if none else ["refused " + unread]


def hand_tests():
    # network A: E, the eight prices (P), the search
    expect(read(A)[1], [0, 3, 0, 0, 0, 0, 5, 0, 0, 5, 0, 0, 4, 0])
    expect(one("read", A, 14), "done 10 1 3 2 2 2 2 2 0 1 2 1 2 table 0*1 3*1 0*4 5*1 0*2 5*1 0*2 4*1 0*1")
    expect(one("read", A, 13), "refused 7 at 0 table 0*13")
    expect([one("price", A, 3, *plan) for plan in product((0, 1), repeat=3)],
           ["done 6 nowhere", "done 6 nowhere", "done 5 nowhere", "done 1 nowhere",
            "done 4 nowhere", "done 4 nowhere", "done 10 function 1", "done 9 nowhere"])
    expect(printed(A), ["cost 1", "plan 0 1 1", "nodes 9"])
    # the four shifts (P): plain, and beside dead entries of another variable
    for head, free, tuples in ((b"s 2 2 2 10 1 2 2 0 1 %d 1 0 1 %d", (), lambda x, y: [x, y]),
                               (b"s 3 2 2 10 1 2 2 3 0 1 2 0 2 0 0 1 %d 0 1 1 %d", (0, 0, 2), lambda x, y: [0, x, 0, y])):
        def after(x, y, unary, kind, amount):
            text = head % (x, y) + b" 1 0 %d 0" % unary
            words = one("shift", text, kind, 0, 0, 0, amount, *free).split(" table ")
            table = [int(value) for run in words[1].split() for value, count in [run.split("*")] for _ in range(int(count))]
            cells = len(tuples(0, 0))
            return words[0], table[0], table[-2 - cells:-2]
        expect(after(7, 10, 0, PROJECT, 7), ("done 0", 7, tuples(0, 10)))
        expect(after(7, 10, 0, PROJECT, 8), ("refused 10 at 0", 0, tuples(7, 10)))
        expect(after(7, 10, 6, PROJECT, 7), ("done 0", 10, tuples(0, 10)))
        expect(after(8, 0, 3, EXTEND, 3), ("done 0", 0, tuples(10, 3)))
    # network B: record, budget, room, the frame of the description
    expect(one("search", B, 3, 1, 272), line("cost 4 plan 0 nodes 3 work 0*4 record", runs(to_bytes(RECORD_B))))
    expect(len(to_bytes(RECORD_B)), 272)
    expect(one("search", B, 2, 1, 272), "refused 11 at 0 work 0*4 record 0*272")
    expect(one("search", B, 3, 1, 271), "refused 12 at 0 work 0*4 record 0*271")
    expect(one("search", B, 2, 1, 271), "refused 11 at 0 work 0*4 record 0*271")
    expect(one("search", B, 3, 0, 5), "cost 4 plan 0 nodes 3 work 0*4 record 0*5")
    expect(one("check", B, 272, record=to_bytes(RECORD_B)), "accepted work 0*4")
    expect(printed(B), ["cost 4", "plan 0", "nodes 3"])
    expect(b"search 25 3 1 272\none 1 2 1 9\n2\n1 0 4 1\n1 6\n", frame("search", B, 3, 1, 272))
    # network C, the empty text, N = 0
    expect(one("search", C, 1, 1, 144), line("none 5 nodes 1 work 0*3 record", runs(to_bytes(RECORD_C))))
    expect(one("check", C, 144, record=to_bytes(RECORD_C)), "accepted work 0*3")
    expect(printed(C), ["none 5", "nodes 1"])
    expect(printed(b""), ["refused 2 at 0"])
    expect(printed(b"x 0 0 1 7 0 3 0"), ["cost 3", "plan", "nodes 1"])
    # soft sum, N and sizes at their limits
    expect(read(b"w 1 6 1 9 6 1 0 -1 wsum lin 2 > 4")[1][4:], [2, 0])
    expect(read(b"x 64 1 0 1" + 64 * b" 1")[0].n, 64)
    expect(one("read", b"x 65 1 0 1" + 65 * b" 1", 0), "refused 3 at 2 table")
    expect(read(b"x 1 16 0 1 16")[0].sizes[0], 16)
    expect(one("read", b"x 1 16 0 1 17", 1), "refused 3 at 11 table 0*1")
    # every gap, over the sums 3, 4 and 5 with K 4
    for comparison, gaps in ((b"==", [1, 0, 1]), (b"!=", [0, 1, 0]), (b"<", [0, 1, 2]), (b"<=", [0, 0, 1]), (b">", [2, 1, 0]),
                             (b">=", [1, 0, 0])):
        for measure, worth in ((b"lin", lambda gap: 3 * gap), (b"quad", lambda gap: 3 * gap * gap),
                               (b"hard", lambda gap: 90 if gap else 0)):
            text = b"w 1 6 1 90 6 1 0 -1 wsum %s 3 %s 4" % (measure, comparison)
            expect(read(text)[1][3:], [worth(gap) for gap in gaps])
    # request M-103: with `<` and K 4, Sum 3 gives 0, Sum 4 gives 1, Sum 6 gives 3; with K 0 every sum has a gap
    expect(read(b"w 1 8 1 90 8 1 0 -1 wsum quad 3 < 4")[1], [0, 0, 0, 0, 3, 12, 27, 48])
    expect(read(b"w 1 3 1 90 3 1 0 -1 wsum lin 3 < 0")[1], [3, 6, 9])
    expect(read(b"w 1 3 1 90 3 1 0 -1 wsum hard 3 < 1000")[1], [0, 0, 0])


def breaking_tests():
    """Request M-108, by hand."""
    def lent(text, plan, field, place, value):
        [_, got] = lines(frame("lend", b"", 14, 14, field, place, value) + frame("price", text, len(plan), *plan))
        return got
    # network A, plan 110: 1, then 4 by variable 0, variables 1 and 2 add nothing, 9 by function 0, 13 by function 1
    for constant, wanted in ((0, "function 1"), (1, "function 1"), (2, "function 0"), (6, "function 0"), (7, "unary 0"),
                             (9, "unary 0"), (10, "constant")):
        expect(lent(A, (1, 1, 0), 2, 0, constant), "done 10 " + wanted)
    for k, wanted in ((5, "5 function 0"), (9, "9 function 0"), (10, "10 function 1"), (13, "13 function 1"), (14, "13 nowhere")):
        expect(lent(A, (1, 1, 0), 1, 0, k), "done " + wanted)
    # plan 111 is one short of k: one more, and it breaks at the last part that costs anything
    expect(lent(A, (1, 1, 1), 2, 0, 2), "done 10 function 0")
    for place, cost, wanted in ((1, 4, "function 0"), (3, 1, "function 0"), (5, 1, "function 0"), (9, 6, "function 0"),
                                (13, 1, "function 1")):
        expect(lent(A, (1, 1, 1), 9, place, cost), "done 10 " + wanted)
    expect(lent(A, (1, 1, 1), 9, 12, 10), "done 9 nowhere")
    # a text's own constant at k, with and without anything behind it, and one below
    expect(one("price", b"x 0 0 1 7 0 7 0", 0), "done 7 constant")
    expect(one("price", b"x 0 0 2 7 0 3 0 0 9 0", 0), "done 7 constant")
    expect(one("price", b"x 0 0 1 7 0 6 0", 0), "done 6 nowhere")
    expect(one("price", b"x 1 2 2 7 2 1 0 7 0 0 7 0", 1, 1), "done 7 constant")
    # the order of the text is not the order of the parts: a function, then variable 1, then variable 0, each of k
    expect(one("price", b"x 2 2 3 4 2 2 2 0 1 4 0 1 1 4 0 1 0 4 1 1 0", 2, 0, 0), "done 4 unary 0")
    expect(one("price", b"x 2 2 3 4 2 2 2 0 1 4 0 1 1 4 0 1 0 4 1 1 0", 2, 1, 0), "done 4 unary 1")
    expect(one("price", b"x 2 2 3 4 2 2 2 0 1 4 0 1 1 0 0 1 0 4 1 1 0", 2, 1, 0), "done 4 function 0")
    # no part beside a refusal
    expect(one("price", C, 1, 0), "done 5 unary 0")
    expect(one("price", C, 1, 1), "refused 9 at 0")
    expect(one("price", C, 2, 0), "refused 9 at 0")
    expect(lent(C, (0,), 1, 0, 4), "refused 8 at 0")


def reading_tests():
    for text, wanted in (
            (b"x" * 65537, "1 at 0"), (b" \n", "2 at 2"), (b"n" * 65 + b" 0 0 0 1", "2 at 0"), (b"n 0 0 0 ", "2 at 8"),
            (b" n\xc3\xa9 0 0 0 1", "2 at 1"), (b"n\x7f 0 0 0 1", "2 at 0"), (b"\x1fn 0 0 0 1", "2 at 0"), (b"n 0 0 0 1\xc3\xa9", "2 at 8"),
            (b"n 0 0 0 00000000000001", "2 at 8"), (b"n 0 0 0 0", "3 at 8"), (b"n 0 0 0 1000000000001", "3 at 8"),
            (b"n 0 1 0 1", "4 at 4"), (b"n 0 17 0 1", "3 at 4"), (b"n 2 3 0 1 1 2", "4 at 12"), (b"n 0 0 257 1", "3 at 6"),
            (b"n 0 0 1 5 0 -1 0", "2 at 12"), (b"n 0 0 1 5 0 1 1", "3 at 14"), (b"n 1 1 1 5 1 1 1 0 0", "4 at 14"),
            (b"n 1 1 1 5 1 4 0 0", "3 at 12"), (b"n 2 2 1 5 2 2 2 1 1 0 0", "4 at 18"),
            (b"n 1 2 1 5 2 1 0 0 3", "3 at 18"), (b"n 1 2 1 5 2 1 0 0 2 1 1 1 x", "5 at 24"),
            (b"n 1 2 1 5 2 1 0 0 2 1 1 2 x", "4 at 24"), (b"n 0 0 0 5 \x0b", "6 at 10"), (b"n 0 0 0 5\0", "2 at 8"),
            (b"n 1 2 1 5 2 1 0 -1 WSUM lin 1 == 1", "2 at 19"), (b"n 1 2 1 5 2 1 0 -01 wsum lin 1 == 1", "2 at 16"),
            (b"n 1 2 1 5 2 1 0 -1 wsum hard 1000000000001 == 1", "3 at 29"),
            (b"n 1 2 1 5 2 1 0 -1 wsum lin 1 = 1", "2 at 30"), (b"n 1 2 1 5 2 1 0 -1 wsum lin 1 == 1001", "3 at 33"),
            (b"n 3 16 1 5 16 16 16 3 0 1 2 0 0", "3 at 26"), (b"n 3 16 1 5 16 16 16 3 0 1 1 0 0", "4 at 26"),
            (b"n 3 16 1 5 16 16 15 3 0 1 2 0 0 ;", "6 at 32")):
        expect(one("read", text, 9), "refused %s table 0*9" % wanted)
        expect(one("price", text, 0), "unread %s" % wanted)


def record_tests():
    """The records of B and C with one word changed, by hand."""
    def refused(record, changes, wanted, text=B):
        words = list(record)
        for at, value in changes.items():
            words[at] = value
        expect(one("check", text, 8 * len(words), record=to_bytes(words)).split(" work")[0], wanted)
    for at, value in enumerate([2, 0, 2, 9, 9, 0, 8, 4]):
        refused(RECORD_B, {at: value}, "refused 13 at %d" % at)
    refused(RECORD_B, {2: 1}, "refused 13 at 3")
    refused(RECORD_B, {2: 1, 3: 9}, "refused 13 at 5")
    refused(RECORD_B, {3: 5}, "refused 13 at 3")
    refused(RECORD_B, {3: 6, 8: 1}, "refused 13 at 19")
    refused(RECORD_B, {7: 5 + 2 ** 61}, "refused 13 at 7")
    refused(RECORD_B, {8: 2}, "refused 13 at 8")
    refused(RECORD_B, {8: 1}, "refused 13 at 3")
    refused(RECORD_B, {18: 3}, "refused 13 at 19")
    refused(RECORD_B, {18: 5}, "refused 13 at 14")
    refused(RECORD_B, {28: 4}, "accepted")
    refused(RECORD_B, {28: 3}, "refused 13 at 29")
    refused(RECORD_B, {14: 1}, "refused 13 at 14")
    refused(RECORD_B, {20: 1}, "refused 13 at 19")
    refused(RECORD_B[:29], {7: 4}, "refused 13 at 29")
    refused(RECORD_B[:9], {7: 0}, "refused 13 at 9")
    refused(RECORD_B + [5, 0, 0, 0, 0], {7: 6}, "refused 13 at 34")
    refused(RECORD_C, {3: 4}, "refused 13 at 3", C)
    refused(RECORD_C, {12: 4}, "refused 13 at 13", C)
    refused(RECORD_C[:8] + RECORD_C[13:], {7: 1}, "refused 13 at 8", C)
    for length in (0, 63, 271):
        expect(one("check", B, length, record=to_bytes(RECORD_B)[:length]), "refused 13 at 0 work 0*4")
    expect(one("check", B, 280, record=to_bytes(RECORD_B + [0])), "refused 13 at 7 work 0*4")


def frame_tests():
    expect(list(lines(b"")), [])
    for bad in (b"\n", b"read 0 0", b"read 0 0\n", b"read 0 0\n ", b"read 1 0\n\n", b"read  0 0\n\n", b"read 0 5001\n\n",
                b"pass 0 \n\n", b"pass\n\n", b"Pass 0\n\n", b"pass 0 256\n\n", b"pass 0 000000000000000000001\n\n",
                b"price 0 18446744073709551616\n\n", b"shift 0 4 1 0 0 1\n\n", b"lend 1 0 0 0 0 0\n\n\n", b"\r\n",
                b"lend 0 1 1 9 1 0\n\n", b"pass 0" + 65 * b" 0" + b"\n\n", b"price 0 " + b"0" * 1017 + b"\n\n"):
        expect(list(lines(frame("read", B, 2) + bad)), ["done 9 0 1 2 0 table 4*1 6*1", "bad frame"])
    long = b"price 25" + 47 * (b" %020d" % 1) + 13 * b" 0"
    expect(list(lines(long + b" 00\n" + B + b"\n")), ["done 6 nowhere"])
    expect(list(lines(long + b" 000\n" + B + b"\n")), ["bad frame"])
    # a lend reaches the next frame alone, and not a read
    lent = frame("lend", b"", 1, 9, 0, 0, 0)
    price_B, read_B = frame("price", B, 1, 0), frame("read", B, 2)
    expect(list(lines(lent + price_B + price_B + lent + read_B + price_B)),
           ["lent", "refused 7 at 0", "done 4 nowhere", "lent", "done 9 0 1 2 0 table 4*1 6*1", "done 4 nowhere"])
    expect(list(lines(frame("lend", b"", 2, 2, 9, 1, 10) + price_B)), ["lent", "refused 8 at 0"])
    expect(list(lines(frame("lend", b"", 1, 2, 9, 0, 10) + price_B)), ["lent", "refused 8 at 0"])
    expect(list(lines(frame("lend", b"", 3, 1, 0, 0, 0) + frame("pass", B))), ["lent", "refused 7 at 0 work 0*1"])
    expect(list(lines(frame("lend", b"", 3, 4, 0, 0, 0) + frame("pass", B, 0))), ["lent", "done 4 work 0*1 2*1 77*2"])
    # the shown part
    expect(one("show", A, 0, 1), "part 0*2 4*1 0*1")
    expect(one("show", A, 1, 0), "part 5*1 0*2 5*1")
    expect(one("show", A, 1, 2), "part")
    expect(list(lines(frame("lend", b"", 14, 14, 10, 13, 11) + frame("show", A, 0, 1))), ["lent", "part"])


def random_network(pick):
    n = pick(5)
    sizes = [1 + pick(3) for _ in range(n)]
    functions = []
    for _ in range(pick(6)):
        scope = sorted(range(n), key=lambda _: pick(1000))[:pick(4)]
        functions.append([len(scope)] + scope)
        cells = list(product(*[range(sizes[v]) for v in scope])) if scope else []
        chosen = [cell for cell in cells if pick(2)]
        functions[-1] += [pick(4), len(chosen)] + [word for cell in chosen for word in cell + (pick(6),)]
    k = 1 + pick(12)
    return line("r", n, max(sizes, default=0), len(functions), k, sizes, [word for f in functions for word in f]).encode()


def random_tests(rounds):
    """Against brute force: where plans break, the search's answer, the pass's promise, and that no accepted record lies."""
    state = [12345]

    def pick(below):
        state[0] = (state[0] * 6364136223846793005 + 1442695040888963407) % 2 ** 64
        return (state[0] >> 33) % below
    accepted = 0
    for _ in range(rounds):
        net, costs = read(random_network(pick))
        plans = list(product(*[range(size) for size in net.sizes[:net.n]]))
        prices = {plan: cost_of(net, costs, plan) for plan in plans}
        best = min(prices.values())
        for plan in plans:
            names, paid = zip(*parts(net, costs, plan))
            reached = [at for at in range(len(paid)) if sum(paid[:at + 1]) >= net.k]
            expect(breaks_at(net, costs, plan), names[reached[0]] if reached else "nowhere")
        done, record = search(net, costs, costs, 10 ** 9, 1, 10 ** 9)
        expect(done.best, best)
        expect(done.plan, list(min(plan for plan in plans if prices[plan] == best)) if best < net.k else [])
        expect(done.nodes, sum(step[0] in (1, 5) for step in done.steps))
        check(net, costs, costs, record)
        node = [pick(size + 1) for size in net.sizes[:net.n]]
        constant, worked, shifts = passed(net, costs, node)
        moved = Network()
        moved.__dict__.update(net.__dict__, constant=constant)
        fitting = [plan for plan in plans if all(x in (0, a + 1) for x, a in zip(node, plan))]
        expect([cost_of(moved, worked, plan) for plan in fitting], [prices[plan] for plan in fitting])
        expect(constant <= min(prices[plan] for plan in fitting), True)
        words = to_words(record)
        for at in range(len(words)):
            changed = list(words)
            changed[at] = max(0, changed[at] + (1, -1, 2, 5)[pick(4)])
            try:
                check(net, costs, costs, to_bytes(changed))
            except Refused as no:
                expect(no.number, 13)
            else:
                accepted += 1
                expect(changed[3], best)
                expect(best == net.k or prices[tuple(changed[8:8 + net.n])] == best, True)
    expect(accepted > 0, True)


def self_test():
    for test in (hand_tests, breaking_tests, reading_tests, record_tests, frame_tests):
        test()
    random_tests(400)
    print("self-test passed")


def main():
    if sys.argv[1:] == ["--self-test"]:
        self_test()
    elif len(sys.argv) == 1:
        for text in lines(sys.stdin.buffer.read()):
            sys.stdout.write(text + "\n")
    else:
        sys.exit(__doc__)


if __name__ == "__main__":
    main()
