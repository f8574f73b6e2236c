"""The Mojette tile bench once more, as plain Python.

This program is a second opinion.  It was written from the rules of the bench
and not from the bench's code, so that the two can contradict each other.  It
aims at being easy to read and to believe; speed does not matter.

    python3 reference/mojette.py < FILE

does what the bench's program does: it reads a bracket file and prints a
listing.

Samples are Python values (a pair is a Python pair), tables are Python lists,
and a refusal is an exception that carries its number and the three numbers
told with it.  A refused call has written nothing, but for refusal 9, and the
caller still holds the state and the grant that it had before.
"""

import sys
from functools import lru_cache
from typing import NamedTuple

LARGEST_SIDE = 64
MOST_PLACES = 16
STATE_LIMIT = 4_294_967_295
PROGRAM_BYTES = 65_536
PROGRAM_POSITIONS = 8_192


class Refusal(Exception):
    """A refusal: its number, and what it tells, with 0 where it tells nothing.

     1  P or Q is outside 1 to 64
     2  N is outside 1 to 16
     3  a direction is not lawful; place
     4  a direction does not follow the one before; place
     5  a table is too short; its number
     6  all places are loaded
     7  the source differs from the plan
     8  places are not loaded; how many
     9  the criterion fails; C, R
    10  nothing waits
    11  a cell of the queue holds T or more; its index
    12  the grant is T or more
    13  pixels are missing; how many
    14  grants are out; how many
    15  a sum is left over; place, bin
    16  there is no such place
    17  the place is lost; cause
    18  there is no such bin
    19  the rack's run is not T long; T
    20  the text is no file; line, byte, reason
    21  the output is too short; the needed length
    22  the program's own limits: bytes of input, or T
    """

    def __init__(self, number, a=0, b=0, c=0):
        super().__init__(number, a, b, c)
        self.told = (number, a, b, c)


# A file of the tile 1 2 / 3 4 with its second place lost.
EXAMPLE = (
    b"(tile sum 2 2)\n"
    b"(dir 1 1 (bins 0002 0005 0003))\n"
    b"(dir 0 1 (lost 4))\n"
    b"(dir -1 1 (bins 0004 0005 0001))\n"
    b"(end)\n"
)


# ---------------------------------------------------------------------------
# Kinds of sample


class SumWords:
    """Whole numbers modulo 65,536."""

    name = "sum"
    digits = 4
    zero = 0
    spark = 1

    def plus(self, x, y):
        return (x + y) % 65_536

    def inverse(self, x):
        return (0 - x) % 65_536

    def code(self, x):
        return "%04X" % x

    def from_code(self, code):
        return int(code, 16)

    def number(self, x):
        """A sample as one whole number, for the test vectors."""
        return x

    def from_number(self, number):
        return number % 65_536


class XorWords:
    """Words of 32 bits, joined by exclusive or."""

    name = "xor"
    digits = 8
    zero = 0
    spark = 1

    def plus(self, x, y):
        return x ^ y

    def inverse(self, x):
        return x

    def code(self, x):
        return "%08X" % x

    def from_code(self, code):
        return int(code, 16)

    def number(self, x):
        return x

    def from_number(self, number):
        return number % 4_294_967_296


class Pairs:
    """Two lawful kinds side by side."""

    name = "pair"

    def __init__(self, first, second):
        self.first = first
        self.second = second
        self.digits = first.digits + second.digits
        self.zero = (first.zero, second.zero)
        self.spark = (first.spark, second.spark)

    def plus(self, x, y):
        return (self.first.plus(x[0], y[0]), self.second.plus(x[1], y[1]))

    def inverse(self, x):
        return (self.first.inverse(x[0]), self.second.inverse(x[1]))

    def code(self, x):
        return self.first.code(x[0]) + self.second.code(x[1])

    def from_code(self, code):
        cut = self.first.digits
        return (self.first.from_code(code[:cut]), self.second.from_code(code[cut:]))

    def number(self, x):
        """Each digit of a code stands for 16, so the second half has 16^digits values."""
        return self.first.number(x[0]) * 16 ** self.second.digits + self.second.number(x[1])

    def from_number(self, number):
        high, low = divmod(number, 16 ** self.second.digits)
        return (self.first.from_number(high), self.second.from_number(low))


SUM = SumWords()
XOR = XorWords()
PAIR = Pairs(SUM, XOR)
KINDS = (SUM, XOR, PAIR)


def minus(kind, x, y):
    return kind.plus(x, kind.inverse(y))


# ---------------------------------------------------------------------------
# Directions, bins, positions


def gcd(a, b):
    if b == 0:
        return a
    return gcd(b, a % b)


def is_lawful(direction):
    p, q = direction
    if not (-7 <= p <= 7 and 0 <= q <= 7):
        return False
    if gcd(abs(p), q) != 1:
        return False
    return q != 0 or p == 1


def stands_before(direction, other):
    (p, q), (p2, q2) = direction, other
    return p * q2 > p2 * q


def all_lawful_directions():
    """Every lawful direction, each before the next."""
    ordered = []
    for q in range(0, 8):
        for p in range(-7, 8):
            if is_lawful((p, q)):
                at = 0
                while at < len(ordered) and stands_before(ordered[at], (p, q)):
                    at += 1
                ordered.insert(at, (p, q))
    return ordered


def raw_number(direction, k, l):
    p, q = direction
    return -k * q + l * p


def smallest_raw_number(P, Q, direction):
    p, q = direction
    return -(P - 1) * q + (Q - 1) * min(p, 0)


def bin_of(P, Q, direction, k, l):
    return raw_number(direction, k, l) - smallest_raw_number(P, Q, direction)


def bin_count(P, Q, direction):
    p, q = direction
    return (P - 1) * q + (Q - 1) * abs(p) + 1


@lru_cache(maxsize=4096)
def cells_of_bins(P, Q, direction):
    """For each bin the cells of its pixels, rising."""
    bins = [[] for _ in range(bin_count(P, Q, direction))]
    for l in range(Q):
        for k in range(P):
            bins[bin_of(P, Q, direction, k, l)].append(l * P + k)
    return bins


def sums_of(kind, P, Q, direction, picture):
    sums = []
    for cells in cells_of_bins(P, Q, direction):
        total = kind.zero
        for cell in cells:
            total = kind.plus(total, picture[cell])
        sums.append(total)
    return sums


def check_size(P, Q):
    if not (1 <= P <= LARGEST_SIDE and 1 <= Q <= LARGEST_SIDE):
        raise Refusal(1)


def project(kind, P, Q, direction, picture, sums):
    """Write the sums of one direction of a picture into the table of sums."""
    check_size(P, Q)
    if not is_lawful(direction):
        raise Refusal(3, 0)
    if len(picture) < P * Q:
        raise Refusal(5, 1)
    if len(sums) < bin_count(P, Q, direction):
        raise Refusal(5, 3)
    for b, total in enumerate(sums_of(kind, P, Q, direction, picture)):
        sums[b] = total


# ---------------------------------------------------------------------------
# Plans and sources
#
# A source answers three questions: sizes() gives (P, Q, N); place(i) gives the
# direction of place i and its cause, 0 for whole; bin(i, b) gives one sum.


class Plan:
    """P, Q, and the direction and cause of each place."""

    def __init__(self, P=1, Q=1, places=(((0, 1), 0),)):
        self.P = P
        self.Q = Q
        self.places = list(places)

    def cells(self):
        return self.P * self.Q

    def bins(self, i):
        return bin_count(self.P, self.Q, self.places[i][0])

    def start(self, i):
        """The position of bin 0 of place i."""
        return sum(self.bins(j) for j in range(i))

    def total(self):
        """T: the bins of all places, lost ones too."""
        return self.start(len(self.places))

    def place_and_bin(self, position):
        for i in range(len(self.places)):
            if position < self.bins(i):
                return i, position
            position -= self.bins(i)
        raise AssertionError("a position below T has a place")

    def whole_places(self):
        return [i for i, (_, cause) in enumerate(self.places) if cause == 0]

    def position_of_pixel(self, i, cell):
        l, k = divmod(cell, self.P)
        return self.start(i) + bin_of(self.P, self.Q, self.places[i][0], k, l)


def check_places(P, Q, places):
    """The lawfulness of a source: refusals 1 and 2, then 3 and 4 place by place."""
    check_size(P, Q)
    if not 1 <= len(places) <= MOST_PLACES:
        raise Refusal(2)
    for i, (direction, _) in enumerate(places):
        if not is_lawful(direction):
            raise Refusal(3, i)
        if i > 0 and not stands_before(places[i - 1][0], direction):
            raise Refusal(4, i)


def asked_plan(source):
    """What a source says of its sizes and places, once that is lawful."""
    P, Q, N = source.sizes()
    places = [source.place(i) for i in range(N)]
    check_places(P, Q, places)
    return Plan(P, Q, places)


class Rack:
    """A source that reads from one run of T samples in order of position."""

    def __init__(self, kind, P, Q, places, run):
        check_places(P, Q, places)
        plan = Plan(P, Q, places)
        if len(run) != plan.total():
            raise Refusal(19, plan.total())
        self.kind = kind
        self.plan = plan
        self.run = run

    def sizes(self):
        return self.plan.P, self.plan.Q, len(self.plan.places)

    def place(self, i):
        if i >= len(self.plan.places):
            raise Refusal(16)
        return self.plan.places[i]

    def bin(self, i, b):
        _, cause = self.place(i)
        if cause != 0:
            raise Refusal(17, cause)
        if b >= self.plan.bins(i):
            raise Refusal(18)
        return self.run[self.plan.start(i) + b]


def strip(source, i, output):
    """Each bin's sum shared out among its pixels, for one place of sum words."""
    plan = asked_plan(source)
    direction, cause = source.place(i)
    if cause != 0:
        raise Refusal(17, cause)
    if len(output) < plan.bins(i):
        raise Refusal(21, plan.bins(i))
    for b, cells in enumerate(cells_of_bins(plan.P, plan.Q, direction)):
        output[b] = source.bin(i, b) // len(cells) if cells else 0


# ---------------------------------------------------------------------------
# Criterion and ghost


def criterion(plan):
    """Whether the whole places are enough, and their C and R."""
    C = sum(abs(plan.places[i][0][0]) for i in plan.whole_places())
    R = sum(plan.places[i][0][1] for i in plan.whole_places())
    return plan.P <= C or plan.Q <= R, C, R


def ghost(kind, plan):
    """A picture that is not zero, though all its sums in whole places are."""
    P, Q = plan.P, plan.Q
    whole = [plan.places[i][0] for i in plan.whole_places()]
    k0 = sum(-p for p, _ in whole if p < 0)
    now = [kind.zero] * (P * Q)
    now[k0] = kind.spark
    for p, q in whole:
        old = now
        now = []
        for l in range(Q):
            for k in range(P):
                inside = 0 <= k - p < P and 0 <= l - q < Q
                there = old[(l - q) * P + (k - p)] if inside else kind.zero
                now.append(minus(kind, old[l * P + k], there))
    return now


# ---------------------------------------------------------------------------
# The tile: open, load, seal, take, settle, give back, finish, picture


class Loading(NamedTuple):
    loaded: int


class Peeling(NamedTuple):
    head: int
    waiting: int
    out: int
    left: int
    settled: int


class Finished(NamedTuple):
    pass


class Tables:
    """The caller's five tables, numbered from 1 in this order."""

    def __init__(self, picture, marks, sums, counts, queue):
        self.picture = picture
        self.marks = marks
        self.sums = sums
        self.counts = counts
        self.queue = queue

    def all(self):
        return (self.picture, self.marks, self.sums, self.counts, self.queue)


def check_tables(plan, tables, numbers):
    cells, total = plan.cells(), plan.total()
    needed = (cells, cells, total, total, total)
    for number in numbers:
        if len(tables.all()[number - 1]) < needed[number - 1]:
            raise Refusal(5, number)


def one_more(count):
    return min(count + 1, STATE_LIMIT)


def one_less(count):
    return max(count - 1, 0)


def append(plan, queue, tile, position):
    """Put a position behind the waiting ones; not done when T or more wait."""
    total = plan.total()
    if tile.waiting >= total:
        return tile
    queue[(tile.head + tile.waiting) % total] = position
    return tile._replace(waiting=one_more(tile.waiting))


def open_tile(source, plan):
    asked = asked_plan(source)
    plan.P, plan.Q, plan.places = asked.P, asked.Q, asked.places
    return Loading(loaded=0)


def load(kind, source, plan, tables, tile):
    check_tables(plan, tables, (3,))
    i = tile.loaded
    if i >= len(plan.places):
        raise Refusal(6)
    if source.sizes() != (plan.P, plan.Q, len(plan.places)):
        raise Refusal(7)
    if source.place(i) != plan.places[i]:
        raise Refusal(7)
    _, cause = plan.places[i]
    sums = [kind.zero if cause else source.bin(i, b) for b in range(plan.bins(i))]
    tables.sums[plan.start(i):plan.start(i) + len(sums)] = sums
    return Loading(loaded=i + 1)


def seal(kind, plan, tables, tile):
    check_tables(plan, tables, (1, 2, 3, 4, 5))
    if tile.loaded < len(plan.places):
        raise Refusal(8, len(plan.places) - tile.loaded)
    enough, C, R = criterion(plan)
    if not enough:
        tables.picture[:plan.cells()] = ghost(kind, plan)
        raise Refusal(9, C, R)
    for cell in range(plan.cells()):
        tables.picture[cell] = kind.zero
        tables.marks[cell] = 0
    waiting = 0
    position = 0
    for direction, cause in plan.places:
        for cells in cells_of_bins(plan.P, plan.Q, direction):
            count = 0 if cause else len(cells)
            tables.counts[position] = count
            if count == 1:
                tables.queue[waiting] = position
                waiting += 1
            position += 1
    return Peeling(head=0, waiting=waiting, out=0, left=plan.cells(), settled=0)


def take(plan, tables, tile):
    """Gives the new state and the grant."""
    check_tables(plan, tables, (5,))
    if tile.waiting == 0:
        raise Refusal(10)
    total = plan.total()
    index = tile.head % total
    if tables.queue[index] >= total:
        raise Refusal(11, index)
    tile = tile._replace(
        head=(tile.head + 1) % total,
        waiting=one_less(tile.waiting),
        out=one_more(tile.out),
    )
    return tile, tables.queue[index]


def settle(kind, plan, tables, tile, grant):
    """Gives the new state and the answer: the pixel's cell or None, and left."""
    check_tables(plan, tables, (1, 2, 3, 4, 5))
    if grant >= plan.total():
        raise Refusal(12)
    i, b = plan.place_and_bin(grant)
    direction, cause = plan.places[i]
    found = None
    if cause == 0:
        cells = cells_of_bins(plan.P, plan.Q, direction)[b]
        missing = [cell for cell in cells if tables.marks[cell] == 0]
        if len(missing) == 1:
            found = missing[0]
    if found is not None:
        value = tables.sums[grant]
        tables.picture[found] = value
        tables.marks[found] = 1
        tile = tile._replace(left=one_less(tile.left))
        for j in plan.whole_places():
            position = plan.position_of_pixel(j, found)
            tables.sums[position] = minus(kind, tables.sums[position], value)
            before = tables.counts[position]
            tables.counts[position] = one_less(before)
            if before == 2:
                tile = append(plan, tables.queue, tile, position)
    tile = tile._replace(out=one_less(tile.out), settled=one_more(tile.settled))
    return tile, (found, tile.left)


def give_back(plan, tables, tile, grant):
    check_tables(plan, tables, (5,))
    if grant >= plan.total():
        raise Refusal(12)
    tile = append(plan, tables.queue, tile, grant)
    return tile._replace(out=one_less(tile.out))


def finish(kind, plan, tables, tile):
    check_tables(plan, tables, (3,))
    if tile.left != 0:
        raise Refusal(13, tile.left)
    if tile.out != 0:
        raise Refusal(14, tile.out)
    for position in range(plan.total()):
        if tables.sums[position] != kind.zero:
            raise Refusal(15, *plan.place_and_bin(position))
    return Finished()


def picture_of(plan, tables, tile):
    """The caller's own first P times Q cells; Python hands out a copy of them."""
    assert isinstance(tile, Finished)
    check_tables(plan, tables, (1,))
    return tables.picture[:plan.cells()]


# ---------------------------------------------------------------------------
# The bracket file: reading


class Token(NamedTuple):
    sort: str  # "(", ")", "space", "line end", "end" or "word"
    first: int  # the place of its first byte in the text, from 0
    word: bytes


SORTS = {0x28: "(", 0x29: ")", 0x20: "space", 0x0A: "line end"}


def token_at(text, at):
    if at == len(text):
        return Token("end", at, b"")
    if text[at] in SORTS:
        return Token(SORTS[text[at]], at, b"")
    stop = at
    while stop < len(text) and text[stop] not in SORTS:
        stop += 1
    return Token("word", at, text[at:stop])


def numeral(word):
    """The whole number that a word writes, or None if it writes none."""
    digits = word[1:] if word.startswith(b"-") else word
    if not digits or any(digit not in b"0123456789" for digit in digits):
        return None
    if digits.startswith(b"0") and word != b"0":
        return None
    if len(digits) > 9:
        # Longer than any range: all that matters is that it is out of range.
        digits = b"999999999"
    return -int(digits) if word.startswith(b"-") else int(digits)


class Reader:
    """Goes through a text token by token; the first wrong one ends the reading."""

    def __init__(self, text):
        self.text = text
        self.at = 0

    def next(self):
        token = token_at(self.text, self.at)
        self.at = token.first + max(len(token.word), 1)
        return token

    def wrong(self, token, reason):
        line = 1 + self.text[:token.first].count(b"\n")
        raise Refusal(20, line, token.first, reason)

    def need(self, sort):
        token = self.next()
        if token.sort != sort:
            self.wrong(token, 0)
        return token

    def need_word(self, *allowed):
        token = self.need("word")
        if token.word not in allowed:
            self.wrong(token, 0)
        return token

    def need_number(self, low, high, reason):
        token = self.need("word")
        number = numeral(token.word)
        if number is None:
            self.wrong(token, 0)
        if not low <= number <= high:
            self.wrong(token, reason)
        return token, number


class BracketFile:
    """A source that holds a text and finds its sums in it.

    The reader is for one kind, or for whichever kind the text names.
    """

    def __init__(self, text, kind=None):
        self.text = text
        names = {k.name.encode(): k for k in (KINDS if kind is None else (kind,))}
        reader = Reader(text)

        reader.need("(")
        reader.need_word(b"tile")
        reader.need("space")
        self.kind = names[reader.need_word(*names).word]
        reader.need("space")
        _, self.P = reader.need_number(1, LARGEST_SIDE, 1)
        reader.need("space")
        _, self.Q = reader.need_number(1, LARGEST_SIDE, 1)
        reader.need(")")
        reader.need("line end")

        self.places = []
        self.first_codes = []  # where the text has the first code of each place
        while True:
            reader.need("(")
            token = reader.need_word(b"dir", b"end")
            if token.word == b"end":
                if not self.places:
                    reader.wrong(token, 2)
                break
            if len(self.places) == MOST_PLACES:
                reader.wrong(token, 2)
            self.read_place(reader)
        reader.need(")")
        reader.need("line end")
        reader.need("end")

    def read_place(self, reader):
        """The rest of a line after the word `dir`."""
        reader.need("space")
        _, p = reader.need_number(-7, 7, 3)
        reader.need("space")
        token, q = reader.need_number(0, 7, 3)
        if not is_lawful((p, q)):
            reader.wrong(token, 3)
        if self.places and not stands_before(self.places[-1][0], (p, q)):
            reader.wrong(token, 4)
        reader.need("space")
        reader.need("(")
        if reader.need_word(b"bins", b"lost").word == b"lost":
            reader.need("space")
            _, cause = reader.need_number(1, 255, 0)
            first_code = None
        else:
            cause = 0
            first_code = reader.at + 1
            for _ in range(bin_count(self.P, self.Q, (p, q))):
                reader.need("space")
                token = reader.need("word")
                if not self.is_code(token.word):
                    reader.wrong(token, 0)
        reader.need(")")
        reader.need(")")
        reader.need("line end")
        self.places.append(((p, q), cause))
        self.first_codes.append(first_code)

    def is_code(self, word):
        return len(word) == self.kind.digits and all(byte in b"0123456789ABCDEF" for byte in word)

    def sizes(self):
        return self.P, self.Q, len(self.places)

    def place(self, i):
        if i >= len(self.places):
            raise Refusal(16)
        return self.places[i]

    def bin(self, i, b):
        direction, cause = self.place(i)
        if cause != 0:
            raise Refusal(17, cause)
        if b >= bin_count(self.P, self.Q, direction):
            raise Refusal(18)
        at = self.first_codes[i] + b * (self.kind.digits + 1)
        return self.kind.from_code(self.text[at:at + self.kind.digits])


# ---------------------------------------------------------------------------
# The bracket file: writing; the listing


def put(text, output):
    if len(output) < len(text):
        raise Refusal(21, len(text))
    output[:len(text)] = text
    return len(text)


def lines_to_bytes(lines):
    return "".join(line + "\n" for line in lines).encode()


def text_of(kind, source):
    plan = asked_plan(source)
    lines = ["(tile %s %d %d)" % (kind.name, plan.P, plan.Q)]
    for i, ((p, q), cause) in enumerate(plan.places):
        if cause:
            inner = "lost %d" % cause
        else:
            inner = " ".join(["bins"] + [kind.code(source.bin(i, b)) for b in range(plan.bins(i))])
        lines.append("(dir %d %d (%s))" % (p, q, inner))
    lines.append("(end)")
    return lines_to_bytes(lines)


def write_file(kind, source, output):
    """Write a source as a bracket file; gives the number of bytes written."""
    return put(text_of(kind, source), output)


def listing_of(kind, plan, picture, is_ghost):
    lines = ["(%s %s %d %d)" % ("ghost" if is_ghost else "picture", kind.name, plan.P, plan.Q)]
    if is_ghost:
        for i, (_, cause) in enumerate(plan.places):
            if cause:
                lines.append("(lost %d %d)" % (i, cause))
    for l in range(plan.Q):
        cells = picture[l * plan.P:(l + 1) * plan.P]
        lines.append("(row %s)" % " ".join(kind.code(x) for x in cells))
    lines.append("(end)")
    return lines_to_bytes(lines)


def write_listing(kind, plan, picture, is_ghost, output):
    """Write the listing of a picture or a ghost; gives the number of bytes written."""
    if len(picture) < plan.cells():
        raise Refusal(5, 1)
    return put(listing_of(kind, plan, picture, is_ghost), output)


# ---------------------------------------------------------------------------
# The program


def fresh_tables(kind, cells, total):
    return Tables([kind.zero] * cells, [0] * cells, [kind.zero] * total, [0] * total, [0] * total)


def listing_for_input(data):
    if len(data) > PROGRAM_BYTES:
        raise Refusal(22)
    source = BracketFile(data)
    kind = source.kind
    plan = Plan()
    tile = open_tile(source, plan)
    if plan.total() > PROGRAM_POSITIONS:
        raise Refusal(22)
    tables = fresh_tables(kind, plan.cells(), plan.total())
    for _ in plan.places:
        tile = load(kind, source, plan, tables, tile)
    try:
        tile = seal(kind, plan, tables, tile)
    except Refusal as refusal:
        if refusal.told[0] != 9:
            raise
        return listing_of(kind, plan, tables.picture, True)
    while tile.waiting > 0:
        tile, grant = take(plan, tables, tile)
        tile, _ = settle(kind, plan, tables, tile, grant)
    tile = finish(kind, plan, tables, tile)
    return listing_of(kind, plan, picture_of(plan, tables, tile), False)


def program(data):
    """From the bytes on standard input to the bytes on standard output."""
    try:
        return listing_for_input(data)
    except Refusal as refusal:
        return lines_to_bytes(["(refused %d %d %d %d)" % refusal.told])


if __name__ == "__main__":
    sys.stdout.buffer.write(program(sys.stdin.buffer.read(PROGRAM_BYTES + 1)))
