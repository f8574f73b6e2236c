"""Makes the test vectors of the bench from fixed seeds.

    python3 reference/make.py write            from the root of the repository: writes every file
                                               of the table STORED, and beside each file
                                               examples/NAME.tile what is printed of it, NAME.out
    python3 reference/make.py check            makes them again and compares them with the stored
                                               ones; exit status 1 on a difference
    python3 reference/make.py answer SET       answers the lines of standard input
    python3 reference/make.py try COMMAND ..   runs a command on every case of `program`, one
                                               run a case; exit status 1 on a difference
    python3 reference/make.py cases FOLDER     writes every case of `program` and every file of
                                               examples/ into FOLDER, NAME its input and
                                               NAME.stdout what is printed of it

SET is one of project, strip, ghost, format, schedule, program.  A vector is two files: `stdin`
has one case a line, which begins with the name of its set, and `stdout` the answer to each, line
by line.  The words of a line are parted by one space.  But for format and program every other word
of `stdin` is a whole number in base ten.

Throughout: KIND is 0 for sum words, 1 for XOR words, 2 for pairs.  A sample is one number; a pair
is its sum word times 2^32 plus its XOR word.  A list is its length and then its members; `[s]` is
such a list of samples.  A source is

    SOURCE =  P Q N (p q cause)*N        and for a rack its run [s] after that

with cause 0 for a whole place, else 1 to 255.  P, Q, and questions for a place or bin are numbers
up to 2^40; p and q are anywhere in the range of signed 32 bits; N is at most 40.  A refusal is
answered by `refused n a b c`: its number, what it tells, 0 where it tells nothing.

project    KIND P Q p q [picture] [sums]
           ok v1 .. vk        all cells of the table of sums after the call
           Refused as the call project refuses: size, direction, table 1, table 3.

ghost      KIND P Q N (p q cause)*N [picture]
           enough C R v1 .. vn    the criterion holds; the picture as it was
           ghost C R v1 .. vn     it fails; the picture after the ghost was written into it
           Refused when the source is not lawful, then when table 1 is too short.

strip      KIND QUESTION P Q N (p q cause)*N [run] and then, by QUESTION,
             0    place [output]    strip of that place (sum words only; output of 16-bit cells)
                                    ok v1 .. vk      all cells of the output after the call
             1                      the sizes        ok P Q N
             2    place             that place       ok p q cause
             3    place bin         that bin         ok v
           The rack is made first, which may be refused; then it is asked.

format     a text as hexadecimal bytes, two digits 0-9 A-F a byte, or - for the empty text; the
           reader is the one of the kind that the text names
           file HEX           it is a file; HEX is what the writer makes of it, the text itself
           refused 20 line byte reason

schedule   KIND, two tiles, the number of calls, and the calls.  A tile is

             P Q N (p q cause)*N [run] (length first step)*5

           the last for its five tables: cell i of a table holds, before any call, first + i*step,
           modulo 256 in marks and counts, 65,536 in the queue, and in the others modulo 2^16,
           2^32 or 2^48 as the number of a sample.  Each tile has a rack, a plan, tables, and once
           opened a state.  Besides there are four slots for grants, numbered from 0.  A call is
           seven numbers

             CALL s p t x c n

           with the state of tile s, the plan of tile p and the tables of tile t, mostly s = p = t
           but not always.  When c is not 0, table c is lent by its first n cells only.

             0 open       source x                     ok
             1 load       source x                     ok
             2 seal                                    ok
             3 take       into the empty slot x        ok position
             4 settle     the grant in slot x          ok cell left, with - for no cell
             5 give back  the grant in slot x          ok
             6 finish                                  ok
             7 picture                                 ok h, h being the checksum of that part
             8 poke: no call of the bench; cell c of table x is overwritten by n       ok

           The answer line has for each call its answer, or its refusal, and then a checksum of
           all ten tables, first tile 0, then tile 1, tails too.  A checksum starts as 1; for each
           cell of number v it becomes (65599 * itself + v) mod 4294967291.
           No call appears that the state does not allow, no tile is opened twice, and in the end
           every slot is empty.  The plan of a tile not opened is the fresh plan.  The first 62
           lines are plain: one tile, no table cut short, nothing poked, s = p = t.

program    the bytes of an input, written as in format
           HEX                the bytes that the program prints
           The first cases are the files examples/NAME.tile, by name.
"""

import os
import random
import subprocess
import sys

sys.path.insert(0, os.path.dirname(os.path.abspath(__file__)))

import mojette as m  # noqa: E402

# The sets whose files are stored, and their folders from the root of the repository.
STORED = [
    ("crates/vectors", ["project", "ghost", "strip", "schedule"]),
    ("crates/texts", ["format", "program"]),
]

ROOT = os.path.dirname(os.path.dirname(os.path.abspath(__file__)))
EXAMPLES = "examples"

FAR = 2**40
DIRECTIONS = m.all_lawful_directions()
# With these the bins of a small tile have many pixels, so that peeling takes its time.
NEAR_DIRECTIONS = [(p, q) for p, q in DIRECTIONS if abs(p) + q <= 3]
SUM_NUMBERS = 2**16
XOR_NUMBERS = 2**32


class Dice:
    """Random numbers from nothing but random(), the part of Python's generator that is promised
    to give the same numbers in every version."""

    def __init__(self, seed):
        self.random = random.Random(seed).random

    def below(self, n):
        return int(self.random() * n)

    def between(self, low, high):
        return low + self.below(high - low + 1)

    def chance(self, percent):
        return self.below(100) < percent

    def one_of(self, items):
        return items[self.below(len(items))]

    def some_of(self, items, count):
        """So many of the items, in the order in which they stand."""
        left = list(range(len(items)))
        while len(left) > count:
            left.pop(self.below(len(left)))
        return [items[j] for j in left]


# ---------------------------------------------------------------------------
# Answering: from a line of stdin to the line of stdout


class Words:
    def __init__(self, line):
        self.words = iter([int(word) for word in line.split(" ")])

    def one(self):
        return next(self.words)

    def some(self, count):
        return [next(self.words) for _ in range(count)]

    def list(self):
        return self.some(self.one())

    def kind(self):
        return m.KINDS[self.one()]

    def samples(self, kind):
        return [kind.from_number(number) for number in self.list()]

    def size_and_places(self):
        P, Q, N = self.some(3)
        places = []
        for _ in range(N):
            p, q, cause = self.some(3)
            places.append(((p, q), cause))
        return P, Q, places

    def end(self):
        assert next(self.words, None) is None


def joined(*words):
    return " ".join(str(word) for word in words)


def numbers(kind, samples):
    return [kind.number(sample) for sample in samples]


def answer_project(line):
    words = Words(line)
    kind = words.kind()
    P, Q, p, q = words.some(4)
    picture = words.samples(kind)
    sums = words.samples(kind)
    words.end()
    m.project(kind, P, Q, (p, q), picture, sums)
    return joined("ok", *numbers(kind, sums))


def answer_ghost(line):
    words = Words(line)
    kind = words.kind()
    P, Q, places = words.size_and_places()
    picture = words.samples(kind)
    words.end()
    m.check_places(P, Q, places)
    plan = m.Plan(P, Q, places)
    if len(picture) < plan.cells():
        raise m.Refusal(5, 1)
    enough, C, R = m.criterion(plan)
    if not enough:
        picture[:plan.cells()] = m.ghost(kind, plan)
    return joined("enough" if enough else "ghost", C, R, *numbers(kind, picture))


def answer_strip(line):
    words = Words(line)
    kind = words.kind()
    question = words.one()
    P, Q, places = words.size_and_places()
    run = words.samples(kind)
    rack = m.Rack(kind, P, Q, places, run)
    if question == 0:
        place, output = words.one(), words.list()
        words.end()
        m.strip(rack, place, output)
        return joined("ok", *output)
    if question == 1:
        words.end()
        return joined("ok", *rack.sizes())
    if question == 2:
        (p, q), cause = rack.place(words.one())
        return joined("ok", p, q, cause)
    place, b = words.some(2)
    return joined("ok", kind.number(rack.bin(place, b)))


def hexadecimal(text):
    return text.hex().upper() or "-"


def from_hexadecimal(word):
    return b"" if word == "-" else bytes.fromhex(word)


def answer_format(line):
    source = m.BracketFile(from_hexadecimal(line))
    return joined("file", hexadecimal(m.text_of(source.kind, source)))


def answer_program(line):
    return hexadecimal(m.program(from_hexadecimal(line)))


# Schedules

OPEN, LOAD, SEAL, TAKE, SETTLE, GIVE_BACK, FINISH, PICTURE, POKE = range(9)
SLOTS = 4


def checksum(h, cells):
    for number in cells:
        h = (65_599 * h + number) % 4_294_967_291
    return h


class Stage:
    """Two tiles with their racks, plans, tables and states, and the slots for grants."""

    def __init__(self, kind, tiles):
        self.kind = kind
        self.racks = []
        self.plans = [m.Plan(), m.Plan()]
        self.tables = []
        self.states = [None, None]
        self.slots = [None] * SLOTS
        for P, Q, places, run, shapes in tiles:
            self.racks.append(m.Rack(kind, P, Q, places, run))
            cells = [[first + i * step for i in range(length)] for length, first, step in shapes]
            self.tables.append(m.Tables(
                [kind.from_number(v) for v in cells[0]],
                [v % 256 for v in cells[1]],
                [kind.from_number(v) for v in cells[2]],
                [v % 256 for v in cells[3]],
                [v % 65_536 for v in cells[4]],
            ))

    def checksum(self):
        h = 1
        for tables in self.tables:
            h = checksum(h, numbers(self.kind, tables.picture))
            h = checksum(h, tables.marks)
            h = checksum(h, numbers(self.kind, tables.sums))
            h = checksum(h, tables.counts)
            h = checksum(h, tables.queue)
        return h

    def poke(self, tables, number, cell, value):
        table = tables.all()[number - 1]
        table[cell] = self.kind.from_number(value) if number in (1, 3) else value
        return ["ok"]

    def call(self, what, s, p, t, x, c, n):
        """One call; gives its answer and the checksum after it."""
        if what == POKE:
            answer = self.poke(self.tables[t], x, c, n)
        else:
            lent = [list(table) for table in self.tables[t].all()]
            if c:
                lent[c - 1] = lent[c - 1][:n]
            lent = m.Tables(*lent)
            try:
                answer = ["ok"] + self.serve(what, s, self.plans[p], lent, x)
            except m.Refusal as refusal:
                answer = ["refused", *refusal.told]
            for own, used in zip(self.tables[t].all(), lent.all()):
                own[:len(used)] = used
        return answer, self.checksum()

    def serve(self, what, s, plan, tables, x):
        kind, state = self.kind, self.states[s]
        if what == OPEN:
            assert state is None
            self.states[s] = m.open_tile(self.racks[x], plan)
            return []
        if what in (LOAD, SEAL):
            assert isinstance(state, m.Loading)
            if what == LOAD:
                self.states[s] = m.load(kind, self.racks[x], plan, tables, state)
            else:
                self.states[s] = m.seal(kind, plan, tables, state)
            return []
        if what == PICTURE:
            part = m.picture_of(plan, tables, state)
            return [checksum(1, numbers(kind, part))]
        assert isinstance(state, m.Peeling)
        if what == TAKE:
            assert self.slots[x] is None
            self.states[s], self.slots[x] = m.take(plan, tables, state)
            return [self.slots[x]]
        if what == SETTLE:
            state, (cell, left) = m.settle(kind, plan, tables, state, self.slots[x])
            self.states[s], self.slots[x] = state, None
            return ["-" if cell is None else cell, left]
        if what == GIVE_BACK:
            self.states[s] = m.give_back(plan, tables, state, self.slots[x])
            self.slots[x] = None
            return []
        assert what == FINISH
        self.states[s] = m.finish(kind, plan, tables, state)
        return []


def answer_schedule(line):
    words = Words(line)
    kind = words.kind()
    tiles = []
    for _ in range(2):
        P, Q, places = words.size_and_places()
        run = words.samples(kind)
        tiles.append((P, Q, places, run, [words.some(3) for _ in range(5)]))
    stage = Stage(kind, tiles)
    said = []
    for _ in range(words.one()):
        answer, h = stage.call(*words.some(7))
        said += answer + [h]
    words.end()
    assert stage.slots == [None] * SLOTS
    return joined(*said)


# ---------------------------------------------------------------------------
# Ingredients of the cases


def sample_number(dice, kind_number):
    """Any sample, more often than by chance a small or an extreme one."""
    if kind_number == 2:
        return sample_number(dice, 0) * XOR_NUMBERS + sample_number(dice, 1)
    limit = (SUM_NUMBERS, XOR_NUMBERS)[kind_number]
    fate = dice.below(10)
    if fate < 2:
        return dice.below(10)
    if fate < 4:
        return dice.one_of((limit - 1, limit - 2, limit // 2, limit // 2 - 1, 0, 1))
    return dice.below(limit)


def sample_numbers(dice, kind_number, count):
    return [sample_number(dice, kind_number) for _ in range(count)]


def listed(members):
    return [len(members), *members]


def cause(dice, lost_percent):
    if not dice.chance(lost_percent):
        return 0
    return dice.one_of((1, 255, dice.between(1, 255)))


def random_places(dice, count, lost_percent=30, pool=DIRECTIONS):
    return [(d, cause(dice, lost_percent)) for d in dice.some_of(pool, count)]


def flat_places(places):
    words = [len(places)]
    for (p, q), why in places:
        words += [p, q, why]
    return words


def true_run(dice, kind_number, plan, picture):
    """The run of a rack for a picture: true sums, but rubbish in lost places."""
    kind = m.KINDS[kind_number]
    samples = [kind.from_number(v) for v in picture]
    run = []
    for i, (direction, why) in enumerate(plan.places):
        if why:
            run += sample_numbers(dice, kind_number, plan.bins(i))
        else:
            run += numbers(kind, m.sums_of(kind, plan.P, plan.Q, direction, samples))
    return run


def small_plan(dice, largest_side, most_places, decodable):
    """A tile of small sides that can be peeled, or one that cannot."""
    pool = dice.one_of((DIRECTIONS, NEAR_DIRECTIONS))
    while True:
        plan = m.Plan(
            dice.between(1, largest_side),
            dice.between(1, largest_side),
            random_places(dice, dice.between(1, most_places), 30, pool),
        )
        if m.criterion(plan)[0] == decodable:
            return plan


def rack_from(kind_number, plan, run):
    kind = m.KINDS[kind_number]
    return m.Rack(kind, plan.P, plan.Q, plan.places, [kind.from_number(v) for v in run])


def damaged_places(dice, places):
    """Places of which some direction is unlawful or out of order, or too few or too many."""
    places = list(places)
    fate = dice.one_of((0, 1, 2, 3, 4, 5, 6, 6, 6))
    at = dice.below(len(places))
    direction, why = places[at]
    if fate == 0:
        return []
    if fate == 1:
        return random_places(dice, dice.between(17, 40))
    if fate == 2:
        places[at] = (dice.one_of(UNLAWFUL), why)
    if fate == 3:
        places.insert(at, (direction, why))
    if fate == 4:
        places[at] = (dice.one_of(DIRECTIONS), why)
        places.append((dice.one_of(DIRECTIONS), 0))
    if fate == 5:
        places.reverse()
    if fate == 6:
        places[at] = (dice.one_of(UNLAWFUL), why)
        at = dice.below(len(places))
        places.insert(at, places[at])
    return places


# Directions that are not lawful, also such as would be if cut to 8 or 16 bits.
UNLAWFUL = [
    (0, 0), (-1, 0), (2, 0), (7, 0), (0, 2), (0, 7), (2, 2), (-2, 2), (-3, 6), (6, 4), (7, 7),
    (8, 1), (-8, 1), (1, 8), (1, -1), (-1, -1), (0, -1), (8, 0), (-8, 8), (257, 1), (1, 257),
    (-255, 1), (65_537, 1), (1, 65_537), (2**31 - 1, 1), (-2**31, 1), (1, 2**31 - 1),
    (1, -2**31), (-2**31, -2**31), (2**31 - 1, 2**31 - 1), (-2**31, 0), (0, -2**31),
]


# ---------------------------------------------------------------------------
# project


def project_cases():
    dice = Dice(101)

    def case(kind_number, P, Q, p, q, picture, sums):
        return joined(kind_number, P, Q, p, q, *listed(picture), *listed(sums))

    def random_case(kind_number, P, Q, p, q, cells, bins):
        picture = sample_numbers(dice, kind_number, max(cells, 0))
        return case(kind_number, P, Q, p, q, picture, sample_numbers(dice, kind_number, max(bins, 0)))

    # The worked tile.
    for p, q in ((1, 0), (0, 1), (1, 1), (-1, 1), (3, 2)):
        yield case(0, 2, 2, p, q, [1, 2, 3, 4], [9] * m.bin_count(2, 2, (p, q)))

    # Every direction in range, lawful or not, on a few sizes.
    for turn, (P, Q) in enumerate(((2, 2), (3, 2), (5, 4))):
        for q in range(0, 8):
            for p in range(-7, 8):
                bins = m.bin_count(P, Q, (p, q)) + dice.one_of((0, 0, 1, 2))
                turn += 1
                yield random_case(turn % 3, P, Q, p, q, P * Q + dice.one_of((0, 0, 1)), bins)

    # The ring of directions just out of range, and far ones.
    for q in range(-1, 9):
        for p in range(-8, 9):
            if not (-7 <= p <= 7 and 0 <= q <= 7):
                yield random_case(dice.below(3), 3, 3, p, q, 9, 9)
    for p, q in UNLAWFUL:
        yield random_case(dice.below(3), 2, 2, p, q, 4, dice.between(1, 8))
        yield random_case(dice.below(3), 1, 1, p, q, 1, 1)

    # Sizes at and beyond their ends, with small tables.
    sides = (0, 1, 2, 63, 64, 65, 66, 128, 256, 257, 65_536, 65_537, 2**31, 2**32, 2**32 + 1, FAR)
    for P in sides:
        for Q in sides:
            p, q = dice.one_of(DIRECTIONS) if dice.chance(80) else dice.one_of(UNLAWFUL)
            cells, bins = dice.one_of(((0, 0), (1, 1), (4, 9), (12, 20)))
            yield random_case(dice.below(3), P, Q, p, q, cells, bins)

    # One pixel, one column, one line of pixels; from a direction each.
    for P, Q in ((1, 1), (1, 64), (64, 1), (1, 7), (7, 1)):
        for p, q in dice.some_of(DIRECTIONS, 8):
            bins = m.bin_count(P, Q, (p, q))
            if bins < 150:
                yield random_case(dice.below(3), P, Q, p, q, P * Q, bins)

    # Table lengths around what is needed.
    for _ in range(200):
        P, Q = dice.between(1, 5), dice.between(1, 5)
        p, q = dice.one_of(DIRECTIONS) if dice.chance(95) else dice.one_of(UNLAWFUL)
        cells = dice.one_of((0, P * Q - 1, P * Q - 1, P * Q, P * Q, P * Q + 1))
        bins = m.bin_count(P, Q, (p, q)) if abs(p) < 8 and abs(q) < 8 else 5
        yield random_case(
            dice.below(3), P, Q, p, q, cells, dice.one_of((0, bins - 1, bins - 1, bins, bins + 3))
        )

    # Random tiles.
    for turn in range(490):
        P, Q = dice.between(1, 7), dice.between(1, 7)
        if turn % 40 == 0:
            P = dice.between(9, 30)
        if turn % 40 == 20:
            Q = dice.between(9, 30)
        p, q = dice.one_of(DIRECTIONS)
        bins = m.bin_count(P, Q, (p, q))
        yield random_case(turn % 3, P, Q, p, q, P * Q + dice.below(3), bins + dice.below(3))

    # Extreme samples alone.
    for turn in range(45):
        kind_number = turn % 3
        top = (SUM_NUMBERS - 1, XOR_NUMBERS - 1, SUM_NUMBERS * XOR_NUMBERS - 1)[kind_number]
        P, Q, (p, q) = dice.between(2, 7), dice.between(2, 7), dice.one_of(DIRECTIONS)
        picture = [dice.one_of((top, top, 0)) for _ in range(P * Q)]
        yield case(kind_number, P, Q, p, q, picture, [top] * m.bin_count(P, Q, (p, q)))

    # The largest tiles.
    yield case(0, 64, 64, 7, 6, [65_535] * 4096, [1] * 820)
    yield case(0, 64, 64, 1, 0, [dice.below(1024) for _ in range(4096)], [0] * 65)
    yield case(1, 64, 64, -6, 7, sample_numbers(dice, 1, 4096), [7] * 821)
    yield case(2, 64, 17, -7, 5, sample_numbers(dice, 2, 64 * 17), [3] * m.bin_count(64, 17, (-7, 5)))
    yield case(1, 13, 64, -5, 3, sample_numbers(dice, 1, 13 * 64), [3] * m.bin_count(13, 64, (-5, 3)))
    yield case(0, 64, 64, 0, 1, [1] * 4095, [2] * 64)
    yield case(0, 64, 64, -7, 6, [1] * 4096, [2] * 819)
    yield case(0, 64, 64, -7, 6, [1] * 4097, [2] * 820)
    yield case(0, 65, 64, -7, 6, [1] * 4160, [2] * 827)


# ---------------------------------------------------------------------------
# ghost


def ghost_cases():
    dice = Dice(102)

    def case(kind_number, P, Q, places, picture):
        return joined(kind_number, P, Q, *flat_places(places), *listed(picture))

    def random_case(kind_number, P, Q, places, cells):
        return case(kind_number, P, Q, places, sample_numbers(dice, kind_number, cells))

    # The worked ghosts and criteria, in each kind.
    for kind_number in range(3):
        for side, places in (
            (2, [((1, 0), 0), ((0, 1), 0)]),
            (2, [((-1, 1), 0)]),
            (3, [((1, 1), 0), ((-1, 1), 0)]),
            (3, [((1, 1), 0), ((0, 1), 0), ((-1, 1), 0)]),
            (1, [((0, 1), 0)]),
            (1, [((0, 1), 1)]),
        ):
            yield random_case(kind_number, side, side, places, side * side)

    # Around the criterion: P near C, Q near R.
    made = 0
    while made < 330:
        places = random_places(dice, dice.between(1, 5))
        _, C, R = m.criterion(m.Plan(1, 1, places))
        P = dice.one_of((C - 1, C, C + 1, C + 1, C + 2, dice.between(1, 10)))
        Q = dice.one_of((R - 1, R, R + 1, R + 1, R + 2, dice.between(1, 10)))
        if not (1 <= P <= 64 and 1 <= Q <= 64 and P * Q <= 120):
            continue
        made += 1
        cells = P * Q + dice.one_of((0, 0, 0, 1, 2, -1 if made % 6 == 0 else 0))
        yield random_case(made % 3, P, Q, places, cells)

    # Unlawful sources, also with a picture too short.
    for turn in range(150):
        P, Q = dice.between(1, 4), dice.between(1, 4)
        if dice.chance(30):
            P = dice.one_of((0, 65, 257, 2**32 + 1, FAR))
        if dice.chance(30):
            Q = dice.one_of((0, 65, 257, 2**32 + 1, FAR))
        places = random_places(dice, dice.between(1, 8))
        if dice.chance(80):
            places = damaged_places(dice, places)
        yield random_case(turn % 3, P, Q, places, dice.one_of((0, P * Q if P * Q < 20 else 7)))

    # Many places.
    for turn in range(40):
        count = dice.one_of((1, 2, 3, 8, 15, 16))
        places = random_places(dice, count, dice.one_of((0, 10, 60, 100)))
        _, C, R = m.criterion(m.Plan(1, 1, places))
        P, Q = dice.between(1, 64), dice.between(1, 64)
        if turn % 2 == 0:
            P, Q = min(C + 1, 64), min(R + 1, 64)
        yield case(turn % 3, P, Q, places, [dice.below(10) for _ in range(P * Q + dice.below(2))])


# ---------------------------------------------------------------------------
# strip


def strip_cases():
    dice = Dice(103)

    def rack(kind_number, question, P, Q, places, run, *rest):
        return joined(kind_number, question, P, Q, *flat_places(places), *listed(run), *rest)

    # Strips.
    for turn in range(330):
        P, Q = dice.between(1, 6), dice.between(1, 6)
        plan = m.Plan(P, Q, random_places(dice, dice.between(1, 4), 20))
        run = sample_numbers(dice, 0, plan.total())
        if turn % 3 == 0:
            picture = [dice.below(1024) for _ in range(plan.cells())]
            run = true_run(dice, 0, plan, picture)
        place = dice.below(len(plan.places))
        if turn % 12 == 0:
            place = dice.one_of((len(plan.places), len(plan.places) + 1, 16, 256, 2**32, FAR))
        bins = plan.bins(place) if place < len(plan.places) else 4
        length = max(bins + dice.one_of((0, 0, 0, 1, 3, -1, -bins)), 0)
        output = [dice.below(65_536) for _ in range(length)]
        yield rack(0, 0, P, Q, plan.places, run, place, *listed(output))

    # Racks that are refused, whatever is asked of them.
    for turn in range(200):
        P, Q = dice.between(1, 4), dice.between(1, 4)
        places = random_places(dice, dice.between(1, 6))
        fate = dice.below(6)
        length = m.Plan(P, Q, places).total()
        if fate == 0:
            P = dice.one_of((0, 65, 257, 2**32 + 1, FAR))
        if fate == 1:
            Q = dice.one_of((0, 65, 257, 2**32 + 1, FAR))
        if fate in (2, 3) or (fate < 2 and dice.chance(50)):
            places = damaged_places(dice, places)
        length = max(length + dice.one_of((-1, 0, 1, -length, 2)), 0)
        question = dice.below(4)
        kind_number = 0 if question == 0 else turn % 3
        rest = ((0, 2, 5, 5), (), (0,), (0, 0))[question]
        run = sample_numbers(dice, kind_number, length)
        yield rack(kind_number, question, P, Q, places, run, *rest)

    # Questions.
    for turn in range(400):
        kind_number = turn % 3
        plan = m.Plan(
            dice.between(1, 5), dice.between(1, 5), random_places(dice, dice.between(1, 5))
        )
        run = sample_numbers(dice, kind_number, plan.total())
        question = dice.one_of((1, 2, 2, 3, 3, 3, 3, 3))
        place = dice.below(len(plan.places))
        if dice.chance(15):
            place = dice.one_of((len(plan.places), len(plan.places) + 1, 16, 256, 2**32, FAR))
        bins = plan.bins(place) if place < len(plan.places) else 4
        b = dice.one_of((0, dice.below(bins), dice.below(bins), bins - 1))
        if dice.chance(20):
            b = dice.one_of((bins, bins + 1, 820, 2**16, 2**32, FAR))
        rest = ((), (place,), (place, b))[question - 1]
        yield rack(kind_number, question, plan.P, plan.Q, plan.places, run, *rest)

    # Large ones.  Ten-bit samples never wrap.
    for direction in ((1, 0), (0, 1), (7, 6), (-7, 6), (1, 1)):
        plan = m.Plan(64, 64, [(direction, 0)])
        run = true_run(dice, 0, plan, [1023] * 4096)
        yield rack(0, 0, 64, 64, plan.places, run, 0, *listed([5] * (plan.bins(0) + 1)))
    places = random_places(dice, 16, 50)
    plan = m.Plan(64, 64, places)
    for place in range(16):
        if place in (0, 7, 15):
            run = [v % 10 for v in sample_numbers(dice, 0, plan.total())]
            yield rack(0, 0, 64, 64, places, run, place, *listed([5] * plan.bins(place)))


# ---------------------------------------------------------------------------
# format

EXAMPLE = m.EXAMPLE

STRANGE_NUMERALS = [
    b"0", b"1", b"-1", b"7", b"8", b"-7", b"-8", b"64", b"65", b"-64", b"255", b"256", b"257",
    b"-255", b"00", b"01", b"-0", b"-01", b"+1", b"+", b"-", b"--1", b"1-", b"1.0", b"1e0", b"0x1",
    b"A", b"1A", b"\xc2\xb9", b"1\t", b"\t1", b"1\r", b"1\x00", b"1_0", b"65537", b"65538", b"-65535",
    b"4294967296", b"4294967297", b"4294967298", b"-4294967295", b"18446744073709551616",
    b"18446744073709551617", b"18446744073709551618", b"-18446744073709551615",
    b"-18446744073709551616", b"340282366920938463463374607431768211457", b"9" * 30, b"-" + b"9" * 30,
    b"1" + b"0" * 400, b"0" * 40, b"9" * 40 + b"x",
]

STRANGE_CODES = [
    b"0", b"000", b"00000", b"000a", b"000G", b"00g0", b"0x01", b"-001", b"+001", b"00 1", b"0001 ",
    b"", b"FFFF", b"00000000", b"0000000", b"000000000", b"FFFFFFFF", b"000000000000", b"00000000000",
    b"0000000000000", b"\xff\xff\xff\xff", b"00\t1", b"@@@@", b"::::", b"////", b"GGGG", b"    ",
]

STRANGE_WORDS = [
    b"tile", b"tiles", b"Tile", b"til", b"dir", b"dirs", b"DIR", b"di", b"end", b"End", b"en", b"ends",
    b"bins", b"bin", b"binss", b"lost", b"los", b"LOST", b"sum", b"sums", b"su", b"xor", b"pair", b"Sum",
    b"row", b"picture", b"", b"(", b")", b" ", b"\n", b"\t", b"\x00", b"\xff", b"()", b"x",
]

ODD_BYTES = b"()  \n0123456789-+ABCDEFGabcdefilnorstupxm\t\r\x00\x7f\x80\xff_.;"


def random_text(dice, largest_side=3, most_places=3):
    kind_number = dice.below(3)
    plan = m.Plan(
        dice.between(1, largest_side),
        dice.between(1, largest_side),
        random_places(dice, dice.between(1, most_places), 35),
    )
    run = sample_numbers(dice, kind_number, plan.total())
    return m.text_of(m.KINDS[kind_number], rack_from(kind_number, plan, run))


def words_of(text):
    """The first byte and the length of each word of a text."""
    found, at = [], 0
    while at < len(text):
        token = m.token_at(text, at)
        if token.sort == "word":
            found.append((token.first, len(token.word)))
        at = token.first + max(len(token.word), 1)
    return found


def damaged(dice, text):
    """A text changed in one way; now and then it is still a file."""
    fate = dice.below(13)
    at = dice.below(len(text))
    byte = bytes([dice.one_of(ODD_BYTES) if dice.chance(80) else dice.below(256)])
    words = words_of(text)
    if fate == 0 or not words:
        return text[:at] + byte + text[at:]
    if fate == 1:
        return text[:at] + text[at + 1:]
    if fate == 2:
        return text[:at] + byte + text[at + 1:]
    if fate == 3:
        return text[:at]
    if fate == 4:
        return text + dice.one_of((byte, b"\n", b" ", b"(end)\n", b"x", b")", b"(", text, b"\x00"))
    if fate == 5:
        return byte + text
    if fate in (6, 7, 8):
        lines = text.splitlines(keepends=True)
        j = dice.below(len(lines))
        if fate == 6:
            lines.insert(j, lines[j])
        elif fate == 7:
            lines.pop(j)
        else:
            k = dice.below(len(lines))
            lines[j], lines[k] = lines[k], lines[j]
        return b"".join(lines)
    if fate == 9:
        # Prefer a numeral to a code: the words of at most two bytes.
        words = [place for place in words if place[1] <= 2] or words
    first, length = dice.one_of(words)
    word = dice.one_of({
        9: STRANGE_NUMERALS, 10: STRANGE_CODES, 11: STRANGE_WORDS, 12: STRANGE_NUMERALS,
    }[fate])
    return text[:first] + word + text[first + length:]


def format_texts():
    dice = Dice(104)
    yield b""
    yield EXAMPLE

    # The worked file cut, and with one byte taken out, doubled, put in or changed, everywhere.
    for at in range(len(EXAMPLE)):
        yield EXAMPLE[:at]
        yield EXAMPLE[:at] + EXAMPLE[at + 1:]
        yield EXAMPLE[:at + 1] + EXAMPLE[at:]
        byte = bytes([dice.one_of(ODD_BYTES)])
        yield EXAMPLE[:at] + byte + EXAMPLE[at:]
        yield EXAMPLE[:at] + byte + EXAMPLE[at + 1:]
    for tail in (b"\n", b" ", b"(", b")", b"x", b"\x00", b"\xff", b"(end)\n", EXAMPLE):
        yield EXAMPLE + tail

    # Strange words in every place where a word stands.
    for strange, wanted in (
        (STRANGE_NUMERALS, (b" 2 2)", b" 2)", b"1 1 (b", b"1 (b", b"4))", b"-1 1", b"1 (bins 0004")),
        (STRANGE_CODES, (b"0002", b"0003", b"0004")),
        (STRANGE_WORDS, (b"tile", b"sum", b"dir 1", b"bins", b"lost", b"dir -1", b"end")),
    ):
        for context in wanted:
            first = EXAMPLE.index(context) + (1 if context.startswith(b" ") else 0)
            last = first + len(m.token_at(EXAMPLE, first).word)
            for word in strange:
                yield EXAMPLE[:first] + word + EXAMPLE[last:]

    # Two directions, lawful or not, in order or not.
    for turn in range(150):
        p, q = dice.between(-8, 8), dice.between(-1, 8)
        p2, q2 = dice.between(-8, 8), dice.between(-1, 8)
        if turn % 3:
            p, q = dice.one_of(DIRECTIONS)
        if turn % 3 == 2:
            p2, q2 = dice.one_of(DIRECTIONS)
        yield b"(tile xor 1 1)\n(dir %d %d (lost 9))\n(dir %d %d (lost 10))\n(end)\n" % (p, q, p2, q2)

    # Fifteen, sixteen, seventeen and more places.
    for count in (15, 16, 17, 18, 40):
        lines = [b"(dir %d %d (lost 1))\n" % d for d in dice.some_of(DIRECTIONS, count)]
        yield b"(tile sum 1 1)\n" + b"".join(lines) + b"(end)\n"
        yield b"(tile sum 1 1)\n" + b"".join(lines)
        yield b"(tile sum 1 1)\n" + b"".join(lines) + b"(dir"
    yield b"(tile sum 1 1)\n(end)\n"
    yield b"(tile sum 1 1)\n(end"
    yield b"(tile sum 1 1)\n(ends)\n"

    # Very long words.
    yield b"(tile sum " + b"1" * 5000 + b" 2)\n"
    yield b"(tile sum 2 -" + b"1" * 5000 + b")\n"
    yield b"(tile sum 2 0" + b"1" * 5000 + b")\n"
    yield b"(" + b"tile" * 1000
    yield b"(tile sum 1 1)\n(dir 0 1 (lost " + b"1" * 5000 + b"))\n(end)\n"
    yield b"\n" * 300
    yield b" " * 300

    # Random files, then damaged ones.
    for _ in range(220):
        yield random_text(dice)
    for _ in range(12):
        yield random_text(dice, 9, 16)
    for _ in range(600):
        text = damaged(dice, random_text(dice))
        if dice.chance(15):
            text = damaged(dice, text)
        yield text


def format_cases():
    for text in format_texts():
        yield hexadecimal(text)


# ---------------------------------------------------------------------------
# schedule
#
# A line is made by playing it: the maker looks at the state of the tiles, throws dice for the
# next call, and plays it on a stage of its own.  One worker at a time makes a call, so what
# several workers do together is the order in which their calls come.


class Play:
    def __init__(self, dice, kind_number, plans, runs, mischief):
        self.dice = dice
        self.kind_number = kind_number
        self.mischief = mischief
        self.calls = []
        self.taken_with = [None] * SLOTS
        tiles, self.words = [], [kind_number]
        for plan, run in zip(plans, runs):
            shapes = []
            for number in range(1, 6):
                length = (plan.cells() if number <= 2 else plan.total()) + dice.one_of((0, 1, 3))
                limit = 2**31 if number in (1, 3) else 2**16
                shapes.append((length, dice.below(limit), dice.below(limit)))
            kind = m.KINDS[kind_number]
            samples = [kind.from_number(v) for v in run]
            tiles.append((plan.P, plan.Q, plan.places, samples, shapes))
            self.words += [plan.P, plan.Q, *flat_places(plan.places), *listed(run)]
            for shape in shapes:
                self.words += shape
        self.wanted = plans
        self.stage = Stage(m.KINDS[kind_number], tiles)

    def line(self):
        words = self.words + [len(self.calls)]
        for call in self.calls:
            words += call
        return joined(*words)

    def call(self, what, s, x=0, p=None, t=None, cut=None):
        """Play a call; gives its answer."""
        dice = self.dice
        p = s if p is None else p
        t = s if t is None else t
        if cut is None:
            cut = (0, 0)
            if dice.chance(self.mischief):
                number = dice.between(1, 5)
                plan = self.stage.plans[p]
                needed = plan.cells() if number <= 2 else plan.total()
                cut = (number, max(needed + dice.one_of((-1, -1, 0, -needed)), 0))
        return self.put(what, s, p, t, x, *cut)

    def put(self, *call):
        what, _, p, _, x, _, _ = call
        self.calls.append(call)
        answer, _ = self.stage.call(*call)
        if what == TAKE and answer[0] == "ok":
            self.taken_with[x] = p
        return answer

    def poke(self, t, number, cell, value):
        table = self.stage.tables[t].all()[number - 1]
        if cell < len(table):
            self.put(POKE, 0, 0, t, number, cell, value)

    def slots(self, held):
        return [x for x, grant in enumerate(self.stage.slots) if (grant is not None) == held]

    def other(self, s):
        """Mostly s itself, at times the other tile."""
        return 1 - s if self.dice.chance(self.mischief) else s

    def loading(self, s):
        """Open, load and seal; True if the tile is then peeling."""
        dice = self.dice
        self.call(OPEN, s, x=s)
        places = len(self.wanted[s].places)
        for _ in range(4 * places + 8):
            if self.stage.states[s].loaded == places and not dice.chance(self.mischief):
                break
            p, t = self.other(s), self.other(s)
            if dice.chance(self.mischief // 2):
                if self.call(SEAL, s, p=p, t=t)[0] == "ok":
                    return True
            else:
                self.call(LOAD, s, x=self.other(s), p=p, t=t)
        for _ in range(2):
            if self.call(SEAL, s)[0] == "ok":
                return True
        return self.call(SEAL, s, cut=(0, 0))[0] == "ok"

    def poke_somewhere(self, s):
        """Overwrite a cell that the calls will look at."""
        dice = self.dice
        plan, state = self.stage.plans[s], self.stage.states[s]
        total = plan.total()
        fate = dice.below(6)
        if fate == 0:
            self.poke(s, 5, state.head % total, dice.one_of((total, 65_535, total + 1)))
        if fate == 1:
            self.poke(s, 5, (state.head + dice.below(3)) % total, dice.below(total))
        if fate == 2:
            self.poke(s, 4, dice.below(total), dice.one_of((0, 1, 2, 3, 255)))
        if fate == 3:
            self.poke(s, 2, dice.below(plan.cells()), dice.one_of((0, 0, 1, 255)))
        if fate == 4:
            self.poke(s, 3, dice.below(total), sample_number(dice, self.kind_number))
        if fate == 5:
            self.poke(s, 1, dice.below(plan.cells()), sample_number(dice, self.kind_number))

    def peeling_call(self, s, poking):
        """One call on a peeling tile."""
        dice, stage = self.dice, self.stage
        state = stage.states[s]
        if poking and dice.chance(12):
            self.poke_somewhere(s)
            return
        p, t = self.other(s), self.other(s)
        fate = dice.below(100)
        held, free = self.slots(True), self.slots(False)
        if fate < 5 and (state.left or state.out or not held):
            self.call(FINISH, s, p=p, t=t)
        elif held and fate < 20:
            self.call(GIVE_BACK, s, x=dice.one_of(held), p=p, t=t)
        elif held and (fate < 55 or not free or not state.waiting):
            self.call(SETTLE, s, x=dice.one_of(held), p=p, t=t)
        elif free and (state.waiting or fate < 25):
            answer = self.call(TAKE, s, x=dice.one_of(free), p=p, t=t)
            if answer[:2] == ["refused", 11] and dice.chance(50):
                self.poke(t, 5, answer[2], dice.below(stage.plans[p].total()))

    def is_peeling(self, s):
        return isinstance(self.stage.states[s], m.Peeling)

    def empty_slots(self, s):
        """Spend what is still held, each grant with the plan that it was taken with."""
        for x in self.slots(True):
            p = self.taken_with[x]
            answer = self.call(SETTLE, s, x=x, p=p, t=p, cut=(0, 0))
            assert answer[0] == "ok"

    def end(self, s):
        """Peel what still waits, finish, and look at the picture."""
        if not self.is_peeling(s):
            return
        for _ in range(60):
            if not self.stage.states[s].waiting:
                break
            if self.call(TAKE, s, cut=(0, 0))[0] != "ok":
                break
            self.call(SETTLE, s, cut=(0, 0))
        careless = self.mischief and self.dice.chance(30)
        if careless:
            self.call(FINISH, s, cut=(3, self.stage.plans[s].total() - 1))
        self.call(FINISH, s, cut=(0, 0))
        if isinstance(self.stage.states[s], m.Finished):
            if careless:
                self.call(PICTURE, s, cut=(1, self.stage.plans[s].cells() - 1))
            self.call(PICTURE, s, cut=(0, 0))


def schedule_plan_and_run(dice, kind_number, largest_side, most_places, fate):
    """A tile and its run: true, contradicted by one sum, or with too few whole places."""
    plan = small_plan(dice, largest_side, most_places, decodable=fate != 2)
    picture = sample_numbers(dice, kind_number, plan.cells())
    run = true_run(dice, kind_number, plan, picture)
    if fate == 1:
        run[dice.below(len(run))] = sample_number(dice, kind_number)
    return plan, run


def schedule_cases():
    dice = Dice(105)
    unit = m.Plan(1, 1, [((0, 1), 0)])

    # The contradicted tile: all grants taken in turn, then finish is refused.
    play = Play(dice, 0, [m.Plan(2, 2, [((1, 1), 0), ((-1, 1), 0)]), unit], [[2, 5, 3, 4, 6, 1], [7]], 0)
    assert play.loading(0)
    play.end(0)
    yield play.line()
    play = Play(dice, 0, [m.Plan(2, 2, [((3, 2), 0)]), unit], [[2, 9, 1, 4, 0, 3], [7]], 0)
    assert play.loading(0)
    play.end(0)
    yield play.line()

    # One tile and its workers; first without mischief, then with, then with pokes.
    for turn in range(240):
        kind_number = turn % 3
        mischief = 0 if turn < 60 else 8
        plan, run = schedule_plan_and_run(dice, kind_number, 5, 6, dice.one_of((0, 0, 0, 0, 1, 2)))
        other, other_run = unit, [7]
        if turn % 3 and turn >= 60:
            # Another source much like this one: another cause, or one place more.
            last, why = plan.places[-1]
            if turn % 3 == 1:
                places = plan.places[:-1] + [(last, 77 if why == 0 else 0)]
            elif last != DIRECTIONS[-1]:
                places = plan.places + [(DIRECTIONS[-1], 0)]
            else:
                places = plan.places
            other = m.Plan(plan.P, plan.Q, places)
            other_run = sample_numbers(dice, kind_number, other.total())
        play = Play(dice, kind_number, [plan, other], [run, other_run], mischief)
        if play.loading(0):
            for _ in range(dice.between(10, 60)):
                if play.is_peeling(0):
                    play.peeling_call(0, turn >= 150)
            if play.is_peeling(0):
                play.empty_slots(0)
            play.end(0)
        yield play.line()

    # Two tiles whose workers mix up grants, plans and tables.
    for turn in range(160):
        kind_number = turn % 3
        plans, runs = [], []
        for largest_side, most_places in ((4, 4), dice.one_of(((1, 1), (2, 2), (4, 4)))):
            plan, run = schedule_plan_and_run(dice, kind_number, largest_side, most_places, dice.below(2))
            plans.append(plan)
            runs.append(run)
        play = Play(dice, kind_number, plans, runs, dice.one_of((4, 12, 30)))
        ready = [s for s in (0, 1) if play.loading(s)]
        for _ in range(dice.between(20, 60)):
            peeling = [s for s in ready if play.is_peeling(s)]
            if peeling:
                play.peeling_call(dice.one_of(peeling), turn % 2 == 0)
        for s in ready:
            if play.is_peeling(s):
                play.empty_slots(s)
        for s in ready:
            play.end(s)
        yield play.line()


# ---------------------------------------------------------------------------
# program


def file_of_length(dice, length):
    """A decodable file of pairs with that many bytes, one of its sums contradicted."""
    while True:
        plan = m.Plan(dice.between(40, 64), dice.between(40, 64), random_places(dice, 16, 30))
        lost = [i for i, (_, why) in enumerate(plan.places) if why]
        plan.places = [(d, 1 if why else 0) for d, why in plan.places]
        if not m.criterion(plan)[0] or plan.total() > m.PROGRAM_POSITIONS:
            continue
        bytes_now = len("(tile pair 64 64)\n") + len("(end)\n")
        for i, ((p, q), why) in enumerate(plan.places):
            bytes_now += len("(dir %d %d (lost 1))\n" % (p, q))
            if not why:
                bytes_now += 13 * plan.bins(i) - len(" 1")
        if not 0 <= length - bytes_now <= 2 * len(lost):
            continue
        for i in lost:
            digits = min(length - bytes_now, 2)
            plan.places[i] = (plan.places[i][0], (1, 10, 100)[digits])
            bytes_now += digits
        picture = sample_numbers(dice, 2, plan.cells())
        run = true_run(dice, 2, plan, picture)
        wrong = plan.start(plan.whole_places()[-1]) + dice.below(plan.bins(plan.whole_places()[-1]))
        run[wrong] ^= 1
        text = m.text_of(m.PAIR, rack_from(2, plan, run))
        assert len(text) == length
        return text


def plan_of_total(dice, total, lost_percent, decodable):
    while True:
        places = random_places(dice, 16, lost_percent)
        for Q in range(20, 65):
            # T grows by the same with every column, so at most one P can fit.
            one_column = m.Plan(1, Q, places).total()
            more, rest = divmod(total - one_column, m.Plan(2, Q, places).total() - one_column)
            plan = m.Plan(1 + more, Q, places)
            if rest == 0 and 1 <= plan.P <= 64 and m.criterion(plan)[0] == decodable:
                assert plan.total() == total
                return plan


def large_plan(dice, kind_number, P, Q):
    """A tile that can be peeled, within the limits of the program."""
    while True:
        plan = m.Plan(P, Q, random_places(dice, dice.between(6, 16), 15))
        whole = sum(plan.bins(i) for i in plan.whole_places())
        bytes_at_most = (m.KINDS[kind_number].digits + 1) * whole + 40 * len(plan.places)
        if m.criterion(plan)[0] and plan.total() <= m.PROGRAM_POSITIONS and bytes_at_most <= m.PROGRAM_BYTES:
            return plan


def examples():
    """The name, without its ending, and the bytes of each example file."""
    for file in sorted(os.listdir(os.path.join(ROOT, EXAMPLES))):
        name, ending = os.path.splitext(file)
        if ending == ".tile":
            with open(os.path.join(ROOT, EXAMPLES, file), "rb") as stored:
                yield name, stored.read()


def program_inputs():
    dice = Dice(106)
    for _, data in examples():
        yield data
    yield b""
    yield EXAMPLE
    yield EXAMPLE.replace(b"0005", b"0006")
    yield b"(tile sum 2 2)\n(dir 3 2 (bins 0002 0009 0001 0004 0000 0003))\n(end)\n"

    def text(kind_number, plan, run):
        return m.text_of(m.KINDS[kind_number], rack_from(kind_number, plan, run))

    # Decodable tiles; every fourth with one sum changed.
    for turn in range(600):
        kind_number = turn % 3
        plan = small_plan(dice, 6, 6, decodable=True)
        run = true_run(dice, kind_number, plan, sample_numbers(dice, kind_number, plan.cells()))
        if turn % 4 == 0:
            run[dice.below(len(run))] = sample_number(dice, kind_number)
        yield text(kind_number, plan, run)

    # Larger ones of every kind, up to 64 by 64; every second with one sum of a whole place changed.
    for turn in range(18):
        kind_number = turn % 3
        most = 36 if kind_number == 2 else 64
        P, Q = (most, most) if turn < 6 else (dice.between(12, most), dice.between(12, most))
        plan = large_plan(dice, kind_number, P, Q)
        run = true_run(dice, kind_number, plan, sample_numbers(dice, kind_number, plan.cells()))
        if turn % 2:
            at = plan.start(dice.one_of(plan.whole_places()))
            run[at] = (run[at] + 1) % SUM_NUMBERS
        yield text(kind_number, plan, run)

    # Ghosts.
    for turn in range(150):
        kind_number = turn % 3
        plan = small_plan(dice, 7, 5, decodable=False)
        yield text(kind_number, plan, sample_numbers(dice, kind_number, plan.total()))

    # Texts that are no files, mostly.
    for _ in range(330):
        yield damaged(dice, random_text(dice))

    # The program's own limits: bytes of input, then T.
    full = file_of_length(dice, m.PROGRAM_BYTES)
    yield full
    yield full + b"\n"
    plan = plan_of_total(dice, m.PROGRAM_POSITIONS, 15, True)
    yield text(0, plan, true_run(dice, 0, plan, sample_numbers(dice, 0, plan.cells())))
    for total, decodable in (
        (m.PROGRAM_POSITIONS, False), (m.PROGRAM_POSITIONS + 1, False), (m.PROGRAM_POSITIONS + 1, True),
    ):
        plan = plan_of_total(dice, total, 10 if decodable else 100, decodable)
        yield text(0, plan, [0] * plan.total())


def program_cases():
    for data in program_inputs():
        yield hexadecimal(data)


# ---------------------------------------------------------------------------
# Commands

SETS = {
    "project": (project_cases, answer_project),
    "strip": (strip_cases, answer_strip),
    "ghost": (ghost_cases, answer_ghost),
    "format": (format_cases, answer_format),
    "schedule": (schedule_cases, answer_schedule),
    "program": (program_cases, answer_program),
}


def answered(name, line):
    try:
        return SETS[name][1](line)
    except m.Refusal as refusal:
        return joined("refused", *refusal.told)


def made(names):
    """The two files of some sets, by their names."""
    cases = [(name, line) for name in names for line in SETS[name][0]()]
    return {
        "stdin": "".join(joined(name, line) + "\n" for name, line in cases).encode(),
        "stdout": "".join(answered(name, line) + "\n" for name, line in cases).encode(),
    }


def stored_files():
    for folder, names in STORED:
        for file, content in made(names).items():
            yield os.path.join(folder, file), content
    for name, data in examples():
        yield os.path.join(EXAMPLES, name + ".out"), m.program(data)


def command_write():
    for path, content in stored_files():
        with open(path, "wb") as stored:
            stored.write(content)
    return 0


def command_check():
    status = 0
    for path, content in stored_files():
        try:
            with open(path, "rb") as stored:
                verdict = "same" if stored.read() == content else "DIFFERS"
        except OSError:
            verdict = "MISSING"
        print("%s: %s" % (path, verdict))
        if verdict != "same":
            status = 1
    return status


def command_answer(name):
    for line in sys.stdin:
        print(answered(name, line.rstrip("\n")))
    return 0


def command_try(command):
    status = 0
    cases = 0
    for data in program_inputs():
        cases += 1
        done = subprocess.run(command, input=data, stdout=subprocess.PIPE)
        expected = m.program(data)
        if done.stdout != expected or done.returncode != 0:
            status = 1
            print("case %d: input %s" % (cases, hexadecimal(data)[:400]))
            print("  expected status 0 and %r" % expected[:200])
            print("  got status %d and %r" % (done.returncode, done.stdout[:200]))
    print("%d cases: %s" % (cases, "DIFFERENCES" if status else "all the same"))
    return status


def command_cases(folder):
    inputs = [("program-%04d" % i, data) for i, data in enumerate(program_inputs())]
    for name, data in inputs + [("example-" + name, data) for name, data in examples()]:
        with open(os.path.join(folder, name), "wb") as case:
            case.write(data)
        with open(os.path.join(folder, name + ".stdout"), "wb") as wanted:
            wanted.write(m.program(data))
    return 0


def main(arguments):
    if arguments == ["write"]:
        return command_write()
    if arguments == ["check"]:
        return command_check()
    if len(arguments) == 2 and arguments[0] == "answer" and arguments[1] in SETS:
        return command_answer(arguments[1])
    if len(arguments) >= 2 and arguments[0] == "try":
        return command_try(arguments[1:])
    if len(arguments) == 2 and arguments[0] == "cases":
        return command_cases(arguments[1])
    print(__doc__)
    return 2


if __name__ == "__main__":
    sys.exit(main(sys.argv[1:]))
