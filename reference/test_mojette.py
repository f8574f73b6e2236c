"""Worked examples and properties of the reference bench.

    python3 reference/test_mojette.py
"""

import os
import random
import sys
import unittest

sys.path.insert(0, os.path.dirname(os.path.abspath(__file__)))

import mojette as m  # noqa: E402

DIRECTIONS = m.all_lawful_directions()

EXAMPLE = m.EXAMPLE


def whole(*directions):
    return [(direction, 0) for direction in directions]


def told(call, *arguments):
    """The refusal of a call that must be refused."""
    try:
        call(*arguments)
    except m.Refusal as refusal:
        return refusal.told
    raise AssertionError("the call was served")


def random_sample(rng, kind):
    return kind.from_number(rng.getrandbits(48))


def random_plan(rng, largest_side=6, most_places=5):
    count = rng.randint(1, most_places)
    chosen = sorted(rng.sample(range(len(DIRECTIONS)), count))
    places = [(DIRECTIONS[j], rng.choice((0, 0, 0, rng.randint(1, 255)))) for j in chosen]
    return m.Plan(rng.randint(1, largest_side), rng.randint(1, largest_side), places)


def rack_of(rng, kind, plan, picture):
    """A rack with the true sums of a picture, and rubbish in lost places."""
    run = []
    for i, (direction, cause) in enumerate(plan.places):
        if cause:
            run += [random_sample(rng, kind) for _ in range(plan.bins(i))]
        else:
            run += m.sums_of(kind, plan.P, plan.Q, direction, picture)
    return m.Rack(kind, plan.P, plan.Q, plan.places, run)


def rubbish_tables(rng, kind, plan):
    cells, total = plan.cells() + rng.randint(0, 3), plan.total() + rng.randint(0, 3)
    return m.Tables(
        [random_sample(rng, kind) for _ in range(cells)],
        [rng.randrange(256) for _ in range(cells)],
        [random_sample(rng, kind) for _ in range(total)],
        [rng.randrange(256) for _ in range(total)],
        [rng.randrange(65_536) for _ in range(total)],
    )


def copied(tables):
    return [list(table) for table in tables.all()]


def loaded(kind, source, tables):
    """Open and load; gives the plan and the loading tile."""
    plan = m.Plan()
    tile = m.open_tile(source, plan)
    for _ in plan.places:
        tile = m.load(kind, source, plan, tables, tile)
    return plan, tile


def peeled(kind, plan, tables, tile):
    """One worker until none waits; gives the tile and the grants in their order."""
    grants = []
    while tile.waiting:
        tile, grant = m.take(plan, tables, tile)
        grants.append(grant)
        tile, _ = m.settle(kind, plan, tables, tile, grant)
    return tile, grants


class Kinds(unittest.TestCase):
    def test_laws(self):
        rng = random.Random(1)
        for kind in m.KINDS + (m.Pairs(m.PAIR, m.SUM),):
            self.assertNotEqual(kind.spark, kind.zero)
            for _ in range(200):
                x, y, z = (random_sample(rng, kind) for _ in range(3))
                self.assertEqual(kind.plus(x, y), kind.plus(y, x))
                self.assertEqual(kind.plus(x, kind.plus(y, z)), kind.plus(kind.plus(x, y), z))
                self.assertEqual(kind.plus(x, kind.zero), x)
                self.assertEqual(kind.plus(x, kind.inverse(x)), kind.zero)
                self.assertEqual(kind.from_code(kind.code(x)), x)
                self.assertEqual(len(kind.code(x)), kind.digits)
                self.assertEqual(kind.from_number(kind.number(x)), x)

    def test_codes(self):
        self.assertEqual(m.SUM.code(65_535), "FFFF")
        self.assertEqual(m.XOR.code(10), "0000000A")
        self.assertEqual(m.PAIR.code((1, 2)), "000100000002")
        self.assertEqual(m.PAIR.number((1, 2)), 2**32 + 2)


class Directions(unittest.TestCase):
    def test_lawful(self):
        for direction in ((1, 0), (0, 1), (-7, 1), (7, 6), (-6, 7), (3, 2)):
            self.assertTrue(m.is_lawful(direction))
        for direction in ((0, 0), (-1, 0), (2, 0), (0, 2), (2, 4), (8, 1), (-8, 1), (1, 8), (1, -1)):
            self.assertFalse(m.is_lawful(direction))

    def test_order_is_strict_and_total(self):
        for i, direction in enumerate(DIRECTIONS):
            for j, other in enumerate(DIRECTIONS):
                self.assertEqual(m.stands_before(direction, other), i < j)
        self.assertEqual(DIRECTIONS[0], (1, 0))

    def test_bins_by_counting(self):
        for P in range(1, 6):
            for Q in range(1, 6):
                for direction in DIRECTIONS:
                    raws = [m.raw_number(direction, k, l) for l in range(Q) for k in range(P)]
                    self.assertEqual(m.smallest_raw_number(P, Q, direction), min(raws))
                    self.assertEqual(m.bin_count(P, Q, direction), max(raws) - min(raws) + 1)

    def test_largest(self):
        self.assertEqual(max(m.bin_count(64, 64, d) for d in DIRECTIONS), 820)


class Projecting(unittest.TestCase):
    def project(self, direction):
        sums = [9] * m.bin_count(2, 2, direction)
        m.project(m.SUM, 2, 2, direction, [1, 2, 3, 4], sums)
        return sums

    def test_worked_tile(self):
        self.assertEqual(self.project((1, 0)), [3, 7])
        self.assertEqual(self.project((0, 1)), [6, 4])
        self.assertEqual(self.project((1, 1)), [2, 5, 3])
        self.assertEqual(self.project((-1, 1)), [4, 5, 1])
        self.assertEqual(self.project((3, 2)), [2, 0, 1, 4, 0, 3])

    def test_tails_stay(self):
        sums = [9, 9, 9]
        m.project(m.SUM, 2, 2, (1, 0), [1, 2, 3, 4, 5], sums)
        self.assertEqual(sums, [3, 7, 9])

    def test_refusals_in_order(self):
        def project(P, Q, direction, cells, bins):
            return told(m.project, m.SUM, P, Q, direction, [0] * cells, [0] * bins)

        self.assertEqual(project(0, 2, (2, 2), 0, 0), (1, 0, 0, 0))
        self.assertEqual(project(2, 65, (2, 2), 0, 0), (1, 0, 0, 0))
        self.assertEqual(project(2, 2, (2, 2), 0, 0), (3, 0, 0, 0))
        self.assertEqual(project(2, 2, (1, 1), 3, 0), (5, 1, 0, 0))
        self.assertEqual(project(2, 2, (1, 1), 4, 2), (5, 3, 0, 0))


class Sources(unittest.TestCase):
    def test_rack(self):
        places = [((1, 1), 0), ((0, 1), 4), ((-1, 1), 0)]
        rack = m.Rack(m.SUM, 2, 2, places, [2, 5, 3, 77, 78, 4, 6, 1])
        self.assertEqual(rack.sizes(), (2, 2, 3))
        self.assertEqual(rack.place(1), ((0, 1), 4))
        self.assertEqual(rack.bin(2, 1), 6)
        self.assertEqual(told(rack.place, 3), (16, 0, 0, 0))
        self.assertEqual(told(rack.bin, 3, 9), (16, 0, 0, 0))
        self.assertEqual(told(rack.bin, 1, 9), (17, 4, 0, 0))
        self.assertEqual(told(rack.bin, 2, 3), (18, 0, 0, 0))

    def test_rack_refusals(self):
        def rack(P, Q, places, length):
            return told(m.Rack, m.SUM, P, Q, places, [0] * length)

        self.assertEqual(rack(65, 1, [], 0), (1, 0, 0, 0))
        self.assertEqual(rack(1, 1, [], 0), (2, 0, 0, 0))
        self.assertEqual(rack(1, 1, whole(*DIRECTIONS[:17]), 17), (2, 0, 0, 0))
        self.assertEqual(rack(1, 1, whole((1, 1), (2, 2)), 2), (3, 1, 0, 0))
        self.assertEqual(rack(1, 1, whole((1, 1), (1, 1)), 2), (4, 1, 0, 0))
        self.assertEqual(rack(1, 1, whole((0, 1), (1, 1), (2, 2)), 3), (4, 1, 0, 0))
        self.assertEqual(rack(2, 2, whole((1, 1)), 4), (19, 3, 0, 0))

    def test_strip(self):
        rack = m.Rack(m.SUM, 2, 2, [((3, 2), 0), ((0, 1), 7)], [2, 9, 1, 4, 9, 3, 0, 0])
        output = [5] * 7
        m.strip(rack, 0, output)
        self.assertEqual(output, [2, 0, 1, 4, 0, 3, 5])
        self.assertEqual(told(m.strip, rack, 2, []), (16, 0, 0, 0))
        self.assertEqual(told(m.strip, rack, 1, []), (17, 7, 0, 0))
        self.assertEqual(told(m.strip, rack, 0, [0] * 5), (21, 6, 0, 0))

    def test_ten_bit_samples_never_wrap(self):
        sums = m.sums_of(m.SUM, 64, 64, (1, 0), [1023] * 4096)
        self.assertEqual(sums, [65_472] * 64)
        output = [0] * 64
        m.strip(m.Rack(m.SUM, 64, 64, whole((1, 0)), sums), 0, output)
        self.assertEqual(output, [1023] * 64)


class Ghosts(unittest.TestCase):
    def test_worked_ghosts(self):
        self.assertEqual(
            m.ghost(m.SUM, m.Plan(2, 2, whole((1, 0), (0, 1)))), [1, 0xFFFF, 0xFFFF, 1]
        )
        self.assertEqual(m.ghost(m.SUM, m.Plan(2, 2, whole((-1, 1)))), [0, 1, 0xFFFF, 0])
        self.assertEqual(m.ghost(m.SUM, m.Plan(1, 1, [((0, 1), 9)])), [1])

    def test_worked_criteria(self):
        self.assertEqual(m.criterion(m.Plan(3, 3, whole((1, 1), (-1, 1)))), (False, 2, 2))
        self.assertEqual(m.criterion(m.Plan(3, 3, whole((1, 1), (0, 1), (-1, 1)))), (True, 2, 3))
        self.assertEqual(m.criterion(m.Plan(1, 1, whole((0, 1)))), (True, 0, 1))
        self.assertEqual(m.criterion(m.Plan(1, 1, [((0, 1), 9)])), (False, 0, 0))

    def sealed(self, P, Q, places):
        """The picture after a refused seal, or the state after a served one."""
        rng = random.Random(10)
        plan = m.Plan(P, Q, places)
        rack = rack_of(rng, m.SUM, plan, [0] * (P * Q))
        tables = rubbish_tables(rng, m.SUM, plan)
        plan, tile = loaded(m.SUM, rack, tables)
        try:
            return m.seal(m.SUM, plan, tables, tile)
        except m.Refusal as refusal:
            return refusal.told, tables.picture[:P * Q]

    def test_worked_seals(self):
        self.assertEqual(
            self.sealed(2, 2, whole((1, 0), (0, 1))), ((9, 1, 1, 0), [1, 0xFFFF, 0xFFFF, 1])
        )
        self.assertEqual(self.sealed(2, 2, whole((-1, 1))), ((9, 1, 1, 0), [0, 1, 0xFFFF, 0]))
        self.assertEqual(
            self.sealed(3, 3, whole((1, 1), (-1, 1))),
            ((9, 2, 2, 0), [0, 1, 0, 0xFFFF, 0, 0xFFFF, 0, 1, 0]),
        )
        self.assertEqual(self.sealed(3, 3, whole((1, 1), (0, 1), (-1, 1))).left, 9)
        self.assertEqual(self.sealed(1, 1, whole((0, 1))), m.Peeling(0, 1, 0, 1, 0))
        self.assertEqual(self.sealed(1, 1, [((0, 1), 5)]), ((9, 0, 0, 0), [1]))

    def test_seal_writes_the_ghost_and_nothing_else(self):
        rng = random.Random(2)
        places = [((1, 1), 3), ((-1, 1), 0)]
        rack = rack_of(rng, m.SUM, m.Plan(2, 2, places), [1, 2, 3, 4])
        tables = rubbish_tables(rng, m.SUM, rack.plan)
        plan, tile = loaded(m.SUM, rack, tables)
        before = copied(tables)
        before[0][:4] = [0, 1, 0xFFFF, 0]
        self.assertEqual(told(m.seal, m.SUM, plan, tables, tile), (9, 1, 1, 0))
        self.assertEqual(copied(tables), before)

    def test_a_ghost_vanishes(self):
        """Not zero, though every sum in a whole place is."""
        rng = random.Random(3)
        seen = 0
        while seen < 300:
            plan = random_plan(rng, largest_side=14)
            if m.criterion(plan)[0]:
                continue
            seen += 1
            for kind in m.KINDS:
                picture = m.ghost(kind, plan)
                self.assertNotEqual(picture, [kind.zero] * plan.cells())
                for i in plan.whole_places():
                    sums = m.sums_of(kind, plan.P, plan.Q, plan.places[i][0], picture)
                    self.assertEqual(sums, [kind.zero] * plan.bins(i))


class Tile(unittest.TestCase):
    def contradicted(self):
        rng = random.Random(4)
        rack = m.Rack(m.SUM, 2, 2, whole((1, 1), (-1, 1)), [2, 5, 3, 4, 6, 1])
        tables = rubbish_tables(rng, m.SUM, rack.plan)
        plan, tile = loaded(m.SUM, rack, tables)
        return plan, tables, m.seal(m.SUM, plan, tables, tile)

    def test_contradicted_tile(self):
        plan, tables, tile = self.contradicted()
        self.assertEqual(tile, m.Peeling(head=0, waiting=4, out=0, left=4, settled=0))
        self.assertEqual(tables.queue[:4], [0, 2, 3, 5])
        self.assertEqual(tables.counts[:6], [1, 2, 1, 1, 2, 1])
        tile, grants = peeled(m.SUM, plan, tables, tile)
        self.assertEqual(grants, [0, 2, 3, 5, 4, 1])
        self.assertEqual(tables.queue[:6], [0, 2, 3, 5, 4, 1])
        self.assertEqual(tables.picture[:4], [1, 2, 3, 4])
        self.assertEqual(tables.counts[:6], [0] * 6)
        self.assertEqual(tile, m.Peeling(head=0, waiting=0, out=0, left=0, settled=6))
        self.assertEqual(told(m.finish, m.SUM, plan, tables, tile), (15, 1, 1, 0))

    def test_leftover_in_an_empty_bin(self):
        rack = m.Rack(m.SUM, 2, 2, whole((3, 2)), [2, 9, 1, 4, 0, 3])
        tables = rubbish_tables(random.Random(5), m.SUM, rack.plan)
        plan, tile = loaded(m.SUM, rack, tables)
        tile, _ = peeled(m.SUM, plan, tables, m.seal(m.SUM, plan, tables, tile))
        self.assertEqual(told(m.finish, m.SUM, plan, tables, tile), (15, 0, 1, 0))

    def test_settle_answers_and_early_finish(self):
        plan, tables, tile = self.contradicted()
        tile, first = m.take(plan, tables, tile)
        self.assertEqual(told(m.finish, m.SUM, plan, tables, tile), (13, 4, 0, 0))
        tile, answer = m.settle(m.SUM, plan, tables, tile, first)
        self.assertEqual(answer, (1, 3))
        tile, second = m.take(plan, tables, tile)
        tile = m.give_back(plan, tables, tile, second)
        self.assertEqual(tile, m.Peeling(head=2, waiting=4, out=0, left=3, settled=1))
        self.assertEqual(tables.queue[:6], [0, 2, 3, 5, 4, 2])
        self.assertEqual(told(m.settle, m.SUM, plan, tables, tile, 6), (12, 0, 0, 0))
        self.assertEqual(told(m.give_back, plan, tables, tile, 6), (12, 0, 0, 0))
        tables.queue[2] = 6
        self.assertEqual(told(m.take, plan, tables, tile), (11, 2, 0, 0))

    def test_grants_out(self):
        """All pixels can be found while a grant is still out."""
        plan, tables, tile = self.contradicted()
        while tile.left:
            tile, grant = m.take(plan, tables, tile)
            tile, _ = m.settle(m.SUM, plan, tables, tile, grant)
        tile, grant = m.take(plan, tables, tile)
        self.assertEqual(told(m.finish, m.SUM, plan, tables, tile), (14, 1, 0, 0))

    def test_tables_too_short(self):
        plan, tables, tile = self.contradicted()
        for number in range(1, 6):
            cut = [list(table) for table in tables.all()]
            needed = 4 if number <= 2 else 6
            cut[number - 1] = cut[number - 1][:needed - 1]
            short = m.Tables(*cut)
            refusal = (5, number, 0, 0)
            self.assertEqual(told(m.seal, m.SUM, plan, short, m.Loading(0)), refusal)
            self.assertEqual(told(m.settle, m.SUM, plan, short, tile, 99), refusal)
            if number == 3:
                self.assertEqual(told(m.load, m.SUM, None, plan, short, m.Loading(2)), refusal)
                self.assertEqual(told(m.finish, m.SUM, plan, short, tile), refusal)
            if number == 5:
                self.assertEqual(told(m.take, plan, short, tile), refusal)
                self.assertEqual(told(m.give_back, plan, short, tile, 99), refusal)

    def test_load_and_seal_refusals(self):
        rng = random.Random(6)
        rack = m.Rack(m.SUM, 2, 2, [((1, 1), 0), ((0, 1), 4)], [2, 5, 3, 8, 8])
        tables = rubbish_tables(rng, m.SUM, rack.plan)
        plan = m.Plan()
        tile = m.open_tile(rack, plan)
        self.assertEqual(told(m.seal, m.SUM, plan, tables, tile), (8, 2, 0, 0))
        tile = m.load(m.SUM, rack, plan, tables, tile)
        for other in (
            m.Rack(m.SUM, 2, 1, [((1, 1), 0), ((0, 1), 4)], [2, 5, 8, 8]),
            m.Rack(m.SUM, 2, 2, [((1, 1), 0)], [2, 5, 3]),
            m.Rack(m.SUM, 2, 2, [((1, 1), 0), ((0, 1), 5)], [2, 5, 3, 8, 8]),
            m.Rack(m.SUM, 2, 2, [((1, 1), 0), ((-1, 1), 4)], [2, 5, 3, 8, 8, 8]),
        ):
            self.assertEqual(told(m.load, m.SUM, other, plan, tables, tile), (7, 0, 0, 0))
        tile = m.load(m.SUM, rack, plan, tables, tile)
        self.assertEqual(tables.sums[:5], [2, 5, 3, 0, 0])
        self.assertEqual(told(m.load, m.SUM, None, plan, tables, tile), (6, 0, 0, 0))

    def test_a_fresh_plan(self):
        plan = m.Plan()
        self.assertEqual((plan.P, plan.Q, plan.places), (1, 1, [((0, 1), 0)]))

    def test_any_schedule_reaches_the_picture(self):
        rng = random.Random(7)
        seen = 0
        while seen < 300:
            asked = random_plan(rng)
            if not m.criterion(asked)[0]:
                continue
            seen += 1
            kind = rng.choice(m.KINDS)
            picture = [random_sample(rng, kind) for _ in range(asked.cells())]
            rack = rack_of(rng, kind, asked, picture)
            tables = rubbish_tables(rng, kind, asked)
            tails = [table[n:] for table, n in zip(tables.all(), self.needed(asked))]
            plan, tile = loaded(kind, rack, tables)
            tile = m.seal(kind, plan, tables, tile)
            held, gifts = [], 0
            while tile.waiting or held:
                act = rng.randrange(3)
                if tile.waiting and (act == 0 or not held):
                    tile, grant = m.take(plan, tables, tile)
                    held.append(grant)
                elif act == 1 and gifts < 50:
                    gifts += 1
                    tile = m.give_back(plan, tables, tile, held.pop(rng.randrange(len(held))))
                elif held:
                    grant = held.pop(rng.randrange(len(held)))
                    tile, _ = m.settle(kind, plan, tables, tile, grant)
            tile = m.finish(kind, plan, tables, tile)
            self.assertEqual(m.picture_of(plan, tables, tile), picture)
            after = [table[n:] for table, n in zip(tables.all(), self.needed(asked))]
            self.assertEqual(after, tails)

    def needed(self, plan):
        return (plan.cells(), plan.cells(), plan.total(), plan.total(), plan.total())


class Files(unittest.TestCase):
    def refused(self, text, kind=None):
        number, line, byte, reason = told(m.BracketFile, text, kind)
        self.assertEqual(number, 20)
        return line, byte, reason

    def test_example_listing(self):
        self.assertEqual(
            m.program(EXAMPLE), b"(picture sum 2 2)\n(row 0001 0002)\n(row 0003 0004)\n(end)\n"
        )

    def test_ghost_listing(self):
        text = b"(tile sum 2 2)\n(dir 1 1 (lost 255))\n(dir -1 1 (bins 0004 0005 0001))\n(end)\n"
        self.assertEqual(
            m.program(text),
            b"(ghost sum 2 2)\n(lost 0 255)\n(row 0000 0001)\n(row FFFF 0000)\n(end)\n",
        )

    def test_program_refusals(self):
        self.assertEqual(m.program(b""), b"(refused 20 1 0 0)\n")
        self.assertEqual(m.program(b"(" * 65_536), b"(refused 20 1 1 0)\n")
        self.assertEqual(m.program(b"(" * 65_537), b"(refused 22 0 0 0)\n")
        self.assertEqual(m.program(EXAMPLE.replace(b"0005", b"0006")), b"(refused 15 0 1 0)\n")
        lines = b"".join(b"(dir %d %d (lost 1))\n" % d for d in DIRECTIONS if sum(map(abs, d)) > 10)
        self.assertEqual(m.program(b"(tile sum 64 64)\n" + lines + b"(end)\n"), b"(refused 22 0 0 0)\n")

    def test_a_file_is_a_source(self):
        source = m.BracketFile(EXAMPLE, m.SUM)
        self.assertEqual(source.sizes(), (2, 2, 3))
        self.assertEqual(source.place(1), ((0, 1), 4))
        self.assertEqual([source.bin(2, b) for b in range(3)], [4, 5, 1])
        self.assertEqual(told(source.bin, 3, 0), (16, 0, 0, 0))
        self.assertEqual(told(source.bin, 1, 0), (17, 4, 0, 0))
        self.assertEqual(told(source.bin, 0, 3), (18, 0, 0, 0))

    def test_wrong_tokens(self):
        self.assertEqual(self.refused(b""), (1, 0, 0))
        self.assertEqual(self.refused(b"\n"), (1, 0, 0))
        self.assertEqual(self.refused(b"(tile sum"), (1, 9, 0))
        self.assertEqual(self.refused(b"(tile sun 2 2)\n"), (1, 6, 0))
        self.assertEqual(self.refused(EXAMPLE, m.XOR), (1, 6, 0))
        self.assertEqual(self.refused(b"(tile sum  2 2)\n"), (1, 10, 0))
        self.assertEqual(self.refused(b"(tile sum 2 2)\n(end)\n"), (2, 16, 2))
        self.assertEqual(self.refused(EXAMPLE[:-1]), (5, len(EXAMPLE) - 1, 0))
        self.assertEqual(self.refused(EXAMPLE + b"\n"), (6, len(EXAMPLE), 0))
        self.assertEqual(self.refused(EXAMPLE + b"x"), (6, len(EXAMPLE), 0))

    def test_wrong_numbers(self):
        def tile(words):
            return self.refused(b"(tile sum " + words + b")\n")

        for word in (b"0", b"65", b"-5", b"18446744073709551618", b"9" * 5000):
            self.assertEqual(tile(word + b" 2"), (1, 10, 1))
            self.assertEqual(tile(b"2 " + word), (1, 12, 1))
        for word in (b"02", b"+2", b"-0", b"-", b"2x", b"A", b"\t2", b"\xff", b"--2"):
            self.assertEqual(tile(word + b" 2"), (1, 10, 0))

    def test_wrong_directions(self):
        def places(words):
            return self.refused(b"(tile sum 1 1)\n(dir 0 1 (lost 1))\n(dir " + words + b" (lost 1))\n")

        at = len(b"(tile sum 1 1)\n(dir 0 1 (lost 1))\n(dir ")
        self.assertEqual(places(b"8 1"), (3, at, 3))
        self.assertEqual(places(b"-8 1"), (3, at, 3))
        self.assertEqual(places(b"-0 1"), (3, at, 0))
        self.assertEqual(places(b"1 8"), (3, at + 2, 3))
        self.assertEqual(places(b"1 -1"), (3, at + 2, 3))
        self.assertEqual(places(b"2 2"), (3, at + 2, 3))
        self.assertEqual(places(b"-1 0"), (3, at + 3, 3))
        self.assertEqual(places(b"0 1"), (3, at + 2, 4))
        self.assertEqual(places(b"1 1"), (3, at + 2, 4))

    def test_wrong_places(self):
        def place(words):
            return self.refused(b"(tile sum 1 2)\n(dir 1 1 (" + words + b"))\n(end)\n")

        at = len(b"(tile sum 1 2)\n(dir 1 1 (")
        self.assertEqual(place(b"bins 0001"), (2, at + 9, 0))
        self.assertEqual(place(b"bins 0001 0002 0003"), (2, at + 14, 0))
        self.assertEqual(place(b"bins 001 0002"), (2, at + 5, 0))
        self.assertEqual(place(b"bins 0001 000a"), (2, at + 10, 0))
        self.assertEqual(place(b"lost 0"), (2, at + 5, 0))
        self.assertEqual(place(b"lost 256"), (2, at + 5, 0))
        self.assertEqual(place(b"found 1"), (2, at, 0))

    def test_a_seventeenth_place(self):
        lines = [b"(dir %d %d (lost 1))\n" % d for d in DIRECTIONS[:17]]
        text = b"(tile sum 1 1)\n" + b"".join(lines[:16])
        self.assertEqual(m.BracketFile(text + b"(end)\n").sizes(), (1, 1, 16))
        self.assertEqual(self.refused(text + lines[16]), (18, len(text) + 1, 2))

    def test_writing_then_reading(self):
        rng = random.Random(8)
        for _ in range(200):
            plan, kind = random_plan(rng), rng.choice(m.KINDS)
            picture = [random_sample(rng, kind) for _ in range(plan.cells())]
            rack = rack_of(rng, kind, plan, picture)
            text = m.text_of(kind, rack)
            self.assertEqual(told(m.write_file, kind, rack, bytearray(len(text) - 1)), (21, len(text), 0, 0))
            output = bytearray(b"#" * (len(text) + 2))
            self.assertEqual(m.write_file(kind, rack, output), len(text))
            self.assertEqual(bytes(output), text + b"##")
            source = m.BracketFile(text)
            self.assertIs(source.kind, kind)
            self.assertEqual(source.sizes(), rack.sizes())
            for i, place in enumerate(plan.places):
                self.assertEqual(source.place(i), place)
                if place[1] == 0:
                    for b in range(plan.bins(i)):
                        self.assertEqual(source.bin(i, b), rack.bin(i, b))
            self.assertEqual(m.text_of(kind, source), text)

    def test_listing_refusals(self):
        plan = m.Plan(2, 2, whole((1, 0)))
        self.assertEqual(
            told(m.write_listing, m.SUM, plan, [0] * 3, False, bytearray()), (5, 1, 0, 0)
        )
        self.assertEqual(
            told(m.write_listing, m.SUM, plan, [0] * 4, False, bytearray(55)), (21, 56, 0, 0)
        )
        self.assertEqual(m.write_listing(m.SUM, plan, [0] * 4, False, bytearray(56)), 56)

    def test_program_gives_back_random_pictures(self):
        rng = random.Random(9)
        seen = 0
        while seen < 100:
            plan = random_plan(rng)
            kind = rng.choice(m.KINDS)
            picture = [random_sample(rng, kind) for _ in range(plan.cells())]
            text = m.text_of(kind, rack_of(rng, kind, plan, picture))
            if m.criterion(plan)[0]:
                seen += 1
                self.assertEqual(m.program(text), m.listing_of(kind, plan, picture, False))
            else:
                self.assertEqual(
                    m.program(text), m.listing_of(kind, plan, m.ghost(kind, plan), True)
                )


if __name__ == "__main__":
    unittest.main()
