"""Sends a picture through the program: cuts it into tiles, loses recorders, has each tile rebuilt, and puts the picture together again.

    python3 tools/pictures.py sample PICTURE             draws the sample picture, 180 by 120 samples of 10 bits
    python3 tools/pictures.py trial PICTURE FOLDER ..    the whole way; `trial --help` lists the options
    python3 tools/pictures.py show LISTING PICTURE       a listing of sum words as a picture

A picture is a PGM file, P2 or P5, of samples up to 1,023, so that no sum wraps (64 * 1,023 = 65,472).  In FOLDER a trial leaves, for the tile
in column C and row R of the tiles, its bracket file tiles/cCrR.tile and what the program prints of it, tiles/cCrR.out, and two pictures:

    rebuilt.pgm    the picture; a tile that could not be rebuilt is mid-grey, with a cross
    map.pgm        white: no recorder was lost; light grey: rebuilt from fewer; dark grey, with the ghost's shape in it: too few were left;
                   black: refused, the sums contradict each other

and both, and the picture itself, as PNG too, for people to look at: picture.png, rebuilt.png, map.png.

The exit status is 1 when a tile that was rebuilt differs from the picture, or the program fails.
"""

import argparse
import os
import random
import re
import shlex
import struct
import subprocess
import sys
import zlib

ROOT = os.path.dirname(os.path.dirname(os.path.abspath(__file__)))
BUILT = os.path.join(ROOT, "crates", "rebuild", "out", "rebuild")
sys.path.insert(0, os.path.join(ROOT, "reference"))

import mojette as m  # noqa: E402

MOST_SAMPLE = 1023
WHOLE, MENDED, GHOST, REFUSED = 255, 192, 96, 0


# ---------------------------------------------------------------------------
# Pictures


class Picture:
    """Samples line by line, each at most `white`."""

    def __init__(self, width, height, white, samples=None):
        self.width = width
        self.height = height
        self.white = white
        self.samples = samples or [0] * (width * height)

    def part(self, x, y, P, Q):
        rows = [(y + l) * self.width + x for l in range(Q)]
        return [self.samples[cell] for row in rows for cell in range(row, row + P)]

    def put(self, x, y, P, Q, samples):
        for l in range(Q):
            row = (y + l) * self.width + x
            self.samples[row:row + P] = samples[l * P:(l + 1) * P]


GAP = rb"(?:\s|#[^\n]*\n)+"
HEADER = re.compile(rb"P([25])" + GAP + rb"(\d+)" + GAP + rb"(\d+)" + GAP + rb"(\d+)\s")


def read_picture(path):
    with open(path, "rb") as file:
        data = file.read()
    header = HEADER.match(data)
    if not header:
        sys.exit("%s: no PGM picture (P2 or P5)" % path)
    form, width, height, white = (int(word) for word in header.groups())
    if not 1 <= white <= MOST_SAMPLE or width < 1 or height < 1:
        sys.exit("%s: %d by %d samples up to %d; at most %d" % (path, width, height, white, MOST_SAMPLE))
    data = data[header.end():]
    if form == 2:
        words = re.sub(rb"#[^\n]*", b"", data).split()
        samples = [int(word) if word.isdigit() else white + 1 for word in words]
    elif white > 255:
        samples = [data[at] * 256 + data[at + 1] for at in range(0, len(data) - 1, 2)]
    else:
        samples = list(data)
    samples = samples[:width * height]
    if len(samples) < width * height or max(samples) > white:
        sys.exit("%s: a sample is missing, or above %d" % (path, white))
    return Picture(width, height, white, samples)


def write_picture(path, picture):
    size = 2 if picture.white > 255 else 1
    with open(path, "wb") as file:
        file.write(b"P5\n%d %d\n%d\n" % (picture.width, picture.height, picture.white))
        file.write(b"".join(min(v, picture.white).to_bytes(size, "big") for v in picture.samples))


def write_png(path, picture, zoom=2):
    """A PNG picture, 8 bits of grey, each sample a square of so many pixels."""
    def chunk(kind, data):
        return struct.pack(">I", len(data)) + kind + data + struct.pack(">I", zlib.crc32(kind + data))

    lines = []
    for y in range(picture.height):
        row = picture.part(0, y, picture.width, 1)
        greys = [min(v, picture.white) * 255 // picture.white for v in row]
        line = bytes(grey for grey in greys for _ in range(zoom))
        lines += [b"\0" + line] * zoom
    header = struct.pack(">IIBBBBB", picture.width * zoom, picture.height * zoom, 8, 0, 0, 0, 0)
    with open(path, "wb") as file:
        file.write(b"\x89PNG\r\n\x1a\n" + chunk(b"IHDR", header))
        file.write(chunk(b"IDAT", zlib.compress(b"".join(lines), 9)) + chunk(b"IEND", b""))


def scene(x, y):
    """A boat under sail, a lighthouse and the sun, down to the water at line 58."""
    if abs(x - 94) <= 27 - (y - 50) and 50 <= y:
        return 120  # hull
    if 93 <= x <= 94 and 3 <= y < 50:
        return 60  # mast
    if 6 <= y <= 46 and 96 <= x <= 96 + (y - 6) * 24 // 40:
        return 1000 - 4 * (x - 96)  # mainsail
    if 10 <= y <= 46 and 91 - (y - 10) * 22 // 36 <= x <= 91:
        return 800 + 6 * (x - 91)  # jib
    if abs(x - 30) * 12 <= 36 + y and y >= 18:
        return 900 if (y - 18) // 8 % 2 == 0 else 250  # tower, in bands
    if abs(x - 30) <= 3 and 11 <= y < 18:
        return 1023  # lantern
    if (x - 150) ** 2 + (y - 22) ** 2 <= 200:
        return 1010  # sun
    return 420 + 5 * y


def sample_picture():
    """The scene, and its image in the water below."""
    def sample(x, y):
        if y < 58:
            return scene(x, y)
        ripple = (abs(y * 5 % 16 - 8) - 4) * (y - 50) // 16
        return scene(x + ripple, max(115 - y, 0)) * 5 // 8 + (y * 7 + x // 6) % 5 * 12
    return Picture(180, 120, MOST_SAMPLE, [sample(x, y) for y in range(120) for x in range(180)])


# ---------------------------------------------------------------------------
# Tiles


def usual_directions(Q, spare):
    """As few directions (p, 7) as rebuild a tile of Q rows, and `spare` more; any `spare` of them may be lost."""
    count = (Q + 6) // 7 + spare
    if not 1 <= count <= 12:
        sys.exit("%d recorders beside the %d that %d rows need: name the directions" % (spare, count - spare, Q))
    rising = sorted((i // 2 + 1) * (-1) ** i for i in range(count))
    return [(p, 7) for p in reversed(rising)]


def named_directions(text):
    found = []
    for word in text.split():
        direction = tuple(int(part) for part in word.split(","))
        if len(direction) != 2 or not m.is_lawful(direction):
            sys.exit("%s: no lawful direction" % word)
        if found and not m.stands_before(found[-1], direction):
            sys.exit("%s: out of order, it turns back from %d,%d" % (word, *found[-1]))
        found.append(direction)
    if len(found) > m.MOST_PLACES:
        sys.exit("%d directions: at most %d" % (len(found), m.MOST_PLACES))
    return found


def tile_text(P, Q, samples, directions, losses, corrupt):
    """The bracket file of a tile; `corrupt` is None, or picks one sum that is then one too large."""
    plan = m.Plan(P, Q, [(d, 1 if lost else 0) for d, lost in zip(directions, losses)])
    run = []
    for i, (direction, cause) in enumerate(plan.places):
        run += [0] * plan.bins(i) if cause else m.sums_of(m.SUM, P, Q, direction, samples)
    sums = [plan.start(i) + b for i in plan.whole_places() for b in range(plan.bins(i))]
    if corrupt is not None and sums:
        at = sums[int(corrupt * len(sums))]
        run[at] = (run[at] + 1) % 65_536
    return m.text_of(m.SUM, m.Rack(m.SUM, P, Q, plan.places, run))


ROW = re.compile(r"\(row ([0-9A-F ]+)\)")


def listed(text):
    """The first line of a listing, and its sum words."""
    lines = text.decode("latin-1").splitlines() or [""]
    rows = [ROW.fullmatch(line) for line in lines]
    return lines[0], [int(code, 16) for row in rows if row for code in row[1].split()]


def crossed(P, Q, white):
    def is_on_cross(k, l):
        return min(abs(k * (Q - 1) - l * (P - 1)), abs((P - 1 - k) * (Q - 1) - l * (P - 1))) * 2 <= max(P, Q)
    return [0 if is_on_cross(k, l) else white // 2 for l in range(Q) for k in range(P)]


def ghost_shape(samples):
    return [GHOST + (0 if v == 0 else 64 if v < 32_768 else -64) for v in samples]


# ---------------------------------------------------------------------------
# The trial


def numbers(text):
    return [int(word) for word in re.split("[ ,]+", text)]


def tile_size(text):
    P, _, Q = text.partition("x")
    if not (P.isdigit() and Q.isdigit() and 1 <= int(P) <= m.LARGEST_SIDE and 1 <= int(Q) <= m.LARGEST_SIDE):
        raise argparse.ArgumentTypeError("two sides from 1 to 64, as in 64x64")
    return int(P), int(Q)


class Trial:
    def __init__(self, options):
        self.options = options
        self.picture = read_picture(options.picture)
        p = self.picture
        self.rebuilt = Picture(p.width, p.height, p.white)
        self.map = Picture(p.width, p.height, 255)
        self.directions = (
            named_directions(options.directions) if options.directions
            else usual_directions(options.tile[1], options.spare)
        )
        if any(not 0 <= i < len(self.directions) for i in options.lose):
            sys.exit("places are numbered from 0 to %d" % (len(self.directions) - 1))
        self.dice = random.Random(options.seed).random
        self.fates = {"whole": [], "mended": [], "ghost": [], "refused": []}
        self.different = []
        os.makedirs(os.path.join(options.folder, "tiles"), exist_ok=True)

    def chance(self, percent):
        return self.dice() * 100 < percent

    def answer(self, text, path):
        """What the program prints of a tile; both are kept."""
        with open(path + ".tile", "wb") as file:
            file.write(text)
        command = shlex.split(self.options.program)
        try:
            done = subprocess.run(command, input=text, stdout=subprocess.PIPE)
        except OSError as error:
            sys.exit("%s: tools/rebuild builds the program" % error)
        if done.returncode != 0:
            sys.exit("%s ended with status %d on %s.tile" % (command[0], done.returncode, path))
        with open(path + ".out", "wb") as file:
            file.write(done.stdout)
        return listed(done.stdout)

    def tile(self, name, x, y, P, Q):
        samples = self.picture.part(x, y, P, Q)
        always = self.options.lose
        losses = [self.chance(self.options.lose_percent) or i in always for i in range(len(self.directions))]
        corrupt = self.dice() if self.chance(self.options.corrupt_percent) else None
        text = tile_text(P, Q, samples, self.directions, losses, corrupt)
        first, found = self.answer(text, os.path.join(self.options.folder, "tiles", name))
        picture, shown = crossed(P, Q, self.picture.white), [REFUSED] * (P * Q)
        if first == "(picture sum %d %d)" % (P, Q) and len(found) == P * Q:
            fate = "mended" if any(losses) else "whole"
            picture, shown = found, [MENDED if any(losses) else WHOLE] * (P * Q)
            if found != samples:
                self.different.append(name)
        elif first == "(ghost sum %d %d)" % (P, Q) and len(found) == P * Q:
            fate, shown = "ghost", ghost_shape(found)
        elif first.startswith("(refused "):
            fate, name = "refused", name + " " + first
        else:
            sys.exit("%s: the program prints no listing: %r" % (name, first))
        self.rebuilt.put(x, y, P, Q, picture)
        self.map.put(x, y, P, Q, shown)
        self.fates[fate].append(name)

    def run(self):
        (P, Q), p, folder = self.options.tile, self.picture, self.options.folder
        for y in range(0, p.height, Q):
            for x in range(0, p.width, P):
                name = "c%dr%d" % (x // P, y // Q)
                self.tile(name, x, y, min(P, p.width - x), min(Q, p.height - y))
        write_picture(os.path.join(folder, "rebuilt.pgm"), self.rebuilt)
        write_picture(os.path.join(folder, "map.pgm"), self.map)
        for name, picture in (("picture", self.picture), ("rebuilt", self.rebuilt), ("map", self.map)):
            write_png(os.path.join(folder, name + ".png"), picture)
        self.report()
        return 1 if self.different else 0

    def report(self):
        f = self.fates
        directions = " ".join("%d,%d" % d for d in self.directions)
        print("%d tiles of at most %d by %d, along %s" % (sum(len(v) for v in f.values()), *self.options.tile, directions))
        print("rebuilt: %d from every recorder, %d from fewer" % (len(f["whole"]), len(f["mended"])))
        print("ghosts: %s" % (", ".join(f["ghost"]) or "none"))
        print("refused: %s" % (", ".join(f["refused"]) or "none"))
        if self.different:
            print("DIFFERENT from the picture: %s" % ", ".join(self.different))
        else:
            print("every rebuilt tile is as it was in the picture")


def show(options):
    with open(options.listing, "rb") as file:
        first, samples = listed(file.read())
    words = re.fullmatch(r"\((?:picture|ghost) sum (\d+) (\d+)\)", first)
    if not words:
        sys.exit("%s: no picture of sum words: %s" % (options.listing, first))
    write_picture(options.picture, Picture(int(words[1]), int(words[2]), options.white, samples))
    return 0


def sample(options):
    write_picture(options.picture, sample_picture())
    return 0


def main():
    parser = argparse.ArgumentParser(description=__doc__, formatter_class=argparse.RawDescriptionHelpFormatter)
    commands = parser.add_subparsers(required=True)

    one = commands.add_parser("sample", help="draws the sample picture")
    one.add_argument("picture")
    one.set_defaults(run=sample)

    one = commands.add_parser("show", help="a listing of sum words as a picture")
    one.add_argument("listing")
    one.add_argument("picture")
    one.add_argument("--white", type=int, default=MOST_SAMPLE, help="the brightest sample")
    one.set_defaults(run=show)

    one = commands.add_parser("trial", help="cuts, loses, rebuilds and puts together")
    one.add_argument("picture")
    one.add_argument("folder")
    one.add_argument("--tile", type=tile_size, default=(64, 64), metavar="PxQ", help="columns and rows of a tile, at most 64x64")
    one.add_argument("--directions", metavar="'p,q p,q ..'", help="in their order; by default as few (p, 7) as rebuild a tile, and some to spare")
    one.add_argument("--spare", type=int, default=2, metavar="N", help="how many of the default directions may be lost")
    one.add_argument("--lose", type=numbers, default=[], metavar="I,I", help="these places, from 0, are lost in every tile")
    one.add_argument("--lose-percent", type=float, default=0, metavar="N", help="each place of each tile is lost with this chance")
    one.add_argument("--corrupt-percent", type=float, default=0, metavar="N", help="a tile has one wrong sum with this chance")
    one.add_argument("--seed", type=int, default=1, metavar="N", help="another seed loses others")
    one.add_argument("--program", default=shlex.quote(BUILT), metavar="COMMAND", help="by default the program that tools/rebuild builds")
    one.set_defaults(run=lambda options: Trial(options).run())

    options = parser.parse_args()
    return options.run(options)


if __name__ == "__main__":
    sys.exit(main())
