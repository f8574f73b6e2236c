"""Shows that two programs do not compile: one lets a grant lapse, and one asks a tile that is
still being peeled for its picture.

    python3 tools/compile_errors.py        exit status 1 if one compiles, or fails by another error

The two right programs are tests in crates/tile/src/uses.rt.  On a copy of the crates, where they
are no tests, each wrong one is made by taking out a call.
"""

import os
import re
import shutil
import subprocess
import sys
import tempfile

ROOT = os.path.dirname(os.path.dirname(os.path.abspath(__file__)))
FILE = "src/uses.rt"

# What the program does, the call that is taken out, what stands there then, and the error.
WRONG = [
    ("a grant lapses", "tile.give_back(grant, plan, tables)", "Ok(tile)", "linear-value-let-go"),
    ("a peeling tile shows its picture", "tile.finish(plan, tables)?", "tile", "unknown-method"),
]


def replaced(text, old, new):
    assert text.count(old) == 1, "%r stands %d times" % (old, text.count(old))
    return text.replace(old, new)


def rewrite(path, old, new):
    with open(path, encoding="utf-8") as file:
        text = file.read()
    with open(path, "w", encoding="utf-8") as file:
        file.write(replaced(text, old, new))


def copied_tile(folder):
    """The crate `tile` in a copy of the repository's crates, with its right programs."""
    shutil.copy(os.path.join(ROOT, "crates.txt"), folder)
    leave = shutil.ignore_patterns("out", "must-fail")
    shutil.copytree(os.path.join(ROOT, "crates"), os.path.join(folder, "crates"), ignore=leave)
    tile = os.path.join(folder, "crates", "tile")
    rewrite(os.path.join(tile, "src/lib.rt"), "#[cfg(test)]\nmod uses;", "mod uses;")
    return tile


def errors(tile):
    """The exit status of a check, and each error with its file."""
    done = subprocess.run(
        ["rt", "check"], cwd=tile, stdout=subprocess.PIPE, stderr=subprocess.STDOUT, text=True
    )
    found = re.findall(r"^(\S+?):\d+:\d+: error\[([\w-]+)\]", done.stdout, re.M)
    return done.returncode, set(found), done.stdout


def main():
    failed = 0
    with tempfile.TemporaryDirectory() as folder:
        tile = copied_tile(folder)
        path = os.path.join(tile, FILE)
        for what, old, new, error in WRONG:
            rewrite(path, old, new)
            status, found, said = errors(tile)
            if status != 0 and found == {(FILE, error)}:
                print("%s: refused, [%s]" % (what, error))
            else:
                print("%s: NOT REFUSED by [%s] alone\n%s" % (what, error, said[-3000:]))
                failed = 1
            shutil.copy(os.path.join(ROOT, "crates/tile", FILE), path)
    return failed


if __name__ == "__main__":
    sys.exit(main())
