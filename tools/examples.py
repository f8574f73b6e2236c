"""Runs the program on every file of examples/ and compares what it prints with what is stored beside it.

    python3 tools/examples.py [PROGRAM ..]     exit status 1 on a difference

PROGRAM is a command, by default the program that tools/rebuild builds, crates/rebuild/out/rebuild.
What is stored is made by reference/mojette.py, never by the program.
"""

import glob
import os
import subprocess
import sys

ROOT = os.path.dirname(os.path.dirname(os.path.abspath(__file__)))
BUILT = os.path.join(ROOT, "crates", "rebuild", "out", "rebuild")


def content(path):
    with open(path, "rb") as file:
        return file.read()


def main(command):
    command = command or [BUILT]
    failed = 0
    for path in sorted(glob.glob(os.path.join(ROOT, "examples", "*.tile"))):
        try:
            done = subprocess.run(command, input=content(path), stdout=subprocess.PIPE)
        except OSError as error:
            print("%s: tools/rebuild builds the program" % error)
            return 1
        same = done.returncode == 0 and done.stdout == content(path[:-len(".tile")] + ".out")
        failed |= not same
        first = done.stdout.split(b"\n")[0].decode(errors="replace")
        print("%-20s %-9s %s" % (os.path.basename(path), "as stored" if same else "DIFFERS", first))
    return int(failed)


if __name__ == "__main__":
    sys.exit(main(sys.argv[1:]))
