#!/usr/bin/env python3
"""Makes cases of pairs: what an independent model of the watch writes of them.

usage: python3 tools/fuzz/expect.py MODEL < PAIRS > CASES

MODEL is a folder with watch.py, which was written in Python from the rules alone and is no part of this repository: its output()
takes the bytes of a sheet and of a recording. A line of PAIRS has both in hexadecimal, `-` for an empty file; a line of CASES has
what is written of them behind that, its line feeds as `\\n`.
"""

import sys

sys.dont_write_bytecode = True


def data(word):
    return b"" if word in ("-", "!") else bytes.fromhex(word)


def main():
    for line in sys.stdin:
        sheet, recording = line.split()
        text = output(data(sheet), data(recording)).decode()
        print(sheet, recording, text.replace("\n", "\\n"))


if len(sys.argv) != 2:
    sys.exit(__doc__)
sys.path.insert(0, sys.argv[1])
from watch import output  # noqa: E402

if __name__ == "__main__":
    main()
