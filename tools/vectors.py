#!/usr/bin/env python3
"""Makes crates/vectors/stdin and crates/vectors/stdout of files of cases.

usage: python3 tools/vectors.py CASES..     at the top of the repository

A case is a line: the bytes of a sheet and of a recording in hexadecimal (`-` for an empty file, `!` for a
missing one), and behind them all that `watch` is to write, each line feed as a backslash and an n.
"""

import pathlib
import sys


def main():
    cases = [line.split(" ", 2) for name in sys.argv[1:] for line in pathlib.Path(name).read_text().splitlines()]
    if not cases:
        sys.exit(__doc__)
    folder = pathlib.Path("crates/vectors")
    (folder / "stdin").write_text("".join(f"{sheet} {recording}\n" for sheet, recording, _ in cases))
    (folder / "stdout").write_text("".join(expected.replace("\\n", "\n") for _, _, expected in cases))
    print(f"{len(cases)} cases")


main()
