#!/usr/bin/env python3
"""Sets the watch beside a model of it in Python, on random sheets and recordings.

usage: python3 tools/compare.py MODEL COUNT SEED [--try]     at the top of the repository

MODEL is a folder with model.py, gen.py and watch.py: networks and their sheets, random networks and
traces, and what `watch` is to write of two files. The watch is crates/vectors/out/vectors, which takes many
cases at once, and for the first of them crates/watch/out/watch too, over files; `rt run` in their folders
makes both. With --try it is what `rt try` runs in crates/vectors, before anything is proved. Prints each
case on which the two sides disagree, and how many of each outcome there were; fails if any disagree.
"""

import collections
import multiprocessing
import pathlib
import random
import subprocess
import sys
import tempfile

# So many cases a process.
SHARE = 500
# So many cases are given to the program over files too.
OVER_FILES = 200
# The most bytes of a file.
LONGEST = 16384
# Values that a number of a sheet or a recording may be changed to, beside those near its own.
FAR = (0, 1, 2, 3, 5, 8, 9, 16, 17, 32, 33, 127, 128, 129, 255, 256, 1_000_000, 1_000_001, 2_000_000, 2_000_001, 2**28, 2**32 - 1)


def network(rng):
    """A network of one of several styles: any, many hidden moves, tight limits, wide."""
    style = rng.random()
    if style < 0.3:
        return gen.network(rng, clocks=(1, 3), alone_p=0.6, hidden_p=0.5, top=rng.choice((2, 3, 4)))
    if style < 0.5:
        return gen.network(rng, clocks=(1, 3), limit_p=0.9, guard_p=0.8, diag=0.5, top=rng.choice((2, 3)))
    if style < 0.6:
        return gen.network(rng, clocks=(3, 8), channels=(2, 32), procs=(3, 8), locs=(1, 16), edges=(8, 40), top=6)
    if style < 0.65:
        return gen.network(rng, clocks=(1, 8), channels=(1, 6), procs=(2, 4), top=1_000_000)
    return gen.network(rng, top=rng.choice((2, 3, 5)))


def number(rng, value):
    return rng.choice((value + 1, value - 1, value * 2 + 1, rng.choice(FAR)))


def items_of(rng, net):
    """Items of a trace that some run may have, with rare ones that no network takes."""
    items = gen.trace(rng, net, ticks=rng.choice((4, 8, 20)))
    if rng.random() < 0.3:
        items = gen.resplit(rng, items)
    for _ in range(rng.choice((0, 0, 0, 0, 0, 1, 2))):
        kind = rng.choice((model.WAIT, model.SEE))
        value = rng.choice((rng.randint(0, 40), rng.choice(FAR)))
        items.insert(rng.randint(0, len(items)), (kind, value))
    if rng.random() < 0.01:
        items += [(model.WAIT, 2**32 - 1)] * rng.randint(230, 240)
    return items


def damaged(rng, data):
    """The bytes with one cut, changed, added or doubled."""
    data = bytearray(data)
    at = rng.randint(0, len(data))
    kind = rng.randint(0, 4)
    if kind == 0:
        del data[at:]
    elif kind == 1 and data:
        data[min(at, len(data) - 1)] = rng.choice((0, 1, 2, 3, 127, 128, 255, rng.randrange(256)))
    elif kind == 2:
        data.insert(at, rng.choice((0, 1, 2, 128, rng.randrange(256))))
    elif kind == 3:
        data[at:at] = bytes((128,)) * rng.randint(1, 5)
    else:
        data += bytes(data[at:])
    return bytes(data)


def sheet_of(rng, net):
    if rng.random() >= 0.15:
        return model.write_sheet(net)
    if rng.random() < 0.5:
        return damaged(rng, model.write_sheet(net))
    values = [value for _, value in model.sheet_fields(net)]
    at = rng.randrange(len(values))
    values[at] = min(max(number(rng, values[at]), 0), 2**32 - 1)
    return b"".join(map(model.write_number, values))


def recording_of(rng, net):
    data = model.write_recording(items_of(rng, net), end=rng.random() < 0.95)
    return damaged(rng, data) if rng.random() < 0.1 else data


def case(rng):
    net = network(rng)
    sheet, recording = sheet_of(rng, net), recording_of(rng, net)
    if rng.random() < 0.005:
        recording = bytes((0, 0)) * (LONGEST // 2) + recording[:rng.randint(0, 2)]
    if rng.random() < 0.005:
        sheet = sheet.ljust(LONGEST + rng.randint(0, 1), b"\0")
    return sheet, recording


def hexed(data):
    return data.hex() or "-"


def told(cases, trying):
    """What the watch writes of the cases, a text each."""
    given = "".join(f"{hexed(sheet)} {hexed(recording)}\n" for sheet, recording in cases)
    folder = "crates/vectors"
    command = ["rt", "try", "--seconds", "600"] if trying else ["out/vectors"]
    done = subprocess.run(command, cwd=folder, input=given, capture_output=True, text=True, check=True)
    texts = []
    for line in done.stdout.splitlines(keepends=True):
        # A second line stands behind a report of cause 4.
        if texts and texts[-1].split()[1] == "4" and texts[-1].count("\n") == 1 and not texts[-1].startswith("refused"):
            texts[-1] += line
        else:
            texts.append(line)
    if len(texts) != len(cases):
        sys.exit(f"{len(cases)} cases, but {len(texts)} answers")
    return texts


def written(sheet, recording):
    """What the program writes of the two files; where there are no bytes, there is no file."""
    program = pathlib.Path("crates/watch/out/watch").resolve()
    with tempfile.TemporaryDirectory() as folder:
        for name, data in (("network.bin", sheet), ("recording.bin", recording)):
            if data:
                pathlib.Path(folder, name).write_bytes(data)
        return subprocess.run([program], cwd=folder, capture_output=True, text=True, check=True).stdout


def cases_of(seed, count):
    """Random cases, and what the model writes of each."""
    rng = random.Random(seed)
    pairs = [case(rng) for _ in range(count)]
    return [(sheet, recording, watch.output(sheet, recording).decode()) for sheet, recording in pairs]


def outcome(text):
    words = text.split()
    if words[0] == "refused":
        return " ".join(words[:3])
    return " ".join(words[:2] + words[4:7])


def main(count, seed, trying):
    shares = [(seed * 1_000_000 + n, min(SHARE, count - n)) for n in range(0, count, SHARE)]
    with multiprocessing.Pool() as pool:
        cases = [one for part in pool.starmap(cases_of, shares) for one in part]
    counts, wrong = collections.Counter(), 0

    def compared(sheet, recording, expected, text):
        if text != expected:
            print(f"disagree: {hexed(sheet)} {hexed(recording)}\n  model {expected!r}\n  watch {text!r}")
        return text != expected

    step = 20 * SHARE
    for at in range(0, len(cases), step):
        part = cases[at : at + step]
        for (sheet, recording, expected), text in zip(part, told([c[:2] for c in part], trying)):
            counts[outcome(expected)] += 1
            wrong += compared(sheet, recording, expected, text)
    if not trying:
        for sheet, recording, expected in cases[:OVER_FILES]:
            wrong += compared(sheet, recording, expected, written(sheet, recording))
    for name, n in sorted(counts.items()):
        print(f"{n:8} {name}")
    print(f"{len(cases)} cases, {wrong} disagreements")
    return wrong > 0


words = [w for w in sys.argv[1:] if w != "--try"]
if len(words) != 3:
    sys.exit(__doc__)
sys.path.insert(0, words[0])
import gen  # noqa: E402
import model  # noqa: E402
import watch  # noqa: E402

if __name__ == "__main__":
    sys.exit(main(int(words[1]), int(words[2]), "--try" in sys.argv))
