#!/usr/bin/env python3
"""Makes the cases of the program growths, and what it is to print, from an independent model.

usage: python3 tools/growths.py FOLDER     at the top of the repository

The model is written in Python from the rules alone, shares no code with the program, and is no part of
this repository. FOLDER holds its files growth.py and model.py, and cases.txt, each of whose lines begins
with a sheet in hexadecimal. Writes crates/growths/stdin and crates/growths/stdout, whose lines
crates/growths/src/main.rt describes.
"""

import itertools
import pathlib
import random
import sys

sys.path.insert(0, sys.argv[1])
from growth import GOES_ON, Overrun, Watch
from model import HIDDEN, Refused, read_sheet

NETWORKS = 200
MOST = 256                   # entries
TOP = 1000000000000          # ticks of a watch
TICKS = [0, 1, 2, 3, 4, 5, 6, 7, 9, 12, 20, 100, 1000000, TOP]
TRIED = 24                   # sees of a network, in search of some that leave something

random = random.Random(11)


# ------------------------------------------------------------- what a case comes to
def entries(all):
    return "".join([f"{len(all)}:"] + [" " + ".".join(map(str, here)) for here, _ in all])


def growth(watch, ticks, loose):
    """A growth of the estimate, as it is printed."""
    try:
        grown = watch.grow(ticks, loose)
    except Overrun:
        return "overrun"
    last = [watch.kind.last_tick(zone[watch.e][0]) for _, zone in grown]
    return f"{entries(grown)} to {max(last, default=0)}"


def see(watch, channel, ticks):
    """What a see leaves, or None where an entry finds no place."""
    watch.w = ticks
    kinds = watch.net.channels
    if channel >= len(kinds) or kinds[channel] == HIDDEN:
        # The model refuses it before it grows; no visible move is on such a channel.
        try:
            watch.grow(ticks)
        except Overrun:
            return None
        return []
    answer = watch.see(channel)
    if answer is GOES_ON:
        return watch.estimate
    _, cause, _, _ = answer
    return None if cause == 3 else []


def expected(net, ticks, count, loose, sight):
    """The line of a case, and how many places it took."""
    watch = Watch(net, count)
    steps = [growth(watch, ticks, loose)]
    if sight:
        channel, behind = sight
        left = see(watch, channel, ticks)
        if left is None:
            steps.append("overrun")
        else:
            watch.estimate = left
            steps += [entries(left), growth(watch, behind, loose)]
    return " | ".join(steps), watch.peak


# ----------------------------------------------------------------- which cases
def line(sheet, ticks, count, loose, sight):
    fields = [sheet, ticks, count, "loose" if loose else "strict", *(sight or ())]
    return " ".join(map(str, fields))


def networks(path):
    """Sheets with more than one entry in some growth, each once."""
    met = set()
    for text in path.read_text().split("\n"):
        sheet = text.split(" ")[0]
        if len(sheet) < 2 or sheet in met:
            continue
        met.add(sheet)
        try:
            net = read_sheet(bytes.fromhex(sheet))
        except Refused:
            continue
        if branches(net, False) or branches(net, True):
            yield sheet, net


def branches(net, loose):
    """Whether a growth has more than one entry."""
    try:
        return len(Watch(net, MOST).grow(20, loose)) > 1
    except Overrun:
        return True


def sights(net):
    """Ticks and a channel of two sees that leave something, or else of one that leaves nothing."""
    visible = [k for k, kind in enumerate(net.channels) if kind != HIDDEN]
    tried = [(ticks, k) for ticks in TICKS for k in visible]
    random.shuffle(tried)
    leaving = (t for t in tried[:TRIED] if see(Watch(net, MOST), t[1], t[0]))
    return list(itertools.islice(leaving, 2)) or tried[:1]


def behind(ticks):
    return random.choice([d for d in TICKS if ticks + d <= TOP] + [TOP - ticks])


def cases_of(net):
    """Ticks, entries, whether loose, and what follows."""
    yield random.choice(TICKS), MOST, random.random() < 0.5, None
    for i, (ticks, channel) in enumerate(sights(net)):
        loose, sight = i == 1, (channel, behind(ticks))
        yield ticks, MOST, loose, sight
        text, peak = expected(net, ticks, MOST, loose, sight)
        if "overrun" not in text and not text.endswith("| 0: to 0"):
            # As many places as it takes are enough, and one less is not.
            yield ticks, peak, loose, sight
            yield ticks, peak - 1, loose, sight
    if random.random() < 0.1:
        # On a hidden channel, or on none, no move is seen.
        hidden = [k for k, kind in enumerate(net.channels) if kind == HIDDEN]
        yield random.choice(TICKS[:-1]), 40, False, (random.choice(hidden + [len(net.channels), 255]), 3)


def refused(sheet):
    """Lines with a fault in some field."""
    yield from (f"{sheet} 5 {count} strict" for count in ("0", "257", "-1", "x", ""))
    yield from (f"{sheet} {ticks} 40 strict" for ticks in (TOP + 1, -1, 2**64, "x"))
    yield from (f"{sheet} 5 40 {mode}" for mode in ("", "Strict", "loosely", "strict ", "strict 0", "strict 0 5 "))
    yield from (f"{sheet} 5 40 strict {sight}" for sight in ("256 5", f"0 {TOP - 4}", "- 5", "0 -"))
    yield from ("", " ", sheet, f"{sheet} 5", f"{sheet} 5 40", f" {sheet} 5 40 strict")
    yield from (f"{bad} 5 40 strict" for bad in ("-", sheet[:-1], sheet[:-2], sheet + "00", "0x" + sheet))


def main():
    taken = list(itertools.islice(networks(pathlib.Path(sys.argv[1]) / "cases.txt"), NETWORKS))
    given, wanted = [], []
    for sheet, net in taken:
        for case in cases_of(net):
            given.append(line(sheet, *case))
            wanted.append(expected(net, *case)[0])
    for text in refused(taken[0][0]):
        given.append(text)
        wanted.append("refused")
    folder = pathlib.Path("crates/growths")
    for name, lines in ("stdin", given), ("stdout", wanted):
        (folder / name).write_text("".join(text + "\n" for text in lines))


main()
