#!/usr/bin/env python3
"""Measures the finder's part of a built `migrate_bench` beside another program of the planner's commands.

    scripts/dev/measure_finder.py MEASURED OTHER BENCH [--runs N]

MEASURED is the built `crates/migrate_bench/out/migrate_bench`, OTHER a program with the commands of `migrate` and with
`serve`, BENCH a folder with `isp-200` and `ring-200` (their `*.cfg`, `order.txt`). Each call is run N times by each
program (9 unless said), by turns. Printed are, of each network, the median seconds of each part of the tasks `check`,
`waves` and `plan`, those of the other program's whole process, and those that it takes for the same 1,000 orders, each
with two routers exchanged, beyond an empty call of `serve`. The load of the machine is printed first: on one that does
other things only the ratios tell something.
"""

import argparse
import os
import pathlib
import re
import statistics
import subprocess
import time

PART = re.compile(r"^(.*) of (\d+): ([0-9.]+) seconds$")
TIMES = 1000


def run(words, text=b""):
    """Runs a program; its output and the seconds of the whole process."""
    start = time.monotonic()
    done = subprocess.run(words, input=text, capture_output=True, check=False)
    return done, time.monotonic() - start


def parts_of(done):
    """The parts that a task measured, by name."""
    found = {}
    for line in done.stderr.decode().splitlines():
        told = PART.match(line)
        if told:
            found[told.group(1)] = float(told.group(3))
    return found


def next_number(number):
    """The number after another in the row by which `migrate_bench` exchanges routers."""
    return (number * 48271) % (1 << 64) % 2147483647


def exchanged_orders(order):
    """The orders that `migrate_bench check` asks for, as lines of names."""
    names = sorted(order)
    ranks = [order.index(name) for name in names]
    lines = []
    seed = 1
    for _ in range(TIMES):
        one = next_number(seed)
        seed = next_number(one)
        mine = list(ranks)
        first, second = one % len(mine), seed % len(mine)
        mine[first], mine[second] = mine[second], mine[first]
        placed = sorted(range(len(mine)), key=lambda router: mine[router])
        lines.append(" ".join(names[router] for router in placed))
    return ("\n".join(lines) + "\n").encode()


def measure(folder, measured, other, runs):
    """Prints the medians of one network."""
    configs = sorted(str(path) for path in folder.glob("*.cfg"))
    order_file = str(folder / "order.txt")
    order = (folder / "order.txt").read_bytes().decode().split("\n")[1:]
    lines = exchanged_orders([name for name in order if name])
    parts, others = {}, {"check": [], "plan": [], "serve": []}
    for _ in range(runs):
        for task in ("check", "waves", "plan"):
            words = [measured, task] + ([order_file] if task != "plan" else []) + configs
            for name, seconds in parts_of(run(words)[0]).items():
                parts.setdefault(f"{task}: {name}", []).append(seconds)
        others["check"].append(run([other, "f", "check", order_file] + configs)[1])
        others["plan"].append(run([other, "f", "plan"] + configs)[1])
        begun = run([other, "f", "serve"] + configs)[1]
        others["serve"].append(run([other, "f", "serve"] + configs, lines)[1] - begun)
    print(f"{folder.name}, medians of {runs}, load {os.getloadavg()[0]:.1f}")
    for name, seconds in parts.items():
        print(f"  ours   {name:<48} {statistics.median(seconds):.6f}")
    for name, seconds in others.items():
        print(f"  other  {name:<48} {statistics.median(seconds):.6f}")


def main():
    """Reads the words of the call, and measures both networks."""
    words = argparse.ArgumentParser(description=__doc__.split("\n", maxsplit=1)[0])
    words.add_argument("measured")
    words.add_argument("other")
    words.add_argument("bench", type=pathlib.Path)
    words.add_argument("--runs", type=int, default=9)
    given = words.parse_args()
    for name in ("isp-200", "ring-200"):
        measure(given.bench / name, given.measured, given.other, given.runs)


if __name__ == "__main__":
    main()
