#!/usr/bin/env python3
"""Measures a built `migrate` beside another program of the same commands, and prints one table.

    scripts/dev/compare_times.py OURS OTHER BENCH [--runs N] [--only WORD] [--instructions]

OURS is the built program (`crates/migrate/out/migrate`), OTHER a program that takes the same words, BENCH a folder with
`isp-200`, `isp-ranges`, `l1-200`, `ring-200` and `trap27` (their `*.cfg`, and of some `order.txt`). Each call is run N times
by each program (9 unless said), by turns; the table has the medians of the wall and the processor time of the whole process,
the greatest peak memory, which `/usr/bin/time` reads in a run of its own (a process that this script starts itself begins
with this script's peak), the ratios, and the ratio of the processor times that is wanted at most. `twopass`, `replan` and
`pair` stand beside `plan` of OURS on the same network. Where two programs write different bytes for one call or end with
different codes, the row says so. Rings, LANs, areas and pairs are made in a temporary folder. `--only` takes the rows whose
title has that word, `--instructions` counts them by callgrind too, in millions.
"""

import argparse
import os
import pathlib
import re
import statistics
import subprocess
import tempfile
import time
from typing import NamedTuple

from make_network import areas, copy, filled, lan, ring

FILLED = 10_000_000
BUDGET = ["--budget", "100000"]
# What makes the tree of this budget some 16 MiB long, the most that `refute` reads, behind each router's name.
LONG_NAME = "-in-a-backbone"


class Row(NamedTuple):
    """A row: its title, the words of our call, those of the call beside it, whether that is ours too, and the most times."""

    title: str
    ours: list
    beside: list
    is_own: bool
    most: float


def files_of(folder):
    """The configurations of a folder."""
    return sorted(str(path) for path in folder.glob("*.cfg"))


def written(folder, name, texts):
    """Writes a made network and the order of its names; the words behind `check` and the configurations."""
    place = pathlib.Path(folder, name)
    place.mkdir()
    place.joinpath("all.cfg").write_text("".join(texts))
    names = [text.split("\n", 1)[0].split()[1] for text in texts]
    place.joinpath("order.txt").write_text("order 1\n" + "".join(f"{it}\n" for it in names))
    return str(place / "order.txt"), [str(place / "all.cfg")]


def both(title, words, most):
    """A row with one call of both programs."""
    return Row(title, words, words, False, most)


def grown(folder):
    """Rings, LANs and areas, which tell how the time grows."""
    made = [(f"ring of {it}", ring(it)) for it in (50, 100, 200)] + [(f"LAN of {it}", lan(it)) for it in (50, 100, 200)]
    made += [(f"{it} areas of 10", areas(it)) for it in (5, 10, 19)]
    for title, texts in made:
        order, configs = written(folder, title.replace(" ", "-"), texts)
        yield both(f"check {title}", ["check", order, *configs], 1.2)
        yield both(f"plan {title}", ["plan", *configs], 1.2)


def provider_rows(bench, folder):
    """The networks of BENCH, and the provider's one filled to 10 MB of text."""
    for name, most in (("isp-200", 1.5), ("isp-ranges", 1.5), ("l1-200", 1.5), ("ring-200", 1.2)):
        configs = files_of(bench / name)
        order = bench / name / "order.txt"
        if not order.exists():
            order = names_order(folder, name, configs)
        yield both(f"check {name}", ["check", str(order), *configs], most)
        if (bench / name / "reversed.txt").exists():
            yield both(f"check reversed {name}", ["check", str(bench / name / "reversed.txt"), *configs], most)
        yield both(f"plan {name}", ["plan", *configs], most)
    copies = pathlib.Path(folder, "filled")
    size = FILLED // len(files_of(bench / "isp-200"))
    copy(bench / "isp-200", copies, lambda text: filled(text, size))
    yield both("check isp-200 of 10 MB", ["check", str(bench / "isp-200/order.txt"), *files_of(copies)], 1.5)


def names_order(folder, name, configs):
    """The order of all routers by the files' order."""
    text = "".join(pathlib.Path(it).read_text() for it in configs)
    order = pathlib.Path(folder, f"{name}-order.txt")
    order.write_text("order 1\n" + "".join(f"{it}\n" for it in re.findall(r"^hostname (\S+)", text, re.M)))
    return order


def tree_rows(program, bench, folder):
    """`plan` where it searches long, and `refute` of trees: of a network with none, of a spent budget, of some 16 MiB."""
    trap, levels = files_of(bench / "trap27"), files_of(bench / "l1-200")
    yield both("plan trap27", ["plan", *trap], 3)
    yield both("plan trap27, budget of 100,000", ["plan", *BUDGET, *trap], 3)
    named = pathlib.Path(folder, "trap27-named.cfg")
    named.write_text(re.sub(r"^(hostname .*)$", rf"\1{LONG_NAME}", pathlib.Path(trap[0]).read_text(), flags=re.M))
    trees = [("trap27", [], trap), ("trap27, 100,000", BUDGET, trap), ("trap27, long", BUDGET, [str(named)])]
    for name, words, configs in [*trees, ("l1-200", [], levels)]:
        tree = pathlib.Path(folder, f"{name}.tree")
        tree.write_bytes(run([program], ["plan", *words, *configs])[2])
        title = f"refute {name}, {tree.stat().st_size / 2**20:.1f} MiB"
        yield both(title, ["refute", str(tree), *configs], 1.5)


def own_rows(bench, folder):
    """`twopass`, `replan` and `pair` beside `plan`."""
    for name in ("isp-200", "isp-ranges", "l1-200", "ring-200"):
        configs = files_of(bench / name)
        plan = ["plan", *configs]
        order, journal = bench / name / "order.txt", pathlib.Path(folder, f"{name}-journal.txt")
        if not order.exists():
            order = names_order(folder, f"{name}-own", configs)
        names = order.read_text().split("\n")[1:11]
        journal.write_text("journal 1\n" + "".join(f"{it} 1\n{it} 2\n" for it in names))
        old, new = pair_of(folder, name, configs)
        yield Row(f"twopass {name}", ["twopass", *configs], plan, True, 1.5)
        yield Row(f"replan {name}", ["replan", str(order), str(journal), *configs], plan, True, 1.5)
        yield Row(f"pair {name}", ["pair", old, new], plan, True, 1.5)


def pair_of(folder, name, configs):
    """A pair of OSPF networks: the configurations without IS-IS, and the same with a second process and IS-IS's metrics."""
    text = "".join(pathlib.Path(it).read_text() for it in configs)
    old = re.sub(r"^router isis.*\n(?: .*\n)*", "", text, flags=re.M)
    old = re.sub(r"^ (?:ip router )?isis .*\n| ip router isis.*\n", "", old, flags=re.M)
    new = re.sub(r"^( ip ospf cost )\d+(\n(?: .*\n)*? isis metric )(\d+)", r"\g<1>\3\2\3", text, flags=re.M)
    new = re.sub(r"^router isis.*\n(?: .*\n)*", "", new, flags=re.M)
    new = re.sub(r"^ (?:ip router )?isis .*\n| ip router isis.*\n", "", new, flags=re.M)
    new = re.sub(r"^router ospf 1\n", "router ospf 2\n distance 255\n", new, flags=re.M)
    paths = []
    for part, said in (("old", old), ("new", new)):
        path = pathlib.Path(folder, f"{name}-{part}.cfg")
        path.write_text(said)
        paths.append(str(path))
    return paths


def run(program, words):
    """One run: wall seconds, processor seconds, what was written, the code."""
    begun = time.perf_counter()
    process = subprocess.Popen([*program, *words], stdout=subprocess.PIPE, stderr=subprocess.DEVNULL)
    text = process.stdout.read()
    _, status, used = os.wait4(process.pid, 0)
    return time.perf_counter() - begun, used.ru_utime + used.ru_stime, text, os.waitstatus_to_exitcode(status)


def peak_of(program, words):
    """The peak memory of a run, in kilobytes."""
    with tempfile.NamedTemporaryFile("r") as told:
        subprocess.run(["/usr/bin/time", "-f", "%M", "-o", told.name, *program, *words], stdout=subprocess.DEVNULL,
                       stderr=subprocess.DEVNULL, check=False)
        return int(told.read().split()[-1])


def instructions_of(program, words):
    """The instructions of a run by callgrind, in millions."""
    with tempfile.NamedTemporaryFile() as told:
        call = ["valgrind", "--tool=callgrind", f"--callgrind-out-file={told.name}", *program, *words]
        said = subprocess.run(call, stdout=subprocess.DEVNULL, stderr=subprocess.PIPE, text=True, check=False).stderr
    return int(re.search(r"Collected : (\d+)", said)[1]) / 1e6


def measured(row, calls, runs):
    """The row's line: medians, ratios, peaks, and whether the answers agree."""
    results = ([], [])
    for _ in range(runs):
        for (program, words), result in zip(calls, results):
            result.append(run(program, words))
    wall, used = ([statistics.median(it[part] for it in result) * 1000 for result in results] for part in (0, 1))
    peak = [peak_of(*call) for call in calls]
    told = len({it[2:] for result in results for it in result}) == 1
    same = "" if row.is_own or told else "  answers differ"
    ended = results[0][0][3]
    return (f"{row.title:32} {ended:2} {wall[0]:8.1f} /{used[0]:7.1f} {wall[1]:8.1f} /{used[1]:7.1f} {wall[0] / wall[1]:5.2f} /"
            f" {used[0] / used[1]:5.2f} {row.most:5.1f} {peak[0]:8} {peak[1]:8} {peak[0] / peak[1]:6.2f}{same}")


def main():
    words = argparse.ArgumentParser(description=__doc__, formatter_class=argparse.RawDescriptionHelpFormatter)
    words.add_argument("ours")
    words.add_argument("other", help="the other program, with its first words if it takes some, in one argument")
    words.add_argument("bench", type=pathlib.Path)
    words.add_argument("--runs", type=int, default=9)
    words.add_argument("--only", default="")
    words.add_argument("--instructions", action="store_true")
    given = words.parse_args()
    print(f"load {os.getloadavg()[0]:.2f}; medians of {given.runs}; ms are wall / processor time")
    print(f"{'call':32} {'':2} {'ours ms':>17} {'beside ms':>17} {'times':>13} {'most':>5} {'peak KB':>17} {'times':>6}")
    with tempfile.TemporaryDirectory() as folder:
        rows = [*provider_rows(given.bench, folder), *tree_rows(given.ours, given.bench, folder), *grown(folder)]
        for row in [*rows, *own_rows(given.bench, folder)]:
            if given.only not in row.title:
                continue
            calls = ([given.ours], row.ours), ([given.ours] if row.is_own else given.other.split(), row.beside)
            line = measured(row, calls, given.runs)
            if given.instructions:
                counts = [instructions_of(*call) for call in calls]
                line += f"  {counts[0]:.1f} and {counts[1]:.1f} million, {counts[0] / counts[1]:.2f} times"
            print(line, flush=True)


if __name__ == "__main__":
    main()
