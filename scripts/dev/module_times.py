#!/usr/bin/env python3
"""Says where the time of a check goes, module by module.

    scripts/dev/module_times.py CRATE [--most N]

CRATE is the folder of a crate that `rt check --jobs 1` has just checked from nothing (remove its out/ first). A check keeps each
module as soon as it is done, so the time between one kept file and the next is that of the later one. Printed are the N slowest
modules, and how much the modules of each kind take together:

    Lts       what a function's body does, step by step; it grows with calls that may fail, times what is dropped where one does
    Proof     the function's goals that the check finds answers for by itself, and its borrows
    Answers   the answers that stand in proofs/
    Tie       how the body's places and its contract's names go together
    lemmas    the files of proofs/ beside the functions
    ..        more, each under the last word of its name

It isn't part of the gate. The load of the machine counts: let nothing else run.
"""
import argparse
import collections
import pathlib
import re

OF_FUNCTIONS = ("Lts", "Proof", "Answers", "Tie", "Reads", "Mir", "Code", "Layout", "Named", "Given", "View", "Met", "Goals")


def kept_modules(crate):
    """Each module with the time at which its file was kept, in this order."""
    files = [it for it in pathlib.Path(crate, "out/incremental").rglob("*.oantt") if "records" not in it.parts]
    return sorted((it.stat().st_mtime, it.stem) for it in files)


def kind_of(module):
    """What a module is, by its name."""
    if ".contracts." in module or module.partition(".")[0].endswith("-specs"):
        return "specs and contracts"
    last = module.rpartition(".")[2]
    if last in OF_FUNCTIONS:
        return last
    return "made beside functions" if re.search(r"\.The[A-Z]|Destruct", module) else "lemmas"


def main():
    words = argparse.ArgumentParser(description=__doc__, formatter_class=argparse.RawDescriptionHelpFormatter)
    words.add_argument("crate")
    words.add_argument("--most", type=int, default=20)
    asked = words.parse_args()
    kept = kept_modules(asked.crate)
    spent = [(later - earlier, module) for (earlier, _), (later, module) in zip(kept, kept[1:])]
    whole = sum(seconds for seconds, _ in spent)
    print(f"{len(kept)} modules, {whole:.0f} seconds")
    for seconds, module in sorted(spent, reverse=True)[: asked.most]:
        print(f"{seconds:8.2f}  {module}")
    kinds = collections.Counter()
    for seconds, module in spent:
        kinds[kind_of(module)] += seconds
    print()
    for kind, seconds in kinds.most_common():
        print(f"{seconds:8.1f} {100 * seconds / max(whole, 1):5.1f} of 100  {kind}")


if __name__ == "__main__":
    main()
