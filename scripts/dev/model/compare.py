#!/usr/bin/env python3
"""Compares the answers of the model with other answers.

    scripts/dev/model/compare.py [PROGRAM] [--calls FOLDER] [--random N] [--seed S] [--plain PROGRAM]

Without `--random` it answers the calls of crates/migrate_rows, and compares with the answers of PROGRAM, or where there is none
with what is stored beside the calls. With `--calls` the calls, their files and what is stored are those of a folder as there are
below calls/; a file that isn't in its data is one of crates/migrate_rows. With `--random` it makes N networks, and compares
answers on them with those of PROGRAM, and of a plain program, which takes the same words behind `f`.

Each difference is printed, and at the end how many calls agree, how many differ, and how many the model doesn't take. The
status is 1 where one differs. Of refused words the first line alone is compared. It isn't part of the gate.
"""

import argparse
import pathlib
import subprocess
import sys
import tempfile

from commands import answer
from made_files import made
from random_networks import random_calls

ROWS = pathlib.Path(__file__).resolve().parents[3] / "crates/migrate_rows"


def text_of(path):
    return path.read_bytes().decode("latin-1") if path.is_file() else None


def link_data(folders, place):
    """Makes links in a folder to all that is in some folders; a name that stands twice is that of the first one."""
    for path in (path for folder in folders for path in folder.iterdir()):
        if not (place / path.name).exists():
            (place / path.name).symlink_to(path.resolve())


def is_taken(words):
    """Whether the model answers a call: it knows the command, and makes the files that are made."""
    is_known = words[0] != "sample"
    return is_known and all(made(word) is not None for word in words if word.startswith("made/"))


def stored_answers(text):
    """The calls of a session, each with its text and its code."""
    found = []
    for line in text.split("\n"):
        if line.startswith("$ migrate "):
            found.append([line.removeprefix("$ migrate "), "", None])
        elif line.startswith("ends with ") and found[-1][2] is None:
            found[-1][2] = int(line.removeprefix("ends with "))
        elif found and found[-1][2] is None:
            found[-1][1] += line + "\n"
    return found


def answer_of(program, words, folder):
    """The answer of a built program, called in a folder. It writes what it says of an error where it writes its answer."""
    ended = subprocess.run([*program, *words], capture_output=True, cwd=folder, check=False)
    return ended.stdout.decode("latin-1"), ended.returncode


def compared(got):
    text, code = got
    return (text.split("\n")[0], code) if code == 2 else got


class Count:
    """Counts the calls, and prints those that differ."""

    def __init__(self):
        self.agree = self.differ = self.not_taken = 0

    def compare(self, call, by_model, other):
        if compared(by_model) == compared(other):
            self.agree += 1
            return
        self.differ += 1
        print(f"{call}\n the model: {by_model[1]}\n{by_model[0]} the other: {other[1]}\n{other[0]}", end="")


def compare_stored(count, program, folder):
    """Compares on the calls of a folder, or of crates/migrate_rows. No file is made for a program."""
    calls = (folder or ROWS / "data") / "calls.txt"
    session = stored_answers(text_of((folder or ROWS) / "stdout"))
    if [call for call in text_of(calls).split("\n")[:-1] if not call.startswith("#")] != [call for call, *_ in session]:
        raise SystemExit(f"{calls} has other calls than the answers beside it")
    with tempfile.TemporaryDirectory() as name:
        place = pathlib.Path(name)
        link_data(([folder / "data"] if folder else []) + [ROWS / "data"], place)
        for call, text, code in session:
            words = call.split(" ")
            if not is_taken(words) or program and " made/" in call:
                count.not_taken += 1
            else:
                by_model = answer(words, lambda file: made(file) or text_of(place / file))
                count.compare(call, by_model, answer_of(program, words, place) if program else (text, code))


def compare_random(count, options):
    """Compares on random networks, whose files are written to a folder for as long as they are asked."""
    with tempfile.TemporaryDirectory() as name:
        folder = pathlib.Path(name)
        for seed in range(options.seed, options.seed + options.random):
            files, calls = random_calls(seed)
            for file, text in files.items():
                (folder / file).write_text(text)
            for words, like in calls:
                by_model = answer(words, files.get)
                for program in options.programs:
                    count.compare(f"network {seed}: {' '.join(words)}", by_model, answer_of(program, like, folder))


def main():
    parser = argparse.ArgumentParser(description=__doc__.split("\n")[0])
    parser.add_argument("program", nargs="?", type=pathlib.Path)
    parser.add_argument("--calls", type=pathlib.Path, metavar="FOLDER")
    parser.add_argument("--random", type=int, metavar="N")
    parser.add_argument("--seed", type=int, default=1, metavar="S")
    parser.add_argument("--plain", type=pathlib.Path, metavar="PROGRAM")
    options = parser.parse_args()
    program = [str(options.program.resolve())] if options.program else None
    options.programs = ([program] if program else []) + ([[str(options.plain.resolve()), "f"]] if options.plain else [])
    sys.setrecursionlimit(10000)
    count = Count()
    if options.random is None:
        compare_stored(count, program, options.calls)
    elif options.programs:
        compare_random(count, options)
    else:
        parser.error("--random needs PROGRAM or --plain PROGRAM")
    print(f"{count.agree} agree, {count.differ} differ, {count.not_taken} not taken")
    return 1 if count.differ else 0


if __name__ == "__main__":
    sys.exit(main())
