#!/usr/bin/env python3
"""Runs the built program on thousands of damaged files.

Usage: scripts/dev/cut_and_flip.py [--skip-missing] [--seconds N] PROGRAM COUNT [WORD...]

The words are those of one call that is answered, as `check ORDER CONFIG...`. Each run damages one of its files at
random: it cuts it, flips a byte, puts a byte in, doubles a line, drops one, moves one, takes one from another file, or
writes an odd word for a word. A call without a file, as `sample 3`, has its number damaged. Without words all seven
commands are run, COUNT times each, on calls of the examples.

Every run has to end by itself within the seconds (10 unless given), with a status that its command has for files that
can be read, with the text that belongs to this status on standard output, and with nothing on standard error. The first
run that doesn't is kept in the folder `damaged` and ends the script with 1. A command that isn't there yet refuses its
undamaged call with status 2: that ends the script too, unless `--skip-missing` passes it over. PROGRAM is
crates/migrate/out/migrate once it is built. It isn't part of the gate.
"""

import argparse
import collections
import pathlib
import random
import re
import subprocess
import sys
import tempfile
import time

EXAMPLES = pathlib.Path(__file__).resolve().parent.parent.parent / "examples"

NAME = rb"[A-Za-z0-9._-]{1,63}"
NAMES = rb"(?: " + NAME + rb")+"
ADDRESS = rb"(?:\d{1,3}\.){3}\d{1,3}"
NUMBER = rb"\d+"
KIND = rb"[A-Z][A-Za-z]+"
FAULT = ADDRESS + rb" (?:loop" + NAMES + rb"|missing " + NAME + rb")\n"
TURNS = rb"(?: " + NAME + rb":[ONB]){2,}"
BRANCH = rb"branch " + ADDRESS + TURNS + rb"\n"
LEAF = rb"leaf " + NAME + NAMES + rb"\n"
CLOSED_TREE = rb"tree 1\n(?:" + BRANCH + rb"|" + LEAF + rb")+"
OPEN_TREE = rb"tree 1\n(?:" + BRANCH + rb"|" + LEAF + rb")*(?:open\n)+"
CHANGE = rb" " + NAME + rb":[12]"
CHANGE_LEAF = rb"leaf(?:" + CHANGE + rb"){2,}\n"
CLOSED_CHANGES = rb"tree 2\n(?:" + BRANCH + rb"|" + CHANGE_LEAF + rb")+"
OPEN_CHANGES = rb"tree 2\n(?:" + BRANCH + rb"|" + CHANGE_LEAF + rb")*(?:open\n)+"
CHANGE_WAVES = rb"order 3\n(?:wave(?:" + CHANGE + rb")+\n)+chain(?:" + CHANGE + rb")+\n"
REST = rb"rest 1\n(?:done\n|(?:wave" + NAMES + rb"\n)+chain" + NAMES + rb"\n)"
START = rb"start(?:" + CHANGE + rb")*\n"
CLOSED_REST = rb"tree 3\n" + START + rb"(?:" + BRANCH + rb"|" + LEAF + rb")+"
OPEN_REST = rb"tree 3\n" + START + rb"(?:" + BRANCH + rb"|" + LEAF + rb")*(?:open\n)+"
UNDONE = rb"(?:! undo \d+ " + NAME + rb"\n(?:router (?:isis(?: [!-~]+)?|ospf \d+)\n distance \d+\n)?)*"
WAVES = rb"order 2\n(?:wave" + NAMES + rb"\n)+chain" + NAMES + rb"\n"
SCRIPT = (
    rb"(?:! \d+ " + NAME + rb"\n|! wave \d+\n|! end\n|router isis(?: [!-~]+)?\n|router ospf \d+\n| distance (?:115|255)\n)*"
)
SUMMARY = (
    rb"sample \d+\nprefixes \d+\nbranches \d+\nwaves \d+\nfirst " + NAME + rb"\nlast " + NAME + rb"\n"
)
END = rb"end[ \t]*\r?\n"
NETWORK = (
    rb"refused network (?:TwoNames " + NAME
    + rb"|(?:BorderWithoutBackbone|NotAtStart) " + NAME
    + rb"|AddressTwice " + NAME + rb" " + NAME + rb" " + ADDRESS
    + rb"|PrefixInTwoAreas " + NAME + rb" " + NAME + rb" " + ADDRESS + rb"/\d+"
    + rb"|SystemIdTwice " + NAME + rb" " + NAME
    + rb"|StubMismatch " + NAME + rb" " + NAME + rb" \d+"
    + rb"|(?:OspfCostSum|IsisMetricSum) \d+)\n"
)
LIMIT = rb"limit (?:files|total|routers|interfaces|prefixes) \d+\n|limit bytes FILE\n"
LINE_REFUSED = rb"refused FILE \d+ " + KIND + rb"\n|" + NETWORK
PAIR = rb"refused pair (?:RouterMissing|InterfacesDiffer|HasIsis|ProcessClash|NotIdle) " + NAME + rb"\n"
PAIR_REFUSED = LINE_REFUSED + rb"|" + PAIR
PREFIX = ADDRESS + rb"/\d+"
PROTOCOL = rb"(?:ospf|level-1|level-2)"
SURVEYED = (
    rb"survey \d+ routers \d+ interfaces \d+ links \d+ prefixes\n"
    + rb"(?:router " + NAME + rb" up \d+ ospf \d+ isis \d+ areas(?: \d+)*\n)+"
)
UNEVEN = rb"uneven " + PREFIX + rb" " + PROTOCOL + rb" " + NAME + rb" \d+ " + NAME + rb" \d+\n"
ODDITY = (
    rb"(?:(?:silent|start) " + NAME
    + rb"|half " + PREFIX + rb" " + NAME + rb" [^\n]+"
    + rb"|masks " + PREFIX + rb" " + NAME + rb" " + PREFIX + rb" " + NAME
    + rb"|oneside " + PROTOCOL + rb" " + PREFIX + rb" " + NAME + rb" [^\n]+"
    + rb"|apart " + NAME + rb" " + NAME
    + rb"|odd FILE \d+|flat FILE|acts FILE \d+ [^\n]+)\n"
)
ALL_FAULTS = rb"(?:fault FILE \d+ " + KIND + rb"(?: [^\n]+)?\n)+faults \d+ in \d+ files\n"
ALL_REFUSALS = rb"(?:limit (?:routers|interfaces|prefixes) \d+\n|" + NETWORK + rb")+"
PAIR_SCRIPT = rb"(?:! \d+ " + NAME + rb"\n|! wave \d+\n|! end\n|router ospf \d+\n distance (?:115|255)\n)*"

# What `why` prints behind the line of `check`.
REASON = NAME + rb" wave \d+ (?:may be earlier|after " + NAME + rb" " + ADDRESS + TURNS + rb")\n"
CHANGE_REASON = CHANGE[1:] + rb" wave \d+ (?:may be earlier|after" + CHANGE + rb"(?: " + ADDRESS + TURNS + rb")?)\n"
PREFIX = ADDRESS + rb"/\d+"
USE = rb"(?:none|" + PREFIX + rb" (?:connected 0|(?:ospf|isis) \d+ (?:discard|to" + NAMES + rb")))\n"
WAY = rb"target " + PREFIX + rb" at" + NAMES + rb"\n(?:at " + NAME + rb" (?:old|middle|new) " + USE + rb")+"

# What each command may print, by its status. FILE stands for the name of a file of the call.
TEXTS = {
    "check": {
        0: rb"safe \d+(?: waves \d+)?\n",
        1: rb"unsafe (?:\d+|wave \d+) " + FAULT,
        5: LINE_REFUSED,
        6: LIMIT,
    },
    "prepare": {
        0: rb"(?:(?s:.*)\n)?" + END,
        5: LINE_REFUSED + rb"|refused FILE [^\n]+ " + KIND + rb"\n",
        6: LIMIT,
    },
    "plan": {
        0: WAVES,
        1: CLOSED_TREE,
        5: LINE_REFUSED,
        6: LIMIT,
        7: rb"unsound (?:old|new) " + FAULT,
        8: OPEN_TREE,
    },
    "refute": {
        0: rb"closed \d+ \d+\n",
        1: rb"open \d+\n|wrong \d+ \d (?:Form|Router|Address|Originator|Step|OneSided|NotAssumed)\n",
        5: LINE_REFUSED,
        6: LIMIT,
    },
    "scripts": {0: SCRIPT, 5: LINE_REFUSED, 6: LIMIT},
    "replay": {
        0: rb"at \d+ of \d+\n(?:done\n|(?:next " + NAME + rb" [12]\n)+)",
        1: rb"departs \d+\n",
        5: LINE_REFUSED,
        6: LIMIT,
    },
    "pairscripts": {0: PAIR_SCRIPT, 5: PAIR_REFUSED, 6: LIMIT},
    "survey": {
        0: SURVEYED + rb"(?:" + UNEVEN + rb")*",
        1: ALL_FAULTS + rb"|" + ALL_REFUSALS + rb"|" + SURVEYED + rb"(?:" + ODDITY + rb"|" + UNEVEN + rb")+",
        6: LIMIT,
    },
    "sample": {0: SUMMARY, 2: rb"(?s:words refused\n.*)"},
}

TEXTS["why"] = {
    **TEXTS["check"],
    0: TEXTS["check"][0] + rb"(?:(?:" + REASON + rb")*|(?:" + CHANGE_REASON + rb")*)",
    1: TEXTS["check"][1] + WAY,
}
TEXTS["twopass"] = {**TEXTS["plan"], 0: CHANGE_WAVES, 1: CLOSED_CHANGES, 8: OPEN_CHANGES}

TEXTS["replan"] = {
    **TEXTS["plan"],
    0: REST,
    1: CLOSED_REST + rb"|" + TEXTS["replay"][1],
    7: rb"unsound (?:start|new) " + FAULT,
    8: OPEN_REST,
}
TEXTS["rollback"] = {**TEXTS["replay"], 0: UNDONE}

for ours, theirs in (("plan", "pair"), ("check", "paircheck"), ("refute", "pairrefute")):
    TEXTS[theirs] = {**TEXTS[ours], 5: PAIR_REFUSED}

# Words that stand at the edge of what a line, an order, a tree or a design takes.
ODD_WORDS = (
    b"0", b"1", b"255", b"256", b"65535", b"65536", b"4294967295", b"4294967296", b"99999999999999999999", b"-1",
    b"0.0.0.0", b"255.255.255.255", b"255.255.255.253", b"1.2.3", b"R1", b"R2", b"R9", b"R1:O", b"R2:N", b"R1:B", b":",
    b"end", b"!", b"^C", b"banner", b"hostname", b"interface", b"router", b"ospf", b"isis", b"area", b"wave", b"chain",
    b"order", b"journal", b"tree", b"branch", b"leaf", b"open", b"true", b"[[", b"]]", b"\"", b"=", b"\xc3", b"\x00",
)


def example(folder, *names):
    """The files of an example."""
    return [str(EXAMPLES / folder / name) for name in names]


def calls_of_examples():
    """A call of each command."""
    triangle = ("r1.cfg", "r2.cfg", "r3.cfg")
    square = ("r1.cfg", "r2.cfg", "r3.cfg", "r4.cfg")
    design = next(iter(sorted(EXAMPLES.glob("*/design.toml"))), None)
    prepared = sorted(design.parent.glob("*.cfg")) if design else []
    return [
        ["check", *example("border", "safe.txt", *square)],
        ["check", *example("triangle", "waves.txt", *triangle)],
        ["survey", *example("survey/pager", *triangle)],
        ["why", *example("triangle", "waves.txt", *triangle)],
        ["why", *example("triangle", "unsafe.txt", *triangle)],
        ["prepare", str(design), *map(str, prepared)] if design else ["prepare"],
        ["plan", *example("levels", *square)],
        ["plan", "--budget", "5", *example("square", *square)],
        ["refute", *example("square", "tree.txt", *square)],
        ["twopass", *example("twopass", *square, "r5.cfg")],
        ["twopass", "--budget", "5", *example("square", *square)],
        ["check", *example("twopass", "passes.txt", *square, "r5.cfg")],
        ["why", *example("twopass", "passes.txt", *square, "r5.cfg")],
        ["scripts", *example("triangle", "waves.txt", *triangle)],
        ["replay", *example("triangle", "waves.txt", "journal.txt", *triangle)],
        ["replan", *example("stopped", "waves.txt", "journal.txt", "before.cfg")],
        ["replan", *example("stopped", "square-order.txt", "square-journal.txt"), *example("square", *square)],
        ["refute", *example("stopped", "tree.txt"), *example("square", *square)],
        ["rollback", *example("stopped", "waves.txt", "journal.txt", "before.cfg")],
        ["pair", *example("redesign", "old.cfg", "new.cfg")],
        ["pair", "--budget", "5", *example("redesign", "two-areas.cfg", "one-area.cfg")],
        ["paircheck", *example("redesign", "waves.txt", "old.cfg", "new.cfg")],
        ["pairrefute", *example("redesign", "tree.txt", "two-areas.cfg", "one-area.cfg")],
        ["pairscripts", *example("redesign", "waves.txt", "old.cfg", "new.cfg")],
        ["sample", "12"],
    ]


def damaged_words(line, chance):
    """The line with an odd word for one of its words."""
    words = line.split(b" ")
    words[chance.randrange(len(words))] = chance.choice(ODD_WORDS)
    return b" ".join(words)


def damaged(text, others, chance):
    """The text with one damage; a line may come from one of the others."""
    how = chance.randrange(9)
    place = chance.randrange(len(text) + 1)
    if how == 0:
        return text[:place]
    if how == 1:
        return text[:place] + bytes([chance.randrange(256)]) + text[place + 1 :]
    if how == 2:
        return text[:place] + bytes([chance.randrange(256)]) + text[place:]
    lines = text.splitlines(keepends=True) or [b""]
    place = chance.randrange(len(lines))
    line = lines[place]
    if how == 3:
        lines.insert(place, line)
    elif how == 4:
        del lines[place]
    elif how == 5:
        lines.insert(chance.randrange(len(lines)), lines.pop(place))
    elif how == 6:
        lines.insert(place, chance.choice(chance.choice(others).splitlines(keepends=True) or [b""]))
    else:
        feed = b"\n" if line.endswith(b"\n") else b""
        lines[place] = damaged_words(line.rstrip(b"\n"), chance) + feed
    return b"".join(lines)


def often_damaged(text, others, chance):
    """The text with one to three damages."""
    for _ in range(chance.randrange(1, 4)):
        text = damaged(text, others, chance)
    return text


def complaint(command, names, run):
    """What is wrong with a run, or None."""
    if run.returncode not in TEXTS[command]:
        return f"status {run.returncode}"
    if run.stderr:
        return "something on standard error"
    file = b"(?:" + b"|".join(re.escape(name.encode()) for name in names) + b")"
    if not re.fullmatch(TEXTS[command][run.returncode].replace(b"FILE", file), run.stdout):
        return f"another text with status {run.returncode}"
    return None


def case_of(run):
    """The status, and the word by which runs are counted."""
    words = run.stdout.split(b"\n")[0].split()
    if run.returncode == 5:
        words = words[:1] + [word for word in words if re.fullmatch(KIND, word) and len(word) > 3][:1]
    return run.returncode, b" ".join(words[:2] if run.returncode == 5 else words[:1]).decode(errors="replace")


class Tries:
    """Damaged runs of one call."""

    def __init__(self, program, words, seconds, folder):
        self.program, self.command, self.seconds, self.folder = program, words[0], seconds, pathlib.Path(folder)
        self.words, self.texts = [], {}
        for word in words[1:]:
            path = pathlib.Path(word)
            if path.is_file():
                name = f"{len(self.texts)}{path.suffix}"
                self.texts[name] = path.read_bytes()
                (self.folder / name).write_bytes(self.texts[name])
                word = name
            self.words.append(word)
        self.seen = collections.Counter()
        self.longest = 0.0

    def answer(self, words):
        """One run with these words behind the command."""
        begun = time.monotonic()
        run = subprocess.run(
            [self.program, self.command, *words],
            cwd=self.folder,
            capture_output=True,
            stdin=subprocess.DEVNULL,
            timeout=self.seconds,
            check=False,
        )
        self.longest = max(self.longest, time.monotonic() - begun)
        return run

    def is_missing(self):
        """Whether the undamaged call is refused for its words."""
        return self.answer(self.words).returncode == 2

    def one(self, chance):
        """One damaged run, and what is wrong with it."""
        words, name = list(self.words), None
        if self.texts:
            name = chance.choice(list(self.texts))
            text = often_damaged(self.texts[name], list(self.texts.values()), chance)
            (self.folder / name).write_bytes(text)
        else:
            place = chance.randrange(len(words))
            damage = often_damaged(words[place].encode(), [b"60\n"], chance).replace(b"\x00", b"")
            words[place] = damage.decode(errors="ignore") if chance.randrange(3) else str(chance.randrange(1, 70))
        try:
            run = self.answer(words)
            self.seen[case_of(run)] += 1
            wrong = complaint(self.command, self.texts, run)
        except subprocess.TimeoutExpired:
            wrong = f"still running after {self.seconds} seconds"
        if wrong:
            return f"{wrong}: {self.command} {' '.join(words)}"
        if name:
            (self.folder / name).write_bytes(self.texts[name])
        return None

    def keep(self):
        """Keeps the files of the last run."""
        kept = pathlib.Path("damaged")
        kept.mkdir(exist_ok=True)
        for name in self.texts:
            (kept / name).write_bytes((self.folder / name).read_bytes())
        return kept

    def tell(self, count):
        """Prints how often each answer came."""
        print(f"{self.command}: {count} runs, the longest {self.longest:.3f} seconds")
        for (status, word), times in sorted(self.seen.items(), key=lambda item: -item[1]):
            print(f"  {times} ended with {status}, {word}", flush=True)


def try_call(given, words):
    """Runs a call often; the exit text where a run is wrong."""
    with tempfile.TemporaryDirectory() as folder:
        tries = Tries(given.program, words, given.seconds, folder)
        if tries.is_missing():
            if given.skip_missing:
                print(f"{words[0]}: isn't there yet")
                return None
            return f"{words[0]} refuses the words of its undamaged call"
        chance = random.Random(" ".join(words[:1]))
        for number in range(given.count):
            wrong = tries.one(chance)
            if wrong:
                return f"run {number}: {wrong}; its files are in {tries.keep()}"
        tries.tell(given.count)
    return None


def main():
    reader = argparse.ArgumentParser(usage=__doc__.split("\n\n")[1].removeprefix("Usage: "))
    reader.add_argument("--skip-missing", action="store_true")
    reader.add_argument("--seconds", type=float, default=10)
    reader.add_argument("program", type=lambda name: str(pathlib.Path(name).resolve()))
    reader.add_argument("count", type=int)
    reader.add_argument("words", nargs=argparse.REMAINDER)
    given = reader.parse_args()
    calls = [given.words] if given.words else calls_of_examples()
    for words in calls:
        wrong = try_call(given, words)
        if wrong:
            sys.exit(wrong)


if __name__ == "__main__":
    main()
