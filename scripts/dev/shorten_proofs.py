#!/usr/bin/env python3
"""Tries `grind` in place of each proof of some lines in one crate, and keeps what the prover takes.

    scripts/dev/shorten_proofs.py CRATE [--least N] [--rounds N]

CRATE is a crate that is proved, by its name. Each proof of N lines or more (3 unless said) becomes one line, `grind` with
the lemmas that it cites, a proof by cases in several equations too; `rt check --allow-holes` tells which of them don't stand,
these get their old lines back, and so on until all stand. A proof by `where` or by itself is left alone. Statements stay as
they are, so nothing above the crate changes. Afterwards drop the imports that nothing uses (`rt check --fix-imports`), lay out
(`rt fmt`), check, and try the crate's edits (`rt must-fail`): a proof that follows the code less closely may let one through
that no clause refuses.
"""
import argparse
import os
import pathlib
import re
import subprocess
from typing import NamedTuple

IMPORT = re.compile(r"^(?:pub )?use (Rattle\.[\w.]+)\.\{([^}]*)\}", re.M)
# Proofs stand at a line's beginning, in a module behind two blanks.
EQUATION = re.compile(r"^(?:  )?([^\s(){}:=,]+)((?: [^=:]*)?) =(\s|$)")
SIGNED = re.compile(r"^(?:  )?(?:pub )?([^\s(){}:=,]+) :", re.M)
# What gives a value and proves nothing.
VALUE = re.compile(r"(?:.*→ )?(?:List|Option|Result|ℕ|Bool|Type)\b[^≡<≤×]*$")
VARIABLE = re.compile(r"[a-z][\w-]*")
# Constructors that look like variables.
CLOSED = {"true", "false", "zero", "refl", "tt"}
WORD = re.compile(r"[^\s(){}\[\],;.]+")
ERROR = re.compile(r"^(?:\./)?(proofs/\S+?\.antt):(\d+):\d+: error: (.*)$", re.M)
GRIND = "use Rattle.std.proofs.lemmas.Grind.{common_steps}\n"
ARITH = "use Rattle.std.proofs.Common.{arith}\n"
WIDTH = 128


class Proof(NamedTuple):
    """A proof: its name, its lines from the first up to the one behind the last, its head, and the lemmas that it cites."""

    name: str
    first: int
    end: int
    head: str
    cited: list


def lemmas_of(text):
    """The names that a file imports from proofs, but for those that every file has."""
    found = set()
    for module, names in IMPORT.findall(text):
        if ".proofs" in module and not module.endswith((".Common", "Goals", "Grind")):
            found |= {name.strip().split(" as ")[-1] for name in names.split(",")}
    return found


def left_side(line, name):
    """The arguments of an equation, as they stand between its name and its `=`."""
    said, found, depth = line[line.index(name) + len(name) : line.index(" =")].strip(), [""], 0
    for sign in said:
        depth += (sign in "({") - (sign in ")}")
        if sign == " " and not depth:
            found.append("")
        else:
            found[-1] += sign
    return [it for it in found if it]


def whole_head(name, sides, signature):
    """One equation's head in the place of several: an argument by a variable of one of them, else by its name in the type."""
    named = [it for group in re.findall(r"\(([^():]+) :", signature.split(" :", 1)[1]) for it in group.split()]
    arguments = []
    for place in range(len(sides[0])):
        plain = [side[place] for side in sides if VARIABLE.fullmatch(side[place]) and side[place] not in CLOSED]
        arguments.append((plain or named[place : place + 1] or [f"it_{place}"])[0])
    return " ".join([name, *arguments, "="]) if len(set(arguments)) == len(arguments) else None


def proofs_of(text, least):
    """The proofs of a file that can be tried. Several equations that follow each other are one proof by cases."""
    lines, equations, place, in_module = text.split("\n"), {}, 0, False
    while place < len(lines):
        begun, first = EQUATION.match(lines[place]), place
        place += 1
        depth = "  " * lines[first].startswith("  ")
        in_module = in_module if depth or not lines[first] else lines[first].startswith("module ")
        if begun and (in_module or not depth) and not lines[first].strip().startswith(("use ", "--", "abbrev", "pub ")):
            while place < len(lines) and lines[place].startswith(tuple(depth + it for it in (" ", ")", "]", "}"))):
                place += 1
            equations.setdefault(begun[1], []).append((first, place))
    lemmas, own = lemmas_of(text), set(SIGNED.findall(text))
    signatures = {found[1]: line for line in lines for found in [SIGNED.match(line)] if found}
    for name, spans in equations.items():
        first, end = spans[0][0], spans[-1][1]
        texts = ["\n".join(lines[begun:ended]).split("=", 1)[1] for begun, ended in spans]
        words = {word for said in texts for word in WORD.findall(said)}
        is_whole = end - first == sum(ended - begun for begun, ended in spans)
        if not is_whole or end - first < least or words & {name, "where", "grind"}:
            continue
        if name not in signatures or VALUE.fullmatch(signatures[name].split(" :", 1)[1]):
            continue
        head = lines[first][: lines[first].index(" =") + 2]
        if len(spans) > 1:
            sides = [left_side(lines[begun], name) for begun, _ in spans]
            if len({len(it) for it in sides}) > 1:
                continue
            head = whole_head(name, sides, signatures[name])
            head = head and "  " * lines[first].startswith("  ") + head
        known = {it for it in words if it in lemmas and (it[0].islower() or "-" in it) or it in own and it[0].islower()}
        if head:
            yield Proof(name, first, end, head, sorted(known))


def shortened(text, proofs):
    """A file with one line in the place of each of these proofs, and with what that line needs."""
    lines = text.split("\n")
    for proof in sorted(proofs, key=lambda it: -it.first):
        call = f"grind ({', '.join(['arith', 'common_steps'] + proof.cited)})"
        short = len(proof.head) + len(call) < WIDTH
        lines[proof.first : proof.end] = [f"{proof.head} {call}"] if short else [proof.head, f"      {call}"]
    text = "\n".join(lines)
    for line, there in ((GRIND, r"Grind\.\{[^}]*common_steps"), (ARITH, r"(?s)\A(?:(?!\n\n).)*\barith\b")):
        if not re.search(there, text):
            text = text.replace("use ", line + "use ", 1)
    return text


def refused(said, tried):
    """Those of the tried proofs, by file and name, that the prover refuses, or that a refused one which wasn't tried names."""
    found, names = set(), {}
    for key in tried:
        names.setdefault(key[1], set()).add(key)
    for file, line, message in ERROR.findall(said):
        if "was not admitted" in message or "which was rejected" in message:
            continue
        lines, place = pathlib.Path(file).read_text(encoding="utf-8").split("\n"), int(line) - 1
        first, end = place, place
        while first > 0 and not EQUATION.match(lines[first]):
            first -= 1
        begun, named = EQUATION.match(lines[first]), re.match(r"`([^`]+)`", message)
        mine = {(file, it[1]) for it in (begun, named) if it} & tried
        if not mine:
            while place > 0 and lines[place - 1]:
                place -= 1
            while end < len(lines) and lines[end]:
                end += 1
            mine = {key for word in WORD.findall("\n".join(lines[place:end])) for key in names.get(word, ())}
        found |= mine
    return found


def main():
    parser = argparse.ArgumentParser(description=__doc__, formatter_class=argparse.RawDescriptionHelpFormatter)
    parser.add_argument("crate")
    parser.add_argument("--least", type=int, default=3)
    parser.add_argument("--rounds", type=int, default=4)
    asked = parser.parse_args()
    os.chdir(pathlib.Path(__file__).resolve().parents[2] / "crates" / asked.crate)
    files = [it for it in sorted(pathlib.Path("proofs").rglob("*.antt")) if it.name not in ("Lib.antt", "Invariants.antt")]
    texts = {str(it): it.read_text(encoding="utf-8") for it in files}
    proofs = {(file, it.name): it for file, text in texts.items() for it in proofs_of(text, asked.least)}
    tried = set(proofs)
    for number in range(asked.rounds + 1):
        for file, text in texts.items():
            mine = [proofs[key] for key in tried if key[0] == file]
            pathlib.Path(file).write_text(shortened(text, mine) if mine else text, encoding="utf-8")
        if number == asked.rounds or not tried:
            break
        said = subprocess.run(["rt", "check", "--allow-holes"], capture_output=True, text=True, check=False)
        bad = refused(said.stdout + said.stderr, tried)
        print(f"round {number + 1}: {len(tried)} tried, {len(bad)} refused", flush=True)
        if not bad:
            break
        tried -= bad
    print(f"{sum(proofs[key].end - proofs[key].first - 1 for key in tried)} lines less by {len(tried)} proofs")


main()
