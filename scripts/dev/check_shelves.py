#!/usr/bin/env python3
"""The two shelves of each crate's specifications: `specs/` holds what is promised to callers, `specs/steps/` the rest.

Run it at the top of the repository:

  scripts/dev/check_shelves.py [CRATE..]

A definition stands on the first shelf where a clause of a public call cites it, the model of a public type, a public
trait, or another crate, or where such a definition cites it. All others are steps: private clauses and proofs alone cite
them. A crate on which no other stands, as one of tests, has no shelves. It reports

  steps alone      files of `specs/` that hold only steps
  not a step       definitions below `specs/steps/` that stand on the first shelf
  mixed            (with --mixed) steps in files of `specs/` that hold other definitions too
  unnamed          definitions that the clauses of `run` stand on and that `docs/definitions.md` doesn't name; with
                   --index as rows of a table for that page

and ends with 1 where it reports any of the first two or of the last kind, else with 0. Who cites a definition is read
from `use` lines and from the words of clauses, so a variable that bears the name of a definition of the same file counts
as a citation.
"""
import argparse
import os
import re
import sys
from collections import defaultdict, namedtuple

Definition = namedtuple("Definition", "crate module name")

DEFINED = re.compile(
    r"^(?:(?:abbrev|unfoldable|opaque|mutual|pattern|pub)\s+)*"
    r"(?:(?:record|data)\s+(?P<type>[^\s(){}:;,]+)|(?!use\b|mod\b|infix|record\b|data\b|where\b)(?P<value>[^\s(){}:;,]+)(?:\s+\{[^}]*\})?\s*:(?=\s|$))"
)
USE = re.compile(r"(?m)\buse\s+Rattle\.(\w+)\.specs\.([\w.]*?)(?:\.\{([^}]*)\}|\s+as\s+(\w+))?\s*;?\s*$")
WORD = re.compile(r"[^\s(){}\[\],;:.|]+")


def read(path):
    with open(path, encoding="utf-8") as file:
        return file.read()


def files_below(folder, ending):
    for place, below, names in os.walk(folder):
        below.sort()
        for name in sorted(names):
            if name.endswith(ending):
                yield os.path.join(place, name)


def closing(text, opening):
    """The place after the brace that closes the one at this place."""
    depth = 0
    for found in re.compile(r"[{}]").finditer(text, opening):
        depth += 1 if found.group() == "{" else -1
        if depth == 0:
            return found.end()
    return len(text)


# Specifications


def without_comments(text):
    return "\n".join("" if line.lstrip().startswith("--") else line for line in text.split("\n"))


def pieces(text):
    """Each definition of a file with its text; lines without an indent that define nothing belong to the one before."""
    found, name = {}, None
    for line in without_comments(text).split("\n"):
        if line[:1].strip():
            match = DEFINED.match(line)
            if match and (match["type"] or match["value"]):
                name = match["type"] or match["value"]
            elif line.startswith(("use ", "pub use ", "pub mod ", "mod ", "infix")):
                name = None
        if name:
            found[name] = found.get(name, "") + line + "\n"
    return found


def constructors(text):
    """The constructors of a data type, by its text."""
    if not re.match(r"(?:pub\s+)?data\b", text):
        return set()
    return set(re.findall(r"(?m)^\s+(?:pub\s+)?([^\s(){}:;,]+)\s+:", text))


def bound(text):
    """The variables that a definition binds: in brackets with their types, behind a `λ` or a `let`, as patterns."""
    names = set()
    for group in re.findall(r"\(([^():]+) :", text) + re.findall(r"λ ([^.(]*)\.", text) + re.findall(r"\blet (\S+)", text):
        names.update(group.split())
    return names


class Specifications:
    """All definitions of the repository, and what each cites."""

    def __init__(self, crates):
        self.paths, self.texts, self.owner, self.passed_on = {}, {}, {}, {}  # by crate and module, and name
        self.cites = defaultdict(set)
        for crate in crates:
            folder = f"crates/{crate}/specs"
            for path in files_below(folder, ".antt"):
                module = os.path.relpath(path, folder)[: -len(".antt")].replace("/", ".")
                text = read(path)
                self.paths[crate, module] = path
                for used, name in re.findall(r"(?m)^pub use Rattle\.(\w+)\.specs\.([\w.]+)$", text):
                    self.passed_on[crate, name] = used
                for name, piece in pieces(text).items():
                    definition = Definition(crate, module, name)
                    self.texts[definition] = piece
                    self.owner[crate, module, name] = definition
                    for one in constructors(piece):
                        self.owner.setdefault((crate, module, one), definition)
        for _ in range(3):
            self.hand_on_names()
        for (crate, module), path in self.paths.items():
            known, aliases = self.imports(read(path))
            for definition in self.of_file(crate, module):
                piece = self.texts[definition]
                self.cites[definition] = self.cited(piece, known, aliases)
                free = set(WORD.findall(piece)) - bound(piece)
                for word in free:
                    other = self.owner.get((crate, module, word))
                    if other and other != definition:
                        self.cites[definition].add(other)

    def hand_on_names(self):
        """Notes the definitions that a file hands on from another one."""
        for (crate, module), path in self.paths.items():
            for used, place, names in re.findall(r"(?m)^pub use Rattle\.(\w+)\.specs\.([\w.]*?)\.\{([^}]*)\}", read(path)):
                for entry in names.split(","):
                    words = entry.strip().split(" as ")
                    found = self.find(used, place, words[0].strip())
                    if found:
                        self.owner.setdefault((crate, module, words[-1].strip()), found)

    def of_file(self, crate, module):
        return [definition for definition in self.texts if definition[:2] == (crate, module)]

    def find(self, crate, module, name):
        crate = self.passed_on.get((crate, module), crate)
        return self.owner.get((crate, module, name))

    def imports(self, text):
        """The names that a file may use: by themselves, and behind the name of a module."""
        known, aliases = {}, {}
        for crate, module, names, alias in USE.findall(text):
            if names:
                for entry in names.split(","):
                    words = entry.split(" as ")
                    found = self.find(crate, module, words[0].strip())
                    if found:
                        known[words[-1].strip()] = found
            else:
                aliases[alias or module.split(".")[-1]] = (crate, module)
        return known, aliases

    def cited(self, text, known, aliases):
        found = {known[word] for word in WORD.findall(text) if word in known}
        for alias, (crate, module) in aliases.items():
            for name in re.findall(rf"(?<![\w.]){re.escape(alias)}\.([^\s(){{}},;]+)", text):
                definition = self.find(crate, module, name)
                if definition:
                    found.add(definition)
        return found

    def closure(self, roots):
        reached, left = set(), list(roots)
        while left:
            one = left.pop()
            if one not in reached:
                reached.add(one)
                left += self.cites[one]
        return reached


# Code


def blanked(text):
    """The text with comments and the insides of strings turned to spaces."""
    token = re.compile(r"""//[^\n]*|/\*.*?\*/|b?r(\#*)".*?"\1|b?"(?:\\.|[^"\\])*"|b?'(?:\\(?:x..|u\{[^}]*\}|.)|[^\\'\n])'""", re.DOTALL)
    return token.sub(lambda found: re.sub(r"[^\n]", " ", found.group()), text)


def clauses_from(text, start):
    """The clauses of the function whose name ends at this place."""
    found, at = [], start
    stop = re.compile(r"\b(?:requires|ensures)\b\*?[^{};]*\{|[{;]")
    while True:
        match = stop.search(text, at)
        if not match or match.group() in "{;":
            return "\n".join(found)
        end = closing(text, match.end() - 1)
        found.append(text[match.end():end])
        at = end


def public_names(crate):
    """What `lib.rt` hands on by name, and its public modules."""
    root = f"crates/{crate}/src/lib.rt"
    text = blanked(read(root)) if os.path.isfile(root) else ""
    names = set()
    for used in re.findall(r"\bpub use ([^;]*);", text):
        names.update(re.findall(r"\w+", used))
    return names, set(re.findall(r"\bpub mod (\w+)", text))


def public_text(path, names, is_open):
    """What a file says to callers: clauses of public calls, models of public types, public traits and their values."""
    text = blanked(read(path))
    said, blocks = [], []
    for match in re.finditer(r"(?m)^\s*(pub(?:\([^)]*\))? )?(trait|impl)\b([^{};]*)\{", text):
        end = closing(text, match.end() - 1)
        head = match.group(3).split(" where ")[0]
        of = re.sub(r"<[^<>]*>", "", re.sub(r"<[^<>]*>", "", head.split(" for ")[-1]))
        owner = (re.findall(r"\w+", of) or [""])[0 if match.group(2) == "trait" or " for " in head or "::" not in of else -1]
        seen = owner in names or is_open
        blocks.append((match.start(), end, seen, match.group(2) == "trait" or " for " in head))
        if seen and (match.group(2) == "trait" or " for " in head):
            said.append(text[match.end():end])
    for match in re.finditer(r"(pub(?:\([^)]*\))? )?(?:const |unsafe )*fn (\w+)", text):
        inside = [block for block in blocks if block[0] < match.start() < block[1]]
        seen = inside[-1][2] if inside else match.group(2) in names or is_open
        if match.group(1) == "pub " and seen:
            said.append(clauses_from(text, match.end()))
    return "\n".join(said)


def spoken(specifications, crate):
    """The definitions that the public calls of a crate cite."""
    names, open_modules = public_names(crate)
    found = set()
    for path in files_below(f"crates/{crate}/src", ".rt"):
        module = os.path.basename(path)[: -len(".rt")]
        known, aliases = specifications.imports(read(path))
        found |= specifications.cited(public_text(path, names, module in open_modules), known, aliases)
    return found


def cited_elsewhere(specifications, crates):
    """The definitions that a file of another crate imports."""
    found = set()
    for crate in crates:
        for ending in (".antt", ".rt"):
            for path in files_below(f"crates/{crate}", ending):
                if "/out/" in path:
                    continue
                text = read(path)
                known, aliases = specifications.imports(text)
                used = set(known.values()) | (specifications.cited(text, {}, aliases) if aliases else set())
                found |= {definition for definition in used if definition.crate != crate}
    return found


def claimed(specifications):
    """The definitions that the clauses of `run` stand on."""
    path = "crates/migrate_cli/src/run_call.rt"
    text = read(path)
    known, aliases = specifications.imports(text)
    match = re.search(r"\bpub fn run\b", text)
    return specifications.closure(specifications.cited(clauses_from(blanked(text), match.end()), known, aliases))


def is_step_file(module):
    return module.startswith("steps.")


def main():
    parser = argparse.ArgumentParser(description=__doc__, formatter_class=argparse.RawDescriptionHelpFormatter)
    parser.add_argument("--mixed", action="store_true")
    parser.add_argument("--index", action="store_true")
    parser.add_argument("crates", nargs="*")
    options = parser.parse_args()
    lines = [line for line in read("crates.txt").splitlines() if ":" in line and not line.startswith("#")]
    crates = [line.split(":")[0].split()[0] for line in lines]
    specifications = Specifications(crates)
    below = {used for line in lines for used in line.split(":")[1].split()}
    roots = cited_elsewhere(specifications, crates)
    for crate in crates:
        roots |= spoken(specifications, crate)
    first = specifications.closure(roots)
    reported = False
    for crate, module in sorted(specifications.paths):
        if options.crates and crate not in options.crates:
            continue
        held = specifications.of_file(crate, module)
        steps = [definition.name for definition in held if definition not in first]
        if crate not in below:
            continue
        if held and not is_step_file(module) and len(steps) == len(held):
            print(f"steps alone: {specifications.paths[crate, module]}")
            reported = True
        elif not is_step_file(module) and steps and options.mixed:
            print(f"mixed: {specifications.paths[crate, module]}: {', '.join(steps)}")
        elif is_step_file(module) and len(steps) < len(held):
            others = [definition.name for definition in held if definition in first]
            print(f"not a step: {specifications.paths[crate, module]}: {', '.join(others)}")
            reported = True
    named = set(re.findall(r"\w+", read("docs/definitions.md")))
    unnamed = defaultdict(list)
    for definition in sorted(claimed(specifications)):
        if definition.name not in named and (not options.crates or definition.crate in options.crates):
            unnamed[definition.crate, definition.module].append(definition.name)
    for (crate, module), names in unnamed.items():
        if options.index:
            print(f"| `{crate}/specs/{module}` | {', '.join(f'`{name}`' for name in names)} |")
        else:
            print(f"unnamed: {specifications.paths[crate, module]}: {', '.join(names)}")
        reported = True
    sys.exit(1 if reported else 0)


if __name__ == "__main__":
    main()
