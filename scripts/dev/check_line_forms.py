#!/usr/bin/env python3
"""Compares the table of line forms in docs/operators.md with the forms that the reader knows.

Usage: scripts/dev/check_line_forms.py [--tries PROGRAM] [--list]

The forms are taken from the definitions of lines (crates/ios_lines/specs): each way through `head_of`, `interface_line`,
`ospf_line` and `isis_line` that ends in a line of its own is a form, with the words that decide it, the words that its
value may have and the kinds of its faults. The table has to hold each form in one row and no form twice, has to name its
words in this row, and a row has to name each kind of fault that one of its forms has by itself.

With `--tries` the built program is called: on each row of line_tries.txt beside this script, a line put at its place and
the answer of `plan`, and then on whole files, with the texts that the page quotes (page_calls.py). Each form has to be
tried, each kind that a row names has to be met by a try of this row, each text with its code under "What you meet first"
by a call, and each answer has to be the one that stands there. `--list` prints the forms.

Nothing is printed where all is well, else a line for each thing that isn't, and the status is 1. PROGRAM is
crates/migrate/out/migrate once it is built. It isn't part of the gate.
"""

import argparse
import itertools
import pathlib
import re
import subprocess
import sys
import tempfile

from page_calls import CALLS, write_files

TOP = pathlib.Path(__file__).resolve().parent.parent.parent
SPECS = TOP / "crates" / "ios_lines" / "specs"
PAGE = TOP / "docs" / "operators.md"
TRIES = pathlib.Path(__file__).resolve().parent / "line_tries.txt"

# The places of lines: what the table calls them, the definition that says what a line says, and its file.
PLACES = {
    "At indent 0": ("head_of", "Heads.antt"),
    "Under `interface`": ("interface_line", "InterfaceLines.antt"),
    "Under `router ospf`": ("ospf_line", "OspfLines.antt"),
    "Under `router isis`": ("isis_line", "IsisLines.antt"),
}
# Lines that have a meaning at any place; they are no lines of a section.
ANYWHERE = "Anywhere"
LINE_TYPES = {"Head", "InterfaceLine", "OspfLine", "IsisLine"}
# What stands for a word of a form that isn't written out.
SAMPLES = {"A": "10.0.0.1", "M": "255.255.255.252", "W": "0.0.0.255", "NAME": "Loopback0", "TAG": "core", "X": "x",
           "N": "7", "P": "1", "C": "5", "K": "k", "L": "l", "..": "x"}

wrong = []


# ---- the definitions ----

TOKEN = re.compile(r'"([^"]*)"|\(|\)|\{|\}|&&|\|\||[^\s(){}"]+')


def tokens_of(text):
    return [("text", m.group(1)) if m.group(1) is not None else m.group(0) for m in TOKEN.finditer(text)]


class Expression:
    """Reads an expression of a definition: conditions, applications and words."""

    def __init__(self, text):
        self.tokens = tokens_of(text)
        self.at = 0

    def peek(self):
        return self.tokens[self.at] if self.at < len(self.tokens) else None

    def take(self, wanted=None):
        token = self.peek()
        if wanted is not None and token != wanted:
            raise ValueError(f"{wanted} was wanted, and not {token}")
        self.at += 1
        return token

    def whole(self):
        if self.peek() == "if":
            self.take()
            condition = self.either()
            self.take("then")
            yes = self.whole()
            self.take("else")
            return ("if", condition, yes, self.whole())
        return self.either()

    def either(self):
        parts = [self.both()]
        while self.peek() == "||":
            self.take()
            parts.append(self.both())
        return ("or", parts) if len(parts) > 1 else parts[0]

    def both(self):
        parts = [self.applied()]
        while self.peek() == "&&":
            self.take()
            parts.append(self.applied())
        return ("and", parts) if len(parts) > 1 else parts[0]

    def applied(self):
        parts = []
        while self.peek() not in (None, ")", "}", "&&", "||", "then", "else"):
            parts.append(self.atom())
        return ("call", parts) if len(parts) > 1 else parts[0]

    def atom(self):
        token = self.take()
        if token in ("(", "{"):
            inside = self.whole() if token == "(" else self.applied()
            self.take(")" if token == "(" else "}")
            return inside
        return token


class Definitions:
    """The definitions of a file and of Words.antt: result types, clauses of one argument list, and the text of each."""

    def __init__(self, file):
        self.result = {}
        self.clauses = {}
        for name in ("Words.antt", "InterfaceLines.antt", file):
            text = re.sub(r"--.*", "", (SPECS / name).read_text())
            for match in re.finditer(r"^(?:abbrev|unfoldable) pub (\S+) : (.*)\n((?:\S.*=.*\n(?:    .*\n)*)+)", text, re.M):
                self.result[match.group(1)] = match.group(2).split("→")[-1].strip()
                self.clauses[match.group(1)] = match.group(3)

    def clause(self, name):
        """The names of the arguments, and the body, of a definition with one clause."""
        front, body = self.clauses[name].split("=", 1)
        return front.split()[1:], Expression(body).whole()

    def closure(self, text, seen):
        """The texts of all definitions that a text names, itself first."""
        found = [text]
        for name in re.findall(r"[A-Za-z_][A-Za-z0-9_]*", text):
            if name in self.clauses and name not in seen and self.result[name] not in LINE_TYPES:
                seen.add(name)
                found += self.closure(self.clauses[name], seen)
        return found


def put(expression, names):
    """An expression with the values of its arguments in their places."""
    if isinstance(expression, str):
        return names.get(expression, expression)
    if expression[0] == "text":
        return expression
    if expression[0] == "if":
        return ("if",) + tuple(put(part, names) for part in expression[1:])
    return (expression[0], [put(part, names) for part in expression[1]])


def name_of(expression):
    return expression[1][0] if isinstance(expression, tuple) and expression[0] == "call" else expression


def ways(condition, definitions):
    """The ways in which a condition holds: lists of tests, one of which has to hold whole."""
    if isinstance(condition, tuple) and condition[0] == "or":
        return [way for part in condition[1] for way in ways(part, definitions)]
    if isinstance(condition, tuple) and condition[0] == "and":
        return [sum(each, []) for each in itertools.product(*(ways(part, definitions) for part in condition[1]))]
    name = name_of(condition)
    if name.startswith("is_unsupported") or name == "is_leak":
        arguments, body = definitions.clause(name)
        return ways(put(body, dict(zip(arguments, condition[1][1:]))), definitions)
    return [[condition]]


def word_at(expression, words):
    """The word that an expression names: of the line, or written out."""
    name, rest = expression[1][0], expression[1][1:]
    if name == "codes":
        return rest[0][1]
    place = int(rest[1])
    return words[place] if place < len(words) else ""


def holds(test, words):
    name, rest = test[1][0], test[1][1:]
    if name == "not":
        return not holds(rest[0], words)
    if name == "says":
        return word_at(("call", ["word_at", *rest[:2]]), words) == word_at(rest[2], words)
    if name in ("begins_with_two", "begins_with_three"):
        return words[: len(rest) - 1] == [word_at(each, words) for each in rest[1:]]
    if name == "lacks":
        return len(words) <= int(rest[1])
    if name == "bytes_eq":
        return word_at(rest[0], words) == word_at(rest[1], words)
    if name == "is_ascii_digit":
        return word_at(rest[0][1][1], words)[:1].isdigit()
    raise ValueError(f"a test that this script doesn't know: {name}")


class Form:
    """A way through the definition of a line: tests that hold together or don't, and the line that comes of it."""

    def __init__(self, looked_at, line, definitions, entry):
        self.looked_at = looked_at
        self.line = name_of(line)
        self.rows = []
        self.tried = False
        fault_of_line = definitions.clauses.get(f"{entry}_fault", "")
        faults = re.findall(rf"^\S*_line_fault \({self.line}\b[^)]*\) = (.*)$", fault_of_line, re.M)
        texts = definitions.closure(f"{line} {' '.join(faults)}", set())
        self.kinds = {kind for text in texts for kind in re.findall(r"[A-Z]\w+", text)} & KINDS
        self.words = {word for text in texts for word in re.findall(r'codes "([a-z][^"]*)"', text)}

    def __str__(self):
        tests = [test for way, held in self.looked_at if held for test in way if test[1][0] != "not"]
        said = [word for test in tests for word in re.findall(r"'text', '([^']*)'", str(test))]
        return f"{' '.join(said)} ({self.line})"

    def takes(self, words):
        return all(all(holds(test, words) for test in way) == held for way, held in self.looked_at)


def forms_of(expression, definitions, entry, looked_at=()):
    """All ways through an expression, in the order in which it looks at them."""
    if isinstance(expression, tuple) and expression[0] == "if":
        _, condition, yes, no = expression
        for way in ways(condition, definitions):
            yield from forms_of(yes, definitions, entry, looked_at + ((way, True),))
            looked_at += ((way, False),)
        yield from forms_of(no, definitions, entry, looked_at)
        return
    name = name_of(expression)
    if definitions.result.get(name) in LINE_TYPES:
        arguments, body = definitions.clause(name)
        yield from forms_of(put(body, dict(zip(arguments, expression[1][1:]))), definitions, entry, looked_at)
    else:
        yield Form(looked_at, expression, definitions, entry)


KINDS = set(re.findall(r"^    (\w+) = \d+,$", (TOP / "crates" / "ios_lines" / "src" / "kind.rt").read_text(), re.M))


def reader_forms():
    forms = {}
    for place, (entry, file) in PLACES.items():
        definitions = Definitions(file)
        forms[place] = list(forms_of(definitions.clause(entry)[1], definitions, entry))
    return forms


def all_forms(forms):
    return [(place, form) for place in forms for form in forms[place]]


def form_of(forms, place, words):
    taking = [form for form in forms[place] if form.takes(words)]
    if len(taking) != 1:
        raise ValueError(f"{len(taking)} forms take {words}")
    return taking[0]


# ---- the table ----


class Row:
    def __init__(self, place, cells):
        self.place = place
        self.title = cells[0]
        self.forms = re.findall(r"`([^`]+)`", cells[0])
        said = re.findall(r"`([^`]+)`", " ".join(cells))
        self.words = {word for each in said for word in each.replace("[", " ").replace("]", " ").split()}
        self.kinds = self.words & KINDS
        self.met = set()
        self.tried = False


def table_rows():
    rows, place = [], None
    for line in PAGE.read_text().splitlines():
        cells = [cell.strip() for cell in line.strip("|").split(" | ")]
        label = re.fullmatch(r"\*\*(.*)\*\*", cells[0])
        if not line.startswith("|"):
            place = None
        elif label and label.group(1) in (*PLACES, ANYWHERE):
            place = label.group(1)
        elif place:
            rows.append(Row(place, cells))
    return rows


def written_out(form):
    """The lines that a form of the table stands for: with each part in brackets and without it."""
    part = re.search(r" \[([^\]]*)\]", form)
    if not part:
        return [[SAMPLES.get(word, word) for word in form.split()]]
    return [line for each in ("", " " + part.group(1)) for line in written_out(form[: part.start()] + each + form[part.end():])]


def check_table(forms, rows):
    seen = set()
    for row in rows:
        for text in row.forms:
            if (row.place, text) in seen:
                wrong.append(f"{row.place}: `{text}` stands twice")
            seen.add((row.place, text))
            if row.place == ANYWHERE:
                continue
            for words in written_out(text):
                form = form_of(forms, row.place, words)
                if row not in form.rows:
                    form.rows.append(row)
    for place, form in all_forms(forms):
        if len(form.rows) != 1:
            wrong.append(f"{place}: {form} stands in {len(form.rows)} rows")
        for row in form.rows:
            unsaid = sorted(form.words - row.words) + sorted(form.kinds - row.kinds)
            wrong.extend(f"{place}: the row of {form} doesn't name {each}" for each in unsaid)
    missing = {"banner", "end"} - {text.split()[0] for place, text in seen if place == ANYWHERE}
    wrong.extend(f"{ANYWHERE}: {word} stands in no row" for word in sorted(missing))


# ---- tries ----

# Two routers with both protocols; a try changes the first one.
BASE = """hostname R1
interface Loopback0
 ip address 10.0.0.1 255.255.255.255
 ip router isis
interface GigabitEthernet0/0
 ip address 10.0.12.1 255.255.255.252
 ip router isis
router ospf 1
 network 10.0.0.0 0.0.255.255 area 0
router isis
 net 49.0001.0000.0000.0001.00
 metric-style wide
 distance 255
end
"""
SECOND = BASE.replace("R1", "R2").replace("0.0.1 ", "0.0.2 ").replace("12.1 ", "12.2 ").replace("0001.00\n", "0002.00\n")
SAME = "order 2\nwave R1 R2\nchain R1\n"

# The places of tries: the first line of the section, and the place of the table.
TRY_PLACES = {
    "lo": ("interface Loopback0", "Under `interface`"),
    "gi": ("interface GigabitEthernet0/0", "Under `interface`"),
    "ospf": ("router ospf 1", "Under `router ospf`"),
    "isis": ("router isis", "Under `router isis`"),
    "top": ("end", "At indent 0"),
    "behind": (None, None),
}


def place_in(lines, place):
    """Where the lines of a try are put: at the end of the section, before the first `end`, or behind all."""
    if place == "behind":
        return len(lines)
    head = lines.index(TRY_PLACES[place][0])
    if place == "top":
        return head
    return next(at for at in range(head + 1, len(lines)) if not lines[at].startswith(" "))


def changed(place, changes):
    """The lines of the file of a try, the lines that were put into it, and the number of the last of them."""
    lines = (BASE + SECOND).splitlines()
    for change in (each for each in changes if each.startswith("-")):
        start = lines.index(TRY_PLACES[place][0]) if place in ("lo", "gi") and f" {change[1:]}" in lines else 0
        del lines[next(at for at in range(start, len(lines)) if lines[at].strip() == change[1:])]
    added = [each for each in changes if not each.startswith("-")]
    blank = "" if place in ("top", "behind") else " "
    at = place_in(lines, place)
    lines[at:at] = [blank + each for each in added]
    return lines, added, at + len(added)


def wanted_answer(answer, lines, last):
    """The status and the text that an answer of line_tries.txt stands for."""
    kind, _, where = answer.partition(" at ")
    if answer == "same":
        return 0, SAME
    if kind in KINDS:
        number = len(lines) + 1 if kind == "NoEnd" else last
        if where:
            number = 1 + next(at for at, line in enumerate(lines) if line.strip() == where)
        return 5, f"refused net.cfg {number} {kind}\n"
    status = 5 if answer.startswith("refused") else 7 if answer.startswith("unsound") else 0
    return status, answer.replace(" / ", "\n") + "\n"


def call(program, folder, words):
    run = subprocess.run([program, *words], cwd=folder, capture_output=True, timeout=60, check=False)
    return run.returncode, run.stdout.decode(errors="replace")


def rows_of_line(forms, rows, place, line):
    """The rows of the form that a line of a try has."""
    words = line.split()
    first = "end" if place == "behind" else words[0]
    anywhere = [row for row in rows if row.place == ANYWHERE and first in (form.split()[0] for form in row.forms)]
    if anywhere or line.startswith(" "):
        return anywhere
    form = form_of(forms, TRY_PLACES[place][1], words)
    form.tried = True
    return form.rows


def try_lines(program, folder, forms, rows):
    for number, line in enumerate(TRIES.read_text().splitlines(), 1):
        if not line or line.startswith("#"):
            continue
        place, text, answer = (part.strip() for part in line.split(" | "))
        lines, added, last = changed(place, [part[1:] if part.startswith(" ") else part for part in f" {text}".split(" ;")])
        (folder / "net.cfg").write_text("\n".join(lines) + "\n")
        wanted = wanted_answer(answer, lines, last)
        got = call(program, folder, ["plan", "net.cfg"])
        if got != wanted:
            wrong.append(f"line_tries.txt {number}: {got} came, and {wanted} was wanted")
        kind = answer.split(" at ")[0]
        for each in added:
            for row in rows_of_line(forms, rows, place, each):
                row.tried = True
                row.met |= {kind} & KINDS


def try_calls(program, folder):
    """The calls on whole files, and that each text that the page quotes is one of theirs."""
    write_files(TOP / "examples", folder)
    for words, status, text in CALLS:
        got = call(program, folder, words.split())
        if got[0] != status or not (got[1] == f"{text}\n" or (text.endswith("..") and got[1].startswith(text[:-2]))):
            wrong.append(f"{words}: {got} came, and {status} with {text} was wanted")
    part = PAGE.read_text().split("## What you meet first")[1].split("\n## ")[0]
    for text, code in re.findall(r"`([^`]+)`, (\d)", part):
        front = re.sub(r"\S+\.cfg", "FILE", text.removesuffix("..").rstrip())
        if not any(int(code) == status and re.sub(r"\S+\.cfg", "FILE", said).startswith(front) for _, status, said in CALLS):
            wrong.append(f"no call was tried that ends with {code} and {text}")


def check_tries(program, forms, rows):
    with tempfile.TemporaryDirectory() as folder:
        try_lines(program, pathlib.Path(folder), forms, rows)
        try_calls(program, pathlib.Path(folder))
    for row in rows:
        if not row.tried:
            wrong.append(f"{row.place}: {row.title} isn't tried")
        wrong.extend(f"{row.place}: {row.title} names {kind}, and no try meets it" for kind in sorted(row.kinds - row.met))
        wrong.extend(f"{row.place}: {row.title} doesn't name {kind}, which a try meets" for kind in sorted(row.met - row.kinds))
    wrong.extend(f"{place}: {form} isn't tried" for place, form in all_forms(forms) if not form.tried)


def main():
    parser = argparse.ArgumentParser(description=__doc__, formatter_class=argparse.RawDescriptionHelpFormatter)
    parser.add_argument("--tries", metavar="PROGRAM")
    parser.add_argument("--list", action="store_true")
    options = parser.parse_args()
    forms = reader_forms()
    if options.list:
        for place, form in all_forms(forms):
            print(f"{place}: {form} {sorted(form.words)} {sorted(form.kinds)}")
        return 0
    rows = table_rows()
    check_table(forms, rows)
    if options.tries:
        check_tries(pathlib.Path(options.tries).resolve(), forms, rows)
    print("\n".join(wrong), end="\n" if wrong else "")
    return 1 if wrong else 0


if __name__ == "__main__":
    sys.exit(main())
