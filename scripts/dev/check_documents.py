#!/usr/bin/env python3
"""Looks whether the documents name what there is: run it at the top of the repository, as scripts/dev/check_documents.py.

In README.md, CONTRIBUTING.md and docs/*.md each link has to lead to a file and a heading, and each path in backquotes to a file:
below docs/, scripts/, examples/ and crates/ (what is built aside), or below crates/ where it begins with a crate. A bare name of
a file in a table of docs/words.md, or of docs/architecture.md before its crates, has to stand beside the file that is named
before it, or in igp_theory/specs.
README.md has at most 200 lines, and no sentence of the pages in SHORT has more than 40 words.

Nothing is printed where all is well, else a line for each thing that isn't, and the status is 1. It isn't part of the gate.
"""

import pathlib
import re
import sys

PAGES = [pathlib.Path("README.md"), pathlib.Path("CONTRIBUTING.md"), *sorted(pathlib.Path("docs").glob("*.md"))]
SHORT = {"README.md", "CONTRIBUTING.md", "docs/operators.md", "docs/tests.md", "docs/walkthrough.md", "docs/words.md"}
CRATES = {path.name for path in pathlib.Path("crates").iterdir()}

wrong = []


def anchors(text):
    """The anchors of the headings of a page."""
    return {re.sub(r"[^\w\- ]", "", head.lower()).replace(" ", "-") for head in re.findall(r"(?m)^#+ (.*)$", text)}


def check_links(page, text):
    for link in re.findall(r"\]\(([^)\s]+)\)", re.sub(r"\n", " ", text)):
        name, _, anchor = link.partition("#")
        target = page.parent / name if name else page
        if not target.is_file():
            wrong.append(f"{page}: {link} leads to no file")
        elif anchor and anchor not in anchors(target.read_text()):
            wrong.append(f"{page}: {link} leads to no heading")


def found(name):
    """Whether there is such a file, with the ending of a specification or without, or such a folder."""
    return any(pathlib.Path(name + ending).exists() for ending in ("", ".antt"))


def check_paths(page, text):
    for name in re.findall(r"`([\w./-]+/[\w./-]*)`", text):
        first = name.split("/")[0]
        if "/out/" in name:
            continue
        if first in ("docs", "scripts", "examples", "crates") and not found(name):
            wrong.append(f"{page}: there is no {name}")
        if first in CRATES and not found(f"crates/{name}"):
            wrong.append(f"{page}: there is no crates/{name}")


def check_tables(page, text):
    """The bare names of files in the cells behind the first one, each beside the file that is named before it."""
    for row in re.findall(r"(?m)^\| (.*)$", text):
        place = None
        for name in re.findall(r"`([\w./]+\.(?:rt|antt))`", " | ".join(row.split(" | ")[1:])):
            places = [pathlib.Path("crates")] + [pathlib.Path("crates/igp_theory/specs")]
            places += [place, place.parent / "specs", place.parent / "src"] if place else []
            path = next((each / name for each in places if (each / name).is_file()), None)
            if path is None:
                wrong.append(f"{page}: there is no {name}, in the row `{row[:40]}`")
            else:
                place = path.parent


def sentences(text):
    """The sentences of a page without its code, its remarks and the lines of links; a cell of a table ends one."""
    text = re.sub(r"(?s)```.*?```|<!--.*?-->", "\n\n", text)
    text = re.sub(r"(?m)^\|.*$", lambda row: row.group().replace("|", "\n\n"), text)
    for part in re.split(r"\n\s*\n|\n(?=\s*(?:-|\d+\.|#+|>) )", text):
        yield from re.split(r"(?<=[.!?])[\"*)]*\s+(?=[A-Z0-9`\"*(\[])", part)


def check_sentences(page, text):
    for sentence in sentences(text):
        if len(sentence.split()) > 40:
            wrong.append(f"{page}: {len(sentence.split())} words: {' '.join(sentence.split())[:60]} ..")


def main():
    for page in PAGES:
        text = page.read_text()
        check_links(page, text)
        check_paths(page, text)
        if page.name in ("architecture.md", "words.md"):
            check_tables(page, text.split("## Crates")[0] if page.name == "architecture.md" else text)
        if str(page) in SHORT:
            check_sentences(page, text)
    if len(PAGES[0].read_text().splitlines()) > 200:
        wrong.append("README.md has more than 200 lines")
    print("\n".join(wrong), end="\n" if wrong else "")
    return 1 if wrong else 0


if __name__ == "__main__":
    sys.exit(main())
