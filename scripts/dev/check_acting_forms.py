#!/usr/bin/env python3
"""Tells where the forms of lines that act are not the same in three places: the definition `acts` of
crates/text_survey/specs/ActingForms.antt, the table "Lines that have no meaning here" of docs/profile.md, and the second model
(scripts/dev/model/acting_forms.py). It prints nothing where they are.

    scripts/dev/check_acting_forms.py
"""

import pathlib
import re
import sys

TOP = pathlib.Path(__file__).resolve().parents[2]
sys.path.insert(0, str(TOP / "scripts/dev/model"))
import acting_forms  # noqa: E402

PLACES = {"top": "acts_at_top", "interface": "acts_on_interface", "ospf": "acts_in_ospf", "isis": "acts_in_isis"}
NAMES = {"top": "top", "interface": "interface", "OSPF": "ospf", "IS-IS": "isis"}
# What a row says in words behind a form, and a line of that form.
SAID = {"discard-route": "discard-route internal 200"}


def defined():
    """The definitions over the words of a line, as functions."""
    text = (TOP / "crates/text_survey/specs/ActingForms.antt").read_text()
    known = {
        "says": lambda words, place, word: words[place:place + 1] == [word],
        "lacks": lambda words, place: len(words) <= place,
        "begins": lambda words, *front: words[:len(front)] == list(front),
    }
    for name, body in re.findall(r"\n(acts_\w+) words =\n((?:    .*\n)+)", text):
        body = re.sub(r'\(codes ("[^"]*")\)', r"\1", body)
        body = re.sub(r'begins_with_(?:two|three) words((?: "[^"]*")+)',
                      lambda found: f"begins(words, {', '.join(found[1].split())})", body)
        body = re.sub(r'says words (\d) ("[^"]*")', r"says(words, \1, \2)", body)
        body = re.sub(r"lacks words (\d)", r"lacks(words, \1)", body)
        body = re.sub(r"(acts_\w+) words", r"\1(words)", body).replace("&&", " and ").replace("||", " or ")
        exec(f"def {name}(words):\n    return ({' '.join(body.split())})", known)  # noqa: S102
    return {place: known[name] for place, name in PLACES.items()}


def rows():
    """The forms of the table, each with the places that its row names."""
    text = (TOP / "docs/profile.md").read_text()
    table = text[text.index("## Lines that have no meaning here"):]
    for line in re.findall(r"^\| (`.*)$", table[:table.index("\n## ", 5)], re.MULTILINE):
        forms, where = line.split(" | ")[:2]
        for form in re.findall("`([^`]*)`", forms.split(" (")[0]):
            yield form, {NAMES[name] for name in where.split(", ")}


def main():
    definitions, found, differ = defined(), set(), []
    for form, places in rows():
        words = re.sub(r"\b[A-Z]\b", "1", SAID.get(form, form)).split(" ")
        for name, test in (("definition", lambda place, each: definitions[place](each)), ("model", acting_forms.acts)):
            if not any(test(place, words) for place in places):
                differ.append(f"docs/profile.md: `{form}` is of no form of the {name}")
        found |= {(place, each) for place in places for each in acting_forms.FORMS[place] if acting_forms.is_of(each, words)}
    for place, forms in acting_forms.FORMS.items():
        for form in forms:
            words = form.replace("*", "1").split(" ")
            if (place, form) not in found:
                differ.append(f"docs/profile.md: no row has `{form}` at {place}")
            if not definitions[place](words) or not definitions[place]([*words, "more"]):
                differ.append(f"ActingForms.antt: `{form}` at {place} doesn't act")
            for shorter in ([*words[:-1]], [*words[:-1], words[-1] + "x"] if not form.endswith("*") else []):
                is_modelled = any(acting_forms.is_of(each, shorter) for each in forms)
                if shorter and definitions[place](shorter) != is_modelled:
                    differ.append(f"ActingForms.antt: `{' '.join(shorter)}` at {place} is of a form, or of none, as the model doesn't say")
    print("".join(line + "\n" for line in differ), end="")
    return 1 if differ else 0


if __name__ == "__main__":
    sys.exit(main())
