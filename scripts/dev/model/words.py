"""Lines, words and values, as all files have them. A text is held as Latin-1, a character for each byte."""

import re


class Refused(Exception):
    """A call that ends with this text and this code, before its question is asked."""

    def __init__(self, text, code=5):
        super().__init__(text)
        self.text, self.code = text, code


def lines_of(text):
    """The lines of a text: a feed ends a line, and a return before the feed is no part of it."""
    lines = text.split("\n")
    if lines[-1] == "":
        lines.pop()
    return [line.removesuffix("\r") for line in lines]


def words_of(line):
    """The words of a line of a configuration, between any blanks and tabs."""
    return [word for word in re.split("[ \t]+", line) if word]


def single_words(line):
    """The words of a line of an order file or a tree, of which one blank or one tab joins two. An empty one is a fault there."""
    return re.split("[ \t]", line)


def word_at(words, place):
    """The word at a place, None where there are too few."""
    return words[place] if place < len(words) else None


def number(word, most, least=0):
    """The number that a word of digits writes, None where it is none from `least` to `most`."""
    if word is None or not re.fullmatch("[0-9]+", word):
        return None
    value = int(word)
    return value if least <= value <= most else None


def address(word):
    """The IPv4 address of a word with four numbers of at most three digits."""
    if word is None or not re.fullmatch(r"[0-9]{1,3}(\.[0-9]{1,3}){3}", word):
        return None
    value = 0
    for part in word.split("."):
        if int(part) > 255:
            return None
        value = value * 256 + int(part)
    return value


def mask(word):
    """The length of the prefix that a mask writes: ones, then zeros, and at least a one."""
    value = address(word)
    if not value:
        return None
    digits = f"{value:032b}"
    return digits.count("1") if re.fullmatch("1+0*", digits) else None


def area_number(word):
    """The number of an OSPF area, as a number or in the form of an address."""
    value = number(word, 4294967295)
    return value if value is not None else address(word)


def address_text(value):
    return ".".join(str(value >> shift & 255) for shift in (24, 16, 8, 0))


def base_of(value, length):
    """The first address of the prefix of this length that holds an address."""
    return value & (0xFFFFFFFF << (32 - length)) & 0xFFFFFFFF
