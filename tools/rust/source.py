"""Text of a source file, with the places of its code, and edits of it.

A pattern is searched in the code alone: a mask has no comments, and nothing in its strings and characters.
"""

import re

NO_CODE = re.compile(
    r"//[^\n]*"
    r'|b?"(?:[^"\\]|\\.)*"'
    r"|b?'(?:[^'\\\n]|\\(?:u\{[0-9a-fA-F]+\}|x..|.))'",
    re.S,
)
CLOSING = {"{": "}", "(": ")", "[": "]", "<": ">"}


def masked(found):
    """Returns spaces in the place of a comment, and an empty pattern in that of a string or a character."""
    words = found.group(0)
    if words.startswith("//"):
        return " " * len(words)
    return words[0] + re.sub(r"[^\n]", "~", words[1:-1]) + words[-1]


def mask(text):
    """Returns the text with spaces in the place of comments, and nothing in strings and characters."""
    return NO_CODE.sub(masked, text)


def end_of(code, at):
    """Returns the place after the bracket that closes the one at a place of masked text."""
    opening = code[at]
    closing, depth = CLOSING[opening], 0
    while True:
        depth += (code[at] == opening) - (code[at] == closing)
        at += 1
        if depth == 0:
            return at


def after_blanks(text, at):
    """Returns the first place from this one on that has no blank."""
    while at < len(text) and text[at] in " \t\n":
        at += 1
    return at


def line_start(text, at):
    """Returns the place where the line of a place begins."""
    return text.rfind("\n", 0, at) + 1


def start_with_notes(text, at, pattern):
    """Returns the start of the lines before a line start that match the pattern, one after the other."""
    while at > 0:
        before = line_start(text, at - 1)
        if not re.match(pattern, text[before:at]):
            break
        at = before
    return at


def edited(text, edits):
    """Returns the text with other words from each place to each place."""
    kept, at = [], 0
    for start, end, words in sorted(edits):
        if start < at:
            continue
        kept += [text[at:start], words]
        at = end
    return "".join(kept) + text[at:]


def replaced(text, pattern, words):
    """Returns the text with what matches in its code replaced, by words or by a function of the match."""
    edits = []
    for found in re.finditer(pattern, mask(text)):
        new = words(found) if callable(words) else found.expand(words)
        edits.append((found.start(), found.end(), new))
    return edited(text, edits)


def arguments(code, at):
    """Returns the places of the arguments, as pairs, of the call whose bracket is at a place of masked text."""
    end = end_of(code, at) - 1
    places, depth, start = [], 0, at + 1
    for place in range(at + 1, end):
        depth += (code[place] in "([{") - (code[place] in ")]}")
        if code[place] == "," and depth == 0:
            places.append((start, place))
            start = place + 1
    if code[start:end].strip():
        places.append((start, end))
    return places
