"""Functions whose code is compiled twice: for processors that shuffle bytes by one instruction, and for others.

A shuffle is one instruction only inside a function that is compiled for such processors, and what is always inlined
belongs to its caller. So each function that is not always inlined, and reaches a shuffle by functions that are, gets its
body twice, and asks the processor once a call.
"""

import re

from source import edited, end_of, line_start, mask, start_with_notes

SHUFFLE = "swizzle_dyn"


class Function:
    """A function with a body: its name, whether it is always inlined, and the names that it calls."""

    def __init__(self, text, code, found):
        self.name = found.group(1)
        start = line_start(text, found.start())
        notes = text[start_with_notes(text, start, r"[ \t]*(#\[|//)") : start]
        self.is_inlined = "#[inline(always)]" in notes
        self.is_const = "const fn" in text[start : found.end()]
        self.body = found.end() + re.match(r"[^;{]*", code[found.end() :]).end()
        self.has_body = code[self.body] == "{"
        self.end = end_of(code, self.body) if self.has_body else self.body
        self.calls = set(re.findall(r"\b(\w+)(?:::<[^;{}()]*>)?\(", code[self.body : self.end]))


def functions(text):
    """Returns the functions of a file that have bodies."""
    code = mask(text)
    found = (Function(text, code, it) for it in re.finditer(r"\bfn (\w+)", code))
    return [it for it in found if it.has_body]


def reaching(files):
    """Returns the names of the always inlined functions that reach a shuffle, and the shuffle's."""
    inlined = [it for text in files.values() for it in functions(text) if it.is_inlined]
    names, size = {SHUFFLE}, 0
    while size != len(names):
        size = len(names)
        names |= {it.name for it in inlined if it.calls & names}
    return names


def with_dispatch(files, kit):
    """The files with the bodies of functions that reach a shuffle in a call that asks the processor."""
    names, done = reaching(files), {}
    for path, text in files.items():
        edits = []
        for it in functions(text):
            if not it.is_inlined and not it.is_const and it.calls & names:
                edits.append((it.body, it.body + 1, f"{{ {kit}::with_shuffles(#[inline(always)] move || {{"))
                edits.append((it.end - 1, it.end, "}) }"))
        done[path] = edited(text, edits)
    return done
