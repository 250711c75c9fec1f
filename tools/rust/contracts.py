"""The clauses of public functions as a section of their doc comments, and what only the crate's own loops call."""

import re

from source import end_of, line_start, mask, start_with_notes


def public_traits(code):
    """Returns the places of the bodies of public traits, as pairs."""
    found = re.finditer(r"(?m)^pub trait [^{]*\{", code)
    return [(it.end() - 1, end_of(code, it.end() - 1)) for it in found]


def section(clauses, indent):
    """Returns the section of a doc comment with the clauses."""
    lines = [f"{indent}/// # Contract", f"{indent}///", f"{indent}/// ```text"]
    for clause in clauses:
        lines += [f"{indent}/// {line}".rstrip() for line in dedented(clause)]
    return "\n".join(lines + [f"{indent}/// ```", ""])


def dedented(clause):
    """Returns the lines of a clause, with four blanks before each but the first."""
    first, *rest = clause.split("\n")
    return [first] + [f"    {line.strip()}" for line in rest]


def signature(code, function):
    """Returns the words of a function up to its body or its end."""
    return re.match(r"[^;{]*", code[function:]).group(0)


def is_inner(code, function, clauses, inner):
    """Checks whether only the crate's own loops can call a function.

    Such a function names an inner type, or it is a provided method of a trait with a condition.
    """
    words = signature(code, function)
    if set(re.findall(r"\w+", words)) & inner:
        return True
    has_body = code[function + len(words)] == "{"
    return has_body and any(it.startswith("requires") for it in clauses)


def shown_functions(text, code, traits):
    """Returns the places of the functions that users may call, each with whether it is a trait's, the last one first."""
    for found in reversed(list(re.finditer(r"\bfn \w", code))):
        in_trait = any(begin < found.start() < end for begin, end in traits)
        if in_trait or re.match(r"\s*pub (const )?fn ", text[line_start(text, found.start()) :]):
            yield found.start(), in_trait


def with_contracts(text, clauses, inner):
    """The text with the clauses of public functions in their doc comments, which leave out inner functions."""
    code = mask(text)
    for function, in_trait in shown_functions(text, code, public_traits(code)):
        start = line_start(text, function)
        indent = re.match(r"[ \t]*", text[start:]).group(0)
        at = start_with_notes(text, start, r"[ \t]*(#\[|//(?!/))")
        given, words = clauses.get(function, []), ""
        if given:
            has_doc = re.match(r"[ \t]*///", text[line_start(text, at - 1) : at]) is not None
            words = (f"{indent}///\n" if has_doc else "") + section(given, indent)
        if is_inner(code, function, given if in_trait else [], inner):
            words += f"{indent}#[doc(hidden)]\n"
        text = text[:at] + words + text[at:]
    return text
