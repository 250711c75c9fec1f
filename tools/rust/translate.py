"""Plain Rust of a source file of the tree: no contracts, ghost items and tactics, and Rust's own library for the kit's."""

import bisect
import re

from contracts import with_contracts
from source import after_blanks, arguments, edited, end_of, line_start, mask, replaced, start_with_notes

NOTE = r"[ \t]*//(?!!)"
NOTE_OR_ATTRIBUTE = r"[ \t]*(//(?!!)|#\[)"
KIT_TRAITS = ("Drop", "Error", "Model")
# Calls of the kit's lists and texts that return a result, because memory may be refused.
GROWTH = "push|push_str|insert|extend_from_slice|resize|reserve"


class Unreadable(Exception):
    """A form of the language that this script cannot translate."""


class Layout:
    """Where the crates of the tree are: as modules of one crate, or as packages."""

    def __init__(self, crate, is_package, inner=frozenset()):
        self.crate = crate
        self.is_package = is_package
        self.kit = "kit" if is_package else "crate::kit"
        self.inner = inner

    def path_of(self, crate):
        """Returns the path of a crate of the tree."""
        return crate if self.is_package else f"crate::{module_of(crate)}"


def module_of(crate):
    """Returns the name of a crate as a module."""
    return crate.removeprefix("legacy_")


def without_ghost_uses(text):
    """Leaves out the imports of definitions, and comments before them."""
    code, edits = mask(text), []
    for found in re.finditer(r"(?m)^[ \t]*(pub(\([a-z]+\))? )?ghost use [^;]*;[^\n]*\n", code):
        edits.append((found.start(), found.end(), ""))
    return edited(text, edits)


def without_ghost_members(text):
    """Leaves out ghost fields and ghost members of traits and impls, with the comments before them."""
    code, edits = mask(text), []
    for found in re.finditer(r"\b(pub(\([a-z]+\))? )?ghost\s+\w+\s*[:=]\s*\{", code):
        end = end_of(code, found.end() - 1)
        after = after_blanks(code, end)
        if code[after] == "=":
            end = end_of(code, code.index("{", after))
            after = after_blanks(code, end)
        if code[after] in ";,":
            end = after + 1
        start = start_with_notes(text, line_start(text, found.start()), NOTE)
        edits.append((start, end, ""))
    return edited(text, edits)


def without_clauses(text):
    """Returns the text without `requires` and `ensures`, and the clauses of each function by its start."""
    code, edits, clauses = mask(text), [], {}
    functions = [it.start() for it in re.finditer(r"\bfn \w", code)]
    for found in re.finditer(r"\b(requires|ensures)\b(?:[ \t]+\w+)?\s*\{", code):
        start, end = found.start(), end_of(code, found.end() - 1)
        function = functions[bisect.bisect(functions, start) - 1]
        function -= sum(last - first for first, last, _ in edits if last <= function)
        clauses.setdefault(function, []).append(text[start:end])
        edits.append((start, end, ""))
    return edited(text, edits), clauses


def without_tactics(text):
    """Leaves out attributes of the prover."""
    code, edits = mask(text), []
    for found in re.finditer(r"#!?\[(tactic)\b", code):
        end = end_of(code, code.index("[", found.start()))
        end += code[end : end + 1] == "\n"
        edits.append((line_start(text, found.start()), end, ""))
    return edited(text, edits).replace("#[rattlefmt::skip]", "#[rustfmt::skip]")


def without_impls(text):
    """Leaves out implementations of the kit's own traits, with the comments and attributes before them."""
    code, edits = mask(text), []
    for found in re.finditer(r"(?m)^impl(<[^{]*?>)?\s+(Drop|Model) for [^{]*\{", code):
        start = start_with_notes(text, found.start(), NOTE_OR_ATTRIBUTE)
        edits.append((start, end_of(code, found.end() - 1), ""))
    return edited(text, edits)


def without_kit_traits(text):
    """Leaves out the kit's traits in derives and bounds."""

    def derived(found):
        names = [it for it in re.split(r",\s*", found.group(2).strip(" ,")) if it not in KIT_TRAITS]
        return f"{found.group(1)}#[derive({', '.join(names)})]\n" if names else ""

    text = replaced(text, r"([ \t]*)#\[derive\(([^)]*)\)\]\n", derived)
    text = replaced(text, r"\s*\+\s*(Drop|Model)\b", "")
    return replaced(text, r":\s*(Drop|Model)(?=\s*[,>])", "")


def shown(variants, name):
    """Returns the arms that write the message of each variant."""
    arms = []
    for message, variant, fields in variants:
        names = [f"at{n}" for n in range(fields.count(",") + 1)] if fields else []
        for n, field in enumerate(names):
            message = message.replace(f"{{{n}}}", f"{{{field}}}")
        pattern = f"{name}::{variant}" + (f"({', '.join(names)})" if names else "")
        arms.append(f'            {pattern} => write!(f, "{message}"),\n')
    return "".join(arms)


def error_impls(text):
    """Returns the implementations of `Display` and `Error` that the kit derives."""
    code, impls = mask(text), []
    for found in re.finditer(r"#\[derive\(([^)]*\bError\b[^)]*)\)\]\s*pub enum (\w+) \{", code):
        name, body = found.group(2), text[found.end() - 1 : end_of(code, found.end() - 1)]
        variants = re.findall(r'#\[error\("([^"]*)"\)\]\s*(\w+)(\([^)]*\))?,', body)
        impls.append(
            f"\nimpl core::fmt::Display for {name} {{\n"
            f"    fn fmt(&self, f: &mut core::fmt::Formatter<'_>) -> core::fmt::Result {{\n"
            f"        match self {{\n{shown(variants, name)}        }}\n    }}\n}}\n"
            f"\nimpl core::error::Error for {name} {{}}\n"
        )
        for variant, inner in re.findall(r"(\w+)\(#\[from\] (\w+)\)", body):
            impls.append(
                f"\nimpl From<{inner}> for {name} {{\n    fn from(error: {inner}) -> {name} {{\n"
                f"        {name}::{variant}(error)\n    }}\n}}\n"
            )
    return "".join(impls)


def with_errors(text):
    """The text with errors written out, which the kit derives."""
    impls = error_impls(text)
    text = replaced(text, r"use thiserror::Error;\n", "")
    text = re.sub(r"(?m)^[ \t]*#\[error\([^\n]*\)\]\n", "", text)
    text = replaced(text, r"#\[from\] ", "")
    return text + impls


def with_clones(text):
    """The text with copies that cannot fail: the kit's `clone` returns a result."""
    code, edits = mask(text), []
    for found in re.finditer(r"fn clone\(&self\) -> Result<(.*), AllocError>\s*\{", code):
        end = end_of(code, found.end() - 1)
        body = text[found.end() : end - 1].strip()
        if not body.startswith("Ok(") or end_of(mask(body), 2) != len(body):
            raise Unreadable(f"the body of `clone` is not one `Ok(..)`: {body}")
        edits.append((found.start(), end, f"fn clone(&self) -> {found.group(1)} {{\n{body[3:-1]}\n}}"))
    return edited(text, edits)


def without_allocators(text):
    """Leaves out the allocator, which the kit's calls take as a parameter."""
    text = replaced(text, r"\balloc: Global\b,?\s*", "")
    code, edits = mask(text), []
    for found in re.finditer(r"[\w>](!?)([(\[])", code):
        for start, end in arguments(code, found.end() - 1):
            if code[start:end].strip() in ("alloc", "rt.alloc()", "Global"):
                edits.append((start, after_blanks(code, end + (code[end] == ",")), ""))
    return edited(text, edits)


def by_fallible_calls(text, layout):
    """The text with calls that return a result if memory is refused, as those of the kit's lists do."""
    code, edits = mask(text), []
    for found in re.finditer(r"\bvec!\[in ", code):
        end = end_of(code, found.end() - 4)
        item, count = text[code.index(";", found.end()) + 1 : end - 1].rsplit(";", 1)
        edits.append((found.start(), end, f"{layout.kit}::memory::filled({item.strip()}, {count.strip()})"))
    text = edited(text, edits)
    text = replaced(text, r"\bVec::with_capacity\(", f"{layout.kit}::memory::with_capacity(")
    text = replaced(text, r"\bVec::from_slice\(", f"{layout.kit}::memory::copied(")
    return with_growth(text)


def with_growth(text):
    """The text with growth of lists that may fail. A call that is a statement returns nothing, so it is no list's."""
    code, edits = mask(text), []
    for found in re.finditer(rf"\.({GROWTH})\(", code):
        statement = re.search(r"[^;{}]*\Z", code[: found.start()]).group(0)
        is_statement = code[end_of(code, found.end() - 1)] == ";" and re.fullmatch(r"[\w.\s]+", statement)
        if not is_statement:
            edits.append((found.start(), found.end(), f".try_{found.group(1)}("))
    return edited(text, edits)


def with_use(text, line):
    """The text with a line before its first item."""
    at = re.search(r"\A((//![^\n]*|#!\[[^\n]*)?\n)*", text).end()
    return f"{text[:at]}{line}\n{text[at:]}"


def with_memory(text, layout):
    """The text with lists of Rust's own library, whose growth returns a result as in the kit."""
    if re.search(r"\balloc\b|Alloc|\bVec\b", mask(text)):
        text = by_fallible_calls(text, layout)
        text = without_allocators(with_clones(text))
        text = replaced(text, r"use std::alloc::[^;]*;\n", "")
        code = mask(text)
        names = [it for it in ("AllocError", "AllocFailed") if re.search(rf"\b{it}\b", code)]
        names += ["Growth"] * (".try_" in code)
        if names:
            text = with_use(text, f"use {layout.kit}::memory::{{{', '.join(names)}}};")
    code = mask(text)
    for name, path in (("Vec", "alloc::vec::Vec"), ("String", "alloc::string::String")):
        if not layout.is_package and re.search(rf"\b{name}\b", code):
            text = with_use(text, f"use {path};")
    return text


def with_tests_of_scalars(text, layout):
    """The text with a test of each number that becomes a scalar."""
    code, edits = mask(text), []
    for found in re.finditer(r"\bunsafe \{ char::from_u32_unchecked\(", code):
        end = end_of(code, found.end() - 1)
        edits.append((found.start(), end_of(code, found.start() + 7), f"{layout.kit}::scalar{text[found.end() - 1 : end]}"))
    text = edited(text, edits)
    if re.search(r"\bunsafe\s*\{", mask(text)):
        raise Unreadable("an unsafe block that is no `char::from_u32_unchecked`")
    return text


def without_unused_labels(text):
    """Leaves out names of loops that only a proof uses."""

    def label(found):
        return found.group(0) if re.search(rf"\b(break|continue) {found.group(1)}\b", code) else ""

    code = mask(text)
    return replaced(text, r"('\w+): (?=loop|while|for)", label)


def by_std(text, layout):
    """The text with Rust's own library where the kit's differs."""
    text = replaced(text, r"use std::marker::Model;\n", "")
    text = replaced(
        text,
        r"fn fmt<W: fmt::Write>\(&self, f: &mut fmt::Formatter<W>\)",
        "fn fmt(&self, f: &mut fmt::Formatter<'_>)",
    )
    text = replaced(text, r"\bstd::simd::prelude::\*", f"{layout.kit}::simd::*")
    return text if layout.is_package else replaced(text, r"\bstd::", "core::")


def with_sized_traits(text):
    """The text with traits of types of a known size where they name a slice of the type: the kit's are all of these."""
    code, edits = mask(text), []
    for found in re.finditer(r"\btrait \w+(<[^{:]*>)?(?=\s*\{)", code):
        if "[Self]" in code[found.end() : end_of(code, code.index("{", found.end()))]:
            edits.append((found.end(), found.end(), ": Sized"))
    return edited(text, edits)


def by_paths(text, layout):
    """The text with the paths of the layout."""
    if layout.is_package:
        return text
    own = module_of(layout.crate)
    text = replaced(text, r"(?<!\$)\bcrate::(?!kit\b)", f"crate::{own}::")
    text = replaced(text, r"\$crate::", f"$crate::{own}::")
    text = replaced(text, r"\b(legacy_\w+)::", lambda it: f"{layout.path_of(it.group(1))}::")
    return replaced(text, r"(?<=use )(legacy_\w+)(?=;)", lambda it: layout.path_of(it.group(1)))


def with_fences(text):
    """The text with examples in comments between marks, and not by four blanks."""

    def example(found):
        indent = found.group(2)
        lines = re.sub(rf"(?m)^{indent}///     ", f"{indent}/// ", found.group(3))
        return f"{found.group(1)}{indent}/// ```\n{lines}{indent}/// ```\n"

    return re.sub(r"(?m)(^([ \t]*)///\n)((?:^[ \t]*///     .*\n)+)", example, text)


def with_examples(text):
    """The text with examples in comments that call Rust's own library. They are parts of functions, which cannot run."""
    lines, in_example = with_fences(text).split("\n"), False
    for at, line in enumerate(lines):
        if not (found := re.match(r"[ \t]*///\s*(```\w*)?", line)):
            continue
        if found.group(1):
            in_example = not in_example
            lines[at] = line + "text" * (in_example and found.group(1) == "```")
        elif in_example:
            line = re.sub(r"(?<=\()alloc(, |(?=\)))", "", line)
            lines[at] = re.sub(r"(\.(?:push|extend_from_slice)\(.*\))\?", r"\1", line)
    return "\n".join(lines)


def plain(text, layout):
    """Returns a source file of the tree as plain Rust, as a module with the clauses in the doc comments."""
    text = with_examples(without_tactics(without_impls(without_ghost_members(without_ghost_uses(text)))))
    text, clauses = without_clauses(text)
    if not layout.is_package:
        text = with_contracts(text, clauses, layout.inner)
    text = with_errors(text)
    text = without_kit_traits(text)
    text = with_tests_of_scalars(with_memory(text, layout), layout)
    return by_paths(with_sized_traits(without_unused_labels(by_std(text, layout))), layout)
