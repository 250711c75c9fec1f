"""The tree's rows of calls and wanted results as a test of the crate: its tests get a host of the kit as an argument."""

import re

from source import edited, mask, replaced
from translate import Layout, plain, with_use

CRATE = "legacy_tests"
HEAD = """// A host does nothing here.
#![allow(unused_variables, unused_imports, mismatched_lifetime_syntaxes)]
// Forms of the source.
#![allow(clippy::explicit_auto_deref, clippy::large_enum_variant, clippy::module_inception, clippy::needless_range_loop)]
#![allow(clippy::type_complexity)]
extern crate alloc;
"""
HOST = ("Abort", "AllocGlobal", "HostRuntime", "Shown")


class RowLayout(Layout):
    """The test's own files, over the crate by its name."""

    def __init__(self):
        super().__init__(CRATE, True)
        self.kit = "crate::host"

    def path_of(self, crate):
        """Returns the path of a crate of the tree."""
        return "legacy_codecs"


def with_hosts(text):
    """The text with tests that make their host, and calls that need none."""
    text = replaced(text, r"\b(assert|assert_eq|panic)!\(\s*&?rt;\s*", r"\1!(")
    text = replaced(text, r"\.(expect|unwrap)\(&?rt(,\s*|(?=\)))", r".\1(")
    text = replaced(text, r"\.to_string\(rt\.alloc\(\)\)", ".try_to_string()")
    text = replaced(text, r"use std::process::Abort;\n", "")
    code, edits = mask(text), []
    for found in re.finditer(r"#\[test\]\nfn (\w+)\(rt: HostRuntime\)([^{]*)\{", code):
        head = f"#[test]\nfn {found.group(1)}(){found.group(2)}{{\n    let rt = HostRuntime;"
        edits.append((found.start(), found.end(), head))
    return edited(text, edits)


def row_file(inside, text):
    """Returns a file of rows as a file of the test."""
    text = plain(with_hosts(text), RowLayout())
    text = replaced(text, r"\blegacy_\w+(?=::)", "legacy_codecs")
    if inside == "lib":
        return with_use(text, HEAD) + "\nmod host;\n"
    names = [name for name in HOST if re.search(rf"\b{name}\b", mask(text)) or (name == "Shown" and ".try_to_string(" in text)]
    return with_use(text, f"use crate::host::{{{', '.join(names)}}};") if names else text
