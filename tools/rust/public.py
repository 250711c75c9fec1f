"""What the crate shows to its users: the names, the types behind aliases, and which methods only the crate's loops call."""

import re

from source import mask

VECTORS = {"u8x4", "u8x8", "u8x16", "u8x32", "u8x64", "u16x8", "u16x16"}
ITEM = r"(?m)^pub (?:struct|enum|trait|type) (\w+)"


def items(texts):
    """Returns the names of the public types and traits in these texts."""
    return {name for text in texts for name in re.findall(ITEM, mask(text))}


def inner_names(wanted, public):
    """Returns the names of types and traits that the public crates do not export, and those of the kit's vectors."""
    defined = set().union(*(items(texts.values()) for texts in wanted.values()))
    exported = set()
    for crate in public:
        exported |= set(re.findall(r"\w+", " ".join(re.findall(r"pub use [^;]*;", mask(wanted[crate]["lib"])))))
    return (defined - exported) | VECTORS


def types_behind_aliases(wanted, inner):
    """Returns the types that the public crates do not export but of which they export an alias, with their crates."""
    found = {}
    for texts in wanted.values():
        for text in texts.values():
            for name, target in re.findall(r"(?m)^pub type (\w+)[^=;]*= (\w+)<", mask(text)):
                if name not in inner and target in inner:
                    found[target] = None
    for crate, texts in wanted.items():
        for inside, text in texts.items():
            for name in re.findall(r"(?m)^pub struct (\w+)", mask(text)):
                if name in found:
                    found[name] = (crate, inside)
    return dict(sorted(found.items()))
