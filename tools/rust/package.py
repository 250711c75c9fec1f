"""The crate of plain Rust: which crates of the tree it has, and its files."""

import os
import re
import subprocess
import sys
import tempfile

import rows
from dispatch import with_dispatch
from public import inner_names, types_behind_aliases
from source import mask
from translate import Layout, Unreadable, module_of, plain

HERE = os.path.dirname(os.path.abspath(__file__))
TOP = os.path.dirname(os.path.dirname(HERE))
# What a user names: the other crates of the tree are in the crate if these use them.
PUBLIC = ("legacy_codecs", "legacy_index_files", "legacy_coders", "legacy_encodings")
# Functions that do nothing: their contracts are laws.
LAWS = "laws"


def read(path):
    """Returns the text of a file."""
    with open(path, encoding="utf-8") as file:
        return file.read()


def sources(crate):
    """Returns the paths of a crate's source files inside its folder, and their texts. Files of laws are left out."""
    folder, texts = f"{TOP}/crates/{crate}/src", {}
    for at, _, names in os.walk(folder):
        for name in names:
            inside = os.path.relpath(f"{at}/{name}", folder)
            if name.endswith(".rt") and LAWS not in inside.removesuffix(".rt").split("/"):
                texts[inside.removesuffix(".rt")] = read(f"{at}/{name}")
    return dict(sorted(texts.items()))


def without_laws(text):
    """Leaves out the module of laws."""
    return re.sub(rf"(?m)^pub mod {LAWS};\n", "", text)


def named_crates(text):
    """Returns the crates of the tree that the code of a file names."""
    code = re.sub(r"ghost use [^;]*;|#!?\[tactic\([^\n]*", "", mask(text))
    return set(re.findall(r"\blegacy_\w+(?=::)|(?<=use )legacy_\w+(?=;)", code))


def crates(tops):
    """Returns the source files of these crates and of those that their code names, by crate."""
    wanted, open_ones = {}, list(tops)
    while open_ones:
        crate = open_ones.pop()
        if crate not in wanted:
            wanted[crate] = sources(crate)
            for text in wanted[crate].values():
                open_ones += named_crates(text)
    return dict(sorted(wanted.items()))


def translated(inside, text, layout):
    """Returns a file as plain Rust, or ends with the place of what cannot be read."""
    try:
        return plain(text, layout)
    except Unreadable as fault:
        sys.exit(f"crates/{layout.crate}/src/{inside}.rt: {fault}")


def exported_macros(texts):
    """Returns the exported macros of a crate, and the path of the module of each."""
    found = {}
    for inside, text in texts.items():
        for name in re.findall(r"#\[macro_export\]\s*macro_rules! (\w+)", mask(text)):
            found[name] = inside.replace("/", "::")
    return found


def with_macros(text, inside, macros):
    """The text of a file of a module whose exported macros are named by paths."""
    text = text.replace("#[macro_export]\n", "")
    here = [name for name, module in macros.items() if module == inside.replace("/", "::")]
    text += "".join(f"\npub(crate) use {name};\n" for name in here)
    if inside == "lib":
        text += "".join(f"\npub(crate) use {module}::{name};\n" for name, module in macros.items() if module != "lib")
    return text


def write(path, text):
    """Writes a file, if it has another text or is not there."""
    os.makedirs(os.path.dirname(path), exist_ok=True)
    if os.path.exists(path):
        if read(path) == text:
            return
    with open(path, "w", encoding="utf-8") as file:
        file.write(text)


def template(name):
    """Returns the text of a template."""
    return read(f"{HERE}/templates/{name}")


def with_types(text, crate, types):
    """The text of a crate's root that also exports the types behind aliases."""
    for name, (home, inside) in types.items():
        exported = re.findall(rf"pub use [^;]*\b{name}\b", mask(text))
        if home == crate and inside != "lib" and not exported:
            text += f"\npub use {inside.replace('/', '::')}::{name};\n"
    return text


def root(wanted, types):
    """Returns the root of the crate."""
    names = "".join(f"mod {module_of(it)};\n" for it in wanted)
    uses = "".join(f"pub use {module_of(it)}::*;\n" for it in PUBLIC)
    behind = "".join(f"    pub use crate::{module_of(home)}::{name};\n" for name, (home, _) in types.items())
    text = template("lib.rs").replace("// MODULES\n", names).replace("// USES\n", uses)
    return text.replace("    // TYPES\n", behind)


def modules():
    """Returns the files of the crate's modules by path, before they are laid out."""
    files, wanted = {}, crates(PUBLIC)
    inner = inner_names(wanted, PUBLIC)
    types = types_behind_aliases(wanted, inner)
    for crate, texts in wanted.items():
        macros, layout = exported_macros(texts), Layout(crate, False, inner - set(types))
        for inside, text in texts.items():
            text = with_macros(without_laws(translated(inside, text, layout)), inside, macros)
            if inside == "lib":
                text = with_types(text, crate, types)
            name = module_of(crate) if inside == "lib" else f"{module_of(crate)}/{inside}"
            files[f"src/{name}.rs"] = text
    files = with_dispatch(files, "crate::kit")
    files["src/lib.rs"] = root(wanted, types)
    return files


def laid_out(files):
    """Returns the files of a crate with the code laid out by rustfmt."""
    with tempfile.TemporaryDirectory() as folder:
        for path, text in files.items():
            write(f"{folder}/{path}", text)
        roots = [f"{folder}/{path}" for path in files if path.endswith(("/lib.rs", "/main.rs"))]
        words = ["rustfmt", "--edition", "2024", *roots]
        ran = subprocess.run(words, capture_output=True, text=True, check=False)
        if ran.returncode != 0:
            sys.exit(f"tools/rust-crate: rustfmt: {ran.stderr}")
        return {path: read(f"{folder}/{path}") for path in files}


def kit_files():
    """Returns the files of the module `kit`, by path."""
    names = sorted(os.listdir(f"{HERE}/templates/kit"))
    return {"src/kit.rs": template("kit.rs"), **{f"src/kit/{name}": template(f"kit/{name}") for name in names}}


def test_files():
    """Returns the files of the test that follows the tree's rows, by path."""
    files = {"tests/rows/host.rs": template("tests/rows/host.rs")}
    for inside, text in sources(rows.CRATE).items():
        name = "main" if inside == "lib" else inside
        files[f"tests/rows/{name}.rs"] = rows.row_file(inside, text)
    return files


def write_crate(folder):
    """Writes the crate to a folder, and takes away a source file of an older tree."""
    example = "examples/index_module.rs"
    files = laid_out({**modules(), **kit_files(), **test_files()})
    files[example] = template(example)
    for name in ("Cargo.toml", "README.md"):
        files[name] = template(name)
    for name in ("LICENSE-APACHE", "LICENSE-MIT"):
        files[name] = read(f"{TOP}/{name}")
    for path, text in files.items():
        write(f"{folder}/{path}", text)
    for at, _, names in [*os.walk(f"{folder}/src"), *os.walk(f"{folder}/tests")]:
        for name in names:
            if os.path.relpath(f"{at}/{name}", folder) not in files:
                os.remove(f"{at}/{name}")
