#!/usr/bin/env python3
"""Writes the declarations of the library for C in Rust, from its header.

    tools/bindings.py [--check]

The crate `zimgasol-sys` has all that include/zimgasol.h declares, in its order and with its
comments: bindings/rust/zimgasol-sys/src/lib.rs. With --check nothing is written, and the status is
1 if the file isn't what would be written.
"""
import re
import sys
from pathlib import Path

TOP = Path(__file__).resolve().parent.parent
HEADER = TOP / "include/zimgasol.h"
CRATE = TOP / "bindings/rust/zimgasol-sys/src/lib.rs"
PLAIN = {"uint8_t": "u8", "uint32_t": "u32", "uint64_t": "u64", "size_t": "usize", "bool": "bool", "void": "c_void"}
TOKEN = re.compile(
    r"/\*(?P<comment>.*?)\*/"
    r"|typedef enum (?P<enum>\w+) \{(?P<values>.*?)\} \w+;"
    r"|typedef struct (?P<struct>\w+) \{(?P<fields>.*?)\} \w+;"
    r"|(?:ZIMGASOL_API|ZIMGASOL_CHECKED) (?P<call>\w+ zimgasol_\w+\([^;]*\));"
    r"|static inline [^{]*\{.*?\n\}"
    r"|#define (?P<define>ZIMGASOL_\w+) (?P<value>\"[^\"]*\"|\d+|UINT64_MAX)\n"
    r"|#define [^\n]*(?:\\\n[^\n]*)*\n",
    re.DOTALL)
HEAD = """//! The library for C of Zimgasol, as its header `zimgasol.h` declares it. `tools/bindings.py` writes
//! this file from the header, with its comments. Nothing checks here that a caller keeps to its
//! rules, which follow; the crate `zimgasol` keeps them by types.
//!
{rules}#![no_std]
#![allow(non_camel_case_types)]

use core::ffi::c_void;
"""


def doc(comment, indent=""):
    """The lines of a comment, as documentation."""
    lines = [re.sub(r"^ ?\* ?", "", line.strip()).rstrip() for line in (comment or "").strip().splitlines()]
    # (Markdown would set what is indented as code: it is code, or a list that goes on)
    fenced, found = False, []
    for i, line in enumerate(lines):
        if line and not line.startswith(" ") and i and re.match(r" +\S", lines[i - 1]) and not fenced:
            found.append("")
        is_code = line.startswith("    ") and not line.lstrip().startswith("-")
        if is_code != fenced and (is_code or line):
            found.append("```text" if is_code else "```")
            fenced = is_code
        found.append(line[4:] if fenced else line)
    found += ["```"] if fenced else []
    return "".join(f"{indent}/// {line}".rstrip() + "\n" for line in found)


def rust_type(kind, pointers=""):
    is_const = kind.startswith("const ")
    name = kind.removeprefix("const ").strip()
    name = PLAIN.get(name, name)
    for _ in pointers:
        name = f"*{'const' if is_const else 'mut'} {name}"
    return name


def field(text):
    """A field or an argument: its name, and its type."""
    found = re.fullmatch(r"((?:const )?\w+) (\**)(\w+)((?:\[\d+\])*)", " ".join(text.split()))
    if not found:
        raise ValueError(f"not understood: {text}")
    kind = rust_type(found[1], found[2])
    for size in reversed(re.findall(r"\d+", found[4])):
        kind = f"[{kind}; {size}]"
    return found[3], kind


def enum(name, values, comment):
    yield f"{doc(comment)}pub type {name} = u32;\n\n"
    said = None
    for one in re.finditer(r"/\*(.*?)\*/|(\w+) = (\d+)", values, re.DOTALL):
        if one[2]:
            yield f"{doc(said)}pub const {one[2]}: {name} = {one[3]};\n"
            said = None
        else:
            said = None if one[1].strip().startswith("----") else one[1]
    yield "\n"


def struct(name, fields, comment):
    yield f"{doc(comment)}#[repr(C)]\n#[derive(Clone, Copy, Debug)]\npub struct {name} {{\n" if name not in HANDLES else \
        f"{doc(comment)}#[repr(C)]\n#[derive(Debug)]\npub struct {name} {{\n"
    for one in re.sub(r"/\*.*?\*/", "", fields, flags=re.DOTALL).split(";"):
        if one.strip():
            field_name, kind = field(one)
            yield f"    pub {field_name}: {kind},\n"
    yield "}\n\n"


HANDLES = ("zimgasol_table", "zimgasol_load", "zimgasol_send", "zimgasol_worker")


def call(text, comment):
    found = re.fullmatch(r"(\w+) (\w+)\((.*)\)", " ".join(text.split()))
    arguments = [] if found[3] == "void" else [field(it) for it in found[3].split(", ")]
    result = "" if found[1] == "void" else f" -> {rust_type(found[1])}"
    line = f"    pub fn {found[2]}({', '.join(f'{name}: {kind}' for name, kind in arguments)}){result};\n"
    if len(line) > 101:
        listed = "".join(f"        {name}: {kind},\n" for name, kind in arguments)
        line = f"    pub fn {found[2]}(\n{listed}    ){result};\n"
    return f"{doc(comment, '    ')}{line}\n"


def written(header):
    """The crate's source."""
    items, calls, said = [], [], None
    rules = doc(header[header.index("/*") + 2:header.index("*/")]).replace("///", "//!")
    for one in TOKEN.finditer(header):
        if one["comment"] is not None:
            said = one["comment"]
            continue
        if one["enum"]:
            items += enum(one["enum"], one["values"], said)
        elif one["struct"]:
            items += struct(one["struct"], one["fields"], said)
        elif one["call"]:
            calls.append(call(one["call"], said))
        elif one["define"]:
            kind = "&str" if one["value"].startswith('"') else "u64" if one["value"] == "UINT64_MAX" else \
                "u32" if "VERSION" in one["define"] else "usize"
            items.append(f"{doc(said)}pub const {one['define']}: {kind} = {one['value'].replace('UINT64_MAX', 'u64::MAX')};\n\n")
        said = None
    uses = HEAD.replace("{rules}", rules)
    uses = uses if any("c_void" in it for it in items + calls) else uses.replace("\nuse core::ffi::c_void;\n", "")
    text = f"{uses}\n{''.join(items)}unsafe extern \"C\" {{\n{''.join(calls).rstrip()}\n}}\n"
    return re.sub(r"\n{3,}", "\n\n", text)


def main():
    if sys.argv[1:] not in ([], ["--check"]):
        print(__doc__.strip(), file=sys.stderr)
        return 2
    text = written(HEADER.read_text())
    if sys.argv[1:]:
        if CRATE.read_text() != text:
            print(f"{CRATE.relative_to(TOP)} isn't what tools/bindings.py writes: run it")
            return 1
        return 0
    CRATE.parent.mkdir(parents=True, exist_ok=True)
    CRATE.write_text(text)
    return 0


if __name__ == "__main__":
    sys.exit(main())
