#!/usr/bin/env python3
"""The pages of out/contracts: the public functions of each crate, and their contracts.

    tools/promises.py            writes them, with CONTRACTS.md as their index
    tools/promises.py --check    writes nothing, and fails for what is listed below

A page has the public types and functions of one crate of the product: for each function its
signature, its sentence and its clauses, unchanged except for line breaks, and below them the
definitions that these cite. The sentence is the function's comment, and the text of
tools/promises.md on it, which is put before the errors. The page of a crate that only re-exports
names has its comment, and the page of each name.

It fails if

- a public function with a contract has no sentence,
- tools/promises.md has a heading or a name that is in no source,
- docs/trust/PROMISES.md has the name of a call, a law or a definition that is in no source,
- a link of a page leads to no file,
- it read other numbers of public functions and clauses than a count line by line.
"""
import os
import re
import shutil
import sys
import textwrap
from dataclasses import dataclass
from functools import cache
from pathlib import Path

import rattle_source
from crates import CRATES, TOP, uses
from rattle_source import WORD

# The crates of crates.txt that are no part of the product.
BESIDE = """mig_fixtures mig_cases mig_rows mig_uses mig_bench mig_mem_tests mig_send_tests mig_stream_tests mig_relay_tests mig_session_tests
    mig_in_place_tests mig_tool_tests""".split()
PAGES = TOP / "out" / "contracts"
INDEX = PAGES / "CONTRACTS.md"
SENTENCES = TOP / "tools" / "promises.md"
PROMISES = TOP / "docs" / "trust" / "PROMISES.md"
MADE = "<!-- made by tools/promises.py: change the sources or tools/promises.md, and run it -->\n"
COUNT = """{} public functions, of which {} are laws; {} clauses `requires` and {} `ensures`.
[All crates](CONTRACTS.md), and [what is proved in plain words](../../docs/trust/PROMISES.md).
"""
CITED = re.compile(rf"(?<![\w.]){WORD}(?:\.{WORD})?")


@dataclass
class Crate:
    name: str
    doc: list
    types: list  # those that callers see
    functions: list  # those that callers can call
    gives: list  # the names that it re-exports of other crates: pairs of a crate and a name
    hidden: list  # public functions that can't be named outside the crate


def crate_of(name):
    """What callers see of a crate. What C sees is each type and function with a C name."""
    source = CRATES / name / "src"
    files = {it: rattle_source.source(it.read_text()) for it in sorted(source.glob("**/*.rt"))}
    top = files.get(source / "lib.rt")
    if not top:
        return Crate(name, [], [], [], [], [])
    given = {it for path, it in top.exports if (source / f"{path}.rt").is_file()}
    crate = Crate(name, top.doc, [], [], [], [])
    crate.gives = [pair for pair in top.exports if pair[1] not in given]
    for file, it in files.items():
        crosses = lambda item: 'extern "C"' in getattr(item, "signature", "")
        crate.types += [kind for kind in it.types if kind.is_public
                        and (kind.name in given or "#[repr(C)]" in kind.attributes)]
        for function in it.functions:
            is_seen = (function.owner or function.name) in given or file == source / "lib.rt"
            if function.is_public:
                (crate.functions if is_seen or crosses(function) else crate.hidden).append(function)
    return crate


def counted(name):
    """A crate's public functions and their clauses, counted by lines and by indentation."""
    functions, clauses = 0, 0
    for file in (CRATES / name / "src").glob("**/*.rt"):
        indent, in_trait = None, False
        for line in file.read_text().splitlines():
            in_trait = line.startswith("pub trait ") or in_trait and not line.startswith("}")
            if re.match(r" *(pub(\(crate\))? )?(unsafe |const )*(extern \"C\" )?fn ", line):
                is_public = re.match(r" *pub (unsafe |const )*(extern|fn)", line) or in_trait
                indent = len(line) - len(line.lstrip()) if is_public else None
                functions += bool(is_public)
            elif indent is not None:
                clauses += bool(re.match(rf" {{{indent + 4}}}(requires|ensures)\b", line))
    return functions, clauses


def sentences():
    """What tools/promises.md says under each of its headings."""
    found, heading = {}, None
    for line in SENTENCES.read_text().splitlines(True):
        if re.match(r"##? \w", line):
            heading = line.lstrip("#").strip()
            if heading in found:
                sys.exit(f"tools/promises.md has two headings {heading}")
            found[heading] = ""
        elif heading:
            found[heading] += line
    return {it: text.strip() for it, text in found.items()}


def called(it):
    return f"{it.owner}::{it.name}" if it.owner else it.name


def fill(text, indent=""):
    whole = {"break_long_words": False, "break_on_hyphens": False}
    return textwrap.fill(text, 100, subsequent_indent=indent, **whole)


def filled(lines, has_headings=False):
    """A comment's lines, filled again at 100 columns; code, tables and lists stay as they stand.
    Its headings are words in bold type, or headings below the page's own."""
    parts, is_code = [], False
    for line in lines:
        is_fence = line.startswith("```")
        if is_fence or is_code or not line.strip() or re.match(r"[-|#>]|\d+\. | {2}", line):
            title = None if is_code else re.match(r"#+ (.*)", line)
            bold = f"**{title[1]}.**\n" if title and not has_headings else None
            parts.append([bold or "#" * bool(title) + line])
        elif parts and not re.match(r"\s*$|```|[|>]|\*\*.*\*\*\n", parts[-1][0]):
            parts[-1].append(line)
        else:
            parts.append([line])
        is_code ^= is_fence
    parts = [it[0] if len(it) == 1 and len(it[0]) <= 100 else fill(" ".join(it)) for it in parts]
    return re.sub(r"\n{3,}", "\n\n", "\n".join(parts))


@cache
def definitions(crate, module):
    file = CRATES / crate / "specs" / (module.replace(".", "/") + ".antt")
    return rattle_source.definitions(file.read_text()) if file.is_file() else {}


def definition_of(path, name):
    """A definition of `specs/`: its crate, its module, its comment and how it stands; or None."""
    match = re.fullmatch(r"Rattle\.(\w+)\.specs\.(?!declared\.)(.+)", path)
    found = match and definitions(match[1], match[2]).get(name)
    return found and (match[1], match[2], *found)


def cited(text, names):
    """The definitions of the repository that a clause cites: pairs of a path and a name."""
    found = {}
    for word in CITED.findall(text):
        first, _, rest = word.partition(".")
        path, name = names.get(first, ("", ""))
        if definition_of(path, name or rest):
            found[path, name or rest] = True
    return list(found)


def folded(line):
    """A line of code in lines of 100 columns, broken where brackets are fewest."""
    indent = len(line) - len(line.lstrip())
    if len(line) <= 100:
        return line
    places, depth = [], 0
    for at, sign in enumerate(line[:101]):
        depth += (sign in "({[") - (sign in ")}]")
        if sign == " " and at > indent + 50:
            is_before = line[at + 1] in "→×⊎≡≢↔≤<"
            places.append((depth, not is_before, -at))
    at = -min(places)[2] if places else line.index(" ", indent)
    return line[:at] + "\n" + folded(" " * (indent + 4 * (indent < 8)) + line[at + 1:])


def code(text):
    return "```rust\n" + "\n".join(map(folded, text.splitlines())) + "\n```\n"


QUOTED = re.compile(r"<!-- quoted from crates/(\S+) -->")


def with_links(lines):
    """A comment's lines, with a link to the file in place of each mark of a quotation."""
    return [QUOTED.sub(r"([`\1`](../../crates/\1))\n", line) for line in lines]


def type_part(it):
    """A type: its comment, what it shows to contracts alone, and the traits that it has."""
    parts = [f"## {it.name}\n"] + [filled(with_links(it.doc)) + "\n"] * bool(it.doc)
    if it.kind == "trait":
        parts.append(code("\n\n".join([it.head + " { .. }", *it.ghosts])))
    elif it.shown or it.ghosts:
        parts.append(code(it.shown or "\n".join(it.ghosts)))
    if it.model:
        parts.append(f"Contracts see a value as `{it.model}`.\n")
    traits = dict.fromkeys(re.sub(r"^\w+::", "", trait) for trait, _ in it.traits)
    if traits:
        parts.append(fill(f"Traits: {', '.join(f'`{trait}`' for trait in traits)}.") + "\n")
    members = [f"{trait}: {ghost}" for trait, ghosts in it.traits for ghost in ghosts]
    return "\n".join(parts + [code("\n".join(members))] * bool(members))


def function_part(it, said):
    """A function: its signature, its sentence and its clauses; of a law also what these cite."""
    parts = [f"### {called(it)}\n", code(it.signature)]
    errors = it.doc.index("# Errors") if "# Errors" in it.doc else len(it.doc)
    texts = (filled(it.doc[:errors]).strip(), said, filled(it.doc[errors:]).strip())
    parts += [text + "\n" for text in texts if text]
    parts.append(code("\n".join(it.clauses)) if it.clauses else "No clause.\n")
    if it.is_law():
        pairs = dict.fromkeys(pair for clause in it.clauses for pair in cited(clause, it.names))
        parts += [code(definition_of(*pair)[3]) for pair in pairs]
    return "\n".join(parts)


def meaning(comment, text):
    """The first sentence of a definition's comment, or, where it has none, its one equation."""
    lines = text.splitlines()
    if comment:
        return ": " + re.split(r"(?<=\.)\s", comment)[0]
    return f": `{lines[1]}`" if len(lines) == 2 and len(lines[1]) < 100 else ""


def definitions_part(crate):
    """The definitions that a crate's contracts cite, file by file, the crate's own first."""
    files, known = {}, list(uses())
    clauses = [(clause, it.names) for it in crate.functions for clause in it.clauses]
    clauses += [(text, it.names) for it in crate.types for text in [it.model, *it.ghosts]]
    for pair in (pair for text, names in clauses for pair in cited(text, names)):
        owner, module, comment, text = definition_of(*pair)
        files.setdefault((owner, module), {})[pair[1]] = meaning(comment, text)
    parts = ["## Definitions\n"]
    parts.append("What the clauses cite, with the first sentence of each comment.\n")
    order = lambda it: (it[0] != crate.name, known.index(it[0]), it[1])
    for owner, module in sorted(files, key=order):
        file = f"crates/{owner}/specs/{module.replace('.', '/')}.antt"
        names = sorted(files[owner, module].items())
        rows = [fill(f"- `{name}`{says}", "  ") for name, says in names]
        parts.append(f"`{file}`:\n\n" + "\n".join(rows) + "\n")
    return parts if files else []


def numbers(crate):
    kinds = [clause.split()[0] for it in crate.functions for clause in it.clauses]
    laws = sum(it.is_law() for it in crate.functions)
    return len(crate.functions), laws, kinds.count("requires"), kinds.count("ensures")


def page(crate, says):
    parts = [MADE, f"# Contracts of {crate.name}\n", filled(crate.doc) + "\n"]
    parts.append(COUNT.format(*numbers(crate)))
    parts += [says[crate.name] + "\n"] if crate.name in says else []
    part = lambda it: function_part(it, says.get(f"{crate.name}::{called(it)}", ""))
    for kind in crate.types:
        parts += [type_part(kind), *(part(it) for it in crate.functions if it.owner == kind.name)]
    for title, is_law in (("Functions", False), ("Laws", True)):
        group = [it for it in crate.functions if not it.owner and it.is_law() == is_law]
        parts += [f"## {title}\n"] * bool(group) + [part(it) for it in group]
    return "\n".join(parts + definitions_part(crate)).rstrip() + "\n"


def place_of(name, crates):
    """Where a name stands: its crate or "", and how the list of those that are given on has it."""
    for crate in crates:
        functions = [it.name for it in crate.functions if not it.owner]
        if name in functions + [it.name for it in crate.types]:
            return crate.name, f"[`{name}`]({crate.name}.md#{name.lower()})"
    return "", f"`{name}`"


def facade_page(crate, crates):
    """The page of a crate that only re-exports names."""
    doc = with_links(crate.doc)
    link = lambda match: place_of(match[1], crates)[1]
    doc = [re.sub(r"`(\w+)`", link, line) if line.startswith("|") else line
           for line in filled(doc, has_headings=True).splitlines()]
    parts = [MADE, f"# The crate {crate.name}\n", *doc, ""]
    parts.append("## What it re-exports\n")
    groups = {}
    for name in sorted((name for _, name in crate.gives), key=str.lower):
        group, line = place_of(name, crates)
        groups.setdefault(group, []).append(line)
    rows = [fill(f"- {it and f'Of {it}' or 'Beside them'}: {', '.join(groups[it])}.", "  ")
            for it in [*(it.name for it in crates), ""] if it in groups]
    return "\n".join(parts + rows) + "\n"


def index(crates, says):
    rows = ["| Crate | Functions | Laws | `requires` | `ensures` |", "|---|---|---|---|---|"]
    row = lambda first, counts: f"| {first} | {' | '.join(map(str, counts))} |"
    rows += [row(f"[{it.name}]({it.name}.md)", numbers(it))
             for it in crates if it.functions]
    rows.append(row("all", map(sum, zip(*map(numbers, crates)))))
    paths = lambda it: ", ".join(dict.fromkeys(f"`{path}`" for path, _ in it.gives))
    gives = [fill(f"[{it.name}]({it.name}.md) has none of its own. It re-exports names "
                  f"of {paths(it)}.") for it in crates if it.gives and not it.functions]
    parts = [MADE.strip(), "# Contracts", says["Contracts"], "\n".join(rows), *gives]
    return "\n\n".join(parts) + "\n"


@cache
def source_words():
    """The words of all sources and definitions, and of the header for C."""
    files = [it for crate in uses() for kind in ("src/**/*.rt", "specs/**/*.antt")
             for it in (CRATES / crate).glob(kind)]
    files.append(TOP / "include" / "zimgasol.h")
    return set(re.findall(r"\w+", " ".join(it.read_text() for it in files)))


def unknown(text):
    """The names in backticks of a text that are in no source."""
    names = [it for name in re.findall(r"`([^\W_][\w:]*)`", text) for it in name.split("::")]
    return [it for it in dict.fromkeys(names) if it not in source_words()]


def problems(crates, says):
    """What is wrong with the sources, with tools/promises.md or with docs/trust/PROMISES.md."""
    found, keys = [], {"Contracts"}
    for crate in crates:
        functions = {f"{crate.name}::{called(it)}": it for it in crate.functions}
        keys |= {crate.name, *functions}
        found += [f"{key} has a contract and no sentence" for key, it in functions.items()
                  if it.clauses and not it.doc and key not in says]
        seen = crate.functions + crate.hidden
        numbers_read = len(seen), sum(len(it.clauses) for it in seen)
        if counted(crate.name) != numbers_read:
            found.append(f"{crate.name}: public functions and clauses are {counted(crate.name)} by "
                         f"lines, but {numbers_read} were read")
    for key, text in says.items():
        found += [f"tools/promises.md: {key} is no public function"] * (key not in keys)
        found += [f"tools/promises.md, {key}: there is no {it}" for it in unknown(text)]
    found += [f"docs/trust/PROMISES.md: there is no {it}" for it in unknown(PROMISES.read_text())]
    return found + [f"{name}: no crate of crates.txt" for name in BESIDE if name not in uses()]


def broken(pages):
    """The links of the pages that lead to no page and to no file of the repository."""
    for file, text in pages.items():
        prose = re.sub(r"```.*?```|`[^`]*`", "", text, flags=re.DOTALL)
        for link in re.findall(r"\]\(([^)#:]+)[^):]*\)", prose):
            target = Path(os.path.normpath(PAGES / link))
            if target not in pages and not target.exists():
                yield f"{file.relative_to(TOP)}: the link {link} leads nowhere"


def main(words):
    if words not in ([], ["--check"]):
        sys.exit(__doc__)
    crates = [crate_of(name) for name in uses() if name not in BESIDE]
    says = sentences()
    pages = {PAGES / f"{it.name}.md": page(it, says) for it in crates if it.functions}
    pages |= {PAGES / f"{it.name}.md": facade_page(it, crates)
              for it in crates if it.gives and not it.functions}
    pages[INDEX] = index(crates, says)
    if not words:
        shutil.rmtree(PAGES, ignore_errors=True)
        PAGES.mkdir(parents=True)
        for file, text in pages.items():
            file.write_text(text)
    wrong = [*problems(crates, says), *broken(pages)]
    functions, laws, requires, ensures = map(sum, zip(*map(numbers, crates)))
    print(f"{functions} public functions, {laws} of them laws, have {requires} requires and "
          f"{ensures} ensures, as by lines; tools/promises.md has {len(says)} parts")
    sys.exit("\n".join(wrong) if wrong else 0)


if __name__ == "__main__":
    main(sys.argv[1:])
