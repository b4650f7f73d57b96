#!/usr/bin/env python3
"""Compares include/zimgasol.h with the exports of crates/mig_c: functions, arguments and results.

Each export is written as C would declare it: a slice as a pointer and a length, a reference as a
pointer, a `Global` as nothing. The names of arguments have to be the same, except for a slice's
length. The structs that are passed and the numbers of the statuses are compared, too, and so are
the numbers and names of faults, with their definitions. The table of docs/use/FAULTS.md has each
fault and status, with its name, its message and its text in C; no two texts are the same.
ZIMGASOL_CHECKED stands before the calls that return a status, and before no other.
"""

import pathlib
import re
import sys

TOP = pathlib.Path(__file__).resolve().parent.parent
PLAIN = {"u8": "uint8_t", "u32": "uint32_t", "u64": "uint64_t", "usize": "size_t", "bool": "bool"}
STRUCTS = {
    "TableHandle": "zimgasol_table",
    "LoadHandle": "zimgasol_load",
    "SendHandle": "zimgasol_send",
    "WorkerHandle": "zimgasol_worker",
    "FileHandle": "zimgasol_mapped_load",
    "SentHandle": "zimgasol_mapped_send",
    "FileRun": "zimgasol_run",
    "FilePart": "zimgasol_part",
    "ClaimedPages": "zimgasol_pages",
    "NamedPlace": "zimgasol_place",
    "NamedBatch": "zimgasol_batch",
    "NextBytes": "zimgasol_next",
    "Fed": "zimgasol_fed",
    "Standing": "zimgasol_standing",
    "SourceBytes": "zimgasol_source",
    "NamedBlock": "zimgasol_block",
    "FoundFault": "zimgasol_fault",
    "AskedSettings": "zimgasol_settings",
    "AskedSend": "zimgasol_send_settings",
    "StatusText": "zimgasol_text",
}
# slices of numbers, in a slice: each is a pointer and a length to C
SLICES = {
    "&[&[u64]]": ("zimgasol_bitmap", ["const uint64_t *words", "size_t len"]),
    "&[&[u8]]": ("zimgasol_lent", ["const uint8_t *bytes", "size_t len"]),
    "&[&mut [u8]]": ("zimgasol_buffer", ["uint8_t *bytes", "size_t len"]),
    "&mut [&mut [u8]]": ("zimgasol_buffer", ["uint8_t *bytes", "size_t len"]),
}
EXPORT = re.compile(r'pub (?:unsafe )?extern "C" fn (\w+)\s*\((.*?)\)\s*(?:->\s*([\w ]+?))?\s*(?=\n?\s*(?:requires|ensures|\{))', re.S)
DECLARED = re.compile(r"^ZIMGASOL_(?:API|CHECKED) (void|zimgasol_status|uint32_t|uint64_t|size_t|bool) (zimgasol_\w+)\((.*?)\);", re.S | re.M)
FIELD = re.compile(r"pub (\w+): ([^,]+),")


def c_type(name):
    return PLAIN.get(name) or STRUCTS[name]


def c_arguments(kind):
    """The types that one argument is to C."""
    if kind == "Global":
        return []
    if kind in SLICES:
        struct = SLICES[kind][0]
        return [("" if kind.startswith("&mut") else "const ") + struct + " *", "size_t"]
    slice_of = re.fullmatch(r"&(mut )?\[(\w+)\]", kind)
    if slice_of:
        return [("" if slice_of[1] else "const ") + c_type(slice_of[2]) + " *", "size_t"]
    reference = re.fullmatch(r"&(mut )?(\w+)", kind)
    if reference:
        return [("" if reference[1] else "const ") + c_type(reference[2]) + " *"]
    return [c_type(kind)]


def exports():
    found = {}
    for path in sorted((TOP / "crates/mig_c/src").glob("*.rt")):
        text = path.read_text()
        if text.count("no_mangle") != len(EXPORT.findall(text)):
            sys.exit(f"{path.name}: an export that can't be read")
        for name, arguments, result in EXPORT.findall(text):
            listed = []
            for argument in filter(None, (a.strip() for a in arguments.split(","))):
                label, kind = (part.strip() for part in argument.split(":", 1))
                for i, one in enumerate(c_arguments(kind)):
                    listed.append((one, label if i == 0 else None))
            found[name] = (c_type(result.strip()) if result else "void", listed)
    return found


def declared():
    text = re.sub(r"/\*.*?\*/", "", (TOP / "include/zimgasol.h").read_text(), flags=re.S)
    found = {}
    for result, name, arguments in DECLARED.findall(text):
        listed = []
        for argument in filter(None, arguments.strip().removeprefix("void").split(",")):
            kind, star, label = re.fullmatch(r"\s*((?:const )?\w+) (\*?)(\w+)\s*", argument).groups()
            kind = kind.replace("zimgasol_frame", "uint32_t")
            listed.append((kind + (" *" if star else ""), label))
        found[name] = (result.replace("zimgasol_status", "uint32_t"), listed)
    if len(re.findall(r"(?<!#define )ZIMGASOL_(?:API|CHECKED) ", text)) != len(found):
        sys.exit("zimgasol.h: a declaration that can't be read")
    return found


def same(ours, theirs):
    return (
        ours[0] == theirs[0]
        and len(ours[1]) == len(theirs[1])
        and all(a[0] == b[0] and a[1] in (None, b[1]) for a, b in zip(ours[1], theirs[1]))
    )


def c_fields(label, kind):
    """The fields that one of a struct is to C."""
    array = re.fullmatch(r"\[(\w+); (\d+)\]", kind)
    if array:
        return [f"{c_type(array[1])} {label}[{array[2]}]"]
    if kind == "&'static [u8]":
        return [f"const uint8_t *{label}", f"size_t {label}_len"]
    return [f"{c_type(kind)} {label}"]


def struct_fields():
    """The fields of the structs that C sees, as both sides have them."""
    sources = "".join(path.read_text() for crate in ("mig_c", "mig_c_calls", "mig_c_loads", "mig_c_mapped") for path in (TOP / "crates" / crate / "src").glob("*.rt"))
    header = (TOP / "include/zimgasol.h").read_text()
    for rust, name in STRUCTS.items():
        if rust.endswith("Handle"):
            continue
        body = re.search(r"#\[repr\(C\)\]\s*(?:#\[[^]]*\]\s*)*pub struct %s \{(.*?)\n\}" % rust, sources, re.S)[1]
        ours = [line for label, kind in FIELD.findall(body) for line in c_fields(label, kind)]
        theirs = [line.strip() for line in re.search(r"typedef struct %s \{(.*?)\}" % name, header, re.S)[1].split(";") if line.strip()]
        yield name, ours, [re.sub("zimgasol_(frame|round_end) ", "uint32_t ", line) for line in theirs]

    for name, ours in SLICES.values():
        theirs = [line.strip() for line in re.search(r"typedef struct %s \{(.*?)\}" % name, header, re.S)[1].split(";") if line.strip()]
        yield name, ours, theirs


def statuses():
    """The statuses that both sides name, with their numbers."""
    ours = dict(re.findall(r"const (\w+): u32 = (\d+);", (TOP / "crates/mig_c_calls/src/status.rt").read_text()))
    theirs = dict(re.findall(r"ZIMGASOL_(\w+) = (\d+)", (TOP / "include/zimgasol.h").read_text()))
    specs = dict(re.findall(r"^(\w+) = (\d+)$", (TOP / "crates/mig_c_calls/specs/Status.antt").read_text(), re.M))
    for name in ours:
        yield name, ours[name], theirs.get(name), specs.get(name.lower())
    for module in ("frame", "round_end"):
        for name, number in re.findall(r"const (\w+): u32 = (\d+);", (TOP / f"crates/mig_c_loads/src/{module}.rt").read_text()):
            yield name, number, theirs.get(name), number


# where the numbers of faults are defined, and how the header's names of these begin
FAULTS = [
    ("mig_mem/specs/Refusal.antt", ""),
    ("mig_stream/specs/FaultNumber.antt", "STREAM_"),
    ("mig_packet/specs/FaultNumber.antt", "CHANNEL_"),
    ("mig_assemble/specs/RoundFaultNumber.antt", "ROUND_"),
    ("mig_load_types/specs/LoadFaultNumber.antt", ""),
    ("mig_mapped/specs/FaultNumber.antt", "MAPPED_"),
]


def faults():
    """The faults, with their numbers in the definitions and in the header."""
    theirs = dict(re.findall(r"ZIMGASOL_(\w+) = (\d+)", (TOP / "include/zimgasol.h").read_text()))
    for path, begin in FAULTS:
        lines = re.findall(r"^fault_number \(?(?:\w+\.)?(\w+)[^=\n]*= (\d+)$", (TOP / "crates" / path).read_text(), re.M)
        for name, number in lines:
            number_begin = "MACHINE_" if 46 <= int(number) <= 49 else "STREAM_" if begin == "MAPPED_" and int(number) < 72 else begin
            name = number_begin + re.sub(r"(?<=[a-z])(?=[A-Z])", "_", name).upper()
            yield name, number, theirs.get(name)


def long_lines():
    lines = (TOP / "include/zimgasol.h").read_text().splitlines()
    return [i for i, line in enumerate(lines, 1) if len(line) > 100]


def unchecked():
    """The calls whose status may be ignored without a warning, and those that have no status to ignore."""
    header = (TOP / "include/zimgasol.h").read_text()
    calls = re.findall(r"^ZIMGASOL_(API|CHECKED) (\w+) (zimgasol_\w+)\(", header, re.M)
    return [name for macro, result, name in calls if (macro == "CHECKED") != (result == "zimgasol_status")]


def versions():
    """What of the version isn't the same everywhere."""
    header = (TOP / "include/zimgasol.h").read_text()
    major, minor, patch = (int(part) for part in re.search(r'VERSION "(.*)"', header)[1].split("."))
    number = 10000 * major + 100 * minor + patch
    parts = [f"version: {part} isn't {wanted}" for part, wanted in (("MAJOR", major), ("MINOR", minor), ("PATCH", patch))
             if not re.search(rf"^#define ZIMGASOL_VERSION_{part} {wanted}$", header, re.M)]
    if not re.search(rf"^ZIMGASOL_{major}\.{minor} {{$", (TOP / "tools/package/zimgasol.map").read_text(), re.M):
        parts.append(f"version: tools/package/zimgasol.map has no ZIMGASOL_{major}.{minor}")
    places = {
        "the header's number": re.search(r"VERSION_NUMBER (\d+)", header)[1],
        "src/text.rt": re.search(r"const VERSION: u32 = (\d+);", (TOP / "crates/mig_c_calls/src/text.rt").read_text())[1],
        "specs/Texts.antt": re.search(r"^version = (\d+)$", (TOP / "crates/mig_c_calls/specs/Texts.antt").read_text(), re.M)[1],
    }
    return parts + [f"version: {place} has {found}, not {number}" for place, found in places.items() if int(found) != number]


# the columns of the table of docs/use/FAULTS.md that are compared, and what an empty cell has
COLUMNS = "| No. | Name | Message | In C |"
EMPTY = "-"


def fault_rows():
    """The rows of the table of all numbers: number, names, messages, and text in C."""
    page = (TOP / "docs/use/FAULTS.md").read_text()
    table = re.search(rf"^{re.escape(COLUMNS)}.*\n\|[-|]+\n((?:\|.*\n)+)", page, re.M)[1]
    for line in table.splitlines():
        number, names, said, text, *_ = (cell.strip() for cell in line.strip("|").split(" | "))
        yield number, names.split(", "), [] if said == EMPTY else said.split(" / "), None if text == EMPTY else text


def named_statuses():
    """The statuses that the header names, with their numbers, in its order."""
    listed = re.search(r"typedef enum zimgasol_status \{(.*?)\n\}", (TOP / "include/zimgasol.h").read_text(), re.S)[1]
    return re.findall(r"ZIMGASOL_(\w+) = (\d+)", listed)


def messages():
    """What of the texts of statuses isn't as docs/use/FAULTS.md has it."""
    ours = dict(re.findall(r'^\s+(\d+) => b"(.*)\\0",$', (TOP / "crates/mig_c_calls/src/text.rt").read_text(), re.M))
    theirs = {number: text for number, _, _, text in fault_rows() if text}
    named = {number for _, number in named_statuses()}
    wrong = [f"text {it}: {ours.get(it)!r} here, {theirs.get(it)!r} in FAULTS" for it in ours.keys() | theirs.keys() | named
             if it not in ours or ours[it] != theirs.get(it) or it not in named]
    return wrong + [f"text {it!r}: of several statuses" for it in ours.values() if list(ours.values()).count(it) > 1]


# where the faults of the libraries and of mig_tool have their numbers and messages
MESSAGES = ("mig_mem/src/fault", "mig_stream/src/fault", "mig_packet/src/fault", "mig_assemble/src/fault", "mig_load_types/src/fault",
            "mig_send/src/fault", "mig_mapped/src/fault", "mig_session/src/pumping", "mig_in_place/src/source_reader",
            "mig_scenario/src/fault", "mig_command/src/fault")
NO_MEMORY = "60"


def messages_of(text):
    """The faults of a source: number, name and message. A value in a message is a capital letter in the page."""
    numbers = {it[:2]: it[2] for it in re.findall(r"(\w*Fault)::(\w+)(?:\([^)]*\))? => (\d+),", text)}
    said = re.findall(r'(\w*Fault)::(\w+)(?:\([^)]*\))? => (?:write!\(\s*f,\s*|f\.write_str\()?"(?:\{\}: )?([^:"][^"]*)"', text)
    yield from ((number, of[1], None) for of, number in numbers.items())
    yield from ((numbers.get((enum, name), NO_MEMORY), name, message) for enum, name, message in said)
    yield from ((NO_MEMORY, "NoMemory", message) for message in re.findall(r'const REFUSED: &str = "(.*)";', text))
    yield from ((number, name, None) for number, name in re.findall(r'#\[error\("fault (\d+)"\)\]\s*(\w+),', text))


def fault_messages():
    """What of the names and messages of faults isn't as docs/use/FAULTS.md has it."""
    ours = {it for path in MESSAGES for it in messages_of((TOP / f"crates/{path}.rt").read_text())}
    rows = {number: (names, said) for number, names, said, _ in fault_rows()}
    found = {number: (set(), set()) for number in rows}
    calls = {(number, name, None) for name, number in named_statuses() if number == "0" or int(number) >= 100}
    for number, name, message in ours | calls:
        names, said = rows.get(number, ([], []))
        form = message and "[A-Z]".join(map(re.escape, re.split(r"\{[^}]*\}", message)))
        written = [it for it in said if form and re.fullmatch(form, it)]
        if name not in names or message and not written:
            yield f"fault {number} {name}: {message!r} isn't in FAULTS"
            continue
        found[number][0].add(name)
        found[number][1].update(written)
    for number, (names, said) in rows.items():
        yield from (f"fault {number}: {it!r} in FAULTS is of no source" for it in {*names, *said} - found[number][0] - found[number][1])


def out_of_order():
    """The header's statuses whose number isn't above the one before."""
    listed = named_statuses()
    return [b[0] for a, b in zip(listed, listed[1:]) if int(a[1]) >= int(b[1])]


def main():
    ours, theirs = exports(), declared()
    wrong = [f"{name}: only in the header" for name in theirs.keys() - ours.keys()]
    wrong += [f"{name}: not in the header" for name in ours.keys() - theirs.keys()]
    wrong += [f"{name}: exported as {ours[name]}, declared as {theirs[name]}" for name in ours.keys() & theirs.keys() if not same(ours[name], theirs[name])]
    wrong += [f"struct {name}: {a} here, {b} in the header" for name, a, b in struct_fields() if a != b]
    wrong += [f"status {name}: {a}, {b} in the header, {c} in specs" for name, a, b, c in statuses() if not a == b == c]
    wrong += versions() + messages() + list(fault_messages())
    wrong += [f"{name}: ZIMGASOL_CHECKED stands before what returns no status, or is missing" for name in unchecked()]
    wrong += [f"fault {name}: {a}, {b} in the header" for name, a, b in faults() if a != b]
    wrong += [f"status {name} stands behind a larger one" for name in out_of_order()]
    wrong += [f"line {i} of the header is longer than 100 characters" for i in long_lines()]
    for line in sorted(wrong):
        print(line)
    print(f"{len(ours)} exports, {len(theirs)} declared, {len(wrong)} differ")
    sys.exit(1 if wrong else 0)


main()
