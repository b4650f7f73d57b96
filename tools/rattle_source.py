"""A scanner of Rattle's sources: public types, functions and their contracts, and definitions.

It relies on the form that `rt fmt` gives the sources: an item of a file begins at the first column
and ends with a `}` there, and a function of an `impl` or a trait is indented by four. The part
between a function's name and its body is read character by character, so clauses may have any
number of lines and of braces.
"""
import re
from dataclasses import dataclass, field

WORD = r"[^\W\d]\w*"
FUNCTION = re.compile(
    rf"^( *)(pub(?:\(crate\))? )?(?:unsafe |const )*(?:extern \"C\" )?fn ({WORD})")
TYPE = re.compile(rf"^(pub(?:\(crate\))? )?(struct|enum|trait) ({WORD})")
IMPL = re.compile(rf"^(?:unsafe )?impl\b")
CLAUSE = re.compile(rf"\b(requires|ensures)( {WORD})? $")
GHOST_USE = re.compile(r"^ *ghost use ([^;]+);")
DEFINITION = re.compile(rf"^(?:(?:abbrev|unfoldable|opaque) pub|pub (?:record|data)) ([\w'-]+)")


@dataclass
class Function:
    name: str
    owner: str  # the type or trait that has it, or ""
    is_public: bool
    doc: list  # the lines of its comment
    signature: str  # without the contract
    clauses: list  # as they stand
    names: dict  # what imported names mean: name to (path, name)

    def is_law(self):
        return not self.owner and bool(re.search(r"\(\)$", self.signature))


@dataclass
class Type:
    name: str
    kind: str
    is_public: bool
    doc: list
    attributes: list
    head: str  # its declaration, up to the brace
    shown: str  # all of it, where callers see each field or variant
    ghosts: list = field(default_factory=list)  # what a trait or a struct says to contracts alone
    model: str = ""  # the type by which contracts see its values
    traits: list = field(default_factory=list)
    names: dict = field(default_factory=dict)


@dataclass
class Source:
    doc: list
    types: list
    functions: list
    exports: list  # pairs: the module or crate, and the name


def imported(lines):
    """What `ghost use` lines bring: each name with the path and the name that it stands for."""
    found = {}
    for line in lines:
        use = GHOST_USE.match(line)
        if not use:
            continue
        path, brace, names = use[1].strip().partition(".{")
        if not brace:
            path, _, short = path.partition(" as ")
            found[short or path.rsplit(".", 1)[-1]] = (path, "")
            continue
        for name in names.rstrip("} ").split(","):
            name, _, short = name.strip().partition(" as ")
            found[short or name] = (path, name)
    return found


def above(lines, at, mark="///"):
    """What stands right before line `at`: a comment, and attributes."""
    begin = at
    while begin > 0 and lines[begin - 1].lstrip().startswith((mark, "#[")):
        begin -= 1
    found = [it.strip() for it in lines[begin:at]]
    comment = [it[len(mark):].removeprefix(" ") for it in found if it.startswith(mark)]
    return comment, [it for it in found if it.startswith("#[")]


def balanced(text, at):
    """The place after the `}` that closes the `{` at this place; braces in strings don't count."""
    depth = 0
    for sign in re.finditer(r'"(?:[^"\\\n]|\\.)*"|[{}]', text[at:]):
        depth += {"{": 1, "}": -1}.get(sign[0], 0)
        if depth == 0:
            return at + sign.end()
    raise SystemExit(f"a brace is never closed: {text[at:at + 80]!r}")


def header(text):
    """A function's signature and clauses; the text begins where it does."""
    signature, clauses, depth, begin, at = "", [], 0, 0, 0
    while True:
        sign = text[at]
        depth += {"(": 1, "[": 1, ")": -1, "]": -1}.get(sign, 0)
        if depth == 0 and sign in "{;":
            clause = CLAUSE.search(text[begin:at]) if sign == "{" else None
            if not clause:
                return (signature or text[:at]).rstrip(), clauses
            signature = signature or text[:begin + clause.start()]
            end = balanced(text, at)
            clauses.append(text[begin + clause.start():end])
            begin = at = end
            continue
        at += 1


def dedented(text, by):
    return re.sub(rf"\n {{0,{by}}}", "\n", text)


def block_end(lines, at):
    """The line that closes the item that begins at line `at` in the first column."""
    if lines[at].endswith((";", "}")):
        return at
    while not lines[at].startswith("}"):
        at += 1
    return at


def functions_of(lines, begin, end, owner, names, in_trait):
    """The functions of lines `begin` to `end`; those of an owner are indented by four."""
    found = []
    for at in range(begin, end):
        match = FUNCTION.match(lines[at])
        if not match or len(match[1]) != (4 if owner else 0):
            continue
        indent = len(match[1])
        signature, clauses = header("\n".join(lines[at:])[indent:])
        found.append(Function(
            match[3], owner, in_trait or match[2] == "pub ", above(lines, at)[0],
            dedented(signature, indent), [dedented(it, indent + 4) for it in clauses], names))
    return found


def declared(line):
    """What an `impl` is for: its trait, or None, and the type."""
    rest, depth = line, 0
    if rest.startswith("impl<") or rest.startswith("unsafe impl<"):
        at = rest.index("<")
        for end in range(at, len(rest)):
            depth += {"<": 1, ">": -1}.get(rest[end], 0)
            if depth == 0:
                break
        rest = rest[end + 1:]
    else:
        rest = rest.split("impl", 1)[1]
    name, is_for, kind = rest.rstrip(" {}").strip().partition(" for ")
    trait, kind = (name, kind) if is_for else (None, name)
    return trait, re.match(rf"[&']*(?:\w+::)*({WORD})", kind)[1]


def shown(lines, kind):
    """A type's declaration without comments, where callers see all that it has."""
    body = [it for it in lines[1:-1] if not re.match(r" *(//|#\[|$)", it)]
    fields = [it for it in body if re.match(r"    \w", it) and "ghost " not in it]
    is_seen = kind == "enum" or kind == "struct" and all(it.startswith("    pub ") for it in fields)
    return "\n".join([lines[0], *body, lines[-1]]) if is_seen and fields else ""


def ghosts_in(lines, begin, end):
    """The `ghost` members of an item, but for imports."""
    text = "\n".join(lines[begin:end])
    found = []
    for match in re.finditer(rf"^    (?:pub )?ghost (?!use )({WORD})", text, re.MULTILINE):
        first = balanced(text, text.index("{", match.start()))
        rest = re.match(r" = (?={)", text[first:])
        first = balanced(text, first + rest.end()) if rest else first
        found.append((match[1], dedented(text[match.start() + 4:first], 4)))
    return found


def model_of(ghosts):
    value = dict(ghosts).get("Value", "")
    return " ".join(value.partition("{")[2].rstrip("} ").split())


def exported(text):
    """What `pub use` lines of a crate's root give on."""
    found = []
    for path, names in re.findall(r"^pub use ([\w:]+?)::(\{[^}]*\}|\w+);", text, re.MULTILINE):
        found += [(path, name) for name in re.findall(WORD, names)]
    return found


def source(text):
    """What a file has."""
    lines = text.splitlines()
    outer = imported([it for it in lines if not it.startswith(" ")])
    doc = [it[3:].removeprefix(" ") for it in lines if it.startswith("//!")]
    found = Source(doc, [], [], exported(text))
    models, traits = {}, []
    found.functions = functions_of(lines, 0, len(lines), "", outer, False)
    for at, line in enumerate(lines):
        kind = TYPE.match(line)
        if not kind and not IMPL.match(line):
            continue
        end = block_end(lines, at)
        names = outer | imported(lines[at:end])
        if kind:
            ghosts = [it for _, it in ghosts_in(lines, at, end)]
            head = line.rstrip(" {;").removesuffix(" {}")
            found.types.append(Type(
                kind[3], kind[2], kind[1] == "pub ", *above(lines, at), head,
                shown(lines[at:end + 1], kind[2]), ghosts, names=names))
            if kind[2] == "trait":
                found.functions += functions_of(
                    lines, at + 1, end, kind[3], names, kind[1] == "pub ")
            continue
        trait, owner = declared(line)
        functions = functions_of(lines, at + 1, end, owner, names, False)
        if trait is None:
            found.functions += functions
        elif trait.split("::")[-1] == "Model":
            models[owner] = (model_of(ghosts_in(lines, at, end)), names)
        else:
            traits.append((owner, trait, [it for _, it in ghosts_in(lines, at, end)]))
            if any(it.clauses for it in functions):
                raise SystemExit(f"a function of `{line}` has clauses beside those of the trait")
    for it in found.types:
        it.model, names = models.get(it.name, ("", {}))
        it.names = it.names | names
        it.traits = [(trait, ghosts) for owner, trait, ghosts in traits if owner == it.name]
    return found


def definitions(text):
    """The definitions of a file of `specs/`: each with its comment and with how it stands there."""
    lines = text.splitlines()
    found = {}
    for at, line in enumerate(lines):
        name = DEFINITION.match(line)
        if not name:
            continue
        end = at + 1
        while end < len(lines) and lines[end].strip() and not lines[end].startswith("--"):
            end += 1
        comment = [it for it in above(lines, at, "--")[0] if not it.startswith("--")]
        found[name[1]] = (" ".join(" ".join(comment).split()), "\n".join(lines[at:end]))
    return found
