#!/usr/bin/env python3
"""Writes the man page of `zimgasol`, and its completions for bash, zsh and fish, from its help.

    tools/manual.py PROGRAM FOLDER

It runs `PROGRAM --help` and `PROGRAM help COMMAND`, and writes FOLDER/zimgasol.1, zimgasol.bash,
_zimgasol and zimgasol.fish. Commands, arguments, options, their values and all sentences are those
of the help: nothing here names one, except for what a value is of which the help has the kind alone
(FILES, FOLDERS). A line of the help that isn't understood is an error. tools/install.sh installs
the four, and tools/runs/manuals.py tries them.
"""
import os
import re
import subprocess
import sys
from pathlib import Path

NAME = "zimgasol"
# what the help calls values that are names of files, and of folders
FILES = ("FILE", "OUT", "ID=FILE", "A", "B")
FOLDERS = ("DIR",)
SECTIONS = ("Usage:", "Commands:", "Arguments:", "Options:")
# `  -q, --quiet` and `      --page <BYTES>`, `  <FILE>...` and `  [COMMAND]`
OPTION = re.compile(r" +(?:(-\w)(?:, )?)?(?:(--[\w-]+))?(?: <([^>]+)>)?$")
ARGUMENT = re.compile(r" +[<\[]([^>\]]+)[>\]](\.\.\.)?$")
COMMAND = re.compile(r"  (\w+)(?: +(\S.*))?$")
VALUES = re.compile(r" ?\[possible values: ([^]]*)\]")


class Item:
    """A command, an argument or an option: its names, the value that it takes, and what the help says of it."""

    def __init__(self, names, value="", text=""):
        self.names, self.value, self.said = names, value, text

    @property
    def text(self):
        return VALUES.sub("", self.said).strip()

    @property
    def values(self):
        found = VALUES.search(self.said)
        return found[1].split(", ") if found else []


class Help:
    """The help of the program, or of one of its commands."""

    def __init__(self, text):
        self.about, self.usage, self.after = "", "", ""
        self.commands, self.arguments, self.options = [], [], []
        section, after = None, []
        for line in text.splitlines():
            word = next((it for it in SECTIONS if line.startswith(it)), None)
            if word:
                section = word
                line = line[len(word):]
            elif section and line and not line.startswith(" "):
                section = "after"
            if section == "after":
                after.append(line)
            elif line.strip():
                self.take(section, line)
        self.after = "\n".join(after).strip()

    def take(self, section, line):
        """Takes a line of a section."""
        if section is None:
            self.about = f"{self.about} {line.strip()}".strip()
        elif section == "Usage:":
            self.usage = f"{self.usage} {line.strip()}".strip()
        elif line.startswith(" " * 9):
            items = {"Commands:": self.commands, "Arguments:": self.arguments, "Options:": self.options}[section]
            items[-1].said = f"{items[-1].said} {line.strip()}".strip()
        elif section == "Commands:" and (found := COMMAND.match(line)):
            self.commands.append(Item([found[1]], text=found[2] or ""))
        elif section == "Arguments:" and (found := ARGUMENT.match(line)):
            self.arguments.append(Item([found[1]], found[1]))
        elif section == "Options:" and (found := OPTION.match(line)) and (found[1] or found[2]):
            self.options.append(Item([it for it in found.group(1, 2) if it], found[3] or ""))
        else:
            raise ValueError(f"a line of the help isn't understood: {line}")

    def exit_status(self):
        """What it says of statuses, before its examples."""
        return " ".join(self.after.partition("Examples:")[0].split())

    def examples(self):
        return [it.strip() for it in self.after.partition("Examples:")[2].replace("\\\n", "").splitlines() if it.strip()]


def help_of(program, *words):
    ran = subprocess.run([program, *words], capture_output=True, text=True, env={**os.environ, "COLUMNS": "80"}, check=True)
    return Help(ran.stdout)


def all_of(program):
    """The help of the program, and of each command but `help`."""
    whole = help_of(program, "--help")
    names = [it.names[0] for it in whole.commands if it.names[0] != "help"]
    return whole, {name: help_of(program, "help", name) for name in names}


def kind(value):
    """What a value is: a file, a folder, or something else."""
    return "file" if value in FILES else "folder" if value in FOLDERS else ""


# ---- the man page

def roff(text):
    """A text of the page: backslashes and dashes as they are, and no line that is a request."""
    text = re.sub(r"`([^`]*)`", lambda found: f"\\fB{found[1]}\\fR", text.replace("\\", "\\e")).replace("-", "\\-")
    return re.sub(r"^(?=[.'])", r"\\&", text, flags=re.MULTILINE)


def named(item):
    names = ", ".join(f"\\fB{roff(it)}\\fR" for it in item.names) if item.names[0].startswith("-") else f"\\fI{roff(item.names[0])}\\fR"
    return f"{names} \\fI{roff(item.value)}\\fR" if item.value and item.names[0].startswith("-") else names


def items(list_of):
    for item in list_of:
        values = f" One of {', '.join(item.values)}." if item.values else ""
        yield from (".TP", named(item), roff(item.text + ("" if item.text.endswith(".") else ".") + values))


def usages(usage):
    """The words of a usage, with the program's and the command's in bold."""
    return " ".join(f"\\fB{roff(it)}\\fR" if re.fullmatch(r"[\w-]+", it) else roff(it) for it in usage.split())


def page(version, whole, commands):
    yield f'.TH {NAME.upper()} 1 "" "{NAME} {version}" "User Commands"'
    yield from (".SH NAME", f"{NAME} \\- {roff(whole.about[0].lower() + whole.about[1:])}", ".SH SYNOPSIS", ".nf")
    for one in commands.values():
        yield usages(one.usage)
    yield from (".fi", ".SH COMMANDS")
    for name, one in commands.items():
        yield from (f".SS {name}", roff(one.about + "."), *items(one.arguments), *items(one.options))
        if one.exit_status():
            yield from (".PP", roff(one.exit_status()))
    yield from (".SH OPTIONS", *items(whole.options), ".SH EXIT STATUS")
    for one in re.sub(r"^Exit status: ", "", whole.exit_status()).rstrip(".").split("; "):
        number, _, text = one.partition(" ")
        yield from (".TP", f"\\fB{number}\\fR", roff(text[0].upper() + text[1:] + "."))
    yield from (".SH ENVIRONMENT", ".TP", "\\fBCOLUMNS\\fR", "Help is fitted to so many columns, 40 to 80.", ".SH EXAMPLES", ".nf")
    for one in (whole, *commands.values()):
        yield from (roff(it) for it in one.examples())
    yield from (".fi", ".SH SEE ALSO", f"The page \\fBZIMGASOL.md\\fR, which is installed with the program, has all that {NAME} does.")


# ---- completions

def words_of(one):
    return [name for it in one.options for name in it.names]


def bash(whole, commands):
    yield from ("# Completes the command lines of zimgasol.", "_zimgasol() {",
                '    local word=${COMP_WORDS[COMP_CWORD]} before= command= words= i',
                "    ((COMP_CWORD > 0)) && before=${COMP_WORDS[COMP_CWORD - 1]}",
                "    for ((i = 1; i < COMP_CWORD; i++)); do",
                f'        case ${{COMP_WORDS[i]}} in {"|".join(commands)}) command=${{COMP_WORDS[i]}}; break ;; esac',
                "    done", "    COMPREPLY=()", "    case $command$before in")
    for name, one in commands.items():
        for it in one.options:
            if it.value:
                names = "|".join(name + each for each in it.names)
                yield f"        {names}) {bash_value(it)}; return ;;"
    yield from ("    esac", "    case $command in")
    for name, one in commands.items():
        yield f"        {name}) words='{' '.join(words_of(one))}' ;;"
    names = [it.names[0] for it in whole.commands]
    yield from (f"        *) words='{' '.join(names + words_of(whole))}' ;;", "    esac",
                "    if [[ -z $command || $word == -* ]]; then",
                '        COMPREPLY=($(compgen -W "$words" -- "$word"))',
                "    else", "        compopt -o filenames 2> /dev/null",
                '        mapfile -t COMPREPLY < <(compgen -f -- "$word")', "    fi", "}",
                "complete -F _zimgasol zimgasol")


def bash_value(item):
    if item.values:
        return f"COMPREPLY=($(compgen -W '{' '.join(item.values)}' -- \"$word\"))"
    if kind(item.value) == "folder":
        return 'compopt -o filenames 2> /dev/null; mapfile -t COMPREPLY < <(compgen -d -- "$word")'
    if kind(item.value) == "file":
        return 'compopt -o filenames 2> /dev/null; mapfile -t COMPREPLY < <(compgen -f -- "$word")'
    return ":"


def quoted(text):
    return text.replace("'", "'\\''")


def zsh_value(item):
    if item.values:
        return f":{item.value}:({' '.join(item.values)})"
    return f":{item.value}:" + {"file": "_files", "folder": "_files -/", "": " "}[kind(item.value)] if item.value else ""


def zsh(whole, commands):
    def escaped(text):
        return quoted(re.sub(r"([\[\]:\\])", r"\\\1", text))

    yield from ("#compdef zimgasol", "_zimgasol() {", "    local context state line", "    typeset -A opt_args", "    local -a commands",
                "    commands=(")
    for it in whole.commands:
        yield f"        '{it.names[0]}:{escaped(it.text)}'"
    yield from ("    )", "    _arguments -C " + " ".join(f"'{name}[{escaped(it.text)}]'" for it in whole.options for name in it.names) +
                " '1:command:->command' '*::argument:->arguments'",
                "    case $state in", "        command) _describe command commands ;;", "        arguments)", "            case $line[1] in")
    for name, one in commands.items():
        yield f"                {name}) _arguments \\"
        for it in one.options:
            repeated = "'*'" if "once for each" in it.text else ""
            for each in it.names:
                yield f"                    {repeated}'{each}[{escaped(it.text)}]{zsh_value(it)}' \\"
        yield "                    '*:FILE:_files' ;;"
    yield f"                help) _values command {' '.join(commands)} ;;"
    yield from ("            esac ;;", "    esac", "}", '_zimgasol "$@"')


def fish(whole, commands):
    yield "complete -c zimgasol -n __fish_use_subcommand -f"
    for it in whole.commands:
        yield f"complete -c zimgasol -n __fish_use_subcommand -a {it.names[0]} -d '{quoted(it.text)}'"
    for it in whole.options:
        yield f"complete -c zimgasol {fish_names(it)} -d '{quoted(it.text)}'"
    for name, one in commands.items():
        for it in one.options:
            value = f" -x -a '{' '.join(it.values)}'" if it.values else {"file": " -r -F", "folder": " -x -a '(__fish_complete_directories)'"}.get(
                kind(it.value), " -x") if it.value else ""
            yield f"complete -c zimgasol -n '__fish_seen_subcommand_from {name}' {fish_names(it)}{value} -d '{quoted(it.text)}'"


def fish_names(item):
    return " ".join(f"-l {it[2:]}" if it.startswith("--") else f"-s {it[1:]}" for it in item.names)


def main():
    if len(sys.argv) != 3:
        print(__doc__.strip(), file=sys.stderr)
        return 2
    program, folder = os.path.abspath(sys.argv[1]), Path(sys.argv[2])
    version = subprocess.run([program, "--version"], capture_output=True, text=True, check=True).stdout.split()[-1]
    whole, commands = all_of(program)
    folder.mkdir(parents=True, exist_ok=True)
    for name, lines in ((f"{NAME}.1", page(version, whole, commands)), (f"{NAME}.bash", bash(whole, commands)),
                        (f"_{NAME}", zsh(whole, commands)), (f"{NAME}.fish", fish(whole, commands))):
        (folder / name).write_text("\n".join(lines) + "\n")
    return 0


if __name__ == "__main__":
    sys.exit(main())
