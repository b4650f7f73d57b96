#!/usr/bin/env python3
"""Installs the library for C into temporary folders, builds programs with it, and removes it again.

    tools/try_install.py

It comes after `make lib`. `make install` puts the library into the folders of a distribution with
DESTDIR and LIBDIR, and into a prefix of its own. Programs in C are linked with the shared library
and with the archive, by pkg-config and by CMake, also after the files were moved, and run. A
program in C++ is compiled with warnings as errors. A call whose status is ignored has a warning.
`make uninstall` removes what was put, and nothing else. What isn't installed on this machine is
said to be skipped: pkg-config, CMake, a compiler of C++.
"""

import os
import pathlib
import re
import shlex
import shutil
import subprocess
import sys
import tempfile

TOP = pathlib.Path(__file__).resolve().parent.parent
TESTS = TOP / "examples/c/tests"
PROGRAM = TOP / "crates/zimgasol_cli/out/zimgasol_cli"
HEADER = (TOP / "include/zimgasol.h").read_text()
VERSION = re.search(r'VERSION "(.*)"', HEADER)[1]
MAJOR, MINOR, PATCH = (int(part) for part in VERSION.split("."))
SERIES = f"{MAJOR}.{MINOR}"
LIBDIR = "/usr/lib/x86_64-linux-gnu"
SECONDS = 300

CC = os.environ.get("CC", "cc")
C_FLAGS = ["-std=c11", "-Wall", "-Wextra", "-Wpedantic", "-Werror"]
CPP_FLAGS = ["-Wall", "-Wextra", "-Wpedantic", "-Wmissing-field-initializers", "-Wold-style-cast", "-Wzero-as-null-pointer-constant", "-Werror"]
CPP_COMPILERS = [os.environ["CXX"]] if "CXX" in os.environ else ["g++", "clang++"]

# the environment of each command: without what a caller has set of that which is set here
ENVIRONMENT = {name: value for name, value in os.environ.items()
               if not re.match(r"PREFIX|LIBDIR|INCLUDEDIR|DESTDIR|MAKE|MFLAGS|PKG_CONFIG|CMAKE|LD_LIBRARY_PATH|ZIMGASOL_URL", name)}

# a library's files below the folder of libraries, with what a symbolic link leads to
LIBRARY = {
    "libzimgasol.a": None,
    "libzimgasol.so": f"libzimgasol.so.{SERIES}",
    f"libzimgasol.so.{SERIES}": f"libzimgasol.so.{VERSION}",
    f"libzimgasol.so.{VERSION}": None,
    "pkgconfig/zimgasol.pc": None,
    "cmake/zimgasol/zimgasolConfig.cmake": None,
    "cmake/zimgasol/zimgasolConfigVersion.cmake": None,
}
DOCUMENTS = ["LICENSE", "C.md", "installed"]
# the files of the program below a prefix, but for its page
PROGRAMS = ["bin/zimgasol", "share/man/man1/zimgasol.1", "share/bash-completion/completions/zimgasol", "share/zsh/site-functions/_zimgasol",
            "share/fish/vendor_completions.d/zimgasol.fish"]

PROJECT = """cmake_minimum_required(VERSION 3.10)
project(installed C)
find_package(zimgasol {series} REQUIRED CONFIG)
add_executable(shared installed.c)
target_link_libraries(shared PRIVATE zimgasol::zimgasol)
add_executable(static installed.c)
target_link_libraries(static PRIVATE zimgasol::static)
"""

# prints for each version whether the package serves it
ASKED = """cmake_minimum_required(VERSION 3.10)
project(asked NONE)
function(ask)
    find_package(zimgasol ${{ARGV}} QUIET CONFIG PATHS "{folder}" NO_DEFAULT_PATH)
    string(REPLACE ";" " " words "${{ARGV}}")
    message(STATUS "asked ${{words}}: ${{zimgasol_FOUND}}")
    unset(zimgasol_DIR CACHE)
endfunction()
"""


def run(*words, status=0, folder=None, **environment):
    """Runs a command, which ends with this status, and returns its output."""
    words = [str(word) for word in words]
    given = {**ENVIRONMENT, **{name: str(value) for name, value in environment.items()}}
    done = subprocess.run(words, cwd=folder or TOP, env=given, capture_output=True, text=True, errors="replace", timeout=SECONDS)
    if done.returncode != status:
        sys.exit(f"{shlex.join(words)}: status {done.returncode}, not {status}\n{done.stdout[-4000:]}{done.stderr[-4000:]}")
    return done.stdout


def below(folder):
    """All that lies below a folder: each name with what it leads to, where it is a link."""
    return {str(path.relative_to(folder)): os.readlink(path) if path.is_symlink() else None
            for path in folder.rglob("*") if path.is_symlink() or not path.is_dir()}


def wanted(prefix, libdir, includedir):
    """All that is installed there."""
    names = {f"{libdir}/{name}": link for name, link in LIBRARY.items()}
    names[f"{includedir}/zimgasol.h"] = None
    documents = DOCUMENTS + ["ZIMGASOL.md"] * PROGRAM.is_file()
    names.update({f"{prefix}/share/doc/zimgasol/{name}": None for name in documents})
    return {**names, **({f"{prefix}/{name}": None for name in PROGRAMS} if PROGRAM.is_file() else {})}


def compare(what, found, expected):
    if found != expected:
        sys.exit(f"{what}: {found} and not {expected}")


# ---- programs


def try_program(program, shared, library_path=""):
    """A program prints the version, and needs the shared library, by its name and version, or doesn't."""
    compare(program, run(program, LD_LIBRARY_PATH=library_path), f"{VERSION}\n")
    needed = re.findall(r"\(NEEDED\).*\[(libzimgasol.*)\]", run("readelf", "--dynamic", program))
    compare(f"what {program} needs", needed, [f"libzimgasol.so.{SERIES}"] if shared else [])
    names = set(re.findall(r" UND zimgasol_\w+(@\S+)?", run("readelf", "--dyn-syms", "--wide", program)))
    compare(f"versions of the names in {program}", names, {f"@ZIMGASOL_{SERIES}"} if shared else set())
    if "x86-64-v2" in run("readelf", "-n", TOP / "out/libzimgasol.a") and "x86-64-v2" not in run("readelf", "-n", program if not shared else TOP / "out/libzimgasol.so"):
        sys.exit(f"{program} isn't marked with the processors that it needs")


def by_pkg_config(libdir, out, sysroot=""):
    """Builds a program by pkg-config, with the shared library and with the archive."""
    # a folder of the system is named, too, since it lies in another root here
    environment = {"PKG_CONFIG_LIBDIR": libdir / "pkgconfig", "PKG_CONFIG_SYSROOT_DIR": sysroot,
                   "PKG_CONFIG_ALLOW_SYSTEM_CFLAGS": 1, "PKG_CONFIG_ALLOW_SYSTEM_LIBS": 1}
    flags = shlex.split(run("pkg-config", "--cflags", "--libs", "zimgasol", **environment))
    compare("pkg-config's version", run("pkg-config", "--modversion", "zimgasol", **environment).strip(), VERSION)
    run(CC, *C_FLAGS, "-o", out / "shared", TESTS / "installed.c", *flags)
    try_program(out / "shared", True, libdir)
    flags = ["-l:libzimgasol.a" if flag == "-lzimgasol" else flag for flag in flags]
    run(CC, *C_FLAGS, "-o", out / "static", TESTS / "installed.c", *flags)
    try_program(out / "static", False)


def by_cmake(out, *where, shared=True):
    """Builds a program by CMake, with both targets. `shared`: whether the shared library is there."""
    shutil.rmtree(out, ignore_errors=True)
    out.mkdir()
    shutil.copy(TESTS / "installed.c", out)
    (out / "CMakeLists.txt").write_text(PROJECT.format(series=SERIES))
    run("cmake", "-S", out, "-B", out / "build", f"-DCMAKE_C_COMPILER={shutil.which(CC)}", *where)
    run("cmake", "--build", out / "build")
    try_program(out / "build/shared", shared)
    try_program(out / "build/static", False)


def asked_by_cmake(out, package):
    """The versions that the package serves, and those that it doesn't."""
    serves = {"": True, SERIES: True, VERSION: True, f"{VERSION} EXACT": True, f"0.0...{SERIES}.{PATCH + 1}": True,
              f"0.0...{VERSION}": True, f"{VERSION}...{MAJOR + 1}.0": True}
    serves.update({f"{SERIES}.{PATCH + 1}": False, f"{MAJOR}.{MINOR + 1}": False, f"{MAJOR + 1}.{MINOR}": False, f"{MAJOR + 1}": False,
                   f"{MAJOR}.{MINOR - 1}" if MINOR else f"{MAJOR - 1}.0": False, f"0.0...<{VERSION}": False, f"{SERIES}.{PATCH + 1}...{MAJOR + 1}.0": False})
    if [int(part) for part in re.search(r"version (\d+)\.(\d+)", run("cmake", "--version")).groups()] < [3, 19]:
        serves = {version: served for version, served in serves.items() if "..." not in version}  # it has no ranges yet
    out.mkdir()
    (out / "CMakeLists.txt").write_text(ASKED.format(folder=package) + "".join(f"ask({version})\n" for version in serves))
    said = re.findall(r"asked (.*): (\w+)", run("cmake", "-S", out, "-B", out / "build"))
    compare("versions that CMake finds", {version: found == "1" for version, found in said}, serves)
    return len(serves)


def in_cpp(compiler, out, include):
    """The header in C++, without a warning."""
    for standard in ("c++11", "c++17"):
        program = out / "cpp"
        run(compiler, f"-std={standard}", *CPP_FLAGS, f"-I{include}", "-o", program, TESTS / "installed.cpp", TOP / "out/libzimgasol.a")
        compare("what a program in C++ prints", run(program).splitlines()[-1], VERSION)


def ignored(out, words):
    """A status that is ignored has a warning, unless the program defines the macro itself."""
    source = out / "ignored.c"
    source.write_text("#include <zimgasol.h>\nvoid end(zimgasol_send *send);\n"
                      "void end(zimgasol_send *send) { zimgasol_send_end_round(send); }\n")
    command = [*words, f"-I{TOP}/include", "-Wall", "-c", "-o", out / "ignored.o", source]
    run(*command, "-DZIMGASOL_CHECKED=ZIMGASOL_API", "-Werror")
    done = subprocess.run([str(word) for word in [*command, "-Werror=unused-result"]], env=ENVIRONMENT, capture_output=True, text=True)
    if done.returncode == 0 or "zimgasol_send_end_round" not in done.stderr:
        sys.exit(f"{shlex.join(words)}: a status that is ignored has no warning\n{done.stderr}")


# ---- where it is installed


def in_a_distribution(folder, has):
    """The folders of a distribution, below DESTDIR, and the same files after they were moved."""
    root, out = folder / "root", folder / "out"
    words = ["PREFIX=/usr", f"LIBDIR={LIBDIR}", f"DESTDIR={root}"]
    run("make", "-s", "install", *words)
    compare("installed", below(root), wanted("usr", LIBDIR[1:], "usr/include"))
    for name, source in (("usr/include/zimgasol.h", "include/zimgasol.h"), (f"{LIBDIR[1:]}/libzimgasol.a", "out/libzimgasol.a"),
                         ("usr/share/doc/zimgasol/C.md", "docs/use/C.md")):
        compare(f"whether {name} is {source}", (root / name).read_bytes() == (TOP / source).read_bytes(), True)
    print(f"installed into {LIBDIR} below DESTDIR: {len(below(root))} files and links")
    if has["pkg-config"]:
        by_pkg_config(root / LIBDIR[1:], out, root)
        variables = [run("pkg-config", f"--variable={name}", "zimgasol", PKG_CONFIG_LIBDIR=root / LIBDIR[1:] / "pkgconfig").strip()
                     for name in ("prefix", "libdir", "includedir")]
        compare("pkg-config's folders", variables, ["/usr", LIBDIR, "/usr/include"])
        print("built by pkg-config, with the shared library and with the archive")
    if has["cmake"]:
        package = f"{LIBDIR[1:]}/cmake/zimgasol"
        by_cmake(folder / "project", f"-Dzimgasol_DIR={root / package}")
        print(f"asked for by CMake in {asked_by_cmake(folder / 'asked', root / package)} ways: served, or not")
        moved = folder / "moved & renamed"
        shutil.copytree(root / "usr", moved / "usr", symlinks=True)
        os.symlink("usr/lib", moved / "lib")
        run("make", "-s", "uninstall", *words)
        by_cmake(folder / "project", f"-Dzimgasol_DIR={moved / package}")
        by_cmake(folder / "project", f"-Dzimgasol_DIR={moved / package.removeprefix('usr/')}")
        for file in (moved / LIBDIR[1:]).glob("libzimgasol.so*"):
            file.unlink()
        by_cmake(folder / "project", f"-Dzimgasol_DIR={moved / package}", shared=False)
        print("built by CMake: where it was installed, moved, through a link, and without the shared library")
    else:
        run("make", "-s", "uninstall", *words)
    compare("what uninstall leaves", list(root.iterdir()), [])
    run("make", "-s", "uninstall", *words, status=2)
    print("uninstalled: nothing is left")


def in_a_prefix(folder, has):
    """A prefix that has other files, an include folder of its own, and a second folder of libraries."""
    prefix = folder / "prefix"
    (prefix / "share/doc/zimgasol").mkdir(parents=True)
    (prefix / "share/doc/zimgasol/notes").write_text("mine\n")
    (prefix / "lib/pkgconfig").mkdir(parents=True)
    (prefix / "include").mkdir()
    (prefix / "include/other.h").write_text("\n")
    before = sorted(str(path) for path in prefix.rglob("*"))
    words = [f"PREFIX={prefix}", f"INCLUDEDIR={prefix}/include/zimgasol-{SERIES}"]
    run("make", "-s", "install", *words)
    if has["pkg-config"]:
        by_pkg_config(prefix / "lib", folder / "out")
    if has["cmake"]:
        by_cmake(folder / "project", f"-DCMAKE_PREFIX_PATH={prefix}")
    run("make", "-s", "install", *words, f"LIBDIR={prefix}/lib64")
    installed = {**wanted(".", "lib", f"include/zimgasol-{SERIES}"), **wanted(".", "lib64", f"include/zimgasol-{SERIES}")}
    expected = {str(pathlib.Path(name)): link for name, link in installed.items()}
    compare("installed", below(prefix), {**expected, "share/doc/zimgasol/notes": None, "include/other.h": None})
    later = prefix / "lib64/pkgconfig/other.pc"
    later.write_text("\n")
    run("make", "-s", "uninstall", *words)
    before = sorted([*before, str(later), str(later.parent), str(later.parent.parent)])
    compare("what uninstall leaves", sorted(str(path) for path in prefix.rglob("*")), before)
    print("installed twice beside other files, and uninstalled: these are left, and folders that were there before")


def in_an_odd_place(folder):
    """Names that sed's commands and a shell would read otherwise."""
    odd = folder / "a b&c|d\\e"
    run("make", "-s", "install", f"PREFIX={odd}")
    lines = (odd / "lib/pkgconfig/zimgasol.pc").read_text().splitlines()
    compare("the .pc file", lines[:4], [f"prefix={odd}", "exec_prefix=${prefix}", "libdir=${prefix}/lib", "includedir=${prefix}/include"])
    run("make", "-s", "uninstall", f"PREFIX={odd}")
    compare("whether the folder is left", odd.exists(), False)


def main():
    if not (TOP / f"out/libzimgasol.so.{VERSION}").exists():
        sys.exit(f"out/libzimgasol.so.{VERSION} isn't there: make lib")
    has = {name: shutil.which(name) is not None for name in ("pkg-config", "cmake")}
    with tempfile.TemporaryDirectory() as name:
        folder = pathlib.Path(name)
        (folder / "out").mkdir()
        in_a_distribution(folder, has)
        in_a_prefix(folder, has)
        in_an_odd_place(folder)
        for standard in ("c99", "c11", "c2x"):
            ignored(folder, [CC, f"-std={standard}"])
        compilers = list(filter(shutil.which, CPP_COMPILERS))
        for compiler in compilers:
            in_cpp(compiler, folder / "out", TOP / "include")
            for standard in ("c++11", "c++17"):
                ignored(folder, [compiler, "-x", "c++", f"-std={standard}"])
        print(f"C++11 and C++17 without a warning: {', '.join(compilers) or 'skipped: no compiler of C++'}; a status that is ignored has one")
    for name in (name for name, there in has.items() if not there):
        print(f"skipped: no {name}")


main()
