#!/bin/sh -e
# Puts what was built, or the files of an unpacked release, below PREFIX, or below DESTDIR/PREFIX to
# make a package, or removes it:
#
#   tools/install.sh PREFIX
#   tools/install.sh --uninstall PREFIX
#
# Of the repository it installs
#
#   of `make lib`      header, archive, shared library where there is one, pkg-config file, CMake
#                      package, docs/use/C.md
#   of `make program`  bin/zimgasol, docs/use/ZIMGASOL.md, and below share the man page zimgasol.1
#                      and the completions for bash, zsh and fish, which tools/manual.py writes
#
# and the licence. A release (`make dist`) has all these, and more; its files are installed as they
# are, which needs a shell, coreutils, find and sed.
#
# Libraries go to LIBDIR, or else PREFIX/lib, and the header to INCLUDEDIR, or else PREFIX/include.
# PREFIX/share/doc/zimgasol/installed lists what was put, and the folders that were made for it.
# --uninstall removes what this file lists, and a folder only if it is empty then.
#
# The .pc file's URL is ZIMGASOL_URL, or else the installed page.
cd "$(dirname "$0")/.."
action=install
if [ "$1" = --uninstall ]; then
    action=uninstall
    shift
fi
if [ -z "$1" ]; then
    echo "tools/install.sh [--uninstall] PREFIX, or make $action PREFIX=DIR" >&2
    exit 2
fi

# Prints a folder's name from the root on, without a slash at its end.
whole() {
    case $1 in /*) printf '%s\n' "${1%/}" ;; *) printf '%s\n' "$PWD/${1%/}" ;; esac
}

prefix=$(whole "$1")
DESTDIR=$(test -z "$DESTDIR" || whole "$DESTDIR")
libdir=$(whole "${LIBDIR:-$prefix/lib}")
includedir=$(whole "${INCLUDEDIR:-$prefix/include}")
doc=$prefix/share/doc/zimgasol
list=$DESTDIR$doc/installed

if [ $action = uninstall ]; then
    if ! test -f "$list"; then
        echo "$list isn't there: nothing was installed" >&2
        exit 1
    fi
    # Files are removed first. In this order a folder comes after those inside it.
    listed=$(LC_ALL=C sort -r "$list")
    printf '%s\n' "$listed" | while IFS= read -r one; do
        case $one in */) ;; *) rm -f "$DESTDIR$one" ;; esac
    done
    rm -f "$list"
    printf '%s\n' "$listed" | while IFS= read -r one; do
        case $one in */) rmdir "$DESTDIR$one" 2> /dev/null || true ;; esac
    done
    echo "removed: what was installed below $DESTDIR$prefix"
    exit 0
fi

library=out/libzimgasol.a
program=crates/zimgasol_cli/out/zimgasol_cli
# A release has a folder bin, and the repository hasn't.
is_release=$(test ! -d bin || echo yes)
if test -z "$is_release" && ! test -f $library && ! test -f $program; then
    echo "make lib or make program comes first" >&2
    exit 1
fi
version=$(sed -n 's/^#define ZIMGASOL_VERSION "\(.*\)"$/\1/p' include/zimgasol.h)
series=${version%.*}
put=

# Notes what was put, or a folder that was made, whose name a slash ends.
note() {
    put="$put$1
"
}

# Adds what was noted to the list, also where a step failed.
save() {
    test -d "$DESTDIR$doc" || return 0
    { cat "$list" 2> /dev/null || true; printf %s "$put"; } | sort -u > "$list.new"
    chmod 644 "$list.new"
    mv "$list.new" "$list"
}

# Makes a folder, and before it those that it lies in.
folder() {
    test -d "$DESTDIR$1/" && return
    folder "${1%/*}"
    mkdir -m 755 "$DESTDIR$1"
    note "$1/"
}

# Puts a file, with the permissions of the first word: put_file MODE FILE TO
put_file() {
    folder "${3%/*}"
    install -m "$1" "$2" "$DESTDIR$3"
    note "$3"
}

# Puts a symbolic link: put_link TO LINK
put_link() {
    folder "${2%/*}"
    ln -sfn "$1" "$DESTDIR$2"
    note "$2"
}

# Puts a file of tools/package, with values for the names in @: put_filled FILE LIBDIR INCLUDEDIR TO
put_filled() {
    folder "${4%/*}"
    rm -f "$DESTDIR$4"
    sed "$(replaced prefix "$prefix"; replaced libdir "$2"; replaced includedir "$3"
        replaced url "${ZIMGASOL_URL:-file://$doc/C.md}"; replaced version "$version"
        replaced series "$series")" "tools/package/$1" > "$DESTDIR$4"
    chmod 644 "$DESTDIR$4"
    note "$4"
}

# Prints sed's command that replaces @NAME@ by a text.
replaced() {
    printf '%s\n' "s|@$1@|$(printf '%s\n' "$2" | sed 's/[\\|&]/\\&/g')|g"
}

# Prints a folder's name as a pkg-config file has it.
by_prefix() {
    case $1 in
        "$prefix"/*) printf '%s\n' "\${prefix}${1#"$prefix"}" ;;
        *) printf '%s\n' "$1" ;;
    esac
}

# Prints the way from one folder to another.
relative() {
    from=$1
    up=
    until case $2/ in "$from"/*) ;; *) false ;; esac; do
        from=${from%/*}
        up=../$up
    done
    down=$2/
    down=${down#"$from"/}
    way=$up${down%/}
    printf '%s\n' "${way%/}"
}

# Puts the files of a release as they are, but for those that name folders.
put_release() {
    IFS='
'
    for file in $(find bin include lib share ! -type d | LC_ALL=C sort); do
        case $file in
            lib/pkgconfig/* | lib/cmake/*) continue ;;
            lib/*) to=$libdir/${file#lib/} ;;
            include/*) to=$includedir/${file#include/} ;;
            *) to=$prefix/$file ;;
        esac
        if test -h "$file"; then
            put_link "$(readlink "$file")" "$to"
        else
            put_file "$(test -x "$file" && echo 755 || echo 644)" "$file" "$to"
        fi
    done
    unset IFS
}

# Puts what `make program` built, with what is made from its help.
put_program() {
    put_file 755 $program "$prefix/bin/zimgasol"
    put_file 644 docs/use/ZIMGASOL.md "$doc/ZIMGASOL.md"
    tools/manual.py $program "$made"
    share=$prefix/share
    put_file 644 "$made/zimgasol.1" "$share/man/man1/zimgasol.1"
    put_file 644 "$made/zimgasol.bash" "$share/bash-completion/completions/zimgasol"
    put_file 644 "$made/_zimgasol" "$share/zsh/site-functions/_zimgasol"
    put_file 644 "$made/zimgasol.fish" "$share/fish/vendor_completions.d/zimgasol.fish"
}

# Puts what `make lib` built.
put_library() {
    put_file 644 include/zimgasol.h "$includedir/zimgasol.h"
    put_file 644 $library "$libdir/libzimgasol.a"
    put_file 644 docs/use/C.md "$doc/C.md"
    test -f "out/libzimgasol.so.$version" || return 0
    put_file 755 "out/libzimgasol.so.$version" "$libdir/libzimgasol.so.$version"
    put_link "libzimgasol.so.$version" "$libdir/libzimgasol.so.$series"
    put_link "libzimgasol.so.$series" "$libdir/libzimgasol.so"
}

# Puts the pkg-config file and the CMake package, which name the folders.
put_packages() {
    put_filled zimgasol.pc.in "$(by_prefix "$libdir")" "$(by_prefix "$includedir")" \
        "$libdir/pkgconfig/zimgasol.pc"
    cmake=$libdir/cmake/zimgasol
    for file in zimgasolConfig.cmake zimgasolConfigVersion.cmake; do
        put_filled $file.in "$(relative "$cmake" "$libdir")" "$(relative "$cmake" "$includedir")" \
            "$cmake/$file"
    done
}

mkdir -p "$DESTDIR/"
made=$(mktemp -d)
trap 'save; rm -rf "$made"' EXIT
folder "$doc"
if test -n "$is_release"; then
    put_release
    put_packages
    echo "installed: the release, below $DESTDIR$prefix"
    exit 0
fi
put_file 644 LICENSE "$doc/LICENSE"
if test -f $program; then
    put_program
    echo "installed: $DESTDIR$prefix/bin/zimgasol"
fi
test -f $library || exit 0
put_library
put_packages
echo "installed: $DESTDIR$libdir/libzimgasol.a"
