#!/bin/sh -e
# Proves crates/mig_c and what it stands on, and builds the library for C:
#
#   out/libzimgasol.a           the archive: one object, whose only global names begin with zimgasol_
#   out/libzimgasol.so.VERSION  the shared library, where a C compiler is there (CC, or else cc)
#
# Both want nothing but the C library. tools/lib.sh --only-link skips the proofs: it links what the
# last build of mig_c left.
cd "$(dirname "$0")/.."
top=$PWD
version=$(sed -n 's/^#define ZIMGASOL_VERSION "\(.*\)"$/\1/p' include/zimgasol.h)
built=${MIG_C_ARCHIVE:-crates/mig_c/out/libmig_c.a}
case $built in /*) ;; *) built=$top/$built ;; esac
for tool in ar ld objcopy nm readelf; do
    command -v $tool > /dev/null || { echo "lib.sh needs $tool, of binutils" >&2; exit 1; }
done
test "$1" = --only-link || tools/prove.py mig_c "half an hour and more"
kit=$(dirname "$(rt doc)")

# One object of all members, in which every other name than zimgasol_.. becomes local. The heap's
# three functions, over malloc, realloc and free, are the kit's. It is marked with the processors
# that it needs, and so are the programs that link it: the system's loader refuses them on others.
rm -rf out/objects && mkdir -p out/objects/mig_c out/objects/libc_c
(cd out/objects/mig_c && ar x "$built")
(cd out/objects/libc_c && ar x "$kit/c/liblibc_c.a")
ld -r -z x86-64-v2 -o out/objects/zimgasol.o out/objects/mig_c/*.o out/objects/libc_c/*.o
objcopy --wildcard --keep-global-symbol='zimgasol_*' out/objects/zimgasol.o
others=$(nm --defined-only --extern-only out/objects/zimgasol.o | awk '$3 !~ /^zimgasol_/ { print $3 }')
test -z "$others" || { echo "global names that aren't the library's: $others" >&2; exit 1; }
is_marked() {
    readelf -n "$1" 2> /dev/null | grep -q 'x86 ISA needed:.*x86-64-v2' && return
    echo "$1 isn't marked with the processors that it needs: ld is too old, or isn't GNU ld" >&2
    if ld --version | grep -q '^GNU ld'; then exit 1; fi
}
is_marked out/objects/zimgasol.o
rm -f out/libzimgasol.a out/libzimgasol.so*
ar rcsD out/libzimgasol.a out/objects/zimgasol.o
echo "built: out/libzimgasol.a"

# The shared library's name has the version's first number; before 1.0 a minor version may change
# what callers see, so the second one stands in it too. Each of its names has the same version, by
# zimgasol.map, so that a process may have two libraries of different versions.
if command -v "${CC:-cc}" > /dev/null; then
    soname=libzimgasol.so.${version%.*}
    "${CC:-cc}" -shared -Wl,-soname,"$soname" -Wl,-Bsymbolic -Wl,-z,relro,-z,now,-z,noexecstack \
        -Wl,-z,x86-64-v2 -Wl,--version-script=tools/package/zimgasol.map \
        -o out/objects/libzimgasol.so out/objects/zimgasol.o
    nm --defined-only --extern-only out/objects/zimgasol.o |
        awk -v "node=ZIMGASOL_${version%.*}" '{ print $3 "@@" node }' | sort > out/objects/wanted
    nm --dynamic --defined-only --with-symbol-versions out/objects/libzimgasol.so |
        awk '$2 != "A" { print $3 }' | sort > out/objects/names
    if ! diff out/objects/wanted out/objects/names; then
        echo "the shared library's names (>) aren't the archive's with their version (<)" >&2
        exit 1
    fi
    is_marked out/objects/libzimgasol.so
    mv out/objects/libzimgasol.so "out/libzimgasol.so.$version"
    # no symbolic links: rt ci refuses them in a repository
    ln "out/libzimgasol.so.$version" "out/$soname"
    ln "out/libzimgasol.so.$version" out/libzimgasol.so
    echo "built: out/libzimgasol.so.$version"
else
    echo "no C compiler (${CC:-cc}): no shared library"
fi
tools/records.py --linked "$built" out/libzimgasol.a "out/libzimgasol.so.$version"
rm -rf out/objects
