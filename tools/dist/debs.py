"""Makes the Debian packages of a release from the files that its own tools/install.sh puts.

`zimgasol` has the programs, `libzimgasol0.3` the shared library, where 0.3 is the series, and
`libzimgasol-dev` what programs are built with. Dependencies are those that dpkg-shlibdeps finds.
"""
import gzip
import hashlib
import os
import re
import shutil
import subprocess
from datetime import datetime, timezone
from email.utils import format_datetime
from pathlib import Path

LIBDIR = "usr/lib/x86_64-linux-gnu"
MAINTAINER = "Zimgasol maintainers <maintainers@users.noreply.zimgasol.example>"
FIELDS = Path(__file__).resolve().parent / "debian"
DOC = "usr/share/doc/zimgasol/"
# how long a command may take
SECONDS = 1800
# Where a file goes: the package, and its name there if it is another. The first that fits counts.
PLACES = (
    (r"usr/bin/.*|usr/share/(man|bash-completion|fish)/.*", "zimgasol", None),
    (r"usr/share/zsh/site-functions/(.*)", "zimgasol", r"usr/share/zsh/vendor-completions/\1"),
    (rf"{DOC}(ZIMGASOL\.md|examples/(guest\.sav|scenario))", "zimgasol", None),
    (rf"{LIBDIR}/libzimgasol\.so\..*", "libzimgasol{series}", None),
    (rf"(usr/include|{LIBDIR})/.*", "libzimgasol-dev", None),
    (rf"{DOC}(C\.md|html/.*|examples/page\.c)", "libzimgasol-dev", rf"usr/share/doc/libzimgasol-dev/\1"),
)
# what each package has a copy of, or of which its `copyright` has the text
EVERYWHERE = ("PROVED.txt",)
LEFT_OUT = ("LICENSE", "THIRD-PARTY.txt", "installed")


def run(*words, **how):
    return subprocess.run([str(it) for it in words], check=True, timeout=SECONDS, **how)


def split(root, release, folder):
    """Moves the installed files into a folder for each package, and returns these folders by name."""
    found = {}
    for file in sorted(it for it in root.rglob("*") if it.is_symlink() or it.is_file()):
        name = str(file.relative_to(root))
        if name.startswith(DOC) and name[len(DOC):] in EVERYWHERE + LEFT_OUT:
            continue
        place = next((it for it in PLACES if re.fullmatch(it[0], name)), None)
        if place is None:
            raise ValueError(f"{name} belongs to no package: tools/dist/debs.py")
        package = place[1].format(series=release.series)
        to = folder / package / (re.sub(place[0], place[2], name) if place[2] else name)
        to.parent.mkdir(parents=True, exist_ok=True)
        file.rename(to)
        found[package] = folder / package
    return found


def put(file, data):
    file.parent.mkdir(parents=True, exist_ok=True)
    file.write_bytes(data)


def changelog(release):
    date = format_datetime(datetime.fromtimestamp(release.epoch, timezone.utc))
    return (f"zimgasol ({release.deb_version}) unstable; urgency=medium\n\n  * {release.status}.\n"
            f"  * Of commit {release.commit}.\n\n -- {MAINTAINER}  {date}\n")


def add_documents(package, top, root, release):
    """Adds what the policy asks for below usr/share/doc, and compresses man pages."""
    doc = top / "usr/share/doc" / package
    put(doc / "copyright", release.copyright.encode())
    put(doc / "changelog.gz", gzip.compress(changelog(release).encode(), 9, mtime=0))
    for name in EVERYWHERE:
        put(doc / name, (root / DOC / name).read_bytes())
    for page in top.glob("usr/share/man/man*/*.[0-9]"):
        put(page.with_name(f"{page.name}.gz"), gzip.compress(page.read_bytes(), 9, mtime=0))
        page.unlink()
    overrides = FIELDS / f"{re.sub(r'[0-9.]+$', '', package)}.overrides"
    if overrides.is_file():
        text = overrides.read_text().replace("@package@", package)
        put(top / "usr/share/lintian/overrides" / package, text.encode())


def depends(top, folder):
    """Returns what the package's programs and libraries need of the system, by dpkg-shlibdeps."""
    binaries = [it for it in top.rglob("*") if it.is_file() and not it.is_symlink() and it.read_bytes()[:4] == b"\x7fELF"]
    if not binaries:
        return ""
    (folder / "debian").mkdir(exist_ok=True)
    (top / "DEBIAN").mkdir()
    (folder / "debian/control").write_text("Source: zimgasol\n\nPackage: zimgasol\nArchitecture: amd64\n")
    ran = run("dpkg-shlibdeps", "-O", *binaries, cwd=folder, stdout=subprocess.PIPE, text=True)
    return ran.stdout.strip().partition("Depends=")[2]


def control(package, top, folder, release):
    """Writes the control files of a package."""
    files = sorted(it for it in top.rglob("*") if it.is_file() and not it.is_symlink())
    size = sum((it.stat().st_size + 1023) // 1024 for it in files)
    needed = depends(top, folder)
    text = (FIELDS / f"{re.sub(r'[0-9.]+$', '', package)}.control").read_text()
    for name, value in (("package", package), ("version", release.deb_version), ("maintainer", MAINTAINER), ("size", str(size)),
                        ("depends", needed), ("series", release.series)):
        text = text.replace(f"@{name}@", value)
    put(top / "DEBIAN/control", text.encode())
    sums = "".join(f"{hashlib.md5(it.read_bytes()).hexdigest()}  {it.relative_to(top)}\n" for it in files)
    put(top / "DEBIAN/md5sums", sums.encode())
    if package == f"libzimgasol{release.series}":
        put(top / "DEBIAN/shlibs", f"libzimgasol {release.series} {package} (>= {release.deb_version})\n".encode())
        put(top / "DEBIAN/triggers", b"activate-noawait ldconfig\n")


def settle(top, epoch):
    """Gives all files the modes that the policy asks for, and one time."""
    for it in [top, *top.rglob("*")]:
        if not it.is_symlink():
            is_program = it.is_dir() or it.parent == top / "usr/bin"
            it.chmod(0o755 if is_program else 0o644)
        os.utime(it, (epoch, epoch), follow_symlinks=False)


def make(tree, release, folder, out):
    """Makes the packages of the release in `tree`, with `folder` for what is made on the way. Returns their files."""
    root = folder / "root"
    environment = {**os.environ, "DESTDIR": str(root), "LIBDIR": f"/{LIBDIR}", "INCLUDEDIR": "/usr/include",
                   "ZIMGASOL_URL": "file:///usr/share/doc/libzimgasol-dev/C.md"}
    run(tree / "tools/install.sh", "/usr", env=environment, stdout=subprocess.DEVNULL)
    made = []
    for package, top in sorted(split(root, release, folder / "packages").items()):
        add_documents(package, top, root, release)
        control(package, top, folder, release)
        settle(top, release.epoch)
        made.append(out / f"{package}_{release.deb_version}_amd64.deb")
        run("dpkg-deb", "--root-owner-group", "-Zxz", "--threads-max=1", "--build", top, made[-1],
            env={**os.environ, "SOURCE_DATE_EPOCH": str(release.epoch)}, stdout=subprocess.DEVNULL)
    shutil.rmtree(folder / "packages")
    return made
