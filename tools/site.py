#!/usr/bin/env python3
"""Builds out/site: README.md, the other documents and the contracts as HTML, by pandoc.

tools/promises.py first writes the contracts, as Markdown, into out/contracts. A link to another
document leads to its page, and one to another file of the repository to a copy. It fails if a link of the site leads to no page, no file or no heading, or if a picture is of
another source (tools/pictures.py).

    tools/site.py
"""
import os
import re
import shutil
import subprocess
import sys
from html.parser import HTMLParser
from pathlib import Path
from string import Template

TOP = Path(__file__).resolve().parent.parent
SITE = TOP / "out" / "site"
# The pages, and the navigation in this order. Pages that no group names follow under the last
# heading, but those of crates' contracts, which the index of contracts lists.
SOURCES = ("*.md", "docs/**/*.md", "bindings/*/README.md", "examples/*/README.md",
           "crates/*/README.md", "out/contracts/*.md")
GROUPS = {
    "": "README docs/README",
    "A saved guest": "docs/use/ZIMGASOL docs/use/FAULTS docs/use/QEMU docs/use/SCALE "
                     "bindings/python/README examples/fleet/README",
    "In a hypervisor": "docs/use/EMBEDDING docs/use/C bindings/rust/README docs/use/FORMATS",
    "Proofs": "docs/trust/PROMISES out/contracts/CONTRACTS SECURITY",
    "To change it": "CONTRIBUTING docs/build/ARCHITECTURE docs/build/DECISIONS "
                    "docs/build/BENCHMARKS crates/mig_rows/README crates/mig_tool/README CHANGELOG", "More": ""}
# What the navigation calls pages whose headings say too little or too much there.
NAMES = {"docs/README": "All documents", "docs/use/ZIMGASOL": "The program",
         "docs/use/QEMU": "QEMU and libvirt", "bindings/python/README": "Python",
         "bindings/rust/README": "Rust", "docs/use/C": "C", "docs/use/EMBEDDING": "Which call",
         "examples/fleet/README": "Many saves"}
PAGE = Template((TOP / "tools" / "site.html").read_text())


class Links(HTMLParser):
    """The anchors of a page, and what it links to in the site."""

    def __init__(self, text):
        super().__init__()
        self.ids, self.links = {""}, []
        self.feed(text)

    def handle_starttag(self, tag, attributes):
        found = dict(attributes)
        self.ids.add(found.get("id", ""))
        links = [found[it] for it in ("href", "src") if found.get(it)]
        self.links += [it for it in links if not re.match("[a-z]+:", it)]


def file_of(page):
    """A page's file in the site; README.md is the front page, and what out/ has is beside it."""
    return "index.html" if page == "README" else f"{page.removeprefix('out/')}.html"


def path_of(page, seen_from):
    return os.path.relpath(file_of(page), os.path.dirname(file_of(seen_from)))


def linked(body, page, titles):
    """The body with its links led to pages, and with links where documents are named."""

    def mend(match):
        path, anchor = re.fullmatch(r"([^#]*)(#?.*)", match[1]).groups()
        file = os.path.normpath(os.path.join(os.path.dirname(page), path))
        if file.endswith(".md") and file[:-3] in titles:
            return f'<a href="{path_of(file[:-3], page)}{anchor}">{match[2]}</a>'
        if path and (TOP / file).is_dir():
            return match[2]  # a folder has no page
        if path and (TOP / file).is_file():
            return f'<a href="{os.path.relpath(file, os.path.dirname(file_of(page)))}">{match[2]}</a>'
        return match[0]

    def name(match):
        is_other = match[1] in titles and match[1] != page
        return f'<a href="{path_of(match[1], page)}">{match[0]}</a>' if is_other else match[0]

    body = re.sub(r'<a href="([^"]*)"[^>]*>(.*?)</a>', mend, body, flags=re.DOTALL)
    parts = re.split(r"(<a .*?</a>|<h\d.*?</h\d>|<pre.*?</pre>)", body, flags=re.DOTALL)
    parts[::2] = [re.sub(r"<code>([\w/]+)\.md</code>", name, it) for it in parts[::2]]
    return "".join(parts)


def navigation(page, titles):
    """The list of all pages but those of the contracts, which their index lists."""
    named = " ".join(GROUPS.values()).split()
    rest = [it for it in titles if it not in named and "contracts/" not in it]
    parts = []
    for heading, group in GROUPS.items():
        pages = filter(titles.get, rest if heading == "More" else group.split())
        rows = [f'<li><a href="{path_of(it, page)}"{" aria-current=page" * (it == page)}>'
                f"{NAMES.get(it, titles[it])}</a></li>" for it in pages]
        parts.append(f"<h2>{heading}</h2>" * bool(heading and rows) + f"<ul>{''.join(rows)}</ul>")
    return "".join(parts)


def build(page, titles):
    run = ["pandoc", "--from=gfm", "--to=html5", "--no-highlight", "--wrap=none",
           TOP / f"{page}.md"]
    ran = subprocess.run(run, capture_output=True, text=True)
    if ran.returncode:
        sys.exit(f"pandoc ended with status {ran.returncode} on {page}.md:\n{ran.stderr}")
    body = linked(ran.stdout, page, titles)
    body = re.sub(r"<table.*?</table>", r'<div class="wide">\g<0></div>', body, flags=re.DOTALL)
    body = re.sub(r'<img src="([^"]*)"[^>]*>', r'<a class="drawing" href="\1">\g<0></a>', body)
    style = os.path.relpath("site.css", os.path.dirname(file_of(page)))
    title = titles[page] if page == "README" else f"{titles[page]} · Zimgasol"
    text = PAGE.substitute(title=title, style=style, body=body, nav=navigation(page, titles))
    file = SITE / file_of(page)
    file.parent.mkdir(parents=True, exist_ok=True)
    file.write_text(text)
    return file_of(page), Links(text)


def broken(built):
    """Copies the files that pages link to, and returns the links that lead nowhere."""
    for page, link in ((page, link) for page, found in built.items() for link in found.links):
        path, _, anchor = link.partition("#")
        file = os.path.normpath(os.path.join(os.path.dirname(page), path)) if path else page
        if not (SITE / file).exists() and (TOP / file).is_file():
            (SITE / file).parent.mkdir(parents=True, exist_ok=True)
            shutil.copy(TOP / file, SITE / file)
        if not (SITE / file).is_file() or file in built and anchor not in built[file].ids:
            yield f"{page}: {link}"


def main():
    if len(sys.argv) > 1:
        sys.exit(__doc__)
    if not shutil.which("pandoc"):
        sys.exit("there is no pandoc on the PATH: apt-get update && apt-get install -y pandoc")
    if subprocess.run([sys.executable, TOP / "tools" / "promises.py"]).returncode:
        sys.exit("the contracts aren't written: tools/promises.py")
    pictures = subprocess.run([sys.executable, TOP / "tools" / "pictures.py", "--check"])
    files = sorted(file for it in SOURCES for file in TOP.glob(it))
    texts = {str(it.relative_to(TOP))[:-3]: it.read_text() for it in files}
    heading = re.compile(r"^# (.*)$", re.MULTILINE)
    titles = {it: heading.search(text)[1].replace("`", "") for it, text in texts.items()}
    shutil.rmtree(SITE, ignore_errors=True)
    built = dict(build(page, titles) for page in titles)
    shutil.copy(TOP / "tools" / "site.css", SITE)
    wrong = list(broken(built))
    print(f"{len(built)} pages in out/site, {sum(len(it.links) for it in built.values())} links")
    sys.exit("\n".join(["These lead nowhere:", *wrong]) if wrong else pictures.returncode)


main()
