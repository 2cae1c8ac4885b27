#!/usr/bin/env python3
"""Checks the documents: links to files and headings, files and functions named in code quotes, and quoted definitions.

    tools/links.py

A quoted definition or contract is a code block that begins with ```antt FILE or ```rust FILE: its lines must occur in that
file, one after the other. Of a name such as `tla_check::laws::two_calls_alike`, the last part must be a function, a type or a module of
that crate. Files such as `tla_core/specs/Value` may be named without the ending of definitions.
The status is 1 if something is missing.
"""
import argparse
import re
import sys
import urllib.parse

sys.dont_write_bytecode = True

from programs import TOP

LINK = re.compile(r"\[[^\]\n]*\]\(([^)\s]+)\)")
HEADING = re.compile(r"^#+ (.*)$", re.M)
QUOTED = re.compile(r"^```(?:antt|rust) (\S+)\n(.*?)^```", re.M | re.S)
BLOCK = re.compile(r"^```.*?^```\n|^    .*\n", re.M | re.S)
NAMED = re.compile(r"`((?:crates|tools|docs|examples|\.ci)/[\w./-]+)`")
IN_CRATE = re.compile(r"`((?:tla_\w+|tlacheck|acceptance|tests|counted_writer)/[\w./-]+)`")
ITEM = re.compile(r"`(tla_\w+)::(?:\w+::)*(\w+)`")


def anchors(page):
    """The anchors of a page's headings."""
    return {re.sub(r"[^\w\- ]", "", it.lower()).replace(" ", "-") for it in HEADING.findall(page.read_text())}


def wrong_in(page):
    """What is wrong in a page."""
    text = page.read_text()
    plain = BLOCK.sub("", text)
    for link in LINK.findall(re.sub(r"`[^`\n]*`", "", plain)):
        if re.match(r"\w+:", link):
            continue
        name, _, heading = urllib.parse.unquote(link).partition("#")
        target = (page.parent / name).resolve() if name else page
        if not target.exists():
            yield f"no file {link}"
        elif heading and heading not in anchors(target):
            yield f"no heading {link}"
    for name in NAMED.findall(plain):
        if not (TOP / name).exists() and "NAME" not in name and "/out/" not in name:
            yield f"no file {name}"
    for name in IN_CRATE.findall(plain):
        file = TOP / "crates" / name
        if not file.exists() and not file.with_suffix(".antt").exists():
            yield f"no file crates/{name}"
    for crate, item in ITEM.findall(plain):
        sources = "".join(it.read_text() for it in sorted((TOP / "crates" / crate / "src").rglob("*.rt")))
        if not re.search(rf"\b(?:fn|struct|enum|trait|const|mod) {item}\b", sources):
            yield f"no {item} in {crate}"
    for name, block in QUOTED.findall(text):
        file = TOP / name
        if not file.is_file() or block not in file.read_text():
            yield f"{name} doesn't have the lines that are quoted"


def main():
    argparse.ArgumentParser(description=__doc__, formatter_class=argparse.RawDescriptionHelpFormatter).parse_args()
    pages = [TOP / "README.md", *(TOP / "docs").rglob("*.md"), *(TOP / "crates").glob("*/data/*.md")]
    wrong = [f"{page.relative_to(TOP)}: {it}" for page in sorted(pages) for it in wrong_in(page)]
    for it in wrong:
        print(f"WRONG: {it}")
    print(f"{len(pages)} pages, {len(wrong)} wrong")
    return min(1, len(wrong))


if __name__ == "__main__":
    sys.exit(main())
