#!/usr/bin/env python3
"""Prints the layers of the crates, from crates.txt, and checks the figure in docs/dev/architecture.md, the order of crates.txt and
its headings.

    tools/layers.py [--write]

A crate's layer is one above the highest of the crates that it names, and 0 if it names none. The columns are the subjects
that the comments of crates.txt give. In crates.txt, a line `# Layer N` stands above the crates of layer N.

The status is 1 if the page's figure differs, if a crate of crates.txt has no comment, if it comes before a crate that it names,
or if it isn't under the heading of its layer. --write puts the figure into the page, and each crate with its comments under
its heading. Within a layer the order stays.
"""
import argparse
import re
import sys
from typing import NamedTuple

sys.dont_write_bytecode = True

from programs import TOP

CRATES = TOP / "crates.txt"
PAGE = TOP / "docs" / "dev" / "architecture.md"
SUBJECTS = ("text", "model", "value", "search", "output")
WIDTH = 17
FIGURE = re.compile(r"(?<=```layers\n).*?(?=```\n)", re.S)
HEADING = re.compile(r"# Layer (\d+)$")


class Crate(NamedTuple):
    """A crate of crates.txt: its subject, the names on its line, the layer of its heading, and its lines, comments first."""

    subject: str
    names: list
    heading: int
    lines: list


def read():
    """The lines before the first empty one; each crate by its name, in the order of crates.txt; and what is wrong."""
    found, wrong = {}, []
    heading, comments = None, []
    head, _, rest = CRATES.read_text().partition("\n\n")
    for line in rest.splitlines():
        layer = HEADING.match(line)
        if layer:
            heading = int(layer[1])
        elif line.startswith("#"):
            comments.append(line)
        elif line.strip():
            name, _, names = line.partition("#")[0].partition(":")
            name = name.split()[0]
            words = [it[1:].split(":")[0].strip() for it in comments]
            subjects = [it for it in words if it in SUBJECTS]
            if not subjects:
                wrong.append(f"{name}: no comment before it begins with one of {', '.join(SUBJECTS)}")
            found[name] = Crate((subjects or SUBJECTS)[-1], names.split(), heading, [*comments, line])
            comments = []
    order = {name: index for index, name in enumerate(found)}
    for name, crate in found.items():
        late = [it for it in crate.names if order.get(it, -1) > order[name]]
        wrong += [f"{name} comes before {it}, which it names" for it in late]
    return head, found, wrong


def layers_of(found):
    """The layer of each crate."""
    layers = {}

    def layer(name):
        if name not in layers:
            layers[name] = 1 + max((layer(it) for it in found[name].names if it in found), default=-1)
        return layers[name]

    for name in found:
        layer(name)
    return layers


def figure(found, layers):
    """The lines of the figure, the highest layer first."""
    yield "   " + "".join(f"{subject:<{WIDTH}}" for subject in SUBJECTS).rstrip()
    for number in reversed(range(1 + max(layers.values()))):
        columns = [sorted(it for it in found if layers[it] == number and found[it].subject == subject) for subject in SUBJECTS]
        for row in range(max(map(len, columns))):
            cells = "".join(f"{column[row] if row < len(column) else '':<{WIDTH}}" for column in columns)
            yield f"{number if row == 0 else '':>2} {cells}".rstrip()


def in_layers(head, found, layers):
    """The text of crates.txt, with each crate under the heading of its layer."""
    lines = [head]
    for number in range(1 + max(layers.values())):
        lines += ["", f"# Layer {number}"]
        for name, crate in found.items():
            lines += crate.lines if layers[name] == number else []
    return "".join(f"{line}\n" for line in lines)


def main():
    parser = argparse.ArgumentParser(description=__doc__, formatter_class=argparse.RawDescriptionHelpFormatter)
    parser.add_argument("--write", action="store_true", help="put the figure into the page, and the headings into crates.txt")
    is_written = parser.parse_args().write
    head, found, wrong = read()
    layers = layers_of(found)
    if is_written:
        CRATES.write_text(in_layers(head, found, layers))
        head, found, wrong = read()
    for name, crate in found.items():
        if crate.heading != layers[name]:
            wrong.append(f"{name} is in layer {layers[name]}, and under heading {crate.heading}: run tools/layers.py --write")
    text = "".join(f"{line}\n" for line in figure(found, layers))
    page = PAGE.read_text()
    if is_written:
        PAGE.write_text(FIGURE.sub(lambda _: text, page))
    elif FIGURE.findall(page) != [text]:
        wrong.append(f"{PAGE.relative_to(TOP)} has another figure: run tools/layers.py --write")
    print(text, end="")
    for it in wrong:
        print(f"WRONG: {it}")
    return min(1, len(wrong))


if __name__ == "__main__":
    sys.exit(main())
