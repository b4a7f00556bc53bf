#!/usr/bin/env python3
"""Draws the two pictures of docs/ARCHITECTURE.md, the pipeline and the crates, as SVG, from crates.txt.

    python3 tests/runners/pictures.py [--write]

The pipeline shows the stages with the types on the arrows between them. The picture of the crates has an arrow for each dependency in
crates.txt that no longer path implies; `dot` of Debian's package graphviz draws it with --write. Without --write the texts in docs/pictures
are compared with the crates. The last line is `N passed, M failed`.
"""
import argparse
import os
import subprocess
import sys

import suite
from sources import stands_on

FOLDER = os.path.join(suite.ROOT, "docs", "pictures")
# The two rows of stages in the picture of the pipeline. Each stage has its name, its crate, and the type on
# the arrow that leaves it. The first row compiles a program to an image, the second runs the image.
ROWS = (
    (("read", "cyclone", "text"), ("lex", "cyc_lex", "tokens"), ("parse", "cyc_parse", "Tree"), ("check", "cyc_check", "TypedTree"),
     ("flow", "cyc_flow", "Flowed"), ("lower", "cyc_lower", "Plain")),
    (("inline", "cyc_inline", "Plain"), ("propagate", "cyc_propagation", "Plain"), ("allocate", "cyc_registers", "Homes"),
     ("lay out", "cyc_frame", "Frames"), ("select", "cyc_select", "Code"), ("assemble", "cyc_asm", "words"), ("write", "cyc_elf", "image")),
    (("read", "cyc_elf", "Outline"), ("load", "cyc_machine", "Machine"), ("run", "cyc_system", "Report"), ("answer", "cyclone", "exit status")),
)
TITLES = ("front end", "back end", "run")
BOX, GAP, HEIGHT, STEP = 96, 74, 40, 96
STYLE = ("<style>rect.box{fill:#eef3fb;stroke:#456}rect.page{fill:#fff}text{font:13px sans-serif;fill:#123;text-anchor:middle}"
         "text.small{font-size:11px;fill:#456}text.left{text-anchor:start;font-weight:bold}path{stroke:#678;fill:none}</style>")
HEAD = '<marker id="head" orient="auto" markerWidth="7" markerHeight="7" refX="6" refY="3"><path d="M0,0 L6,3 L0,6 z" style="fill:#678"/></marker>'


def page(width, height, parts):
    """Returns an SVG picture of this size with these parts."""
    head = f'<svg xmlns="http://www.w3.org/2000/svg" viewBox="0 0 {width} {height}" width="{width}" height="{height}">'
    return "\n".join([head, STYLE, f"<defs>{HEAD}</defs>", f'<rect class="page" width="{width}" height="{height}"/>', *parts, "</svg>\n"])


def box(x, y, width, name, small=""):
    """Returns a box with a name, and a smaller line below it."""
    middle = x + width / 2
    lines = [f'<rect class="box" x="{x}" y="{y}" width="{width}" height="{HEIGHT}" rx="5"/>']
    lines.append(f'<text x="{middle}" y="{y + (17 if small else 25)}">{name}</text>')
    if small:
        lines.append(f'<text class="small" x="{middle}" y="{y + 32}">{small}</text>')
    return lines


def pipeline():
    """Returns the stages of the three rows, with types on the arrows."""
    parts = []
    for row, (title, stages) in enumerate(zip(TITLES, ROWS)):
        y = 30 + row * STEP
        parts.append(f'<text class="left" x="10" y="{y - 10}">{title}</text>')
        for at, (name, crate, made) in enumerate(stages):
            x = 10 + at * (BOX + GAP)
            parts += box(x, y, BOX, name, crate)
            parts.append(f'<path marker-end="url(#head)" d="M{x + BOX},{y + 20} h{GAP - 2}"/>')
            parts.append(f'<text class="small" x="{x + BOX + GAP / 2}" y="{y + 15}">{made}</text>')
    return page(20 + max(map(len, ROWS)) * (BOX + GAP), 20 + len(ROWS) * STEP, parts)


def needed(graph):
    """Returns the edges of the graph that no longer path implies."""
    reach = {}

    def below(crate):
        if crate not in reach:
            reach[crate] = set(graph[crate]).union(*map(below, graph[crate]))
        return reach[crate]

    return [(crate, it) for crate in graph for it in graph[crate] if not any(it in below(other) for other in graph[crate] if other != it)]


def crates():
    """Returns the graph of crates in the language of graphviz."""
    own = stands_on(suite.ROOT)
    graph = {crate: [it for it in below if it in own] for crate, below in own.items()}
    lines = [f'  "{crate}";' for crate in graph] + [f'  "{crate}" -> "{below}";' for crate, below in needed(graph)]
    style = '  rankdir=RL; nodesep=0.12; ranksep=0.5; bgcolor=white;\n  node [shape=box, style="rounded,filled", fillcolor="#eef3fb", ' \
        'color="#445566", fontname="sans-serif", fontsize=12, height=0.3, margin="0.08,0.03"];\n  edge [color="#667788", arrowsize=0.6];'
    return "\n".join(["digraph crates {", style, *lines, "}\n"])


def drawn_by_graphviz(text):
    """Returns the picture that `dot` of Debian's package graphviz draws for a graph."""
    return subprocess.run(["dot", "-Tsvg"], input=text, capture_output=True, text=True, check=True).stdout


PICTURES = {"pipeline.svg": pipeline, "crates.dot": crates}


def main():
    parser = argparse.ArgumentParser(description=__doc__, formatter_class=argparse.RawDescriptionHelpFormatter)
    parser.add_argument("--write", action="store_true")
    options = parser.parse_args()
    failed = 0
    for name, draw in PICTURES.items():
        path, drawn = os.path.join(FOLDER, name), draw()
        if options.write:
            with open(path, "w", encoding="utf-8") as file:
                file.write(drawn)
            if name.endswith(".dot"):
                with open(path[:-4] + ".svg", "w", encoding="utf-8") as file:
                    file.write(drawn_by_graphviz(drawn))
            continue
        there = ""
        if os.path.exists(path):
            with open(path, encoding="utf-8") as file:
                there = file.read()
        if there != drawn:
            failed += 1
            print(f"FAILED docs/pictures/{name} shows other crates: python3 tests/runners/pictures.py --write draws it")
    if not options.write:
        print(f"{len(PICTURES) - failed} passed, {failed} failed")
    return 1 if failed else 0


if __name__ == "__main__":
    sys.exit(main())
