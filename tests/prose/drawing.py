#!/usr/bin/env python3
"""Draws the crates in the layers of docs/ARCHITECTURE.md: each stands on crates of lower rows
alone, as crates.txt has it.

usage: drawing.py     writes docs/crates.svg
"""
import os
import sys

sys.dont_write_bytecode = True

WIDTH, HEIGHT, GAP, TITLE, FONT = 124, 26, 10, 160, 13


def rows_of_layer(names, crates):
    """Returns the crates of a layer in rows, the lowest first: a crate's row is the one above the
    highest of the layer that it stands on."""
    row = {}

    def row_of(name):
        if name not in row:
            row[name] = max((row_of(it) + 1 for it in crates[name] if it in names), default=0)
        return row[name]

    return [
        [it for it in names if row_of(it) == number]
        for number in range(max(map(row_of, names), default=-1) + 1)
    ]


def drawn(layers, crates):
    """Returns the drawing of layers, the lowest first, each with its crates, of crates with those
    that each stands on."""
    rows = {
        title: rows_of_layer([it for it in names if it in crates], crates)
        for title, names in layers.items()
    }
    widest = max((len(it) for its in rows.values() for it in its), default=0)
    width = TITLE + widest * (WIDTH + GAP) + 2 * GAP
    lines, top = [], GAP
    for title, its in reversed(rows.items()):
        height = len(its) * (HEIGHT + GAP) + GAP
        lines += [
            (
                f'<rect x="{GAP}" y="{top}" width="{width - 2 * GAP}" height="{height}" rx="3"'
                ' fill="#eee"/>'
            ),
            (
                f'<text x="{2 * GAP}" y="{top + height / 2 + FONT / 3:.1f}"'
                f' font-weight="bold">{title}</text>'
            ),
        ]
        for number, names in enumerate(reversed(its)):
            left, y = TITLE + GAP + (widest - len(names)) * (
                WIDTH + GAP
            ) / 2, top + GAP + number * (HEIGHT + GAP)
            for place, name in enumerate(names):
                x = left + place * (WIDTH + GAP)
                lines += [
                    (
                        f'<rect x="{x:g}" y="{y}" width="{WIDTH}" height="{HEIGHT}" rx="3"'
                        ' fill="white" stroke="black"/>'
                    ),
                    (
                        f'<text x="{x + WIDTH / 2:g}" y="{y + HEIGHT / 2 + FONT / 3:.1f}"'
                        f' text-anchor="middle">{name}</text>'
                    ),
                ]
        top += height + GAP
    head = [
        (
            f'<svg xmlns="http://www.w3.org/2000/svg" width="{width}" height="{top}"'
            f' font-family="sans-serif" font-size="{FONT}">'
        ),
        f'<rect width="{width}" height="{top}" fill="white"/>',
    ]
    return "\n".join([*head, *lines, "</svg>", ""])


if __name__ == "__main__":
    from run import TOP, crates_of, layers_of

    with open(f"{TOP}/docs/crates.svg", "w", encoding="utf-8") as file:
        file.write(drawn(layers_of(TOP), crates_of(TOP)))
    print(f"wrote {os.path.relpath(f'{TOP}/docs/crates.svg')}")
