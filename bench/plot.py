#!/usr/bin/env python3
"""Draws the time of a slot over the cells that wait, proved beside plain, of the crossbar and of the output-queued switch, from
the lines that bench/run prints.

    bench/plot.py < target/bench/figures.tsv > docs/speed.svg
"""
import sys

WIDTH, HEIGHT = 680, 420
LEFT, RIGHT, TOP, BOTTOM = 80, 160, 50, 60
MOST_CELLS = 64
# the name of a line's figures, the column of its times there, its own name, its colour and its dashes
SIDES = [
    ("slot", 2, "crossbar, proved", "#1f5fa8", "none"),
    ("slot", 3, "crossbar, plain Rust", "#b4531a", "6 4"),
    ("oq slot", 2, "output-queued, proved", "#5f9fd8", "none"),
    ("oq slot", 3, "output-queued, plain Rust", "#d9935f", "6 4"),
]


def read_slots(lines):
    """The lines to draw, each with the cells and the times of its points."""
    figures = [line.rstrip("\n").split("\t") for line in lines]
    for name, column, *look in SIDES:
        points = [(float(f[1]), float(f[column])) for f in figures if f[0] == name and f[1] != "each"]
        if points:
            yield points, *look


def step_for(most):
    """The distance of the lines of the grid: at most six of them."""
    return next(s for k in range(9) for s in (10**k, 2 * 10**k, 5 * 10**k) if most <= 6 * s)


def text(x, y, words, anchor="middle", more=""):
    return f'<text x="{x:.1f}" y="{y:.1f}" text-anchor="{anchor}"{more}>{words}</text>'


def apart(ys):
    """The heights of the names, from above each at least a line below the one before."""
    heights, lowest = {}, 0
    for k in sorted(range(len(ys)), key=lambda k: ys[k]):
        heights[k] = lowest = max(ys[k], lowest + 16)
    return [heights[k] for k in range(len(ys))]


def draw(lines):
    most = max(ns for points, *_ in lines for _, ns in points)
    step = step_for(most)
    top = step * -(-most // step)
    x = lambda cells: LEFT + (WIDTH - LEFT - RIGHT) * cells / MOST_CELLS
    y = lambda ns: HEIGHT - BOTTOM - (HEIGHT - TOP - BOTTOM) * ns / top
    yield f'<svg xmlns="http://www.w3.org/2000/svg" viewBox="0 0 {WIDTH} {HEIGHT}" font-family="sans-serif" font-size="13" fill="#222">'
    yield f'<rect width="{WIDTH}" height="{HEIGHT}" fill="#fff"/>'
    yield text(x(MOST_CELLS / 2), 26, "A slot at N = 16: processor time over the cells that wait", more=' font-size="15"')
    for ns in range(0, int(top) + 1, step):
        yield f'<path d="M{x(0):.1f} {y(ns):.1f}H{x(MOST_CELLS):.1f}" stroke="#ddd"/>'
        yield text(x(0) - 8, y(ns) + 4, f"{ns:,}", "end")
    for cells in range(0, MOST_CELLS + 1, 8):
        yield f'<path d="M{x(cells):.1f} {y(0):.1f}v5" stroke="#222"/>'
        yield text(x(cells), y(0) + 20, cells)
    yield f'<path d="M{x(0):.1f} {y(top):.1f}V{y(0):.1f}H{x(MOST_CELLS):.1f}" fill="none" stroke="#222"/>'
    yield text(x(MOST_CELLS / 2), HEIGHT - 16, "cells waiting an input")
    yield text(0, 0, "nanoseconds a slot", more=f' transform="translate(20 {y(top / 2):.1f}) rotate(-90)"')
    heights = apart([y(points[-1][1]) for points, *_ in lines])
    for (points, name, colour, dashes), height in zip(lines, heights):
        places = [(x(cells), y(ns)) for cells, ns in points]
        path = " ".join(f"{across:.1f},{down:.1f}" for across, down in places)
        yield f'<polyline points="{path}" fill="none" stroke="{colour}" stroke-width="2" stroke-dasharray="{dashes}"/>'
        for across, down in places:
            yield f'<circle cx="{across:.1f}" cy="{down:.1f}" r="3.5" fill="{colour}"/>'
        yield text(places[-1][0] + 12, height + 4, name, "start", f' fill="{colour}"')
    yield "</svg>"


def main():
    lines = list(read_slots(sys.stdin))
    if not lines:
        sys.exit("no figures of slots: bench/run prints them")
    print("\n".join(draw(lines)))


main()
