"""The picture of the layers, docs/layers.svg: the crates of crates.txt under its headings, the first layer at the bottom."""
from checks.files import read

WIDTH, BOX, GAP, LINE, TITLE = 1040, 30, 10, 9, 24


def layers():
    """The headings of crates.txt, each with its crates and what each of these names."""
    found = []
    for line in read("crates.txt").splitlines()[1:]:
        if line.startswith("# "):
            found.append((line[2:], []))
        elif line:
            crate, named = line.split(":")
            found[-1][1].append((crate.split()[0], named.strip()))
    return found


def rows(crates):
    """The boxes of a layer, row by row, each with its place and its width."""
    place, row = 0, []
    for crate, named in crates:
        width = 20 + LINE * len(crate)
        if place + width > WIDTH - 40:
            yield row
            place, row = 0, []
        row.append((crate, named, place, width))
        place += width + GAP
    yield row


def box(crate, named, x, y, width):
    tip = f"{crate} names {named}" if named else f"{crate} names no other"
    return (
        f'<g><title>{tip}</title><rect x="{x}" y="{y}" width="{width}" height="{BOX}" rx="4" class="box"/>'
        f'<text x="{x + width / 2:g}" y="{y + 20}" class="crate">{crate}</text></g>'
    )


def layer(title, crates, y):
    """The lines of a layer that begins at a height, and how high it is."""
    lines, at = [f'<text x="20" y="{y + 17}" class="title">{title}</text>'], y + TITLE
    for row in rows(crates):
        lines += [box(crate, named, 20 + place, at, width) for crate, named, place, width in row]
        at += BOX + GAP
    return [f'<rect x="8" y="{y}" width="{WIDTH - 16}" height="{at - y}" rx="6" class="layer"/>', *lines], at - y


def picture():
    body, y = [], 8
    for title, crates in reversed(layers()):
        lines, height = layer(title, crates, y)
        body += lines
        y += height + 8
    style = (
        ".layer{fill:#f2f4f7;stroke:#c8cdd5}.box{fill:#fff;stroke:#4a6785}"
        ".title{font:13px sans-serif;fill:#555}.crate{font:14px monospace;fill:#1c2b3a;text-anchor:middle}"
    )
    head = f'<svg xmlns="http://www.w3.org/2000/svg" width="{WIDTH}" height="{y}" viewBox="0 0 {WIDTH} {y}">'
    return "\n".join([head, f"<style>{style}</style>", *body, "</svg>"]) + "\n"
