#!/usr/bin/env python3
"""Draws the groups of crates of crates.txt as docs/crates.svg.

    python3 scripts/crates_svg.py [--check] [TOP OF THE REPOSITORY]

A group is a comment line of crates.txt with the crates below it. It stands on
another group if one of its crates names one of the other's. Each group is a box that
lists its crates, above the groups on which it stands: its layer is the longest path
down to it. Groups whose names have the same words before a colon are in one layer.
An arrow leads to each group on which a group stands directly; those that follow from
other arrows are left out.

With `--check` it writes nothing, and ends with status 1 if docs/crates.svg is not
what it would write.
"""
import argparse
import functools
import html
import os
import sys

MARGIN, GAP, SPACE = 16, 24, 56  # around the picture, between boxes of a layer, between layers
PAD, TITLE, LINE, LETTER, TITLE_LETTER = 12, 22, 16, 7.3, 7.8
WIDEST = 62  # letters in a line of a box that is alone in its layer

HEAD = """<svg xmlns="http://www.w3.org/2000/svg" width="{width}" height="{height}" viewBox="0 0 {width} {height}" role="img">
<title>The groups of crates, and on which groups each stands</title>
<style>
rect {{ fill: #ffffff; stroke: #57606a; }}
text {{ fill: #1f2328; font: 12px ui-monospace, "DejaVu Sans Mono", Menlo, Consolas, monospace; }}
text.group {{ font: bold 13px "Helvetica Neue", Arial, "DejaVu Sans", sans-serif; }}
path.arrow {{ fill: none; stroke: #7d8590; stroke-width: 1.5; }}
path.head {{ fill: #7d8590; }}
</style>"""


def groups_of(top):
    """The groups in order, each with its crates; and for each group those on which it stands."""
    groups, group_of, named = {}, {}, {}
    with open(f"{top}/crates.txt", encoding="utf-8") as file:
        for line in map(str.strip, file):
            if line.startswith("#"):
                group = line[1:].strip()
                groups[group] = []
            elif line:
                name, _, below = line.partition(":")
                groups[group].append(name)
                group_of[name], named[name] = group, below.split()
    stands_on = {group: set() for group in groups}
    for name, below in named.items():
        stands_on[group_of[name]] |= {group_of[other] for other in below if other in group_of} - {group_of[name]}
    return {group: crates for group, crates in groups.items() if crates}, stands_on


def arrows_of(groups, stands_on):
    """The pairs (group, group on which it stands) without those that follow from others."""

    @functools.lru_cache(maxsize=None)
    def reached(group):
        return frozenset(stands_on[group]).union(*map(reached, stands_on[group]))

    def is_direct(group, below):
        return below in stands_on[group] and not any(below in reached(other) for other in stands_on[group])

    return [(group, below) for group in groups for below in groups if is_direct(group, below)]


def layers_of(groups, arrows):
    """The layers from the top, each a list of groups in the order of crates.txt."""

    def family(group):
        return group.partition(":")[0]

    layer = dict.fromkeys(groups, 0)
    for _ in groups:
        for group, below in arrows:
            if family(group) != family(below):
                layer[below] = max(layer[below], layer[group] + 1)
        for group in groups:
            layer[group] = max(layer[other] for other in groups if family(other) == family(group))
    return [[group for group in groups if layer[group] == number] for number in range(max(layer.values()) + 1)]


def lines_of(crates, is_alone):
    """The lines that list the crates of a box: one for each, or several in a line of a box that is alone."""
    lines = []
    for crate in crates:
        if is_alone and lines and len(lines[-1]) + 2 + len(crate) <= WIDEST:
            lines[-1] += "  " + crate
        else:
            lines.append(crate)
    return lines


def boxes_of(groups, arrows):
    """For each group its box (left, top, width, height, lines); and the rows of boxes."""
    rows = layers_of(groups, arrows)
    lines = {group: lines_of(groups[group], len(row) == 1) for row in rows for group in row}
    width = {group: 2 * PAD + max(LETTER * max(map(len, lines[group])), TITLE_LETTER * len(group)) for group in groups}
    whole = max(sum(width[group] + GAP for group in row) - GAP for row in rows)
    middle, boxes, y = {}, {}, 0
    # From the bottom up, so that a box stands near those on which it stands.
    for row in reversed(rows):
        below = {group: [middle[other] for higher, other in arrows if higher == group and other in middle] for group in row}
        row.sort(key=lambda group: sum(below[group]) / len(below[group]) if below[group] else whole / 2)
        x = (whole - sum(width[group] + GAP for group in row) + GAP) / 2
        for group in row:
            middle[group] = x + width[group] / 2
            boxes[group] = [x, 0, width[group], PAD + TITLE + LINE * len(lines[group]), lines[group]]
            x += width[group] + GAP
    for row in rows:
        height = max(boxes[group][3] for group in row)
        for group in row:
            boxes[group][1], boxes[group][3] = y, height
        y += height + SPACE
    return boxes, rows


def nearest_free(boxes, row, x):
    """The place nearest to x that is in no box of a row."""
    edges = [(boxes[group][0] - GAP / 2, boxes[group][0] + boxes[group][2] + GAP / 2) for group in row]
    free = [x, *(end for pair in edges for end in pair)]
    return min((place for place in free if not any(left < place < right for left, right in edges)), key=lambda place: abs(place - x))


def drawn_arrow(boxes, rows, starts, ends, arrow):
    """An arrow from the lower edge of a box, past the rows between, to the upper edge of the other; or sideways."""
    (left, y, width, height, _), (to_left, to_y, to_width, _, _) = boxes[arrow[0]], boxes[arrow[1]]
    if y == to_y:
        step = 1 if to_left > left else -1
        x, end, across = (left + width, to_left, y + height / 2) if step > 0 else (left, to_left + to_width, y + height / 2)
        return f"M{x:.0f} {across:.0f}H{end - 7 * step:.0f}", f"M{end:.0f} {across:.0f}l{-8 * step} -4v8z"
    x, y = left + width * (starts[arrow[0]].index(arrow) + 1) / (len(starts[arrow[0]]) + 1), y + height
    path = f"M{x:.0f} {y:.0f}"
    for row in rows:
        row_y, row_height = boxes[row[0]][1], boxes[row[0]][3]
        if y < row_y < to_y:
            past = nearest_free(boxes, row, x)
            path += f"C{x:.0f} {y + SPACE / 2:.0f} {past:.0f} {y + SPACE / 2:.0f} {past:.0f} {row_y:.0f}V{row_y + row_height:.0f}"
            x, y = past, row_y + row_height
    end = to_left + to_width * (ends[arrow[1]].index(arrow) + 1) / (len(ends[arrow[1]]) + 1)
    path += f"C{x:.0f} {y + SPACE / 2:.0f} {end:.0f} {y + SPACE / 2:.0f} {end:.0f} {to_y - 7:.0f}"
    return path, f"M{end:.0f} {to_y:.0f}l-4 -8h8z"


def drawn(top):
    """The picture as the text of an SVG file."""
    groups, stands_on = groups_of(top)
    arrows = arrows_of(groups, stands_on)
    boxes, rows = boxes_of(groups, arrows)

    def across(group):
        return boxes[group][0] + boxes[group][2] / 2

    down = [arrow for arrow in arrows if boxes[arrow[0]][1] != boxes[arrow[1]][1]]
    starts = {group: sorted((arrow for arrow in down if arrow[0] == group), key=lambda arrow: across(arrow[1])) for group in groups}
    ends = {group: sorted((arrow for arrow in down if arrow[1] == group), key=lambda arrow: across(arrow[0])) for group in groups}
    width = max(left + width for left, _, width, _, _ in boxes.values()) + 2 * MARGIN
    height = max(y + height for _, y, _, height, _ in boxes.values()) + 2 * MARGIN
    out = [HEAD.format(width=f"{width:.0f}", height=f"{height:.0f}"), f'<g transform="translate({MARGIN} {MARGIN})">']
    for arrow in arrows:
        line, head = drawn_arrow(boxes, rows, starts, ends, arrow)
        out += [f'<path class="arrow" d="{line}"/>', f'<path class="head" d="{head}"/>']
    for group, (left, y, width, height, lines) in boxes.items():
        out.append(f'<rect x="{left:.0f}" y="{y:.0f}" width="{width:.0f}" height="{height:.0f}" rx="5"/>')
        out.append(f'<text class="group" x="{left + PAD:.0f}" y="{y + PAD + 8:.0f}">{html.escape(group)}</text>')
        for number, line in enumerate(lines):
            out.append(f'<text xml:space="preserve" x="{left + PAD:.0f}" y="{y + PAD + TITLE + 8 + LINE * number:.0f}">{line}</text>')
    return "\n".join([*out, "</g>", "</svg>", ""])


def main():
    parser = argparse.ArgumentParser(description="Draws the groups of crates of crates.txt as docs/crates.svg.")
    parser.add_argument("--check", action="store_true")
    parser.add_argument("top", nargs="?", default=os.path.dirname(os.path.dirname(os.path.abspath(__file__))))
    given = parser.parse_args()
    path, text = f"{given.top}/docs/crates.svg", drawn(given.top)
    if given.check:
        is_same = os.path.exists(path) and open(path, encoding="utf-8").read() == text
        print("docs/crates.svg: is as crates.txt" if is_same else "docs/crates.svg: run scripts/crates_svg.py, crates.txt has changed")
        return 0 if is_same else 1
    with open(path, "w", encoding="utf-8") as file:
        file.write(text)
    return 0


if __name__ == "__main__":
    sys.exit(main())
