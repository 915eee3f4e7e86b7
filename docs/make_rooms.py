#!/usr/bin/env python3
"""Writes the page of the crates' rooms, and its picture, from crates.txt and the crates' head comments.

    docs/make_rooms.py            writes crates/README.md and docs/crates.svg
    docs/make_rooms.py --check    says which of them isn't so

A line `# == ROOM: what stands in it` of crates.txt begins a room; the rooms stand lowest first. What a crate is says
the first sentence of its head comment. The picture has a band for each room, a box for each crate, and a line from a
crate to each that it stands on, but where another crate between them says so already.
"""
import os
import re
import sys

TOP = os.path.dirname(os.path.dirname(os.path.abspath(__file__)))
PAGE, PICTURE = "crates/README.md", "docs/crates.svg"
ROOM = re.compile(r"# == ([^:]+): (.+)")
WIDTH, MARGIN, LEFT, BORDER, BOX, ROW, GAP, LETTER = 1600, 16, 150, 70, 24, 46, 14, 6.7
COLOURS = ["#f3f0e7", "#e9eff6"]


def text_of(name):
    with open(os.path.join(TOP, name), encoding="utf-8") as file:
        return file.read()


def rooms_of(text):
    """The rooms, lowest first: their names, what stands in them, and their crates, each with what it stands on."""
    rooms = []
    for line in text.splitlines():
        head = ROOM.fullmatch(line)
        if head:
            rooms.append((head[1], head[2], []))
        elif line.split("#")[0].strip():
            left, right = line.split("#")[0].split(":")
            rooms[-1][2].append((left.split()[0], right.split()))
    return rooms


def faults_of(rooms):
    """What a crate stands on stands above it: so no room stands on a higher one."""
    every = [name for _, _, crates in rooms for name, _ in crates]
    said, above = [], set()
    for room, _, crates in rooms:
        for name, stands_on in crates:
            said += [f"crates.txt: {name} ({room}) stands on {it}, which comes later" for it in stands_on if it in every and it not in above]
            above.add(name)
    return said


def what_is(name):
    """The first sentence of the crate's head comment."""
    root = next(it for it in ("lib.rt", "main.rt") if os.path.exists(os.path.join(TOP, "crates", name, "src", it)))
    words = []
    for line in text_of(f"crates/{name}/src/{root}").splitlines():
        if not line.startswith("//!") or not line[3:].strip():
            break
        words.append(line[3:].strip())
    return re.match(r".*?\.(?= |$)", " ".join(words))[0]


def page_of(rooms):
    """The page: a room after the other, the highest last."""
    count = sum(len(crates) for _, _, crates in rooms)
    lines = [
        "# The rooms of the house",
        "",
        f"{count} crates stand in {len(rooms)} rooms, the lowest first. A crate stands on crates of its own room and of lower ones;",
        "crates.txt says on which. docs/crates.svg shows the rooms, and which crate stands on which.",
        "",
        "docs/make_rooms.py wrote this page, from crates.txt and the crates' head comments; the tests check that it is so.",
    ]
    for room, what, crates in rooms:
        lines += ["", f"## {room[0].upper()}{room[1:]}", "", f"{what[0].upper()}{what[1:]}.", ""]
        lines += ["| crate | what it is |", "|---|---|"]
        lines += [f"| {name} | {what_is(name)} |" for name, _ in crates]
    return "\n".join(lines) + "\n"


def reduced(rooms):
    """For each crate those that it stands on, but those that one of the others stands on, near or far."""
    known = {name: stands_on for _, _, crates in rooms for name, stands_on in crates}
    below = {}
    for name, stands_on in known.items():
        own = [it for it in stands_on if it in known]
        below[name] = set(own).union(*(below[it] for it in own))
    near = {}
    for name, stands_on in known.items():
        own = [it for it in stands_on if it in known]
        near[name] = [it for it in own if not any(it in below[other] for other in own)]
    return near


def width_of(name):
    return len(name) * LETTER + 14


def rows_of(crates, near):
    """The rows of a room, the lowest first: a crate stands above those of its room that it stands on."""
    level = {}
    for name, _ in crates:
        level[name] = 1 + max([level[it] for it in near[name] if it in level], default=-1)
    rows = [[name for name, _ in crates if level[name] == at] for at in range(1 + max(level.values()))]
    cut = []
    for row in rows:
        cut.append([])
        for name in row:
            if sum(width_of(it) + GAP for it in [*cut[-1], name]) > WIDTH - LEFT - MARGIN:
                cut.append([])
            cut[-1].append(name)
    return cut


def apart(names, wanted):
    """The left ends of a row's boxes, each as near to the wanted middle as the others and the picture's width let it."""
    order = sorted(names, key=lambda it: (wanted[it], it))
    ends, low = [], float(LEFT)
    for it in order:
        low = max(low, wanted[it] - width_of(it) / 2)
        ends.append(low)
        low += width_of(it) + GAP
    high = float(WIDTH - MARGIN - GAP)
    for number in reversed(range(len(order))):
        high -= width_of(order[number])
        ends[number] = min(ends[number], high)
        high = ends[number] - GAP
    return dict(zip(order, ends))


def middles_of(rows, near):
    """Where the middle of each box stands from left to right: between those that it stands on and those that stand on
    it, and by a third where an even spread puts it, so that lines part; all of them stretched to the picture's width."""
    beside = {name: list(below) for name, below in near.items()}
    for name, below in near.items():
        for it in below:
            beside[it].append(name)
    spread, free = {}, WIDTH - LEFT - MARGIN
    for number, row in enumerate(rows):
        shift = (number * 0.618) % 1 / len(row)
        spread.update({name: LEFT + free * (at / len(row) + shift) for at, name in enumerate(row)})
    middle = dict(spread)
    for _ in range(20):
        for row in rows:
            pulled = {it: sum(middle[other] for other in beside[it]) / len(beside[it]) if beside[it] else spread[it] for it in row}
            ends = apart(row, {it: (2 * pulled[it] + spread[it]) / 3 for it in row})
            middle.update({it: ends[it] + width_of(it) / 2 for it in row})
    least, most = min(middle.values()), max(middle.values())
    wide = {it: LEFT + BORDER + (at - least) / (most - least) * (free - 2 * BORDER) for it, at in middle.items()}
    for row in rows:
        ends = apart(row, wide)
        wide.update({it: ends[it] + width_of(it) / 2 for it in row})
    return wide


def placed(rooms, near):
    """Where each crate's box stands, and each room's band; the height of the picture."""
    rows = [rows_of(crates, near) for _, _, crates in rooms]
    middle = middles_of([row for of_room in rows for row in of_room], near)
    heights = [len(of_room) * ROW + GAP for of_room in rows]
    at, bands, height = {}, [], sum(heights) + 2 * MARGIN
    low = height - MARGIN
    for (room, _, _), of_room, tall in zip(rooms, rows, heights):
        bands.append((room, low - tall, tall))
        for number, row in enumerate(of_room):
            top = low - GAP / 2 - (number + 1) * ROW + (ROW - BOX) / 2
            at.update({name: (middle[name] - width_of(name) / 2, top, width_of(name)) for name in row})
        low -= tall
    return at, bands, height


def picture_of(rooms):
    near = reduced(rooms)
    at, bands, height = placed(rooms, near)
    out = [
        f'<svg xmlns="http://www.w3.org/2000/svg" width="{WIDTH}" height="{height:.0f}" font-family="monospace" font-size="11">',
        "<style>.line { fill: none; stroke: #7a7a7a; stroke-width: 0.8; opacity: 0.55 } .box { fill: white; stroke: #333 }</style>",
        f'<rect width="{WIDTH}" height="{height:.0f}" fill="white"/>',
    ]
    for number, (room, top, tall) in enumerate(bands):
        out.append(f'<rect x="{MARGIN}" y="{top:.0f}" width="{WIDTH - 2 * MARGIN}" height="{tall:.0f}" fill="{COLOURS[number % 2]}"/>')
        out.append(f'<text x="{MARGIN + 10}" y="{top + tall / 2 + 5:.0f}" font-size="15" font-weight="bold">{room}</text>')
    for name, below in near.items():
        x, y, wide = at[name]
        for it in below:
            to_x, to_y, to_wide = at[it]
            from_x, from_y, end_x = x + wide / 2, y + BOX, to_x + to_wide / 2
            bend = max(14.0, (to_y - from_y) / 2)
            out.append(f'<path class="line" d="M{from_x:.0f} {from_y:.0f} C{from_x:.0f} {from_y + bend:.0f} {end_x:.0f} {to_y - bend:.0f} {end_x:.0f} {to_y:.0f}"/>')
    for name, (x, y, wide) in at.items():
        out.append(f'<rect class="box" x="{x:.0f}" y="{y:.0f}" width="{wide:.0f}" height="{BOX}" rx="4"/>')
        out.append(f'<text x="{x + wide / 2:.0f}" y="{y + BOX / 2 + 4:.0f}" text-anchor="middle">{name}</text>')
    return "\n".join([*out, "</svg>"]) + "\n"


def faults():
    """What is wrong with the rooms, the page and the picture."""
    rooms = rooms_of(text_of("crates.txt"))
    said = faults_of(rooms)
    for name, wanted in ((PAGE, page_of(rooms)), (PICTURE, picture_of(rooms))):
        there = os.path.exists(os.path.join(TOP, name)) and text_of(name)
        if there != wanted:
            said.append(f"{name} isn't what docs/make_rooms.py writes")
    return said


def main(words):
    if words == ["--check"]:
        said = faults()
        print("\n".join(said) if said else "the rooms are so")
        return 1 if said else 0
    if words:
        print(__doc__)
        return 2
    rooms = rooms_of(text_of("crates.txt"))
    for name, text in ((PAGE, page_of(rooms)), (PICTURE, picture_of(rooms))):
        with open(os.path.join(TOP, name), "w", encoding="utf-8") as file:
            file.write(text)
    return 0


if __name__ == "__main__":
    sys.exit(main(sys.argv[1:]))
