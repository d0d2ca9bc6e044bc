#!/usr/bin/env python3
"""Draws docs/crates.svg from crates.txt: the crates in layers, and a frame's way through them.

    python3 docs/crates.py

A line leads down from a crate to what it needs directly. A need that another need already has is left out
(transitive reduction). A name in crates.txt that has no line of its own is a library of the kit: it is not drawn.
A crate with a src/main.rt is a program. The same crates.txt and programs give the same bytes.
"""
from pathlib import Path

ROOT = Path(__file__).resolve().parent.parent

# the crates whose public functions are the entry points
ENTRIES = ["fst", "decoder", "decoder_reads", "decoder_readings", "silence_weighting", "reading_search", "shuffle", "courses", "refusal_lines", "hirqazhom"]

# A frame's way: name, the middle of its box, the refusals that it gives, where its caption stands, and the caption.
WAY = [
    ("decoder", 110, 84, "", "below", ["accepted: the token tables", "change places; refused:", "the finished one stays"]),
    ("checks", 330, 84, "10, 8, 9", "above", ["frames decoded, length", "and values of the frame"]),
    ("emitting", 600, 84, "12", "above", ["first look; then the finished tokens", "not above the cutoff, ascending"]),
    ("nonemitting", 920, 84, "", "above", ["states with epsilon arcs, last in,", "first out, until none is left"]),
    ("cutoff", 330, 190, "", "beside", ["best state, cutoff,", "adaptive beam"]),
    ("arcs", 760, 190, "14", "beside", ["each arc's total, the lowered", "cutoff, the push"]),
    ("arrivals", 760, 280, "12, 13", "beside", ["what the arc meets: cut off, an empty", "state, better, not better"]),
    ("compaction", 330, 380, "", "below", ["room for two records:", "dead ones are dropped"]),
    ("joins", 600, 380, "", "below", ["whether the loser", "is worth keeping"]),
    ("records", 800, 380, "", "below", ["one for a word, a change", "of phone, or a join"]),
    ("tokens", 1010, 380, "", "below", ["the state's token"]),
]
# who calls whom, and how far from the middle of either box the line stands
WAY_LINES = [
    ("decoder", "checks", 0, 0), ("checks", "emitting", 0, 0), ("emitting", "nonemitting", 0, 0), ("emitting", "cutoff", -16, 0),
    ("emitting", "arcs", 0, -12), ("nonemitting", "arcs", 0, 12), ("arcs", "arrivals", 0, 0), ("arrivals", "compaction", 0, 0),
    ("arrivals", "joins", 0, 0), ("arrivals", "records", 0, 0), ("arrivals", "tokens", 0, 0), ("joins", "records", 0, 0),
]

FONT = "'DejaVu Sans Mono', Menlo, Consolas, monospace"
CHAR = 7.3  # the width of a letter of 12 points
BOX = 26
STEP = 62
GAP = 18  # between boxes
LINE_GAP = 12  # beside a line that passes a layer
WIDTH = 1140
MARGIN = 30


def read_needs(path):
    needs = {}
    for line in path.read_text(encoding="utf-8").splitlines():
        name, colon, rest = line.partition("#")[0].partition(":")
        if colon:
            needs[name.split()[0]] = rest.split()
    return needs


def reduced(needs):
    """What each crate needs that none of its other needs has; and the programs."""
    known = {n: [x for x in xs if x in needs] for n, xs in needs.items()}
    programs = [n for n in needs if (ROOT / "crates" / n / "src" / "main.rt").is_file()]
    below = {}

    def reach(n):
        if n not in below:
            below[n] = set()
            for x in known[n]:
                below[n] |= {x} | reach(x)
        return below[n]

    direct = {n: [x for x in xs if not any(x in reach(y) for y in xs if y != x)] for n, xs in known.items()}
    return direct, programs


def layers_of(direct):
    """The layer of each crate, leaves at 0: as low as its needs allow, then moved up where that shortens lines."""
    at = {}

    def low(n):
        if n not in at:
            at[n] = 1 + max([low(x) for x in direct[n]], default=-1)
        return at[n]

    for n in direct:
        low(n)
    users = {n: [m for m in direct if n in direct[m]] for n in direct}
    moved = True
    while moved:
        moved = False
        for n in direct:
            if users[n] and len(users[n]) > len(direct[n]):
                top = min(at[m] for m in users[n]) - 1
                if top > at[n]:
                    at[n], moved = top, True
    return at


def crossings(upper, lower, links):
    place = {v: i for i, v in enumerate(lower)}
    ends = [place[x] for v in upper for x in sorted(links[v], key=place.get)]
    return sum(1 for i in range(len(ends)) for j in range(i) if ends[j] > ends[i])


def beside(rows, down, i):
    """The crossings above and below layer i."""
    above = crossings(rows[i + 1], rows[i], down) if i + 1 < len(rows) else 0
    return above + (crossings(rows[i], rows[i - 1], down) if i else 0)


def ordered(rows, down, up):
    """Each layer in an order with few crossings: by the middle of the neighbours, and swaps that help."""
    best, least = None, None
    for turn in range(32):
        upward = turn % 2 == 0
        for i in range(1, len(rows)) if upward else range(len(rows) - 2, -1, -1):
            links, other = (down, rows[i - 1]) if upward else (up, rows[i + 1])
            place = {v: k for k, v in enumerate(other)}
            own = {v: k for k, v in enumerate(rows[i])}

            def middle(v):
                xs = sorted(place[x] for x in links[v])
                return (xs[(len(xs) - 1) // 2] + xs[len(xs) // 2]) / 2 if xs else own[v]

            rows[i].sort(key=lambda v: (middle(v), own[v]))
        swapped = True
        while swapped:
            swapped = False
            for i, row in enumerate(rows):
                for k in range(len(row) - 1):
                    before = beside(rows, down, i)
                    row[k], row[k + 1] = row[k + 1], row[k]
                    if beside(rows, down, i) < before:
                        swapped = True
                    else:
                        row[k], row[k + 1] = row[k + 1], row[k]
        now = sum(crossings(rows[i + 1], rows[i], down) for i in range(len(rows) - 1))
        if least is None or now < least:
            best, least = [list(r) for r in rows], now
    return best


def spread(row, wanted, weight, half):
    """The places nearest to those wanted in which the boxes of a row do not touch, in their order."""
    shift, shifts = 0.0, []
    for k, v in enumerate(row):
        if k:
            u = row[k - 1]
            shift += half[u] + half[v] + (GAP if half[u] and half[v] else LINE_GAP)
        shifts.append(shift)
    blocks = []
    for v, s in zip(row, shifts):
        blocks.append([weight[v] * (wanted[v] - s), weight[v], 1])
        while len(blocks) > 1 and blocks[-2][0] / blocks[-2][1] > blocks[-1][0] / blocks[-1][1]:
            a, w, n = blocks.pop()
            blocks[-1][0] += a
            blocks[-1][1] += w
            blocks[-1][2] += n
    xs = [a / w for a, w, n in blocks for _ in range(n)]
    return {v: xs[k] + shifts[k] for k, v in enumerate(row)}


def placed(rows, down, up, half, chains):
    """The middle of each box, near its neighbours; a line that passes layers wants to pass them straight."""
    x = {}
    for row in rows:
        x.update(spread(row, {v: 90.0 * k for k, v in enumerate(row)}, {v: 1 for v in row}, half))
    chain_of = {v: chain for chain in chains for v in chain[1:-1]}
    weight = {v: (6 if v in chain_of else 1) for row in rows for v in row}
    for turn in range(200):
        for row in rows if turn % 2 else rows[::-1]:
            wanted = {}
            for v in row:
                near = chain_of.get(v) or down[v] + up[v]
                wanted[v] = sum(x[u] for u in near) / len(near) if near else x[v]
            x.update(spread(row, wanted, weight, half))
    return x


def crate_picture(needs):
    direct, programs = reduced(needs)
    at = layers_of(direct)
    top = max(at.values())
    rows = [[n for n in direct if at[n] == k] for k in range(top + 1)]
    down = {n: [] for n in direct}
    up = {n: [] for n in direct}
    chains = []
    for n in direct:
        for x in direct[n]:
            chain = [n]
            for k in range(at[n] - 1, at[x], -1):
                v = (n, x, k)
                rows[k].append(v)
                down[v], up[v] = [], []
                chain.append(v)
            chain.append(x)
            for a, b in zip(chain, chain[1:]):
                down[a].append(b)
                up[b].append(a)
            chains.append(chain)
    half = {v: (0.0 if isinstance(v, tuple) else (len(v) * CHAR + 18) / 2) for row in rows for v in row}
    rows = ordered(rows, down, up)
    x = placed(rows, down, up, half, chains)
    left = min(x[v] - half[v] for row in rows for v in row)
    right = max(x[v] + half[v] for row in rows for v in row)
    offset = MARGIN - left if right - left > WIDTH - 2 * MARGIN else (WIDTH - right - left) / 2
    x = {v: round(c + offset) for v, c in x.items()}
    y = {v: (top - k) * STEP for k, row in enumerate(rows) for v in row}
    return direct, programs, chains, x, y, half, round(right - left), top * STEP + BOX


def box(out, name, x, y, width, kind):
    fill = {"way": "#dbe9f6", "program": "#e6e6e6"}.get(kind[0], "#ffffff")
    bold = ' font-weight="bold"' if kind[1] else ""
    line = "2.4" if kind[1] else "1"
    out.append(
        f'<rect x="{round(x - width / 2)}" y="{y}" width="{round(width)}" height="{BOX}" rx="4" fill="{fill}" stroke="#222222" stroke-width="{line}"/>'
    )
    out.append(f'<text x="{x}" y="{y + 17}" text-anchor="middle" font-size="12"{bold}>{name}</text>')


def text(out, x, y, words, size=11, anchor="middle", more=""):
    out.append(f'<text x="{x}" y="{y}" text-anchor="{anchor}" font-size="{size}" fill="#333333"{more}>{words}</text>')


def draw(needs):
    direct, programs, chains, x, y, half, wide, high = crate_picture(needs)
    way = [name for name, *_ in WAY]
    for name in way + ENTRIES:
        if name not in direct:
            raise SystemExit(f"crates.txt has no crate {name}: the frame's way has to be drawn anew")
    width = max(WIDTH, wide + 2 * MARGIN)
    head = 70
    out = []
    text(out, MARGIN, 28, "The crates", 16, "start", ' font-weight="bold"')
    text(out, MARGIN, 48, "A line leads down to what a crate needs directly. Bold: entry points. Blue: on a frame's way. Grey: programs.", 12, "start")
    for chain in chains:
        points = [(x[v], y[v] + head) for v in chain]
        a, b = points[0]
        d = f"M{a} {b + BOX}"
        for k, (c, e) in enumerate(points[1:], 1):
            a, b = points[k - 1]
            begin, end = b + BOX, e
            mid = (begin + end) // 2
            d += f" C{a} {mid} {c} {mid} {c} {end}"
            if k < len(points) - 1:
                d += f" L{c} {e + BOX}"
        out.append(f'<path d="{d}" fill="none" stroke="#888888" stroke-width="1"/>')
    for name in direct:
        kind = "program" if name in programs else "way" if name in way else "plain"
        box(out, name, x[name], y[name] + head, 2 * half[name], (kind, name in ENTRIES))
    below = head + high + 60
    text(out, MARGIN, below, "A frame's way", 16, "start", ' font-weight="bold"')
    text(out, MARGIN, below + 20, "Top row: what a frame runs, in this order. Below it: what is called. Red: the refusals that a box gives.", 12, "start")
    middle = {name: (a, below + b) for name, a, b, *_ in WAY}
    wide_of = {name: len(name) * CHAR + 18 for name in way}
    for a, b, from_a, from_b in WAY_LINES:
        (ax, ay), (bx, by) = middle[a], middle[b]
        if ay == by:
            d = f"M{round(ax + wide_of[a] / 2)} {ay + BOX // 2} L{round(bx - wide_of[b] / 2) - 2} {by + BOX // 2}"
        else:
            ax, bx = ax + from_a, bx + from_b
            d = f"M{ax} {ay + BOX} L{ax} {by - 30} L{bx} {by - 30} L{bx} {by - 2}"
        out.append(f'<path d="{d}" fill="none" stroke="#555555" stroke-width="1.2" marker-end="url(#tip)"/>')
    for name, a, b, numbers, side, caption in WAY:
        y0 = below + b
        box(out, name, a, y0, wide_of[name], ("way", name in ENTRIES))
        for k, words in enumerate(caption):
            if side == "beside":
                text(out, round(a + wide_of[name] / 2) + 10, y0 + 11 + 14 * k, words, 11, "start")
            else:
                text(out, a, y0 + BOX + 16 + 14 * k if side == "below" else y0 - 8 - 14 * (len(caption) - 1 - k), words)
        if numbers:
            out.append(f'<text x="{a + 8}" y="{y0 + BOX + 14}" font-size="11" fill="#b00000">{numbers}</text>')
    height = below + max(b for _, _, b, *_ in WAY) + BOX + 60
    head_of = [
        '<?xml version="1.0" encoding="UTF-8"?>',
        f'<svg xmlns="http://www.w3.org/2000/svg" width="{width}" height="{height}" viewBox="0 0 {width} {height}" font-family="{FONT}">',
        '<defs><marker id="tip" viewBox="0 0 8 8" refX="7" refY="4" markerWidth="8" markerHeight="8" orient="auto"><path d="M0 0 L8 4 L0 8 z" fill="#555555"/></marker></defs>',
        f'<rect width="{width}" height="{height}" fill="#ffffff"/>',
    ]
    return "\n".join(head_of + out + ["</svg>", ""])


def main():
    picture = draw(read_needs(ROOT / "crates.txt"))
    (ROOT / "docs" / "crates.svg").write_bytes(picture.encode("utf-8"))


if __name__ == "__main__":
    main()
