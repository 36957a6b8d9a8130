#!/usr/bin/env python3
"""Draws docs/crates.svg, the map of crates, from crates.txt: run it from the repository's root after a change there.

A crate stands above all that it depends on, as low as it can. Of the dependencies only those are drawn that no other implies."""
import textwrap

WIDE, HIGH, GAP, STEP = 168, 58, 16, 92
COLOURS = {
    "#e8e8e8": "laws ground",
    "#dcecf9": "layout curve_block curve_edit trade_edit record trade legs flows book acceptance edit reader bootstrap calls",
    "#e2f0d9": "decimal discount curve logarithm cheap fine netting estimate ladder margin exposure bond",
    "#fdebd0": "report_block report preview statement page text listing seddolki list figures probe",
}
LEGEND = {"#e8e8e8": "facts and answers", "#dcecf9": "the book's bytes and trades", "#e2f0d9": "money", "#fdebd0": "what a caller gets"}


def read(path):
    """each crate's dependencies, and the comment above it"""
    needs, says, comment = {}, {}, ""
    for line in open(path, encoding="utf-8"):
        if line.startswith("#"):
            comment = line[1:].strip()
        elif ":" in line:
            kind, rest = line.split(":")
            name = kind.split()[0]
            needs[name] = [n for n in rest.split() if n not in ("io", "libc")]
            says[name] = comment
    return needs, says


def reduced(needs):
    """the dependencies that no other dependency implies"""
    above = {}
    for name, direct in needs.items():
        above[name] = set(direct).union(*(above[d] for d in direct))
    return {n: [d for d in direct if not any(d in above[e] for e in direct)] for n, direct in needs.items()}


def layered(edges):
    """rows of crates from the ground up; a line that passes a row has a place there"""
    row = {}
    for name, direct in edges.items():
        row[name] = max((row[d] + 1 for d in direct), default=0)
    rows = [[] for _ in range(max(row.values()) + 1)]
    for name in edges:
        rows[row[name]].append(name)
    links = []
    for name, direct in edges.items():
        for low in direct:
            way = [low]
            for r in range(row[low] + 1, row[name]):
                way.append((low, name, r))
                rows[r].append(way[-1])
            links.append(way + [name])
    return rows, links


def size(node):
    return WIDE if isinstance(node, str) else 6


def placed(rows, links):
    """the middle of each place: near its neighbours, and clear of the others in its row"""
    near = {}
    for way in links:
        for a, b in zip(way, way[1:]):
            near.setdefault(a, []).append(b)
            near.setdefault(b, []).append(a)
    x = {}
    for line in rows:
        at = 0
        for node in line:
            x[node] = at + size(node) / 2
            at += size(node) + GAP
    for turn in range(200):
        for line in rows if turn % 2 else rows[::-1]:
            want = {n: sum(x[m] for m in near.get(n, [n])) / len(near.get(n, [n])) for n in line}
            if turn < 120:
                line.sort(key=lambda n: want[n])
            for n in line:
                x[n] = want[n]
            for _ in range(30):
                for a, b in zip(line, line[1:]):
                    lack = (size(a) + size(b)) / 2 + GAP - (x[b] - x[a])
                    if lack > 0:
                        x[a] -= lack / 2
                        x[b] += lack / 2
    left = min(x[n] - size(n) / 2 for n in x)
    return {n: v - left + GAP for n, v in x.items()}


def drawn(rows, links, says):
    x = placed(rows, links)
    wide = max(x[n] + size(n) / 2 for n in x) + GAP
    high = len(rows) * STEP + 50
    top = {n: high - 50 - (r + 1) * STEP + (STEP - HIGH) / 2 for r, line in enumerate(rows) for n in line}
    colour = {n: c for c, names in COLOURS.items() for n in names.split()}
    out = [f'<svg xmlns="http://www.w3.org/2000/svg" width="{wide:.0f}" height="{high:.0f}" font-family="sans-serif">']
    out.append(f'<rect width="{wide:.0f}" height="{high:.0f}" fill="white"/>')
    for way in links:
        path = f"M {x[way[0]]:.0f} {top[way[0]]:.0f}"
        for a, b in zip(way, way[1:]):
            if isinstance(a, tuple):
                path += f" L {x[a]:.0f} {top[a]:.0f}"
            mid = (top[a] + top[b] + HIGH) / 2
            path += f" C {x[a]:.0f} {mid:.0f} {x[b]:.0f} {mid:.0f} {x[b]:.0f} {top[b] + HIGH:.0f}"
        out.append(f'<path d="{path}" fill="none" stroke="#8a8a8a" stroke-width="1.3"/>')
    for n in (n for line in rows for n in line if isinstance(n, str)):
        left = x[n] - WIDE / 2
        out.append(f'<rect x="{left:.0f}" y="{top[n]:.0f}" width="{WIDE}" height="{HIGH}" rx="6" fill="{colour.get(n, "#e2f0d9")}" stroke="#555"/>')
        out.append(f'<text x="{x[n]:.0f}" y="{top[n] + 17:.0f}" font-size="14" font-weight="bold" text-anchor="middle">{n}</text>')
        for i, words in enumerate(textwrap.wrap(says[n], 31, max_lines=3, placeholder=" ..")):
            out.append(f'<text x="{x[n]:.0f}" y="{top[n] + 31 + 11 * i:.0f}" font-size="9.5" text-anchor="middle">{words}</text>')
    for i, (c, words) in enumerate(LEGEND.items()):
        out.append(f'<rect x="{GAP + 205 * i}" y="{high - 30:.0f}" width="14" height="14" fill="{c}" stroke="#555"/>')
        out.append(f'<text x="{GAP + 20 + 205 * i}" y="{high - 18:.0f}" font-size="12">{words}</text>')
    return "\n".join(out + ["</svg>\n"])


if __name__ == "__main__":
    needs, says = read("crates.txt")
    rows, links = layered(reduced(needs))
    with open("docs/crates.svg", "w", encoding="utf-8") as f:
        f.write(drawn(rows, links, says))
