"""Draws how the time of a filtering grows with the tuples: plot.py ALL-TIMES FILE.svg, from the lines that sql.py writes.

Both axes are logarithmic: tuples from 250 to 4,000, times from 10 microseconds to 1 second.
"""

import math
import sys
from typing import NamedTuple

WIDTH, HEIGHT, LEFT, TOP, RIGHT, BOTTOM = 300, 320, 56, 28, 12, 40
COLOURS = {"Rattle": "#1b6ca8", "C": "#888888", "SQLite": "#c2571a"}
LEAST, MOST = 1e-5, 1.0


class Panel(NamedTuple):
    m: int
    lines: dict[str, list[tuple[int, float]]]


def read_panels(lines: list[str]) -> list[Panel]:
    panels = {}
    for line in lines:
        kind, _, m, tuples, _, rattle, c, sql = line.split()
        if kind == "growth" and float(rattle) > 0:
            panel = panels.setdefault(int(m), Panel(int(m), {name: [] for name in COLOURS}))
            for name, time in zip(COLOURS, (rattle, c, sql)):
                panel.lines[name].append((int(tuples), float(time)))
    return [panels[m] for m in sorted(panels)]


def across(tuples: float) -> float:
    return LEFT + (WIDTH - LEFT - RIGHT) * math.log(tuples / 250) / math.log(4000 / 250)


def down(time: float) -> float:
    return TOP + (HEIGHT - TOP - BOTTOM) * math.log(MOST / time) / math.log(MOST / LEAST)


def text(x: float, y: float, said: str, anchor: str = "middle", colour: str = "#222222") -> str:
    return f'<text x="{x:.1f}" y="{y:.1f}" text-anchor="{anchor}" fill="{colour}">{said}</text>'


def rule(x1: float, y1: float, x2: float, y2: float) -> str:
    return f'<line x1="{x1:.1f}" y1="{y1:.1f}" x2="{x2:.1f}" y2="{y2:.1f}" stroke="#dddddd"/>'


def draw_axes(m: int) -> list[str]:
    drawn = [text(across(1000), TOP - 10, f"m = {m}"), text(across(1000), HEIGHT - 6, "tuples")]
    for tuples in (250, 500, 1000, 2000, 4000):
        drawn += [rule(across(tuples), TOP, across(tuples), HEIGHT - BOTTOM), text(across(tuples), HEIGHT - BOTTOM + 16, f"{tuples}")]
    for time, said in ((1e-5, "10 µs"), (1e-4, "100 µs"), (1e-3, "1 ms"), (1e-2, "10 ms"), (1e-1, "100 ms"), (1.0, "1 s")):
        drawn += [rule(LEFT, down(time), WIDTH - RIGHT, down(time)), text(LEFT - 6, down(time) + 4, said, "end")]
    return drawn


def draw_panel(panel: Panel) -> list[str]:
    drawn = draw_axes(panel.m)
    for name, points in panel.lines.items():
        at = [f"{across(tuples):.1f},{down(time):.1f}" for tuples, time in points]
        dashes = ' stroke-dasharray="4 3"' if name == "C" else ""
        drawn.append(f'<polyline points="{" ".join(at)}" fill="none" stroke="{COLOURS[name]}" stroke-width="2"{dashes}/>')
    return drawn


def draw_key() -> list[str]:
    return [text(LEFT + 12, TOP + 18 + 16 * row, name, "start", colour) for row, (name, colour) in enumerate(COLOURS.items())]


def draw(panels: list[Panel]) -> str:
    size = f'width="{WIDTH * len(panels)}" height="{HEIGHT}"'
    parts = [f'<svg xmlns="http://www.w3.org/2000/svg" {size} font-family="sans-serif" font-size="11">']
    parts.append(f'<rect {size} fill="white"/>')
    for place, panel in enumerate(panels):
        parts += [f'<g transform="translate({place * WIDTH},0)">', *draw_panel(panel), "</g>"]
    return "\n".join([*parts, *draw_key(), "</svg>", ""])


def main() -> None:
    with open(sys.argv[1], encoding="ascii") as lines:
        panels = read_panels(lines.readlines())
    with open(sys.argv[2], "w", encoding="utf-8") as out:
        out.write(draw(panels))


if __name__ == "__main__":
    main()
