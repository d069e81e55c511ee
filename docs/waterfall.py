# Draws the table that soereport prints as a waterfall: each period's start, down by its bound, up by what comes back, to its end.
#
#   target/bin/soereport < crates/soereport/stdin | python3 docs/waterfall.py > docs/low-table.svg
import math
import sys

WIDTH, HEIGHT = 960, 480
LEFT, RIGHT, TOP, BOTTOM = 72, 16, 72, 48
LEVEL, DOWN, UP, GRID, TEXT = "#1f2933", "#c2553a", "#2f7d5b", "#e3e6ea", "#3e4c59"


def rows(text):
    """Period, bound, start, end and back of each line, energies in MWh."""
    table = [[int(word) for word in line.split()] for line in text.splitlines()]
    return [(r[0], r[1] / 1000, r[2] / 1000, r[3] / 1000, r[5] / 1000) for r in table]


def mwh(x):
    return f"{x:,.3f}".rstrip("0").rstrip(".").replace("-", "−")


def tick_step(span):
    """1, 2 or 5 times a power of ten, for some six to twelve ticks."""
    step = 0.001
    while True:
        for k in (1, 2, 5):
            if span <= 10 * step * k:
                return step * k
        step *= 10


def draw(table):
    levels = [x for _, bound, start, end, back in table for x in (start, start - bound, end)] + [0]
    span = max(levels) - min(levels)
    bottom, top = min(levels) - span * 0.08, max(levels) + span * 0.08  # room for labels
    step = tick_step(span)
    plot = HEIGHT - TOP - BOTTOM
    slot = (WIDTH - LEFT - RIGHT) / len(table)
    bar = slot / 4
    out = []

    def y(level):
        return TOP + plot * (top - level) / (top - bottom)

    def line(x1, y1, x2, y2, colour, width, more=""):
        out.append(f'<line x1="{x1:.1f}" y1="{y1:.1f}" x2="{x2:.1f}" y2="{y2:.1f}" stroke="{colour}" stroke-width="{width}"{more}/>')

    def box(x, upper, lower, colour):
        out.append(f'<rect x="{x:.1f}" y="{y(upper):.1f}" width="{bar:.1f}" height="{y(lower) - y(upper):.1f}" fill="{colour}"/>')

    def text(x, at, words, colour=TEXT, anchor="middle", more=""):
        out.append(f'<text x="{x:.1f}" y="{at:.1f}" fill="{colour}" text-anchor="{anchor}" paint-order="stroke" stroke="#ffffff" stroke-width="3"{more}>{words}</text>')

    # axis
    for k in range(math.ceil(bottom / step), math.floor(top / step) + 1):
        line(LEFT, y(k * step), WIDTH - RIGHT, y(k * step), GRID, 1)
        text(LEFT - 8, y(k * step) + 4, mwh(round(k * step, 3)), anchor="end")
    line(LEFT, y(0), WIDTH - RIGHT, y(0), LEVEL, 1)
    middle = TOP + plot / 2
    text(18, middle, "energy, MWh", more=f' transform="rotate(-90 18 {middle:.1f})"')

    # periods
    for i, (period, bound, start, end, back) in enumerate(table):
        x = LEFT + slot * i
        if i > 0:
            line(x, TOP, x, HEIGHT - BOTTOM, GRID, 1, ' stroke-dasharray="2 4"')
        down, up = x + slot / 2 - bar, x + slot / 2
        low = start - bound
        box(down, start, low, DOWN)
        box(up, end, low, UP)
        line(x + 6, y(start), up, y(start), LEVEL, 2)
        line(down, y(low), up + bar, y(low), LEVEL, 0.75)
        line(up, y(end), x + slot, y(end), LEVEL, 2)
        text(down + bar / 2, y(start) - 7, mwh(start), LEVEL, more=' font-weight="bold"')
        if bound > 0:
            text(down + bar / 2, y(low) + 15, "−" + mwh(bound), DOWN)
        if back > 0:
            text(up + bar / 2, y(end) - 7, "+" + mwh(back), UP)
        text(x + slot / 2, HEIGHT - BOTTOM + 22, f"period {period}")
    text(WIDTH - RIGHT, y(table[-1][3]) + 16, mwh(table[-1][3]), LEVEL, "end", ' font-weight="bold"')

    # legend
    text(LEFT, 26, "Requirement by period", LEVEL, "start", ' font-size="16" font-weight="bold"')
    at = LEFT
    for colour, words in ((LEVEL, "start, and the end that is the next start"), (DOWN, "bound: down from the start"), (UP, "back: up to the end")):
        out.append(f'<rect x="{at}" y="{40 if colour != LEVEL else 44}" width="14" height="{12 if colour != LEVEL else 3}" fill="{colour}"/>')
        text(at + 20, 50, words, anchor="start")
        at += 44 + 6 * len(words)
    return out


def main():
    text = sys.stdin.read()
    if len(text.splitlines()) != 8:
        sys.exit("no table: " + text.strip())
    print(f'<svg xmlns="http://www.w3.org/2000/svg" viewBox="0 0 {WIDTH} {HEIGHT}" width="{WIDTH}" height="{HEIGHT}" font-family="sans-serif" font-size="12">')
    print(f'<rect width="{WIDTH}" height="{HEIGHT}" fill="#ffffff"/>')
    print("\n".join(draw(rows(text))))
    print("</svg>")


main()
