#!/usr/bin/env python3
"""Draws growth.txt as growth.svg: a panel for each work, both scales logarithmic, each point a line of the file. The dashed line is
what grows in proportion through the last point: points above it to the left are what a run costs beside. The number below the title is
the slope between the last two points.
"""
import math
import pathlib

HERE = pathlib.Path(__file__).resolve().parent
# For each work of the file its title, what its numbers count, and one of them.
WORKS = {
    "events": ("stream: events of 100 bytes", "events", "an event"),
    "bytes": ("stream: the bytes of one event", "bytes", "a byte"),
    "headers": ("stream: the headers of a request", "headers", "a header"),
    "pieces": ("watch: pieces of a long frame", "pieces", "a piece"),
}
WIDTH, HEIGHT = 400, 300
LEFT, RIGHT, TOP, BOTTOM = 78, 28, 58, 50
COLOUR, GREY = "#0b5cad", "#8a8a8a"


def points_of(text):
    """The points of each work, in the file's order."""
    points = {work: [] for work in WORKS}
    for line in text.splitlines():
        if line and not line.startswith("#"):
            work, number, value = line.split()
            points[work].append((int(number), int(value)))
    return points


def short(exponent):
    """A power of ten as it stands at an axis."""
    return f"{10 ** (exponent % 3)}{['', ' K', ' M', ' G', ' T'][exponent // 3]}"


def scale(values, start, end):
    """The place of a number on an axis whose ends are powers of ten, and the exponents of these."""
    low, high = math.floor(math.log10(min(values))), math.ceil(math.log10(max(values)))
    high = max(high, low + 1)
    return lambda value: start + (end - start) * (math.log10(value) - low) / (high - low), range(low, high + 1)


def text(x, y, words, anchor="middle", size=14, colour="#222", more=""):
    return f'<text x="{x:.1f}" y="{y:.1f}" text-anchor="{anchor}" font-size="{size}" fill="{colour}"{more}>{words}</text>'


def line(x, y, to_x, to_y, colour, more=""):
    return f'<line x1="{x:.1f}" y1="{y:.1f}" x2="{to_x:.1f}" y2="{to_y:.1f}" stroke="{colour}"{more}/>'


def axes(across, wide, up, high, counted):
    """The lines and the labels of both axes."""
    bottom, left, right = HEIGHT - BOTTOM, LEFT, WIDTH - RIGHT
    for exponent in wide:
        x = across(10 ** exponent)
        yield line(x, TOP, x, bottom, "#e4e4e4")
        yield text(x, bottom + 18, short(exponent))
    for exponent in high:
        y = up(10 ** exponent)
        yield line(left, y, right, y, "#e4e4e4")
        yield text(left - 6, y + 5, short(exponent), "end")
    yield line(left, bottom, right, bottom, "#222")
    yield line(left, TOP, left, bottom, "#222")
    yield text((left + right) / 2, HEIGHT - 10, counted)
    yield text(16, (TOP + bottom) / 2, "instructions", more=f' transform="rotate(-90 16 {(TOP + bottom) / 2:.1f})"')


def proportion(across, wide, up, high, last):
    """The part, within the axes, of the line of what grows in proportion through the last point."""
    number, value = last
    low = max(10 ** wide[0], number * 10 ** high[0] / value)
    return line(across(low), up(value * low / number), across(number), up(value), GREY, ' stroke-width="1.5" stroke-dasharray="5 4"')


def panel(work, points):
    title, counted, one = WORKS[work]
    across, wide = scale([number for number, _ in points], LEFT, WIDTH - RIGHT)
    up, high = scale([value for _, value in points], HEIGHT - BOTTOM, TOP)
    (before, less), (number, value) = points[-2:]
    slope = (value - less) / (number - before)
    places = " ".join(f"{across(number):.1f},{up(value):.1f}" for number, value in points)
    yield text(LEFT, 24, title, "start", 17, more=' font-weight="bold"')
    yield text(LEFT, 46, f"{slope:,.{0 if slope >= 100 else 1}f} instructions for {one} more", "start", 15, COLOUR)
    yield from axes(across, wide, up, high, counted)
    yield proportion(across, wide, up, high, points[-1])
    yield f'<polyline points="{places}" fill="none" stroke="{COLOUR}" stroke-width="2"/>'
    for place in places.split():
        x, y = place.split(",")
        yield f'<circle cx="{x}" cy="{y}" r="3.5" fill="{COLOUR}"/>'


def picture(points):
    drawn = [(work, points[work]) for work in WORKS if len(points[work]) > 1]
    rows = (len(drawn) + 1) // 2
    yield f'<svg xmlns="http://www.w3.org/2000/svg" viewBox="0 0 {2 * WIDTH} {rows * HEIGHT}" font-family="sans-serif">'
    yield '<rect width="100%" height="100%" fill="#fff"/>'
    for place, (work, own) in enumerate(drawn):
        yield f'<g transform="translate({place % 2 * WIDTH} {place // 2 * HEIGHT})">'
        yield from panel(work, own)
        yield "</g>"
    yield "</svg>"


if __name__ == "__main__":
    shown = picture(points_of((HERE / "growth.txt").read_text()))
    (HERE / "growth.svg").write_text("\n".join(shown) + "\n")
