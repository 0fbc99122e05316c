"""Bars in SVG: one for each name, as long as the median of its values, with a line from the least to the greatest and the median in figures."""
import statistics
from html import escape

WIDTH, LEFT, RIGHT, TOP, BAR, GAP, FOOT = 900, 190, 110, 70, 44, 26, 70

STYLE = """  <style>
    text { font-family: sans-serif; font-size: 14px; fill: #1b1f24; }
    .title { font-size: 18px; font-weight: bold; }
    .middle { text-anchor: middle; }
    .end { text-anchor: end; }
    .bar { fill: #7ea6c4; }
    .range { fill: none; stroke: #24455f; stroke-width: 2; }
    .grid { stroke: #c9d3dc; }
    .axis { fill: none; stroke: #24455f; stroke-width: 2; }
  </style>
"""


def step_of(greatest):
    """The distance of the axis' marks: 1, 2 or 5 times a power of ten, for four to ten marks."""
    step = 10.0 ** -6
    factors = [2, 2.5, 2]
    turn = 0
    while greatest / step > 8:
        step *= factors[turn % 3]
        turn += 1
    return step


def draw_axis(greatest, axis, bottom, x_of):
    lines, step = [], step_of(greatest)
    for number in range(int(greatest / step) + 1):
        x = x_of(number * step)
        lines.append(f'  <path class="grid" d="M{x:.1f} {TOP} V{bottom}"/>')
        lines.append(f'  <text class="middle" x="{x:.1f}" y="{bottom + 20}">{number * step:g}</text>')
    lines.append(f'  <text class="middle" x="{(LEFT + WIDTH - RIGHT) / 2:.1f}" y="{bottom + 48}">{escape(axis)}</text>')
    return lines


def draw_bar(name, values, form, y, x_of):
    median, least, greatest = statistics.median(values), min(values), max(values)
    middle = y + BAR / 2
    return [
        f'  <text class="end" x="{LEFT - 12}" y="{middle + 5:.1f}">{escape(name)}</text>',
        f'  <rect class="bar" x="{LEFT}" y="{y}" width="{x_of(median) - LEFT:.1f}" height="{BAR}"/>',
        f'  <path class="range" d="M{x_of(least):.1f} {middle - 8} v16 m0 -8 H{x_of(greatest):.1f} m0 -8 v16"/>',
        f'  <text x="{x_of(greatest) + 10:.1f}" y="{middle + 5:.1f}">{form.format(median)}</text>',
    ]


def draw_bars(title, axis, form, bars):
    """The text of the drawing; bars is a list of a name and its values."""
    greatest = max(max(values) for _, values in bars)
    x_of = lambda value: LEFT + value / greatest * (WIDTH - LEFT - RIGHT)
    bottom = TOP + len(bars) * (BAR + GAP)
    described = "; ".join(f"{name} {form.format(statistics.median(values))}" for name, values in bars)
    lines = [
        f'<svg xmlns="http://www.w3.org/2000/svg" viewBox="0 0 {WIDTH} {bottom + FOOT}" width="{WIDTH}" height="{bottom + FOOT}" role="img" '
        'aria-labelledby="title desc">',
        f'  <title id="title">{escape(title)}</title>',
        f'  <desc id="desc">{escape(axis)}, medians: {escape(described)}. The line in each bar is from the least to the greatest round.</desc>',
        STYLE + f'  <rect width="{WIDTH}" height="{bottom + FOOT}" rx="12" fill="#f3f6f9"/>',
        f'  <text class="title" x="20" y="36">{escape(title)}</text>',
    ]
    lines += draw_axis(greatest, axis, bottom, x_of)
    for number, (name, values) in enumerate(bars):
        lines += draw_bar(name, values, form, TOP + GAP // 2 + number * (BAR + GAP), x_of)
    lines.append(f'  <path class="axis" d="M{LEFT} {TOP} V{bottom} H{WIDTH - RIGHT}"/>')
    return "\n".join(lines) + "\n</svg>\n"
