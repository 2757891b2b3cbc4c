#!/usr/bin/env python3
"""Draws docs/luma_counts.svg: how many of the 16,777,216 colours have each luma, for the named matrices in Full and for Bt601 in Limited.

    tools/luma_plot.py           write it
    tools/luma_plot.py --check   fail if the file is not what this makes

The counts come from the reading of the rules in tools/rules_examples.py. Nothing of the library is run. Plain Python, no packages.
"""
import sys
from pathlib import Path

sys.dont_write_bytecode = True
from rules_examples import Settings, luma_counts

ROOT = Path(__file__).resolve().parent.parent
PLOT = ROOT / 'docs' / 'luma_counts.svg'

# What is drawn: matrix, range, colour, dashes. Of two matrices that are nearly the same the second is dashed, to show both.
CURVES = [
    ('Bt601', 'Limited', '#777777', ''),
    ('Bt601', 'Full', '#0072b2', ''),
    ('Fcc', 'Full', '#000000', '3 5'),
    ('Bt2020', 'Full', '#009e73', ''),
    ('Smpte240', 'Full', '#cc79a7', ''),
    ('Bt709', 'Full', '#d55e00', ''),
    ('Bt470_6', 'Full', '#5c2a00', '8 6'),
]

# The plot: 3 units a luma and 3 units a thousand colours.
LEFT, TOP, RIGHT, BOTTOM = 84, 52, 36, 64
MOST = 140_000
WIDTH, HEIGHT = LEFT + 3 * 255 + RIGHT, TOP + 3 * MOST // 1000 + BOTTOM


def counts(matrix, range_):
    return luma_counts(Settings(range_=range_, matrix=matrix).weigh())


def x_of(luma):
    return LEFT + 3 * luma


def y_of(colours):
    """With one decimal."""
    tenths = 10 * (HEIGHT - BOTTOM) - (30 * colours + 500) // 1000
    return f'{tenths // 10}.{tenths % 10}'


def line(x1, y1, x2, y2, stroke, more=''):
    return f'<line x1="{x1}" y1="{y1}" x2="{x2}" y2="{y2}" stroke="{stroke}"{more}/>'


def text(x, y, said, anchor='middle', more=''):
    return f'<text x="{x}" y="{y}" text-anchor="{anchor}"{more}>{said}</text>'


def stroke_of(colour, dashes):
    return f'stroke="{colour}" stroke-width="1.8"' + (f' stroke-dasharray="{dashes}"' if dashes else '')


def picture():
    floor, end = HEIGHT - BOTTOM, x_of(255)
    lines = [
        f'<svg xmlns="http://www.w3.org/2000/svg" viewBox="0 0 {WIDTH} {HEIGHT}" width="{WIDTH}" height="{HEIGHT}" '
        'font-family="sans-serif" font-size="14" fill="#222222">',
        '<!-- Made by tools/luma_plot.py. -->',
        '<title>How many of the 16,777,216 colours have each luma</title>',
        f'<rect width="{WIDTH}" height="{HEIGHT}" fill="#ffffff"/>',
        text((LEFT + end) // 2, 30, 'How many of the 16,777,216 colours have each luma', more=' font-size="17"'),
    ]
    for colours in range(0, MOST + 1, 20_000):
        lines += [line(LEFT, y_of(colours), end, y_of(colours), '#dddddd'), text(LEFT - 8, floor - 3 * colours // 1000 + 5, f'{colours:,}', 'end')]
    for luma in [*range(0, 255, 32), 255]:
        lines += [line(x_of(luma), floor, x_of(luma), floor + 6, '#222222'), text(x_of(luma), floor + 22, luma)]
    lines += [
        line(LEFT, floor, end, floor, '#222222'),
        line(LEFT, TOP, LEFT, floor, '#222222'),
        text((LEFT + end) // 2, HEIGHT - 16, 'luma'),
        text(20, (TOP + floor) // 2, 'colours', more=f' transform="rotate(-90 20 {(TOP + floor) // 2})"'),
    ]
    lines.append(f'<rect x="{end - 170}" y="{TOP + 2}" width="166" height="{20 * len(CURVES) + 8}" fill="#ffffff"/>')
    for place, (matrix, range_, colour, dashes) in enumerate(CURVES):
        points = ' '.join(f'{x_of(luma)},{y_of(count)}' for luma, count in enumerate(counts(matrix, range_)))
        lines.append(f'<polyline fill="none" {stroke_of(colour, dashes)} points="{points}"/>')
        at = TOP + 16 + 20 * place
        lines.append(f'<line x1="{end - 160}" y1="{at}" x2="{end - 120}" y2="{at}" {stroke_of(colour, dashes)}/>')
        lines.append(text(end - 112, at + 5, f'{matrix} {range_}', 'start'))
    return '\n'.join(lines + ['</svg>', ''])


def main():
    if sys.argv[1:] not in ([], ['--check']):
        sys.exit(__doc__)
    if not sys.argv[1:]:
        PLOT.write_text(picture())
    elif not PLOT.exists() or PLOT.read_text() != picture():
        sys.exit('docs/luma_counts.svg is not what tools/luma_plot.py makes')


main()
