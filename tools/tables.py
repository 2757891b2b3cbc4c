#!/usr/bin/env python3
"""Make crates/sharp_gamma/src/truncated.rt and nearest.rt, the constant tables of every transfer.

The decimals are read out of crates/sharp_gamma/specs/Curve.antt, the file of the definition; all
arithmetic is exact. The text made is in the layout of `rt fmt`. The tables do not depend on the last
digits, so these are held to the table of RULES 3.1.

    tools/tables.py           write the files
    tools/tables.py --check   say what differs from the files, or from RULES 3.1, and fail if anything does
    tools/tables.py --moved   say which entries of both tables, each worked out by itself, are not those of the
                              scope document's decimals, which the digits of the definition replaced
    tools/tables.py --moved TRANSFER BREAK SCALE
                              say which are not those that this break and scale would give
"""
import difflib
import re
import sys
import textwrap
from fractions import Fraction
from itertools import product
from pathlib import Path

ROOT = Path(__file__).resolve().parent.parent
RULES = ROOT / 'docs' / 'RULES.md'
CRATE = ROOT / 'crates' / 'sharp_gamma'
DEFINITION = CRATE / 'specs' / 'Curve.antt'
TRANSFERS = ['Srgb', 'Rec709', 'Gamma2p2', 'Gamma2p8']

# What each rounding takes off an entry before it is compared. Its tables stand in a file of its name.
ROUNDINGS = {'Truncated': Fraction(0), 'Nearest': Fraction(1, 2)}

# Slope, break, offset, scale and power of the scope document; its offset was a decimal of its own.
SCOPE_DOCUMENT = {
    'Srgb': [Fraction('12.92'), Fraction('0.0030412825'), Fraction('0.055010717'), Fraction('1.0550107'), 12, 5],
    'Rec709': [Fraction('4.5'), Fraction('0.01805397'), Fraction('0.09929682'), Fraction('1.0992968'), 20, 9],
}

HEADER = '''\
// Made by tools/tables.py from the decimals of specs/Curve.antt: change those, and run it.
'''


def number(term):
    """`whole N` or `decimal DIGITS PLACES`, as the definition writes a fraction."""
    kind, digits, *places = term.split()
    assert (kind, len(places)) in (('whole', 0), ('decimal', 1)), term
    return Fraction(int(digits), 10 ** int(places[0]) if places else 1)


def row(slope, end, scale, up, down):
    """Slope, break, offset, scale, and the power's numerator and denominator: the offset is the scale less 1."""
    return [slope, end, scale - 1, scale, up, down]


def curves():
    """Each transfer's row."""
    found = {}
    for name, terms, up, down in re.findall(r'^curve_of (\w+) = row ((?:\([^)]*\) ){3})(\d+) (\d+)$',
                                            DEFINITION.read_text(), re.MULTILINE):
        found[name] = row(*(number(term) for term in re.findall(r'\(([^)]*)\)', terms)), int(up), int(down))
    if list(found) != TRANSFERS:
        sys.exit(f'{DEFINITION}: found rows for {list(found)}, expected {TRANSFERS}')
    return found


def ruled():
    """The same rows out of the table of RULES 3.1, where the offset stands as a decimal too."""
    page = RULES.read_text()
    lines = re.findall(r'^\| (\w+) \| (\d.*) \|$', page[page.index('**3.1 '):page.index('**3.2 ')], re.MULTILINE)
    cells = {name: [Fraction(cell) for cell in rest.split(' | ')] for name, rest in lines}
    return {name: found[:4] + found[-2:] for name, found in cells.items()}


def not_above(value, up, down, limit):
    """value is not above limit ^ (up / down): powers are compared by raising both sides."""
    return value ** down <= limit ** up


def under_curve(curve, y, x):
    slope, end, offset, scale, up, down = curve
    if x <= 0:
        return y <= 0
    if x >= 1:
        return y <= 1
    if x < slope * end:
        return y <= x / slope
    return not_above(y, up, down, (x + offset) / scale)


def under_inverse(curve, x, y):
    slope, end, offset, scale, up, down = curve
    if y <= 0:
        return x <= 0
    if y >= 1:
        return x <= 1
    if y < end:
        return x <= slope * y
    return not_above((x + offset) / scale, down, up, y)


def first(passes, end):
    """The first number below end that passes, or end; what passes goes on passing."""
    low = 0
    while low < end:
        middle = (low + end) // 2
        if passes(middle):
            end = middle
        else:
            low = middle + 1
    return low


def linear(curve, off):
    return [first(lambda n: not under_curve(curve, (n - off) / 65535, Fraction(v, 255)), 65536) - 1
            for v in range(256)]


def first_index(curve, off):
    return [first(lambda i: k == 0 or under_inverse(curve, (k - off) / 255, Fraction(i, 65535)), 65536)
            for k in range(256)]


def gamma(curve, off):
    """Every gamma entry; what is not above the inverse stays so when it is made smaller, so each is sought from the one before."""
    entries, k = [], 0
    for i in range(65536):
        def passes(k):
            return under_inverse(curve, (k - off) / 255, Fraction(i, 65535))
        while k > 0 and not passes(k):
            k -= 1
        while k < 255 and passes(k + 1):
            k += 1
        entries.append(k)
    return entries


def moved(others):
    """Print the entries that the curves of `others` make otherwise than the definition's."""
    compared = unlike = 0
    print('transfer  rounding  table  index  entry  with the other digits')
    for transfer, curve in curves().items():
        other = others.get(transfer, curve)
        for (rounding, off), (name, table) in product(ROUNDINGS.items(), (('linear', linear), ('gamma', gamma))):
            for index, (entry, instead) in enumerate(zip(table(curve, off), table(other, off))):
                compared += 1
                if entry != instead:
                    unlike += 1
                    print(f'{transfer}  {rounding}  {name}  {index}  {entry}  {instead}')
    print(f'{unlike} of {compared} entries differ')


def constant(comment, name, entries):
    lines = textwrap.fill(', '.join(str(entry) for entry in entries) + ',', 99, initial_indent='    ', subsequent_indent='    ')
    return f'\n// {comment}\npub const {name}: [u16; 256] = [\n{lines}\n];\n'


def text(off):
    made = HEADER
    for transfer, curve in curves().items():
        name = transfer.upper()
        made += constant(f'{transfer}: the linear entry of each byte.', f'{name}_LINEAR', linear(curve, off))
        made += constant(f'{transfer}: the first index whose gamma entry is at least k, for each byte k.',
                         f'{name}_FIRST_INDEX', first_index(curve, off))
    return made


def files():
    """Each file with its text."""
    return {CRATE / 'src' / f'{rounding.lower()}.rt': text(off) for rounding, off in ROUNDINGS.items()}


def main():
    words = sys.argv[1:]
    if words == []:
        for file, made in files().items():
            file.write_text(made)
    elif words == ['--check']:
        for file, made in files().items():
            differs = list(difflib.unified_diff(file.read_text().splitlines(), made.splitlines(),
                                                str(file), 'what tools/tables.py makes', lineterm=''))
            if differs:
                sys.exit('\n'.join(differs))
        if ruled() != curves():
            sys.exit(f'{RULES}: the table of 3.1 has not the decimals of {DEFINITION}')
    elif words == ['--moved']:
        moved(SCOPE_DOCUMENT)
    elif len(words) == 4 and words[0] == '--moved' and words[1] in TRANSFERS:
        slope, _, _, _, up, down = curves()[words[1]]
        moved({words[1]: row(slope, Fraction(words[2]), Fraction(words[3]), up, down)})
    else:
        sys.exit(__doc__)


main()
