#!/usr/bin/env python3
"""Work out the examples of docs/RULES.md: every block of it that starts with the word Example.

It is a second reading of the rules, in plain Python and exact numbers, that shares nothing with the proved code. The constants are
read out of the tables of docs/RULES.md itself (rules 1.2 to 1.4, 3.1, 4.1, 4.3,
                                                14.2), so that an example follows from the text and from nothing else.

    tools/rules_examples.py           write the blocks
    tools/rules_examples.py --check   say which blocks are not what the rules give, and which rules have none; fail if any
"""
import bisect
import functools
import re
import struct
import sys
import zlib
from collections import namedtuple
from fractions import Fraction
from pathlib import Path

RULES = Path(__file__).resolve().parent.parent / 'docs' / 'RULES.md'
TEXT = RULES.read_text()
BLOCK = re.compile(r'^```text\n(Example ([A-Z0-9.]+)(?:: [^\n]*)?)\n(.*?)^```$', re.MULTILINE | re.DOTALL)
RULE = re.compile(r'^\*\*(\d+\.\d+) ', re.MULTILINE)


# ---- the constants, out of the text

def table(rule):
    """The rows of the first table after a rule's number, without the head, each a list of cells."""
    after = TEXT[re.search(rf'^\*\*{re.escape(rule)} ', TEXT, re.MULTILINE).start():]
    lines = re.search(r'(?:^\|.*\n)+', after, re.MULTILINE).group().splitlines()[2:]
    return [[cell.strip().replace('−', '-') for cell in line.strip('|').split('|')] for line in lines]


RANGES = {row[0]: tuple(map(int, row[1:])) for row in table('1.4')}
ORDERS = {row[0]: (int(row[1]), tuple(map(int, row[2:5]))) for row in table('1.3')}
CODES = {row[0]: [item.split(' ', 1)[1] for item in row[1].split(', ')] for row in table('1.2')}
STORED = {(row[0], row[1]): [int(cell) for cell in row[2:]] for row in table('4.1')}
FCC = tuple(struct.unpack('>f', bytes.fromhex(table('4.3')[0][i]))[0] for i in (2, 4))
D = 10 ** 15


class Curve:
    def __init__(self, row):
        decimals = [Fraction(text) for text in row[1:5]]
        self.slope, self.brk, self.offset, self.scale, self.up, self.down = map(int, row[5:])
        assert [self.slope, self.brk, self.offset, self.scale] == [d * D for d in decimals], row
        assert self.offset == self.scale - D, row


CURVES = {row[0]: Curve(row) for row in table('3.1')}
HALVES = {'Truncated': 0, 'Nearest': 1}  # o of rules 3.4 and 3.5
assert CODES['rounding'] == list(HALVES)
NAMES = ['yr', 'yg', 'yb', 'cb_r', 'cb_g', 'cb_b', 'cr_r', 'cr_g', 'cr_b']


# ---- chapter 3

def largest(top, passes):
    """The largest number from 0 to top that passes, where all below a passing one pass and 0 does."""
    low, high = 0, top
    while low < high:
        middle = (low + high + 1) // 2
        if passes(middle):
            low = middle
        else:
            high = middle - 1
    return low


class EntryRule:
    """What 3.4 and 3.5 have in common: an entry, from 0 to `top`, for each place of a table, from 0 to `last`. o is that of the rounding."""

    def by_part(self, c, o, at):
        """An entry by the second or third line of its rule."""
        if self.straight(c, at):
            scaled, half, by = self.quotient(c, o, at)
            return (scaled + half) // by
        right = self.right(c, at)
        return largest(self.top, lambda entry: self.left(c, o, entry) <= right)

    def table(self, c, o):
        return [0, *(self.by_part(c, o, at) for at in range(1, self.last)), self.top]

    def is_exact(self, c, o, at, entry):
        """Whether an entry, less o halves, is exactly the curve scaled to the table."""
        if self.straight(c, at):
            scaled, half, by = self.quotient(c, o, at)
            return scaled + half == entry * by
        return self.left(c, o, entry) == self.right(c, at)

    def longest(self):
        """The lengths in bits of the longest number of a third line and of a second, for any transfer and rounding."""
        both = [(c, o) for c in CURVES.values() for o in HALVES.values()]
        powers = [max(self.left(c, o, self.top), self.right(c, self.last - 1)) for c, o in both]
        quotients = [self.quotient(c, o, at) for c, o in both for at in range(1, self.last) if self.straight(c, at)]
        return max(powers).bit_length(), max(max(scaled + half, by) for scaled, half, by in quotients).bit_length()


class LinearRule(EntryRule):
    top, last = 65535, 255

    def straight(self, c, v):
        return v * D * D < 255 * c.slope * c.brk

    def quotient(self, c, o, v):
        """What is divided, as two terms, and by what."""
        return 2 * 65535 * v * D, o * 255 * c.slope, 2 * 255 * c.slope

    def left(self, c, o, n):
        return (2 * n - o) ** c.down * (255 * c.scale) ** c.up

    def right(self, c, v):
        return (v * D + 255 * c.offset) ** c.up * (2 * 65535) ** c.down


class GammaRule(EntryRule):
    top, last = 255, 65535

    def straight(self, c, i):
        return i * D < 65535 * c.brk

    def quotient(self, c, o, i):
        return 2 * 255 * i * c.slope, o * 65535 * D, 2 * 65535 * D

    @functools.cache
    def left(self, c, o, m):
        return ((2 * m - o) * D + 2 * 255 * c.offset) ** c.up * 65535 ** c.down

    @functools.cache
    def unit(self, c):
        return (2 * 255 * c.scale) ** c.up

    def right(self, c, i):
        return i ** c.down * self.unit(c)


LINEAR_RULE, GAMMA_RULE = LinearRule(), GammaRule()

# by transfer and rounding
LINEAR = {(name, rounding): LINEAR_RULE.table(c, o) for name, c in CURVES.items() for rounding, o in HALVES.items()}
GAMMA = {(name, rounding): GAMMA_RULE.table(c, o) for name, c in CURVES.items() for rounding, o in HALVES.items()}


# ---- chapter 4

def f32(x):
    """To binary32. Of one operation on two binary32 numbers done in binary64 this is the exact result rounded once: 53 digits are enough."""
    return struct.unpack('<f', struct.pack('<f', x))[0]


def bits(x):
    return f'{struct.unpack("<I", struct.pack("<f", x))[0]:08X}'


def of_bits(text):
    return struct.unpack('>f', bytes.fromhex(text))[0]


def shown(x):
    return f'{bits(x)} ({x:.9g})'.replace('-', '−')


def coefficients(range_, kr, kb, say=lambda line: None, keep=f32):
    """The nine of rule 4.4, each step said; `keep` is what becomes of a step's result."""
    ry, ruv = float(RANGES[range_][1]), float(RANGES[range_][2])

    def step(name, a, op, b):
        x = keep({'−': lambda: a - b, '×': lambda: a * b, '/': lambda: a / b}[op]())
        say(f'{name:>4} = {shown(f32(a))} {op} {shown(f32(b))} = {shown(f32(x))}')
        return x

    kg = step('kg', step('a', 1.0, '−', kr), '−', kb)
    found = {}
    for name, k in (('yr', kr), ('yg', kg), ('yb', kb)):
        found[name] = step(name, step('a', k, '×', ry), '/', 255.0)
    for name, k, other in (('cb_r', kr, kb), ('cb_g', kg, kb), ('cb_b', None, None), ('cr_r', None, None), ('cr_g', kg, kr), ('cr_b', kb, kr)):
        if k is None:
            found[name] = step(name, step('a', 0.5, '×', ruv), '/', 255.0)
        else:
            a, b = step('a', -0.5, '×', k), step('b', 1.0, '−', other)
            found[name] = step(name, step('e', step('d', a, '/', b), '×', ruv), '/', 255.0)
    return [found[name] for name in NAMES]


def half_away(x):
    size = abs(Fraction(x))
    n = (2 * size.numerator + size.denominator) // (2 * size.denominator)
    return -n if x < 0 else n


def weights(matrix, range_, kr=None, kb=None):
    if (matrix, range_) in STORED:
        return STORED[matrix, range_]
    kr, kb = FCC if matrix == 'Fcc' else (kr, kb)
    return [half_away(f32(x * 8192.0)) for x in coefficients(range_, kr, kb)]


# ---- chapters 5 and 6

class Settings:
    def __init__(self, order='Rgb', sampling='4:2:0', range_='Limited', matrix='Bt601', transfer='Srgb', rounding='Truncated', kr=None, kb=None):
        self.order, self.sampling, self.range_, self.matrix, self.kr, self.kb = order, sampling, range_, matrix, kr, kb
        self.transfer, self.rounding = transfer, rounding
        self.c, self.places = ORDERS[order]
        self.by, self.ry, self.ruv = RANGES[range_]
        self.linear, self.gamma = LINEAR[transfer, rounding], GAMMA[transfer, rounding]

    def weigh(self):
        self.w = weights(self.matrix, self.range_, self.kr, self.kb)
        return self


def luma_sum(s, rgb):
    return sum(a * b for a, b in zip(rgb, s.w[:3])) + s.by * 8192 + 4095


def luma(s, rgb):
    return min(luma_sum(s, rgb) // 8192, s.by + s.ry)


COLOURS = 256 ** 3


def luma_counts(s, more=4095):
    """The 256 counts of 5.3: for each y how many colours have a luma below it, by the sums of R and G in order and each B, and the differences."""
    red, green, blue = s.w[:3]
    pairs = sorted(red * r + green * g for r in range(256) for g in range(256))
    start, most = s.by * 8192 + more, s.by + s.ry
    below = [COLOURS if y > most else sum(bisect.bisect_left(pairs, y * 8192 - start - blue * b) for b in range(256)) for y in range(257)]
    return [after - before for before, after in zip(below, below[1:])]


def chroma_sum(s, rgb, first):
    return sum(a * b for a, b in zip(rgb, s.w[first:first + 3])) + 128 * 8192 + 4095


def chroma(s, rgb):
    return tuple(min(max(chroma_sum(s, rgb, first) // 8192, s.by), s.by + s.ruv) for first in (3, 6))


def chroma_size(s, w, h):
    return (w + 1) // 2, h if s.sampling == '4:2:2' else (h + 1) // 2


def chroma_colour(s, w, h, pixel, j, k, say=lambda line: None):
    """The colour of chroma place j, k; pixel(x, r) gives R, G, B."""
    r, right = (k if s.sampling == '4:2:2' else 2 * k), 2 * j + 1 < w
    this = pixel(2 * j, r)
    if s.sampling == '4:2:2':
        if not right:
            return this
        terms = [(12, this), (4, pixel(2 * j + 1, r))]
    else:
        below = min(r + 1, h - 1)
        if right:
            terms = [(9, this), (3, pixel(2 * j + 1, r)), (3, pixel(2 * j, below)), (1, pixel(2 * j + 1, below))]
        else:
            terms = [(12, this), (4, pixel(2 * j, below))]
    colour = []
    for i in range(3):
        total = sum(weight * s.linear[rgb[i]] for weight, rgb in terms)
        index = (total + 8) // 16
        colour.append(s.gamma[index])
        products = ' + '.join(f'{weight} × {s.linear[rgb[i]]}' for weight, rgb in terms)
        say(f'{"RGB"[i]}: {products} = {total}; ({total} + 8) / 16 gives {index}; gamma entry {s.gamma[index]}')
    return tuple(colour)


def rgb_of(s, source, at):
    return tuple(source[at + place] for place in s.places)


# ---- chapters 7, 8, 9

Window = namedtuple('Window', 'left top W H')


def whole(w, h):
    """The window that is the whole source (2.6)."""
    return Window(0, 0, w, h)


def accepted(s):
    return s.matrix != 'Custom' or all(0 <= k <= 0.5 for k in (s.kr, s.kb))


def description_answer(s, w, h, window=None):
    """2, 3, 4, 14, or None. A window that is not given is the whole source, here and below."""
    window = window or whole(w, h)
    if w == 0 or h == 0:
        return 2, 0, 0
    if max(w, h, window.W, window.H) > 16384:
        return 3, 0, 0
    if not accepted(s):
        return 4, 0, 0
    if window.left + w > window.W or window.top + h > window.H:
        return 14, 0, 0


def buffers(s, w, h, n, strides, lengths, window):
    """6 to 12, strides and lengths of source, Y, U, V."""
    cw, ch = chroma_size(s, w, h)
    rows, row = [n, h, ch, ch], [window.W * s.c, w, cw, cw]
    least = [stride * (count - 1) + one for stride, count, one in zip(strides, rows, row)]
    if lengths[0] < least[0]:
        return 6, least[0], lengths[0]
    if strides[0] < row[0]:
        return 7, row[0], strides[0]
    for i, narrow, short in ((1, 8, 9), (2, 10, 10), (3, 11, 11)):
        if strides[i] < row[i]:
            return narrow, row[i] * rows[i], strides[i] * rows[i]
        if lengths[i] < least[i]:
            return short, least[i], lengths[i]
    for stride, count, length in zip(strides, rows, lengths):
        if length != stride * count:
            return 12, stride * count, length


def frame_answer(s, w, h, strides, lengths, window=None):
    window = window or whole(w, h)
    return description_answer(s, w, h, window) or buffers(s, w, h, window.H, strides, lengths, window) or (0, 0, 0)


def band_answer(s, w, h, done, m, strides, lengths, carried, window=None):
    window = window or whole(w, h)
    found = description_answer(s, w, h, window)
    if found is None and (m == 0 or m > max(0, h - done)):
        found = 5, 0, 0
    found = found or buffers(s, w, h, m, strides, lengths, window)
    if found is None and carried < 3 * w:
        found = 13, 3 * w, carried
    return found or (0, 0, 0)


def finished(s, h, n):
    if s.sampling == '4:2:2':
        return n
    return (h + 1) // 2 if n == h else n // 2


def convert(s, w, h, done, m, pixel, strides, planes):
    """Writes the rows that a band finishes; a frame is the band of all its rows."""
    s.weigh()
    cw, _ = chroma_size(s, w, h)
    for r in range(done, done + m):
        for x in range(w):
            planes[0][r * strides[0] + x] = luma(s, pixel(x, r))
    for k in range(finished(s, h, done), finished(s, h, done + m)):
        for j in range(cw):
            colour = chroma_colour(s, w, h, pixel, j, k)
            for plane, stride, byte in zip(planes[1:], strides[1:], chroma(s, colour)):
                plane[k * stride + j] = byte


def frame_call(s, w, h, source, strides, planes, window=None):
    """Strides of source, Y, U, V. Answers three numbers."""
    window = window or whole(w, h)
    answer = frame_answer(s, w, h, strides, [len(source)] + [len(plane) for plane in planes], window)
    if answer[0] == 0:
        convert(s, w, h, 0, h, lambda x, r: rgb_of(s, source, (window.top + r) * strides[0] + (window.left + x) * s.c), strides[1:], planes)
    return answer


def band_call(s, w, h, done, m, source, strides, planes, carried, window=None):
    """Answers three numbers and the rows done."""
    window = window or whole(w, h)
    answer = band_answer(s, w, h, done, m, strides, [len(source)] + [len(plane) for plane in planes], len(carried), window)
    if answer[0]:
        return answer, done

    def place(x, r):
        return (r - done) * strides[0] + (window.left + x) * s.c

    def pixel(x, r):
        return rgb_of(s, carried, 3 * x) if r < done else rgb_of(s, source, place(x, r))

    convert(s, w, h, done, m, pixel, strides[1:], planes)
    last = done + m - 1
    if s.sampling == '4:2:0' and last % 2 == 0 and last != h - 1:
        for x in range(w):
            at = place(x, last)
            carried[3 * x:3 * x + 3] = source[at:at + 3]
    return answer, done + m


def program(request):
    if len(request) < 9:
        return b'refused 1\n'
    codes = list(zip(request[4:9], CODES.values()))
    if any(code >= len(values) for code, values in codes):
        return b'refused 1\n'
    w, h = int.from_bytes(request[0:2], 'little'), int.from_bytes(request[2:4], 'little')
    s = Settings(*(values[code] for code, values in codes))
    cw, ch = chroma_size(s, w, h)
    planes = [bytearray(w * h), bytearray(cw * ch), bytearray(cw * ch)]
    if w and h and w * h > 16384:
        return b'refused 3\n'
    number = frame_call(s, w, h, request[9:], [w * s.c, w, cw, cw], planes)[0]
    return f'refused {number}\n'.encode() if number else b''.join(planes)


def counts_call(given, kr, kb, kept):
    """10.4: the answer, and the caller's 256 numbers after it."""
    counts = [len(CODES['range']), len(CODES['matrix']) + 1]  # Custom is one more
    if len(given) != 2 or any(code >= count for code, count in zip(given, counts)):
        return 1, kept
    s = Settings(range_=CODES['range'][given[0]], matrix=[*CODES['matrix'], 'Custom'][given[1]], kr=kr, kb=kb)
    return (0, luma_counts(s.weigh())) if accepted(s) else (4, kept)


def counts_program(given):
    """9.4."""
    if len(given) != 2 or given[0] >= len(CODES['range']) or given[1] >= len(CODES['matrix']):
        return b'refused 1\n'
    s = Settings(range_=CODES['range'][given[0]], matrix=CODES['matrix'][given[1]])
    return ''.join(f'{y} {count}\n' for y, count in enumerate(luma_counts(s.weigh()))).encode()


# ---- chapter 11

MOST_RECORDS = 4096
Entry = namedtuple('Entry', 'crossing w h offset length y y_length u u_length v v_length sampling range matrix transfer')
WITHOUT, WITH = 0, 1  # the forms, by the numbers of 10.5
NOT_RECORDED = 255
UNSAID = bytes([0, NOT_RECORDED, NOT_RECORDED, NOT_RECORDED])  # what a record without settings has by 11.7


def low_first(value, count):
    return value.to_bytes(count, 'little')


MARK = low_first(4294967295, 4)


def plane_sizes(w, h, sampling=0):
    cw, ch = chroma_size(Settings(sampling=CODES['sampling'][sampling]), w, h)
    return w * h, cw * ch, cw * ch


def are_settings(four):
    """11.7: whether a record may have these as sampling, range, matrix and transfer."""
    counts = [len(CODES[setting]) + (setting == 'matrix') for setting in ('sampling', 'range', 'matrix', 'transfer')]
    return four[0] < counts[0] and all(code < count or code == NOT_RECORDED for code, count in zip(four[1:], counts[1:]))


def record_of(crossing, w, h, planes, settings=b''):
    """11.2; with four bytes of settings 11.7."""
    return low_first(crossing, 4) + low_first(w, 2) + low_first(h, 2) + settings + b''.join(planes)


def start_of(form, count):
    """The bytes before the first record."""
    return 4 + 4 * form + 12 * count


def file_of(records, form=WITHOUT):
    pairs, offset = b'', start_of(form, len(records))
    for record in records:
        pairs += low_first(offset, 8) + low_first(len(record), 4)
        offset += len(record)
    return MARK * form + low_first(len(records), 4) + pairs + b''.join(records)


def settings_in(record, form):
    return record[8:12] if form else UNSAID


def records_in(data, form=WITHOUT):
    """The records of this form that stand back to back, or None."""
    records, at, header_length = [], 0, 8 + 4 * form
    while at < len(data):
        header = data[at:at + header_length]
        w, h = int.from_bytes(header[4:6], 'little'), int.from_bytes(header[6:8], 'little')
        if len(header) < header_length or not (1 <= w <= 16384 and 1 <= h <= 16384) or not are_settings(settings_in(header, form)):
            return None
        length = header_length + sum(plane_sizes(w, h, settings_in(header, form)[0]))
        if at + length > len(data):
            return None
        records.append(data[at:at + length])
        at += length
    return records if len(records) <= MOST_RECORDS else None


def records_of(data, form=WITHOUT):
    """The records of a file of this form, or None: those of the one list that may have these bytes."""
    at = 4 * form
    n = int.from_bytes(data[at:at + 4], 'little')
    records = records_in(data[start_of(form, n):], form) if len(data) >= at + 4 and n <= MOST_RECORDS else None
    return records if records is not None and file_of(records, form) == data else None


def form_of(data):
    """The form of which these bytes are a file, or None."""
    return next((form for form in (WITHOUT, WITH) if records_of(data, form) is not None), None)


def entries_of(data, form=WITHOUT):
    """An entry for each record of a file of this form, or None."""
    records = records_of(data, form)
    if records is None:
        return None
    entries, offset = [], start_of(form, len(records))
    for record in records:
        crossing, w, h = (int.from_bytes(record[a:b], 'little') for a, b in ((0, 4), (4, 6), (6, 8)))
        settings = settings_in(record, form)
        parts, at = [], offset + 8 + 4 * form
        for size in plane_sizes(w, h, settings[0]):
            parts += [at, size]
            at += size
        entries.append(Entry(crossing, w, h, offset, len(record), *parts, *settings))
        offset += len(record)
    return entries


def any_entries(data):
    """The same of a file of either form."""
    form = form_of(data)
    return None if form is None else entries_of(data, form)


def read_call(data, first, room):
    """11.4: the answer, how many records, and the entries written, of eleven numbers."""
    entries = entries_of(data)
    return (15, 0, []) if entries is None else (0, len(entries), [entry[:11] for entry in entries[first:first + room]])


def read_any_call(data, first, room):
    """11.4: the same of either form, entries of fifteen numbers, and the form, 0 where there is none."""
    entries = any_entries(data)
    return (15, 0, [], 0) if entries is None else (0, len(entries), entries[first:first + room], form_of(data))


def put(output, data):
    """16 where the output is too short, else 0 with the bytes written."""
    if len(output) < len(data):
        return 16
    output[:len(data)] = data
    return 0


def write_call(data, output, form=WITHOUT):
    """11.5: the answer and the size."""
    records = records_in(data, form)
    return (15, 0) if records is None else (put(output, file_of(records, form)), len(file_of(records, form)))


def record_call(crossing, w, h, strides, planes, output, four=None):
    """11.6: the answer, three numbers, and the size; with settings where four numbers are given."""
    if not (1 <= w <= 16384 and 1 <= h <= 16384) or four is not None and not are_settings(four):
        return (15, 0, 0), 0
    s = Settings(sampling=CODES['sampling'][four[0] if four else 0])
    # a source that no condition holds of
    found = buffers(s, w, h, 1, [3 * w, *strides], [3 * w, *map(len, planes)], whole(w, h))
    if found:
        return found, 0
    cw, ch = chroma_size(s, w, h)
    rows = [b''.join(bytes(plane[r * stride:r * stride + row]) for r in range(count))
            for plane, stride, row, count in zip(planes, strides, (w, cw, cw), (h, ch, ch))]
    record = record_of(crossing, w, h, rows, bytes(four or ()))
    return (put(output, record), 0, 0), len(record)


def forward(record):
    return record[:8] + UNSAID + record[8:]


def back(record):
    return record[:8] + record[12:]


def forward_call(data, output):
    """11.8: the answer and the size."""
    records = records_of(data, WITHOUT)
    if records is None:
        return 15, 0
    moved = file_of([forward(record) for record in records], WITH)
    return put(output, moved), len(moved)


def back_call(data, output):
    """11.8: the answer and the size."""
    records = records_of(data, WITH)
    if records is None:
        return 15, 0
    if any(settings_in(record, WITH) != UNSAID for record in records):
        return 20, 0
    moved = file_of([back(record) for record in records], WITHOUT)
    return put(output, moved), len(moved)


# ---- chapter 12

def entry_of(entry, data):
    """12.1, 12.2: the 13 bytes of a record's entry."""
    plane = data[entry.y:entry.y + entry.y_length]
    return low_first(entry.crossing, 4) + low_first(entry.offset, 8) + low_first(sum(plane) // (entry.w * entry.h), 1)


def crossing_in(entry):
    return int.from_bytes(entry[:4], 'little')


def summary_in(data):
    """12.3: the summary of a file. Entries stand by offset in it, and sorting leaves equal ones in their order."""
    return b''.join(sorted((entry_of(entry, data) for entry in any_entries(data)), key=crossing_in))


def check_call(data, buffer):
    """12.5: the answer, and whether it is yes."""
    if any_entries(data) is None:
        return 15, False
    return 0, bytes(buffer[:13 * len(any_entries(data))]) == summary_in(data)


def build_call(data, buffer):
    """12.4: the answer."""
    if any_entries(data) is None:
        return 15
    return 17 if put(buffer, summary_in(data)) else 0


def find_call(data, buffer, crossing):
    """12.6: the answer, and the record's number or None."""
    number, yes = check_call(data, buffer)
    if number or not yes:
        return number or 17, None
    found = [k for k, entry in enumerate(any_entries(data)) if entry.crossing == crossing]
    return 0, min(found, default=None)


def update_call(data, record, buffer):
    """12.7: the answer."""
    form = form_of(data)
    if form is None:
        return 15
    records, added = records_of(data, form), records_in(record, form)
    if added is None or len(added) != 1 or len(records) == MOST_RECORDS:
        return 15
    if len(buffer) < 13 * (len(records) + 1) or not check_call(data, buffer)[1]:
        return 17
    return build_call(file_of(records + added, form), buffer)


# ---- chapter 13

def pairs_of(ours, theirs):
    """13.1: the places of each pair's records, in order."""
    places = [{}, {}]
    for found, records in zip(places, (ours, theirs)):
        for place, record in enumerate(records):
            found.setdefault(crossing_in(record), []).append(place)
    return [pair for crossing in sorted(places[0]) for pair in zip(places[0][crossing], places[1].get(crossing, []))]


def looks(form, records):
    """What 13.2 looks at in each record: w, h and sampling, and the planes."""
    found = []
    for record in records:
        size = int.from_bytes(record[4:6], 'little'), int.from_bytes(record[6:8], 'little'), settings_in(record, form)[0]
        found.append((size, record[8 + 4 * form:]))
    return found


def difference_of(ours, theirs):
    """13.2, 13.3: None of equal records; both sizes with their samplings; or plane, row and column."""
    (size, our_planes), (other, their_planes) = ours, theirs
    if size != other:
        return size, other
    w, h, sampling = size
    at = 0
    for plane, (length, width) in enumerate(zip(plane_sizes(w, h, sampling), (w, (w + 1) // 2, (w + 1) // 2))):
        for k in range(length):
            if our_planes[at + k] != their_planes[at + k]:
                return plane, k // width, k % width
        at += length
    return None


def report_of(ours, theirs, our_form=WITHOUT, their_form=WITHOUT):
    """13.2, 13.3: the four counts, and of the first difference the crossing, both places, and the difference."""
    pairs, our_looks, their_looks = pairs_of(ours, theirs), looks(our_form, ours), looks(their_form, theirs)
    differ = [(crossing_in(ours[i]), i, j, difference_of(our_looks[i], their_looks[j])) for i, j in pairs if difference_of(our_looks[i], their_looks[j])]
    return (len(pairs) - len(differ), len(differ), len(ours) - len(pairs), len(theirs) - len(pairs)), next(iter(differ), None)


def pair_call(ours, theirs):
    """13.4: the answer, the file that is none, and the report or None."""
    forms = form_of(ours), form_of(theirs)
    if None in forms:
        return 15, 1 if forms[0] is None else 2, None
    return 0, 0, report_of(records_of(ours, forms[0]), records_of(theirs, forms[1]), *forms)


def report_numbers(report):
    """10.7: the eighteen numbers."""
    counts, first = report
    if first is None:
        return [*counts] + [0] * 14
    crossing, i, j, difference = first
    if len(difference) == 2:
        (w, h, sampling), (other_w, other_h, other_sampling) = difference
        return [*counts, 1, crossing, i, j, w, h, other_w, other_h, 0, 0, 0, sampling, other_sampling, 0]
    return [*counts, 2, crossing, i, j, 0, 0, 0, 0, *difference, 0, 0, 0]


# ---- chapter 14

HEADER_WORD, PICTURE_WORD = b'YUV4MPEG2', b'FRAME'
MOST_OF_A_LINE = 256
C_TAGS = {row[0].strip('`').encode(): CODES['sampling'].index(row[1]) for row in table('14.2')}
Y4m = namedtuple('Y4m', 'w h sampling pictures')  # a picture: its tags, and offset and length of Y, U and V


def y4m_line(word, *tags):
    return word + b''.join(b' ' + tag for tag in tags) + b'\n'


def tags_of(data, word):
    """14.1: the tags of bytes that are a line of this word, or None."""
    if len(data) > MOST_OF_A_LINE or not re.fullmatch(re.escape(word) + rb'( [^ \n]+)*\n', data):
        return None
    return data[:-1].split(b' ')[1:]


def decimal_in(text):
    """14.2: the number of a decimal, or None."""
    number = int(text) if re.fullmatch(rb'[1-9][0-9]*', text) else 0
    return number if 1 <= number <= 16384 else None


def header_in(data):
    """14.2: w, h and the code of the sampling of bytes that are a header, or None."""
    tags = tags_of(data, HEADER_WORD)
    if tags is None:
        return None
    widths, heights, samplings = ([tag for tag in tags if tag[:1] == letter] for letter in (b'W', b'H', b'C'))
    if len(widths) != 1 or len(heights) != 1 or len(samplings) > 1:
        return None
    found = decimal_in(widths[0][1:]), decimal_in(heights[0][1:]), C_TAGS.get(samplings[0]) if samplings else 0
    return None if None in found else found


def y4m_in(data):
    """14.3, 14.4: the one Y4M file of these bytes, or None."""
    at = data.find(b'\n') + 1
    header = header_in(data[:at])
    if header is None:
        return None
    pictures, sizes = [], plane_sizes(*header)
    while at < len(data):
        end = data.find(b'\n', at) + 1
        tags = tags_of(data[at:end], PICTURE_WORD)
        if tags is None or end + sum(sizes) > len(data):
            return None
        y, u, v = sizes
        pictures.append((tags, (end, y, end + y, u, end + y + u, v)))
        at = end + sum(sizes)
    return Y4m(*header, pictures)


def y4m_read_call(data, first, room):
    """14.5: the answer; w, h, sampling, how many pictures; and the entries written."""
    found = y4m_in(data)
    if found is None:
        return 19, (0, 0, 0, 0), []
    return 0, (*found[:3], len(found.pictures)), [entry for _, entry in found.pictures[first:first + room]]


def is_shape(w, h, sampling):
    """What 14.6 and 14.7 ask of w, h and the number for the sampling."""
    return 1 <= w <= 16384 and 1 <= h <= 16384 and sampling in (0, 1)


def written_header(w, h, sampling):
    """14.6."""
    return y4m_line(HEADER_WORD, b'W%d' % w, b'H%d' % h, b'F25:1', b'Ip', (b'C420jpeg', b'C422')[sampling])


def written_size(w, h, sampling, length):
    """14.6: the size of the file of so many bytes of pictures, or None where that is 19."""
    if not is_shape(w, h, sampling) or length % sum(plane_sizes(w, h, sampling)):
        return None
    return len(written_header(w, h, sampling)) + (length // sum(plane_sizes(w, h, sampling))) * len(y4m_line(PICTURE_WORD)) + length


def y4m_write_call(w, h, sampling, pictures, output):
    """14.6: the answer and the size."""
    if written_size(w, h, sampling, len(pictures)) is None:
        return 19, 0
    p = sum(plane_sizes(w, h, sampling))
    made = written_header(w, h, sampling) + b''.join(y4m_line(PICTURE_WORD) + pictures[at:at + p] for at in range(0, len(pictures), p))
    assert len(made) == written_size(w, h, sampling, len(pictures))
    return put(output, made), len(made)


def y4m_picture_call(w, h, sampling, strides, planes, output):
    """14.7: the answer and the size."""
    if not is_shape(w, h, sampling):
        return 19, 0
    cw, ch = chroma_size(Settings(sampling=CODES['sampling'][sampling]), w, h)
    made = y4m_line(PICTURE_WORD)
    for plane, stride, width, rows in zip(planes, strides, (w, cw, cw), (h, ch, ch)):
        if stride < width or len(plane) != stride * rows:
            return 19, 0
        made += b''.join(plane[r * stride:r * stride + width] for r in range(rows))
    return put(output, made), len(made)


# ---- chapter 15

MOST_FRAMES = 64
Part = namedtuple('Part', 'offset length')
# by: settings, w, h, plane strides and window, or None for codes without a meaning; parts: of source, Y, U, V
ConvoyFrame = namedtuple('ConvoyFrame', 'by stride parts')


def bytes_of(part):
    """15.1: the numbers of the bytes of a part."""
    return range(part.offset, part.offset + part.length)


def is_inside(part, n):
    return part.offset + part.length <= n


def shared_bytes(a, b):
    """15.1: the numbers of the bytes that are of both."""
    return range(max(bytes_of(a).start, bytes_of(b).start), min(bytes_of(a).stop, bytes_of(b).stop))


def cut(part, buffer):
    return buffer[part.offset:part.offset + part.length]


def put_back(parts, lent, own):
    """15.1: the bytes of the parts of buffers replaced."""
    for part, buffer, data in zip(parts, lent, own):
        buffer[part.offset:part.offset + part.length] = data


def is_broken(frames, lengths):
    """15.2: 18, for the lengths of source, Y, U, V."""
    if len(frames) > MOST_FRAMES or not all(is_inside(part, n) for frame in frames for part, n in zip(frame.parts, lengths)):
        return True
    pairs = [(frames[j], frames[k]) for k in range(len(frames)) for j in range(k)]
    return any(bool(shared_bytes(a.parts[plane], b.parts[plane])) for a, b in pairs for plane in (1, 2, 3))


def turn(frame, source, planes):
    """15.3: the call of one frame on its parts of the buffers. Answers three numbers."""
    if frame.by is None:
        return 1, 0, 0
    s, w, h, strides, window = frame.by
    left = [bytearray(cut(part, plane)) for part, plane in zip(frame.parts[1:], planes)]
    answer = frame_call(s, w, h, cut(frame.parts[0], source), [frame.stride, *strides], left, window)
    put_back(frame.parts[1:], planes, left)
    return answer


def convoy_call(frames, source, planes):
    """15.3: three numbers and how many frames are finished."""
    if is_broken(frames, [len(source), *map(len, planes)]):
        return (18, 0, 0), 0
    for place, frame in enumerate(frames):
        answer = turn(frame, source, planes)
        if answer[0]:
            return answer, place
    return (0, 0, 0), len(frames)


# ---- chapter 16

CAMERAS = 32
# by: settings, w, h, plane strides and window, as in a convoy; parts: of Y, U, V and carried rows
OpenFrame = namedtuple('OpenFrame', 'by done parts')
WaitingBand = namedtuple('WaitingBand', 'rows stride part')
Place = namedtuple('Place', 'frame band', defaults=(None, None))
Desk = namedtuple('Desk', 'places first')
FRESH = Desk((Place(),) * CAMERAS, 0)


def put_place(desk, camera, place):
    return desk._replace(places=desk.places[:camera] + (place,) + desk.places[camera + 1:])


def desk_open(desk, camera, by, parts, lengths):
    """16.2: three numbers, and the desk. `by` is None for codes without a meaning."""
    if camera > 31:
        return (21, 0, 0), desk
    if desk.places[camera].frame:
        return (23, 0, 0), desk
    opened = [place.frame for place in desk.places if place.frame]
    if not all(map(is_inside, parts, lengths)) or any(bool(shared_bytes(*both)) for frame in opened for both in zip(parts, frame.parts)):
        return (18, 0, 0), desk
    if by is None:
        return (1, 0, 0), desk
    s, w, h, _, window = by
    answer = description_answer(s, w, h, window)
    if answer:
        return answer, desk
    return (0, 0, 0), put_place(desk, camera, Place(OpenFrame(by, 0, parts)))


def desk_offer(desk, camera, band, length):
    """16.3: three numbers, and the desk."""
    if camera > 31 or not desk.places[camera].frame:
        return (21, 0, 0), desk
    if desk.places[camera].band:
        return (22, 0, 0), desk
    if not is_inside(band.part, length):
        return (18, 0, 0), desk
    return (0, 0, 0), put_place(desk, camera, desk.places[camera]._replace(band=band))


def next_waiting(desk):
    """16.4: the camera that the next step serves, or None."""
    asked = [(desk.first + i) % CAMERAS for i in range(CAMERAS)]
    return next((camera for camera in asked if desk.places[camera].band), None)


def desk_step(desk, source, lent):
    """16.4: three numbers, the camera that was served or None, and the desk. lent: the buffers of Y, U, V and carried rows, written in place."""
    camera = next_waiting(desk)
    if camera is None:
        return (0, 0, 0), None, desk
    frame, band = desk.places[camera]
    s, w, h, strides, window = frame.by
    answer, done = (18, 0, 0), frame.done
    if is_inside(band.part, len(source)) and all(map(is_inside, frame.parts, map(len, lent))):
        own = [bytearray(cut(part, buffer)) for part, buffer in zip(frame.parts, lent)]
        answer, done = band_call(s, w, h, done, band.rows, cut(band.part, source), [band.stride, *strides], own[:3], own[3], window)
        put_back(frame.parts, lent, own)
    left = Place() if done >= h else Place(frame._replace(done=done))
    return answer, camera, put_place(desk, camera, left)._replace(first=(camera + 1) % CAMERAS)


# ---- the examples, by the number of their rule

EXAMPLES = {}


def example(number):
    def keep(function):
        EXAMPLES[number] = function
        return function
    return keep


def hexes(data):
    return ' '.join(f'{byte:02X}' for byte in data)


def numbers(values):
    return ' '.join(str(value) for value in values).replace('-', '−')


def signed(value):
    return str(value).replace('-', '−')


def product_sum(rgb, triple, more):
    terms = ' + '.join(f'{a} × {signed(b)}' for a, b in zip(rgb, triple))
    return f'{terms} + {more}'


def plane_text(planes):
    return ', '.join(f'{name} {hexes(plane)}' for name, plane in zip('YUV', planes))


def parts_text(parts):
    return ', '.join(numbers(part) for part in parts)


def window_text(window):
    return ', '.join(f'{name} {value}' for name, value in window._asdict().items())


def answer_line(what, answer):
    return f'{what}: {answer[0]}' + (f', expected {answer[1]}, received {answer[2]}' if answer[0] >= 6 else ', expected 0, received 0')


@example('1.1')
def _():
    yield 'a        b      a / b lies between   floor(a / b)'
    for a, b in ((8191, 8192), (8192, 8192), (-1, 8192), (-8192, 8192), (-8193, 8192), (-1044480, 8192)):
        low = a // b
        between = f'{low} exactly' if low * b == a else f'{low} and {low + 1}'
        yield f'{signed(a):<8} {b}   {signed(between):<19}  {signed(low)}'


@example('1.2')
def _():
    for codes in ((0, 0, 0, 0, 0, 0), (2, 1, 1, 5, 2, 1)):
        yield f'codes {numbers(codes)}: ' + ', '.join(values[code] for code, values in zip(codes, CODES.values()))


@example('1.3')
def _():
    data = [10, 20, 30, 40]
    for order, (c, places) in ORDERS.items():
        r, g, b = (data[place] for place in places)
        yield f'bytes {numbers(data[:c])} as {order}: R {r}, G {g}, B {b}'


@example('1.4')
def _():
    for name, (by, ry, ruv) in RANGES.items():
        yield f'{name}: luma from {by} to {by + ry}, chroma from {by} to {by + ruv}'


@example('1.5')
def _():
    for w, h in ((1920, 1080), (3, 3), (1, 1), (16384, 16383)):
        parts = [f'{s} {chroma_size(Settings(sampling=s), w, h)[0]} × {chroma_size(Settings(sampling=s), w, h)[1]}' for s in CODES['sampling']]
        yield f'{w} × {h} pixels: chroma planes of ' + ', of '.join(parts)


@example('2.1')
def _():
    w, h, strides = 3, 2, (10, 4, 2, 3)
    s = Settings('Rgb', '4:2:0')
    cw, ch = chroma_size(s, w, h)
    yield f'w {w}, h {h}, Rgb, 4:2:0, strides of source, Y, U, V: {numbers(strides)}'
    yield f'source: {h} rows of {w * s.c} bytes, rows start at bytes 0 and {strides[0]}'
    yield f'Y: {h} rows of {w} bytes, rows start at bytes 0 and {strides[1]}'
    yield f'U: {ch} row of {cw} bytes; V: {ch} row of {cw} bytes'
    window = Window(5, 1, 8, 6)
    yield f'the same with {window_text(window)}, source stride 25: {window.H} source rows of {window.W * s.c} bytes, which start at bytes 0, 25 and so on; Y, U, V as before'


@example('2.2')
def _():
    for order, stride, x, r in (('Rgb', 10, 2, 1), ('Bgra', 13, 2, 1)):
        c, places = ORDERS[order]
        at = r * stride + x * c
        red, green, blue = (at + place for place in places)
        yield f'{order}, stride {stride}: pixel {x} of row {r} starts at byte {r} × {stride} + {x} × {c} = {at}; R is byte {red}, G byte {green}, B byte {blue}'
    left, top, x, r, stride = 3, 1, 2, 1, 20
    at = (top + r) * stride + (left + x) * 3
    yield (f'Rgb, stride {stride}, left {left}, top {top}: pixel {x} of row {r} of the frame is pixel {left + x} of row {top + r} of the source '
           f'and starts at byte ({top} + {r}) × {stride} + ({left} + {x}) × 3 = {at}')


def one_pixel(rgb, **settings):
    s = Settings(**settings)
    data = bytearray(s.c)
    for place, value in zip(s.places, rgb):
        data[place] = value
    planes = [bytearray(1), bytearray(1), bytearray(1)]
    assert frame_call(s, 1, 1, data, [s.c, 1, 1, 1], planes)[0] == 0
    return tuple(plane[0] for plane in planes)


@example('2.3')
def _():
    for data, stride, window in (([200, 100, 50, 0, 0], 5, None), ([200, 100, 50, 255, 9], 5, None), ([1, 2, 3, 4, 200, 100, 50, 0] + [5] * 8, 8, Window(1, 0, 2, 2)),
                                 ([255] * 4 + [200, 100, 50, 7] + [0] * 8, 8, Window(1, 0, 2, 2))):
        s = Settings('Rgba')
        planes = [bytearray(1) for _ in range(3)]
        answer = frame_call(s, 1, 1, data, [stride, 1, 1, 1], planes, window)
        where = f'{window_text(window)}, ' if window else ''
        yield (f'1 × 1, {where}Rgba, Bt601, Limited, Srgb, 4:2:0, stride {stride}, source {numbers(data)}: '
               f'answer {answer[0]}, Y {planes[0][0]}, U {planes[1][0]}, V {planes[2][0]}')


@example('2.4')
def _():
    s = Settings('Rgb', '4:2:0')
    source = bytes([255, 0, 0] * 3)
    planes = [bytearray(b'\xee' * n) for n in (5, 3, 4)]
    assert frame_call(s, 3, 1, source, [9, 5, 3, 4], planes)[0] == 0
    yield 'w 3, h 1, three red pixels, Rgb, Bt601, Limited, Srgb, 4:2:0, strides of Y, U, V 5, 3, 4; all bytes EE before the call. After it, in hexadecimal:'
    for name, plane in zip('YUV', planes):
        yield f'{name}: {hexes(plane)}'


@example('2.5')
def _():
    s = Settings('Rgb', '4:2:2', 'Full').weigh()
    row = [(255, 0, 0), (0, 255, 0), (0, 0, 255)]
    planes = [bytearray(3), bytearray(2), bytearray(2)]
    assert frame_call(s, 3, 1, bytes(sum(row, ())), [9, 3, 2, 2], planes)[0] == 0
    yield 'w 3, h 1, pixels red, green, blue, Rgb, Bt601, Full, Srgb, 4:2:2'
    yield f'Y: {numbers(planes[0])}, the luma of each pixel'
    for j in range(2):
        colour = chroma_colour(s, 3, 1, lambda x, r: row[x], j, 0)
        yield f'chroma place j {j}, k 0: colour {numbers(colour)}, U byte {j} is its Cb {planes[1][j]}, V byte {j} its Cr {planes[2][j]}'


SMALL = [[(255, 0, 0), (0, 255, 0)], [(0, 0, 255), (255, 255, 255)], [(9, 120, 60), (200, 10, 77)]]


def surrounded(s, rows, window, rgb, first=0, count=None):
    """Rows of a source, from row `first` on, without padding: a rectangle of colours in its window, and one colour in all other pixels."""
    data = bytearray()
    for r in range(first, first + (window.H if count is None else count)):
        for x in range(window.W):
            inside = 0 <= r - window.top < len(rows) and 0 <= x - window.left < len(rows[0])
            pixel = bytearray([0, 0, 0, 170][:s.c])
            for place, value in zip(s.places, rows[r - window.top][x - window.left] if inside else rgb):
                pixel[place] = value
            data += pixel
    return data


def tight_planes(s, w, h):
    cw, ch = chroma_size(s, w, h)
    return [w, cw, cw], [bytearray(w * h), bytearray(cw * ch), bytearray(cw * ch)]


def window_planes(s, rows, window, rgb):
    """The planes of a frame call, without padding."""
    w, h = len(rows[0]), len(rows)
    strides, planes = tight_planes(s, w, h)
    assert frame_call(s, w, h, surrounded(s, rows, window, rgb), [window.W * s.c] + strides, planes, window) == (0, 0, 0)
    return planes


def rows_text(rows):
    return '; '.join(f'row {r} ' + ', '.join(numbers(rgb) for rgb in row) for r, row in enumerate(rows))


@example('2.6')
def _():
    rows = [[(10, 0, 255), (20, 0, 0), (255, 255, 0)], [(30, 0, 0), (40, 255, 0), (0, 0, 255)], [(9, 120, 60), (200, 10, 77), (50, 60, 70)]]
    w, h, window, outside = 3, 3, Window(1, 1, 5, 5), (255, 0, 0)
    yield f'w {w}, h {h}, {window_text(window)}, Rgb, Bt601, Full, Srgb, source stride {3 * window.W}; planes without padding, in hexadecimal'
    yield f'frame: {rows_text(rows)}; every other pixel of the source {numbers(outside)}'
    for sampling in CODES['sampling']:
        s = Settings('Rgb', sampling, 'Full').weigh()
        planes = window_planes(s, rows, window, outside)
        assert planes == window_planes(s, rows, window, (0, 255, 0)) == window_planes(s, rows, whole(w, h), None)
        yield f'{sampling}: {plane_text(planes)}'

        def pixel(x, r):
            return rows[r][x] if x < w and r < h else outside

        for j, k in ((1, 0), (0, 1), (1, 1)) if sampling == '4:2:0' else ((1, 0),):
            right, wrong = chroma_colour(s, w, h, pixel, j, k), chroma_colour(s, w + 1, h + 1, pixel, j, k)
            assert chroma(s, right) == (planes[1][2 * k + j], planes[2][2 * k + j]) != chroma(s, wrong)
            yield (f'  chroma place j {j}, k {k}: colour {numbers(right)}, U and V {hexes(chroma(s, right))}; '
                   f'wrong, with pixels outside the frame: colour {numbers(wrong)}, {hexes(chroma(s, wrong))}')
    yield 'every other pixel 0 255 0 in place of 255 0 0: the same planes in both samplings'
    yield f'the frame copied out, {window_text(whole(w, h))}, source stride {3 * w}: the same planes in both samplings'


@example('3.1')
def _():
    for name, c in CURVES.items():
        assert c.scale - c.offset == D
        yield f'{name}: SCALE − OFFSET = {c.scale - c.offset} = D; SLOPE × BREAK = {c.slope * c.brk}'


@example('3.2')
def _():
    for name in ('Srgb', 'Rec709'):
        c = CURVES[name]
        bound = 255 * c.slope * c.brk
        last = max(v for v in range(1, 255) if LINEAR_RULE.straight(c, v))
        for v in (last, last + 1):
            left = v * D * D
            yield f'{name}, v {v}: {left} {"<" if left < bound else "≥"} {bound}, so v {v} is in the {"straight" if left < bound else "curved"} part'
    yield 'Gamma2p2, Gamma2p8: no v from 1 to 254 is in a straight part'
    most = max(max(254 * D * D, 255 * c.slope * c.brk).bit_length() for c in CURVES.values())
    yield f'the longest of these products, for any transfer and v, has {most} bits'


@example('3.3')
def _():
    for name in ('Srgb', 'Rec709'):
        c = CURVES[name]
        bound = 65535 * c.brk
        last = max(i for i in range(1, 65535) if GAMMA_RULE.straight(c, i))
        for i in (last, last + 1):
            left = i * D
            yield f'{name}, i {i}: {left} {"<" if left < bound else "≥"} {bound}, so i {i} is in the {"straight" if left < bound else "curved"} part'
    most = max(max(65534 * D, 65535 * c.brk).bit_length() for c in CURVES.values())
    yield f'the longest of these products, for any transfer and i, has {most} bits'
    for name in ('Srgb', 'Rec709'):
        c = CURVES[name]
        # x is above the curved part at break where ((x + offset) / scale) ^ up is above break ^ down.
        above = [(Fraction(c.slope * c.brk, D * D) + step + Fraction(c.offset, D)) ** c.up * D ** c.down * D ** c.up > c.brk ** c.down * c.scale ** c.up
                 for step in (Fraction(-1, D), 0, Fraction(1, D))]
        assert above[0] is False and above[2] is True
        yield f'{name}, y = break: the curved part lies {"below" if above[1] else "above"} the straight one, by less than 1 / D'


def sides(left, right):
    """Two long numbers, shown by their first digits and their lengths."""
    a, b = str(left), str(right)
    return f'{a[:12]}.. ({len(a)} digits) {"≤" if left <= right else ">"} {b[:12]}.. ({len(b)} digits)'


def straight_line(rule, entries, name, rounding, letter, at):
    """An entry of a straight part, by its quotient."""
    scaled, half, by = rule.quotient(CURVES[name], HALVES[rounding], at)
    return f'{name}, {rounding}, {letter} {at}, straight: floor(({scaled} + {half}) / {by}) = {entries[name, rounding][at]}'


def curved_lines(rule, entries, name, rounding, letters, at):
    """An entry of a curved part: the last number that passes, and the first that does not."""
    c, o, entry = CURVES[name], HALVES[rounding], entries[name, rounding][at]
    for number in (entry, entry + 1):
        line = f'{name}, {rounding}, {letters[0]} {at}, curved: {letters[1]} {number}: {sides(rule.left(c, o, number), rule.right(c, at))}'
        yield line + (f', so entry {at} is {entry}' if number > entry else '')


def ends_agree(rule):
    """That the first line of the rule gives what the others would; Truncated exactly."""
    ends = ((0, 0), (rule.last, rule.top))
    return (all(rule.by_part(c, o, at) == entry for c in CURVES.values() for o in HALVES.values() for at, entry in ends)
            and all(rule.is_exact(c, 0, at, entry) for c in CURVES.values() for at, entry in ends))


def exact_halves(rule, entries):
    """Where the curve scaled to the table is a whole number and a half."""
    return [(name, at) for name, c in CURVES.items() for at, entry in enumerate(entries[name, 'Nearest']) if rule.is_exact(c, 1, at, entry)]


@example('3.4')
def _():
    for name, v in (('Srgb', 1), ('Srgb', 10), ('Rec709', 20)):
        for rounding in HALVES:
            yield straight_line(LINEAR_RULE, LINEAR, name, rounding, 'v', v)
    for name, v in (('Srgb', 42), ('Rec709', 228)):
        for rounding in HALVES:
            yield from curved_lines(LINEAR_RULE, LINEAR, name, rounding, 'vn', v)
    for name, v in (('Srgb', 160), ('Gamma2p2', 254), ('Gamma2p8', 205)):
        yield from curved_lines(LINEAR_RULE, LINEAR, name, 'Truncated', 'vn', v)
    assert ends_agree(LINEAR_RULE) and not exact_halves(LINEAR_RULE, LINEAR)
    yield 'every transfer and rounding, v 0 by the second or third line: n 0; v 255 by the third: n 65535; Truncated, both exactly'
    yield 'every transfer: the curve times 65535 is a whole number and a half at no v'
    most, short = LINEAR_RULE.longest()
    yield f'the longest of these numbers, for any transfer, rounding, v and n, has {most} bits, in straight parts {short}'


@example('3.5')
def _():
    for name, i in (('Srgb', 198), ('Srgb', 199), ('Rec709', 514), ('Rec709', 1142), ('Rec709', 1183)):
        yield straight_line(GAMMA_RULE, GAMMA, name, 'Truncated', 'i', i)
    for name, i in (('Srgb', 198), ('Srgb', 199)):
        yield straight_line(GAMMA_RULE, GAMMA, name, 'Nearest', 'i', i)
    for name, i in exact_halves(GAMMA_RULE, GAMMA):
        scaled, half, by = GAMMA_RULE.quotient(CURVES[name], 1, i)
        yield straight_line(GAMMA_RULE, GAMMA, name, 'Nearest', 'i', i) + f' exactly; wrong, halves downward: {(scaled + half - 1) // by}'
    yield 'every transfer: the inverse times 255 is a whole number and a half at no other i'
    for name, i in (('Srgb', 200), ('Srgb', 36863), ('Gamma2p2', 22231)):
        yield from curved_lines(GAMMA_RULE, GAMMA, name, 'Truncated', 'im', i)
    for name, i in (('Srgb', 16525), ('Gamma2p8', 5248)):
        for rounding in HALVES:
            yield from curved_lines(GAMMA_RULE, GAMMA, name, rounding, 'im', i)
    assert ends_agree(GAMMA_RULE)
    yield 'every transfer and rounding, i 0 by the second or third line: m 0; i 65535 by the third: m 255; Truncated, both exactly'
    most, short = GAMMA_RULE.longest()
    yield f'the longest of these numbers, for any transfer, rounding, i and m, has {most} bits, in straight parts {short}'


@example('3.5.1')
def _():
    yield 'transfer   ' + '   '.join(HALVES)
    for name in CURVES:
        back = [sum(GAMMA[name, rounding][LINEAR[name, rounding][v]] == v for v in range(256)) for rounding in HALVES]
        yield f'{name:<8}   ' + '   '.join(f'{count:<{len(rounding)}}' for count, rounding in zip(back, HALVES))
    for name in CURVES:
        back = [GAMMA[name, 'Nearest'][n] for n in LINEAR[name, 'Nearest']]
        if back != list(range(256)):
            yield f'{name}, Nearest, the others: ' + ', '.join(f'{v} gives {back[v]}' for v in range(256) if back[v] != v)


@example('4.1')
def _():
    for key, set_ in STORED.items():
        yield f'{key[0] + " " + key[1]:<16} luma weights add to {sum(set_[:3])}, cb to {sum(set_[3:6])}, cr to {sum(set_[6:])}'


def pair_text(kr, kb):
    return f'Custom, kr {shown(kr)}, kb {shown(kb)}'


@example('4.2')
def _():
    range_ = 'Limited'

    def other(kr, kb, change):
        if change == 'wider':
            return [half_away(x * 8192.0) for x in coefficients(range_, kr, kb, keep=lambda x: x)]
        ruv = float(RANGES[range_][2])
        kg = f32(1.0 - f32(kr + kb)) if change == 'order' else f32(f32(1.0 - kr) - kb)
        e = f32(f32(f32(-0.5 * kg) / f32(1.0 - kb)) * ruv)
        last = f32(e * f32(1.0 / 255.0)) if change == 'reciprocal' else f32(e / 255.0)
        return [None] * 4 + [half_away(f32(last * 8192.0))]

    for pair, change, what in (((0.007, 0.311), 'order', 'with kg = 1 − (kr + kb)'), ((0.007, 0.311), 'reciprocal', 'with × (1 / 255) for / 255'),
                               ((0.015, 0.404), 'wider', 'with every step in binary64')):
        kr, kb = map(f32, pair)
        right, wrong = weights('Custom', range_, kr, kb)[4], other(kr, kb, change)[4]
        assert right != wrong
        yield f'{pair_text(kr, kb)}, {range_}: cb_g {signed(right)}; wrong, {what}: {signed(wrong)}'

    def ties_up(x):
        near = f32(x)
        up = of_bits(f'{int(bits(near), 16) + 1:08X}')  # the next number further from 0
        return up if up - x == x - near else near

    kr, kb = of_bits('3E40EA16'), of_bits('3E03A7AD')
    right, ry = weights('Custom', range_, kr, kb)[1], float(RANGES[range_][1])
    turned = half_away(f32(f32(f32(f32(f32(1.0 - kb) - kr) * ry) / 255.0) * 8192.0))
    tied = half_away(f32(coefficients(range_, kr, kb, keep=ties_up)[1] * 8192.0))
    assert right != turned and right != tied
    yield f'{pair_text(kr, kb)}, {range_}: yg {right}; wrong, with kg = (1 − kb) − kr: {turned}'
    yield f'{pair_text(kr, kb)}, {range_}: yg {right}; wrong, with ties rounded up, not to even: {tied}'


@example('4.3')
def _():
    kr, kb = FCC
    assert (kr, kb) == (f32(float(table('4.3')[0][1])), f32(float(table('4.3')[0][3])))
    yield f'Fcc: kr is exactly {Fraction(kr)}, kb is exactly {Fraction(kb)}'
    yield f'Fcc Full: {numbers(weights("Fcc", "Full"))}'
    yield f'Fcc Limited: {numbers(weights("Fcc", "Limited"))}'
    kr, kb = f32(0.299), f32(0.114)
    for range_ in RANGES:
        yield f'{pair_text(kr, kb)}, {range_}: {numbers(weights("Custom", range_, kr, kb))}'


@example('4.4')
def _():
    lines = ['Fcc, Limited; nine digits of each number beside its bits']
    coefficients('Limited', *FCC, say=lines.append)
    yield from lines
    lines = []
    kr, kb = f32(0.015), f32(0.404)
    coefficients('Limited', kr, kb, say=lines.append)
    yield f'{pair_text(kr, kb)}, Limited: kg and cb_g'
    at = [line.split(' = ')[0].strip() for line in lines]
    yield from lines[at.index('kg') - 1:at.index('kg') + 1]
    yield from lines[at.index('cb_g') - 4:at.index('cb_g') + 1]


def exact(x):
    """A binary32 number as an exact decimal."""
    f = Fraction(x)
    places = f.denominator.bit_length() - 1
    digits = str(abs(f.numerator) * 5 ** places).rjust(places + 1, '0')
    text = (digits[:-places] + '.' + digits[-places:]).rstrip('0').rstrip('.') if places else digits
    return ('−' if f < 0 else '') + text


@example('4.5')
def _():
    for text, range_, kr, kb in (('Fcc', 'Limited', *FCC), ('Custom', 'Full', f32(0.5), 2.0 ** -14), ('Custom', 'Limited', f32(0.012), f32(0.413))):
        nine = coefficients(range_, kr, kb)
        yield f'{text if text == "Fcc" else pair_text(kr, kb)}, {range_}'
        for name, x in zip(NAMES, nine):
            y = f32(x * 8192.0)
            yield f'  {name:<4} {bits(x)} × 46000000 = {bits(y)}, exactly {exact(y)}: {signed(half_away(y))}'


def exact_weights(range_, kr, kb):
    """The nine of rule 4.6, each a fraction."""
    ry, ruv = RANGES[range_][1:3]
    kr, kb = Fraction(kr), Fraction(kb)
    kg, top = 1 - kr - kb, Fraction(8192 * ruv, 510)
    return [8192 * k * ry / 255 for k in (kr, kg, kb)] + [-top * kr / (1 - kb), -top * kg / (1 - kb), top, top, -top * kg / (1 - kr), -top * kb / (1 - kr)]


def decimal(x, places=8):
    digits = str(half_away(abs(x) * 10 ** places)).rjust(places + 1, '0')
    return ('−' if x < 0 else '') + digits[:-places] + '.' + digits[-places:]


def held(range_, kr, kb):
    """The pair's weights and exact weights, which the bounds of rule 4.6 part."""
    bounds = {name: Fraction(row[1 + list(RANGES).index(range_)]) for row in table('4.6') for name in row[0].split(', ')}
    found, exact_ = weights('Custom', range_, kr, kb), exact_weights(range_, kr, kb)
    assert all(abs(a - b) <= bounds[name] for name, a, b in zip(NAMES, found, exact_))
    return dict(zip(NAMES, zip(found, exact_))), found


@example('4.6')
def _():
    for range_, name, kr, kb in (('Limited', 'yr', '3EECC526', '3ED7A1BC'), ('Limited', 'yg', '3BF7AA40', '38F0D000'), ('Full', 'yg', '3E800001', '3D80E004'),
                                 ('Limited', 'cr_b', '3EFFC8A7', '3EF9B253'), ('Limited', 'cb_g', '38A26FFF', '3EFF421B'), ('Full', 'cb_g', '3880AFFF', '3EFF100B')):
        kr, kb = of_bits(kr), of_bits(kb)
        weight, exact_ = held(range_, kr, kb)[0][name]
        other = half_away(exact_)
        assert other != weight
        yield f'{pair_text(kr, kb)}, {range_}: {name} {signed(weight)}, exact {decimal(exact_)}: {decimal(abs(weight - exact_))} away; wrong, the exact one rounded: {signed(other)}'
    for range_, pair, triple, what in (('Limited', (0.014, 0.014), 0, 'luma'), ('Limited', (0.0, 0.015), 0, 'luma'), ('Full', (0.001, 0.002), 0, 'luma'),
                                       ('Full', (0.003, 0.003), 0, 'luma'), ('Limited', (0.001, 0.201), 1, 'Cb')):
        kr, kb = map(f32, pair)
        yield f'{pair_text(kr, kb)}, {range_}: {what} weights add to {signed(sum(held(range_, kr, kb)[1][3 * triple:3 * triple + 3]))}'


@example('5.1')
def _():
    cases = (('Bt601', 'Full', (255, 0, 0)), ('Bt601', 'Limited', (0, 255, 0)), ('Bt601', 'Limited', (0, 0, 0)), ('Bt601', 'Limited', (255, 255, 255)),
             ('Smpte240', 'Full', (255, 255, 255)))
    for matrix, range_, rgb in cases + half_case():
        s = Settings(matrix=matrix, range_=range_).weigh()
        total = luma_sum(s, rgb)
        text = product_sum(rgb, s.w[:3], f'{s.by} × 8192 + 4095')
        yield f'{matrix} {range_}, {numbers(rgb)}: {text} = {total}; floor({total} / 8192) = {total // 8192}; luma {luma(s, rgb)}'
        if (matrix, range_, rgb) in half_case():
            yield f'  here 4096 in place of 4095 would give {(total + 1) // 8192}'


def half_case():
    """The first colour of Bt601 Full whose luma an added 1 would raise."""
    s = Settings(range_='Full').weigh()
    for red in range(256):
        for green in range(256):
            for blue in range(256):
                if luma_sum(s, (red, green, blue)) % 8192 == 8191:
                    return (('Bt601', 'Full', (red, green, blue)),)


@example('5.2')
def _():
    for matrix, range_, rgb in (('Bt601', 'Full', (255, 0, 0)), ('Bt601', 'Limited', (0, 255, 0)), ('Bt601', 'Limited', (200, 200, 200))):
        s = Settings(matrix=matrix, range_=range_).weigh()
        for name, first, value in zip(('Cb', 'Cr'), (3, 6), chroma(s, rgb)):
            total = chroma_sum(s, rgb, first)
            text = product_sum(rgb, s.w[first:first + 3], '128 × 8192 + 4095')
            yield f'{matrix} {range_}, {numbers(rgb)}: {text} = {total}; floor({total} / 8192) = {total // 8192}; {name} {value}'
    s = Settings(range_='Full').weigh()
    part = 255 * s.w[3] + 4095
    yield f'dividing first: floor({signed(part)} / 8192) + 128 = {signed(part // 8192)} + 128 = {part // 8192 + 128}'


def some_counts(counts, lumas):
    """Some of 256 counts, and what all add to."""
    return 'luma ' + ', '.join(f'{y}: {counts[y]}' for y in lumas) + f'; all 256 add to {sum(counts)}'


@example('5.3')
def _():
    red, green, blue = 250, 128, 7
    yield f'colour {red} {green} {blue}: number {red} × 65536 + {green} × 256 + {blue} = {red * 65536 + green * 256 + blue}'
    s = Settings(range_='Full').weigh()
    counts = luma_counts(s)
    yield f'Bt601 Full: {some_counts(counts, (0, 1, 38, 76, 254, 255))}'
    for y, bytes_ in ((0, range(16)), (255, range(240, 256))):
        found = [(r, g, b) for r in bytes_ for g in bytes_ for b in bytes_ if luma(s, (r, g, b)) == y]
        assert len(found) == counts[y]
        yield f'  colours of luma {y}: ' + ', '.join(numbers(rgb) for rgb in found)
    yield f'  wrong, with 4096 in place of 4095: luma 38: {luma_counts(s, 4096)[38]}'
    for matrix in ('Bt601', 'Bt2020'):
        yield f'{matrix} Limited: {some_counts(luma_counts(Settings(matrix=matrix).weigh()), (0, 15, 16, 17, 126, 234, 235, 236, 255))}'
    for matrix in ('Smpte240', 'Fcc'):
        yield f'{matrix} Full: {some_counts(luma_counts(Settings(matrix=matrix, range_="Full").weigh()), (0, 1, 127, 254, 255))}'
    for kr, kb in ((0.0, 0.0), (f32(0.5), 2.0 ** -14)):
        s = Settings(range_='Full', matrix='Custom', kr=kr, kb=kb).weigh()
        yield f'{pair_text(kr, kb)}, Full: {some_counts(luma_counts(s), (0, 1, 127, 254, 255))}'
    kr, kb = of_bits('3F000001'), 0.0
    assert not accepted(Settings(matrix='Custom', kr=kr, kb=kb))
    yield f'{pair_text(kr, kb)}, either range: 4'


@example('6.1')
def _():
    for sampling, w, h, j, k in (('4:2:0', 4, 4, 1, 1), ('4:2:0', 3, 4, 1, 0), ('4:2:0', 4, 3, 0, 1), ('4:2:0', 1, 1, 0, 0), ('4:2:2', 4, 3, 1, 2), ('4:2:2', 3, 3, 1, 0)):
        r = k if sampling == '4:2:2' else 2 * k
        below = min(r + 1, h - 1)
        right = 2 * j + 1 < w
        parts = [f'this is pixel {2 * j} of row {r}', f'right is pixel {2 * j + 1} of row {r}' if right else 'no right pixel']
        if sampling == '4:2:0':
            parts.append(f'below is pixel {2 * j} of row {below}')
            if right:
                parts.append(f'below right is pixel {2 * j + 1} of row {below}')
        yield f'{sampling}, {w} × {h} pixels, j {j}, k {k}: ' + ', '.join(parts)


@example('6.2')
def _():
    for rounding in HALVES:
        s = Settings(rounding=rounding)
        for factor, byte in ((9, 255), (12, 255), (16, 10)):
            total = factor * s.linear[byte]
            index = (total + 8) // 16
            yield f'Srgb, {rounding}, sum {factor} × {s.linear[byte]} = {total}: floor({total + 8} / 16) = {index}, gamma entry {s.gamma[index]}'


@example('6.3')
def _():
    s = Settings()
    grid = [[(10, 0, 255), (20, 0, 0), (255, 255, 0)], [(30, 0, 0), (40, 255, 0), (0, 0, 255)]]
    yield 'Srgb, 3 × 2 pixels, row 0: 10 0 255, 20 0 0, 255 255 0; row 1: 30 0 0, 40 255 0, 0 0 255'
    for j in range(2):
        lines = []
        colour = chroma_colour(s, 3, 2, lambda x, r: grid[r][x], j, 0, lines.append)
        yield f'j {j}, k 0:'
        yield from (f'  {line}' for line in lines)
        yield f'  chroma colour {numbers(colour)}'
    lines = []
    colour = chroma_colour(s, 1, 1, lambda x, r: (10, 10, 10), 0, 0, lines.append)
    yield '1 × 1 pixels, 10 10 10:'
    yield f'  {lines[0]}; chroma colour {numbers(colour)}'
    yield '1 × 1 pixels, 10 0 0, Bt601, Full, the frame by each rounding:'
    for rounding in HALVES:
        lines, rgb = [], (10, 0, 0)
        colour = chroma_colour(Settings(rounding=rounding), 1, 1, lambda x, r: rgb, 0, 0, lines.append)
        yield f'  {rounding}: {lines[0]}; chroma colour {numbers(colour)}; Y U V {numbers(one_pixel(rgb, range_="Full", rounding=rounding))}'


@example('6.4')
def _():
    s = Settings(sampling='4:2:2')
    row = [(10, 0, 255), (20, 0, 0), (10, 99, 1)]
    yield 'Srgb, 3 × 1 pixels, row 0: 10 0 255, 20 0 0, 10 99 1'
    lines = []
    colour = chroma_colour(s, 3, 1, lambda x, r: row[x], 0, 0, lines.append)
    yield 'j 0, k 0:'
    yield from (f'  {line}' for line in lines)
    yield f'  chroma colour {numbers(colour)}'
    colour = chroma_colour(s, 3, 1, lambda x, r: row[x], 1, 0)
    wrong = tuple(s.gamma[(16 * s.linear[value] + 8) // 16] for value in row[2])
    yield f'j 1, k 0: chroma colour {numbers(colour)}; through the tables it would be {numbers(wrong)}, which is wrong'


def grey_planes(s, rows, window=None, around=None):
    """The planes of a frame of greys, in a window with one colour around it."""
    planes = window_planes(s, [[(grey,) * 3 for grey in row] for row in rows], window or whole(len(rows[0]), len(rows)), around)
    expected = {0: 16, 255: 235} if s.range_ == 'Limited' else dict(zip(range(256), range(256)))
    assert set(planes[1] + planes[2]) == {128} and all(byte == expected.get(grey, byte) for byte, grey in zip(planes[0], sum(rows, [])))
    return planes


@example('6.5')
def _():
    yield 'Srgb; planes without padding, in hexadecimal'
    rows = [[0, 255, 255], [255, 0, 0], [0, 255, 0]]
    yield 'Bt601, Limited, 3 × 3 pixels, black and white, by their greys: ' + '; '.join(f'row {r} {numbers(row)}' for r, row in enumerate(rows))
    for sampling in CODES['sampling']:
        s = Settings(sampling=sampling).weigh()
        colour = chroma_colour(s, 3, 3, lambda x, r: (rows[r][x],) * 3, 0, 0)
        yield f'  {sampling}: {plane_text(grey_planes(s, rows))}; chroma place j 0, k 0: colour {numbers(colour)}'
    row = [0, 10, 128, 255]
    yield f'4:2:0, 4 × 1 pixels, greys {numbers(row)}; what the weights of luma, cb and cr add to'
    for matrix, range_, *pair in (('Bt601', 'Full'), ('Smpte240', 'Full'), ('Custom', 'Full', f32(0.5), 2.0 ** -14), ('Bt2020', 'Limited'),
                                  ('Custom', 'Limited', f32(0.014), f32(0.014)), ('Custom', 'Limited', f32(0.001), f32(0.448))):
        s = Settings('Rgb', '4:2:0', range_, matrix, 'Srgb', 'Truncated', *pair).weigh()
        sums = numbers(sum(s.w[first:first + 3]) for first in (0, 3, 6))
        yield f'  {pair_text(*pair) if pair else matrix}, {range_}: {sums}; {plane_text(grey_planes(s, [row]))}'
    total = chroma_sum(s, (255,) * 3, 6)
    yield f'  the last, Cr of 255 255 255: {product_sum((255,) * 3, s.w[6:], "128 × 8192 + 4095")} = {total}; floor({total} / 8192) = {total // 8192}'
    s, grey, window, red = Settings(range_='Full').weigh(), 128, Window(0, 0, 2, 1), (255, 0, 0)
    wrong = chroma(s, chroma_colour(s, 2, 1, lambda x, r: ((grey,) * 3, red)[x], 0, 0))
    yield f'Bt601, Full, 4:2:0, source {numbers((grey,) * 3)}, {numbers(red)}, w 1, h 1, {window_text(window)}'
    yield f'  {plane_text(grey_planes(s, [[grey]], window, red))}; wrong, with the red pixel: U and V {hexes(wrong)}'
    of = {matrix: [luma(Settings(matrix=matrix).weigh(), (grey,) * 3) for grey in range(256)] for matrix in ('Bt601', 'Bt2020')}
    grey = next(grey for grey in range(256) if of['Bt601'][grey] != of['Bt2020'][grey])
    yield f'grey {grey}, Limited: ' + ', '.join(f'{matrix} luma {lumas[grey]}' for matrix, lumas in of.items())


@example('7.1')
def _():
    s = Settings('Rgb')
    yield 'Rgb, 4:2:0, h 3, all strides and lengths 0, w as said'
    yield answer_line('w 0', frame_answer(s, 0, 3, [0] * 4, [0] * 4))
    yield answer_line('w 3 (6, 7, 8, 9, 10 and 11 hold)', frame_answer(s, 3, 3, [0] * 4, [0] * 4))
    yield answer_line('w 3, all buffers long enough (7, 8, 10, 11 and 12 hold)', frame_answer(s, 3, 3, [0] * 4, [9] * 4))
    window = Window(1, 0, 3, 3)
    yield answer_line(f'w 3, {window_text(window)} (14, 6, 7, 8, 9, 10 and 11 hold)', frame_answer(s, 3, 3, [0] * 4, [0] * 4, window))
    custom = Settings('Rgb', matrix='Custom', kr=1.0, kb=0.0)
    yield answer_line('the same, Custom, kr 1, kb 0 (4 holds too)', frame_answer(custom, 3, 3, [0] * 4, [0] * 4, window))
    yield answer_line('w 3, the same window, band call with m 0 (14 and 5 hold, and more)', band_answer(s, 3, 3, 0, 0, [0] * 4, [0] * 4, 0, window))


@example('7.2')
def _():
    planes = [bytearray(b'\xee' * 2), bytearray(b'\xee'), bytearray(b'\xee')]
    answer = frame_call(Settings('Rgb'), 1, 1, bytes([255, 0, 0]), [3, 1, 1, 1], planes)
    yield f'1 × 1, Rgb, 4:2:0, strides 3, 1, 1, 1, Y of 2 bytes EE EE: {answer[0]}, expected {answer[1]}, received {answer[2]}; Y is {hexes(planes[0])} after the call'


@example('7.3')
def _():
    s = Settings()
    for w, h in ((0, 1), (0, 16385), (16384, 1), (16385, 1), (1, 4294967295)):
        found = description_answer(s, w, h)
        yield f'w {w}, h {h}: ' + (str(found[0]) if found else 'neither')
    for w, window in ((1, Window(0, 0, 16384, 16384)), (1, Window(0, 0, 16385, 1)), (1, Window(0, 0, 1, 4294967295)), (0, Window(0, 0, 0, 1)), (1, Window(0, 0, 0, 1))):
        found = description_answer(s, w, 1, window)
        yield f'w {w}, h 1, {window_text(window)}: ' + (str(found[0]) if found else 'neither') + (', neither 2 nor 3' if found and found[0] == 14 else '')


@example('7.4')
def _():
    for text in ('00000000', '80000000', '3F000000', '3F000001', '00000001', '80000001', '7FC00000', '7F800000', 'BF000000'):
        k = of_bits(text)
        found = description_answer(Settings(matrix='Custom', kr=k, kb=0.0), 1, 1)
        yield f'kr {text} ({k:.9g}), kb 00000000: {"4" if found else "accepted"}'.replace('-', '−')


def frame_lines(cases, window=None):
    for text, s, w, h, strides, lengths in cases:
        answer = frame_answer(s, w, h, strides, lengths, window)
        yield answer_line(f'{text}, strides {numbers(strides)}, lengths {numbers(lengths)}', answer)


@example('7.5')
def _():
    s = Settings('Rgb')
    yield 'w 4, h 2, Rgb, 4:2:0; strides and lengths of source, Y, U, V'
    yield from frame_lines(((text, s, 4, 2, strides, (length, 8, 2, 2)) for text, strides, length in (
        ('one byte under', (16, 4, 2, 2), 27), ('stride too small', (11, 4, 2, 2), 23), ('both', (11, 4, 2, 2), 22), ('neither', (16, 4, 2, 2), 32))))
    window = Window(1, 2, 6, 5)
    yield f'the same with {window_text(window)}'
    yield from frame_lines(((text, s, 4, 2, strides, (length, 8, 2, 2)) for text, strides, length in (
        ('one byte under', (20, 4, 2, 2), 97), ('stride too small', (17, 4, 2, 2), 86), ('both', (17, 4, 2, 2), 85), ('neither', (20, 4, 2, 2), 100))), window)


@example('7.6')
def _():
    s = Settings('Rgb')
    yield 'w 5, h 3, Rgb, 4:2:0: cw 3, ch 2; strides and lengths of source, Y, U, V'
    yield from frame_lines(((text, s, 5, 3, strides, lengths) for text, strides, lengths in (
        ('Y stride', (15, 4, 3, 3), (45, 15, 6, 6)), ('Y one byte under', (15, 8, 3, 3), (45, 20, 6, 6)), ('U stride', (15, 5, 2, 3), (45, 15, 6, 6)),
        ('U one byte under', (15, 5, 4, 3), (45, 15, 6, 6)), ('U stride and length', (15, 5, 2, 3), (45, 15, 0, 6)), ('V stride', (15, 5, 3, 2), (45, 15, 6, 6)),
        ('V one byte under', (15, 5, 3, 4), (45, 15, 6, 6)), ('none', (15, 5, 3, 3), (45, 15, 6, 6)))))
    yield 'stride 4294967295 in 16384 rows: stride × h = ' + str(4294967295 * 16384)


@example('7.7')
def _():
    s = Settings('Rgb')
    yield 'w 5, h 3, Rgb, 4:2:0; strides and lengths of source, Y, U, V'
    yield from frame_lines(((text, s, 5, 3, strides, lengths) for text, strides, lengths in (
        ('Y at its least', (15, 8, 3, 3), (45, 21, 6, 6)), ('Y whole', (15, 8, 3, 3), (45, 24, 6, 6)), ('Y a row longer', (15, 8, 3, 3), (45, 32, 6, 6)),
        ('source and V longer', (15, 8, 3, 3), (46, 24, 6, 7)), ('V longer', (15, 8, 3, 3), (45, 24, 6, 7)))))
    window = Window(0, 1, 6, 4)
    yield f'the same with {window_text(window)}'
    yield from frame_lines(((text, s, 5, 3, strides, lengths) for text, strides, lengths in (
        ('source of its last row only as far as W × c', (20, 5, 3, 3), (78, 15, 6, 6)), ('source whole', (20, 5, 3, 3), (80, 15, 6, 6)))), window)


@example('7.8')
def _():
    for name, rgb, settings in (('red', (255, 0, 0), dict(range_='Full')), ('red', (255, 0, 0), dict(range_='Full', sampling='4:2:2')),
                                ('green', (0, 255, 0), dict(sampling='4:2:2')), ('black', (0, 0, 0), {}), ('white', (255, 255, 255), {})):
        s = Settings(**settings)
        yield f'{name} {numbers(rgb)}, 1 × 1, Bt601 {s.range_}, Srgb, {s.sampling}: 0; Y U V {numbers(one_pixel(rgb, **settings))}'


@example('7.9')
def _():
    s = Settings()
    for w, h, window in ((3, 2, Window(2, 2, 5, 4)), (3, 2, Window(3, 2, 5, 4)), (3, 2, Window(2, 3, 5, 4)), (16384, 16384, Window(0, 0, 16384, 16384)),
                         (1, 1, Window(16384, 0, 16384, 1)), (1, 1, Window(4294967295, 0, 16384, 1)), (1, 1, Window(0, 4294967295, 1, 16384)),
                         (1, 1, Window(0, 0, 0, 1)), (1, 1, Window(0, 0, 1, 0)), (0, 1, Window(4294967295, 0, 0, 1)), (1, 1, Window(1, 0, 16384, 16385))):
        found = description_answer(s, w, h, window)
        sums = f'left + w {window.left + w}, top + h {window.top + h}'
        yield f'w {w}, h {h}, {window_text(window)}: {sums}: ' + (str(found[0]) if found else 'not 14')


@example('8.1')
def _():
    s = Settings()
    for w, h, strides in ((4, 5, (4, 2, 2)), (4, 5, (0, 0, 0)), (0, 5, (4, 2, 2)), (4, 16385, (4, 2, 2))):
        found = description_answer(s, w, h)
        yield f'w {w}, h {h}, plane strides {numbers(strides)}: ' + (f'refused {found[0]}' if found else 'accepted') + ', 0 rows done'
    for window in (Window(1, 2, 6, 8), Window(3, 2, 6, 8), Window(1, 2, 6, 16385)):
        found = description_answer(s, 4, 5, window)
        yield f'w 4, h 5, {window_text(window)}, plane strides 4 2 2: ' + (f'refused {found[0]}' if found else 'accepted') + ', 0 rows done'


BAND = Settings('Rgb', range_='Full')


def band_line(text, s, w, h, done, m, strides, lengths, carried, window=None):
    return answer_line(text, band_answer(s, w, h, done, m, strides, lengths, carried, window))


@example('8.2')
def _():
    yield 'state: w 4, h 5, Rgb, 4:2:0, plane strides 4, 2, 2; planes of 20, 6, 6 bytes; carried row of 12 bytes'
    for done, m, stride, length in ((0, 2, 12, 24), (2, 2, 16, 32), (4, 1, 12, 12), (2, 2, 12, 60), (0, 2, 12, 23)):
        yield band_line(f'{done} rows done, m {m}, source stride {stride}, source of {length} bytes', BAND, 4, 5, done, m, (stride, 4, 2, 2), (length, 20, 6, 6), 12)
    for window, cases in ((Window(1, 2, 6, 8), ((0, 2, 18, 36), (0, 2, 18, 35), (0, 2, 12, 24), (2, 2, 17, 35), (2, 2, 18, 54), (4, 1, 20, 20))),
                          (Window(3, 2, 6, 8), ((0, 0, 18, 0),))):
        yield f'the same state with {window_text(window)}'
        for done, m, stride, length in cases:
            both = ' (14 and 5 hold)' if m == 0 else ''
            yield band_line(f'{done} rows done, m {m}, source stride {stride}, source of {length} bytes{both}', BAND, 4, 5, done, m,
                            (stride, 4, 2, 2), (length, 20, 6, 6), 12, window)
    yield 'left 1, top 2, source stride 18, 2 rows done: pixel 3 of row 3 of the frame starts at byte (3 − 2) × 18 + (1 + 3) × 3 = ' + str((3 - 2) * 18 + (1 + 3) * 3)


@example('8.3')
def _():
    for done, m in ((0, 0), (0, 5), (0, 6), (3, 2), (3, 3), (5, 1), (4294967295, 1)):
        found = band_answer(BAND, 4, 5, done, m, (12, 4, 2, 2), (12 * m, 20, 6, 6), 12)
        yield f'h 5, {done} rows done, m {m}: ' + ('5' if found[0] else 'accepted')


@example('8.4')
def _():
    for sampling, ch in (('4:2:0', 3), ('4:2:2', 5)):
        for carried in (11, 12, 13):
            yield band_line(f'w 4, h 5, {sampling}, carried row of {carried} bytes', Settings('Rgb', sampling), 4, 5, 0, 2, (12, 4, 2, 2), (24, 20, 2 * ch, 2 * ch), carried)


@example('8.5')
def _():
    for done, m in ((0, 2), (2, 4), (2, 3)):
        answer = band_answer(BAND, 4, 5, done, m, (12, 4, 2, 2), (12 * m, 20, 6, 6), 12)
        yield f'h 5, {done} rows done, m {m}: answer {answer[0]}, {done if answer[0] else done + m} rows done after the call'


@example('8.6')
def _():
    for h in (4, 5):
        for sampling in CODES['sampling']:
            s = Settings(sampling=sampling)
            yield f'h {h}, {sampling}: chroma rows finished after 0 to {h} rows: ' + numbers(finished(s, h, n) for n in range(h + 1))


def small_bands(s, cut, source_of, window=None):
    planes = [bytearray(b'\xee' * n) for n in (6, chroma_size(s, 2, 3)[1], chroma_size(s, 2, 3)[1])]
    carried, done = bytearray(b'\xcc' * 7), 0
    for m in cut:
        source = source_of(done, m)
        answer, done = band_call(s, 2, 3, done, m, source, [len(source) // m, 2, 1, 1], planes, carried, window)
        assert answer[0] == 0
        yield m, done, planes, carried


def small_source(done, m):
    return b''.join(bytes(sum(row, ())) + b'\x00' * done for row in SMALL[done:done + m])


def small_text():
    return f'Rgb, Bt601, Full, Srgb, 4:2:0, 2 × 3 pixels: {rows_text(SMALL)}'


SMALL_WINDOW = Window(1, 3, 4, 7)  # one for the frame of 8.7
AROUND = (119, 119, 119)


def small_window_source(s):
    """The source rows of a band, for that window."""
    return lambda done, m: surrounded(s, SMALL, SMALL_WINDOW, AROUND, SMALL_WINDOW.top + done, m)


@example('8.7')
def _():
    s = Settings('Rgb', '4:2:0', 'Full')
    yield small_text()
    yield 'plane strides 2, 1, 1; source strides 6 in the first band and 7 in the second; planes all EE and carried row all CC before; bytes in hexadecimal'
    for m, done, planes, carried in small_bands(s, (1, 2), small_source):
        yield f'band of {m}, {done} rows done after it: {plane_text(planes)}, carried row {hexes(carried)}'
    planes = [bytearray(6), bytearray(2), bytearray(2)]
    assert frame_call(s, 2, 3, small_source(0, 3), [6, 2, 1, 1], planes)[0] == 0
    yield f'one frame call: {plane_text(planes)}'
    source_of = small_window_source(s)
    yield f'the same frame, {window_text(SMALL_WINDOW)}, source stride {3 * SMALL_WINDOW.W}, every byte outside the frame 77'
    for m, done, planes, carried in small_bands(s, (1, 2), source_of, SMALL_WINDOW):
        yield f'band of {m}, source {hexes(source_of(done - m, m))}: {plane_text(planes)}, carried row {hexes(carried)}'
    assert planes == window_planes(s, SMALL, SMALL_WINDOW, AROUND)
    s = Settings('Rgb', '4:2:0', 'Full', rounding='Nearest')
    *_, (_, _, planes, _) = small_bands(s, (1, 2), small_source)
    whole = [bytearray(6), bytearray(2), bytearray(2)]
    assert frame_call(s, 2, 3, small_source(0, 3), [6, 2, 1, 1], whole)[0] == 0 and whole == planes
    yield f'Nearest, the same two bands or one frame call: {plane_text(planes)}'


@example('8.8')
def _():
    for order, sampling, cut in (('Rgb', '4:2:0', (1,)), ('Bgra', '4:2:0', (1,)), ('Rgb', '4:2:0', (2,)), ('Rgb', '4:2:0', (3,)), ('Rgb', '4:2:2', (1,))):
        s = Settings(order, sampling, 'Full')

        def source_of(done, m):
            return surrounded(s, SMALL, whole(2, 3), None, done, m)

        *_, (m, done, planes, carried) = small_bands(s, cut, source_of)
        yield f'{order}, {sampling}, the frame of 8.7, first band of {m}, its last row of bytes {hexes(source_of(m - 1, 1))}: carried row of 7 bytes CC becomes {hexes(carried)}'
    s = Settings('Rgb', '4:2:0', 'Full')
    source_of = small_window_source(s)
    *_, (m, done, planes, carried) = small_bands(s, (1,), source_of, SMALL_WINDOW)
    yield (f'Rgb, 4:2:0, the frame of 8.7 in its window, first band of {m}, its last row of bytes {hexes(source_of(m - 1, 1))}: '
           f'carried row of 7 bytes CC becomes {hexes(carried)}')


@example('8.9')
def _():
    s = Settings('Rgb', '4:2:0', 'Full')
    yield small_text()
    yield 'plane strides 2, 1, 1; source stride 6; carried row of 6 bytes; planes all EE before; bytes in hexadecimal'
    planes, carried, done = [bytearray(b'\xee' * n) for n in (6, 2, 2)], bytearray(b'\xcc' * 6), 0
    for text, m, length in (('band of 1', 1, 6), ('band of 3', 3, 18), ('band of 1, source one byte short', 1, 5), ('band of 2', 2, 12), ('band of 1', 1, 6)):
        source = small_source(0, 3)[6 * done:][:length]
        source += b'\x00' * (length - len(source))
        answer, done = band_call(s, 2, 3, done, m, source, [6, 2, 1, 1], planes, carried)
        yield f'{text}: {answer[0]}, {done} rows done; {plane_text(planes)}'
    yield f'one frame call of the same rows, {window_text(SMALL_WINDOW)}: {plane_text(window_planes(s, SMALL, SMALL_WINDOW, AROUND))}'


def request(w, h, codes, source):
    return w.to_bytes(2, 'little') + h.to_bytes(2, 'little') + bytes(codes) + bytes(source)


@example('9.1')
def _():
    given = request(1, 1, (0, 1, 1, 0, 0), (255, 0, 0))
    yield f'{hexes(given)} (hexadecimal): w 1, h 1, ' + ', '.join(values[code] for code, values in zip(given[4:9], CODES.values())) + ', one pixel 255 0 0'
    given = request(1920, 2, (3, 0, 0, 1, 0), b'')
    yield f'{hexes(given)} and {1920 * 2 * 3} bytes of pixels: w 1920, h 2, ' + ', '.join(values[code] for code, values in zip(given[4:9], CODES.values()))


@example('9.2')
def _():
    for text, given in (('8 bytes', bytes(8)), ('matrix code 6', request(1, 1, (0, 0, 0, 6, 0), bytes(3))), ('range code 2 and w 0', request(0, 1, (0, 0, 2, 0, 0), b'')),
                        ('w 0, h 20000', request(0, 20000, (0, 0, 0, 0, 0), b'')), ('w 16385, h 1', request(16385, 1, (0, 0, 0, 0, 0), b'')),
                        ('w 129, h 128', request(129, 128, (0, 0, 0, 0, 0), bytes(129 * 128 * 3))), ('w 1, h 1, Rgb, 2 bytes of pixels', request(1, 1, (0, 0, 0, 0, 0), bytes(2))),
                        ('w 1, h 1, Rgb, 4 bytes of pixels', request(1, 1, (0, 0, 0, 0, 0), bytes(4)))):
        yield f'{text}: {program(given).decode().strip()}'
    given = request(128, 128, (0, 0, 0, 0, 0), bytes(128 * 128 * 3))
    yield f'w 128, h 128, Rgb, 4:2:0, {128 * 128 * 3} bytes of pixels: {len(program(given))} bytes of planes'


@example('9.3')
def _():
    for given in (request(1, 1, (0, 1, 1, 0, 0), (255, 0, 0)), request(1, 1, (0, 1, 1, 0, 0), (255, 0)), request(1, 1, (0, 1, 1, 0, 0), (255, 0, 0, 0))):
        yield f'{hexes(given)} gives {hexes(program(given))} (hexadecimal)'


@example('9.4')
def _():
    yield 'requests and bytes in hexadecimal'
    text = counts_program(bytes([1, 0]))
    lines = text.decode().splitlines()
    yield f'01 00 gives {len(lines)} lines: {", ".join(lines[:3])} and so on, the last {lines[-1]}; its bytes are {hexes(text[:9])} and so on to {hexes(text[-6:])}'
    yield 'length and CRC-32 (appendix B) of each text'
    for given in [bytes([range_, matrix]) for range_ in range(len(CODES['range'])) for matrix in range(len(CODES['matrix']))]:
        text = counts_program(given)
        yield f'  {hexes(given)}, {CODES["range"][given[0]] + " " + CODES["matrix"][given[1]] + ":":<17} {len(text)} bytes, {zlib.crc32(text):08x}'
    for given in (b'', bytes([1]), bytes([1, 0, 0]), bytes([1, 0, 10]), bytes([2, 0]), bytes([1, 6]), bytes([48, 48])):
        yield f'{hexes(given) or "no byte"} gives {counts_program(given).decode().strip()}'
    yield f'01 06 gives the bytes {hexes(counts_program(bytes([1, 6])))}'


DESCRIPTION = (4, 5, 0, 0, 1, 0, 0, 4, 2, 2)
BEFORE = {'frame': 1, 'opening': 0, 'band': 3}  # numbers of a call before its description


def codes_of(description):
    """The six codes, in the order of 1.2."""
    return (*description[2:7], description[10] if len(description) > 10 else 0)


def window_of(description):
    return Window(*description[11:]) if len(description) == 15 else whole(*description[:2])


def is_malformed(call, given):
    if len(given) - BEFORE[call] not in (10, 11, 15):
        return True
    counts = [len(values) + (setting == 'matrix') for setting, values in CODES.items()]
    return any(code >= count for code, count in zip(codes_of(given[BEFORE[call]:]), counts))


@example('10.1')
def _():
    for more in ((), (0,), (0, 0, 0, 4, 5), (1,), (1, 3, 7, 1920, 1080)):
        description = DESCRIPTION + more
        w, h = description[:2]
        values = ', '.join(values[code] for code, values in zip(codes_of(description), CODES.values()))
        yield f'{numbers(description)}: w {w}, h {h}, {values}, plane strides 4, 2, 2, {window_text(window_of(description))}'


@example('10.2')
def _():
    def changed(place, code):
        return DESCRIPTION[:place] + (code,) + DESCRIPTION[place + 1:]
    for call, given in (('frame', (12,) + DESCRIPTION), ('frame', (12,) + DESCRIPTION + (1,)), ('frame', DESCRIPTION), ('frame', (12,) + DESCRIPTION + (1, 0)),
                        ('opening', changed(5, 7)), ('opening', changed(5, 6)), ('opening', (0, 5, 4) + DESCRIPTION[3:]), ('opening', DESCRIPTION + (1,)),
                        ('opening', DESCRIPTION + (2,)), ('opening', DESCRIPTION + (0, 0)), ('band', (0, 2, 12) + DESCRIPTION + (2,)),
                        ('frame', (18,) + DESCRIPTION + (0, 1, 2, 6, 8)), ('frame', (18,) + DESCRIPTION + (0, 1, 2, 6)), ('frame', (18,) + DESCRIPTION + (0, 1, 2, 6, 8, 0)),
                        ('opening', DESCRIPTION + (0, 1, 2, 6, 8)), ('opening', DESCRIPTION + (1, 2, 6, 8)), ('opening', DESCRIPTION + (2, 1, 2, 6, 8)),
                        ('band', (0, 2, 18) + DESCRIPTION + (0, 1, 2, 6, 8)), ('band', (0, 2, 18) + DESCRIPTION + (0, 1, 2))):
        yield f'{call}, {len(given)} numbers {numbers(given)}: ' + ('1' if is_malformed(call, given) else 'not 1')


@example('10.3')
def _():
    def band(given, carried, length=24):
        done, m, stride = given[:3]
        answer = (1, 0, 0)
        if not is_malformed('band', given):
            answer = band_answer(BAND, 4, 5, done, m, (stride, 4, 2, 2), (length, 20, 6, 6), carried, window_of(given[3:]))
        return f'returns {answer[0]}, tells {answer[1]}, {answer[2]}, {done if answer[0] else done + m}'
    given = (2, 2, 12) + DESCRIPTION
    yield f'band, numbers {numbers(given)}, source of 24 bytes, planes of 20, 6, 6, carried row of 12: {band(given, 12)}'
    yield f'the same, carried row of 11: {band(given, 11)}'
    yield f'the same with 1 behind, Nearest, carried row of 12: {band(given + (1,), 12)}'
    yield f'the same with 2 behind: {band(given + (2,), 12)}'
    for more in ((0, 1, 2, 6, 8), (0, 3, 2, 6, 8)):
        given = (2, 2, 18) + DESCRIPTION + more
        yield f'band, numbers {numbers(given)}, source of 36 bytes, planes of 20, 6, 6, carried row of 12: {band(given, 12, 36)}'


@example('10.4')
def _():
    kept = [9] * 256
    yield 'each of the 256 numbers is 9 before a call; after it, numbers 0, 108 and 255 of them'
    for given, *pair in (((1, 0), 2.0, 2.0), ((0, 5), 0.0, 0.0), ((1, 6), 0.0, 0.0), ((1, 6), of_bits('3F000001'), 0.0), ((1, 7), 0.0, 0.0), ((2, 0), 0.0, 0.0),
                         ((2, 6), 2.0, 2.0), ((1, 4294967295), 0.0, 0.0), ((1,), 0.0, 0.0), ((1, 0, 0), 0.0, 0.0), ((), 0.0, 0.0)):
        number, after = counts_call(given, *pair, kept)
        said = f'numbers {numbers(given)}' if given else 'no numbers'
        yield f'{said}, kr {pair[0]:.9g}, kb {pair[1]:.9g}: returns {number}, tells 0, 0; {after[0]}, {after[108]}, {after[255]}'


def told(answer, *told):
    return f'returns {answer}, tells ' + ', '.join(map(str, told))


def filled(count):
    return bytearray(b'\xee' * count)


@example('10.5')
def _():
    data, new = file_of(TWO), file_of(SET, WITH)
    for first, room in ((0, 22), (0, 21), (1, 40), (2, 22), (18446744073709551615, 22)):
        number, count, entries = read_call(data, first, room // 11)
        yield f'shift_records, the file of 11.1, first {first}, {room} numbers: {told(number, count, len(entries))}; {11 * len(entries)} of the numbers are written'
    for said, given in (('that file without its last byte', data[:-1]), ('the file of 11.7', new)):
        number, count, entries = read_call(given, 0, 2)
        yield f'shift_records, {said}, first 0, 22 numbers: {told(number, count, len(entries))}; none is written'
    for said, given, first, room in (('the file of 11.1', data, 0, 30), ('the file of 11.7', new, 0, 30), ('the file of 11.7', new, 0, 29), ('the file of 11.7', new, 1, 40),
                                     ('the file of 11.7', new, 2, 30), ('that file without its last byte', new[:-1], 0, 30)):
        number, count, entries, form = read_any_call(given, first, room // 15)
        written = f'{15 * len(entries)} of the numbers are written' if number == 0 else 'none is written'
        yield f'shift_records_any, {said}, first {first}, {room} numbers: {told(number, count, len(entries), form)}; {written}'
    for length in (57, 56):
        yield f'shift_write, the two records of 11.2, output of {length} bytes: {told(*write_call(b"".join(TWO), filled(length)))}'
    for said, records, length in (('the two records of 11.7', SET, len(new)), ('the two records of 11.7', SET, len(new) - 1), ('the two records of 11.2', TWO, 100)):
        yield f'shift_write_settings, {said}, output of {length} bytes: {told(*write_call(b"".join(records), filled(length), WITH))}'
    for strides, lengths, length in (((4, 3, 2), (8, 3, 2), 18), ((4, 3, 2), (8, 3, 2), 17), ((4, 3, 2), (7, 3, 2), 18), ((2, 3, 2), (8, 3, 2), 0)):
        answer, size = record_call(1400, 3, 2, strides, [bytes(count) for count in lengths], filled(length))
        yield f'shift_record, numbers {numbers((1400, 3, 2, *strides))}, planes of {", ".join(map(str, lengths))}, output of {length} bytes: {told(*answer, size)}'
    for four, lengths, length in (((0, 255, 255, 255), (8, 3, 2), 22), ((1, 0, 6, 3), (8, 6, 4), 26), ((1, 0, 6, 3), (8, 6, 4), 25), ((1, 0, 6, 3), (8, 3, 2), 26),
                                  ((0, 2, 0, 0), (8, 3, 2), 22), ((255, 0, 0, 0), (8, 3, 2), 22)):
        answer, size = record_call(1400, 3, 2, (4, 3, 2), [bytes(count) for count in lengths], filled(length), four)
        yield (f'shift_record_settings, numbers {numbers((1400, 3, 2, 4, 3, 2, *four))}, planes of {", ".join(map(str, lengths))}, '
               f'output of {length} bytes: {told(*answer, size)}')
    for call, said, given, length in ((forward_call, 'shift_forward, the file of 11.1', data, 69), (forward_call, 'shift_forward, the file of 11.1', data, 68),
                                      (forward_call, 'shift_forward, the file of 11.7', new, 100), (back_call, 'shift_back, the file of 11.7', new, 0),
                                      (back_call, 'shift_back, the file of 11.1', data, 57)):
        yield f'{said}, output of {length} bytes: {told(*call(given, filled(length)))}'


@example('10.6')
def _():
    data, made, record = file_of(THREE), summary_of(THREE), TWO[0]
    for said, given, length in (('the file of 12.1', data, 39), ('the file of 12.1', data, 38), ('that file without its last byte', data[:-1], 39)):
        yield f'summary_build, {said}, buffer of {length} bytes: returns {build_call(given, filled(length))}'
    for said, given, buffer in (('the file of 12.1, its summary', data, made), ('the file of 12.1, its summary and a byte behind', data, made + b'\0'),
                                ('the file of 12.1, its summary without the last byte', data, made[:-1]), ('that file without its last byte, its summary', data[:-1], made)):
        number, yes = check_call(given, buffer)
        yield f'summary_check, {said}: {told(number, int(yes))}'
    for said, given, buffer, crossing in (('the file of 12.1, its summary', data, made, 1400), ('the file of 12.1, its summary', data, made, 70000),
                                          ('the file of 12.1, its summary', data, made, 7), ('the file of 12.1, no bytes', data, b'', 1400),
                                          ('that file without its last byte, no bytes', data[:-1], b'', 1400)):
        number, found = find_call(given, buffer, crossing)
        yield f'summary_find, {said}, crossing {crossing}: {told(number, int(found is not None), found or 0)}'
    for said, buffer in (('its summary and 13 bytes behind', made + filled(13)), ('its summary and 12 bytes behind', made + filled(12)), ('52 bytes EE', filled(52))):
        yield f'summary_update, the file of 12.1, record 0 of 11.2, {said}: returns {update_call(data, record, bytearray(buffer))}'
    new = file_of(SET, WITH)
    yield f'summary_build, the file of 11.7, buffer of 26 bytes: returns {build_call(new, filled(26))}'
    number, found = find_call(new, summary_in(new), 70000)
    yield f'summary_find, the file of 11.7, its summary, crossing 70000: {told(number, int(found is not None), found or 0)}'
    for said, record in (('record 0 of 11.7', SET[0]), ('record 0 of 11.2', TWO[0])):
        yield f'summary_update, the file of 11.7, {said}, its summary and 13 bytes behind: returns {update_call(new, record, bytearray(summary_in(new) + filled(13)))}'


@example('10.7')
def _():
    yield 'each of the eighteen numbers is 9 before a call'
    ours, theirs = file_of(OURS), file_of(THEIRS)
    for said, given in (('the files of 13.1', (ours, theirs)), ('the same, exchanged', (theirs, ours)), ('theirs with the sizes of 13.3', (ours, file_of(SIZES))),
                        ('theirs moved forward', (ours, moved(theirs))), ('theirs with the sampling of 13.3', (ours, file_of(SAMPLINGS, WITH))),
                        ('ours as both', (ours, ours)), ('two files without records', (file_of([]), file_of([]))), ('ours without its last byte', (ours[:-1], theirs)),
                        ('theirs without its last byte', (ours, theirs[:-1])), ('both without their last bytes', (ours[:-1], theirs[:-1]))):
        number, broken, report = pair_call(*given)
        yield f'{said}: {told(number, broken)}; {numbers([9] * 18 if report is None else report_numbers(report))}'


@example('10.8')
def _():
    data = Y4M_TWO
    for said, given, first, room in (('the file of 14.3', data, 0, 12), ('the file of 14.3', data, 0, 11), ('the file of 14.3', data, 1, 40),
                                     ('the file of 14.3', data, 2, 12),
                                     ('the file of 14.3', data, 18446744073709551615, 12), ('the file of 14.3', data, 0, 0),
                                     ('YUV4MPEG2 C422 H2 W3<0A>', b'YUV4MPEG2 C422 H2 W3\n', 0, 12),
                                     ('the file of 14.3 without its last byte', data[:-1], 0, 12)):
        number, found, entries = y4m_read_call(given, first, room // 6)
        written = f'{6 * len(entries)} of the numbers are written' if number == 0 else 'none is written'
        yield f'y4m_pictures, {said}, first {first}, {room} numbers: {told(number, *found, len(entries))}; {written}'
    for given, length, room in (((3, 2, 0), 20, 66), ((3, 2, 0), 20, 65), ((3, 2, 0), 0, 34), ((3, 2, 0), 21, 100), ((3, 2, 1), 28, 70),
                                ((3, 2, 2), 20, 100), ((0, 2, 0), 0, 100),
                                ((3, 16385, 0), 0, 100), ((4294967295, 4294967295, 4294967295), 0, 0)):
        answer = y4m_write_call(*given, bytes(length), filled(room))
        yield f'y4m_write, numbers {numbers(given)}, pictures of {length} bytes, output of {room} bytes: {told(*answer)}'
    for given, lengths, room in (((3, 2, 0, 4, 3, 2), (8, 3, 2), 16), ((3, 2, 0, 4, 3, 2), (8, 3, 2), 15), ((3, 2, 0, 4, 3, 2), (7, 3, 2), 16),
                                 ((3, 2, 0, 2, 3, 2), (4, 3, 2), 16),
                                 ((3, 2, 1, 4, 3, 2), (8, 6, 4), 20), ((3, 2, 1, 4, 3, 2), (8, 3, 2), 20), ((3, 2, 2, 4, 3, 2), (8, 3, 2), 16),
                                 ((0, 0, 0, 0, 0, 0), (0, 0, 0), 0)):
        answer = y4m_picture_call(*given[:3], given[3:], [bytes(length) for length in lengths], filled(room))
        yield f'y4m_picture, numbers {numbers(given)}, planes of {", ".join(map(str, lengths))}, output of {room} bytes: {told(*answer)}'


def settings_of(description, kr, kb):
    order, sampling, range_, matrix, transfer, rounding = (values[code] for code, values in
                                                           zip(codes_of(description), (CODES | {'matrix': CODES['matrix'] + ['Custom']}).values()))
    return Settings(order, sampling, range_, matrix, transfer, rounding, kr, kb)


def described_by(description, kr, kb):
    """10.1: settings, w, h, plane strides and window."""
    return settings_of(description, kr, kb), *description[:2], tuple(description[7:10]), window_of(description)


def convoy_of(count, given, customs, parts):
    """10.9: the frames of a convoy by numbers; those past 64 are never looked at."""
    frames = []
    for k in range(min(count, MOST_FRAMES + 1)):
        of_frame = given[16 * k:16 * k + 16]
        kr, kb = (customs[i] if i < len(customs) else float('nan') for i in (2 * k, 2 * k + 1))
        eight = [parts[i] if i < len(parts) else 0 for i in range(8 * k, 8 * k + 8)]
        by = None
        if len(of_frame) == 16 and not is_malformed('frame', of_frame):
            by = described_by(of_frame[1:], kr, kb)
        frames.append(ConvoyFrame(by, of_frame[0] if of_frame else 0, [Part(*eight[i:i + 2]) for i in (0, 2, 4, 6)]))
    return frames


@example('10.9')
def _():
    # three pixels side by side, each a frame; their planes stand in the opposite order
    source = bytes([255, 0, 0, 0, 255, 0, 255, 255, 255])
    one = (3, 1, 1, 0, 0, 1, 0, 0, 1, 1, 1, 0, 0, 0, 1, 1)
    given, parts = one * 3, sum(((3 * k, 3) + (2 - k, 1) * 3 for k in range(3)), ())
    custom, strange, wide = one[:6] + (6,) + one[7:], one[:6] + (7,) + one[7:], (2,) + one[1:]

    def line(said, count, given, customs, parts):
        planes = [filled(3) for _ in range(3)]
        answer, done = convoy_call(convoy_of(count, given, customs, parts), source, planes)
        return f'{said}: {told(*answer, done)}; {plane_text(planes)}'
    yield 'the buffers of Example 15.3, the planes of EE before; Y, U, V after the call, in hexadecimal'
    yield f'numbers {numbers(given)}'
    yield f'parts {numbers(parts)}'
    yield line('count 3', 3, given, (), parts)
    yield line('count 2', 2, given, (), parts)
    yield line('count 0', 0, given, (), parts)
    yield line('count 3, the last number left out', 3, given[:-1], (), parts)
    yield line('count 3, no numbers', 3, (), (), parts)
    yield line('count 4', 4, given, (), parts)
    yield line('count 3, the matrix of frame 1 7', 3, one + strange + one, (), parts)
    yield line('count 3, the matrix of frame 1 6, no kr and kb', 3, one + custom + one, (), parts)
    yield line('the same, kr and kb 0.25 of frames 0 and 1', 3, one + custom + one, (0.25,) * 4, parts)
    yield line('the same, kr of frames 0 and 1 and kb of frame 0 0.25', 3, one + custom + one, (0.25,) * 3, parts)
    yield line('count 3, the stride of frame 2 2', 3, one + one + wide, (), parts)
    yield line('count 3, the last of the parts left out', 3, given, (), parts[:-1])
    yield line('count 3, the parts of frame 2 left out', 3, given, (), parts[:-8])
    yield line('count 3, the parts of frame 1 for frame 2 too', 3, given, (), parts[:-8] + parts[8:16])
    yield line('count 64, numbers and parts of three frames', 64, given, (), parts)
    yield line('count 65, numbers and parts of three frames', 65, given, (), parts)
    yield line('count 18446744073709551615, nothing in the lists', 2 ** 64 - 1, (), (), ())


def desk_of(numbers_, customs, parts):
    """10.10: the desk that three lists are."""
    places = []
    for c in range(CAMERAS):
        stands, done, rows, stride, *description = numbers_[19 * c:19 * c + 19]
        band, *of_frame = (Part(*parts[i:i + 2]) for i in range(10 * c, 10 * c + 10, 2))
        for at, code, values in zip((2, 3, 4, 5, 6, 10), codes_of(description), CODES.values()):
            if code >= len(values) + (values is CODES['matrix']):
                description[at] = 0
        frame = OpenFrame(described_by(description, *customs[2 * c:2 * c + 2]), done, of_frame) if stands in (1, 2) else None
        places.append(Place(frame, WaitingBand(rows, stride, band) if stands == 2 else None))
    return Desk(tuple(places), numbers_[608])


def place_numbers(place):
    """10.10: the 19 numbers, 2 binary32 numbers and 10 parts of what stands at a place."""
    frame, band = place
    if frame is None:
        return [0] * 19, [0.0] * 2, [0] * 10
    s, w, h, strides, window = frame.by
    matrices = CODES['matrix'] + ['Custom']
    codes = [CODES['channel order'].index(s.order), CODES['sampling'].index(s.sampling), CODES['range'].index(s.range_), matrices.index(s.matrix),
             CODES['transfer'].index(s.transfer)]
    description = [w, h, *codes, *strides, CODES['rounding'].index(s.rounding), *(window or whole(w, h))]
    rows, stride, part = band or (0, 0, Part(0, 0))
    return ([2 if band else 1, frame.done, rows, stride, *description], [s.kr, s.kb] if s.matrix == 'Custom' else [0.0] * 2,
            [number for each in (part, *frame.parts) for number in each])


class Lists:
    """10.10: the three lists of a desk, and the calls on them, which say what they return and tell."""

    def __init__(self):
        self.numbers, self.customs, self.parts = [0] * 609, [0.0] * 64, [0] * 320

    def desk(self):
        return desk_of(self.numbers, self.customs, self.parts)

    def text(self, camera):
        customs, parts = self.customs[2 * camera:2 * camera + 2], self.parts[10 * camera:10 * camera + 10]
        nineteen = numbers(self.numbers[19 * camera:19 * camera + 19])
        return f'  {nineteen}; {" ".join(f"{k:g}" for k in customs)}; {numbers(parts)}; {self.numbers[608]}'

    def write(self, camera, desk):
        nineteen, two, ten = place_numbers(desk.places[camera])
        self.numbers[19 * camera:19 * camera + 19] = nineteen
        self.customs[2 * camera:2 * camera + 2] = two
        self.parts[10 * camera:10 * camera + 10] = ten

    def open(self, camera, described, custom, frame_parts, lengths):
        by = None if is_malformed('opening', described) else described_by(described, *custom)
        answer, desk = desk_open(self.desk(), camera, by, [Part(*frame_parts[i:i + 2]) for i in (0, 2, 4, 6)], lengths)
        if not answer[0]:
            self.write(camera, desk)
        return told(*answer)

    def offer(self, camera, band, place):
        answer, desk = desk_offer(self.desk(), camera, WaitingBand(*band, Part(*place[:2])), place[2])
        if not answer[0]:
            self.write(camera, desk)
        return f'returns {answer[0]}'

    def step(self, source, lent):
        answer, camera, desk = desk_step(self.desk(), source, lent)
        if camera is not None:
            self.write(camera, desk)
            self.numbers[608] = desk.first
        return told(*answer, *((0, 0) if camera is None else (1, camera)))


@example('10.10')
def _():
    yield 'lengths of Y, U, V and carried rows 4 4 4 8; a source of 6 bytes, red and green; planes EE before, in hexadecimal'
    yield 'after some calls, on a line of its own, what stands of camera 1: numbers 19 to 37; binary32 numbers 2, 3; parts 10 to 19; then number 608'
    lists, lengths, source = Lists(), (4, 4, 4, 8), bytes([255, 0, 0, 0, 255, 0])
    lent = [filled(4), filled(4), filled(4), filled(8)]
    one, parts = (1, 2, 0, 0, 1, 0, 0, 1, 1, 1), (2, 2, 1, 1, 0, 1, 4, 3)

    def opened(said, camera=1, described=one, custom=(0.0, 0.0), frame_parts=parts):
        before = [*lists.numbers], [*lists.customs], [*lists.parts]
        answer = lists.open(camera, described, custom, frame_parts, lengths)
        assert answer.startswith('returns 0') or before == (lists.numbers, lists.customs, lists.parts)
        return f'desk_open, {said}: {answer}'

    def offered(said, camera=1, band=(1, 3), place=(0, 3, 6)):
        return f'desk_offer, {said}: {lists.offer(camera, band, place)}'

    def stepped(said=''):
        return f'desk_step{said}: {lists.step(source, lent)}; {plane_text(lent)}'
    yield f'three lists of zeros, desk_step: {lists.step(source, lent)}'
    yield opened(f'camera 32, numbers {numbers(one)}, parts {numbers(parts)}', camera=32)
    yield opened('camera 1, parts 2 3 1 1 0 1 4 3', frame_parts=(2, 3, *parts[2:]))
    yield opened('the same, 9 numbers', described=one[:9], frame_parts=(2, 3, *parts[2:]))
    yield opened('camera 1, 9 numbers', described=one[:9])
    yield opened('camera 1, 14 numbers', described=one + (0, 0, 0, 1))
    yield opened('camera 1, w 0 and matrix 7', described=(0, 2, 0, 0, 1, 7, 0, 1, 1, 1))
    yield opened('camera 1, w 0', described=(0, *one[1:]))
    yield opened('camera 1, matrix 6, kr 1, kb 0', described=(1, 2, 0, 0, 1, 6, 0, 1, 1, 1), custom=(1.0, 0.0))
    yield lists.text(1)
    yield opened(f'camera 1, numbers {numbers(one)}, kr and kb 0.25', custom=(0.25, 0.25))
    yield lists.text(1)
    yield opened('camera 1 again')
    strange = (1, 1, 3, 1, 0, 6, 2, 1, 1, 1, 1)
    yield opened(f'camera 0, numbers {numbers(strange)}, kr 0.25, kb 0.125, parts 0 1 0 1 1 1 0 3', camera=0, described=strange, custom=(0.25, 0.125),
                 frame_parts=(0, 1, 0, 1, 1, 1, 0, 3))
    yield f'  of camera 0:{lists.text(0)[1:]}'
    yield offered('camera 2, rows and stride 1 3, place 0 3 6', camera=2)
    yield offered('camera 1, 1 3, 4 3 6', place=(4, 3, 6))
    yield offered('camera 1, 1 3, 0 3 6')
    yield lists.text(1)
    yield offered('the same again')
    yield stepped()
    yield lists.text(1)
    yield stepped()
    yield offered('camera 1, 1 2, 3 3 6', band=(1, 2), place=(3, 3, 6))
    yield stepped()
    yield lists.text(1)
    yield offered('camera 1, 1 3, 3 3 6', place=(3, 3, 6))
    yield stepped()
    yield lists.text(1)
    yield 'then, by no call, 2 0 1 3 as numbers 0 to 3, a band for camera 0; 9 as number 6, its channel order; 65 as number 608; 0 3 as parts 0, 1'
    lists.numbers[:4], lists.numbers[6], lists.numbers[608], lists.parts[:2] = [2, 0, 1, 3], 9, 65, [0, 3]
    yield stepped()
    yield f'  of camera 0:{lists.text(0)[1:]}'
    yield 'three lists of zeros, but number 0 is 3, number 19 is 1, and all others of cameras 0 and 1 are 7'
    lists = Lists()
    lists.numbers[:38], lists.customs[:4], lists.parts[:20] = [3] + [7] * 18 + [1] + [7] * 18, [7.0] * 4, [7] * 20
    yield offered('camera 0, 1 3, 0 3 6', camera=0)
    yield offered('camera 1, 1 3, 0 3 6')
    yield lists.text(1)
    small, first_bytes = (1, 1, *one[2:]), (0, 1, 0, 1, 0, 1, 0, 3)
    yield opened(f'camera 0, numbers {numbers(small)}, parts {numbers(first_bytes)}', camera=0, described=small, frame_parts=first_bytes)
    yield f'  of camera 0:{lists.text(0)[1:]}'


# ---- chapter 11

TWO = [record_of(1400, 3, 2, [bytes([0x10, 0x11, 0x12, 0x20, 0x21, 0x22]), bytes([0x30, 0x31]), bytes([0x40, 0x41])]),
       record_of(70000, 1, 1, [b'\x50', b'\x60', b'\x70'])]
# 11.7: the planes of the first, with nothing recorded; and a record of 4:2:2, Full, Custom, Gamma2p8.
SET = [forward(TWO[0]), record_of(70000, 2, 2, [b'\x50\x51\x52\x53', b'\x60\x61', b'\x70\x71'], bytes([1, 1, 6, 3]))]


@example('11.1')
def _():
    data = file_of(TWO)
    yield f'no records: {hexes(file_of([]))}'
    yield f'the two records of 11.2, {len(data)} bytes in hexadecimal:'
    lines = [(data[:4], f'{len(TWO)} records')]
    lines += [(data[4 + 12 * k:16 + 12 * k], f'pair {k}: offset {entry.offset}, length {entry.length}') for k, entry in enumerate(entries_of(data))]
    lines += [(record, f'record {k}') for k, record in enumerate(TWO)]
    width = max(len(hexes(part)) for part, _ in lines)
    for part, said in lines:
        yield f'{hexes(part):<{width}}   {said}'
    longest = 8 + sum(plane_sizes(16384, 16384))
    most = 4 + (12 + longest) * MOST_RECORDS
    yield f'4096 records of 16384 × 16384: 4 + 12 × 4096 + 4096 × {longest} = {most} bytes, of {most.bit_length()} bits'


@example('11.2')
def _():
    for record, entry in zip(TWO, entries_of(file_of(TWO))):
        start = entry.offset
        y, u, v = (record[at - start:at - start + size] for at, size in ((entry.y, entry.y_length), (entry.u, entry.u_length), (entry.v, entry.v_length)))
        yield f'crossing {entry.crossing}, {entry.w} × {entry.h}, {plane_text([y, u, v])}: {len(record)} bytes {hexes(record)}'
    for w, h in ((1, 1), (2, 2), (3, 3), (1920, 1080), (16384, 16384)):
        y, u, v = plane_sizes(w, h)
        length = 8 + y + u + v
        yield f'{w} × {h}: 8 + {y} + {u} + {v} = {length} bytes' + (f', of {length.bit_length()} bits' if w == 16384 else '')


@example('11.3')
def _():
    data = file_of(TWO)

    def changed(at, value, count):
        return data[:at] + low_first(value, count) + data[at + count:]
    yield f'the file of 11.1, {len(data)} bytes, with one thing changed'
    for said, given in (
            ('nothing', data), ('no last byte', data[:-1]), ('a byte 00 behind', data + b'\0'), ('count 1', changed(0, 1, 4)), ('count 3', changed(0, 3, 4)),
            ('count 4097', changed(0, 4097, 4)), ('count 4294967295', changed(0, 4294967295, 4)), ('offset 0 is 27', changed(4, 27, 8)),
            ('offset 0 is 4294967324, which is 2 ^ 32 + 28', changed(4, 4294967324, 8)), ('offset 1 is 45', changed(16, 45, 8)),
            ('offset 1 is 18446744073709551615', changed(16, 18446744073709551615, 8)), ('length 0 is 17', changed(12, 17, 4)),
            ('pairs exchanged', data[:4] + data[16:28] + data[4:16] + data[28:]), ('w of record 0 is 0', changed(32, 0, 2)),
            ('w of record 0 is 16385', changed(32, 16385, 2)), ('w of record 0 is 4', changed(32, 4, 2)),
            ('w and h of record 0 exchanged, which leaves it as long', changed(32, 2 + (3 << 16), 4)),
            ('crossing of record 1 is that of record 0', changed(46, 1400, 4)), ('last byte FF', data[:-1] + b'\xff')):
        yield f'{said}: ' + ('15' if form_of(given) is None else 'not 15')
    for said, given in (('no bytes', b''), ('00 00 00', bytes(3)), ('00 00 00 00', bytes(4)), ('00 00 00 00 00', bytes(5)),
                        ('4096 times the second record, by 11.1,', file_of([TWO[1]] * 4096)), ('4097 times the second record, by 11.1 but for n,', file_of([TWO[1]] * 4097))):
        yield f'{said} as a file: ' + ('15' if form_of(given) is None else 'not 15')
    small = TWO[1]
    for said, given in (('no bytes', b''), ('the two records of 11.2', b''.join(TWO)), ('the same without the last byte', b''.join(TWO)[:-1]),
                        ('the same and seven bytes of a third', b''.join(TWO) + small[:7]), ('the file of 11.1', data),
                        ('4096 times the second record', small * 4096), ('4097 times the second record', small * 4097)):
        yield f'{said} as records without settings: ' + ('15' if records_in(given) is None else 'not 15')
    for said, given in (('no bytes', b''), ('the two records of 11.7', b''.join(SET)), ('the same without the last byte', b''.join(SET)[:-1]),
                        ('the same and eleven bytes of a third', b''.join(SET) + SET[0][:11]), ('the two records of 11.2', b''.join(TWO))):
        yield f'{said} as records with settings: ' + ('15' if records_in(given, WITH) is None else 'not 15')
    yield 'the two records of 11.7 as records without settings: ' + ('15' if records_in(b''.join(SET)) is None else 'not 15')
    new = file_of(SET, WITH)
    for said, given in (('the file of 11.1', data), ('the file of 11.7', new), ('that file without its last byte', new[:-1])):
        for form, kind in ((WITHOUT, 'a file without settings'), (WITH, 'a file with settings')):
            yield f'{said} as {kind}: ' + ('15' if records_of(given, form) is None else 'not 15')
        yield f'{said} as a file: ' + ('15' if form_of(given) is None else 'not 15')


def count_of(entries):
    return '1 entry' if len(entries) == 1 else f'{len(entries)} entries'


@example('11.4')
def _():
    data = file_of(TWO)
    number, count, entries = read_call(data, 0, 2)
    yield f'the file of 11.1, first 0, room for 2 entries: {number}, {count} records, {count_of(entries)}'
    for entry in entries:
        yield '  ' + numbers(entry)
    for first, room in ((0, 1), (1, 5), (2, 5), (18446744073709551615, 5), (0, 0)):
        number, count, entries = read_call(data, first, room)
        said = ', '.join(f'that of crossing {entry[0]}' for entry in entries)
        yield f'first {first}, room for {room}: {number}, {count} records, {count_of(entries)}' + (f', {said}' if entries else '')
    number, count, entries = read_call(data + b'\0', 0, 2)
    yield f'with a byte behind the file, first 0, room for 2: {number}, {count} records, {count_of(entries)}'
    yield f'a file of 4096 records of 16384 × 16384: the last starts at byte {4 + 12 * 4096 + 4095 * (8 + sum(plane_sizes(16384, 16384)))}'
    yield 'the second call'
    for said, given in (('the file of 11.1', data), ('the file of 11.7', file_of(SET, WITH)), ('the file of 11.7 without its last byte', file_of(SET, WITH)[:-1])):
        number, count, entries, form = read_any_call(given, 0, 2)
        told_form = '' if number else f', {("without", "with")[form]} settings'
        yield f'{said}, first 0, room for 2: {number}, {count} records, {count_of(entries)}{told_form}'
        for entry in entries:
            yield '  ' + numbers(entry)
    number, count, entries = read_call(file_of(SET, WITH), 0, 2)
    yield f'the first call, the file of 11.7, first 0, room for 2: {number}, {count} records, {count_of(entries)}'


@example('11.5')
def _():
    yield 'all bytes of the output EE before'
    for said, given, length in (('the second record of 11.2', TWO[1], 30), ('the second record of 11.2', TWO[1], 27), ('the second record of 11.2', TWO[1], 26),
                                ('no record', b'', 5), ('no record', b'', 3), ('the second record without its last byte', TWO[1][:-1], 0)):
        output = filled(length)
        number, size = write_call(given, output)
        yield f'{said}, output of {length} bytes: {number}, size {size}' + (f'; the output is {hexes(output)}' if number == 0 else '')
    yield 'the second call'
    one = record_of(9, 1, 1, [b'\x50', b'\x60', b'\x70'], bytes([1, 255, 1, 0]))
    for said, given, length in (('a record of crossing 9, 1 × 1, with settings 01 FF 01 00', one, 37), ('the same', one, 34), ('no record', b'', 9), ('no record', b'', 7),
                                ('the second record of 11.2', TWO[1], 40)):
        output = filled(length)
        number, size = write_call(given, output, WITH)
        yield f'{said}, output of {length} bytes: {number}, size {size}' + (f'; the output is {hexes(output)}' if number == 0 else '')


@example('11.6')
def _():
    yield 'w 3, h 2: cw 2, ch 1; strides and lengths of Y, U, V; crossing 1400; all bytes of the output EE before'
    planes = [bytes([0x10, 0x11, 0x12, 0x99, 0x20, 0x21, 0x22, 0x99]), bytes([0x30, 0x31, 0x99]), bytes([0x40, 0x41])]
    output = filled(20)
    answer, size = record_call(1400, 3, 2, (4, 3, 2), planes, output)
    assert output[:18] == TWO[0]
    yield f'strides 4 3 2, {plane_text(planes)}, output of 20 bytes: {answer[0]}, size {size}; the output is {hexes(output)}'
    for said, w, h, strides, lengths, length in (
            ('the same, output of 17 bytes', 3, 2, (4, 3, 2), (8, 3, 2), 17), ('output of 17 bytes, Y stride', 3, 2, (2, 3, 2), (8, 3, 2), 17),
            ('Y one byte under', 3, 2, (4, 3, 2), (6, 3, 2), 18), ('U stride', 3, 2, (4, 1, 2), (8, 3, 2), 18), ('V one byte under', 3, 2, (4, 3, 2), (8, 3, 1), 18),
            ('Y without its last padding', 3, 2, (4, 3, 2), (7, 3, 2), 18), ('V longer', 3, 2, (4, 3, 2), (8, 3, 3), 18),
            ('w 0, and all else 0 too', 0, 2, (0, 0, 0), (0, 0, 0), 0), ('w 16385', 16385, 2, (16385, 8193, 8193), (32770, 8193, 8193), 0),
            ('h 4294967295', 3, 4294967295, (4, 3, 2), (8, 3, 2), 18)):
        answer, size = record_call(1400, w, h, strides, [bytes(count) for count in lengths], filled(length))
        yield answer_line(f'{said}, strides {numbers(strides)}, lengths {numbers(lengths)}', answer) + f', size {size}'
    yield 'with settings, w 3, h 2: in 4:2:2 ch 2; sampling, range, matrix and transfer as said'
    planes = [bytes([0x10, 0x11, 0x12, 0x20, 0x21, 0x22]), bytes([0x30, 0x31, 0x99, 0x32, 0x33, 0x99]), bytes([0x40, 0x41, 0x42, 0x43])]
    output = filled(27)
    answer, size = record_call(1400, 3, 2, (3, 3, 2), planes, output, (1, 0, 1, 255))
    yield f'1 0 1 255, strides 3 3 2, {plane_text(planes)}, output of 27 bytes: {answer[0]}, size {size}; the output is {hexes(output)}'
    for said, four, lengths, length in (
            ('output of 25 bytes', (1, 0, 1, 255), (6, 6, 4), 25), ('planes of 4:2:0', (1, 0, 1, 255), (6, 3, 2), 26), ('planes of 4:2:2', (0, 0, 1, 255), (6, 6, 4), 26),
            ('an unknown sampling, and planes of 0 bytes', (2, 0, 1, 255), (0, 0, 0), 0), ('a sampling that is not recorded', (255, 0, 1, 255), (6, 6, 4), 26),
            ('an unknown range', (1, 254, 1, 255), (6, 6, 4), 26), ('an unknown matrix', (1, 0, 7, 255), (6, 6, 4), 26),
            ('an unknown transfer', (1, 0, 1, 4), (6, 6, 4), 26), ('256 as range, which is 0 in a byte', (1, 256, 1, 255), (6, 6, 4), 26)):
        answer, size = record_call(1400, 3, 2, (3, 3, 2), [bytes(count) for count in lengths], filled(length), four)
        yield answer_line(f'{said}, {numbers(four)}, lengths {numbers(lengths)}', answer) + f', size {size}'


def settings_text(four):
    names = [CODES['sampling'], CODES['range'], CODES['matrix'] + ['Custom'], CODES['transfer']]
    said = [values[code] if code != NOT_RECORDED else f'{name} not recorded'
            for name, values, code in zip(('sampling', 'range', 'matrix', 'transfer'), names, four)]
    return ', '.join(said)


@example('11.7')
def _():
    data = file_of(SET, WITH)
    yield f'no records: {hexes(file_of([], WITH))}'
    yield f'a file of two records, {len(data)} bytes in hexadecimal:'
    entries = entries_of(data, WITH)
    lines = [(data[:4], '4294967295'), (data[4:8], f'{len(SET)} records')]
    lines += [(data[8 + 12 * k:20 + 12 * k], f'pair {k}: offset {entry.offset}, length {entry.length}') for k, entry in enumerate(entries)]
    for k, (record, entry) in enumerate(zip(SET, entries)):
        lines += [(record[:4], f'record {k}: crossing {entry.crossing}'), (record[4:8], f'w {entry.w}, h {entry.h}'), (record[8:12], settings_text(record[8:12]))]
        for name, at, size in (('Y', entry.y, entry.y_length), ('U', entry.u, entry.u_length), ('V', entry.v, entry.v_length)):
            lines.append((data[at:at + size], name))
    assert b''.join(part for part, _ in lines) == data
    width = max(len(hexes(part)) for part, _ in lines)
    for part, said in lines:
        yield f'{hexes(part):<{width}}   {said}'
    for w, h, sampling in ((1, 1, 0), (1, 1, 1), (3, 3, 0), (3, 3, 1), (1920, 1080, 1), (16384, 16384, 1)):
        y, u, v = plane_sizes(w, h, sampling)
        length = 12 + y + u + v
        yield f'{w} × {h}, {CODES["sampling"][sampling]}: 12 + {y} + {u} + {v} = {length} bytes' + (f', of {length.bit_length()} bits' if w == 16384 else '')
    longest = 12 + sum(plane_sizes(16384, 16384, 1))
    most = 8 + (12 + longest) * MOST_RECORDS
    yield f'4096 records of 16384 × 16384, 4:2:2: 8 + 12 × 4096 + 4096 × {longest} = {most} bytes, of {most.bit_length()} bits'
    yield 'the file of two records with one thing changed'
    start = entries[1].offset + 8
    for said, at, values in (('sampling of record 1', 0, (0, 2, 255)), ('range of record 1', 1, (0, 2, 254, 255)), ('matrix of record 1', 2, (5, 7, 254, 255)),
                             ('transfer of record 1', 3, (0, 4, 254, 255))):
        for value in values:
            given = data[:start + at] + bytes([value]) + data[start + at + 1:]
            yield f'{said} is {value}: ' + ('15' if records_of(given, WITH) is None else 'not 15')
    for said, given in (('4294967294 for the first number', low_first(4294967294, 4) + data[4:]), ('count 1', data[:4] + low_first(1, 4) + data[8:]),
                        ('offset 0 is 28, which is that of 11.1', data[:8] + low_first(28, 8) + data[16:]), ('no last byte', data[:-1]), ('a byte 00 behind', data + bytes(1))):
        yield f'{said}: ' + ('15' if records_of(given, WITH) is None else 'not 15')
    yield 'other bytes as a file'
    pixel = record_of(9, 1, 1, [b'\x50', b'\x60', b'\x70'], bytes([0, 255, 255, 255]))
    for said, given in (('FF FF FF FF', MARK), ('FF FF FF FF 00 00 00', MARK + bytes(3)), ('FF FF FF FF 00 00 00 00', MARK + bytes(4)),
                        ('FF FF FF FF 00 00 00 00 00', MARK + bytes(5)), ('FF FF FF FF and behind it the file of 11.1', MARK + file_of(TWO)),
                        ('the records of 11.2 by 11.7', file_of(TWO, WITH)), ('the records of 11.7 by 11.1', file_of(SET, WITHOUT)),
                        ('one record of 1 × 1 in 4:2:0', file_of([pixel], WITH)), ('the same with sampling 1, which leaves it as long', file_of([with_byte(pixel, 8, 1)], WITH)),
                        ('4096 such records', file_of([pixel] * 4096, WITH)), ('4097 such records', file_of([pixel] * 4097, WITH))):
        yield f'{said}: ' + ('15' if form_of(given) is None else 'not 15')


@example('11.8')
def _():
    yield 'all bytes of the output EE before'
    data = file_of(TWO)
    output = filled(71)
    number, size = forward_call(data, output)
    yield f'forward, the file of 11.1, output of 71 bytes: {number}, size {size}; the output is'
    moved_file = bytes(output[:size])
    for at, end in ((0, 4), (4, 8), (8, 20), (20, 32), (32, 54), (54, 69), (69, 71)):
        yield f'  {hexes(output[at:end])}'
    kept = filled(57)
    number, size = back_call(moved_file, kept)
    assert bytes(kept) == data
    yield f'back, that file, output of 57 bytes: {number}, size {size}; the output is the file of 11.1'
    for said, call, given, length in (
            ('forward, the file of 11.1, output of 68 bytes', forward_call, data, 68), ('forward, no records, output of 8 bytes', forward_call, file_of([]), 8),
            ('back, no records, output of 4 bytes', back_call, file_of([], WITH), 4), ('forward, the file moved forward, output of 0 bytes', forward_call, moved_file, 0),
            ('forward, the file of 11.1 without its last byte, output of 0 bytes', forward_call, data[:-1], 0),
            ('back, the file of 11.1, output of 0 bytes', back_call, data, 0), ('back, the file moved forward, output of 56 bytes', back_call, moved_file, 56)):
        output = filled(length)
        number, size = call(given, output)
        yield f'{said}: {number}, size {size}' + (f'; the output is {hexes(output)}' if number == 0 else '')
    yield 'back, the file moved forward with one byte of record 1 changed, which has 1 × 1 pixels; output of 0 bytes'
    for at, name, values in ((62, 'sampling', (1, 2)), (63, 'range', (0, 1, 2)), (64, 'matrix', (0, 6, 7)), (65, 'transfer', (0, 3, 4))):
        for value in values:
            number, size = back_call(with_byte(moved_file, at, value), filled(0))
            yield f'{name} {value}: {number}, size {size}'


# ---- chapter 12

THREE = [record_of(70000, 1, 1, [b'\x50', b'\x60', b'\x70']), TWO[0], record_of(70000, 2, 1, [b'\x80\x83', b'\x60', b'\x70'])]


def summary_of(records):
    """The summary of the file of these records."""
    buffer = bytearray(13 * len(records))
    assert build_call(file_of(records), buffer) == 0
    return bytes(buffer)


def entry_lines(data):
    return [hexes(data[at:at + 13]) for at in range(0, len(data), 13)]


@example('12.1')
def _():
    data = file_of(THREE)
    yield f'the file of three records, {len(data)} bytes in hexadecimal:'
    lines = [(data[:4], f'{len(THREE)} records')]
    lines += [(data[4 + 12 * k:16 + 12 * k], f'pair {k}: offset {entry.offset}, length {entry.length}') for k, entry in enumerate(entries_of(data))]
    lines += [(record, f'record {k}: crossing {crossing_in(record)}') for k, record in enumerate(THREE)]
    lines += [(entry_of(entry, data), f'entry of record {k}: crossing {entry.crossing}, offset {entry.offset}, mean luma {entry_of(entry, data)[12]}')
              for k, entry in enumerate(entries_of(data))]
    width = max(len(hexes(part)) for part, _ in lines)
    for part, said in lines:
        yield f'{hexes(part):<{width}}   {said}'
    new = file_of(SET, WITH)
    for k, entry in enumerate(any_entries(new)):
        line = entry_of(entry, new)
        yield f'{hexes(line):<{width}}   entry of record {k} of the file of 11.7: crossing {entry.crossing}, offset {entry.offset}, mean luma {line[12]}'


@example('12.2')
def _():
    for w, h, plane in ((1, 1, [80]), (3, 2, [16, 17, 18, 32, 33, 34]), (2, 1, [128, 131]), (2, 2, [0, 0, 0, 3]), (2, 2, [255, 255, 255, 254])):
        yield f'{w} × {h}, Y {numbers(plane)}: s {sum(plane)}, mean luma {sum(plane) // (w * h)}'
    most = 255 * 16384 * 16384
    yield f'16384 × 16384, each byte 255: s {most}, of {most.bit_length()} bits, mean luma {most // (16384 * 16384)}'
    yield f'the same, the last byte 254: s {most - 1}, mean luma {(most - 1) // (16384 * 16384)}'


@example('12.3')
def _():
    data = file_of(THREE)
    zero, one, two = (entry_of(entry, data) for entry in entries_of(data))

    def with_(entry, at, value):
        return entry[:at] + bytes([value]) + entry[at + 1:]
    yield 'the file of 12.1; its entries by the number of their record'
    for said, given in (
            ('1, 0, 2', one + zero + two), ('1, 2, 0', one + two + zero), ('0, 1, 2, the order of the file', zero + one + two), ('0, 2, 1', zero + two + one),
            ('1, 0, 0', one + zero + zero), ('1, 0', one + zero), ('1, 0, 2, and 13 bytes behind', one + zero + two + bytes(13)),
            ('1, 0, 2, the last mean one more', one + zero + with_(two, 12, two[12] + 1)), ('1, 0, 2, the offset of 0 twelve less', one + with_(zero, 4, zero[4] - 12) + two),
            ('1, 0, 2, the crossing of 1 another', with_(one, 0, 0x79) + zero + two), ('1, 0, 2, the highest byte of an offset not 0', one + zero + with_(two, 11, 1))):
        number, yes = check_call(data, given)
        yield f'{said}: ' + ('the summary' if yes else 'not the summary') + (', of which the first 39 bytes are meant' if len(given) > 39 else '')
    assert summary_in(file_of([])) == b''
    yield 'the file without records: no bytes are its summary'


@example('12.4')
def _():
    yield 'all bytes of the buffer EE before'
    data = file_of(THREE[:2])
    for said, given, length in (('the first two records of 12.1', data, 28), ('the first two records of 12.1', data, 26), ('the first two records of 12.1', data, 25),
                                ('the file without records', file_of([]), 2), ('a file without its last byte', data[:-1], 0)):
        buffer = filled(length)
        number = build_call(given, buffer)
        yield f'{said}, buffer of {length} bytes: {number}' + (f'; the buffer is {hexes(buffer)}' if number == 0 else '')
    buffer = filled(39)
    yield f'the file of 12.1, buffer of 39 bytes: {build_call(file_of(THREE), buffer)}; the buffer is'
    yield from (f'  {line}' for line in entry_lines(buffer))
    buffer = filled(39)
    yield f'that file moved forward (11.8), buffer of 39 bytes: {build_call(moved(file_of(THREE)), buffer)}; the buffer is'
    yield from (f'  {line}' for line in entry_lines(buffer))


@example('12.5')
def _():
    data, made = file_of(THREE), summary_of(THREE)
    yield 'the file of 12.1 and its summary'
    for said, given, buffer in (('nothing changed', data, made), ('entries of the same crossing exchanged', data, made[:13] + made[26:] + made[13:26]), ('a byte behind the summary', data, made + b'\0'), ('no last byte of the summary', data, made[:-1]),
                                ('the last byte of the summary another', data, made[:-1] + bytes([made[-1] ^ 1])),
                                ('the summary of the first two records', data, summary_of(THREE[:2])),
                                ('no last byte of the file', data[:-1], made), ('the last byte of the file another, which no rule here is about', data[:-1] + b'\xff', made),
                                ('the last luma of record 2 three less', data[:-3] + b'\x80' + data[-2:], made), ('the file without records, no summary', file_of([]), b''),
                                ('the file moved forward', moved(data), made), ('the file moved forward, and its own summary', moved(data), summary_in(moved(data))),
                                ('with settings and without records, no summary', file_of([], WITH), b'')):
        number, yes = check_call(given, buffer)
        yield f'{said}: {number}, ' + ('yes' if yes else 'no')


@example('12.6')
def _():
    data, made = file_of(THREE), summary_of(THREE)
    yield 'the file of 12.1 and its summary'
    for said, given, buffer, crossing in (('', data, made, 1400), ('', data, made, 70000), ('', data, made, 0), ('', data, made, 4294967295),
                                          ('no last byte of the summary, ', data, made[:-1], 1400), ('entries exchanged, ', data, made[26:] + made[:26], 1400),
                                          ('no last byte of both, ', data[:-1], made[:-1], 1400)):
        number, found = find_call(given, buffer, crossing)
        said_found = '' if number else f', record {found} at byte {entries_of(given)[found].offset}' if found is not None else ', no record'
        yield f'{said}crossing {crossing}: {number}{said_found}'
    new = file_of(SET, WITH)
    yield 'the file of 11.7 and its summary'
    for crossing in (1400, 70000, 9):
        number, found = find_call(new, summary_in(new), crossing)
        yield f'crossing {crossing}: {number}' + (f', record {found} at byte {any_entries(new)[found].offset}' if found is not None else ', no record')


@example('12.7')
def _():
    data, made = file_of(THREE[:2]), summary_of(THREE[:2])
    yield 'the first two records of 12.1, the summary of their file, and bytes EE behind it'
    for said, record, buffer in (('the first of 11.2 with crossing 5, buffer of 41 bytes', low_first(5, 4) + TWO[0][4:], made + filled(15)),
                                 ('the same, buffer of 39 bytes', low_first(5, 4) + TWO[0][4:], made + filled(13)),
                                 ('the same, buffer of 38 bytes', low_first(5, 4) + TWO[0][4:], made + filled(12)),
                                 ('a summary with the last byte another', TWO[0], made[:-1] + bytes([made[-1] ^ 1]) + filled(13)),
                                 ('a record without its last byte, buffer of 0 bytes', TWO[0][:-1], b''), ('no record', b'', made + filled(13)),
                                 ('two records', TWO[0] + TWO[1], made + filled(26))):
        buffer = bytearray(buffer)
        number = update_call(data, record, buffer)
        yield f'{said}: {number}' + (f'; the buffer is {hexes(buffer)}' if number == 0 else '')
    buffer = bytearray(made + filled(13))
    number = update_call(data, THREE[2], buffer)
    assert bytes(buffer) == summary_of(THREE)
    yield f'record 2 of 12.1: {number}; the buffer is the summary of the file of 12.1, as in 12.4'
    many = [TWO[1][:4] + record[4:] for record in [TWO[1]] * 4096]
    yield f'a file of 4096 records, no buffer: {update_call(file_of(many), TWO[1], bytearray())}'
    yield 'the record with settings of 11.7 of 4:2:2'
    yield f'the file of the first two of 12.1: {update_call(data, SET[1], bytearray(made + filled(13)))}'
    new = file_of(SET[:1], WITH)
    buffer = bytearray(summary_in(new) + filled(13))
    yield f'the file with settings of record 0 of 11.7, buffer of 26 bytes: {update_call(new, SET[1], buffer)}; the buffer is {hexes(buffer)}'
    assert bytes(buffer) == summary_in(file_of(SET, WITH))
    yield f'the same, record 0 of 11.2 in its place: {update_call(new, TWO[0], bytearray(summary_in(new) + filled(13)))}'


# ---- chapter 13

def of_one_pixel(crossing, y, u=0x60, v=0x70):
    return record_of(crossing, 1, 1, [bytes([y]), bytes([u]), bytes([v])])


def with_byte(record, at, value):
    return record[:at] + bytes([value]) + record[at + 1:]


# Of crossing 70000 there are two in ours and one in theirs, of 1400 one and two; 9 is in ours alone, 8 in theirs alone.
OURS = [of_one_pixel(70000, 0x50), TWO[0], of_one_pixel(9, 0x11), of_one_pixel(70000, 0x51), of_one_pixel(30, 0x22)]
THEIRS = [with_byte(TWO[0], 17, 0x42), of_one_pixel(8, 0x33), of_one_pixel(70000, 0x51), TWO[0], of_one_pixel(30, 0x22)]
# The same, but that the first of crossing 1400 is of 2 × 3, which has as many bytes of Y and of chroma.
SIZES = [THEIRS[0][:4] + low_first(2, 2) + low_first(3, 2) + TWO[0][8:]] + THEIRS[1:]


def moved(data):
    """The file moved forward (11.8)."""
    output = bytearray(len(data) + 4 + 4 * len(records_of(data)))
    assert forward_call(data, output) == (0, len(output))
    return bytes(output)


# Theirs moved forward, but that the pair of crossing 30 is of 1 × 1 in 4:2:2, which has the same planes.
SAMPLINGS = [forward(record) for record in THEIRS[:4]] + [with_byte(forward(THEIRS[4]), 8, 1)]


def crossings(records):
    return numbers(crossing_in(record) for record in records)


def first_line(first):
    if first is None:
        return 'none'
    crossing, i, j, difference = first
    if len(difference) == 2:
        said = ' and '.join(f'{w} × {h}, {CODES["sampling"][sampling]}, in {file}' for (w, h, sampling), file in zip(difference, ('ours', 'theirs')))
    else:
        said = '{}, row {}, column {}'.format('YUV'[difference[0]], *difference[1:])
    return f'crossing {crossing}, record {i} of ours, record {j} of theirs: {said}'


@example('13.1')
def _():
    for name, records in (('ours', OURS), ('theirs', THEIRS)):
        yield f'{name}, a file of {len(file_of(records))} bytes, its records in hexadecimal:'
        width = max(len(hexes(record)) for record in records)
        for k, record in enumerate(records):
            yield f'{hexes(record):<{width}}   record {k}: crossing {crossing_in(record)}'
    yield 'pairs, in order:'
    for i, j in pairs_of(OURS, THEIRS):
        yield f'crossing {crossing_in(OURS[i])}: record {i} of ours, record {j} of theirs'
    for said, ours, theirs in (('5 5 5', [5, 5, 5], [5, 5]), ('4294967295 0', [4294967295, 0], [0, 4294967295]), ('1 2', [1, 2], [3])):
        ours, theirs = [of_one_pixel(c, 0) for c in ours], [of_one_pixel(c, 0) for c in theirs]
        found = ', '.join(f'{i} and {j}' for i, j in pairs_of(ours, theirs)) or 'none'
        yield f'crossings {said} in ours, {crossings(theirs)} in theirs: pairs of records {found}'


@example('13.2')
def _():
    def line(said, ours, theirs, *forms):
        (equal, differing, only_ours, only_theirs), _ = report_of(ours, theirs, *forms)
        assert equal + differing + only_ours == len(ours) and equal + differing + only_theirs == len(theirs)
        return (f'{said}: {equal} equal, {differing} differ, {only_ours} only in ours, {only_theirs} only in theirs; '
                f'{equal} + {differing} + {only_ours} = {len(ours)}, {equal} + {differing} + {only_theirs} = {len(theirs)}')
    yield line('the files of 13.1', OURS, THEIRS)
    yield line('ours as both', OURS, OURS)
    yield line('ours, and its records in the opposite order as theirs', OURS, OURS[::-1])
    yield line('ours, and no records as theirs', OURS, [])
    yield line('no records in either', [], [])
    new = [forward(record) for record in OURS]
    yield line('ours, and ours moved forward as theirs', OURS, new, WITHOUT, WITH)
    yield line('the same, each range, matrix and transfer of theirs recorded as 1', OURS, [record[:9] + b'\1\1\1' + record[12:] for record in new], WITHOUT, WITH)
    yield line('the same, each sampling of theirs 4:2:2 where that has as many bytes', OURS, [with_byte(record, 8, 1) if record[6] == 1 else record for record in new], WITHOUT, WITH)


@example('13.3')
def _():
    def line(said, ours, theirs, *forms):
        return f'{said}: {first_line(report_of(ours, theirs, *forms)[1])}'
    yield line('the files of 13.1', OURS, THEIRS)
    yield line('the same, record 0 of theirs with w and h exchanged, so that it has as many bytes', OURS, SIZES)
    yield line('the same, record 4 of theirs with its last byte another', OURS, SIZES[:4] + [with_byte(SIZES[4], 10, 0)])
    yield 'record 0 of 11.2, of 3 × 2, as the one record of ours, and with one or more of its bytes another as that of theirs'
    for changed in ((8,), (10,), (11,), (13,), (14,), (15,), (16,), (17,), (17, 14), (16, 13), (12, 10)):
        other = TWO[0]
        for at in changed:
            other = with_byte(other, at, 0xff)
        yield line(('byte ' if len(changed) == 1 else 'bytes ') + ' and '.join(map(str, changed)), TWO[:1], [other])
    yield line('no byte', TWO[:1], TWO[:1])
    yield line('byte 0, which is of the crossing number', TWO[:1], [with_byte(TWO[0], 0, 0xff)])
    yield line('ours of 13.1, and theirs moved forward', OURS, [forward(record) for record in THEIRS], WITHOUT, WITH)
    yield line('the same, record 4 of theirs in 4:2:2, which has as many bytes', OURS, SAMPLINGS, WITHOUT, WITH)
    yield 'record 1 of 11.7, of 2 × 2 in 4:2:2, as the one record of ours, and with one byte another as that of theirs'
    for at in (9, 10, 11, 12, 15, 16, 17, 18, 19):
        said = ', which is of the settings' if at < 12 else ''
        yield line(f'byte {at}{said}', SET[1:], [with_byte(SET[1], at, 0xff)], WITH, WITH)
    other = record_of(70000, 2, 2, [b'\x50\x51\x52\x53', b'\x60', b'\x70'], bytes([0, 1, 6, 3]))
    yield line('in 4:2:0, with as many rows of Y', SET[1:], [other], WITH, WITH)


@example('13.4')
def _():
    def line(said, ours, theirs):
        number, broken, report = pair_call(ours, theirs)
        return f'{said}: {number}, ' + (('neither', 'ours', 'theirs')[broken] + ' is no file' if number else f'{numbers(report[0])}; {first_line(report[1])}')
    ours, theirs = file_of(OURS), file_of(THEIRS)
    yield 'the four counts in the order of 13.2; then the first difference'
    yield line('the files of 13.1', ours, theirs)
    yield line('the same, exchanged', theirs, ours)
    yield line('the same bytes as both', ours, ours)
    yield line('ours without its last byte', ours[:-1], theirs)
    yield line('theirs without its last byte', ours, theirs[:-1])
    yield line('both without their last bytes', ours[:-1], theirs[:-1])
    yield line('no bytes as ours, a file without records as theirs', b'', file_of([]))
    yield line('a file without records as ours, no bytes as theirs', file_of([]), b'')
    yield line('a file without records as both', file_of([]), file_of([]))
    yield line('a file without records, without settings and with settings', file_of([]), file_of([], WITH))
    yield line('the files of 13.1, ours moved forward', moved(ours), theirs)
    yield line('the files of 13.1, both moved forward', moved(ours), moved(theirs))
    yield line('ours moved forward, without its last byte', moved(ours)[:-1], theirs)


# ---- chapter 14

# the planes of two pictures of 3 × 2 in 4:2:0; in the second bytes that a line may have too
PLANES = [[bytes([0x10, 0x11, 0x12, 0x20, 0x21, 0x22]), bytes([0x30, 0x31]), bytes([0x40, 0x41])],
          [b'\nFRAME', b'\n\n', b'  ']]
PICTURES = [b''.join(planes) for planes in PLANES]
Y4M_TWO = written_header(3, 2, 0) + y4m_line(PICTURE_WORD) + PICTURES[0] + y4m_line(PICTURE_WORD, b'Ip', b'W9') + PICTURES[1]
WRITTEN_TEXT = ('bytes in hexadecimal, or in text, where a byte below 32 or above 126 stands as its two hexadecimal digits in < >: <0A> is a newline; '
                'a space stands as it is')


def in_text(data):
    return ''.join(chr(byte) if 32 <= byte <= 126 else f'<{byte:02X}>' for byte in data) or 'no bytes'


def header_text(data):
    found = header_in(data)
    return 'no header' if found is None else f'w {found[0]}, h {found[1]}, {CODES["sampling"][found[2]]}'


@example('14.1')
def _():
    yield WRITTEN_TEXT
    for data in (b'FRAME\n', b'FRAME Ip\n', y4m_line(HEADER_WORD, b'W4', b'H2', b'F25:1', b'Ip', b'C420jpeg')):
        yield f'{in_text(data)} is {hexes(data)}'

    def line(data, said):
        word = next((word for word in (HEADER_WORD, PICTURE_WORD) if tags_of(data, word) is not None), None)
        if word is None:
            return f'{said}: no line'
        tags = tags_of(data, word)
        listed = ', '.join(in_text(tag) for tag in tags) if sum(map(len, tags)) < 40 else 'one'
        return f'{said}: a line of {word.decode()}, ' + (f'tags: {listed}' if tags else 'no tags')
    for data in (b'FRAME\n', b'YUV4MPEG2\n', b'FRAME Ip\n', b'FRAME Ip Ip XA=1 :\n', b'FRAME X\r\n', b'FRAME \x00\t\xff\n', b'FRAME FRAME\n',
                 b'FRAME YUV4MPEG2\n', b'YUV4MPEG2 FRAME\n',
                 b'FRAME  Ip\n', b'FRAME Ip  Ip\n', b'FRAME Ip \n', b'FRAME \n', b' FRAME\n', b'FRAME\r\n', b'FRAME\tIp\n', b'frame\n', b'FRAMES\n',
                 b'FRAM\n', b'YUV4MPEG\n', b'YUV4MPEG21\n',
                 b'FRAME', b'FRAME Ip', b'\n', b'', b'FRAME\n\n', b'FRAME Ip\nIp\n'):
        yield line(data, in_text(data))
    for count in (249, 250):
        data = y4m_line(PICTURE_WORD, b'X' * count)
        yield line(data, f'FRAME, a space, {count} times X, <0A>, {len(data)} bytes')


@example('14.2')
def _():
    yield 'in text as in 14.1'

    def line(text):
        return f'{in_text(text)}: {header_text(text)}'
    for tags in (b'W4 H2 F25:1 Ip C420jpeg', b'W4 H2', b'H2 W4', b'C422 XW5 H2 A1:1 W4', b'W4 H2 C420', b'W4 H2 C420mpeg2', b'W4 H2 C422',
                 b'W1 H16384', b'W4 H2 F25:1 F30:1 F F', b'W4 H2 w5 h6 c444',
                 b'W4 H2 X\r', b'W4 H2 \x00', b'W4 H2 W', b'W4 H2 H2', b'W4 W4 H2', b'W4', b'H2', b'', b'W H2', b'W04 H2', b'W0 H2', b'W+4 H2',
                 b'W-4 H2', b'W4. H2', b'W0x4 H2', b'W4a H2',
                 b'W4\r H2', b'W4 H2\r', b'W16385 H2', b'W65540 H2', b'W4294967300 H2', b'W18446744073709551620 H2', b'Wide4 W4 H2', b'W4 H2 Hello',
                 b'W4 H2 C', b'W4 H2 C420 C420', b'W4 H2 C420 Cx',
                 b'W4 H2 C420paldv', b'W4 H2 C420jpe', b'W4 H2 C420jpegs', b'W4 H2 C420p10', b'W4 H2 C422p10', b'W4 H2 C444', b'W4 H2 C411',
                 b'W4 H2 Cmono', b'W4 H2 c420 C422', b'W4 H2 C0420',
                 b'W4 H2 C420\r', b'W4 H2 X C422', b'W4,H2', b'W4\tH2'):
        yield line(y4m_line(HEADER_WORD, *(tags.split(b' ') if tags else [])))
    for data in (b'YUV4MPEG2 W4  H2\n', b'YUV4MPEG2 W4 H2 \n', b'FRAME W4 H2\n'):
        yield line(data)
    side = 10 ** 240
    data = y4m_line(HEADER_WORD, b'W%d' % side, b'H2')
    yield (f'W, 1 and 240 times 0, H2, {len(data)} bytes: {header_text(data)}; the number has {len(str(side))} digits, '
           f'the largest of so many {(10 * side - 1).bit_length()} bits')
    data = y4m_line(HEADER_WORD, b'W4', b'H2', b'X' * 239)
    yield f'W4, H2, 239 times X, {len(data)} bytes: {header_text(data)}'
    data = y4m_line(HEADER_WORD, b'W4', b'H2', b'X' * 240)
    yield f'W4, H2, 240 times X, {len(data)} bytes: {header_text(data)}'


@example('14.3')
def _():
    yield f'a file of two pictures, {len(Y4M_TWO)} bytes in hexadecimal, its lines also in text as in 14.1:'
    lines = [(written_header(3, 2, 0), None)]
    for tags, planes in zip(([], [b'Ip', b'W9']), PLANES):
        lines += [(y4m_line(PICTURE_WORD, *tags), None)] + list(zip(planes, 'YUV'))
    assert b''.join(part for part, _ in lines) == Y4M_TWO
    for part, said in lines:
        yield f'{hexes(part)}   {said or in_text(part)}'
    yield 'no pictures: the header alone, here 34 bytes'
    for w, h, sampling in ((1, 1, 0), (1, 1, 1), (3, 2, 0), (3, 2, 1), (3, 3, 0), (3, 3, 1), (1920, 1080, 0), (16384, 16384, 0), (16384, 16384, 1)):
        y, u, v = plane_sizes(w, h, sampling)
        bits_said = f', of {(y + u + v).bit_length()} bits' if w == 16384 else ''
        yield f'{w} × {h}, {CODES["sampling"][sampling]}: {y} + {u} + {v} = {y + u + v} bytes of planes{bits_said}'


def broken(data):
    return '19' if y4m_in(data) is None else 'not 19'


@example('14.4')
def _():
    header, first = written_header(3, 2, 0), y4m_line(PICTURE_WORD) + PICTURES[0]
    second = Y4M_TWO[len(header) + len(first):]
    yield f'the file of 14.3, {len(Y4M_TWO)} bytes, with one thing changed; bytes in hexadecimal, or in text as in 14.1'

    def with_header(line):
        return line + first + second

    def with_frame(line):
        return header + line + PICTURES[0] + second
    for said, given in (
            ('nothing', Y4M_TWO), ('no last byte', Y4M_TWO[:-1]), ('a byte 00 behind', Y4M_TWO + b'\0'), ('a newline behind', Y4M_TWO + b'\n'),
                        ('FRAME<0A> behind', Y4M_TWO + b'FRAME\n'),
            ('FRAME<0A> and 9 bytes behind', Y4M_TWO + b'FRAME\n' + bytes(9)), ('FRAME<0A> and 10 bytes behind', Y4M_TWO + b'FRAME\n' + bytes(10)),
            ('its first picture alone', header + first), ('its second picture alone', header + second),
                        ('the second picture before the first', header + second + first),
            ('no pictures', header), ('no header', first + second), ('the header twice', header + Y4M_TWO),
                        ('a newline before the header', b'\n' + Y4M_TWO),
            ('a newline behind the header', with_header(header + b'\n')), ('a newline behind the first picture', header + first + b'\n' + second),
            ('the line of the first picture left out', header + PICTURES[0] + second), ('a byte of the first Y left out',
                                                                                        header + first[:6] + first[7:] + second),
            ('the last byte of the first V left out', header + first[:-1] + second), ('a byte behind the first V', header + first + b'\0' + second),
            ('the first byte of the first Y 0A', with_byte(Y4M_TWO, 40, 10)), ('the last byte 0A', with_byte(Y4M_TWO, len(Y4M_TWO) - 1, 10)),
            ('each byte of a plane 0A', header + y4m_line(PICTURE_WORD) + b'\n' * 10 + y4m_line(PICTURE_WORD) + b'\n' * 10)):
        yield f'{said}: {broken(given)}'
    yield 'with another line for the header'
    for line in (b'YUV4MPEG2 W3 H2\n', b'YUV4MPEG2 H2 W3\n', b'YUV4MPEG2 H2 W3 C420mpeg2\n', b'YUV4MPEG2 W2 H3\n', b'YUV4MPEG2 W4 H2\n',
                 b'YUV4MPEG2 W3 H2 C422\n', b'YUV4MPEG2 W10 H1\n', b'YUV4MPEG2 W3 H2 C420jpeg\r\n',
                 b'YUV4MPEG2 W3 H2 C420jpeg X\r\n', b'YUV4MPEG W3 H2\n', b'FRAME\n'):
        yield f'{in_text(line)}: {broken(with_header(line))}'
    yield 'with another line for the first FRAME'
    for line in (b'FRAME Ip\n', b'FRAME X=1 X=1\n', b'FRAME W4\n', b'FRAME W\n', b'FRAME W4 W5 H0 C444\n', b'FRAME X\r\n', b'FRAME \n',
                 b'FRAME  Ip\n', b'FRAME Ip \n', b'FRAME\r\n', b'FRAMEIp\n', b'FRAME\tIp\n',
                 b'frame\n', b'FRAME', b'\n', b' FRAME\n', b'FRAME\n\n', b'YUV4MPEG2 W3 H2\n'):
        yield f'{in_text(line)}: {broken(with_frame(line))}'
    long = with_frame(b'FRAME Ip')
    assert len(y4m_in(long).pictures) == 1
    yield 'FRAME Ip and no newline, so that the line ends with the newline of the next one, and there is one picture: ' + broken(long)
    for count in (249, 250):
        line = y4m_line(PICTURE_WORD, b'X' * count)
        yield f'FRAME, a space, {count} times X, <0A>, {len(line)} bytes: {broken(with_frame(line))}'
    yield 'other bytes'
    for given in (b'', b'\n', b'YUV4MPEG2', b'YUV4MPEG2\n', b'YUV4MPEG2 W3 H2', b'YUV4MPEG2 W3 H2\n', b'YUV4MPEG2 W1 H1\nFRAME\n123',
                  b'YUV4MPEG2 W1 H1\nFRAME\n12', b'YUV4MPEG2 W1 H1\nFRAME\n1234',
                  b'YUV4MPEG2 W1 H1\nFRAME\n123FRAME\n456', b'YUV4MPEG2 W1 H1\nFRAME\n123FRAME', b'YUV4MPEG2 W1 H1\nFRAME\n123\nFRAME\n456',
                  b'YUV4MPEG2 W16384 H16384\nFRAME\n',
                  b'YUV4MPEG2 W16385 H1\n', b'YUV4MPEG2 W1 H1 C422\nFRAME\n123', b'yuv4mpeg2 W1 H1\n'):
        yield f'{in_text(given)}: {broken(given)}'


def count_pictures(count):
    return '1 picture' if count == 1 else f'{count} pictures'


@example('14.5')
def _():
    def line(said, data, first, room):
        number, (w, h, sampling, count), entries = y4m_read_call(data, first, room)
        what = f'{w} × {h}, {CODES["sampling"][sampling]}' if number == 0 else 'w 0, h 0'
        return f'{said}, first {first}, room for {room}: {number}, {what}, {count_pictures(count)}, {count_of(entries)}', entries
    said, entries = line('the file of 14.3', Y4M_TWO, 0, 2)
    yield said
    for entry in entries:
        yield '  ' + numbers(entry)
    for first, room in ((0, 1), (1, 5), (2, 5), (18446744073709551615, 5), (0, 0)):
        said, entries = line('the same', Y4M_TWO, first, room)
        yield said + ''.join(f': {numbers(entry)}' for entry in entries)
    said, entries = line('YUV4MPEG2 C422 H2 W3<0A>FRAME<0A> and 14 bytes', b'YUV4MPEG2 C422 H2 W3\nFRAME\n' + bytes(14), 0, 2)
    yield said + f': {numbers(entries[0])}'
    yield line('YUV4MPEG2 W3 H2<0A>', b'YUV4MPEG2 W3 H2\n', 0, 2)[0]
    yield line('the file of 14.3 with a byte behind', Y4M_TWO + b'\0', 0, 2)[0]
    yield line('no bytes', b'', 0, 2)[0]
    y, u, v = plane_sizes(16384, 16384, 0)
    start = len(written_header(16384, 16384, 0))
    size = 6 + y + u + v
    last = start + 11 * size + 6
    yield f'12 pictures of 16384 × 16384 in 4:2:0, as 14.6 writes them: Y of the last starts at byte {start} + 11 × {size} + 6 = {last}'


@example('14.6')
def _():
    yield 'bytes in hexadecimal, or in text as in 14.1; numbers: w, h and that for the sampling; all bytes of the output EE before'
    for w, h, sampling in ((4, 2, 0), (4, 2, 1), (1, 1, 1), (16384, 16384, 0)):
        data = written_header(w, h, sampling)
        yield f'{w} × {h}, {CODES["sampling"][sampling]}: the header is {in_text(data)}, {len(data)} bytes'
    one = PICTURES[0]
    output = filled(52)
    number, size = y4m_write_call(3, 2, 0, one, output)
    yield f'3 2 0, pictures {hexes(one)}, output of 52 bytes: {number}, size {size}; the output is'
    for at, end in ((0, 34), (34, 40), (40, 50), (50, 52)):
        yield f'  {hexes(output[at:end])}'
    both, output = b''.join(PICTURES), filled(66)
    number, size = y4m_write_call(3, 2, 0, both, output)
    found = y4m_in(bytes(output))
    assert b''.join(bytes(output)[entry[0]:entry[0] + 10] for _, entry in found.pictures) == both
    yield (f'3 2 0, the planes of both pictures of 14.3, output of 66 bytes: {number}, size {size}; reading the output: w {found.w}, h {found.h}, '
           f'{CODES["sampling"][found.sampling]}, planes')
    for _, (y, y_length, u, u_length, v, v_length) in found.pictures:
        yield f'  {plane_text([bytes(output)[at:at + length] for at, length in ((y, y_length), (u, u_length), (v, v_length))])}'
    for said, given, length, room in (
            ('10 bytes', (3, 2, 0), 10, 50), ('10 bytes', (3, 2, 0), 10, 49), ('10 bytes', (3, 2, 0), 10, 0), ('no bytes', (3, 2, 0), 0, 36),
                                      ('no bytes', (3, 2, 0), 0, 33), ('9 bytes', (3, 2, 0), 9, 0),
            ('11 bytes', (3, 2, 0), 11, 100), ('10 bytes', (3, 2, 1), 10, 100), ('14 bytes', (3, 2, 1), 14, 50), ('14 bytes', (3, 2, 1), 14, 49),
                                      ('3 bytes', (1, 1, 1), 3, 39),
            ('no bytes', (3, 2, 2), 0, 100), ('no bytes', (3, 2, 4294967295), 0, 100), ('no bytes', (0, 2, 0), 0, 100),
                                      ('no bytes', (3, 0, 0), 0, 100), ('no bytes', (16384, 1, 0), 0, 100),
            ('no bytes', (16385, 1, 0), 0, 100), ('no bytes', (1, 4294967295, 0), 0, 0)):
        number, size = y4m_write_call(*given, bytes(length), filled(room))
        yield f'{numbers(given)}, {said}, output of {room} bytes: {number}, size {size}'
    output = filled(36)
    y4m_write_call(3, 2, 0, b'', output)
    yield f'3 2 0, no bytes, output of 36 bytes: the output is {in_text(output)}'
    for length in (6148914691236517191, 6148914691236517194):
        size = written_size(1, 1, 0, length)
        yield (f'1 1 0, {length} bytes, a file of {size} bytes, which has {size.bit_length()} bits: 16 in any output that is shorter, '
               f'size {size if size < 2 ** 64 else 0}')


@example('14.7')
def _():
    yield ('w 3, h 2: cw 2, ch 1 in 4:2:0 and 2 in 4:2:2; numbers: w, h, that for the sampling, strides of Y, U and V; '
           'bytes in hexadecimal, all of the output EE before')
    planes = [bytes([0x10, 0x11, 0x12, 0x99, 0x20, 0x21, 0x22, 0x99]), bytes([0x30, 0x31, 0x99]), bytes([0x40, 0x41])]
    output = filled(18)
    number, size = y4m_picture_call(3, 2, 0, (4, 3, 2), planes, output)
    assert bytes(output[:16]) == y4m_line(PICTURE_WORD) + PICTURES[0]
    yield f'3 2 0 4 3 2, {plane_text(planes)}, output of 18 bytes: {number}, size {size}; the output is'
    yield f'  {hexes(output)}'
    file, grown = filled(34), filled(50)
    y4m_write_call(3, 2, 0, b'', file)
    y4m_write_call(3, 2, 0, PICTURES[0], grown)
    assert grown == file + output[:16]
    yield 'the file of no pictures of 3 2 0 by 14.6 with these 16 bytes behind it: the file by 14.6 of the planes of the first picture of 14.3'
    planes = [bytes([0x10, 0x11, 0x12, 0x20, 0x21, 0x22]), bytes([0x30, 0x31, 0x99, 0x32, 0x33, 0x99]), bytes([0x40, 0x41, 0x42, 0x43])]
    output = filled(20)
    number, size = y4m_picture_call(3, 2, 1, (3, 3, 2), planes, output)
    yield f'3 2 1 3 3 2, {plane_text(planes)}, output of 20 bytes: {number}, size {size}; the output is'
    yield f'  {hexes(output)}'
    for said, given, lengths, room in (
            ('an output one byte too short', (3, 2, 0, 4, 3, 2), (8, 3, 2), 15), ('no output', (3, 2, 0, 4, 3, 2), (8, 3, 2), 0),
                                       ('Y stride below w', (3, 2, 0, 2, 3, 2), (4, 3, 2), 16),
            ('U stride below cw', (3, 2, 0, 4, 1, 2), (8, 1, 2), 16), ('V stride below cw', (3, 2, 0, 4, 3, 1), (8, 3, 1), 16),
                                       ('Y without its last padding', (3, 2, 0, 4, 3, 2), (7, 3, 2), 16),
            ('Y a byte longer', (3, 2, 0, 4, 3, 2), (9, 3, 2), 16), ('Y a row longer', (3, 2, 0, 4, 3, 2), (12, 3, 2), 16),
                                       ('U without its padding', (3, 2, 0, 4, 3, 2), (8, 2, 2), 16),
            ('V a byte longer', (3, 2, 0, 4, 3, 2), (8, 3, 3), 16), ('V empty', (3, 2, 0, 4, 3, 2), (8, 3, 0), 16),
                                       ('planes of 4:2:0 for 4:2:2', (3, 2, 1, 4, 3, 2), (8, 3, 2), 20),
            ('planes of 4:2:2 for 4:2:0', (3, 2, 0, 4, 3, 2), (8, 6, 4), 20), ('planes of both, h 1', (3, 1, 0, 3, 2, 2), (3, 2, 2), 13),
                                       ('the same', (3, 1, 1, 3, 2, 2), (3, 2, 2), 13),
            ('an unknown sampling', (3, 2, 2, 4, 3, 2), (8, 3, 2), 16), ('w 0, and all else 0 too', (0, 0, 0, 0, 0, 0), (0, 0, 0), 0),
                                       ('w 16385', (16385, 1, 0, 16385, 8193, 8193), (16385, 8193, 8193), 0),
            ('strides of 2 ^ 32 − 1', (1, 1, 0, 4294967295, 4294967295, 4294967295), (1, 1, 1), 9), ('short output and a stride below w',
                                                                                                     (3, 2, 0, 2, 3, 2), (4, 3, 2), 0)):
        number, size = y4m_picture_call(*given[:3], given[3:], [bytes(count) for count in lengths], filled(room))
        yield f'{said}, {numbers(given)}, lengths {numbers(lengths)}, output of {room} bytes: {number}, size {size}'


# ---- chapter 15

FULL = Settings(range_='Full')


def pixel_frame(k, place, s=FULL, stride=3):
    """A frame of one pixel, the k-th of a source of three bytes a pixel; its planes stand at byte `place` of each buffer."""
    return ConvoyFrame((s, 1, 1, (1, 1, 1), None), stride, [Part(3 * k, 3)] + [Part(place, 1)] * 3)


def with_part(frame, plane, *part):
    parts = list(frame.parts)
    parts[plane] = Part(*part)
    return frame._replace(parts=parts)


@example('15.1')
def _():
    yield 'a part as its offset and its length'
    for part in (Part(3, 2), Part(3, 1), Part(3, 0)):
        yield f'{numbers(part)}: bytes ' + (', '.join(map(str, bytes_of(part))) or 'none')
    for n, part in ((8, (0, 8)), (8, (3, 5)), (8, (3, 6)), (8, (7, 1)), (8, (8, 0)), (8, (8, 1)), (8, (9, 0)), (0, (0, 0)), (0, (0, 1)), (0, (1, 0)),
                    (8, (18446744073709551615, 2)), (8, (18446744073709551608, 16)), (8, (4, 18446744073709551612))):
        part = Part(*part)
        inside = 'inside' if is_inside(part, n) else 'not inside'
        yield f'{numbers(part)} in a buffer of {n} bytes: offset + length {part.offset + part.length}, {inside}'
    for a, b in (((0, 4), (4, 4)), ((4, 4), (0, 4)), ((0, 5), (4, 4)), ((4, 4), (0, 5)), ((3, 2), (3, 2)), ((0, 8), (3, 1)), ((3, 1), (0, 8)),
                 ((3, 0), (0, 8)), ((0, 8), (8, 0)), ((3, 0), (3, 0)), ((3, 0), (3, 1)), ((0, 18446744073709551615), (18446744073709551614, 1))):
        shared = shared_bytes(Part(*a), Part(*b))
        said = f'byte {shared[0]} is' if len(shared) == 1 else f'bytes {shared[0]} to {shared[-1]} are' if shared else ''
        yield f'{numbers(a)} and {numbers(b)}: ' + (f'overlap, {said} of both' if shared else 'do not overlap')
    buffer, part = bytearray(range(0x10, 0x18)), Part(3, 2)
    yield f'{numbers(part)} of {hexes(buffer)}, in hexadecimal: {hexes(cut(part, buffer))}'
    buffer[3:5] = b'\xaa\xbb'
    yield f'that replaced by AA BB: {hexes(buffer)}'


@example('15.2')
def _():
    yield 'source of 9 bytes, Y, U and V of 8; two frames, of each a part of the source, of Y, U and V, as offset and length'
    one, two = pixel_frame(0, 2), pixel_frame(1, 3)

    def line(said, *frames):
        return f'{said}: ' + ('18' if is_broken(frames, (9, 8, 8, 8)) else 'not 18')

    yield line(f'{parts_text(one.parts)} and {parts_text(two.parts)}', one, two)
    yield line('the same, exchanged', two, one)
    names = ('source', 'Y', 'U', 'V')
    for name, *part in (('Y', 2, 1), ('U', 2, 1), ('V', 2, 1), ('Y', 0, 8), ('Y', 0, 2), ('Y', 0, 3), ('Y', 2, 0), ('Y', 7, 1), ('Y', 7, 2),
                        ('Y', 8, 0), ('Y', 9, 0), ('U', 8, 1), ('V', 18446744073709551615, 2), ('source', 0, 3), ('source', 0, 9),
                        ('source', 7, 3), ('source', 10, 0)):
        yield line(f'the second with {name} {numbers(part)}', one, with_part(two, names.index(name), *part))
    yield line('the second with codes without a meaning', one, two._replace(by=None))
    yield line('the second with codes without a meaning, and Y 2 1', one, with_part(two, 1, 2, 1)._replace(by=None))
    yield line('the first alone', one)
    yield line('no frames')
    none = ConvoyFrame(None, 0, [Part(0, 0)] * 4)
    yield line('64 frames, all parts 0 0', *[none] * 64)
    yield line('65 frames, all parts 0 0', *[none] * 65)


THREE_PIXELS = bytes([255, 0, 0, 0, 255, 0, 255, 255, 255])


def convoy_line(said, *frames):
    planes = [filled(3) for _ in range(3)]
    answer, done = convoy_call(frames, THREE_PIXELS, planes)
    return f'{answer_line(said, answer)}, done {done}; {plane_text(planes)}'


@example('15.3')
def _():
    yield f'source {numbers(THREE_PIXELS)}: red, green, white; Y, U and V of 3 bytes, EE before; after the call, in hexadecimal'
    yield 'each frame 1 × 1, Rgb, 4:2:0, Full, Bt601, Srgb, stride 3, plane strides 1; frame k has pixel k, and byte 2 − k of each plane'
    frames = [pixel_frame(k, 2 - k) for k in range(3)]
    yield convoy_line('all three', *frames)
    yield convoy_line('the first two', *frames[:2])
    yield convoy_line('no frames')
    yield convoy_line('the three with pixel 0 each', *(frame._replace(parts=frames[0].parts[:1] + frame.parts[1:]) for frame in frames))
    for place in range(3):
        changed = [frame._replace(stride=2) if k == place else frame for k, frame in enumerate(frames)]
        yield convoy_line(f'all three, the stride of frame {place} 2', *changed)
    yield convoy_line('all three, frame 1 with codes without a meaning', frames[0], frames[1]._replace(by=None), frames[2])
    s = Settings(matrix='Custom', kr=1.0, kb=0.0)
    yield convoy_line('all three, frame 1 with Custom, kr 1, frame 2 with codes without a meaning', frames[0], pixel_frame(1, 1, s),
                      frames[2]._replace(by=None))
    yield convoy_line('all three, frame 1 with the part 1 0 of U', frames[0], with_part(frames[1], 2, 1, 0), frames[2])
    yield convoy_line('all three, frame 2 with the part 1 1 of Y, which is that of frame 1', *frames[:2], with_part(frames[2], 1, 1, 1))
    yield convoy_line('the same, frame 0 with codes without a meaning', frames[0]._replace(by=None), frames[1], with_part(frames[2], 1, 1, 1))
    yield convoy_line('the same, frame 2 with the part 3 1 of Y', frames[0]._replace(by=None), frames[1], with_part(frames[2], 1, 3, 1))


@example('15.4')
def _():
    yield 'a source of 3 × 2 pixels, Rgb, without padding: row 0 red, green, blue; row 1 white, black, 9 120 60'
    source = bytes([255, 0, 0, 0, 255, 0, 0, 0, 255, 255, 255, 255, 0, 0, 0, 9, 120, 60])
    buffers_ = [filled(8), filled(4), filled(4)]
    frames = [
        ConvoyFrame((Settings(sampling='4:2:2', range_='Full'), 1, 2, (2, 1, 1), Window(1, 0, 3, 2)), 9,
                    [Part(0, 18), Part(1, 4), Part(0, 2), Part(2, 2)]),
        ConvoyFrame((Settings(matrix='Bt709'), 2, 1, (2, 1, 1), None), 6, [Part(9, 6), Part(5, 2), Part(3, 1), Part(1, 1)]),
        ConvoyFrame((Settings(), 1, 1, (1, 1, 1), None), 3, [Part(15, 3), Part(0, 1), Part(2, 1), Part(0, 2)])]
    yield 'frame 0: 4:2:2, Full, Bt601, 1 × 2, left 1, top 0, W 3, H 2, stride 9, plane strides 2 1 1; parts source 0 18, Y 1 4, U 0 2, V 2 2'
    yield 'frame 1: 4:2:0, Limited, Bt709, 2 × 1, stride 6, plane strides 2 1 1; parts source 9 6, Y 5 2, U 3 1, V 1 1'
    yield 'frame 2: 4:2:0, Limited, Bt601, 1 × 1, stride 3, plane strides 1; parts source 15 3, Y 0 1, U 2 1, V 0 2, which overlaps that of frame 1'
    yield 'Y of 8 bytes, U and V of 4, EE before; after a call, in hexadecimal'

    def line(said, *given):
        planes = [bytearray(plane) for plane in buffers_]
        answer, done = convoy_call(given, source, planes)
        return planes, f'{answer_line(said, answer)}, done {done}; {plane_text(planes)}'
    yield line('frames 0, 1, 2', *frames)[1]
    frames[2] = with_part(frames[2], 3, 0, 1)
    yield line('frames 0, 1, 2, the last with the part 0 1 of V', *frames)[1]
    frames[2] = frames[2]._replace(stride=2)
    after, text = line('the same, the last with stride 2', *frames)
    yield text
    alone = []
    for k in range(3):
        planes, text = line(f'frame {k} alone', frames[k])
        alone.append(planes)
        yield text
    for k in (0, 1):
        for plane in range(3):
            assert cut(frames[k].parts[plane + 1], after[plane]) == cut(frames[k].parts[plane + 1], alone[k][plane])
    yield line('frame 1, then frame 0', frames[1], frames[0])[1]


# ---- chapter 16

DESK_LENGTHS = (12, 4, 4, 12)
TALL = (FULL, 2, 3, (2, 1, 1), None)  # the frame of 8.7


def tall_parts(place):
    """Parts for the frame of 8.7; those of the next place begin where these end."""
    return [Part(6 * place, 6), Part(2 * place, 2), Part(2 * place, 2), Part(6 * place, 6)]


def desk_text(desk):
    stands = [f'{camera} has {frame.done} of {frame.by[2]} rows' + (f' and a band of {band.rows}' if band else '')
              for camera, (frame, band) in enumerate(desk.places) if frame]
    return ', '.join([*stands, 'no frame'][:len(stands) or 1]) + f'; first {desk.first}'


def accepted_open(desk, camera, by, parts, lengths=DESK_LENGTHS):
    answer, desk = desk_open(desk, camera, by, parts, lengths)
    assert answer == (0, 0, 0)
    return desk


def accepted_offer(desk, camera, rows, stride, part, length=2 ** 64 - 1):
    answer, desk = desk_offer(desk, camera, WaitingBand(rows, stride, Part(*part)), length)
    assert answer == (0, 0, 0)
    return desk


@example('16.1')
def _():
    yield f'a fresh desk: {desk_text(FRESH)}'
    desk = accepted_open(FRESH, 31, TALL, tall_parts(0))
    yield f'the same after an opening of camera 31 (16.2): {desk_text(desk)}'
    desk = accepted_open(desk, 5, TALL, tall_parts(1))
    yield f'and one of camera 5: {desk_text(desk)}'
    desk = accepted_offer(desk, 31, 2, 6, (0, 12), 18)
    yield f'and an offer of camera 31 (16.3): {desk_text(desk)}'
    yield f'and a step (16.4): {desk_text(desk_step(desk, bytes(18), [filled(n) for n in DESK_LENGTHS])[2])}'
    parts, strides = tall_parts(1), TALL[3]
    yield f'camera 5 has parts {parts_text(parts)} of Y, U, V and carried rows, and plane strides {numbers(strides)}'
    for plane, r, x in ((0, 2, 1), (2, 1, 0)):
        name, at, stride = 'YUV'[plane], parts[plane].offset, strides[plane]
        yield f'  byte {x} of row {r} of its {name} is byte {at} + {r} × {stride} + {x} = {at + r * stride + x} of the buffer of {name}'
    yield f'  its carried row is bytes {bytes_of(parts[3])[0]} to {bytes_of(parts[3])[-1]} of the buffer of carried rows'
    yield ', '.join(f'{first} modulo 32 is {first % 32}' for first in (31, 32, 65, 4294967295))


@example('16.2')
def _():
    yield '2 × 3, Rgb, 4:2:0, plane strides 2 1 1; lengths of the buffers of Y, U, V and carried rows 12 4 4 12; parts of these, as offset and length'
    desk = accepted_open(FRESH, 3, TALL, tall_parts(0))
    yield f'a fresh desk, camera 3, parts {parts_text(tall_parts(0))}: 0; {desk_text(desk)}'
    yield 'the desk that this leaves, and other openings, each by itself'

    def line(said, camera=7, by=TALL, parts=tall_parts(1), lengths=DESK_LENGTHS, **changed):
        parts = [Part(*changed.get(name, part)) for name, part in zip(('y', 'u', 'v', 'carried'), parts)]
        answer, after = desk_open(desk, camera, by, parts, lengths)
        assert answer[1:] == (0, 0) and (after == desk) == (answer[0] > 0)
        return f'{said}: {answer[0]}' + ('' if answer[0] else f'; {desk_text(after)}')
    yield line(f'camera 7, parts {parts_text(tall_parts(1))}, which touch those of camera 3')
    yield line('camera 31, the same', camera=31)
    yield line('camera 32, the same', camera=32)
    yield line('camera 4294967295, the same', camera=2 ** 32 - 1)
    yield line('camera 3, the same', camera=3)
    yield 'camera 7 with the same, but'
    for name, key, *some in (('Y', 'y', (5, 6), (0, 1), (6, 7), (12, 0), (13, 0), (3, 0), (2 ** 64 - 1, 2)), ('U', 'u', (1, 2), (0, 4), (3, 1)),
                             ('V', 'v', (1, 1), (3, 2)), ('carried rows', 'carried', (5, 1), (0, 12), (8, 4), (8, 5), (2 ** 64 - 8, 16))):
        for part in some:
            yield line(f'{name} {numbers(part)}', **{key: part})
    yield line('a length of Y of 11', lengths=(11, 4, 4, 12))
    yield line('a length of the carried rows of 11', lengths=(12, 4, 4, 11))
    yield line('lengths of 18446744073709551615', lengths=(2 ** 64 - 1,) * 4)
    custom = Settings(range_='Full', matrix='Custom', kr=1.0, kb=0.0)
    for said, by in (('w 0', (FULL, 0, *TALL[2:])), ('h 16385', (FULL, 2, 16385, *TALL[3:])), ('Custom, kr 1, kb 0', (custom, *TALL[1:])),
                     ('left 1, top 0, W 2, H 3', (*TALL[:4], Window(1, 0, 2, 3))), ('plane strides 0 0 0', (FULL, 2, 3, (0, 0, 0), None)),
                     ('codes without a meaning', None)):
        yield line(said, by=by)
    yield line('codes without a meaning, and Y 5 6', by=None, y=(5, 6))
    yield line('w 0, and Y 5 6', by=(FULL, 0, *TALL[2:]), y=(5, 6))
    yield 'several at once, and other desks'
    yield line('camera 3, w 0, Y 13 0', camera=3, by=(FULL, 0, *TALL[2:]), y=(13, 0))
    yield line('camera 32, w 0, Y 13 0', camera=32, by=(FULL, 0, *TALL[2:]), y=(13, 0))
    desk = accepted_offer(desk, 3, 3, 6, (0, 18), 18)
    yield line('camera 3 with a band that waits: camera 3', camera=3)
    yield line('camera 3 with a band that waits: camera 7, Y 5 6', y=(5, 6))
    desk = desk_step(desk, small_source(0, 3), [filled(n) for n in DESK_LENGTHS])[2]
    yield line('the same after a step that does all its rows: camera 7, Y 5 6', y=(5, 6))
    desk = accepted_open(FRESH, 31, TALL, tall_parts(0))
    yield line('camera 31 with that frame in place of camera 3: camera 3, carried rows 5 6', camera=3, carried=(5, 6))


@example('16.3')
def _():
    yield 'camera 3 has a frame of 2 × 3, no other has one; the source buffer has 18 bytes; m and stride, and a part of it as offset and length'
    desk = accepted_open(FRESH, 3, TALL, tall_parts(0))

    def line(said, desk, camera, *given, length=18):
        band = WaitingBand(*given[:2], Part(*given[2:]))
        answer, after = desk_offer(desk, camera, band, length)
        assert answer[1:] == (0, 0) and (after == desk) == (answer[0] > 0)
        return f'{said}: {answer[0]}' + ('' if answer[0] else f'; {desk_text(after)}')
    for given in ((1, 6, 0, 6), (3, 6, 0, 18), (4, 6, 0, 18), (0, 0, 17, 1), (1, 6, 18, 0), (1, 6, 19, 0), (1, 6, 12, 7), (1, 6, 2 ** 64 - 1, 2)):
        yield line(f'camera 3, {numbers(given[:2])}, {numbers(given[2:])}', desk, 3, *given)
    yield line('camera 3, 1 6, 0 6, a source buffer of 5 bytes', desk, 3, 1, 6, 0, 6, length=5)
    for camera in (2, 31, 32, 2 ** 32 - 1):
        yield line(f'camera {camera}, 1 6, 0 6', desk, camera, 1, 6, 0, 6)
    yield line('camera 32, 1 6, 19 0', desk, 32, 1, 6, 19, 0)
    waiting = accepted_offer(desk, 3, 3, 6, (0, 18), 18)
    yield f'the desk after an offer of camera 3, 3 6, 0 18: {desk_text(waiting)}'
    yield line('camera 3, 1 6, 0 6', waiting, 3, 1, 6, 0, 6)
    yield line('camera 3, 1 6, 19 0', waiting, 3, 1, 6, 19, 0)
    yield line('camera 2, 1 6, 19 0', waiting, 2, 1, 6, 19, 0)
    answer, camera, after = desk_step(waiting, small_source(0, 3), [filled(n) for n in DESK_LENGTHS])
    assert answer == (0, 0, 0) and camera == 3
    yield f'the desk after a step that does all its rows: {desk_text(after)}'
    yield line('camera 3, 1 6, 0 6', after, 3, 1, 6, 0, 6)


class Shift:
    """A desk with its buffers, and lines that say what calls on it answer and leave."""

    def __init__(self, source, lengths, desk=FRESH):
        self.source, self.desk, self.lent = source, desk, [filled(n) for n in lengths]
        self.lent[3][:] = b'\xcc' * lengths[3]

    def open(self, camera, by, parts):
        answer, self.desk = desk_open(self.desk, camera, by, parts, [len(buffer) for buffer in self.lent])
        return answer[0]

    def offer(self, camera, rows, stride, *part):
        answer, self.desk = desk_offer(self.desk, camera, WaitingBand(rows, stride, Part(*part)), len(self.source))
        return answer[0]

    def buffers(self):
        return f'{plane_text(self.lent[:3])}, carried rows {hexes(self.lent[3])}'

    def step(self, source=None, lent=None):
        answer, camera, self.desk = desk_step(self.desk, self.source if source is None else source, lent or self.lent)
        return answer_line('step', answer) + (', no camera' if camera is None else f', camera {camera}')


def one_wide(h):
    return FULL, 1, h, (1, 1, 1), None


@example('16.4')
def _():
    yield f'source {numbers(THREE_PIXELS)}: red, green, white; Y of 4 bytes, U and V of 3, EE before; carried rows of 9, CC before; in hexadecimal'
    yield 'frames of w 1, Rgb, 4:2:0, Full, Bt601, Srgb, plane strides 1; parts of Y, U, V and carried rows'
    shift = Shift(THREE_PIXELS, (4, 3, 3, 9))
    own = {0: (1, [Part(0, 1), Part(0, 1), Part(0, 1), Part(0, 3)]), 2: (2, [Part(1, 2), Part(1, 1), Part(1, 1), Part(3, 3)]),
           31: (1, [Part(3, 1), Part(2, 1), Part(2, 1), Part(6, 3)])}

    def opened(camera):
        h, parts = own[camera]
        assert shift.open(camera, one_wide(h), parts) == 0
        return f'opening, camera {camera}, h {h}, parts {parts_text(parts)}: 0'

    def offered(camera, rows, stride, *part):
        assert shift.offer(camera, rows, stride, *part) == 0
        return f'offer, camera {camera}, {rows} {stride}, {numbers(part)}: 0'

    def stepped(said='', **lent):
        line = shift.step(**lent)
        return line.replace('step', f'step{said}', 1) + f'; {desk_text(shift.desk)}'
    for camera in (31, 2, 0):
        yield opened(camera)
    yield stepped()
    yield offered(31, 1, 3, 6, 3)
    yield offered(2, 1, 3, 3, 3)
    yield offered(0, 1, 3, 0, 3)
    yield stepped()
    yield f'  {shift.buffers()}'
    yield opened(0)
    yield offered(0, 1, 3, 3, 3)
    yield stepped()
    yield f'  {shift.buffers()}'
    yield offered(2, 2, 3, 0, 6)
    yield stepped()
    yield stepped()
    yield f'  {shift.buffers()}'
    yield stepped()
    yield stepped()
    yield offered(2, 1, 2, 0, 3)
    yield stepped()
    yield offered(2, 1, 3, 0, 3)
    yield stepped(', source of 2 bytes', source=THREE_PIXELS[:2])
    yield offered(2, 1, 3, 0, 3)
    yield stepped(', carried rows of 5 bytes', lent=[*shift.lent[:3], shift.lent[3][:5]])
    yield f'  {shift.buffers()}'
    yield offered(2, 1, 3, 0, 3)
    yield stepped()
    yield f'  {shift.buffers()}'
    yield 'desks that no call left: cameras 0 and 1 have frames of h 1 on the same parts, and a band each'
    both = OpenFrame(one_wide(1), 0, own[0][1])
    for first in (33, 4294967295):
        places = [Place(both, WaitingBand(1, 3, Part(3 * k, 3))) for k in range(2)]
        shift = Shift(THREE_PIXELS, (4, 3, 3, 9), Desk((*places, *FRESH.places[2:]), first))
        yield f'first {first}: ' + stepped()
        yield stepped()
    shift = Shift(THREE_PIXELS, (4, 3, 3, 9), Desk((Place(both._replace(done=7), WaitingBand(1, 3, Part(0, 3))), *FRESH.places[1:]), 0))
    yield f'camera 0 alone, a frame of h 1 with 7 rows done and a band: {stepped()}'


@example('16.5')
def _():
    yield 'each camera has a frame of 1 × 2, and a band of 1 row wherever one is offered'

    def begun(cameras):
        desk = FRESH
        for camera in cameras:
            parts = [Part(camera * n, n) for n in (2, 1, 1, 3)]
            desk = accepted_open(desk, camera, one_wide(2), parts, (64, 32, 32, 96))
        return desk

    def run(desk, offers, steps):
        """Offers before each step, each where it is accepted; the cameras served, with the answers that are refusals."""
        served, lent = [], [filled(n) for n in (64, 32, 32, 96)]
        for step in range(steps):
            for camera, rows in offers(step):
                desk = desk_offer(desk, camera, WaitingBand(rows, 3, Part(0, 3)), 3)[1]
            answer, camera, desk = desk_step(desk, bytes(3), lent)
            served.append('none' if camera is None else f'{camera}' + (f' (refusal {answer[0]})' if answer[0] else ''))
        return ' '.join(served), [camera for camera in range(CAMERAS) if desk.places[camera].band]
    every = [(camera, 1) for camera in range(CAMERAS)]
    for steps in (32, 31):
        served, waiting = run(begun(range(CAMERAS)), lambda step: every if step == 0 else (), steps)
        yield f'all 32 offer, then {steps} steps serve {served}; waiting behind them: {numbers(waiting) or "none"}'
    yield 'all 32 offer, then 28 steps, then cameras 0 to 27 offer again, and camera 28 is one of 32 that wait: the next 4 steps and 28 more serve'
    served, _ = run(begun(range(CAMERAS)), lambda step: every if step in (0, 28) else (), 60)
    yield f'  {" ".join(served.split()[28:])}'
    yield 'cameras 0, 5 and 9 alone; 5 and 9 offer once, 0 a band of 0 rows before each step; 5 steps serve ' + run(
        begun((0, 5, 9)), lambda step: [(0, 0)] + ([(5, 1), (9, 1)] if step == 0 else []), 5)[0]
    yield 'the same three, of which nobody offers; 3 steps serve ' + run(begun((0, 5, 9)), lambda step: (), 3)[0]


@example('16.6')
def _():
    yield 'cameras 4 and 9, each 2 × 3, Rgb, Bt601, Srgb, 4:2:0, plane strides 2 1 1; 4 is Full, 9 is Limited; planes EE and carried rows CC before'
    yield f'rows of camera 4: {rows_text(SMALL)}'
    other = SMALL[::-1]
    yield f'rows of camera 9: {rows_text(other)}'
    rows = {camera: [bytes(sum(row, ())) for row in frame] for camera, frame in ((4, SMALL), (9, other))}
    by = {4: TALL, 9: (Settings(), *TALL[1:])}
    source = b''.join(rows[4] + rows[9])
    yield f'they stand behind each other in a source of {len(source)} bytes, 6 bytes a row; after each step Y, U, V and carried rows, in hexadecimal'
    shift = Shift(source, DESK_LENGTHS)
    for place, camera in enumerate((4, 9)):
        assert shift.open(camera, by[camera], tall_parts(place)) == 0
        yield f'opening, camera {camera}, parts {parts_text(tall_parts(place))}: 0'

    def alone(camera):
        strides, planes = tight_planes(by[camera][0], 2, 3)
        assert frame_call(*by[camera][:3], b''.join(rows[camera]), [6, *strides], planes) == (0, 0, 0)
        return planes
    for camera, count, *part in ((4, 1, 0, 6), (9, 1, 18, 6), (4, 3, 6, 12), (9, 2, 24, 12), (4, 2, 6, 12)):
        assert shift.offer(camera, count, 6, *part) == 0
        line = shift.step()
        assert line.endswith(f'camera {camera}')
        yield f'offer, camera {camera}, {count} 6, {numbers(part)}: 0; {line}'
        yield f'  {shift.buffers()}'
        if (camera, count) == (9, 2):
            for part, buffer, plane in zip(tall_parts(1), shift.lent, alone(9)):
                assert cut(part, buffer) == plane
            assert shift.open(20, by[4], tall_parts(1)) == 0
            yield '  camera 9 is finished; opening, camera 20, on the parts of camera 9: 0'
    for part, buffer, plane in zip(tall_parts(0), shift.lent, alone(4)):
        assert cut(part, buffer) == plane
    for camera in (4, 9):
        yield f'one frame call of the rows of camera {camera} alone: {plane_text(alone(camera))}'


# ---- appendix A

def nine(sampling):
    s = Settings('Bgra', sampling, 'Limited', 'Bt709', 'Srgb').weigh()
    colours = [[(250, 128, 7), (12, 200, 255), (64, 64, 64)], [(3, 9, 27), (255, 255, 255), (180, 30, 90)], [(0, 0, 0), (99, 250, 1), (33, 66, 132)]]
    source = bytearray()
    for r, row in enumerate(colours):
        for x, (red, green, blue) in enumerate(row):
            source += bytes([blue, green, red, 16 * r + x])
        source += b'\xaa'
    return s, colours, source


@example('A.1')
def _():
    _, colours, source = nine('4:2:0')
    for r in range(3):
        yield f'row {r}, hexadecimal: {hexes(source[13 * r:13 * r + 13])}'
    for r, row in enumerate(colours):
        yield f'row {r}, R G B: ' + ', '.join(numbers(rgb) for rgb in row)


@example('A.2')
def _():
    s, colours, _ = nine('4:2:0')
    yield f'weights {numbers(s.w)}'
    for r, row in enumerate(colours):
        for x, rgb in enumerate(row):
            total = luma_sum(s, rgb)
            yield f'row {r}, pixel {x}: {product_sum(rgb, s.w[:3], "16 × 8192 + 4095")} = {total}; luma {luma(s, rgb)}'


@example('A.3')
def _():
    s, colours, _ = nine('4:2:0')
    for r, row in enumerate(colours):
        yield f'row {r}, R G B: ' + ', '.join(numbers(s.linear[value] for value in rgb) for rgb in row)


def nine_chroma(sampling):
    s, colours, _ = nine(sampling)
    cw, ch = chroma_size(s, 3, 3)
    for k in range(ch):
        for j in range(cw):
            lines = []
            colour = chroma_colour(s, 3, 3, lambda x, r: colours[r][x], j, k, lines.append)
            yield f'j {j}, k {k}:'
            yield from (f'  {line}' for line in lines)
            yield f'  chroma colour {numbers(colour)}' + ('' if lines else ', the pixel itself')
            for name, first, value in zip(('Cb', 'Cr'), (3, 6), chroma(s, colour)):
                total = chroma_sum(s, colour, first)
                yield f'  {product_sum(colour, s.w[first:first + 3], "128 × 8192 + 4095")} = {total}; {name} {value}'


EXAMPLES['A.4'] = lambda: nine_chroma('4:2:0')
EXAMPLES['A.5'] = lambda: nine_chroma('4:2:2')


@example('A.6')
def _():
    for sampling in CODES['sampling']:
        s, _, source = nine(sampling)
        ch = chroma_size(s, 3, 3)[1]
        planes = [bytearray(b'\xee' * n) for n in (12, 3 * ch, 3 * ch)]
        assert frame_call(s, 3, 3, source, [13, 4, 3, 3], planes) == (0, 0, 0)
        yield f'{sampling}, hexadecimal'
        for name, plane, stride in zip('YUV', planes, (4, 3, 3)):
            yield f'  {name}: ' + ' | '.join(hexes(plane[at:at + stride]) for at in range(0, len(plane), stride))


# ---- appendix B

def first_indices(entries):
    assert all(a <= b for a, b in zip(entries, entries[1:]))
    found, m = [], 0
    for i, entry in enumerate(entries):
        while m <= entry:
            found.append(i)
            m += 1
    return found


def lines_of(values):
    for at in range(0, 256, 16):
        yield ' '.join(f'{value:>5}' for value in values[at:at + 16])


TABLES = [(name, rounding) for rounding in HALVES for name in CURVES]  # in the order of the appendix


@example('B.0')
def _():
    for table_ in TABLES:
        linear = zlib.crc32(struct.pack('<256H', *LINEAR[table_]))
        gamma = zlib.crc32(bytes(GAMMA[table_]))
        yield (f'{table_[0]:<8} {table_[1]:<9} linear {linear:08x}, entries add to {sum(LINEAR[table_])}; '
               f'gamma {gamma:08x}, entries add to {sum(GAMMA[table_])}')


for place, both in enumerate(TABLES):
    EXAMPLES[f'B.{2 * place + 1}'] = lambda both=both: lines_of(LINEAR[both])
    EXAMPLES[f'B.{2 * place + 2}'] = lambda both=both: lines_of(first_indices(GAMMA[both]))


def main():
    if sys.argv[1:] not in ([], ['--check']):
        sys.exit(__doc__)
    faults = []

    def made(match):
        head, number, body = match.groups()
        if number not in EXAMPLES:
            faults.append(f'no example {number} is worked out')
            return match.group()
        new = ''.join(f'{line.rstrip()}\n' for line in EXAMPLES[number]())
        if new != body:
            differs.append(f'example {number} is not what the rules give')
        return f'```text\n{head}\n{new}```'

    differs = []
    text = BLOCK.sub(made, TEXT)
    there = [match[1] for match in BLOCK.findall(TEXT)]
    faults += [f'rule {number} has no example' for number in RULE.findall(TEXT) if number not in there]
    faults += [f'example {number} stands nowhere' for number in EXAMPLES if number not in there]
    faults += [f'example {number} stands twice' for number in set(there) if there.count(number) > 1]
    if sys.argv[1:]:
        faults += differs
    else:
        RULES.write_text(text)
    if faults:
        sys.exit('\n'.join(faults))
    print(f'{len(RULE.findall(TEXT))} rules, {len(there)} examples')


if __name__ == '__main__':
    main()
