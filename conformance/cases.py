"""The calls of the conformance vectors, each under the rule of docs/RULES.md that it was made for. conformance/make.py answers them.

All that is drawn comes from fixed seeds by the generator of README.md. The reading of the rules in tools/rules_examples.py serves to choose
pixels that tell: on which one wrong weight, table entry or rounding changes a byte.
"""
import bisect
import struct
import sys
from fractions import Fraction
from itertools import product
from pathlib import Path

sys.path.insert(0, str(Path(__file__).resolve().parent.parent / 'tools'))
import rules_examples as rules  # noqa: E402

ORDERS, SAMPLINGS, RANGES = rules.CODES['channel order'], rules.CODES['sampling'], rules.CODES['range']
MATRICES, TRANSFERS, ROUNDINGS = [*rules.CODES['matrix'], 'Custom'], rules.CODES['transfer'], rules.CODES['rounding']
CUSTOM = MATRICES.index('Custom')
FULL, LIMITED = RANGES.index('Full'), RANGES.index('Limited')
MOST = 2 ** 32 - 1


class Draw:
    """The generator of README.md, and numbers made of its bytes."""

    def __init__(self, seed):
        self.state = seed

    def byte(self):
        self.state = (1664525 * self.state + 1013904223) % 2 ** 32
        return self.state >> 24

    def bytes(self, count):
        return bytes(self.byte() for _ in range(count))

    def below(self, n):
        return int.from_bytes(self.bytes(4), 'big') % n

    def between(self, low, high):
        return low + self.below(high - low + 1)

    def of(self, items):
        return items[self.below(len(items))]

    def shuffled(self, items):
        items = list(items)
        for i in range(len(items) - 1, 0, -1):
            j = self.below(i + 1)
            items[i], items[j] = items[j], items[i]
        return items


def text_of(data):
    return bytes(data).hex() or '-'


def bits_of(k):
    """The bits of a float, or bits that are given as a number."""
    return f'{k:08x}' if isinstance(k, int) else struct.pack('>f', k).hex()


def float_of(bits):
    return struct.unpack('>f', struct.pack('>I', bits))[0]


class Frame:
    """A frame call, or the opening and the planes of band calls. What is not said is without padding, whole and in the simplest settings."""

    def __init__(self, w, h, order=0, sampling=0, range_=0, matrix=0, kr=0, kb=0, transfer=0, rounding=0, strides=None, stride=None,
                 window=None, source=None, planes=None, lengths=None, seed=1, before=None):
        self.w, self.h, self.order, self.sampling, self.range_, self.matrix = w, h, order, sampling, range_, matrix
        self.kr, self.kb, self.transfer, self.rounding = kr, kb, transfer, rounding
        self.window = window or (0, 0, w, h)
        cw, ch = (w + 1) // 2, h if sampling == 1 else (h + 1) // 2
        c = rules.ORDERS[ORDERS[order]][0] if order < len(ORDERS) else 3
        self.c, self.cw, self.ch = c, cw, ch
        self.strides = list(strides or (w, cw, cw))
        self.stride = self.window[2] * c if stride is None else stride
        wanted = [self.stride * self.window[3], *(s * rows for s, rows in zip(self.strides, (h, ch, ch)))]
        for i, length in (lengths or {}).items():
            wanted['SYUV'.index(i)] = length
        draw = Draw(seed)
        self.source = draw.bytes(wanted[0]) if source is None else bytes(source)
        if planes is not None:
            self.planes = [bytes(plane) for plane in planes]
        elif before is not None:
            self.planes = [bytes([before]) * length for length in wanted[1:]]
        else:
            self.planes = [draw.bytes(length) for length in wanted[1:]]

    def description(self):
        return ' '.join(map(str, (self.w, self.h, self.order, self.sampling, self.range_, self.matrix, bits_of(self.kr), bits_of(self.kb),
                                  self.transfer, *self.strides, self.rounding, *self.window)))

    def line(self):
        return f'frame {self.description()} {self.stride} {text_of(self.source)} ' + ' '.join(map(text_of, self.planes))

    def request(self):
        """The same as a request of RULES 9.1; what it cannot carry is left out."""
        head = self.w.to_bytes(2, 'little') + self.h.to_bytes(2, 'little')
        return f'request {(head + bytes([self.order, self.sampling, self.range_, self.matrix, self.transfer]) + self.source).hex()}'

    def settings(self):
        """For the reading of the rules; of codes that have a meaning."""
        kr, kb = (float_of(k) if isinstance(k, int) else k for k in (self.kr, self.kb))
        return rules.Settings(ORDERS[self.order], SAMPLINGS[self.sampling], RANGES[self.range_], MATRICES[self.matrix],
                              TRANSFERS[self.transfer], ROUNDINGS[self.rounding], kr, kb)


class List:
    """Vectors of one file, in order."""

    def __init__(self, name, about):
        self.name, self.about, self.calls = name, about, []

    def add(self, rule, text, line):
        assert '\n' not in text
        self.calls.append((rule, text, line))


def colours(order, pixels):
    """Bytes of pixels R, G, B in a channel order, alpha being 7."""
    c, places = rules.ORDERS[ORDERS[order]]
    data = bytearray()
    for pixel in pixels:
        one = bytearray([7] * c)
        for place, value in zip(places, pixel):
            one[place] = value
        data += one
    return bytes(data)


# ---- pixels that tell

def rest(settings, first, colour):
    """What is left of a sum of 5.1 (first 0) or 5.2 (first 3, 6) after whole 8,192s."""
    r, g, b = settings.w[first:first + 3]
    return (r * colour[0] + g * colour[1] + b * colour[2] + 4095) % 8192  # by and 128 count whole 8,192s


def telling_colours(settings, draw):
    """Colours of which each has another luma, Cb or Cr where one weight is one more or less: one for each weight and direction that has one."""
    found = []
    for first, channel, more in product((0, 3, 6), range(3), (1, -1)):
        for _ in range(600):
            colour = [draw.byte() for _ in range(3)]
            colour[channel] |= 192
            left = rest(settings, first, colour) + more * colour[channel]
            if left < 0 or left >= 8192:
                found.append(tuple(colour))
                break
    return found


def half_colours(settings, draw):
    """Colours that tell 4,096 or 4,094 from 4,095: one for each of luma, Cb and Cr and each way, where there is one."""
    found = []
    for first, left in product((0, 3, 6), (8191, 0)):
        blues = {settings.w[first + 2] * blue % 8192: blue for blue in range(256)}
        for _ in range(2000):
            colour = [draw.byte(), draw.byte(), 0]
            blue = blues.get((left - rest(settings, first, colour)) % 8192)
            if blue is not None:
                found.append((*colour[:2], blue))
                break
    return found


def negative_colours(settings, draw):
    """Eight colours whose weighted sums of Cb and Cr are both negative, and tell 4,095 from no other number near it."""
    found = []
    while len(found) < 8:
        colour = tuple(draw.byte() for _ in range(3))
        sums = [sum(a * b for a, b in zip(colour, settings.w[first:first + 3])) for first in (3, 6)]
        if max(sums) < 0 and all(8 < rest(settings, first, colour) < 8184 for first in (0, 3, 6)):
            found.append(colour)
    return found


class Telling:
    """Blocks of 2 × 2 or 2 × 1 pixels whose chroma tells one table entry or one rounding. Blue alone varies; red sets what Cb is near to."""

    def __init__(self, transfer, rounding, sampling, seed):
        self.frame = Frame(2, 2, sampling=sampling, range_=FULL, transfer=transfer, rounding=rounding, source=bytes(12), planes=[b'', b'', b''])
        self.settings = self.frame.settings().weigh()
        self.linear, self.gamma, self.sampling, self.draw = self.settings.linear, self.settings.gamma, sampling, Draw(seed)
        self.first = {}
        for i, m in enumerate(self.gamma):
            self.first.setdefault(m, i)
        self.blocks = []

    def red_for(self, blue, other):
        """A flat red with which Cb tells this blue from the other, and 4,095 from no other number near it."""
        for red in range(0, 40):
            seen = self.gamma[self.linear[red]]
            tells = rules.chroma(self.settings, (seen, 0, blue))[0] != rules.chroma(self.settings, (seen, 0, other))[0]
            if tells and all(8 < rest(self.settings, 3, (seen, 0, one)) < 8184 for one in (blue, other)):
                return red
        return None

    def between(self, low, high):
        """A byte whose linear entry lies from low to high, or None."""
        first, last = bisect.bisect_left(self.linear, low), bisect.bisect_right(self.linear, high) - 1
        return self.draw.between(first, last) if first <= last else None

    def reach(self, low, high, this=None):
        """Blues whose sum lies from low to high, with this blue at its own pixel and nowhere else; None where none is found."""
        weights = (12, 4) if self.sampling == 1 else (9, 3, 3, 1)
        for _ in range(3000):
            blues, part = [], 0
            for place, weight in enumerate(weights):
                after = 65535 * sum(weights[place + 1:])  # what the pixels behind it can add
                blue = self.between(-(-(low - part - after) // weight), (high - part) // weight)
                if place == 0 and this is not None:
                    blue = this
                if blue is None or (place > 0 and blue == this):
                    break
                blues.append(blue)
                part += weight * self.linear[blue]
            else:
                if low <= part <= high:
                    return blues
        return self.exhaust(low, high) if this is None and self.sampling == 0 else None

    def exhaust(self, low, high):
        """The same with all blues of four pixels tried."""
        upper = sorted((9 * self.linear[a] + 3 * self.linear[b], a, b) for a, b in product(range(256), repeat=2))
        lower = sorted((3 * self.linear[c] + self.linear[d], c, d) for c, d in product(range(256), repeat=2))
        for part, a, b in upper:
            at = bisect.bisect_left(lower, (low - part, 0, 0))
            if at < len(lower) and lower[at][0] <= high - part:
                return [a, b, *lower[at][1:]]
        return None

    def add(self, low, high, blue, other, this=None):
        red = self.red_for(blue, other)
        block = None if red is None else self.reach(low, high, this)
        if block is None:
            return False
        self.blocks.append((red, block))
        return True

    def linear_entries(self, entries=range(1, 255)):
        """A block for each linear entry and direction: one more or less there moves the index over a step of the gamma table."""
        missing = []
        steps = [(self.first[m], m, self.gamma[self.first[m] - 1]) for m in self.first if m > 0]
        weight = 12 if self.sampling == 1 else 9
        for v, more in product(entries, (1, -1)):
            own = weight * self.linear[v]
            if more < 0 and self.linear[v] == 0:
                continue  # there is nothing below 0
            near = [step for step in steps if own <= 16 * step[0] - 20 and 16 * step[0] + 8 <= own + (16 - weight) * 65535]
            for _ in range(8):
                index, above, below = self.draw.of(near)
                if more > 0:
                    found = self.add(16 * index - 8 - weight, 16 * index - 9, below, above, v)
                else:
                    found = self.add(16 * index - 8, 16 * index - 9 + weight, above, below, v)
                if found:
                    break
            else:
                missing.append((v, more))
        return missing

    def gamma_steps(self, wanted=lambda index: True):
        """Two blocks for each step of the gamma table, just below it and on it."""
        missing = []
        for m, index in self.first.items():
            if m == 0 or not wanted(index):
                continue
            below = self.gamma[index - 1]
            for low, blue, other in ((16 * (index - 1) - 8, below, m), (16 * index - 8, m, below)):
                if not self.add(low, low + 15, blue, other):
                    missing.append((m, low))
        return missing

    def roundings(self, count):
        """Blocks whose sums end in 8 and in 7 sixteenths, at a step of the gamma table: they tell 7 or 9 from the 8 of 6.2."""
        wanted = [m for m in self.first if m > 20]
        made = 0
        for _ in range(200):
            m = self.draw.of(wanted)
            index, below = self.first[m], self.gamma[self.first[m] - 1]
            if self.add(16 * index - 8, 16 * index - 8, m, below):
                made += 1
            if self.sampling == 0 and self.add(16 * index - 9, 16 * index - 9, below, m):
                made += 1
            if made >= count:
                return

    def made(self):
        """The frame of all blocks, side by side."""
        rows = 1 if self.sampling == 1 else 2
        lines = [[], []]
        for red, block in self.blocks:
            for r in range(rows):
                lines[r] += [(red, 0, block[2 * r]), (red, 0, block[2 * r + 1])]
        self.blocks = []
        f = self.frame
        return Frame(len(lines[0]), rows, sampling=f.sampling, range_=FULL, transfer=f.transfer, rounding=f.rounding,
                     source=colours(0, sum(lines[:rows], [])), before=0xEE)


# ---- Custom pairs, and ways to get their weights wrong

def rounded(x, digits, least, mode='even'):
    """A fraction rounded to so many binary digits, its last place being 2^least at the least."""
    if x == 0:
        return Fraction(0)
    p, q = abs(x).numerator, x.denominator
    place = p.bit_length() - q.bit_length() - digits  # or one more
    place = max(place + (p << max(-place, 0) >= q << max(place, 0) << digits), least)
    p, q = p << max(-place, 0), q << max(place, 0)
    whole, left = divmod(p, q)
    up = {'even': 2 * left > q or 2 * left == q and whole % 2, 'away': 2 * left >= q, 'zero': False, 'up': left and x > 0,
          'down': left and x < 0}[mode]
    whole += 1 if up else 0
    return Fraction(whole << max(place, 0), 1 << max(-place, 0)) * (1 if x > 0 else -1)


def exact_f32(x, mode='even'):
    """A fraction rounded to binary32; other modes than the rule's serve to find pairs that tell them apart."""
    return rounded(x, 24, -149, mode)


def wide(digits):
    return lambda x: rounded(x, digits, -20000)


def nine(range_, kr, kb, keep, kg=None, fifth=None, spanned=None):
    """The nine coefficients times 8,192. keep is what becomes of a step; kg, fifth (a division by 255) and spanned (k × RUV / 255) may be others."""
    _, ry, ruv = rules.RANGES[RANGES[range_]]
    one, half = Fraction(1), Fraction(1, 2)
    kg = kg or (lambda: keep(keep(one - kr) - kb))
    fifth = fifth or (lambda x: keep(x / 255))
    spanned = spanned or (lambda d: fifth(keep(d * ruv)))
    g = kg()

    def mixed(k, own):
        return spanned(keep(keep(-half * k) / keep(one - own)))

    found = [fifth(keep(kr * ry)), fifth(keep(g * ry)), fifth(keep(kb * ry)), mixed(kr, kb), mixed(g, kb), fifth(keep(half * ruv)),
             fifth(keep(half * ruv)), mixed(g, kr), mixed(kb, kr)]
    return [keep(x * 8192) for x in found]


def away(x):
    size = abs(x)
    n = (2 * size.numerator + size.denominator) // (2 * size.denominator)
    return -n if x < 0 else n


def floor_half(x):
    return (x + Fraction(1, 2)).__floor__()


def slips(range_, kr, kb):
    """Weights by ways that are near at hand and wrong, by name."""
    even = exact_f32
    _, ry, _ = rules.RANGES[RANGES[range_]]
    right = nine(range_, kr, kb, even)
    ways = {
        'kg = 1 − (kr + kb)': nine(range_, kr, kb, even, kg=lambda: even(1 - even(kr + kb))),
        'kg = (1 − kb) − kr': nine(range_, kr, kb, even, kg=lambda: even(even(1 - kb) - kr)),
        'kg in one step': nine(range_, kr, kb, even, kg=lambda: even(1 - kr - kb)),
        'times 1 / 255': nine(range_, kr, kb, even, fifth=lambda x: even(x * even(Fraction(1, 255)))),
        'RY / 255 first': [even(even(k * even(Fraction(ry, 255))) * 8192) for k in (kr, even(even(1 - kr) - kb), kb)] + right[3:],
        'RUV / 255 first': nine(range_, kr, kb, even, spanned=lambda d: even(d * even(Fraction(rules.RANGES[RANGES[range_]][2], 255)))),
        'divided by 255 before RUV': nine(range_, kr, kb, even, spanned=lambda d: even(even(d / 255) * rules.RANGES[RANGES[range_]][2])),
        'binary64': nine(range_, kr, kb, wide(53)),
        '80 bits': nine(range_, kr, kb, wide(64)),
        'ties away': nine(range_, kr, kb, lambda x: even(x, 'away')),
        'toward zero': nine(range_, kr, kb, lambda x: even(x, 'zero')),
        'up': nine(range_, kr, kb, lambda x: even(x, 'up')),
        'down': nine(range_, kr, kb, lambda x: even(x, 'down')),
        'exact': nine(range_, kr, kb, lambda x: x),
    }
    yg = even(even(ry - even(kr * ry)) - even(kb * ry))  # on paper kg × RY
    joined = even(even(ry - kr * ry) - kb * ry)  # the same, each product joined with its difference
    for name, product_ in (('RY − kr × RY − kb × RY', yg), ('RY − kr × RY − kb × RY joined', joined)):
        ways[name] = right[:1] + [even(even(product_ / 255) * 8192)] + right[2:]
    made = {name: [away(x) for x in way] for name, way in ways.items()}
    made['floor of a half more'] = [floor_half(x) for x in right]
    made['half to even'] = [round(x) for x in right]
    made['cut off'] = [int(x) for x in right]
    made['a half added in binary32'] = [(1 if x >= 0 else -1) * even(abs(x) + Fraction(1, 2)).__floor__() for x in right]
    made['digits of a decimal'] = [away(Fraction(f'{float(x):.3f}')) for x in right]
    return [away(x) for x in right], made


def near_half(range_, kr, kb):
    """Whether a weight is so near to a half that a step done otherwise may change it; a quick look, in binary64."""
    _, ry, ruv = rules.RANGES[RANGES[range_]]
    kg, cb, cr = 1 - kr - kb, 16.062745098039216 * ruv / (1 - kb), 16.062745098039216 * ruv / (1 - kr)
    sizes = [kr * ry * 32.12549019607843, kg * ry * 32.12549019607843, kb * ry * 32.12549019607843, kr * cb, kg * cb, kg * cr, kb * cr]
    return any(abs(size % 1 - 0.5) < 0.0015 for size in sizes)


EDGES = [0, 0x80000000, 1, 0x007FFFFF, 0x00800000, 0x33800000, 0x38000000, 0x38800000, 0x39000000, 0x3C449BA6, 0x3DE147AE, 0x3E991687,
         0x3E99999A, 0x3EAAAAAB, 0x3EFFFFFF, 0x3F000000]


def custom_pairs():
    """Bits of kr and kb: those of the rules' examples, the edges, halves, and for each way of `slips` four pairs that it gets wrong."""
    pairs = [(0x3BE56042, 0x3E9F3B64), (0x3C75C28F, 0x3ECED917), (0x3E40EA16, 0x3E03A7AD), (0x3E991687, 0x3DE978D5), (0x3F000000, 0x38800000),
             (0x3C449BA6, 0x3ED374BC), (0x3EECC526, 0x3ED7A1BC), (0x3BF7AA40, 0x38F0D000), (0x3E800001, 0x3D80E004), (0x3EFFC8A7, 0x3EF9B253),
             (0x38A26FFF, 0x3EFF421B), (0x3880AFFF, 0x3EFF100B), (0x3C656042, 0x3C656042), (0x3A83126F, 0x3B03126F), (0x3B449BA6, 0x3B449BA6),
             (0x3A83126F, 0x3E4DD2F2), (0x3A83126F, 0x3EE56042), (0x38FFFFFF, 0x39000000), (0x387FFFFF, 0x387FFFFF), (0x3E59B3D0, 0x3D93DD98),
             # found by search: RUV / 255 first, RY / 255 first, kb taken off before kr
             (0x3EDC0CCA, 0x38DF3994), (0x3ECF71D7, 0x3D6B0B75), (0x3E4B673B, 0x3B0EF2EB), (0x3E922AA1, 0x39BB6FDE), (0x3E4A5FB6, 0x3CACF9AC),
             (0x3E13FA12, 0x3E53D1ED), (0x3D2F4D3E, 0x3EFFA55D),
             # the largest number below 2^−14, whose weight is just below a half
             (0x387FFFFF, 0x3DE978D5), (0x3E991687, 0x387FFFFF)]
    pairs += [(kr, kb) for kr, kb in zip(EDGES, EDGES[5:] + EDGES[:5])] + [(k, k) for k in EDGES]
    pairs = list(dict.fromkeys(pairs))
    draw, caught = Draw(4), {}

    def look(kr, kb):
        """Whether the pair shows a way that fewer than four pairs have shown."""
        new = set()
        for range_ in (LIMITED, FULL):
            if near_half(range_, float_of(kr), float_of(kb)):
                right, wrong = slips(range_, Fraction(float_of(kr)), Fraction(float_of(kb)))
                for name, weights in wrong.items():
                    caught.setdefault(name, 0)
                    if weights != right:
                        new.add(name)
        useful = any(caught[name] < 4 for name in new)
        for name in new:
            caught[name] += 1
        return useful

    for pair in pairs:
        look(*pair)
    for _ in range(25000):
        if draw.below(2):
            kr, kb = (int.from_bytes(struct.pack('>f', draw.below(501) / 1000), 'big') for _ in range(2))
        else:
            kr, kb = (0x3C000000 + draw.below(0x03000000) for _ in range(2))
        if look(kr, kb):
            pairs.append((kr, kb))
    assert all(caught.values()), caught
    return list(dict.fromkeys(pairs))


# ---- the files

def requests():
    v = List('requests', 'Requests to the program of RULES 9.1, and their replies, both as bytes.')
    draw = Draw(101)

    def ask(rule, text, frame):
        v.add(rule, text, frame.request())

    red, green = [(255, 0, 0)], [(0, 255, 0)]
    ask('9.3', 'the example of the rule: a red pixel, 4:2:2, Full', Frame(1, 1, sampling=1, range_=FULL, source=colours(0, red)))
    ask('9.3', 'a red pixel, 4:2:0, Full', Frame(1, 1, range_=FULL, source=colours(0, red)))
    ask('9.3', 'a green pixel, 4:2:2, Limited', Frame(1, 1, sampling=1, source=colours(0, green)))
    for order in range(4):
        ask('1.3', f'{ORDERS[order]}, one colour whose channels differ', Frame(1, 1, order, 1, FULL, source=colours(order, [(10, 200, 90)])))
        for sampling in range(2):
            ask('1.3', f'{ORDERS[order]}, {SAMPLINGS[sampling]}, 3 × 2', Frame(3, 2, order, sampling, FULL, seed=draw.below(1000)))
    for range_, matrix in product(range(2), range(6)):
        ask('1.4', f'{RANGES[range_]}, {MATRICES[matrix]}: black, white, and the colours that reach furthest',
            Frame(1, 8, 0, 1, range_, matrix, source=colours(0, list(product((0, 255), repeat=3)))))
    for w, h, sampling in product(range(1, 5), range(1, 5), range(2)):
        ask('1.5', f'{w} × {h}, {SAMPLINGS[sampling]}', Frame(w, h, 0, sampling, FULL, seed=draw.below(1000)))
    for w, h in ((256, 2), (2, 257), (258, 3), (1, 300), (511, 1)):
        ask('9.1', f'{w} × {h}: a side of two bytes', Frame(w, h, 0, 1, seed=draw.below(1000)))
    one, other = (bytes([200, 100, 50, alpha] * 6) for alpha in (0, 255))
    for order in (1, 2):
        for source, alpha in ((one, 0), (other, 255)):
            ask('2.3', f'{ORDERS[order]}, alpha {alpha}', Frame(3, 2, order, source=source))
    for range_, matrix in product(range(2), range(5)):
        settings = Frame(1, 1, range_=range_, matrix=matrix, sampling=1).settings().weigh()
        chosen = telling_colours(settings, draw)
        ask('4.1', f'{MATRICES[matrix]}, {RANGES[range_]}: colours that tell each weight from one more and one less',
            Frame(1, len(chosen), 0, 1, range_, matrix, source=colours(0, chosen)))
    for range_ in range(2):
        settings = Frame(1, 1, range_=range_, matrix=5, sampling=1).settings().weigh()
        chosen = telling_colours(settings, draw)
        ask('4.3', f'Fcc, {RANGES[range_]}: colours that tell each weight from one more and one less',
            Frame(1, len(chosen), 0, 1, range_, 5, source=colours(0, chosen)))
    for range_, matrix in product(range(2), range(6)):
        settings = Frame(1, 1, range_=range_, matrix=matrix, sampling=1).settings().weigh()
        chosen = half_colours(settings, draw)
        for rule, part, what in (('5.1', chosen[:2], 'luma'), ('5.2', chosen[2:], 'Cb and Cr')):
            ask(rule, f'{MATRICES[matrix]}, {RANGES[range_]}: {what} of sums that tell 4,095 from one more and one less',
                Frame(1, len(part), 0, 1, range_, matrix, source=colours(0, part)))
    dark = negative_colours(Frame(1, 1, range_=FULL).settings().weigh(), Draw(77))
    ask('1.1', 'chroma sums that are negative before 128 is added', Frame(1, len(dark), 0, 1, FULL, source=colours(0, dark)))
    for transfer in range(4):
        name = TRANSFERS[transfer]
        telling = Telling(transfer, 0, 0, 500 + transfer)
        missing = telling.linear_entries()
        ask('3.4', f'{name}, Truncated: blocks that tell each entry of the linear table from one more and one less' + lacking(missing),
            telling.made())
        missing = telling.gamma_steps()
        ask('3.5', f'{name}, Truncated: blocks just below and on each step of the gamma table' + lacking(missing), telling.made())
        flat = [(v, v, 0) for v in (0, 1, 2, 10, 11, 20, 21, 64, 128, 200, 254, 255)]
        for value in flat:
            ask('3.1', f'{name}, Truncated: one pixel of {value[0]} {value[1]} 0', Frame(1, 1, 0, 0, FULL, transfer=transfer, source=bytes(value)))
        for sampling in range(2):
            telling = Telling(transfer, 0, sampling, 520 + transfer)
            telling.roundings(12)
            ask('6.2', f'{name}, {SAMPLINGS[sampling]}: sums at a half of 16, at steps of the gamma table', telling.made())
            ramp = [(v, v // 2, 255 - v) for v in range(0, 256, 3)]
            ask('3.4', f'{name}, {SAMPLINGS[sampling]}: a ramp',
                Frame(len(ramp), 1, 0, sampling, FULL, 0, transfer=transfer, source=colours(0, ramp)))
    black, white = (0, 0, 0), (255, 255, 255)
    for sampling, rule in ((0, '6.3'), (1, '6.4')):
        for at in range(4 if sampling == 0 else 2):
            block = [black] * 4
            block[at] = (255, 0, 90)
            ask(rule, f'{SAMPLINGS[sampling]}, 2 × 2, a colour at pixel {at} alone: what each pixel counts',
                Frame(2, 2, 0, sampling, FULL, source=colours(0, block)))
            wide_block = [white] * 4
            wide_block[at] = (10, 99, 1)
            ask(rule, f'{SAMPLINGS[sampling]}, 2 × 2, white but for pixel {at}', Frame(2, 2, 0, sampling, FULL, source=colours(0, wide_block)))
    for w, h in ((1, 1), (1, 2), (3, 1), (3, 2), (5, 1)):
        for transfer in range(4):
            ask('6.3', f'4:2:0, {w} × {h}, {TRANSFERS[transfer]}: the last column of an odd width, through both tables',
                Frame(w, h, 0, 0, FULL, transfer=transfer, seed=draw.below(1000)))
            ask('6.4', f'4:2:2, {w} × {h}, {TRANSFERS[transfer]}: the last column of an odd width, without a table',
                Frame(w, h, 0, 1, FULL, transfer=transfer, seed=draw.below(1000)))
    for w, h in ((2, 1), (2, 3), (4, 5), (3, 3), (5, 5), (1, 3), (7, 4), (6, 7)):
        for sampling in range(2):
            ask('6.1', f'{SAMPLINGS[sampling]}, {w} × {h}: the last column and the last row', Frame(w, h, 0, sampling, FULL, seed=draw.below(1000)))
    for range_, matrix in product(range(2), range(6)):
        greys = [(g, g, g) for g in (0, 255, 10, 128, 77, 200, 1, 254, 124)]
        for sampling in range(2):
            ask('6.5', f'{MATRICES[matrix]}, {RANGES[range_]}, {SAMPLINGS[sampling]}: grey stays grey',
                Frame(3, 3, 0, sampling, range_, matrix, source=colours(0, greys)))
    for order, sampling, range_, matrix, transfer in product(range(4), range(2), range(2), range(6), range(4)):
        w, h = draw.between(1, 6), draw.between(1, 5)
        text = f'{ORDERS[order]}, {SAMPLINGS[sampling]}, {RANGES[range_]}, {MATRICES[matrix]}, {TRANSFERS[transfer]}, {w} × {h}'
        ask('1.2', text, Frame(w, h, order, sampling, range_, matrix, transfer=transfer, seed=draw.below(10000)))
    ask('2.5', 'red, green and blue: the planes follow one another',
        Frame(3, 1, 0, 1, FULL, source=colours(0, [(255, 0, 0), (0, 255, 0), (0, 0, 255)])))
    ask('2.5', '9 × 7, Bgra, 4:2:0', Frame(9, 7, 2, 0, FULL, seed=3))
    refused_requests(v)
    for w, h, order, sampling in ((128, 128, 1, 0), (1, 16384, 0, 1), (127, 129, 3, 1)):
        frame = Frame(w, h, order, sampling, FULL, 1, transfer=1, source=bytes(range(1, 102)) * (w * h * 4 // 101 + 1))
        frame.source = frame.source[:w * h * frame.c]
        ask('9.2', f'{w} × {h}, {w * h} pixels of at most 16,384', frame)
    return v


def lacking(missing):
    """What a text says of entries for which there is no block."""
    return '' if not missing else f'; {len(missing)} of them no four pixels reach'


def refused_requests(v):
    red = Frame(1, 1, 0, 1, FULL, source=bytes([255, 0, 0])).request().split(' ')[1]

    def ask(rule, text, digits):
        v.add(rule, text, f'request {digits or "-"}')

    ask('9.2', '1: no byte', '')
    ask('9.2', '1: one byte', red[:2])
    ask('9.2', '1: eight bytes', red[:16])
    for at, codes in ((4, (4, 5, 255)), (5, (2, 255)), (6, (2, 255)), (7, (6, 7, 255)), (8, (4, 255))):
        for code in codes:
            ask('1.2', f'1: byte {at} is {code}', red[:2 * at] + f'{code:02x}' + red[2 * at + 2:])

    def head(w, h, codes=(0, 0, 0, 0, 0)):
        return (w.to_bytes(2, 'little') + h.to_bytes(2, 'little') + bytes(codes)).hex()

    ask('7.1', '1 before 2: no width, range 2', head(0, 1, (0, 0, 2, 0, 0)))
    for w, h in ((0, 1), (1, 0), (0, 0), (0, 256)):
        ask('7.3', f'2: {w} × {h}', head(w, h))
    ask('7.1', '2 before 3: 0 × 20,000', head(0, 20000))
    for w, h in ((16385, 1), (1, 16385), (129, 128), (145, 113), (32768, 2), (65535, 65535), (256, 256), (16384, 16384)):
        ask('9.2', f'3: {w} × {h}', head(w, h))
    ask('7.1', '3 before 6 and 12: 145 × 113 and one byte', head(145, 113) + '00')
    ask('7.5', '6: no pixels', red[:18])
    ask('7.5', '6: one byte short', red[:-2])
    ask('7.5', '6: pixels of Rgb called Rgba', head(2, 2, (1, 0, 0, 0, 0)) + '2a' * 12)
    ask('7.7', '12: one byte too many', red + '00')
    ask('7.7', '12: a line feed too many', red + '0a')
    ask('7.7', '12: pixels of Rgba called Rgb', head(2, 2) + '2a' * 16)
    ask('7.5', '6: a high byte of the height', head(1, 257) + '2a' * 3)


def frames():
    v = List('frames',
             'Frame calls (RULES 7.8) that a request cannot carry: strides, windows, nearest tables, Custom pairs, refusals with their numbers.')
    draw = Draw(202)

    def call(rule, text, frame):
        v.add(rule, text, frame.line())

    def settings_of(range_, kr, kb):
        return Frame(1, 1, sampling=1, range_=range_, matrix=CUSTOM, kr=kr, kb=kb).settings().weigh()

    # 1, 2: settings, strides, padding
    for rounding in range(2):
        call('1.2', f'{ROUNDINGS[rounding]}: a flat red of 10', Frame(2, 2, 0, 0, FULL, rounding=rounding, source=bytes([10, 0, 0] * 4), before=0xEE))
    call('2.4', 'the example of the rule: padding keeps its bytes', Frame(3, 1, strides=(5, 3, 4), source=bytes([255, 0, 0] * 3), before=0xEE))
    for order, sampling, before in product(range(4), range(2), (0x00, 0xFF)):
        w, h = draw.between(1, 5), draw.between(1, 4)
        strides = (w + draw.between(1, 4), (w + 1) // 2 + draw.between(1, 4), (w + 1) // 2 + draw.between(1, 4))
        call('2.4', f'{ORDERS[order]}, {SAMPLINGS[sampling]}, {w} × {h}, padding of {before} after every plane row',
             Frame(w, h, order, sampling, FULL, strides=strides, before=before, seed=draw.below(1000)))
    for order, sampling in product(range(4), range(2)):
        w, h, c = 3, 3, rules.ORDERS[ORDERS[order]][0]
        for more in (1, c, 7):
            call('2.2', f'{ORDERS[order]}, {SAMPLINGS[sampling]}, {more} more bytes after every source row',
                 Frame(w, h, order, sampling, FULL, stride=w * c + more, seed=draw.below(1000), before=0xEE))
    call('2.1', 'four strides that all differ', Frame(5, 4, 1, 0, FULL, stride=23, strides=(7, 5, 4), seed=77))
    call('2.1', 'the stride of U above that of V', Frame(4, 4, 0, 1, FULL, strides=(4, 5, 2), seed=78))
    call('2.1', 'the stride of V above that of U', Frame(4, 4, 0, 1, FULL, strides=(4, 2, 5), seed=79))
    pixels = bytes([200, 100, 50])
    for alpha, padding in ((0, 0), (255, 9)):
        call('2.3', f'alpha {alpha}, padding {padding}', Frame(1, 1, 1, stride=5, source=pixels + bytes([alpha, padding]), before=0xEE))
    for filling in (0, 255):
        source = bytearray([filling]) * (5 * 6 * 4)
        for r, x in product(range(3), range(3)):
            at = (1 + r) * 24 + (1 + x) * 4
            source[at:at + 4] = Draw(10 * r + x).bytes(3) + bytes([filling])
        for sampling in range(2):
            call('2.3', f'a window whose source is {filling} outside it, {SAMPLINGS[sampling]}',
                 Frame(3, 3, 1, sampling, FULL, window=(1, 1, 6, 5), source=source, before=0xEE))

    # 2.6: windows of a source of 6 × 5
    for sampling, (w, h, left, top) in product(range(2), ((1, 1, 0, 0), (1, 1, 5, 4), (2, 2, 1, 1), (3, 3, 1, 1), (3, 3, 2, 1), (2, 3, 3, 2),
                                                          (3, 2, 0, 3), (6, 1, 0, 2), (1, 5, 3, 0), (5, 5, 0, 0), (5, 5, 1, 0), (6, 5, 0, 0),
                                                          (4, 3, 1, 0), (3, 4, 2, 1))):
        order = draw.below(4)
        call('2.6', f'{w} × {h} from column {left} of row {top} of 6 × 5, {SAMPLINGS[sampling]}, {ORDERS[order]}',
             Frame(w, h, order, sampling, FULL, window=(left, top, 6, 5), seed=draw.below(1000), before=0xEE))
    call('2.6', 'a window of a source with padding', Frame(3, 3, 2, 0, FULL, window=(2, 1, 6, 5), stride=31, strides=(5, 4, 3), seed=5))
    call('2.6', 'the last pixel of a source of 300 × 1', Frame(1, 1, 0, 0, FULL, window=(299, 0, 300, 1), seed=6))
    call('2.6', 'the last pixel of a source of 1 × 300', Frame(1, 1, 0, 1, FULL, window=(0, 299, 1, 300), seed=7))

    # 3: nearest tables
    for transfer in range(4):
        name = TRANSFERS[transfer]
        telling = Telling(transfer, 1, 0, 540 + transfer)
        missing = telling.linear_entries()
        call('3.4', f'{name}, Nearest: blocks that tell each entry of the linear table from one more and one less' + lacking(missing), telling.made())
        missing = telling.gamma_steps()
        call('3.5', f'{name}, Nearest: blocks just below and on each step of the gamma table' + lacking(missing), telling.made())
        for sampling in range(2):
            flat = [(v, 255 - v, v // 2) for v in range(0, 256, 5)]
            call('1.2', f'{name}, {SAMPLINGS[sampling]}, Nearest: a ramp',
                 Frame(len(flat), 1, 0, sampling, FULL, transfer=transfer, rounding=1, source=colours(0, flat), before=0xEE))
    # 3.2, 3.3: on both sides of the break of each curve that has a straight part
    for rounding, (transfer, last_byte, last_index) in product(range(2), ((0, 10, 199), (1, 20, 1183))):
        near = Telling(transfer, rounding, 0, 570 + transfer)
        near.linear_entries(range(last_byte - 3, last_byte + 5))
        call('3.2', f'{TRANSFERS[transfer]}, {ROUNDINGS[rounding]}: bytes around {last_byte}, the last of the straight part', near.made())
        near.gamma_steps(lambda index: abs(index - last_index) < 200)
        call('3.3', f'{TRANSFERS[transfer]}, {ROUNDINGS[rounding]}: steps of the gamma table around {last_index}, the last of the straight part',
             near.made())
    rec709 = Telling(1, 1, 0, 560)
    for index, above in ((257, 5), (771, 14)):
        assert rec709.gamma[index] == above and rec709.gamma[index - 1] == above - 1
        rec709.add(16 * index - 8, 16 * index + 7, above, above - 1)
    call('3.5', 'Rec709, Nearest: entries 257 and 771, which are halves and go up', rec709.made())

    # 4: Custom pairs
    for kr, kb in custom_pairs():
        for range_ in range(2):
            settings = settings_of(range_, kr, kb)
            chosen = telling_colours(settings, draw)
            tied = any(Fraction(x).denominator == 2 for x in nine(range_, Fraction(float_of(kr)), Fraction(float_of(kb)), exact_f32))
            rule = '4.5' if tied else '4.4' if (kr, kb) in ((0, 0), (0x3F000000, 0x3F000000)) else '4.2'
            call(rule, f'Custom {bits_of(kr)} {bits_of(kb)}, {RANGES[range_]}: colours that tell each weight from one more and one less',
                 Frame(1, len(chosen), 0, 1, range_, CUSTOM, kr, kb, source=colours(0, chosen), before=0xEE))
    named = [(0x3E991687, 0x3DE978D5), (0x3E59B3D0, 0x3D93DD98), (0x3E86809D, 0x3D72E48F), (0x3DB22D0E, 0x3E591687), (0x3E6353F8, 0x3D9205BC)]
    for (kr, kb), matrix in zip(named, MATRICES):
        for range_ in range(2):
            chosen = telling_colours(settings_of(range_, kr, kb), draw)
            call('4.3', f'Custom with the pair of {matrix}, {RANGES[range_]}: worked out all the same',
                 Frame(1, len(chosen), 0, 1, range_, CUSTOM, kr, kb, source=colours(0, chosen), before=0xEE))
    call('4.3', 'kr and kb beside a named matrix, which are not looked at', Frame(2, 2, 0, 0, FULL, 0, 0x7FC00000, 0x3F800000, seed=9, before=0xEE))
    for kr, kb in ((0, 0), (0x3F000000, 0x3F000000), (0x3E99999A, 0x3DE147AE), (0, 0x3F000000)):
        call('4.4', f'Custom {bits_of(kr)} {bits_of(kb)}, 4:2:0', Frame(4, 3, 0, 0, LIMITED, CUSTOM, kr, kb, seed=draw.below(1000), before=0xEE))
        greys = [(g, g, g) for g in (0, 255, 10, 128, 77, 200, 1, 254, 124)]
        for range_ in range(2):
            call('6.5', f'Custom {bits_of(kr)} {bits_of(kb)}, {RANGES[range_]}: grey stays grey, inside a coloured source',
                 Frame(3, 3, 0, 0, range_, CUSTOM, kr, kb, window=(1, 1, 5, 5), source=bordered(greys), before=0xEE))

    refused_frames(v, draw)
    return v


def bordered(pixels):
    """A source of 5 × 5 with these nine pixels in its middle and red around them."""
    rows = [[(255, 0, 0)] * 5 for _ in range(5)]
    for i, pixel in enumerate(pixels):
        rows[1 + i // 3][1 + i % 3] = pixel
    return colours(0, sum(rows, []))


# RULES 7.1: each condition of a frame call, in order, as what has to change in a frame of 3 × 3 for it to hold
FAULTS = [('1', {'range_': 2}), ('2', {'h': 0}), ('3', {'w': 16385}), ('4', {'matrix': CUSTOM, 'kr': 0x3F000001}), ('14', {'left': 9}),
          ('6', {'S': True}), ('7', {'stride': True}), ('8', {'ys': True}), ('9', {'Y': True}), ('10', {'us': True}), ('10 by length', {'U': True}),
          ('11', {'vs': True}), ('11 by length', {'V': True}), ('12', {'Y+': True})]


def faulty(changes, seed):
    """A frame of 3 × 3 in 4:2:0 with padding, changed so that conditions hold."""
    w, h, left = changes.get('w', 3), changes.get('h', 3), changes.get('left', 0)
    stride = 8 if 'stride' in changes else 10
    strides = [2 if 'ys' in changes else 4, 1 if 'us' in changes else 3, 1 if 'vs' in changes else 3]
    lengths = [max(stride * 3, stride * 2 + 9), strides[0] * 3, strides[1] * 2, strides[2] * 2]
    least = [stride * 2 + 9, strides[0] * 2 + 3, strides[1] + 2, strides[2] + 2]
    for i, name in enumerate('SYUV'):
        if name in changes:
            lengths[i] = least[i] - 1
    if 'Y+' in changes:
        lengths[1] += 1
    return Frame(w, h, 0, 0, changes.get('range_', 0), changes.get('matrix', 0), changes.get('kr', 0), 0, strides=strides, stride=stride,
                 window=(left, 0, w, h), lengths=dict(zip('SYUV', lengths)), seed=seed)


def refused_frames(v, draw):
    def call(rule, text, frame):
        v.add(rule, text, frame.line())

    for i, (name, changes) in enumerate(FAULTS):
        call('7.2', f'{name} alone: nothing is written', faulty(changes, 300 + i))
        for other, more in FAULTS[i + 1:]:
            if not set(changes) & set(more):
                call('7.1', f'{name} and {other}', faulty({**changes, **more}, 400 + i))
    for code, value in product(('order', 'sampling', 'range_', 'matrix', 'transfer', 'rounding'), (256, MOST)):
        first = {'order': 4, 'sampling': 2, 'range_': 2, 'matrix': 7, 'transfer': 4, 'rounding': 2}[code]
        for number in (first, value) if value == MOST else (value,):
            frame = Frame(1, 1, seed=8)
            setattr(frame, code, number)
            call('1.2', f'1: {code.strip("_")} {number}', frame)
    # 7.3
    for w, h in ((0, 1), (1, 0), (0, 16385), (16385, 1), (1, 16385), (1, MOST), (MOST, MOST), (65536, 1), (2 ** 31, 2)):
        call('7.3', f'{w} × {h}', Frame(w, h, strides=(4, 2, 2), stride=12, lengths=dict(zip('SYUV', (12, 4, 2, 2))), seed=9))
    for window in ((0, 0, 16385, 1), (0, 0, 1, 16385), (0, 0, 1, MOST), (0, 0, MOST, 1), (0, 0, 0, 1), (0, 0, 1, 0)):
        call('7.3', f'a source of {window[2]} × {window[3]}',
             Frame(1, 1, window=window, stride=3, lengths=dict(zip('SYUV', (3, 1, 1, 1))), seed=9))
    call('7.3', 'w 0 in a source without width: 2', Frame(0, 1, window=(0, 0, 0, 1), stride=3, lengths=dict(zip('SYUV', (3, 1, 1, 1))), seed=9))
    call('7.3', '1 × 1 in a source of 16,384 × 1', Frame(1, 1, window=(16383, 0, 16384, 1), source=bytes(range(256)) * 192, before=0xEE))
    call('7.3', '16,384 × 1', Frame(16384, 1, sampling=1, source=bytes([9, 200, 77]) * 16384, before=0xEE))
    call('7.3', '1 × 16,384', Frame(1, 16384, source=bytes([9, 200, 77]) * 16384, before=0xEE))
    # 7.4
    for bits in (0, 0x80000000, 1, 0x80000001, 0x3EFFFFFF, 0x3F000000, 0x3F000001, 0x3F800000, 0xBF000000, 0x7F800000, 0xFF800000, 0x7FC00000,
                 0xFFC00000, 0x7F800001, 0x80800000, 0x40000000):
        call('7.4', f'kr {bits_of(bits)}', Frame(1, 1, 0, 1, FULL, CUSTOM, bits, 0, source=bytes([250, 128, 7]), before=0xEE))
        call('7.4', f'kb {bits_of(bits)}', Frame(1, 1, 0, 1, FULL, CUSTOM, 0, bits, source=bytes([250, 128, 7]), before=0xEE))
    # 7.5 to 7.7: each buffer one under, at and one above its least length and its whole rows; each stride around its row
    for sampling, order in ((0, 0), (1, 1), (0, 2)):
        c = rules.ORDERS[ORDERS[order]][0]
        w, h = 5, 3
        cw, ch = 3, 3 if sampling else 2
        rows, row = dict(zip('SYUV', (h, h, ch, ch))), dict(zip('SYUV', (w * c, w, cw, cw)))
        for name, padding in product('SYUV', (0, 2)):
            rule = '7.5' if name == 'S' else '7.6'
            stride = row[name] + padding
            lengths = {stride * (rows[name] - 1) + row[name] + more for more in (-1, 0, 1)} | {stride * rows[name] + more for more in (-1, 0, 1)}
            for length in sorted(lengths | {0, stride * (rows[name] + 1)}):
                strides = [stride if name == 'YUV'[i] else one for i, one in enumerate((w, cw, cw))]
                call(rule if length < stride * (rows[name] - 1) + row[name] else '7.7', f'{SAMPLINGS[sampling]}, {ORDERS[order]}, '
                     f'{"source" if name == "S" else name} of {length} bytes, stride {stride}',
                     Frame(w, h, order, sampling, strides=strides, stride=stride if name == 'S' else None, lengths={name: length}, seed=11))
            if padding:
                continue
            for stride in (0, 1, row[name] - 1):
                strides = [stride if name == 'YUV'[i] else one for i, one in enumerate((w, cw, cw))]
                long = row[name] * rows[name]
                call(rule, f'{SAMPLINGS[sampling]}, {ORDERS[order]}, stride {stride} of {"the source" if name == "S" else name}',
                     Frame(w, h, order, sampling, strides=strides, stride=stride if name == 'S' else None, lengths={name: long}, seed=11))
    call('7.5', 'least length by the stride that is given, also where 7 holds too: 6',
         Frame(4, 2, stride=11, lengths={'S': 22}, seed=12))
    call('7.5', 'the same with a byte more: 7', Frame(4, 2, stride=11, lengths={'S': 23}, seed=12))
    for window, length in (((1, 2, 6, 5), 97), ((1, 2, 6, 5), 98), ((1, 2, 6, 5), 100)):
        call('7.5', f'a window of 6 × 5, stride 20, source of {length} bytes', Frame(4, 2, stride=20, window=window, lengths={'S': length}, seed=13))
    call('7.5', 'a window whose source stride is a rectangle row', Frame(4, 2, stride=12, window=(1, 2, 6, 5), lengths={'S': 66}, seed=13))
    call('7.5', 'a stride of 4,294,967,295 in 16,384 rows: 46 bits', Frame(1, 16384, stride=MOST, lengths=dict(zip('SYUV', (3, 1, 1, 1))), seed=14))
    call('7.5', 'a stride of 4,294,967,295 in 2 rows: 33 bits', Frame(1, 2, stride=MOST, lengths=dict(zip('SYUV', (3, 2, 1, 1))), seed=14))
    for i in range(3):
        strides = [MOST if i == place else one for place, one in enumerate((1, 1, 1))]
        call('7.6', f'{"YUV"[i]}: a stride of 4,294,967,295 in 2 rows, so that its least length is 4,294,967,296',
             Frame(1, 2, sampling=1, strides=strides, lengths=dict(zip('SYUV', (6, 2, 2, 2))), seed=15))
    call('7.6', 'U stride and U length: the stride is told', Frame(5, 3, strides=(5, 2, 3), lengths={'U': 0}, seed=16))
    call('7.7', 'source and V longer: the source is told', Frame(5, 3, lengths={'S': 46, 'V': 7}, seed=17))
    call('7.7', 'U and V longer: U is told', Frame(5, 3, lengths={'U': 7, 'V': 7}, seed=17))
    call('7.7', 'Y and U longer: Y is told', Frame(5, 3, lengths={'Y': 16, 'U': 7}, seed=17))
    # 7.8
    for name, sampling, range_, pixel in (('red', 0, FULL, (255, 0, 0)), ('red', 1, FULL, (255, 0, 0)), ('green', 1, LIMITED, (0, 255, 0)),
                                          ('black', 0, LIMITED, (0, 0, 0)), ('white', 0, LIMITED, (255, 255, 255))):
        call('7.8', f'{name}, {SAMPLINGS[sampling]}, {RANGES[range_]}', Frame(1, 1, 0, sampling, range_, source=bytes(pixel), before=0xEE))
    # 7.9
    for w, h, window in ((3, 2, (2, 2, 5, 4)), (3, 2, (3, 2, 5, 4)), (3, 2, (2, 3, 5, 4)), (1, 1, (5, 0, 5, 4)), (1, 1, (0, 4, 5, 4)),
                         (5, 4, (0, 0, 5, 4)), (6, 4, (0, 0, 5, 4)), (5, 5, (0, 0, 5, 4)), (1, 1, (MOST, 0, 5, 4)), (1, 1, (0, MOST, 5, 4)),
                         (3, 2, (MOST - 1, 0, 5, 4)), (1, 1, (2 ** 31, 0, 5, 4)), (1, 1, (0, 2 ** 16, 5, 4))):
        call('7.9', f'{w} × {h} from column {window[0]} of row {window[1]} of 5 × 4',
             Frame(w, h, 0, 0, FULL, window=window, stride=15, lengths={'S': 60}, seed=18))


LARGE = [
    ('1.5', 1920, 1080, {'matrix': 1}),
    ('1.3', 1920, 1080, {'order': 2, 'sampling': 1, 'range_': 1, 'rounding': 1, 'stride': 7688, 'strides': (2048, 1024, 976)}),
    ('4.3', 1920, 1080, {'order': 1, 'range_': 1, 'matrix': 5, 'transfer': 1}),
    ('4.2', 1920, 1080, {'order': 3, 'sampling': 1, 'matrix': CUSTOM, 'kr': 0x3C75C28F, 'kb': 0x3ECED917, 'transfer': 2}),
    ('6.1', 1919, 1079, {'range_': 1}),
    ('6.4', 1919, 1079, {'sampling': 1, 'matrix': 2}),
    ('2.6', 1281, 721, {'order': 2, 'range_': 1, 'window': (319, 179, 1920, 1080), 'stride': 7680}),
    ('2.6', 640, 480, {'window': (1200, 300, 1920, 1080)}),
    ('6.3', 641, 359, {'order': 1, 'matrix': 3, 'range_': 1, 'transfer': 3}),
    ('6.4', 641, 359, {'order': 3, 'sampling': 1, 'matrix': 4, 'transfer': 3, 'rounding': 1}),
    ('3.5', 777, 333, {'range_': 1, 'rounding': 1}),
    ('2.4', 333, 777, {'order': 3, 'strides': (352, 170, 169), 'transfer': 2, 'rounding': 1}),
    ('7.3', 16384, 3, {'order': 1}),
    ('7.3', 3, 16384, {'order': 2}),
    ('7.3', 16383, 5, {'sampling': 1, 'range_': 1}),
    ('7.3', 5, 16383, {'sampling': 1, 'matrix': 5}),
    ('1.5', 145, 113, {}),
    ('1.5', 129, 128, {'sampling': 1, 'transfer': 1, 'rounding': 1}),
]


def large():
    v = List('large', 'Frame calls on frames of more than 16,384 pixels, with the SHA-256 of each plane.')
    for i, (rule, w, h, more) in enumerate(LARGE):
        frame = Frame(w, h, source=b'', planes=[b'', b'', b''], **more)
        lengths = [frame.stride * frame.window[3], frame.strides[0] * h, frame.strides[1] * frame.ch, frame.strides[2] * frame.ch]
        settings = f'{ORDERS[frame.order]}, {SAMPLINGS[frame.sampling]}, {RANGES[frame.range_]}, {MATRICES[frame.matrix]}, ' \
                   f'{TRANSFERS[frame.transfer]}, {ROUNDINGS[frame.rounding]}'
        where = f', from column {frame.window[0]} of row {frame.window[1]} of {frame.window[2]} × {frame.window[3]}' if 'window' in more else ''
        v.add(rule, f'{w} × {h}, {settings}{where}', f'seed {7000 + i} frame {frame.description()} {frame.stride} ' + ' '.join(map(str, lengths)))
    return v


def band_line(frame, carried, bands):
    """bands: rows, stride and bytes of each."""
    words = [f'bands {frame.description()}', *map(text_of, frame.planes), text_of(carried), str(len(bands))]
    return ' '.join(words + [f'{rows} {stride} {text_of(source)}' for rows, stride, source in bands])


def compositions(n):
    if n == 0:
        yield []
    for first in range(1, n + 1):
        for others in compositions(n - first):
            yield [first, *others]


def cut(frame, parts, more=0):
    """The bands of a frame whose source starts at row 0 of its window; each with `more` bytes of padding a row, and one more than the last."""
    bands, done = [], 0
    row = frame.window[2] * frame.c
    for i, rows in enumerate(parts):
        lines = [frame.source[(done + r) * frame.stride:(done + r) * frame.stride + row] for r in range(rows)]
        padding = more + i if more else 0
        bands.append((rows, row + padding, b''.join(line + bytes([0x55]) * padding for line in lines)))
        done += rows
    return bands


def bands():
    v = List('bands', 'Openings and the band calls behind them (RULES 8.1 to 8.9), each given what the one before left.')
    draw = Draw(303)

    def frame_of(w, h, order, sampling, **more):
        return Frame(w, h, order, sampling, FULL, seed=draw.below(10000), before=0xEE, **more)

    example = colours(0, [(255, 0, 0), (0, 255, 0), (0, 0, 255), (255, 255, 255), (9, 120, 60), (200, 10, 77)])
    frame = Frame(2, 3, 0, 0, FULL, source=example, before=0xEE)
    v.add('8.7', 'the example of the rule: 1 row, then 2', band_line(frame, b'\xcc' * 7, cut(frame, [1, 2])))
    for sampling, parts in product(range(2), compositions(4)):
        frame = frame_of(3, 4, draw.below(4), sampling)
        v.add('8.9', f'{SAMPLINGS[sampling]}, 3 × 4, {ORDERS[frame.order]}, in bands of {", ".join(map(str, parts))}',
              band_line(frame, b'\xcc' * 9, cut(frame, parts)))
    for parts in compositions(5):
        frame = frame_of(2, 5, draw.below(4), 0)
        v.add('8.6', f'4:2:0, 2 × 5, {ORDERS[frame.order]}, in bands of {", ".join(map(str, parts))}',
              band_line(frame, b'\xcc' * 6, cut(frame, parts)))
    for order in range(4):
        for parts in ([1, 1, 1], [1, 2], [2, 1], [3]):
            frame = frame_of(3, 3, order, 0, strides=(4, 3, 5))
            v.add('8.8', f'{ORDERS[order]}, 3 × 3, padding, bands of {", ".join(map(str, parts))}: the carried row has three bytes a pixel',
                  band_line(frame, b'\xcc' * 11, cut(frame, parts, 1)))
    frame = frame_of(3, 3, 1, 1)
    v.add('8.8', '4:2:2: the carried row is left', band_line(frame, b'\xcc' * 9, cut(frame, [1, 1, 1])))
    for order, sampling, (left, source_width) in product(range(4), range(2), ((1, 5), (2, 4))):
        w, h = (2, 3) if source_width == 4 else (3, 3)
        frame = frame_of(w, h, order, sampling, window=(left, 0, source_width, h))
        frame.window = (left, 2, source_width, h + 3)
        line = band_line(frame, b'\xcc' * (3 * w), cut(frame, [1, h - 1]))
        v.add('8.2', f'{ORDERS[order]}, {SAMPLINGS[sampling]}, a window from column {left} of {source_width}: left counts in each row, top in none',
              line)
    for i, (w, h, parts) in enumerate(((4, 5, [2, 3]), (5, 4, [1, 3]), (1, 6, [3, 3]), (6, 1, [1]), (3, 5, [4, 1]), (2, 2, [1, 1]))):
        frame = frame_of(w, h, draw.below(4), 0, matrix=CUSTOM, kr=0x3C75C28F, kb=0x3ECED917, transfer=i % 4, rounding=1)
        v.add('8.1', f'{w} × {h}, a Custom matrix and nearest tables, in bands of {", ".join(map(str, parts))}',
              band_line(frame, b'\xcc' * (3 * w), cut(frame, parts, 2)))
    # refused calls before, between and after
    for sampling in range(2):
        frame = frame_of(3, 5, 0, sampling)
        one, two, three = cut(frame, [1, 2, 2])
        rows, stride, source = two
        wrong = [('5: no row', (0, stride, source)), ('5: more than remain', (5, stride, source * 3)),
                 ('6: a byte short', (rows, stride, source[:-1])),
                 ('7: a stride too small', (rows, stride - 1, source)), ('12: a byte too many', (rows, stride, source + b'\0'))]
        for name, bad in wrong:
            v.add('8.3' if name[0] == '5' else '8.5', f'{SAMPLINGS[sampling]}, refused before, between and after, {name}',
                  band_line(frame, b'\xcc' * 9, [bad, one, bad, two, bad, three, bad]))
        v.add('8.9', f'{SAMPLINGS[sampling]}, every refusal between',
              band_line(frame, b'\xcc' * 9, [one, *(bad for _, bad in wrong), two, three, one]))
        v.add('8.3', f'{SAMPLINGS[sampling]}, all rows done, then one more', band_line(frame, b'\xcc' * 9, [*cut(frame, [5]), one]))
    for length in (0, 8, 9, 10):
        for sampling in range(2):
            frame = frame_of(3, 3, 0, sampling)
            v.add('8.4', f'{SAMPLINGS[sampling]}, a carried row of {length} bytes for 3 × 3', band_line(frame, b'\xcc' * length, cut(frame, [1, 2])))
    for name, strides, lengths in (('8', (2, 2, 2), {}), ('9', (3, 2, 2), {'Y': 8}), ('10', (3, 1, 2), {}), ('10 by length', (3, 2, 2), {'U': 3}),
                                   ('11', (3, 2, 1), {}), ('11 by length', (3, 2, 2), {'V': 3}), ('12', (3, 2, 2), {'V': 5})):
        frame = Frame(3, 3, strides=strides, lengths=lengths, seed=21)
        v.add('8.2', f'{name}: planes are those of the whole frame', band_line(frame, b'\xcc' * 9, cut(Frame(3, 3, seed=21), [1, 2])))
    greys = [(g, g, g) for g in (0, 255, 10, 128, 77, 200, 1, 254, 124)]
    frame = Frame(3, 3, 0, 0, LIMITED, 3, source=colours(0, greys), before=0xEE)
    v.add('6.5', 'grey in bands', band_line(frame, b'\xcc' * 9, cut(frame, [1, 1, 1])))
    return v


def states():
    v = List('states', 'Openings (RULES 8.1), and band calls on a state that is given (8.2): any state, also one that no call handed back.')
    draw = Draw(404)

    def opening(rule, text, frame):
        v.add(rule, text, f'open {frame.description()}')

    def band(rule, text, frame, done, rows, stride=None, source=None, carried=None):
        row = frame.window[2] * frame.c
        stride = row if stride is None else stride
        source = draw.bytes(min(stride * rows, 2000)) if source is None else source
        carried = draw.bytes(3 * min(frame.w, 100)) if carried is None else carried
        v.add(rule, text,
              f'band {frame.description()} {done} {rows} {stride} {text_of(source)} {" ".join(map(text_of, frame.planes))} {text_of(carried)}')

    small = dict(lengths=dict(zip('SYUV', (0, 0, 0, 0))))
    for w, h in ((4, 5), (0, 5), (4, 0), (4, 16385), (16384, 16384), (16385, 1), (MOST, 1)):
        opening('8.1', f'{w} × {h}', Frame(w, h, **small))
    opening('8.1', 'strides of 0, which the opening does not look at', Frame(4, 5, strides=(0, 0, 0), **small))
    for window in ((1, 2, 6, 8), (3, 2, 6, 8), (1, 4, 6, 8), (1, 2, 6, 16385), (MOST, 0, 6, 8), (0, 0, 0, 8)):
        opening('7.9', f'4 × 5 from column {window[0]} of row {window[1]} of {window[2]} × {window[3]}', Frame(4, 5, window=window, **small))
    for bits in (0x3F000000, 0x3F000001, 0x80000000, 0x80000001, 0x7FC00000):
        opening('7.4', f'kr {bits_of(bits)}', Frame(4, 5, matrix=CUSTOM, kr=bits, **small))
    for name, first in (('order', 4), ('sampling', 2), ('range_', 2), ('matrix', 7), ('transfer', 4), ('rounding', 2)):
        frame = Frame(4, 5, **small)
        setattr(frame, name, first)
        opening('1.2', f'1: {name.strip("_")} {first}', frame)
    for done, rows in ((0, 0), (0, 5), (0, 6), (3, 2), (3, 3), (5, 1), (6, 1), (MOST, 1), (MOST, MOST), (0, MOST), (4, 1)):
        band('8.3', f'h 5, {done} rows done, {rows} rows', Frame(4, 5, before=0xEE), done, rows)
    for order, sampling, done in product(range(4), range(2), (1, 2, 3)):
        band('8.7', f'{ORDERS[order]}, {SAMPLINGS[sampling]}, {done} rows done, and any carried row',
             Frame(3, 6, order, sampling, FULL, before=0xEE, strides=(4, 2, 3)), done, 2)
    for done, rows in ((0, 1), (1, 1), (1, 2), (2, 1), (2, 3), (4, 1), (3, 2)):
        band('8.8', f'4:2:0, h 5, {done} rows done, {rows} rows', Frame(2, 5, 2, 0, FULL, before=0xEE), done, rows, carried=b'\xcc' * 8)
    band('8.7', 'a window: left is not counted in the carried row',
         Frame(2, 4, 1, 0, FULL, window=(3, 2, 6, 9), before=0xEE, lengths=dict(S=0)), 1, 2)
    for length in (0, 11, 12, 13):
        band('8.4', f'a carried row of {length} bytes for w 4', Frame(4, 5, before=0xEE), 2, 2, carried=bytes(length))
    band('7.1', '14 and 5', Frame(4, 5, window=(3, 2, 6, 8), before=0xEE, lengths=dict(S=0)), 0, 0, source=b'')
    band('7.1', '5 and 6', Frame(4, 5, before=0xEE), 5, 1, source=b'')
    band('7.1', '6 and 13', Frame(4, 5, before=0xEE), 0, 1, source=b'', carried=b'')
    band('7.1', '12 and 13', Frame(4, 5, before=0xEE), 0, 1, source=bytes(13), carried=b'')
    for source_length, stride in ((36, 18), (35, 18), (24, 12), (35, 17), (54, 18), (38, 19)):
        band('7.5', f'a window of 6 × 8, {source_length} bytes, stride {stride}',
             Frame(4, 5, window=(1, 2, 6, 8), before=0xEE, lengths=dict(S=0)), 2, 2, stride, draw.bytes(source_length))
    band('7.5', 'a stride of 4,294,967,295: 6', Frame(1, 5, before=0xEE), 0, 5, MOST, draw.bytes(3))
    return v


def counts():
    v = List('counts', 'How many colours have each luma (RULES 5.3).')
    for range_, matrix, kr, kb in ((1, 0, 0, 0), (0, 2, 0, 0), (1, 3, 0, 0), (0, 5, 0, 0), (1, 6, 0, 0), (0, 6, 0x3C75C28F, 0x3ECED917)):
        name = MATRICES[matrix] + (f' {bits_of(kr)} {bits_of(kb)}' if matrix == CUSTOM else '')
        v.add('5.3', f'{RANGES[range_]}, {name}', f'counts {range_} {matrix} {bits_of(kr)} {bits_of(kb)}')
    for range_, matrix, kr, kb in ((2, 0, 0, 0), (0, 7, 0, 0), (MOST, MOST, 0, 0), (0, 6, 0x3F000001, 0), (1, 6, 0, 0x80000001),
                                   (0, 6, 0x7FC00000, 0)):
        v.add('5.3', f'refused: range {range_}, matrix {matrix}, {bits_of(kr)} {bits_of(kb)}',
              f'counts {range_} {matrix} {bits_of(kr)} {bits_of(kb)}')
    return v


# ---- shift files, RULES 11

def record(crossing, w, h, planes, settings=None):
    return rules.record_of(crossing, w, h, [bytes(plane) for plane in planes], bytes(settings or ()))


def drawn_record(draw, form, crossing=None, w=None, h=None, settings=None):
    crossing = draw.below(2 ** 32) if crossing is None else crossing
    w, h = w or draw.between(1, 5), h or draw.between(1, 5)
    if form and settings is None:
        settings = (draw.below(2), draw.of((0, 1, 255)), draw.of((0, 3, 6, 255)), draw.of((0, 3, 255)))
    sizes = rules.plane_sizes(w, h, settings[0] if form else 0)
    return record(crossing, w, h, [draw.bytes(size) for size in sizes], settings if form else None)


FIRST = record(1400, 3, 2, [[0x10, 0x11, 0x12, 0x20, 0x21, 0x22], [0x30, 0x31], [0x40, 0x41]])
SECOND = record(70000, 1, 1, [[0x50], [0x60], [0x70]])
FILE = rules.file_of([FIRST, SECOND])
SET_FIRST = record(1400, 3, 2, [[0x10, 0x11, 0x12, 0x20, 0x21, 0x22], [0x30, 0x31], [0x40, 0x41]], (0, 255, 255, 255))
SET_SECOND = record(70000, 2, 2, [[0x50, 0x51, 0x52, 0x53], [0x60, 0x61], [0x70, 0x71]], (1, 1, 6, 3))
SET_FILE = rules.file_of([SET_FIRST, SET_SECOND], rules.WITH)
EMPTY, SET_EMPTY = rules.file_of([]), rules.file_of([], rules.WITH)


def with_number(data, at, size, value):
    return data[:at] + value.to_bytes(size, 'little') + data[at + size:]


def broken_files():
    """Files with one thing wrong, or changed so that they stay right: name, rule, bytes."""
    found = [('no bytes', '11.3', b''), ('three bytes', '11.3', bytes(3)), ('no last byte', '11.3', FILE[:-1]),
             ('a byte behind', '11.3', FILE + b'\0')]
    for count in (0, 1, 3, 4097, 2 ** 31, MOST):
        found.append((f'count {count}', '11.1', with_number(FILE, 0, 4, count)))
    found.append(('the count high byte first', '11.1', with_number(FILE, 0, 4, 0x02000000)))
    for offset in (0, 27, 29, 2 ** 32 + 28, 2 ** 64 - 1):
        found.append((f'offset 0 is {offset}', '11.1', with_number(FILE, 4, 8, offset)))
    for offset in (28, 45, 47, 2 ** 64 - 1, 2 ** 32 + 46):
        found.append((f'offset 1 is {offset}', '11.1', with_number(FILE, 16, 8, offset)))
    for length in (0, 17, 19, 18 + 2 ** 24):
        found.append((f'length 0 is {length}', '11.1', with_number(FILE, 12, 4, length)))
    found.append(('pairs exchanged', '11.1', FILE[:4] + FILE[16:28] + FILE[4:16] + FILE[28:]))
    found.append(('a gap between records', '11.1', with_number(with_number(FILE[:46] + b'\0' + FILE[46:], 16, 8, 47), 12, 4, 18)))
    for at, name in ((32, 'w'), (34, 'h')):
        for side in (0, 1, 4, 16385, 65535):
            found.append((f'{name} of record 0 is {side}', '11.2', with_number(FILE, at, 2, side)))
    found.append(('w and h of record 0 exchanged', '11.2', with_number(with_number(FILE, 32, 2, 2), 34, 2, 3)))
    found.append(('w of record 0 high byte first', '11.2', with_number(FILE, 32, 2, 0x0300)))
    found.append(('crossing of record 1 is that of record 0', '11.2', with_number(FILE, 46, 4, 1400)))
    found.append(('last byte 255', '11.2', FILE[:-1] + b'\xff'))
    found += [(f'cut to {length} bytes', '11.3', FILE[:length]) for length in (4, 16, 27, 28, 35, 46, 53)]
    found += [('the first number less one', '11.7', with_number(SET_FILE, 0, 4, MOST - 1)), ('with settings, no last byte', '11.7', SET_FILE[:-1]),
              ('with settings, a byte behind', '11.7', SET_FILE + b'\0'), ('four bytes of 255', '11.7', b'\xff' * 4),
              ('255 and seven bytes', '11.7', SET_EMPTY[:-1]), ('with settings, without records', '11.7', SET_EMPTY),
              ('the file of 11.1 behind four bytes of 255', '11.7', b'\xff' * 4 + FILE),
              ('records without settings by 11.7', '11.7', rules.MARK + rules.file_of([FIRST, SECOND])[0:4] + FILE[4:]),
              ('records with settings by 11.1', '11.7', rules.file_of([SET_FIRST, SET_SECOND]))]
    for at, name, codes in ((62, 'sampling', (0, 2, 255)), (63, 'range', (0, 2, 254, 255)), (64, 'matrix', (0, 5, 7, 254, 255)),
                            (65, 'transfer', (0, 4, 254, 255))):
        for code in codes:
            found.append((f'{name} of record 1 is {code}', '11.7', with_number(SET_FILE, at, 1, code)))
    found.append(('first offset counted from behind the first number', '11.7', with_number(SET_FILE, 8, 8, 28)))
    one = record(9, 1, 1, [[1], [2], [3]], (0, 255, 255, 255))
    for sampling in (0, 1):
        found.append((f'one pixel with settings, sampling {sampling}', '11.7', rules.file_of([one[:8] + bytes([sampling]) + one[9:]], rules.WITH)))
    return found


def shift():
    v = List('shift', 'Calls on shift files of both forms, good and broken (RULES 11.4 to 11.8).')
    draw = Draw(505)
    good = [('the file of 11.1', FILE), ('without records', EMPTY), ('the file of 11.7', SET_FILE), ('with settings, without records', SET_EMPTY)]
    for form in (0, 1):
        records = [drawn_record(draw, form) for _ in range(9)]
        good.append((f'nine records, form {form}', rules.file_of(records, form)))
    for name, data in good:
        for first, room in ((0, 10), (0, 1), (1, 5), (2, 5), (2 ** 64 - 1, 5), (0, 0)):
            v.add('11.4', f'{name}, from record {first} on, room for {room}', f'read-any {first} {room} {text_of(data)}')
        v.add('11.4', f'{name}, by the call for files without settings', f'read 0 10 {text_of(data)}')
    for name, rule, data in broken_files():
        v.add(rule, name, f'read-any 0 3 {text_of(data)}')
        v.add(rule, f'{name}, by the call for files without settings', f'read 0 3 {text_of(data)}')
    for bit in range(0, 8 * len(FILE), 11):
        data = bytearray(FILE)
        data[bit // 8] ^= 1 << bit % 8
        v.add('11.3', f'bit {bit} changed', f'read-any 0 2 {text_of(data)}')
    for bit in range(0, 8 * len(SET_FILE), 13):
        data = bytearray(SET_FILE)
        data[bit // 8] ^= 1 << bit % 8
        v.add('11.7', f'with settings, bit {bit} changed', f'read-any 0 2 {text_of(data)}')
    # writing
    for form, records in ((0, [FIRST, SECOND]), (0, [SECOND]), (0, []), (1, [SET_FIRST, SET_SECOND]), (1, [])):
        whole = b''.join(records)
        size = rules.start_of(form, len(records)) + len(whole)
        for room in sorted({0, size - 1, size, size + 3}):
            v.add('11.5', f'form {form}, {len(records)} records, output of {room} bytes',
                  f'write {form} {text_of(whole)} {text_of(bytes([0xEE]) * room)}')
    for name, form, data in (('no last byte', 0, (FIRST + SECOND)[:-1]), ('seven bytes of a third', 0, FIRST + SECOND + SECOND[:7]),
                             ('a file for records', 0, FILE), ('records of the other form', 1, FIRST + SECOND),
                             ('records of the other form', 0, SET_FIRST + SET_SECOND), ('w 0', 0, with_number(SECOND, 4, 2, 0)),
                             ('h 16385', 0, with_number(SECOND, 6, 2, 16385)), ('range 254', 1, with_number(SET_FIRST, 9, 1, 254)),
                             ('no last byte', 1, SET_SECOND[:-1])):
        v.add('11.3', f'records to be written, form {form}: {name}', f'write {form} {text_of(data)} {text_of(bytes([0xEE]) * 90)}')
    many = [record(i, 1, 1, [[1], [2], [3]]) for i in range(4097)]
    for count in (4096, 4097):
        v.add('11.1', f'{count} records to be written, of which 4,096 are the most', f'write 0 {b"".join(many[:count]).hex()} -')
    v.add('11.1', 'a file of 4,097 records', f'read-any 0 0 {rules.file_of(many).hex()}')
    # records from planes
    def make(rule, text, numbers, planes, room, settings=None):
        word = 'record' if settings is None else 'record-settings'
        words = [word, *map(str, numbers), *map(str, settings or ()), *map(text_of, planes), text_of(bytes([0xEE]) * room)]
        v.add(rule, text, ' '.join(words))

    y, u, vv = bytes([0x10, 0x11, 0x12, 0x99, 0x20, 0x21, 0x22, 0x99]), bytes([0x30, 0x31, 0x99]), bytes([0x40, 0x41])
    for room in (0, 17, 18, 20):
        make('11.6', f'3 × 2, output of {room} bytes', (1400, 3, 2, 4, 3, 2), (y, u, vv), room)
    for name, numbers, planes in (('8', (1, 3, 2, 2, 3, 2), (y, u, vv)), ('9', (1, 3, 2, 4, 3, 2), (y[:6], u, vv)),
                                  ('10', (1, 3, 2, 4, 1, 2), (y, u, vv)),
                                  ('10 by length', (1, 3, 2, 4, 3, 2), (y, u[:1], vv)), ('11', (1, 3, 2, 4, 3, 1), (y, u, vv)),
                                  ('11 by length', (1, 3, 2, 4, 3, 2), (y, u, vv[:1])), ('12 of Y', (1, 3, 2, 4, 3, 2), (y[:7], u, vv)),
                                  ('12 of V', (1, 3, 2, 4, 3, 2), (y, u, vv + b'\0')), ('15: w 0', (1, 0, 2, 4, 3, 2), (y, u, vv)),
                                  ('15: w 16385', (1, 16385, 2, 4, 3, 2), (y, u, vv)), ('15: h 4294967295', (1, 3, MOST, 4, 3, 2), (y, u, vv))):
        make('11.6', f'refused {name}', numbers, planes, 20)
    make('11.6', '8 before 16', (1, 3, 2, 2, 3, 2), (y, u, vv), 0)
    make('11.6', 'the largest crossing number, 1 × 1', (MOST, 1, 1, 1, 1, 1), (b'\1', b'\2', b'\3'), 11)
    make('11.6', '300 × 1', (7, 300, 1, 300, 150, 150), (draw.bytes(300), draw.bytes(150), draw.bytes(150)), 608)
    u2, v2 = bytes([0x30, 0x31, 0x99, 0x32, 0x33, 0x99]), bytes([0x40, 0x41, 0x42, 0x43])
    for settings in ((1, 0, 1, 255), (1, 1, 6, 3), (1, 255, 255, 255)):
        make('11.6', f'4:2:2 with settings {settings}', (1400, 3, 2, 4, 3, 2), (y, u2, v2), 27, settings)
    make('11.6', '4:2:0 with settings', (1400, 3, 2, 4, 3, 2), (y, u, vv), 24, (0, 1, 2, 3))
    make('11.6', '4:2:2 with planes of 4:2:0', (1400, 3, 2, 4, 3, 2), (y, u, vv), 30, (1, 0, 1, 255))
    for settings in ((2, 0, 1, 255), (255, 0, 1, 255), (1, 254, 1, 255), (1, 0, 7, 255), (1, 0, 1, 4), (1, 256, 1, 255), (257, 0, 1, 255)):
        make('11.7', f'15: settings {settings}', (1400, 3, 2, 4, 3, 2), (y, u2, v2), 27, settings)
    # moving
    moved = rules.file_of([rules.forward(r) for r in (FIRST, SECOND)], rules.WITH)
    for name, to, data, size in (('the file of 11.1', 1, FILE, 69), ('that file moved', 0, moved, 57), ('without records', 1, EMPTY, 8),
                                 ('without records', 0, SET_EMPTY, 4)):
        for room in sorted({0, size - 1, size, size + 2}):
            v.add('11.8', f'{"forward" if to else "back"}, {name}, output of {room} bytes',
                  f'move {to} {text_of(data)} {text_of(bytes([0xEE]) * room)}')
    for name, to, data in (('a file with settings forward', 1, SET_FILE), ('a file without settings back', 0, FILE),
                           ('broken, forward', 1, FILE[:-1]),
                           ('broken, back', 0, moved[:-1]), ('20: 4:2:2 and settings', 0, SET_FILE)):
        v.add('11.8', name, f'move {to} {text_of(data)} {text_of(bytes([0xEE]) * 80)}')
    for at, name, codes in ((62, 'sampling', (1, 2)), (63, 'range', (0, 1, 2)), (64, 'matrix', (0, 6, 7)), (65, 'transfer', (0, 3, 4))):
        for code in codes:
            v.add('11.8', f'back, {name} of record 1 is {code}', f'move 0 {text_of(with_number(moved, at, 1, code))} -')
    v.add('11.8', '20 before 16, in the first record', f'move 0 {text_of(with_number(moved, 41, 1, 0))} -')
    v.add('11.8', '15 before 20', f'move 0 {text_of(with_number(moved, 41, 1, 0)[:-1])} -')
    return v


def summaries():
    v = List('summaries', 'Calls on summaries of shift files (RULES 12.4 to 12.7).')
    draw = Draw(606)
    third = record(70000, 2, 1, [[0x80, 0x83], [0x60], [0x70]])
    three = rules.file_of([SECOND, FIRST, third])
    summary = rules.summary_in(three)
    files = [('the file of 12.1', three), ('that file moved forward', rules.file_of([rules.forward(r) for r in (SECOND, FIRST, third)], rules.WITH)),
             ('without records', EMPTY), ('with settings, without records', SET_EMPTY), ('the file of 11.7', SET_FILE)]
    for form in (0, 1):
        crossings = [5, MOST, 0, 5, 2 ** 31, 256, 5, 1, 65536]
        files.append((f'nine records, form {form}', rules.file_of([drawn_record(draw, form, crossing) for crossing in crossings], form)))
    bright = record(3, 2, 2, [[255, 255, 255, 254], [1], [2]])
    full = record(2, 40, 40, [[255] * 1600, [0] * 400, [0] * 400])
    files.append(('means that are cut off, and a sum of more than 16 bits', rules.file_of([bright, full, record(1, 2, 2, [[0, 0, 0, 3], [9], [9]])])))
    for name, data in files:
        size = 13 * len(rules.any_entries(data))
        rule = '12.2' if 'means' in name else '12.3' if 'nine' in name else '12.4'
        for room in sorted({max(size - 1, 0), size, size + 2}):
            v.add(rule, f'{name}, buffer of {room} bytes', f'build {text_of(data)} {text_of(bytes([0xEE]) * room)}')
    v.add('12.1', 'one record', f'build {text_of(rules.file_of([SECOND]))} {text_of(bytes(13))}')
    v.add('12.4', '15 before 17', f'build {text_of(three[:-1])} -')
    last = bytearray(summary)
    last[-1] ^= 1
    exchanged = summary[:13] + summary[26:] + summary[13:26]
    wrong_offset, high = bytearray(summary), bytearray(summary)
    wrong_offset[17] ^= 12
    high[11] = 1
    for name, given in (('nothing changed', summary), ('a byte behind', summary + b'\0'), ('no last byte', summary[:-1]),
                        ('the last mean another', last),
                        ('entries of one crossing exchanged', exchanged), ('an offset another', wrong_offset),
                        ('the highest byte of an offset', high),
                        ('in the order of the file', b''.join(rules.entry_of(e, three) for e in rules.any_entries(three))), ('no bytes', b''),
                        ('an entry twice', summary[:13] + summary[13:26] * 2),
                        ('one of two records', rules.summary_in(rules.file_of([SECOND, FIRST])))):
        v.add('12.5', name, f'check {text_of(three)} {text_of(given)}')
        v.add('12.6', f'{name}, crossing 70000', f'find 70000 {text_of(three)} {text_of(given)}')
    v.add('12.5', 'a broken file', f'check {text_of(three[:-1])} {text_of(summary)}')
    v.add('12.5', 'without records and without bytes', f'check {text_of(EMPTY)} -')
    for name, data in files[:2] + files[5:7]:
        for crossing in (1400, 70000, 0, 5, MOST, 2 ** 31):
            v.add('12.6', f'{name}, crossing {crossing}', f'find {crossing} {text_of(data)} {text_of(rules.summary_in(data))}')
    v.add('12.6', '15 before 17', f'find 1400 {text_of(three[:-1])} -')
    two = rules.file_of([SECOND, FIRST])
    two_summary = rules.summary_in(two)
    for name, added in (('a crossing before all', record(5, 3, 2, [[0x10, 0x11, 0x12, 0x20, 0x21, 0x22], [0x30, 0x31], [0x40, 0x41]])),
                        ('a crossing once more', third),
                        ('a crossing behind all', record(MOST, 1, 1, [[9], [9], [9]])), ('no record', b''), ('two records', FIRST + SECOND),
                        ('a record without its last byte', FIRST[:-1]), ('a record with a byte behind', FIRST + b'\0'),
                        ('a record of the other form', SET_SECOND)):
        for room in (12, 13, 15):
            v.add('12.7', f'{name}, {room} bytes behind the summary',
                  f'update {text_of(two)} {text_of(added)} {text_of(two_summary + bytes([0xEE]) * room)}')
    v.add('12.7', 'a summary that is not the file\'s', f'update {text_of(two)} {text_of(third)} {text_of(bytes([0xEE]) * 39)}')
    v.add('12.7', 'a file with settings', f'update {text_of(SET_FILE)} {text_of(SET_FIRST)} {text_of(rules.summary_in(SET_FILE) + bytes(13))}')
    v.add('12.7', 'a file with settings and a record without',
          f'update {text_of(SET_FILE)} {text_of(FIRST)} {text_of(rules.summary_in(SET_FILE) + bytes(13))}')
    v.add('12.7', 'a broken file', f'update {text_of(two[:-1])} {text_of(third)} -')
    nine_records = files[5][1]
    for crossing in (5, 0, MOST, 6):
        given = [nine_records, drawn_record(draw, 0, crossing), rules.summary_in(nine_records) + bytes([0xEE]) * 14]
        v.add('12.7', f'nine records and one of crossing {crossing}', 'update ' + ' '.join(map(text_of, given)))
    return v


def pairs():
    v = List('pairs', 'Two shift files paired (RULES 13.4).')
    draw = Draw(707)

    def one(crossing, luma):
        return record(crossing, 1, 1, [[luma], [0x60], [0x70]])

    other_first = FIRST[:-1] + b'\x42'
    ours = [SECOND, FIRST, one(9, 0x11), one(70000, 0x51), one(30, 0x22)]
    theirs = [other_first, one(8, 0x33), one(70000, 0x51), FIRST, one(30, 0x22)]

    def pair(rule, text, a, b, forms=(0, 0)):
        files = [rules.file_of(list(records), form) if isinstance(records, (list, tuple)) else records for records, form in zip((a, b), forms)]
        v.add(rule, text, 'pair ' + ' '.join(map(text_of, files)))

    pair('13.1', 'the files of the rule', ours, theirs)
    pair('13.1', 'the same, exchanged', theirs, ours)
    for a, b in (([5, 5, 5], [5, 5]), ([MOST, 0], [0, MOST]), ([1, 2], [3]), ([5, 6, 5], [6, 5, 5]), ([2 ** 31, 1], [1, 2 ** 31]),
                 ([256, 1], [1, 256])):
        pair('13.1', f'crossings {a} in ours, {b} in theirs', [one(c, i) for i, c in enumerate(a)], [one(c, 10 * i) for i, c in enumerate(b)])
    pair('13.2', 'ours as both', ours, ours)
    pair('13.2', 'ours, and its records in the opposite order', ours, ours[::-1])
    pair('13.2', 'ours, and no records', ours, [])
    pair('13.2', 'no records in either', [], [])
    moved = [rules.forward(r) for r in ours]
    pair('13.2', 'ours, and ours moved forward', ours, moved, (0, 1))
    pair('13.2', 'the same, ranges, matrices and transfers recorded', ours, [r[:9] + b'\1\1\1' + r[12:] for r in moved], (0, 1))
    pair('13.2', 'the same, 4:2:2 where that has as many bytes', ours, [r[:8] + b'\1' + r[9:] if len(r) == 15 else r for r in moved], (0, 1))
    pair('13.2', 'with settings and without, no records', [], [], (1, 0))
    for at in range(8, 18):
        changed = bytearray(FIRST)
        changed[at] ^= 128
        pair('13.3', f'byte {at} of the record of 3 × 2 another', [FIRST], [bytes(changed)])
    for places in ((17, 14), (16, 13), (12, 10), (8, 17), (15, 16)):
        changed = bytearray(FIRST)
        for at in places:
            changed[at] ^= 1
        pair('13.3', f'bytes {places[0]} and {places[1]} another', [FIRST], [bytes(changed)])
    for at in range(9, 20):
        changed = bytearray(SET_SECOND)
        changed[at] ^= 2 if at > 11 else 0
        if at <= 11:
            changed[at] = 255 if changed[at] != 255 else 0
        pair('13.3', f'byte {at} of the record of 2 × 2 in 4:2:2 another', [SET_SECOND], [bytes(changed)], (1, 1))
    pair('13.3', 'w and h exchanged', ours, [with_number(with_number(other_first, 4, 2, 2), 6, 2, 3)] + theirs[1:])
    pair('13.3', 'the lowest crossing is told, whatever its place', ours, theirs[:-1] + [one(30, 0x23)])
    pair('13.3', 'other samplings', [SET_SECOND], [record(70000, 2, 2, [[0x50, 0x51, 0x52, 0x53], [0x60], [0x70]], (0, 1, 6, 3))], (1, 1))
    for w, h in ((3, 3), (8, 2), (9, 3), (17, 1), (16, 4), (7, 7), (24, 3)):
        base = drawn_record(draw, 0, 4, w, h)
        for time in ('once', 'again'):
            changed = bytearray(base)
            for _ in range(draw.between(1, 3)):
                changed[8 + draw.below(len(base) - 8)] ^= 1 << draw.below(8)
            pair('13.3', f'{w} × {h}, up to three bits another, {time}', [base], [bytes(changed)])
    good, bad = rules.file_of(ours), rules.file_of(ours)[:-1]
    pair('13.4', 'ours without its last byte', bad, good)
    pair('13.4', 'theirs without its last byte', good, bad)
    pair('13.4', 'both without their last bytes', bad, bad)
    pair('13.4', 'no bytes as ours', b'', EMPTY)
    pair('13.4', 'no bytes as theirs', EMPTY, b'')
    pair('13.4', 'with settings and without its last byte', SET_FILE[:-1], good)
    for i in range(8):
        crossings = [draw.below(4) for _ in range(6)]
        first = [drawn_record(draw, 0, c, draw.between(1, 2), draw.between(1, 2)) for c in crossings]
        second = draw.shuffled(first)[:draw.between(3, 6)]
        pair('13.2', f'any records, {i}', first, second)
    return v


# ---- Y4M files, RULES 14

Y4M_HEADER = b'YUV4MPEG2 W3 H2 F25:1 Ip C420jpeg\n'
Y4M_FIRST = b'FRAME\n' + bytes([0x10, 0x11, 0x12, 0x20, 0x21, 0x22, 0x30, 0x31, 0x40, 0x41])
Y4M_SECOND = b'FRAME Ip W9\n' + b'\nFRAME\n\n  '
Y4M_FILE = Y4M_HEADER + Y4M_FIRST + Y4M_SECOND
Y4M_1 = b'YUV4MPEG2 W1 H1\n'


def y4m_headers():
    """Lines for the header: rule, bytes."""
    found = [('14.1', line) for line in (
        b'YUV4MPEG2 W4 H2\n', b'YUV4MPEG2 W4 H2 FRAME\n', b'YUV4MPEG2 W4 H2 X\r\n', b'YUV4MPEG2 W4 H2 \0\n', b'YUV4MPEG2 W4 H2 \t\xff\n',
        b'YUV4MPEG2  W4 H2\n', b'YUV4MPEG2 W4  H2\n', b'YUV4MPEG2 W4 H2 \n', b' YUV4MPEG2 W4 H2\n', b'YUV4MPEG2 W4\tH2\n', b'YUV4MPEG2\n',
        b'YUV4MPEG W4 H2\n', b'YUV4MPEG21 W4 H2\n', b'yuv4mpeg2 W4 H2\n', b'FRAME W4 H2\n', b'YUV4MPEG2 W4 H2', b'\n', b'',
        b'\nYUV4MPEG2 W4 H2\n', b'YUV4MPEG2 W4 H2\n\n', b'YUV4MPEG2 W4 H2 ' + b'X' * 239 + b'\n', b'YUV4MPEG2 W4 H2 ' + b'X' * 240 + b'\n',
        b'YUV4MPEG2 W4 H2' + b' X' * 120 + b'\n', b'YUV4MPEG2 W4 H2' + b' X' * 121 + b'\n')]
    found += [('14.2', b'YUV4MPEG2 ' + tags + b'\n') for tags in (
        b'H2 W4', b'C422 XW5 H2 A1:1 W4', b'W4 H2 C420', b'W4 H2 C420jpeg', b'W4 H2 C420mpeg2', b'W4 H2 C422', b'W1 H16384', b'W16384 H1',
        b'W4 H2 F25:1 F30:1 F F', b'W4 H2 w5 h6 c444', b'W4 H2 c420 C422', b'W4 H2 X C422', b'W4', b'H2', b'W4 W4 H2', b'W4 H2 H2', b'W4 H2 W',
        b'W H2', b'W4 H', b'W04 H2', b'W4 H02', b'W0 H2', b'W4 H0', b'W+4 H2', b'W-4 H2', b'W4. H2', b'W0x4 H2', b'W4a H2', b'W4\r H2', b'W4 H2\r',
        b'W4,H2', b'W16385 H2', b'W4 H16385', b'W65540 H2', b'W4 H4294967298', b'W18446744073709551620 H2', b'W1' + b'0' * 200 + b' H2',
        b'W4 H' + b'9' * 230, b'Wide4 W4 H2', b'W4 H2 Hello', b'W4 H2 C', b'W4 H2 C420 C420', b'W4 H2 C420 Cx', b'W4 H2 C420paldv', b'W4 H2 C420jpe',
        b'W4 H2 C420jpegs', b'W4 H2 C420p10', b'W4 H2 C422p10', b'W4 H2 C444', b'W4 H2 C411', b'W4 H2 Cmono', b'W4 H2 C0420', b'W4 H2 C420\r')]
    return found


def shown(data):
    """Bytes in the manner of the examples of RULES 14.1."""
    text = ''.join(chr(byte) if 32 <= byte < 127 else f'<{byte:02X}>' for byte in data)
    return f'{text[:60]} .. of {len(data)} bytes' if len(text) > 80 else text or 'no bytes'


def y4m():
    v = List('y4m', 'Calls on Y4M files, good and broken (RULES 14.5 to 14.7).')
    draw = Draw(808)

    def read(rule, text, data, first=0, room=3):
        v.add(rule, text, f'y4m-read {first} {room} {text_of(data)}')

    for rule, line in y4m_headers():
        read(rule, shown(line), line)
    for line in (b'FRAME\n', b'FRAME Ip\n', b'FRAME W4 W5 H0 C444\n', b'FRAME X\r\n', b'FRAME \0\t\xff\n', b'FRAME FRAME\n', b'FRAME \n',
                 b'FRAME  Ip\n',
                 b'FRAME Ip \n', b'FRAME\r\n', b'FRAMEIp\n', b'FRAME\tIp\n', b'FRAMES\n', b'frame\n', b' FRAME\n', b'\n', b'', b'FRAME', b'FRAME\n\n',
                 Y4M_1,
                 b'FRAME ' + b'X' * 249 + b'\n', b'FRAME ' + b'X' * 250 + b'\n'):
        read('14.1', f'before a picture of 1 × 1: {shown(line)}', Y4M_1 + line + b'123')
        read('14.4', f'before the second picture of 3 × 2: {shown(line)}', Y4M_HEADER + Y4M_FIRST + line + Y4M_SECOND[-10:])
    for name, data in (('the file of the rule', Y4M_FILE), ('no pictures', Y4M_HEADER), ('its first picture', Y4M_HEADER + Y4M_FIRST),
                       ('its second picture', Y4M_HEADER + Y4M_SECOND), ('the second before the first', Y4M_HEADER + Y4M_SECOND + Y4M_FIRST)):
        for first, room in ((0, 3), (0, 2), (0, 1), (1, 5), (2, 5), (2 ** 64 - 1, 5), (0, 0)):
            read('14.5', f'{name}, from picture {first} on, room for {room}', data, first, room)
    for sampling, tag in ((0, b''), (0, b' C420mpeg2'), (1, b' C422')):
        for w, h in ((1, 1), (2, 2), (3, 3), (5, 1), (1, 4), (4, 3)):
            planes = sum(rules.plane_sizes(w, h, sampling))
            for more in (-1, 0, 1):
                data = b'YUV4MPEG2 H%d W%d%s\n' % (h, w, tag) + b'FRAME\n' + draw.bytes(planes) + b'FRAME X\n' + draw.bytes(planes + more)
                read('14.3', f'{w} × {h}, {tag.decode().strip() or "no tag C"}, two pictures' + {-1: ', no last byte', 0: '', 1: ', a byte behind'}[more], data)
    for name, data in (('no last byte', Y4M_FILE[:-1]), ('a newline behind', Y4M_FILE + b'\n'), ('FRAME and newline behind', Y4M_FILE + b'FRAME\n'),
                       ('9 bytes of a third', Y4M_FILE + b'FRAME\n123456789'), ('a third', Y4M_FILE + b'FRAME\n1234567890'), ('no header', Y4M_FIRST),
                       ('the header twice', Y4M_HEADER + Y4M_FILE), ('a newline behind the header', Y4M_HEADER + b'\n' + Y4M_FIRST),
                       ('a newline behind the first picture', Y4M_HEADER + Y4M_FIRST + b'\n' + Y4M_SECOND),
                       ('a byte of the first Y left out', Y4M_FILE[:40] + Y4M_FILE[41:]),
                       ('planes of newlines', Y4M_HEADER + b'FRAME\n' + b'\n' * 10),
                       ('W2 H3', Y4M_FILE.replace(b'W3 H2', b'W2 H3')), ('W4 H2', Y4M_FILE.replace(b'W3 H2', b'W4 H2')),
                       ('C422', Y4M_FILE.replace(b'C420jpeg', b'C422')), ('the largest sides, no planes', b'YUV4MPEG2 W16384 H16384\nFRAME\n')):
        read('14.4', name, data)
    for at in range(0, len(Y4M_FILE), 5):
        read('14.4', f'cut to {at} bytes', Y4M_FILE[:at])
        read('14.4', f'byte {at} a newline', Y4M_FILE[:at] + b'\n' + Y4M_FILE[at + 1:])
        read('14.4', f'byte {at} a space', Y4M_FILE[:at] + b' ' + Y4M_FILE[at + 1:])

    def write(text, numbers, pictures, room):
        v.add('14.6', text, f'y4m-write {" ".join(map(str, numbers))} {text_of(pictures)} {text_of(bytes([0xEE]) * room)}')

    for w, h, sampling in ((3, 2, 0), (3, 2, 1), (1, 1, 0), (1, 1, 1), (10, 1, 0), (12, 7, 1), (100, 1, 0)):
        one = sum(rules.plane_sizes(w, h, sampling))
        for count in (0, 1, 2):
            pictures = draw.bytes(count * one)
            size = rules.written_size(w, h, sampling, len(pictures))
            for room in (size - 1, size, size + 2):
                write(f'{w} × {h}, {SAMPLINGS[sampling]}, {count} pictures, output of {room} bytes', (w, h, sampling), pictures, room)
        for length in (1, one - 1, one + 1):
            write(f'{w} × {h}, {SAMPLINGS[sampling]}, {length} bytes of pictures', (w, h, sampling), draw.bytes(length), 100)
    write('bytes that are lines themselves', (3, 2, 0), b'\nFRAME\n\n  ' * 2, 66)
    for numbers in ((0, 2, 0), (3, 0, 0), (16384, 1, 0), (1, 16384, 1), (16385, 1, 0), (1, 16385, 0), (1, MOST, 0), (65536, 65536, 0), (3, 2, 2),
                    (3, 2, 256),
                    (3, 2, MOST), (MOST, MOST, MOST)):
        write(f'{numbers[0]} × {numbers[1]}, sampling {numbers[2]}, no bytes', numbers, b'', 60)
    write('19 before 16', (3, 2, 0), bytes(9), 0)

    def picture(text, numbers, planes, room):
        v.add('14.7', text, f'y4m-picture {" ".join(map(str, numbers))} {" ".join(map(text_of, planes))} {text_of(bytes([0xEE]) * room)}')

    y, u, vv = bytes([0x10, 0x11, 0x12, 0x99, 0x20, 0x21, 0x22, 0x99]), bytes([0x30, 0x31, 0x99]), bytes([0x40, 0x41])
    for room in (0, 15, 16, 18):
        picture(f'3 × 2, output of {room} bytes', (3, 2, 0, 4, 3, 2), (y, u, vv), room)
    picture('3 × 2, 4:2:2', (3, 2, 1, 4, 3, 2), (y, u + u, vv + vv), 22)
    picture('planes of 4:2:0 for 4:2:2', (3, 2, 1, 4, 3, 2), (y, u, vv), 22)
    picture('planes of 4:2:2 for 4:2:0', (3, 2, 0, 4, 3, 2), (y, u + u, vv + vv), 22)
    for sampling in (0, 1, 2):
        picture(f'3 × 1, planes of either sampling, sampling {sampling}', (3, 1, sampling, 3, 2, 2), (y[:3], u[:2], vv), 13)
    for text, numbers, planes in (('Y stride below w', (3, 2, 0, 2, 3, 2), (y[:4], u, vv)), ('U stride below cw', (3, 2, 0, 4, 1, 2), (y, u[:1], vv)),
                                  ('V stride below cw', (3, 2, 0, 4, 3, 1), (y, u, vv[:1])),
                                  ('Y without its last padding', (3, 2, 0, 4, 3, 2), (y[:7], u, vv)),
                                  ('Y a byte longer', (3, 2, 0, 4, 3, 2), (y + b'0', u, vv)),
                                  ('U without its padding', (3, 2, 0, 4, 3, 2), (y, u[:2], vv)),
                                  ('V a byte longer', (3, 2, 0, 4, 3, 2), (y, u, vv + b'0')), ('V empty', (3, 2, 0, 4, 3, 2), (y, u, b'')),
                                  ('all 0', (0, 0, 0, 0, 0, 0), (b'', b'', b'')),
                                  ('strides of 32 bits', (1, 1, 0, MOST, MOST, MOST), (b'1', b'2', b'3'))):
        picture(f'19: {text}', numbers, planes, 16)
    picture('19 before 16', (3, 2, 0, 2, 3, 2), (y[:4], u, vv), 0)
    return v


# ---- convoys, RULES 15

class Convoy:
    """Frames of a convoy: their descriptions, strides of the source, and parts of the source, Y, U and V."""

    def __init__(self, lengths, seed, before=0xEE):
        self.source, self.planes = Draw(seed).bytes(lengths[0]), [bytes([before]) * length for length in lengths[1:]]
        self.frames = []

    def add(self, frame, *parts):
        self.frames.append((frame, parts))
        return self

    def line(self):
        words = ['convoy', text_of(self.source), *map(text_of, self.planes), str(len(self.frames))]
        for frame, parts in self.frames:
            words += [frame.description(), str(frame.stride), *(str(number) for part in parts for number in part)]
        return ' '.join(words)


def pixel_frame(**more):
    return Frame(1, 1, 0, 0, FULL, source=b'', planes=[b'', b'', b''], **more)


def pixels(count, parts=None):
    """Frames of one pixel each, frame k with pixel k and with byte count − 1 − k of each plane; other parts by place and buffer."""
    convoy = Convoy([3 * count, count, count, count], 900 + count)
    for k in range(count):
        own = [(3 * k, 3), *[(count - 1 - k, 1)] * 3]
        for (place, buffer), part in (parts or {}).items():
            if place == k:
                own['SYUV'.index(buffer)] = part
        convoy.add(pixel_frame(), *own)
    return convoy


def convoys():
    v = List('convoys', 'Several frames in one call (RULES 15.3).')
    draw = Draw(909)
    top = 2 ** 64
    for buffer, length in (('S', 9), ('Y', 3), ('U', 3), ('V', 3)):
        own = {'S': 3}.get(buffer, 1)
        for part in ((length - own, own), (length - own + 1, own), (length, 0), (length + 1, 0), (0, length + 1), (top - 1, 2), (top - own, own),
                     (own, top - own)):
            v.add('15.1', f'{"source" if buffer == "S" else buffer} of {length} bytes, part {part[0]} {part[1]} of frame 0',
                  pixels(3, {(0, buffer): part}).line())
    for buffer in 'YUV':
        for part in ((0, 1), (0, 2), (1, 1), (1, 0), (2, 0), (0, 0), (3, 0)):
            v.add('15.2', f'{buffer}: part {part[0]} {part[1]} of frame 2 beside 1 1 of frame 1 and 2 1 of frame 0',
                  pixels(3, {(2, buffer): part}).line())
    v.add('15.2', 'frames 0 and 2 have one byte of V', pixels(3, {(0, 'V'): (0, 1)}).line())
    v.add('15.2', 'the three with one part of the source', pixels(3, {(k, 'S'): (3, 3) for k in range(3)}).line())
    for count in (0, 1, 2, 63, 64, 65):
        v.add('15.2', f'{count} frames', pixels(count).line())
    for place, text, changes in [(place, *change) for place in range(3) for change in (
            ('stride 2', {'stride': 2}), ('range 2', {'range_': 2}), ('rounding 2', {'rounding': 2}),
            ('kr 1 of Custom', {'matrix': CUSTOM, 'kr': 0x3F800000}),
            ('w 0', {'w': 0}), ('window outside', {'left': 1}))]:
        convoy = pixels(3)
        frame = convoy.frames[place][0]
        for name, value in changes.items():
            if name == 'left':
                frame.window = (value, 0, 1, 1)
            else:
                setattr(frame, name, value)
        v.add('15.3', f'frame {place} of three: {text}', convoy.line())
    for buffer in 'YUV':
        v.add('15.3', f'frame 1 with a part of no bytes of {buffer}', pixels(3, {(1, buffer): (1, 0)}).line())
    for first in (1, 7):
        convoy = pixels(3, {(2, 'Y'): (1, 1)})
        setattr(convoy.frames[0][0], 'matrix', first)
        v.add('15.3', f'18 before the frames, matrix {first} of frame 0', convoy.line())
    for i in range(24):
        v.add('15.4', f'frames of other sizes, settings and strides, {i}', mixed_convoy(draw, i).line())
    return v


def mixed_convoy(draw, i):
    """Frames of any settings over one source, their planes one behind the other with gaps; every third one has a frame that is refused."""
    frames, ends = [], [0, 0, 0, 0]
    for _ in range(draw.between(1, 5)):
        w, h, order, sampling = draw.between(1, 5), draw.between(1, 4), draw.below(4), draw.below(2)
        left, top = draw.below(3), draw.below(2)
        window = left, top, left + w + draw.below(2), top + h + draw.below(2)
        cw, ch = (w + 1) // 2, h if sampling else (h + 1) // 2
        strides = [row + draw.below(3) for row in (w, cw, cw)]
        frame = Frame(w, h, order, sampling, draw.below(2), draw.below(7), 0x3E800000, 0x3DCCCCCD, draw.below(4), draw.below(2), strides=strides,
                      stride=window[2] * rules.ORDERS[ORDERS[order]][0] + draw.below(3), window=window, source=b'', planes=[b'', b'', b''])
        lengths = [frame.stride * window[3], strides[0] * h, strides[1] * ch, strides[2] * ch]
        starts = [draw.below(4), *(end + draw.below(3) for end in ends[1:])]
        ends = [max(ends[0], starts[0] + lengths[0]), *(start + length for start, length in zip(starts[1:], lengths[1:]))]
        frames.append((frame, list(zip(starts, lengths))))
    if i % 3 == 2:
        frame, parts = draw.of(frames)
        place = draw.below(4)
        parts[place] = parts[place][0], parts[place][1] - 1
    convoy = Convoy([end + draw.below(3) for end in ends], 1000 + i)
    for frame, parts in draw.shuffled(frames):
        convoy.add(frame, *parts)
    return convoy


def all_lists():
    return [requests(), frames(), large(), bands(), states(), counts(), shift(), summaries(), pairs(), y4m(), convoys()]
