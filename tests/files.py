"""Pictures, shift files, summaries and Y4M files as the tests write and read them.

Made from the request's own words for the layouts, and the PNM and PAM manuals' for pictures; shares no code with what is tested. A sampling is its
code, 0 for 4:2:0 and 1 for 4:2:2.
"""
import struct
from collections import namedtuple

SIDE, RECORDS = 16384, 4096  # the most of each
NOT_RECORDED = 255


# ---- planes

def half(n):
    return n // 2 + n % 2


def plane_sizes(w, h, sampling):
    chroma = half(w), h if sampling == 1 else half(h)
    return [(w, h), chroma, chroma]


def picture_size(w, h, sampling):
    return sum(width * height for width, height in plane_sizes(w, h, sampling))


def cut(planes, w, h, sampling):
    """Y, U and V of planes that stand one behind the other."""
    parts, at = [], 0
    for width, height in plane_sizes(w, h, sampling):
        parts.append(planes[at:at + width * height])
        at += width * height
    return parts


# ---- shift files: numbers low byte first; the count, a pair of offset and length for each record, the records

def record(crossing, w, h, planes):
    return struct.pack('<IHH', crossing, w, h) + planes


def record_size(w, h):
    return 4 + 2 + 2 + picture_size(w, h, 0)


def pairs(sizes, start=b''):
    """The count and the pairs of records of these sizes, with `start` before them."""
    text, offset = start + struct.pack('<I', len(sizes)), len(start) + 4 + (8 + 4) * len(sizes)
    for size in sizes:
        text += struct.pack('<QI', offset, size)
        offset += size
    return text


def shift_file(records):
    return pairs([len(one) for one in records]) + b''.join(records)


# with settings: four bytes of 255 first; after h four bytes for sampling, range, matrix and transfer; 255 in the last three for not recorded

FIRST = struct.pack('<I', 4294967295)


def settings_record(crossing, w, h, four, planes):
    return struct.pack('<IHH4B', crossing, w, h, *four) + planes


def settings_record_size(w, h, four):
    return 4 + 2 + 2 + 4 + picture_size(w, h, four[0])


def settings_file(records):
    return pairs([len(one) for one in records], FIRST) + b''.join(records)


Record = namedtuple('Record', 'crossing w h four offset length planes')


def read_shift(data):
    """Whether a good file has settings, and its records."""
    settings = data[:4] == FIRST
    start = 4 if settings else 0
    count, = struct.unpack_from('<I', data, start)
    records = []
    for k in range(count):
        offset, length = struct.unpack_from('<QI', data, start + 4 + 12 * k)
        crossing, w, h = struct.unpack_from('<IHH', data, offset)
        head = 12 if settings else 8
        four = tuple(data[offset + 8:offset + 12]) if settings else (0, NOT_RECORDED, NOT_RECORDED, NOT_RECORDED)
        records.append(Record(crossing, w, h, four, offset, length, data[offset + head:offset + length]))
    return settings, records


# ---- summaries: an entry of 13 bytes for each record, by crossing and then by offset

def entry(crossing, offset, w, h, planes):
    return struct.pack('<IQB', crossing, offset, sum(planes[:w * h]) // (w * h))


def summary(data):
    """The summary of a good file."""
    records = sorted(read_shift(data)[1], key=lambda one: (one.crossing, one.offset))
    return b''.join(entry(one.crossing, one.offset, one.w, one.h, one.planes) for one in records)


# ---- Y4M files

def y4m_file(w, h, sampling, planes):
    """The file of pictures whose planes stand one behind the other."""
    size, name = picture_size(w, h, sampling), ('420jpeg', '422')[sampling]
    pictures = (planes[at:at + size] for at in range(0, len(planes), size))
    return f'YUV4MPEG2 W{w} H{h} F25:1 Ip C{name}\n'.encode() + b''.join(b'FRAME\n' + one for one in pictures)


# ---- pictures: PNM and PAM

def ppm(w, h, rgb):
    return b'P6\n%d %d\n255\n' % (w, h) + rgb


def pgm(w, h, grey):
    return b'P5\n%d %d\n255\n' % (w, h) + grey


def pbm(w, h, bits):
    """A bit for each pixel, 1 for black, the first in the highest bit; a row begins with a byte of its own."""
    rows = b''
    for y in range(h):
        row = bits[y * w:(y + 1) * w] + bytes(-w % 8)
        rows += bytes(sum(bit << 7 - k for k, bit in enumerate(row[at:at + 8])) for at in range(0, len(row), 8))
    return b'P4\n%d %d\n' % (w, h) + rows


def words(numbers, line=17):
    return b''.join(b'%d' % number + (b'\n' if k % line == line - 1 else b' ') for k, number in enumerate(numbers))


def plain_ppm(w, h, rgb):
    return b'P3\n%d %d\n255\n' % (w, h) + words(rgb)


def plain_pgm(w, h, grey):
    return b'P2\n%d %d\n255\n' % (w, h) + words(grey)


def plain_pbm(w, h, bits):
    """As the manual allows it, without spaces between the digits."""
    return b'P1\n%d %d\n' % (w, h) + b''.join(b'%d' % bit + (b'\n' if k % 70 == 69 else b'') for k, bit in enumerate(bits)) + b'\n'


TUPLES = {1: b'GRAYSCALE', 3: b'RGB', 4: b'RGB_ALPHA'}


def pam(w, h, depth, data):
    return b'P7\nWIDTH %d\nHEIGHT %d\nDEPTH %d\nMAXVAL 255\nTUPLTYPE %s\nENDHDR\n' % (w, h, depth, TUPLES[depth]) + data


# ---- pixels in other orders, and rectangles of them

ORDERS = ('rgb24', 'rgba', 'bgra', 'bgr24')


def ordered(rgb, order, fill=b'\x5a'):
    """Pixels of three bytes in another order; `fill` is the fourth byte of each."""
    pixels = (rgb[at:at + 3] for at in range(0, len(rgb), 3))
    return b''.join((one[::-1] if order[0] == 'b' else one) + (fill if 'a' in order else b'') for one in pixels)


def strided(pixels, row, stride, fill=b'\xc3'):
    return b''.join(pixels[at:at + row] + (stride - row) * fill for at in range(0, len(pixels), row))


def rectangle(rgb, width, w, h, left, top):
    """The pixels of a window of w by h in a picture of this width."""
    return b''.join(rgb[3 * (y * width + left):3 * (y * width + left + w)] for y in range(top, top + h))
