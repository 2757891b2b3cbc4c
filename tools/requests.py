#!/usr/bin/env python3
"""Make the requests that crates/replay_requests replays, and what it must write.

The requests stand below, each with a name; src/main.rt of the crate says how they are written down.
What answers them comes from the model of the rules, which is built first (model/build).

    tools/requests.py           write crates/replay_requests/stdin and stdout
    tools/requests.py --check   say which of the two files is not what this makes, and fail if one is not
"""
import subprocess
import sys
import zlib
from pathlib import Path

ROOT = Path(__file__).resolve().parent.parent
CRATE = ROOT / 'crates' / 'replay_requests'
MODEL = ROOT / 'target' / 'model' / 'frame'

# RULES 1.2: the codes of each setting, in order.
CHANNELS = ['Rgb', 'Rgba', 'Bgra', 'Bgr']
SAMPLINGS = ['4:2:0', '4:2:2']
RANGES = ['Limited', 'Full']
MATRICES = ['Bt601', 'Bt709', 'Bt2020', 'Smpte240', 'Bt470_6', 'Fcc']
TRANSFERS = ['Srgb', 'Rec709', 'Gamma2p2', 'Gamma2p8']
PIXEL = {'Rgb': 3, 'Rgba': 4, 'Bgra': 4, 'Bgr': 3}

HEADER = 9
SHOWN = 40  # the most bytes of an answer that are written out
PERIOD = 101  # the bytes of a long source that come again and again: they divide no row


def header(w, h, codes):
    return w.to_bytes(2, 'little') + h.to_bytes(2, 'little') + bytes(codes)


def colours(count):
    """Bytes that differ from one to the next, and dark ones among them, where the curves are steep."""
    return bytes((37 * i * i + 91 * i + 5) % 256 // (1 + i % 7 // 5 * 7) for i in range(count))


class Requests:
    def __init__(self):
        self.named = []

    def add(self, name, given, size=None):
        """A request of these bytes; with a size, those past the header come again up to so many."""
        assert '|' not in name and '\n' not in name
        size = len(given) if size is None else size
        whole = (given[:HEADER] + given[HEADER:] * (size // max(1, len(given) - HEADER) + 1))[:size]
        self.named.append((name, given, size, whole))

    def frame(self, name, w, h, channels='Rgb', sampling='4:2:0', range_='Limited', matrix='Bt601', transfer='Srgb',
              source=None, more=0):
        """A frame with these settings and `more` bytes than its rows have."""
        codes = [CHANNELS.index(channels), SAMPLINGS.index(sampling), RANGES.index(range_), MATRICES.index(matrix),
                 TRANSFERS.index(transfer)]
        size = w * h * PIXEL[channels] + more
        if source is None:
            source = colours(min(size, PERIOD))
        self.add(name, header(w, h, codes) + source, HEADER + size if size > len(source) else None)


def requests():
    r = Requests()
    # worked lines, examples of RULES 7.8
    for sampling in SAMPLINGS:
        r.frame(f'red, 1 by 1, Bt601 Full, {sampling}', 1, 1, sampling=sampling, range_='Full', source=bytes([255, 0, 0]))
        r.frame(f'black and white, 2 by 2, Bt601 Limited, {sampling}', 2, 2, sampling=sampling, source=bytes(6) + bytes([255] * 6))
    r.frame('green, 1 by 1, Bt601 Limited, 4:2:2', 1, 1, sampling='4:2:2', source=bytes([0, 255, 0]))
    # every code of every setting
    for channels in CHANNELS:
        for sampling in SAMPLINGS:
            r.frame(f'{channels}, {sampling}, 5 by 3', 5, 3, channels=channels, sampling=sampling)
    for matrix in MATRICES:
        for range_ in RANGES:
            r.frame(f'{matrix}, {range_}, 4 by 4', 4, 4, channels='Bgra', range_=range_, matrix=matrix)
    for transfer in TRANSFERS:
        for sampling in SAMPLINGS:
            r.frame(f'{transfer}, {sampling}, 8 by 6', 8, 6, sampling=sampling, range_='Full', matrix='Bt709',
                    transfer=transfer)
    # sizes
    for w, h in [(1, 2), (2, 1), (1, 3), (3, 1), (2, 3), (7, 7), (17, 2)]:
        r.frame(f'{w} by {h}', w, h, range_='Full')
    r.frame('256 by 2, a width with a high byte', 256, 2)
    r.frame('2 by 257, a height with a high byte', 2, 257, sampling='4:2:2')
    r.frame('largest request, 128 by 128 Rgba', 128, 128, channels='Rgba', range_='Full', matrix='Fcc')
    r.frame('largest output, 1 by 16384 in 4:2:2', 1, 16384, sampling='4:2:2', transfer='Rec709')
    r.frame('16384 by 1', 16384, 1, transfer='Gamma2p8')
    r.frame('127 by 129, 16383 pixels', 127, 129, channels='Bgr', transfer='Gamma2p2')
    # 1: the header
    red = header(1, 1, [0, 1, 1, 0, 0]) + bytes([255, 0, 0])
    r.add('nothing', b'')
    r.add('one byte', red[:1])
    r.add('a header of 8 bytes', red[:8])
    for at, first in [(4, len(CHANNELS)), (5, len(SAMPLINGS)), (6, len(RANGES)), (7, len(MATRICES)), (8, len(TRANSFERS))]:
        for code in (first, 255):
            r.add(f'byte {at} is {code}, a code without a meaning', red[:at] + bytes([code]) + red[at + 1:])
    r.add('1 before 2, a code without a meaning and no width', header(0, 1, [4, 0, 0, 0, 0]))
    # 2: no width or height
    r.add('no width', header(0, 1, [0] * 5))
    r.add('no height', header(1, 0, [0] * 5))
    r.add('neither width nor height', header(0, 0, [0] * 5))
    r.add('2 before 3, no width and a height of 16385', header(0, 16385, [0] * 5))
    # 3: too many pixels
    r.add('16385 by 1', header(16385, 1, [0] * 5))
    r.add('1 by 16385', header(1, 16385, [0] * 5))
    r.add('3 before 6, 145 by 113, 16385 pixels, no rows', header(145, 113, [0] * 5))
    r.frame('145 by 113, 16385 pixels, all rows', 145, 113)
    r.frame('3 before 12, 145 by 113, 16385 pixels, a byte too many', 145, 113, more=1)
    r.add('65535 by 65535', header(65535, 65535, [0] * 5))
    # 6: too short
    r.add('rows missing', red[:9])
    r.frame('one byte too short', 3, 2, more=-1)
    r.frame('largest request, one byte too short', 128, 128, channels='Rgba', more=-1)
    r.add('Rgb rows called Rgba', header(2, 2, [1, 0, 0, 0, 0]) + colours(12))
    # 12: too long
    r.frame('one byte too long', 3, 2, more=1)
    r.frame('largest request, one byte too long', 128, 128, channels='Rgba', more=1)
    r.add('Rgba rows called Rgb', header(2, 2, [0, 0, 0, 0, 0]) + colours(16))
    return r.named


def line(name, given, size):
    text = f'{name} |' + ''.join(f' {byte:02X}' for byte in given)
    return text + (f' * {size}' if size != len(given) else '') + '\n'


def answer(whole):
    out = subprocess.run([MODEL], input=whole, stdout=subprocess.PIPE, check=True).stdout
    if len(out) <= SHOWN:
        return f'{len(out)} bytes {out.hex()}'
    return f'{len(out)} bytes, CRC-32 {zlib.crc32(out):08x}'


def made():
    subprocess.run([ROOT / 'model' / 'build'], check=True)
    named = requests()
    stdin = ''.join(line(name, given, size) for name, given, size, _ in named)
    stdout = ''.join(f'{name} | {answer(whole)}\n' for name, _, _, whole in named) + f'{len(named)} requests\n'
    return {CRATE / 'stdin': stdin.encode(), CRATE / 'stdout': stdout.encode()}


def main():
    files = made()
    if sys.argv[1:] == ['--check']:
        other = [path for path, text in files.items() if not path.exists() or path.read_bytes() != text]
        for path in other:
            print(f'{path.relative_to(ROOT)} is not what tools/requests.py makes')
        sys.exit(1 if other else 0)
    if sys.argv[1:]:
        sys.exit(__doc__)
    for path, text in files.items():
        path.write_bytes(text)


if __name__ == '__main__':
    main()
