#!/usr/bin/env python3
"""Make what the program `luma_counts` must write, and the lists of requests to it.

The replies come from the reading of the rules in tools/rules_examples.py, which counts by sorted sums of R and G, and no colour by itself; the proved
code goes over all colours. crates/replay_counts replays its list in the gate; `make -C conformance/reference check` holds a converter to
conformance/luma_counts.txt, which has a line for each request, its bytes in octal as printf takes them, and after it the whole reply.

    tools/counts.py                  write stdin and stdout of crates/luma_counts and crates/replay_counts, and conformance/luma_counts.txt
    tools/counts.py --check          say which of these files is not what this makes, and fail if one is not
"""
import functools
import sys
import zlib
from pathlib import Path

sys.dont_write_bytecode = True
from rules_examples import CODES, counts_program

ROOT = Path(__file__).resolve().parent.parent
PROGRAM = ROOT / 'crates' / 'luma_counts'
REPLAY = ROOT / 'crates' / 'replay_counts'
LIST = ROOT / 'conformance' / 'luma_counts.txt'

SHOWN = [0, 16, 128, 235, 255]  # the lumas whose lines stand beside a digest
LONGEST = 40  # the most bytes of a reply that are written out

reply = functools.cache(counts_program)


def requests():
    named = [(f'{range_}, {matrix}', bytes([r, m])) for r, range_ in enumerate(CODES['range']) for m, matrix in enumerate(CODES['matrix'])]
    return named + [
        ('nothing', b''),
        ('a range and no matrix', bytes([1])),
        ('a byte too many', bytes([1, 0, 0])),
        ('a newline too many', bytes([1, 0, 10])),
        ('nine bytes', bytes([1, 0] + [0] * 7)),
        ('range 2', bytes([2, 0])),
        ('range 255', bytes([255, 0])),
        ('matrix 6, which is Custom elsewhere', bytes([1, 6])),
        ('matrix 7', bytes([1, 7])),
        ('matrix 255', bytes([1, 255])),
        ('neither', bytes([2, 6])),
        ('matrix before range', bytes([5, 1])),
        ('codes as digits', b'10'),
    ]


def answer(request):
    out = reply(request)
    if len(out) <= LONGEST:
        return f'{len(out)} bytes {out.hex()}'
    written = out.decode().splitlines()
    return f'{len(out)} bytes, CRC-32 {zlib.crc32(out):08x}' + ''.join(f', {written[y]}' for y in SHOWN)


def octal(request):
    return ''.join(f'\\{byte:03o}' for byte in request)


def made():
    named = requests()
    return {
        PROGRAM / 'stdin': bytes([1, 0]),
        PROGRAM / 'stdout': reply(bytes([1, 0])),
        REPLAY / 'stdin': ''.join(f'{name} |' + ''.join(f' {byte:02X}' for byte in given) + '\n' for name, given in named).encode(),
        REPLAY / 'stdout': (''.join(f'{name} | {answer(given)}\n' for name, given in named) + f'{len(named)} requests\n').encode(),
        LIST: ''.join(f'request "{octal(given)}"\n{reply(given).decode()}' for _, given in named).encode(),
    }


def main():
    if sys.argv[1:] not in ([], ['--check']):
        sys.exit(__doc__)
    files = made()
    if sys.argv[1:]:
        other = [path for path, text in files.items() if not path.exists() or path.read_bytes() != text]
        for path in other:
            print(f'{path.relative_to(ROOT)} is not what tools/counts.py makes')
        sys.exit(1 if other else 0)
    for path, text in files.items():
        path.write_bytes(text)


if __name__ == '__main__':
    main()
