#!/usr/bin/env python3
"""The reference on five processors, against the vectors and against the proved library on random requests.

    conformance/processors.py [--without-install] [--only NAME,..] [--requests N] [--seed N] [--floats]

NAME is x86_64, aarch64, riscv64, armhf or s390x. What is missing of Debian's cross compilers and of qemu-user is installed first (apt-get, as
root or by sudo). The reference is built for each at -O0 and at -O2, and run, natively where the machine is of that kind, else under
qemu-user. It must answer every vector as the files have it, and N random requests (10000) and a fifth as many random calls in lines as the
proved library does, which is run natively: `tools/archive` makes that, for x86_64. Last, and with --floats alone,
the weights are worked out by the machine's own numbers (reference/floats.c), to see what a compiler makes of the steps of RULES 4.4. One
process at a time, at a low priority. Exit status 0: all passed.
"""
import os
import platform
import re
import shutil
import subprocess
import sys
import time
from collections import namedtuple
from pathlib import Path

HERE = Path(__file__).resolve().parent
sys.path.insert(0, str(HERE))
import cases  # noqa: E402
import make  # noqa: E402
import run  # noqa: E402

# joining_flags: with which the compiler has operations that join a product and a sum; joined: their names
Processor = namedtuple('Processor', 'name triple emulator packages joining_flags joined')
PROCESSORS = [
    Processor('x86_64', 'x86_64-linux-gnu', 'qemu-x86_64', ['gcc'], ['-mfma'], r'\bvfn?m(add|sub)'),
    Processor('aarch64', 'aarch64-linux-gnu', 'qemu-aarch64', ['gcc-aarch64-linux-gnu', 'libc6-dev-arm64-cross'], [], r'\bfn?m(add|sub)\b'),
    Processor('riscv64', 'riscv64-linux-gnu', 'qemu-riscv64', ['gcc-riscv64-linux-gnu', 'libc6-dev-riscv64-cross'], [], r'\bfn?m(add|sub)\.s'),
    Processor('armhf', 'arm-linux-gnueabihf', 'qemu-arm', ['gcc-arm-linux-gnueabihf', 'libc6-dev-armhf-cross'], ['-mfpu=vfpv4'], r'\bvfn?m[as]'),
    Processor('s390x', 's390x-linux-gnu', 'qemu-s390x', ['gcc-s390x-linux-gnu', 'libc6-dev-s390x-cross'], [], r'\bm[as]eb'),
]
STRICT = '-std=c99 -Wall -Wextra -Wpedantic -Wconversion -Wshadow -Werror'.split()
SOURCES = [HERE / 'reference' / name for name in ('lines.c', 'request.c', 'reference.c')]
FLOATS = HERE / 'reference' / 'floats.c'
OUT = make.OUT / 'processors'
BY_PROGRAM = 40  # requests that are run by the program `frame` itself, a process for each


def install(processors):
    """Installs what is missing."""
    wanted = [package for p in processors if not shutil.which(f'{p.triple}-gcc') for package in p.packages]
    if any(p.name != platform.machine() and not shutil.which(p.emulator) for p in processors):
        wanted.append('qemu-user')
    if wanted:
        root = [] if os.geteuid() == 0 else ['sudo']
        print('installing ' + ' '.join(wanted), flush=True)
        for words in (['update'], ['install', '-y', '--no-install-recommends', *wanted]):
            subprocess.run([*root, 'apt-get', *words], check=True, stdout=subprocess.DEVNULL)


def built(processor, name, sources, flags):
    """A program for a processor, without shared libraries, and the command that runs it here."""
    program = OUT / f'{processor.name}-{name}'
    subprocess.run([f'{processor.triple}-gcc', *STRICT, *flags, '-static', *sources, '-o', program, '-lm'], check=True)
    return ([] if processor.name == platform.machine() else [processor.emulator]) + [str(program)]


# ---- random requests and calls

def random_size(draw):
    kind = draw.below(100)
    if kind < 70:
        return draw.between(1, 12), draw.between(1, 12)
    if kind < 92:
        return draw.between(1, 40), draw.between(1, 40)
    if kind < 99:
        return draw.of([(draw.between(1, 700), draw.between(1, 8)), (draw.between(1, 8), draw.between(1, 700))])
    return draw.of([(128, 128), (127, 129), (16384, 1), (1, 16384), (3, 5461), (256, 64)])


def random_request(draw):
    w, h = random_size(draw)
    codes = [draw.below(n) for n in (4, 2, 2, 6, 4)]
    request = bytearray(w.to_bytes(2, 'little') + h.to_bytes(2, 'little') + bytes(codes) + draw.bytes(w * h * (4 if codes[0] in (1, 2) else 3)))
    kind = draw.below(100)
    if kind < 3:
        request = request[:draw.below(len(request))]
    elif kind < 5:
        request += draw.bytes(draw.between(1, 9))
    elif kind < 8:
        request[4 + draw.below(5)] = draw.byte()
    elif kind < 11:
        request[draw.below(4)] = draw.byte()
    elif kind < 12:
        at = 2 * draw.below(2)
        request[at:at + 2] = b'\0\0'
    return f'request {cases.text_of(request)}'


def random_k(draw):
    kind = draw.below(10)
    if kind == 0:
        return draw.of(cases.EDGES)
    if kind == 1:
        return draw.below(2 ** 32)
    return min(0x3C000000 + draw.below(0x03000001), 0x3F000000)


def random_frame(draw):
    w, h = draw.between(1, 14), draw.between(1, 12)
    left, top, right, bottom = (draw.below(5) * draw.below(2) for _ in range(4))
    order, sampling = draw.below(4), draw.below(2)
    matrix = draw.below(7)
    window = left, top, left + w + right, top + h + bottom
    cw = (w + 1) // 2
    frame = cases.Frame(w, h, order, sampling, draw.below(2), matrix, random_k(draw), random_k(draw), draw.below(4), draw.below(2),
                        strides=[row + draw.below(4) * draw.below(2) for row in (w, cw, cw)],
                        stride=window[2] * (4 if order in (1, 2) else 3) + draw.below(5) * draw.below(2), window=window, seed=draw.below(2 ** 32))
    kind = draw.below(12)
    if kind == 0:
        frame.source = frame.source[:-1]
    elif kind == 1:
        place = draw.below(3)
        frame.planes[place] = frame.planes[place][1:]
    elif kind == 2:
        frame.strides[draw.below(3)] -= 1
    elif kind == 3:
        frame.window = (left + draw.below(3), top + draw.below(3), *window[2:])
    return frame


def random_call(draw):
    frame = random_frame(draw)
    if draw.below(3):
        return frame.line()
    frame.stride = frame.window[2] * frame.c
    frame.source = draw.bytes(frame.stride * frame.h)
    frame.window = (*frame.window[:3], frame.window[1] + frame.h)
    parts, left = [], frame.h
    while left > 0:
        parts.append(draw.between(1, left))
        left -= parts[-1]
    return cases.band_line(frame, draw.bytes(3 * frame.w + draw.below(3)), cases.cut(frame, parts, draw.below(3)))


# ---- the command

def compared(answers, should):
    return sum(a == b for a, b in zip(answers, should))


def vectors_passed(command, files):
    """How many vectors of these files are right, of how many; and the first that is not."""
    right, total, first = 0, 0, None
    for given in files:
        passed, _, wrong = run.judged(given, run.of_lines(command)(given))
        right, total = right + passed, total + len(given)
        first = first or (wrong[0] if wrong else None)
    return right, total, first


def compiled(processor, source, flags):
    """The object file of one source."""
    code = OUT / f'{processor.name}-{source.stem}.o'
    subprocess.run([f'{processor.triple}-gcc', *STRICT, *flags, '-c', source, '-o', code], check=True)
    return code


def joined_operations(processor, code):
    """How many operations the compiler has joined in an object file."""
    text = subprocess.run([f'{processor.triple}-objdump', '-d', code], capture_output=True, text=True, check=True).stdout
    return len(re.findall(processor.joined, text))


def options(words):
    found = {'--only': ','.join(p.name for p in PROCESSORS), '--requests': '10000', '--seed': '23'}
    words = [word for word in words if word not in ('--without-install', '--floats')]
    if len(words) % 2 or any(word not in found for word in words[::2]):
        sys.exit(__doc__)
    found.update(zip(words[::2], words[1::2]))
    return found


def version(command):
    return subprocess.run([command, '--version'], capture_output=True, text=True).stdout.splitlines()[0]


def first_text(first):
    return '' if first is None else f'; the first that is not: {first.vector.file} {first.vector.number}, {first.what}'


def on_processor(processor, requests, should, calls, calls_should):
    """Builds and runs the reference for one processor; how many failed."""
    failed = 0
    for level in ('-O0', '-O2'):
        start = time.time()
        lines = built(processor, f'lines{level}', SOURCES, [level])
        frame = built(processor, f'frame{level}', [HERE / 'reference' / 'frame.c', *SOURCES[1:]], [level])
        counts = built(processor, f'counts{level}', [HERE / 'reference' / 'luma_counts.c', SOURCES[2]], [level])
        right, total, first = vectors_passed(lines, map(run.vectors, run.FILES))
        given = list(run.counts_vectors())
        by_counts, _, wrong = run.judged(given, run.of_requests(counts)(given))
        right, total, first = right + by_counts, total + len(given), first or (wrong[0] if wrong else None)
        some = run.vectors('requests')[::len(run.vectors('requests')) // BY_PROGRAM]
        by_program, _, wrong = run.judged(some, run.of_requests(frame)(some))
        first = first or (wrong[0] if wrong else None)
        same = compared(run.answers_in_lines(lines, requests), should)
        same_calls = compared(run.answers_in_lines(lines, calls), calls_should)
        failed += total - right + len(some) - by_program + len(requests) - same + len(calls) - same_calls
        print(f'{processor.name} {level}: {right} of {total} vectors, {by_program} of {len(some)} requests by the program frame, {same} of '
              f'{len(requests)} random requests, {same_calls} of {len(calls)} random calls; '
              f'{time.time() - start:.0f} s{first_text(first)}', flush=True)
    return failed


def by_own_numbers(processor):
    """What becomes of the vectors where the weights are worked out by the processor's own numbers."""
    forms = [('in statements', []), ('in expressions', ['-DIN_EXPRESSIONS']), ('multiplied out', ['-DMULTIPLIED_OUT'])]
    given = [vector for name in ('requests', 'frames') for vector in run.vectors(name) if vector.rule in ('4.2', '4.3', '4.4', '4.5')]
    # no floating-point type in these: what floats.c is compiled with does not matter to them
    others = [compiled(processor, source, ['-O2', '-DREFERENCE_FLOATS', '-Wno-unused-function']) for source in SOURCES]
    for form, define in forms:
        for flag in ('-ffp-contract=off', '-ffp-contract=fast', '-ffast-math'):
            words = ['-O2', *processor.joining_flags, *define, flag]
            code = compiled(processor, FLOATS, words)
            right, total, first = vectors_passed(built(processor, 'floats', [*others, code], words), [given])
            print(f'{processor.name} own numbers, {form}, {flag}: {right} of {total} vectors under 4.2 to 4.5, '
                  f'{joined_operations(processor, code)} joined operations{first_text(first)}', flush=True)


def reference_on(processors, count, seed):
    """Runs the reference on all vectors, and on random requests and calls that the proved library answers; how many failed."""
    draw = cases.Draw(seed)
    requests = [random_request(draw) for _ in range(count)]
    calls = [random_call(draw) for _ in range(len(requests) // 5)]
    library = make.library_program()
    should, calls_should = run.answers_in_lines(library, requests), run.answers_in_lines(library, calls)
    proved = list(run.of_requests([str(make.PROGRAM)])(run.Vector('', 0, '', '', line, '') for line in requests))
    if proved != should or None in calls_should:
        sys.exit('the proved library and the proved program differ, or the library has no answer')
    refused = sum(bytes.fromhex(reply.replace('-', '')).startswith(b'refused ') for reply in should)
    refused_calls = sum(not answer.startswith('0 ') for answer in calls_should)
    print(f'{time.strftime("%Y-%m-%d")}, seed {seed}: {len(requests)} random requests, of which {refused} are refused, and {len(calls)} '
          f'random calls in lines, of which {refused_calls} are refused, answered by the proved library', flush=True)
    return sum(on_processor(p, requests, should, calls, calls_should) for p in processors)


def main():
    found = options(sys.argv[1:])
    processors = [p for p in PROCESSORS if p.name in found['--only'].split(',')]
    if not processors:
        sys.exit(__doc__)
    if '--without-install' not in sys.argv[1:]:
        install(processors)
    os.nice(10)
    OUT.mkdir(parents=True, exist_ok=True)
    for p in processors:
        print(f'{p.name}: {version(f"{p.triple}-gcc")}' + ('' if p.name == platform.machine() else f'; {version(p.emulator)}'))
    failed = 0 if '--floats' in sys.argv[1:] else reference_on(processors, int(found['--requests']), int(found['--seed']))
    print('the weights by the processors\' own numbers, where a vector may tell; nothing here counts as failed', flush=True)
    for p in processors:
        by_own_numbers(p)
    print('all passed' if failed == 0 else f'{failed} failed')
    sys.exit(1 if failed else 0)


if __name__ == '__main__':
    main()
