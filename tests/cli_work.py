"""What each subcommand of `segvartin` does, against files of tests/files.py, the program `frame` and the conformance vectors."""
import hashlib
import json
import os
import random
import re
import shutil
import struct
import subprocess
import sys

sys.dont_write_bytecode = True
import files
import noon
from cli_checks import (RANGES, REFUSALS, ROOT, SAMPLINGS, Run, bytes_of, check, does, fails, flags, four_names, fresh, given,
                        holds, left_out, makes, parsed, path, planes, run, vectors, write)

SAMPLE = ROOT / 'examples' / 'sample.ppm'


def numbers(seed):
    return random.Random(seed)


def sha(data):
    return hashlib.sha256(data).hexdigest()


# ---- pictures in every form

def grey_of(grey):
    return b''.join(bytes([one]) * 3 for one in grey)


def black_of(bits):
    return b''.join(b'\0\0\0' if bit else b'\xff\xff\xff' for bit in bits)


def forms(w, h, seed=1):
    """The same size in every form: name of the form, its file, the pixels that it means."""
    n = numbers(seed)
    rgb, grey, alpha = n.randbytes(3 * w * h), n.randbytes(w * h), n.randbytes(w * h)
    bits = bytes(n.randrange(2) for _ in range(w * h))
    rgba = b''.join(rgb[3 * k:3 * k + 3] + alpha[k:k + 1] for k in range(w * h))
    return [
        ('P1', files.plain_pbm(w, h, bits), black_of(bits)),
        ('P2', files.plain_pgm(w, h, grey), grey_of(grey)),
        ('P3', files.plain_ppm(w, h, rgb), rgb),
        ('P4', files.pbm(w, h, bits), black_of(bits)),
        ('P5', files.pgm(w, h, grey), grey_of(grey)),
        ('P6', files.ppm(w, h, rgb), rgb),
        ('P7 GRAYSCALE', files.pam(w, h, 1, grey), grey_of(grey)),
        ('P7 RGB', files.pam(w, h, 3, rgb), rgb),
        ('P7 RGB_ALPHA', files.pam(w, h, 4, rgba), rgb),
    ]


def record_of(crossing, w, h, four, data):
    return files.settings_record(crossing, w, h, four, data)


def outputs(w, h, four, data):
    """What convert makes of one picture: words, an ending, the file."""
    yield [], 'yuv', data
    yield [], 'y4m', files.y4m_file(w, h, four[0], data)
    yield ['--crossing', '1400'], 'shift', files.settings_file([files.settings_record(1400, w, h, four, data)])
    if four[0] == 0:
        yield ['--crossing', '4294967295', '--plain'], 'shift', files.shift_file([files.record(4294967295, w, h, data)])


def convert_forms():
    for w, h in ((7, 5), (1, 1), (16, 2), (2, 17)):
        for form, data, rgb in forms(w, h, w):
            for sampling in (0, 1):
                expected = planes(w, h, rgb, sampling)
                picture = write('picture', data)
                for words, ending, made in outputs(w, h, (sampling, 0, 0, 0), expected):
                    name = f'{form} of {w} x {h} in {SAMPLINGS[sampling]} to {ending} {" ".join(words)}'
                    words = ['--sampling', SAMPLINGS[sampling], *words]
                    makes(name, fresh(f'out.{ending}'), made, 'convert', *words, picture, '-o', path(f'out.{ending}'))
                    makes(f'{name}, by a pipe', fresh(f'out.{ending}'), made, 'convert', *words, '-', '-o', path(f'out.{ending}'), feed=data)
                with open(picture, 'rb') as file:
                    does(f'{form} of {w} x {h} in {SAMPLINGS[sampling]}, standard input a file, to standard output', 'convert', '--to=yuv',
                         '--sampling',
                         SAMPLINGS[sampling], '-', '-o', '-', stdin=file, out=expected)


def convert_headers():
    """Comments and blanks where the formats allow them."""
    rgb, bits = numbers(3).randbytes(3 * 6), bytes([1, 0, 0, 1, 1, 0])
    expected, black = planes(3, 2, rgb), planes(3, 2, black_of(bits))
    spaced = b' '.join(b'%d' % one for one in rgb)
    for text in (b'P6 3 2 255\n', b'P6\n# one\n3 2\n255\n', b'P6\n3 # width\n2 # height\n255\n', b'P6\n#\n#\n\n3\t2\r\n255\n', b'P6\n003 02 0255\n'):
        makes(f'header {text!r}', fresh('out.yuv'), expected, 'convert', write('picture', text + rgb), '-o', path('out.yuv'))
        makes(f'header {text!r}, by a pipe', fresh('out.yuv'), expected, 'convert', '-', '-o', path('out.yuv'), feed=text + rgb)
    for text in (b'P3 3 2 255 ' + spaced, b'P3\n# one\n3 2\n255\n' + spaced + b'\n', b'P3\n3 2\n255\n' + spaced.replace(b' ', b'\n\t')):
        makes(f'text {text[:40]!r}', fresh('out.yuv'), expected, 'convert', write('picture', text), '-o', path('out.yuv'))
    for text in (b'P1 3 2 100110', b'P1\n# one\n3 2\n1 0 0\n1 1 0\n', b'P1 3 2\n10\n01 10'):
        makes(f'text {text!r}', fresh('out.yuv'), black, 'convert', write('picture', text), '-o', path('out.yuv'))
    for text in (b'P7\n# one\nWIDTH 3\nHEIGHT 2\nDEPTH 3\nMAXVAL 255\n# two\nTUPLTYPE RGB\nENDHDR\n',
                 b'P7\nHEIGHT 2\nWIDTH 3\nTUPLTYPE RGB\nMAXVAL 255\nDEPTH 3\nENDHDR\n', b'P7\nWIDTH 3\nHEIGHT 2\nDEPTH 3\nMAXVAL 255\nENDHDR\n'):
        makes(f'header {text!r}', fresh('out.yuv'), expected, 'convert', write('picture', text + rgb), '-o', path('out.yuv'))


def convert_settings():
    w, h = 6, 5
    rgb = numbers(4).randbytes(3 * w * h)
    picture = write('picture.ppm', files.ppm(w, h, rgb))
    for sampling in (0, 1):
        for range_ in (0, 1):
            for matrix in range(6):
                for transfer in range(4):
                    words = flags(sampling, range_, matrix, transfer)
                    expected = planes(w, h, rgb, sampling, range_, matrix, transfer)
                    made = files.settings_file([files.settings_record(7, w, h, (sampling, range_, matrix, transfer), expected)])
                    makes(f'settings {words[1::2]}', fresh('out.shift'), made, 'convert', *words, picture, '--crossing=7', '-o', path('out.shift'))
    for name, other in (('tv', 'limited'), ('pc', 'full')):
        made = planes(w, h, rgb, range_=RANGES.index(other))
        makes(f'range {name}', fresh('out.yuv'), made, 'convert', f'--range={name}', picture, '-o', path('out.yuv'))
    # Nearest tables, and Custom, which has a code of its own in a record; README has the planes of flat red of 10.
    red = write('red.ppm', files.ppm(2, 2, b'\x0a\0\0' * 4))
    for tables, v in (('truncated', 132), ('nearest', 133)):
        made = bytes([3] * 4 + [126, v])
        makes(f'{tables} tables', fresh('out.yuv'), made, 'convert', '--range=full', '--tables', tables, red, '-o', path('out.yuv'))
    done = run('convert', '--matrix=custom', '--kr=0.299', '--kb=0.114', '--crossing=7', picture, '-o', fresh('out.shift'))
    check('custom: the run', done, Run(b'', b'', 0))
    if done.status == 0:
        [one] = files.read_shift(path('out.shift').read_bytes())[1]
        check('custom: its settings', one.four, (0, 0, 6, 0))
        check('custom of the numbers of bt601: its planes', one.planes, planes(w, h, rgb))


def convert_raw():
    """Orders, strides and windows."""
    n = numbers(5)
    for order in files.ORDERS:
        for w, h, window in ((7, 5, None), (9, 8, (4, 3, 2, 5)), (9, 8, (9, 8, 0, 0)), (5, 6, (1, 1, 4, 5)), (8, 8, (3, 8, 5, 0))):
            rgb = n.randbytes(3 * w * h)
            pixels, row = files.ordered(rgb, order), w * (4 if 'a' in order else 3)
            for stride in (None, row, row + 1, row + 60):
                data = pixels if stride is None else files.strided(pixels, row, stride)
                cut = files.rectangle(rgb, w, *window) if window else rgb
                size = window[:2] if window else (w, h)
                words = ['--from=raw', '--size', f'{w}x{h}', '--pix-fmt', order] + (['--stride', str(stride)] if stride is not None else [])
                words += ['--window', '{}x{}+{}+{}'.format(*window)] if window else []
                name = f'raw {order} of {w} x {h}, stride {stride}, window {window}'
                for sampling in (0, 1):
                    some = [*words, '--sampling', SAMPLINGS[sampling]]
                    made = planes(*size, cut, sampling)
                    makes(name, fresh('out.yuv'), made, 'convert', *some, write('raw.data', data), '-o', path('out.yuv'))
                    makes(f'{name}, by a pipe', fresh('out.yuv'), made, 'convert', *some, '-', '-o', path('out.yuv'), feed=data)
                    twice = files.y4m_file(*size, sampling, made + made)
                    makes(f'{name}, two pictures', fresh('out.y4m'), twice, 'convert', *some, write('raw.data', data + data), '-o', path('out.y4m'))
                    makes(f'{name}, two pictures by a pipe', fresh('out.y4m'), twice, 'convert', *some, '-', '-o', path('out.y4m'), feed=data + data)
    rgb = n.randbytes(3 * 6)
    for ending in ('rgb', 'raw'):
        makes(f'raw by the ending .{ending}', fresh('out.yuv'), planes(3, 2, rgb), 'convert', '--size=3x2', write(f'picture.{ending}', rgb), '-o',
              path('out.yuv'))
    fails('raw pixels without a size', 'convert', '--from', 'raw', path('picture.raw'), '-o', fresh('out.yuv'), says=['--size'],
          keeps=[path('out.yuv')])
    for words in (['--size', '9x8'], ['--pix-fmt', 'rgb24'], ['--stride', '27']):
        fails(f'a picture file with {words[0]}', 'convert', *words, write('picture.ppm', files.ppm(3, 2, rgb)), '-o', fresh('out.yuv'), says=words[:1],
              keeps=[path('out.yuv')])
    # A PNM picture has a window too.
    for form, data, pixels in forms(9, 8, 6):
        for window in ((4, 3, 2, 5), (1, 8, 8, 0)):
            words = ['convert', '--window', '{}x{}+{}+{}'.format(*window)]
            made = planes(*window[:2], files.rectangle(pixels, 9, *window))
            makes(f'{form}, window {window}', fresh('out.yuv'), made, *words, write('picture', data), '-o', path('out.yuv'))
            makes(f'{form}, window {window}, by a pipe', fresh('out.yuv'), made, *words, '-', '-o', path('out.yuv'), feed=data)


def convert_several():
    w, h = 5, 4
    several = [(form, data, rgb) for form, data, rgb in forms(w, h, 8)]
    names = [write(f'several-{k}', data) for k, (_, data, _) in enumerate(several)]
    for sampling in (0, 1):
        made = b''.join(planes(w, h, rgb, sampling) for _, _, rgb in several)
        words = ['convert', '--sampling', SAMPLINGS[sampling], *names, '-o']
        makes('several inputs to yuv', fresh('out.yuv'), made, *words, path('out.yuv'))
        makes('several inputs to y4m', fresh('out.y4m'), files.y4m_file(w, h, sampling, made), *words, path('out.y4m'))
    binary = [(data, rgb) for form, data, rgb in several if form not in ('P1', 'P2', 'P3')]
    stream, made = b''.join(data for data, _ in binary), b''.join(planes(w, h, rgb) for _, rgb in binary)
    makes('several pictures in one file', fresh('out.y4m'), files.y4m_file(w, h, 0, made), 'convert', write('stream', stream), '-o', path('out.y4m'))
    makes('several pictures by a pipe', fresh('out.y4m'), files.y4m_file(w, h, 0, made), 'convert', '-', '-o', path('out.y4m'), feed=stream)
    makes('a pipe between two files', fresh('out.yuv'), planes(w, h, several[0][2]) + made + planes(w, h, several[1][2]),
          'convert', names[0], '-', names[1], '-o', path('out.yuv'), feed=stream)
    unlike = write('unlike.ppm', files.ppm(2, 2, bytes(12)))
    made = planes(w, h, several[5][2]) + planes(2, 2, bytes(12))
    makes('two sizes to yuv', fresh('out.yuv'), made, 'convert', names[5], unlike, '-o', path('out.yuv'))
    fails('two sizes to y4m', 'convert', names[5], unlike, '-o', fresh('out.y4m'), keeps=[path('out.y4m')], says=['5x4', '2x2'])
    fails('two pictures to shift', 'convert', names[5], names[4], '--crossing=1', '-o', fresh('out.shift'), keeps=[path('out.shift')])
    fails('no crossing', 'convert', names[5], '-o', fresh('out.shift'), keeps=[path('out.shift')], says=['--crossing'])
    fails('4:2:2 without settings', 'convert', '--plain', '--sampling=422', '--crossing=1', names[5], '-o', fresh('out.shift'),
          keeps=[path('out.shift')],
          says=['422'])
    done = run('convert', '--json', *names[:3], '-o', fresh('out.y4m'))
    value = parsed('convert --json', done.out)
    does('convert --json to standard output', 'convert', '--json', names[5], '--to=yuv', '-o', '-', out=planes(w, h, several[5][2]))
    for words in (['--crossing=1'], ['--plain'], ['--kr=0.2', '--kb=0.1']):
        fails(f'{words} to yuv', 'convert', *words, names[5], '-o', fresh('out.yuv'), keeps=[path('out.yuv')], says=[words[0].split('=')[0]])
    size = len(files.y4m_file(w, h, 0, bytes(3 * files.picture_size(w, h, 0))))
    expected = {'pictures': 3, 'width': w, 'height': h, 'sampling': '420', 'bytes': size, 'output': str(path('out.y4m'))}
    check('convert --json: what it says', (value, done.err, done.status), (expected, b'', 0))


def convert_sample():
    """The sample against its stored digests."""
    stored = dict(reversed(line.split()) for line in (ROOT / 'tests' / 'c' / 'sample.sha256').read_text().splitlines())
    for sampling in SAMPLINGS:
        words = ['--sampling', sampling, SAMPLE]
        does(f'sample in {sampling}', 'convert', *words, '-o', fresh('out.yuv'))
        check(f'sample in {sampling}: its digest', sha(path('out.yuv').read_bytes()), stored[f'sample-{sampling}.yuv'])
        does(f'digest of the sample in {sampling}', 'digest', *words, out=f'{stored[f"sample-{sampling}.yuv"]}  {SAMPLE}\n'.encode())


def by_ffmpeg():
    """Y4M files as ffmpeg reads them."""
    if shutil.which('ffmpeg') is None:
        return left_out('Y4M files read by ffmpeg', 'ffmpeg is not here')
    for w, h in ((1, 1), (2, 2), (5, 3), (64, 48), (99, 100)):
        for sampling in (0, 1):
            pictures = [numbers(w + k).randbytes(3 * w * h) for k in range(3)]
            made = b''.join(planes(w, h, rgb, sampling) for rgb in pictures)
            stream = b''.join(files.ppm(w, h, rgb) for rgb in pictures)
            does(f'three pictures of {w} x {h}', 'convert', '--sampling', SAMPLINGS[sampling], '-', '-o', fresh('out.y4m'), feed=stream)
            words = ['ffmpeg', '-v', 'error', '-nostdin', '-f', 'yuv4mpegpipe', '-i', path('out.y4m'), '-f', 'rawvideo', '-']
            read = subprocess.run(words, stdout=subprocess.PIPE, stderr=subprocess.PIPE)
            check(f'three pictures of {w} x {h} in {SAMPLINGS[sampling]}, by ffmpeg', (read.stdout, read.stderr), (made, b''))


# ---- the conformance vectors on frames

def decimal(bits):
    """A binary32 in decimal digits that mean it."""
    value, = struct.unpack('>f', bytes.fromhex(bits))
    return '%.9g' % value


def frame_words(d):
    """The flags of a description in numbers; None where the program has none for it."""
    w, h, order, sampling, range_, matrix = map(int, d[:6])
    transfer, rounding, left, top, width, height = map(int, (d[8], *d[12:17]))
    if order > 3 or sampling > 1 or range_ > 1 or matrix > 6 or transfer > 3 or rounding > 1:
        return None
    words = ['--from=raw', f'--size={width}x{height}', f'--pix-fmt={files.ORDERS[order]}', *flags(sampling, range_, matrix, transfer)]
    words += [f'--tables={("truncated", "nearest")[rounding]}']
    words += [f'--kr={decimal(d[6])}', f'--kb={decimal(d[7])}'] if matrix == 6 else []
    words += [f'--window={w}x{h}+{left}+{top}'] if (w, h, left, top) != (width, height, 0, 0) else []
    return words


def pressed(plane, row, stride):
    """The rows of a plane without their padding."""
    return b''.join(plane[at:at + row] for at in range(0, len(plane), stride))


def vectors_of_frames():
    count = 0
    for name, call, answer in vectors('frames'):
        d, stride, source = call[1:18], int(call[18]), bytes_of(call[19])
        words, number = frame_words(d), int(answer[0])
        cells = stride * int(d[16])
        if words is None or number not in (0, *REFUSALS) or len(source) != cells and (number == 0 or len(source) > cells):
            continue
        if number == 12 and (int(answer[1]) != cells or len(source) == cells):
            continue  # of a plane
        count += 1
        words += [f'--stride={stride}']
        picture = write('vector.data', source)
        if number:
            numbers_of = {'number': number, 'expected': int(answer[1]), 'received': int(answer[2])}
            fails(f'vector {name}', 'convert', *words, picture, '-o', fresh('out.yuv'), keeps=[path('out.yuv')], as_json=count % 5 == 0, **numbers_of)
            continue
        w, h, sampling = int(d[0]), int(d[1]), int(d[3])
        made = b''.join(pressed(bytes_of(text), width, int(pad)) for text, (width, _), pad in zip(answer[3:6], files.plane_sizes(w, h, sampling),
                        d[9:12]))
        makes(f'vector {name}', fresh('out.yuv'), made, 'convert', *words, picture, '-o', path('out.yuv'))
        makes(f'vector {name}, by a pipe', fresh('out.yuv'), made, 'convert', *words, '-', '-o', path('out.yuv'), feed=source)
    holds('so many vectors of frame calls', count > 400, count)


def drawn(seed, count):
    """The bytes of a seed, as conformance/README.md says."""
    made = bytearray(count)
    for k in range(count):
        seed = (1664525 * seed + 1013904223) & 0xffffffff
        made[k] = seed >> 24
    return bytes(made)


def vectors_of_large_frames():
    """By a map, and by a pipe in bands: the same digests. The larger ones with --large alone, but for one of each kind."""
    for name, call, answer in vectors('large'):
        seed, d, stride, length = int(call[1]), call[3:20], int(call[20]), int(call[21])
        if length > 1 << 20 and not given['large'] and seed not in (7001, 7006):
            continue
        source, sampling = drawn(seed, length), int(d[3])
        sizes = files.plane_sizes(int(d[0]), int(d[1]), sampling)
        words = [*frame_words(d), f'--stride={stride}']
        picture = write('vector.data', source)
        for way, last, more in (('', picture, {}), (', by a pipe', '-', {'feed': source})):
            done = run('convert', *words, last, '--to=yuv', '-o', '-', **more)
            check(f'vector {name}{way}: the run', (done.err, done.status), (b'', 0))
            digests = []
            for plane, (row, _), pad in zip(files.cut(done.out, int(d[0]), int(d[1]), sampling), sizes, map(int, d[9:12])):
                digests.append(sha(files.strided(plane, row, pad, b'\xee')) if plane else None)
            check(f'vector {name}{way}: its planes', digests, answer[3:6])


# ---- digest

def digest():
    w, h = 6, 5
    n = numbers(9)
    pictures = [n.randbytes(3 * w * h) for _ in range(3)]
    made = [planes(w, h, rgb) for rgb in pictures]
    names = [write(f'd{k}.ppm', files.ppm(w, h, rgb)) for k, rgb in enumerate(pictures)]
    text = ''.join(f'{sha(one)}  {name}\n' for one, name in zip(made, names)).encode()
    does('digests of pictures', 'digest', *names, out=text)
    does('digest of a pipe', 'digest', '-', out=f'{sha(made[0])}  -\n'.encode(), feed=names[0].read_bytes())
    stream = write('stream', b''.join(one.read_bytes() for one in names))
    for name, more in ((stream, {}), ('-', {'feed': stream.read_bytes()})):
        does(f'digests of several pictures in {name}', 'digest', name, **more, out=''.join(f'{sha(one)}  {name}#{k}\n' for k,
             one in enumerate(made)).encode())
    words = flags(1, 1, 1, 1)
    does('digest with flags', 'digest', *words, '--window=3x2+2+1', names[0],
         out=f'{sha(planes(3, 2, files.rectangle(pictures[0], w, 3, 2, 2, 1), 1, 1, 1, 1))}  {names[0]}\n'.encode())
    does('digest of raw pixels', 'digest', '--from=raw', f'--size={w}x{h}', '--pix-fmt=bgra', write('d.data', files.ordered(pictures[1], 'bgra')),
         out=f'{sha(made[1])}  {path("d.data")}\n'.encode())
    # sha256sum of what convert writes is the same
    does('planes for sha256sum', 'convert', names[0], '-o', fresh('out.yuv'))
    check('sha256sum of the planes', sha(path('out.yuv').read_bytes()), sha(made[0]))
    y4m = write('d.y4m', files.y4m_file(w, h, 0, b''.join(made)))
    other = write('d.other', files.y4m_file(w, h, 0, b''.join(made)))
    for one in (y4m, other):
        does(f'digests of {one.name}', 'digest', one, out=''.join(f'{sha(planes_)}  {one}#{k}\n' for k, planes_ in enumerate(made)).encode())
    records = [(1400, made[0]), (7, made[1]), (1400, made[2])]
    for settings in (False, True):
        data = (files.settings_file([files.settings_record(crossing, w, h, (0, 0, 255, 3), one) for crossing, one in records]) if settings
                else files.shift_file([files.record(crossing, w, h, one) for crossing, one in records]))
        for shift, words in ((write('d.shift', data), []), (write('d.day', data), ['--from', 'shift'])):
            lines = [f'{sha(one)}  {shift}#{k}\n' for k, (_, one) in enumerate(records)]
            does(f'digests of a shift file, settings {settings}', 'digest', *words, shift, out=''.join(lines).encode())
            does(f'digests of a crossing, settings {settings}', 'digest', *words, '--crossing=1400', shift, out=(lines[0] + lines[2]).encode())
            done = run('digest', *words, '--crossing=8', shift)
            check(f'digests of a crossing that is not there, settings {settings}', (done.out, done.err.count(b'\n'), done.status), (b'', 1, 1))
            done = run('digest', *words, '--json', shift)
            check(f'digests in JSON, settings {settings}', parsed('digest --json', done.out),
                  [{'input': str(shift), 'picture': k, 'crossing': crossing, 'sha256': sha(one), 'width': w, 'height': h, 'sampling': '420'}
                   for k, (crossing, one) in enumerate(records)])
    for one, name in ((y4m, f'{y4m}#0'), (names[0], str(names[0]))):
        done = run('digest', '--planes', one)
        lines = done.out.decode().splitlines()
        expected = [f'{sha(plane)}  {name} {letter}' for plane, letter in zip(files.cut(made[0], w, h, 0), 'YUV')]
        rest = made[1:] if one == y4m else []
        check(f'digests of planes of {one.name}', (lines[:4], len(lines), done.err, done.status),
              ([f'{sha(made[0])}  {name}', *expected], 4 * (1 + len(rest)), b'', 0))
        value = parsed('digest --planes --json', run('digest', '--planes', '--json', one).out)
        expected = {'input': str(one), 'picture': 0, 'crossing': None, 'sha256': sha(made[0]), 'width': w, 'height': h, 'sampling': '420',
                    **{letter: sha(plane) for plane, letter in zip(files.cut(made[0], w, h, 0), 'yuv')}}
        check(f'digests of planes of {one.name} in JSON', value[0] if isinstance(value, list) and value else value, expected)
    for one in (names[0], y4m):
        fails(f'--crossing with {one.name}', 'digest', '--crossing=1', one)
    # Planes in a file are not converted: flags that say how want a picture among the inputs.
    for word in ('--sampling=422', '--range=full', '--matrix=bt709', '--transfer=rec709', '--tables=nearest', '--window=1x1+0+0', '--size=6x5'):
        for some in ([y4m], [other], [path('d.shift')], [y4m, path('d.shift')]):
            fails(f'{word} with {[one.name for one in some]}', 'digest', word, *some, says=[word.split('=')[0]], as_json=len(some) > 1)
    does('flags with a picture and a Y4M file', 'digest', '--sampling=422', y4m, names[0],
         out=''.join([*(f'{sha(one)}  {y4m}#{k}\n' for k, one in enumerate(made)), f'{sha(planes(w, h, pictures[0], 1))}  {names[0]}\n']).encode())
    for command in (['digest'], ['convert', '--to=yuv', '-o', fresh('out.yuv')]):
        fails(f'{command[0]} - -', *command, '-', '-', feed=names[0].read_bytes(), says=['standard input', 'once'], keeps=[path('out.yuv')])
    for name, call, answer in vectors('y4m'):
        if call[0] != 'y4m-read' or call[1] != '0':
            continue
        data, (number, _, _, w, h, sampling, count, entries) = bytes_of(call[3]), map(int, answer[:8])
        one = write('vector.y4m', data)
        if number:
            fails(f'vector {name}', 'digest', one, number=19, file=one, as_json=False)
        elif entries == count:
            places = [list(map(int, answer[8 + 6 * k:14 + 6 * k])) for k in range(count)]
            expected = ''.join(f'{sha(data[y:y + ys] + data[u:u + us] + data[v:v + vs])}  {one}#{k}\n' for k, (y, ys, u, us, v,
                               vs) in enumerate(places))
            does(f'vector {name}', 'digest', one, out=expected.encode())


# ---- shift files

HEADING = 'record crossing size sampling range matrix transfer offset bytes'.split()


def line_of(k, one):
    """The words of a record's line."""
    names = ['-' if name is None else name for name in four_names(one.four)]
    return [str(k), str(one.crossing), f'{one.w}x{one.h}', *names, str(one.offset), str(one.length)]


def json_of(k, one):
    sampling, range_, matrix, transfer = four_names(one.four)
    return {'record': k, 'crossing': one.crossing, 'width': one.w, 'height': one.h, 'sampling': sampling, 'range': range_, 'matrix': matrix,
            'transfer': transfer, 'offset': one.offset, 'bytes': one.length}


def columns_stand(lines):
    """Whether each column of lines stands at one side, left or right."""
    ends = [[(match_start, match_end) for match_start, match_end in spans(line)] for line in lines]
    return all(len({one[k][0] for one in ends}) == 1 or len({one[k][1] for one in ends}) == 1 for k in range(len(HEADING)))


def spans(line):
    at, found = 0, []
    for word in line.split():
        start = line.index(word, at)
        at = start + len(word)
        found.append((start, at))
    return found


def lists(name, data, file='list.shift'):
    """A file listed, in lines and in JSON."""
    one = write(file, data)
    settings, records = files.read_shift(data)
    done = run('shift', 'list', one)
    lines = done.out.decode().splitlines()
    check(f'{name}: status and standard error', (done.err, done.status), (b'', 0))
    check(f'{name}: its lines', [line.split() for line in lines[:-1]], [HEADING, *(line_of(k, record) for k, record in enumerate(records))])
    if len(lines) == len(records) + 2:
        holds(f'{name}: columns that stand', columns_stand(lines[:-1]), lines[:6])
    form = 'with settings' if settings else 'without settings'
    check(f'{name}: its last line', lines[-1:], [f'{len(records)} record{"s" if len(records) != 1 else ""}, {form}'])
    value = parsed(f'{name}, --json', run('shift', 'list', '--json', one).out)
    check(f'{name}, --json', value, {'file': str(one), 'form': form, 'records': [json_of(k, record) for k, record in enumerate(records)]})


def some_file(n, count, side, settings, crossings=1 << 32):
    texts = []
    for _ in range(count):
        crossing, w, h = n.randrange(crossings), n.randint(1, side), n.randint(1, side)
        four = (n.randrange(2), n.choice((0, 1, 255)), n.choice((*range(7), 255)), n.choice((*range(4), 255)))
        data = n.randbytes(files.picture_size(w, h, four[0] if settings else 0))
        texts.append(files.settings_record(crossing, w, h, four, data) if settings else files.record(crossing, w, h, data))
    return files.settings_file(texts) if settings else files.shift_file(texts)


def records_of(data):
    """The bytes of each record."""
    return [data[one.offset:one.offset + one.length] for one in files.read_shift(data)[1]]


def file_of(settings, texts):
    return files.settings_file(texts) if settings else files.shift_file(texts)


def shift_list():
    for settings in (False, True):
        for count, side in ((0, 1), (1, 1), (1, 300), (5, 9), (300, 3), (4096, 1)):
            lists(f'{count} records, settings {settings}', some_file(numbers(count), count, side, settings))
    for name, call, answer in vectors('shift'):
        if call[0] == 'read-any' and call[1] == '0':
            data, number = bytes_of(call[3]), int(answer[0])
            if number:
                fails(f'vector {name}', 'shift', 'list', write('vector.shift', data), number=15, file=path('vector.shift'), as_json=False)
            elif int(answer[3]) == int(answer[4]):
                lists(f'vector {name}', data, 'vector.shift')
    one = write('list.shift', some_file(numbers(1), 3, 5, True))
    with open(one, 'rb') as file:
        from_name, from_input = run('shift', 'list', one), run('shift', 'list', '-', stdin=file)
    check('a shift file as standard input', from_input, from_name)


def shift_append():
    n = numbers(10)
    w, h = 5, 4
    rgb = n.randbytes(3 * w * h)
    picture = write('append.ppm', files.ppm(w, h, rgb))
    # A picture to a file that is made, then once more; and with flags.
    for settings in (True, False):
        plain = [] if settings else ['--plain']
        texts = []
        fresh('day.shift', 'day.shift.summary')
        for k, four in enumerate(((0, 0, 0, 0), (0, 1, 1, 1), (1, 0, 5, 3), (0, 0, 3, 2))):
            if four[0] and not settings:
                continue
            data = planes(w, h, rgb, *four)
            texts.append(files.settings_record(1400 + k, w, h, four, data) if settings else files.record(1400 + k, w, h, data))
            makes(f'a picture to a file of {k} records, settings {settings}', path('day.shift'), file_of(settings, texts),
                  'shift', 'append', path('day.shift'), picture, f'--crossing={1400 + k}', *flags(*four), *(plain if k == 0 else []))
            check('no summary comes of itself', path('day.shift.summary').exists(), False)
        makes(f'a picture by a pipe, settings {settings}', path('day.shift'), file_of(settings, texts + [texts[0]]),
              'shift', 'append', path('day.shift'), '-', '--crossing=1400', feed=picture.read_bytes())
        done = run('shift', 'append', '--json', path('day.shift'), picture, '--crossing', '1400')
        texts += [texts[0]] * 2
        check(f'append --json, settings {settings}', (parsed('append --json', done.out), done.err, done.status),
              ({'file': str(path('day.shift')), 'records': len(texts), 'bytes': len(file_of(settings, texts))}, b'', 0))
        # raw pixels, a window, a grey picture
        data = planes(3, 2, files.rectangle(rgb, w, 3, 2, 1, 1))
        texts.append(files.settings_record(0, 3, 2, (0, 0, 0, 0), data) if settings else files.record(0, 3, 2, data))
        makes(f'a window of raw pixels, settings {settings}', path('day.shift'), file_of(settings, texts), 'shift', 'append', path('day.shift'),
              write('append.raw', files.ordered(rgb, 'bgr24')), f'--size={w}x{h}', '--pix-fmt=bgr24', '--window=3x2+1+1', '--crossing=0')
        # The planes of a Y4M file of one picture, of which nothing but the sampling is recorded
        for sampling in ((0, 1) if settings else (0,)):
            data = n.randbytes(files.picture_size(w, h, sampling))
            texts.append(files.settings_record(9, w, h, (sampling, 255, 255, 255), data) if settings else files.record(9, w, h, data))
            makes(f'a Y4M file of {SAMPLINGS[sampling]}, settings {settings}', path('day.shift'), file_of(settings, texts),
                  'shift', 'append', path('day.shift'), write('one.y4m', files.y4m_file(w, h, sampling, data)), '--crossing=9')
        # All records of a shift file
        other = some_file(n, 7, 6, settings)
        texts += records_of(other)
        makes(f'all records of a shift file, settings {settings}', path('day.shift'), file_of(settings, texts), 'shift', 'append', path('day.shift'),
              write('other.shift', other))
        texts += texts
        makes(f'a file to itself, settings {settings}', path('day.shift'), file_of(settings, texts), 'shift', 'append', path('day.shift'),
              path('day.shift'))
        none = file_of(settings, [])
        makes(f'no records to a file, settings {settings}', path('day.shift'), file_of(settings, texts), 'shift', 'append', path('day.shift'),
              write('none.shift', none))
        unlike = write('unlike.shift', some_file(n, 2, 3, not settings))
        fails(f'records of the other form, settings {settings}', 'shift', 'append', path('day.shift'), unlike, keeps=[path('day.shift')], file=unlike,
              says=['form'])
        two = write('two.y4m', files.y4m_file(w, h, 0, bytes(2 * files.picture_size(w, h, 0))))
        for name, words in (('a Y4M file of two pictures', [two, '--crossing=9']), ('a Y4M file without a crossing', [path('one.y4m')]),
                            ('a picture without a crossing', [picture])):
            fails(f'{name}, settings {settings}', 'shift', 'append', path('day.shift'), *words, keeps=[path('day.shift')])
    for word in ('--sampling=420', '--range=full', '--window=1x1+0+0', '--stride=15'):
        for words in ([path('one.y4m'), '--crossing=1'], [path('other.shift')]):
            fails(f'{word} with {words[0].name}', 'shift', 'append', path('day.shift'), word, *words, keeps=[path('day.shift')],
                  says=[word.split('=')[0]])
    wide = write('wide.y4m', files.y4m_file(w, h, 1, bytes(files.picture_size(w, h, 1))))
    for words in ([picture, '--sampling=422'], [wide]):
        name = f'4:2:2 to a file without settings, {words[0].name}'
        fails(name, 'shift', 'append', path('day.shift'), *words, '--crossing=1', keeps=[path('day.shift')])
    fails('--plain for a file with settings', 'shift', 'append', write('set.shift', some_file(n, 1, 2, True)), picture, '--crossing=1', '--plain',
          keeps=[path('set.shift')])
    full = write('full.shift', some_file(n, 4096, 1, True))
    for words in ([picture, '--crossing=1'], [full]):
        fails(f'{words[0].name}, more than 4,096 records', 'shift', 'append', full, *words, keeps=[full], number=15, file=full, says=['4096 records'])


def shift_append_summary():
    """A summary that stands beside the file is brought up to date; one that is not the file's is refused, and nothing is written."""
    n = numbers(11)
    picture = write('append.ppm', files.ppm(5, 4, n.randbytes(60)))
    for settings in (False, True):
        data = some_file(n, 6, 7, settings, 3)
        other = some_file(n, 4, 5, settings, 3)
        day, beside = write('day.shift', data), write('day.shift.summary', files.summary(data))
        for name, words in (('a picture', [picture, '--crossing=1']), ('a shift file', [write('other.shift', other)])):
            does(f'{name} to a file with a summary, settings {settings}', 'shift', 'append', day, *words)
            check(f'{name} to a file with a summary: the summary, settings {settings}', beside.read_bytes(), files.summary(day.read_bytes()))
        count = len(files.read_shift(day.read_bytes())[1])
        check(f'so many records now, settings {settings}', count, 6 + 1 + 4)
        good = beside.read_bytes()
        for name, wrong in (('a byte another', good[:-1] + bytes([good[-1] ^ 1])), ('a byte less', good[:-1]), ('a byte more', good + b'\0'),
                            ('an entry more', good + good[-13:]), ('nothing', b''), ('entries exchanged', good[13:26] + good[:13] + good[26:])):
            beside.write_bytes(wrong)
            for what, words in (('a picture', [picture, '--crossing=1']), ('a shift file', [path('other.shift')])):
                fails(f'a summary with {name}, {what}, settings {settings}', 'shift', 'append', day, *words, number=17, keeps=[day, beside])
    fresh('day.shift.summary')


def shift_find():
    n = numbers(12)
    for settings in (False, True):
        data = some_file(n, 30, 6, settings, 12)
        _, records = files.read_shift(data)
        day, own = write('day.shift', data), write('own.summary', files.summary(data))
        listed = run('shift', 'list', day).out.decode().splitlines(True)[1:-1]
        for way, beside, words in (('no summary', False, []), ('a summary beside it', True, []), ('a named summary', False, ['--summary', own])):
            fresh('day.shift.summary')
            if beside:
                write('day.shift.summary', files.summary(data))
            for crossing in range(14):
                find_crossing(f'crossing {crossing} by {way}, settings {settings}', day, crossing, words, listed, records)
        crossing = records[0].crossing
        value = parsed('find --json', run('shift', 'find', '--json', '--all', day, str(crossing)).out)
        found = [json_of(k, one) for k, one in enumerate(records) if one.crossing == crossing]
        expected = {'file': str(day), 'form': 'with settings' if settings else 'without settings', 'records': found}
        check(f'find --json, settings {settings}', value, expected)
        good = files.summary(data)
        for name, wrong in (('a byte another', good[:-1] + bytes([good[-1] ^ 1])), ('a byte less', good[:-1]), ('a byte more', good + b'\0'),
                            ('nothing', b'')):
            beside = write('day.shift.summary', wrong)
            fails(f'find by a summary with {name}, settings {settings}', 'shift', 'find', day, '3', number=17, says=['shift summary'],
                  keeps=[day, beside])
            fresh('day.shift.summary')
            wrong = write('own.summary', wrong)
            fails(f'find by a named summary with {name}, settings {settings}', 'shift', 'find', day, '3', '--summary', wrong, number=17)
    fails('find by a summary that is not there', 'shift', 'find', day, '3', '--summary', fresh('none.summary'))
    for word in ('', 'x', '-1', '4294967296', '1.5', '3x'):
        fails(f'find of crossing {word!r}', 'shift', 'find', '--', day, word)
    write('found.yuv', b'old')
    fails('find to a file that is there', 'shift', 'find', day, str(crossing), '-o', path('found.yuv'), says=['--force'], keeps=[path('found.yuv')])
    done = run('shift', 'find', day, str(crossing), '--force', '-o', path('found.yuv'))
    check('find to a file that is there, by force', (done.status, path('found.yuv').read_bytes()), (0, records[0].planes))


def find_crossing(name, day, crossing, words, listed, records):
    """Its first record and all of them: their lines as they are listed, and their planes in files and on standard output."""
    of_crossing = [(line, one) for line, one in zip(listed, records) if one.crossing == crossing]
    for every in (False, True):
        flag, told = (['--all'], of_crossing) if every else ([], of_crossing[:1])
        text = ''.join(line for line, _ in told) or f'no record of crossing {crossing}\n'
        does(f'{name} {flag}', 'shift', 'find', day, str(crossing), *words, *flag, out=text.encode(), status=0 if told else 1)
        if not told:
            continue
        planes_ = b''.join(one.planes for _, one in told)
        one = told[0][1]
        sizes = {(record.w, record.h, record.four[0]) for _, record in told}
        outputs_ = {'yuv': planes_, 'y4m': files.y4m_file(one.w, one.h, one.four[0], planes_) if len(sizes) == 1 else None}
        for ending, made in outputs_.items():
            if made is not None:
                find = ['shift', 'find', day, str(crossing), *words, *flag]
                makes(f'{name} {flag} to {ending}', fresh(f'found.{ending}'), made, *find, '-o', path(f'found.{ending}'), out=text.encode())
                does(f'{name} {flag} to standard output as {ending}', *find, '-o', '-', '--to', ending, out=made)


def shift_summary():
    n = numbers(13)
    for settings in (False, True):
        for count, side, crossings in ((0, 1, 1), (1, 1, 9), (5, 40, 3), (300, 4, 20), (4096, 1, 1 << 32)):
            data = some_file(n, count, side, settings, crossings)
            day, made = write('day.shift', data), files.summary(data)
            name = f'summary of {count} records, settings {settings}'
            makes(name, fresh('day.shift.summary'), made, 'shift', 'summary', day)
            check(f'{name}, checked: status', run('shift', 'summary', '--check', day)[1:], (b'', 0))
            makes(f'{name}, to another file', fresh('other.summary'), made, 'shift', 'summary', day, '-o', path('other.summary'))
            for other in (write('other.summary', b'old'), day):
                fails(f'{name}, to a file that is there', 'shift', 'summary', day, '-o', other, says=['--force'], keeps=[other, day])
            makes(f'{name}, to a file that is there, by force', path('other.summary'), made, 'shift', 'summary', day, '-f', '-o',
                  path('other.summary'))
            does(f'{name}, to standard output', 'shift', 'summary', day, '-o', '-', out=made)
            for more in (b'\0', bytes(13)):
                write('day.shift.summary', made + more)
                check(f'{name} with {len(more)} bytes more, checked: status', run('shift', 'summary', '--check', day)[1:], (b'', 1))
            write('day.shift.summary', b'old')
            if count:
                done = run('shift', 'summary', '--check', day)
                check(f'{name}: another, checked', (done.out.count(b'\n'), done.err, done.status), (1, b'', 1))
                check(f'{name}: another, which stays', path('day.shift.summary').read_bytes(), b'old')
                check(f'{name}: another, checked in JSON', json.loads(run('shift', 'summary', '--check', '--json', day).out),
                      {'file': str(day), 'summary': str(path('day.shift.summary')), 'is_summary': False})
            makes(f'{name}, in the place of another', path('day.shift.summary'), made, 'shift', 'summary', day)
            check(f'{name}, checked in JSON', json.loads(run('shift', 'summary', '--check', '--json', day).out),
                  {'file': str(day), 'summary': str(path('day.shift.summary')), 'is_summary': True})
            check(f'{name}, in JSON', json.loads(run('shift', 'summary', '--json', day).out),
                  {'file': str(day), 'summary': str(path('day.shift.summary')), 'records': count, 'bytes': 13 * count})
            fails(f'{name}: none to be checked', 'shift', 'summary', '--check', day, keeps=[fresh('day.shift.summary')])
    for name, call, answer in vectors('summaries'):
        if call[0] in ('build', 'check', 'find', 'update'):
            VECTORS_OF_SUMMARIES[call[0]](f'vector {name}', [bytes_of(word) for word in call[1 + (call[0] == 'find'):]], call, [int(answer[0]),
                                          *answer[3:]])


def build_vector(name, given_bytes, _, answer):
    day = write('vector.shift', given_bytes[0])
    if answer[0] == 15:
        fails(name, 'shift', 'summary', day, number=15, file=day, keeps=[path('vector.shift.summary')], as_json=False)
    elif answer[0] == 0:
        count = len(files.read_shift(given_bytes[0])[1])
        does(name, 'shift', 'summary', day, '-o', '-', out=bytes_of(answer[1])[:13 * count])


def check_vector(name, given_bytes, _, answer):
    day, own = write('vector.shift', given_bytes[0]), write('vector.summary', given_bytes[1])
    if answer[0] == 15:
        fails(name, 'shift', 'summary', '--check', day, '-o', own, number=15, file=day, keeps=[own], as_json=False)
    else:
        done = run('shift', 'summary', '--check', day, '-o', own)
        is_exact = len(given_bytes[1]) == len(files.summary(given_bytes[0]))
        check(name, (done.status, own.read_bytes()), (0 if answer[1] == '1' and is_exact else 1, given_bytes[1]))


def find_vector(name, given_bytes, call, answer):
    day, own = write('vector.shift', given_bytes[0]), write('vector.summary', given_bytes[1])
    is_long = answer[0] == 0 and len(given_bytes[1]) > len(files.summary(given_bytes[0]))
    if answer[0] or is_long:
        fails(name, 'shift', 'find', day, call[1], '--summary', own, number=answer[0] or 17, as_json=False)
    else:
        done = run('shift', 'find', day, call[1], '--summary', own)
        if answer[1] == '0':
            check(name, done.status, 1)
        else:
            lines = [line.split() for line in done.out.decode().splitlines() if line.split() != HEADING]
            check(name, (lines, done.err, done.status), ([line_of(int(answer[2]), files.read_shift(given_bytes[0])[1][int(answer[2])])], b'', 0))


def update_vector(name, given_bytes, _, answer):
    """A record that comes to the file's end, in a file of its own."""
    data, text, own = given_bytes
    if answer[0] != 0:
        return  # what is no record cannot be in a file; a short summary is tried elsewhere
    settings, records = files.read_shift(data)
    day, more, beside = write('vector.shift', data), write('more.shift', file_of(settings, [text])), write('vector.shift.summary',
                              own[:13 * len(records)])
    makes(name, day, file_of(settings, [*records_of(data), text]), 'shift', 'append', day, more)
    check(f'{name}: the summary', beside.read_bytes(), bytes_of(answer[1])[:13 * (len(records) + 1)])
    fresh('vector.shift.summary')


VECTORS_OF_SUMMARIES = {'build': build_vector, 'check': check_vector, 'find': find_vector, 'update': update_vector}


def moved_forward(data):
    return files.settings_file([text[:8] + bytes([0, 255, 255, 255]) + text[8:] for text in records_of(data)])


def shift_move():
    n = numbers(14)
    for count, side in ((0, 1), (1, 1), (6, 30), (4096, 1)):
        old = some_file(n, count, side, False)
        new = moved_forward(old)
        plain, settings = write('plain.shift', old), write('settings.shift', new)
        makes(f'{count} records forward', fresh('moved.shift'), new, 'shift', 'move', plain, '-o', path('moved.shift'), '--to', 'settings')
        makes(f'{count} records back', fresh('moved.shift'), old, 'shift', 'move', settings, '-o', path('moved.shift'), '--to=plain')
        done = run('shift', 'move', '--json', plain, '-o', fresh('moved.shift'), '--to=settings')
        check(f'{count} records forward, in JSON', (parsed('move --json', done.out), done.status),
              ({'file': str(plain), 'form': 'with settings', 'records': count, 'bytes': len(new)}, 0))
        fails(f'{count} records forward twice', 'shift', 'move', settings, '-o', fresh('moved.shift'), '--to=settings', number=15,
              keeps=[path('moved.shift')])
        fails(f'{count} records back twice', 'shift', 'move', plain, '-o', fresh('moved.shift'), '--to=plain', number=15, keeps=[path('moved.shift')])
        fails('a file onto itself', 'shift', 'move', plain, '-o', plain, '--to=settings', keeps=[plain], says=['--force'])
        makes(f'{count} records forward in place', plain, new, 'shift', 'move', plain, '-o', plain, '--to=settings', '--force')
        makes(f'{count} records back in place', plain, old, 'shift', 'move', '-f', plain, '-o', plain, '--to=plain')
    for place, values in ((0, (1,)), (1, (0, 1)), (2, (0, 6)), (3, (0, 3))):
        for value in values:
            four = [0, 255, 255, 255]
            four[place] = value
            one = write('recorded.shift', files.settings_file([files.settings_record(7, 1, 1, four, b'123')]))
            fails(f'back with {value} in place {place}', 'shift', 'move', one, '-o', fresh('moved.shift'), '--to=plain', number=20,
                  keeps=[path('moved.shift')])
    for name, call, answer in vectors('shift'):
        if call[0] == 'move' and int(answer[0]) != 16:
            one, words = write('vector.shift', bytes_of(call[2])), ['--to', ('plain', 'settings')[int(call[1])]]
            if int(answer[0]):
                fails(f'vector {name}', 'shift', 'move', one, '-o', fresh('moved.shift'), *words, number=int(answer[0]), as_json=False)
            else:
                makes(f'vector {name}', fresh('moved.shift'), bytes_of(answer[4])[:int(answer[3])], 'shift', 'move', one, '-o', path('moved.shift'),
                      *words)
    fails('move without --to', 'shift', 'move', plain, '-o', fresh('moved.shift'), says=['--to'], keeps=[path('moved.shift')])
    fails('move without an output', 'shift', 'move', plain, '--to=settings', says=['-o'])


# ---- compare

PLANE_NAMES = 'YUV'


def compare():
    n = numbers(18)
    ours_path, theirs_path = path('ours.shift'), path('theirs.shift')
    for case in range(60):
        count, crossings = n.choice((0, 1, 2, 5, 12)), n.choice((1, 3, 1 << 32))
        both = n.choice((None, n))
        ours = [noon.record(n, n.randrange(crossings), n.randint(1, 9), n.randint(1, 9), n.randrange(2) if both else 0) for _ in range(count)]
        theirs = [(crossing, size, noon.changed(n, data) if n.random() < 0.2 else data) for crossing, size, data in ours if n.random() < 0.9]
        if case % 2:
            n.shuffle(theirs)
        if case % 3 == 0:
            theirs.append(noon.record(n, n.randrange(crossings), 3, 2))
        if case % 5 == 0 and theirs and both:
            k = n.randrange(len(theirs))
            crossing, (w, h, sampling), _ = theirs[k]
            theirs[k] = noon.record(n, crossing, w, h, 1 - sampling)
        text, status = noon.report(ours, theirs)
        ours_path.write_bytes(noon.shift_file(ours, both))
        theirs_path.write_bytes(noon.shift_file(theirs, both))
        does(f'compare, case {case}', 'compare', ours_path, theirs_path, out=text.encode(), status=status)
        differ = int(text.split('different:')[1].split()[0])
        does(f'compare --pairs-only, case {case}', 'compare', '--pairs-only', ours_path, theirs_path, out=text.encode(), status=1 if differ else 0)
    for name, call, answer in vectors('pairs'):
        ours, theirs = write('vector.ours', bytes_of(call[1])), write('vector.theirs', bytes_of(call[2]))
        if int(answer[0]):
            fails(f'vector {name}', 'compare', ours, theirs, number=15, file=(ours, theirs)[int(answer[3]) - 1])
            continue
        equal, differing, only_ours, only_theirs, kind, crossing, our, their, *rest = map(int, answer[4:22])
        first = None
        if kind:
            first = {'crossing': crossing, 'our_record': our, 'their_record': their, 'kind': ('', 'sizes', 'bytes')[kind]}
        if kind == 1:
            first.update(our_width=rest[0], our_height=rest[1], their_width=rest[2], their_height=rest[3], our_sampling=SAMPLINGS[rest[7]],
                         their_sampling=SAMPLINGS[rest[8]])
        if kind == 2:
            first.update(plane=PLANE_NAMES[rest[4]], row=rest[5], column=rest[6])
        done = run('compare', '--json', ours, theirs)
        value = parsed(f'vector {name}', done.out)
        check(f'vector {name}', value, {'equal': equal, 'differing': differing, 'only_ours': only_ours, 'only_theirs': only_theirs, 'first': first})
        check(f'vector {name}: status', (done.err, done.status), (b'', 1 if differing or only_ours or only_theirs else 0))
        done = run('compare', '--pairs-only', ours, theirs)
        check(f'vector {name}: status of --pairs-only', (done.err, done.status), (b'', 1 if differing else 0))
    good = write('good.shift', some_file(n, 4, 9, True))
    does('a file and itself', 'compare', good, good, out=noon.report([], [])[0].replace('both: 0', 'both: 4').encode())
    with open(good, 'rb') as file:
        check('standard input as one of the two', run('compare', '-', good, stdin=file).status, 0)
    for place in (0, 1):
        data = good.read_bytes()
        names = [good, good]
        names[place] = '-'
        done = fails(f'a pipe as file {place + 1}', 'compare', *names, feed=data, as_json=False)
        names[place] = fresh('none.shift')
        fails(f'a file {place + 1} that is not there', 'compare', *names, file=names[place])
        names[place] = given['folder']
        fails(f'a folder as file {place + 1}', 'compare', *names, file=names[place])
    for words in ([], [good], [good, good, good]):
        fails(f'compare of {len(words)} files', 'compare', *words)


# ---- rules check, help, completions, the man page

def rules_check():
    frame, counts = given['programs'] / 'frame', given['programs'] / 'luma_counts'
    env = {**os.environ, 'SEGVARTIN_CONFORMANCE': str(ROOT / 'conformance')}
    done = run('rules', 'check', frame, env=env)
    check('rules check of frame', (done.out.splitlines()[:1], done.out.splitlines()[-1:], done.err, done.status),
          ([b'requests: 695 of 695 right'], [b'695 right, 0 wrong'], b'', 0))
    done = run('rules', 'check', '--counts', counts, env=env)
    check('rules check of luma_counts', (done.out.splitlines()[-1:], done.status), ([b'25 right, 0 wrong'], 0))
    broken = path('broken program')
    broken.write_text('#!/bin/sh\ncat > /dev/null\nprintf \'refused 1\\n\'\n')
    broken.chmod(0o755)
    done = run('rules', 'check', f"'{broken}'", env=env)
    check('rules check of a broken program', (b'rules that are broken' in done.out, done.status), (True, 1))
    done = run('rules', 'check', "sh -c 'cat > /dev/null; echo refused 6'", '--only=requests', env=env)
    check('rules check of a program with arguments in one word', (b'rules that are broken' in done.out, done.status), (True, 1))
    env['SEGVARTIN_CONFORMANCE'] = str(path('nowhere'))
    holds('rules check without its vectors', (done := run('rules', 'check', frame, env=env)).status == 2 and done.err, done)
    for words in (['/no/such/program'], [frame, '--only=nothing'], [frame, '--only=bands']):
        holds(f'rules check {words}: nothing is judged', (done := run('rules', 'check', *words)).status == 2 and done.err, done)
    fails('rules check of nothing', 'rules', 'check', as_json=False)
    for words in (['rules', 'check', frame], ['help'], ['completion', 'bash']):
        done = run(*words, '--json')
        error = parsed(f'{words[0]} --json', done.err)
        check(f'{words[0]} --json: an unknown flag', (done.out, 'an unknown flag' in str(error), done.status), (b'', True, 2))


CONVERSION = '--from --size --pix-fmt --stride --window --sampling --range --matrix --kr --kb --transfer --tables'
FLAGS = {
    'convert': f'{CONVERSION} --to --crossing --plain --output --force --json',
    'digest': f'{CONVERSION} --planes --crossing --json',
    'shift list': '--json',
    'shift append': f'{CONVERSION} --crossing --plain --json',
    'shift find': '--summary --output --to --all --force --json',
    'shift summary': '--output --force --check --json',
    'shift move': '--output --to --force --json',
    'compare': '--pairs-only --json',
    'rules check': '--lines --counts --only',
    'help': '--man',
    'completion': '',
}


def helps():
    for words in (['--help'], ['-h']):
        done = run(*words)
        check(f'{words[0]}: status', (done.err, done.status), (b'', 0))
        for name in FLAGS:
            holds(f'{words[0]}: {name.split()[0]} is in it', name.split()[0] in done.out.decode(), done.out)
    for name, known in FLAGS.items():
        texts = []
        for flag in ('--help', '-h'):
            done = run(*name.split(), flag)
            texts.append(done)
            check(f'{name} {flag}: status', (done.err, done.status), (b'', 0))
            shown = re.findall(r'^  (?:-\w, )?(--[\w-]+)', done.out.decode(), re.M)
            check(f'{name} {flag}: its flags', sorted(shown), sorted([*known.split(), '--help']))
            has_files = name.split()[0] not in ('rules', 'help', 'completion')
            check(f'{name} {flag}: whether - is said', b'standard input or output' in done.out, has_files)
        check(f'{name}: -h is --help', texts[0], texts[1])
    done = run('--version')
    holds('--version', done.status == 0 and done.err == b'' and done.out.startswith(b'segvartin ') and done.out.count(b'\n') == 1, done)
    done = run()
    check('no words: status', done.status, 2)
    for words in (['conver'], ['shift', 'lst'], ['--nothing']):
        fails(f'{words}', *words, as_json=False)
    for group in ('shift', 'rules'):
        fails(group, group, as_json=False, says=[f'try: segvartin {group} --help'])
        for words in ([group, '--help'], [group, '-h'], ['help', group]):
            done = run(*words)
            listed = [name for name in FLAGS if f'  {name} ' in done.out.decode()]
            check(f'{words}: its commands', (listed, done.err, done.status), ([name for name in FLAGS if name.startswith(f'{group} ')], b'', 0))
    for name, flag, near in (('convert', '--samplng', '--sampling'), ('convert', '--widow', '--window'), ('convert', '--forse', '--force'),
                             ('compare', '--pair-only', '--pairs-only'), ('digest', '--plane', '--planes'), ('shift find', '--sumary', '--summary'),
                             ('shift move', '--jsn', '--json')):
        fails(f'{name} {flag}', *name.split(), flag, 'x', 'y', says=[flag, near], as_json=False)


COMPLETING = r'''
set -u
source "$1"
shift
COMP_WORDS=("$@")
COMP_CWORD=$(($# - 1))
COMP_LINE="$*"
COMP_POINT=${#COMP_LINE}
compopt() { :; } # it wants to be called by the shell itself
spec=$(complete -p segvartin)
function=${spec#*-F }
function=${function%% *}
COMPREPLY=()
"$function" segvartin "${COMP_WORDS[COMP_CWORD]}" "${COMP_WORDS[COMP_CWORD - 1]}"
printf '%s\n' "${COMPREPLY[@]}"
'''


def completions():
    shells = (('bash', ['bash', '-n']), ('zsh', ['zsh', '-n']), ('fish', ['fish', '--no-execute']))
    for shell, words in shells:
        done = run('completion', shell)
        check(f'completion {shell}: status', (done.err, done.status), (b'', 0))
        script = write(f'completion.{shell}', done.out)
        for name in ('convert', 'digest', 'shift', 'append', 'compare', 'rules', 'pairs-only', 'sampling'):
            holds(f'completion {shell}: {name} is in it', name.encode() in done.out, done.out)
        if shutil.which(shell) is None:
            left_out(f'the completion for {shell}', f'{shell} is not here')
            continue
        read = subprocess.run([*words, script], stdout=subprocess.PIPE, stderr=subprocess.STDOUT)
        check(f'completion {shell}: {shell} takes it', (read.stdout, read.returncode), (b'', 0))
    for words, expected in ((['con'], ['convert']), (['shift', 'app'], ['append']), (['convert', '--samp'], ['--sampling']),
                            (['convert', '--sampling', ''], ['420', '422']), (['convert', '--matrix', 'bt2'], ['bt2020']), (['compare', '--pa'],
                             ['--pairs-only']), (['convert', '--sampling', '='], ['420', '422']), (['convert', '--matrix', '=', 'bt2'], ['bt2020'])):
        read = subprocess.run(['bash', '-c', COMPLETING, 'bash', path('completion.bash'), 'segvartin', *words], stdout=subprocess.PIPE,
                              stderr=subprocess.PIPE)
        check(f'bash completes {words}', ([word.strip() for word in read.stdout.decode().split()], read.stderr), (expected, b''))
    fails('completion for another shell', 'completion', 'csh', as_json=False)
    if shutil.which('fish'):
        fish_completes()


def fish_completes():
    folder = given['folder'] / 'completed'
    folder.mkdir(exist_ok=True)
    (folder / 'a.ppm').write_bytes(b'')
    for line, expected in (('con', ['convert']), ('shift ', ['append', 'find', 'list', 'move', 'summary']), ('shift app', ['append']),
                           ('convert --sampling ', ['420', '422']), ('convert --matrix=bt2', ['--matrix=bt2020']), ('convert --size ', []),
                           ('convert ', ['a.ppm']), ('convert a.ppm --to shift ', ['a.ppm']), ('convert a.ppm --to shift --pl', ['--plain']),
                           ('convert a.ppm -o ', ['a.ppm']), ('digest compare --pa', []), ('compare --pa', ['--pairs-only']),
                           ('completion ', ['bash', 'fish', 'zsh'])):
        words = ['fish', '--no-config', '-c', 'source $argv[1]; complete -C $argv[2]', path('completion.fish'), f'segvartin {line}']
        read = subprocess.run(words, stdout=subprocess.PIPE, stderr=subprocess.PIPE, cwd=folder)
        offered = sorted(one.split('\t')[0] for one in read.stdout.decode().splitlines())
        check(f'fish completes {line!r}', (offered, read.stderr), (expected, b''))


def man_page():
    done = run('help', '--man')
    check('help --man: status', (done.err, done.status), (b'', 0))
    page = write('segvartin.1', done.out)
    holds('help --man: a page', b'.TH ' in done.out and b'.SH NAME' in done.out and b'.SH SYNOPSIS' in done.out, done.out)
    if shutil.which('groff'):
        read = subprocess.run(['groff', '-man', '-Tutf8', '-ww', '-z', page], stdout=subprocess.PIPE, stderr=subprocess.PIPE)
        check('the man page by groff, without warnings', (read.stderr, read.returncode), (b'', 0))
    else:
        left_out('the man page by groff', 'groff is not here')
    if shutil.which('man'):
        env = {**os.environ, 'MANWIDTH': '100', 'LC_ALL': 'C.UTF-8', 'MANPAGER': 'cat', 'PAGER': 'cat'}
        read = subprocess.run(['man', '--warnings', '-l', page], stdout=subprocess.PIPE, stderr=subprocess.PIPE, env=env)
        check('the man page by man, without warnings', (read.stderr, read.returncode), (b'', 0))
        text = read.stdout.decode('utf-8', 'replace')
        for name in (*FLAGS, '--pairs-only', '--sampling', '--force', 'standard input or output', 'ENVIRONMENT SEGVARTIN_CONFORMANCE',
                     'EXIT STATUS'):
            holds(f'the man page has {name}', name in ' '.join(text.split()), text)
    else:
        left_out('the man page by man', 'man is not here')


ALL = [convert_forms, convert_headers, convert_settings, convert_raw, convert_several, convert_sample, by_ffmpeg, vectors_of_frames,
       vectors_of_large_frames, digest, shift_list, shift_append, shift_append_summary, shift_find, shift_summary, shift_move, compare, rules_check,
       helps, completions, man_page]
