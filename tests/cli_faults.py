"""What `segvartin` does where something is wrong: flags, broken input, refusals, and writes that are interrupted or fail."""
import contextlib
import errno
import fcntl
import os
import pty
import re
import resource
import shutil
import signal
import stat
import struct
import subprocess
import sys
import tempfile
import termios
import threading
import time
from pathlib import Path

sys.dont_write_bytecode = True
import files
from cli_checks import LIMIT, Run, check, does, fails, fresh, given, holds, left_out, makes, parsed, parts, path, planes, run, write
from cli_work import forms, moved_forward, numbers, sha, some_file

OLD = b'what stood here before'


# ---- refusals of the library, and flags

CUSTOM = ['--size=4x2', '--matrix=custom']

# Of raw pixels, 24 bytes: what it is, flags, number, expected and received
REFUSED = [
    ('no size', ['--size=0x0'], 2, 0, 0),
    ('no width', ['--size=0x2'], 2, 0, 0),
    ('no height', ['--size=4x0'], 2, 0, 0),
    ('no window', ['--size=4x2', '--window=0x0+0+0'], 2, 0, 0),
    ('a width of 20,000', ['--size=20000x1'], 3, 0, 0),
    ('a width of 16,385', ['--size=16385x1'], 3, 0, 0),
    ('a height of 16,385', ['--size=1x16385'], 3, 0, 0),
    ('a height of 2 ^ 32 - 1', ['--size=1x4294967295'], 3, 0, 0),
    ('a width of more than 32 bits', ['--size=99999999999x1'], 3, 0, 0),
    ('a window of a source too large', ['--size=16385x1', '--window=1x1+0+0'], 3, 0, 0),
    ('kr 0.7', [*CUSTOM, '--kr=0.7', '--kb=0.1'], 4, 0, 0),
    ('kb 0.51', [*CUSTOM, '--kr=0.2', '--kb=0.51'], 4, 0, 0),
    ('kr -0.1', [*CUSTOM, '--kr=-0.1', '--kb=0.1'], 4, 0, 0),
    ('kr nan', [*CUSTOM, '--kr=nan', '--kb=0.1'], 4, 0, 0),
    ('a window outside', ['--size=4x2', '--window=3x2+2+0'], 14, 0, 0),
    ('a window below', ['--size=4x2', '--window=1x1+0+2'], 14, 0, 0),
    ('a window far outside', ['--size=4x2', '--window=1x1+4294967295+4294967295'], 14, 0, 0),
    ('a window at a place of more than 32 bits', ['--size=4x2', '--window=1x1+0+99999999999'], 14, 0, 0),
    ('a window wider than its source', ['--size=4x2', '--window=5x2+0+0'], 14, 0, 0),
    ('too few bytes', ['--size=5x2'], 6, 30, 24),
    ('a row too few', ['--size=1x9'], 6, 27, 24),
    ('a rest behind a picture', ['--size=5x1'], 6, 15, 9),
    ('rgba of rgb24', ['--size=4x2', '--pix-fmt=rgba'], 6, 32, 24),
    ('a stride of 2 ^ 32 - 1', ['--size=4x2', '--stride=4294967295'], 6, 4294967307, 24),
    ('a stride below its row', ['--size=4x2', '--stride=11'], 7, 12, 11),
    ('a stride of 0', ['--size=4x2', '--stride=0'], 7, 12, 0),
    ('a last row without its padding', ['--size=2x3', '--stride=9'], 12, 27, 24),
]

# Of PNM pictures, whose numbers are handed on too
REFUSED_PICTURES = [
    ('P6 of no width', b'P6 0 1 255\n', 2, 0, 0),
    ('P5 of no height', b'P5 1 0 255\n', 2, 0, 0),
    ('P6 of 16,385', b'P6 16385 1 255\n' + bytes(49155), 3, 0, 0),
    ('P6 of 2 ^ 32 + 3', b'P6 4294967299 2 255\n' + bytes(18), 3, 0, 0),
    ('P6 of 2 ^ 64 + 3', b'P6 18446744073709551619 2 255\n' + bytes(18), 3, 0, 0),
    ('P6 a byte too short', files.ppm(4, 2, bytes(23)), 6, 24, 23),
    ('P6 without pixels', files.ppm(4, 2, b''), 6, 24, 0),
    ('a second P6 a byte too short', files.ppm(4, 2, bytes(24)) + files.ppm(4, 2, bytes(23)), 6, 24, 23),
    ('P7 a byte too short', files.pam(4, 2, 4, bytes(31)), 6, 32, 31),
]


def refusals():
    rgb, out = write('r.data', bytes(24)), fresh('out.yuv')
    for name, words, number, expected, received in REFUSED:
        told = {'number': number, 'expected': expected, 'received': received}
        day = write('day.shift', some_file(numbers(2), 2, 3, True))
        fails(f'{name}: {number}', 'convert', '--from=raw', rgb, '-o', out, *words, **told, file=rgb, keeps=[out])
        fails(f'{name} in digest: {number}', 'digest', '--from=raw', rgb, *words, **told, file=rgb)
        fails(f'{name} in append: {number}', 'shift', 'append', day, '--from=raw', rgb, *words, '--crossing=3', **told, keeps=[day])
        fails(f'{name} by a pipe: {number}', 'convert', '--from=raw', '-', '-o', out, *words, **told, keeps=[out], feed=rgb.read_bytes())
    for name, data, number, expected, received in REFUSED_PICTURES:
        told = {'number': number, 'expected': expected, 'received': received}
        fails(f'{name}: {number}', 'convert', write('picture', data), '-o', out, **told, file=path('picture'), keeps=[out])
        fails(f'{name} by a pipe: {number}', 'convert', '-', '-o', out, **told, keeps=[out], feed=data)
    refusals_of_files()


def refusals_of_files():
    good, picture = some_file(numbers(3), 3, 5, True), write('picture.ppm', files.ppm(4, 2, bytes(24)))
    for name, data in (('a byte less', good[:-1]), ('a byte more', good + b'\0'), ('nothing', b''), ('another file', picture.read_bytes())):
        broken, other = write('broken.shift', data), write('other.shift', good)
        moved, made = fresh('moved.shift', 'made.summary')
        for words in (['shift', 'list', broken],
                      ['shift', 'append', broken, picture, '--crossing=1'],
                      ['shift', 'append', other, broken],
                      ['shift', 'find', broken, '1'],
                      ['shift', 'summary', broken, '-o', made],
                      ['shift', 'summary', '--check', broken],
                      ['shift', 'move', broken, '-o', moved, '--to=plain'],
                      ['compare', broken, other],
                      ['compare', other, broken],
                      ['digest', broken]):
            command = ' '.join(words[:2]) if words[0] == 'shift' else words[0]
            fails(f'{name} in {command}: 15', *words, number=15, file=broken, keeps=[broken, other, moved, made])
    good = files.y4m_file(4, 2, 0, bytes(12))
    for name, data in (('a byte less', good[:-1]), ('a byte more', good + b'\0'), ('C444', good.replace(b'C420jpeg', b'C444')),
                       ('no size', b'YUV4MPEG2\n'), ('two spaces', good.replace(b' W', b'  W'))):
        broken, day = write('broken.y4m', data), write('day.shift', some_file(numbers(4), 2, 3, True))
        fails(f'{name} in digest: 19', 'digest', broken, number=19, file=broken)
        fails(f'{name} in append: 19', 'shift', 'append', day, broken, '--crossing=1', number=19, file=broken, keeps=[day])


WRONG_VALUES = {
    '--sampling': ['444', ''],
    '--range': ['wide'],
    '--matrix': ['bt602'],
    '--transfer': ['linear'],
    '--tables': ['exact'],
    '--to': ['png'],
    '--from': ['png'],
    '--pix-fmt': ['yuv420p'],
    '--size': ['4', '4x', 'x2', '4x2x1', '-4x2', '4 x 2', '+4x2'],
    '--window': ['2x2', '2x2+1', '2x2+1+1+1', '2x2-1+0'],
    '--stride': ['x', '-1', '4294967296', ''],
    '--crossing': ['-1', '4294967296', '1x'],
    '--kr': ['x'],
    '--kb': [''],
}


def wrong_flags():
    picture, out = write('picture.ppm', files.ppm(4, 2, bytes(24))), fresh('out.yuv')
    black = bytes([16] * 8 + [128] * 4)
    for flag, value in ((flag, value) for flag, values in WRONG_VALUES.items() for value in values):
        words = {'--kr': ['--matrix=custom', '--kb=0.1'], '--kb': ['--matrix=custom', '--kr=0.1'], '--size': ['--from=raw'],
                 '--pix-fmt': ['--from=raw', '--size=4x2'], '--stride': ['--from=raw', '--size=4x2']}.get(flag, [])
        words = [*words, f'{flag}={value}']
        fails(f'{flag}={value}', 'convert', *words, picture, '-o', out, keeps=[out], says=[flag])
    fails('custom without kr and kb', 'convert', '--matrix=custom', picture, '-o', out, keeps=[out])
    fails('custom without kb', 'convert', '--matrix=custom', '--kr=0.2', picture, '-o', out, keeps=[out])
    fails('an output without an ending', 'convert', picture, '-o', fresh('out'), keeps=[path('out')], says=['--to'])
    fails('an ending that is none', 'convert', picture, '-o', fresh('out.png'), keeps=[path('out.png')], says=['--to'])
    fails('standard output without --to', 'convert', picture, '-o', '-', says=['--to'])
    fails('no output', 'convert', picture, says=['-o'])
    fails('no input', 'convert', '-o', out, keeps=[out])
    fails('a value where there is none', 'convert', picture, '-o', out, '--force=1', keeps=[out], says=['--force'])
    fails('a flag without its value', 'convert', picture, '-o', as_json=False)
    fails('a flag without its value, at the end', 'convert', picture, '-o', out, '--sampling', keeps=[out], as_json=False)
    makes('--to before the ending', fresh('out.y4m'), black, 'convert', '--to', 'yuv', picture, '-o', path('out.y4m'))
    makes('--output and =', fresh('out.yuv'), black, 'convert', picture, f'--output={path("out.yuv")}')


# ---- broken input

PAM = b'P7\nWIDTH 1\nHEIGHT 1\nDEPTH %d\nMAXVAL 255\nTUPLTYPE %s\nENDHDR\n1234'

# No picture, of 3 by 2 pixels where it seems one
NO_PICTURES = [
    ('nothing', b''),
    ('a newline', b'\n'),
    ('P', b'P'),
    ('P0', b'P0 3 2 255\n' + bytes(18)),
    ('P8', b'P8 3 2 255\n' + bytes(18)),
    ('p6', b'p6 3 2 255\n' + bytes(18)),
    ('P66', b'P66 3 2 255\n' + bytes(18)),
    ('PNG', b'\x89PNG\r\n\x1a\n' + bytes(30)),
    ('JPEG', b'\xff\xd8\xff\xe0' + bytes(30)),
    ('text', b'hello\n'),
    ('a space first', b' P6 3 2 255\n' + bytes(18)),
    ('letters for a width', b'P6 x 2 255\n' + bytes(18)),
    ('a minus', b'P6 -3 2 255\n' + bytes(18)),
    ('a fraction', b'P6 3.0 2 255\n' + bytes(18)),
    ('P3 with a number above 255', b'P3 1 1 255 1 256 3\n'),
    ('P3 with letters', b'P3 1 1 255 1 x 3\n'),
    ('P3 with a minus', b'P3 1 1 255 1 -2 3\n'),
    ('P1 with a 2', b'P1 3 2 100120'),
    ('P7 of depth 2', PAM % (2, b'GRAYSCALE_ALPHA')),
    ('P7 of RGB and depth 4', PAM % (4, b'RGB')),
    ('P7 without a width', (PAM % (3, b'RGB')).replace(b'WIDTH 1\n', b'')),
    ('P7 with two numbers in a line', (PAM % (3, b'RGB')).replace(b'WIDTH 1\n', b'WIDTH 1 1\n')),
    ('P7 with a number and letters', (PAM % (3, b'RGB')).replace(b'WIDTH 1\n', b'WIDTH 1 x\n')),
    ('P7 with two widths', (PAM % (3, b'RGB')).replace(b'WIDTH 1\n', b'WIDTH 1\nWIDTH 1\n')),
    ('P7 with two kinds', (PAM % (3, b'RGB')).replace(b'ENDHDR', b'TUPLTYPE RGB\nENDHDR')),
    ('P7 with a word behind its end', (PAM % (3, b'RGB')).replace(b'ENDHDR\n', b'ENDHDR x\n')),
    ('P7 with a width of nothing', (PAM % (3, b'RGB')).replace(b'WIDTH 1\n', b'WIDTH\n')),
    ('P7 without an end', (PAM % (3, b'RGB')).replace(b'ENDHDR\n', b'') + b'#' * 100000),
]

BEHIND = [('a byte', b'x'), ('a word', b'hello'), ('P', b'P'), ('P6', b'P6'), ('P6 3', b'P6 3'), ('zeros', bytes(3))]


def short_pictures():
    """Each form, cut off after every byte, and with something behind it."""
    out = fresh('out.yuv')
    bodies = {'P1': 6, 'P2': 6, 'P3': 18, 'P4': 2, 'P5': 6, 'P6': 18, 'P7 GRAYSCALE': 6, 'P7 RGB': 18, 'P7 RGB_ALPHA': 24}
    for form, data, _ in forms(3, 2, 5):
        body, binary = bodies[form], form[1] in '4567'
        head = len(data) - body if binary else data.index(b'3 2\n') + (4 if form == 'P1' else 8)
        for length in range(head - 1):
            fails(f'{form}, {length} bytes of its head', 'convert', write('picture', data[:length]), '-o', out, keeps=[out], as_json=length == 5)
            fails(f'{form}, {length} bytes of its head by a pipe', 'convert', '-', '-o', out, keeps=[out], feed=data[:length], as_json=False)
        ends_with_2(f'{form}, its head but for the last byte', data[:head - 1], out)
        for length in range(head, len(data)) if binary else ():
            name = f'{form}, {length - head} bytes of its pixels'
            if form in ('P6', 'P7 RGB', 'P7 RGB_ALPHA'):
                told = {'number': 6, 'expected': body, 'received': length - head}
                fails(name, 'convert', write('picture', data[:length]), '-o', out, keeps=[out], as_json=False, **told)
            ends_with_2(name, data[:length], out)
        if not binary:
            end = data.rstrip().rindex(b' ') if form != 'P1' else len(data.rstrip()) - 1
            ends_with_2(f'{form}, a pixel too few', data[:end], out)
        for name, more in BEHIND:
            ends_with_2(f'{form}, {name} behind it', data + more, out)


def broken_pictures():
    out = fresh('out.yuv')
    for name, data in NO_PICTURES:
        fails(name, 'convert', write('picture', data), '-o', out, keeps=[out], as_json=len(name) % 3 == 0)
        fails(f'{name} in digest', 'digest', write('picture', data), as_json=False)
        fails(f'{name} by a pipe', 'convert', '-', '-o', out, keeps=[out], feed=data, as_json=False)
    for maxval in (65535, 0, 1, 254, 256):
        for name, data in (('P6', b'P6 1 1 %d\n' % maxval + bytes(6)), ('P5', b'P5 1 1 %d\n' % maxval + bytes(2)),
                           ('P3', b'P3 1 1 %d\n0 0 0\n' % maxval), ('P2', b'P2 1 1 %d\n0\n' % maxval),
                           ('P7', (PAM % (3, b'RGB')).replace(b'255', b'%d' % maxval))):
            told = {'says': ['expected 255', f'received {maxval}'], 'expected': 255, 'received': maxval}
            fails(f'{name} with MAXVAL {maxval}', 'convert', write('picture', data), '-o', out, keeps=[out], **told)


def broken_places():
    """Files that cannot be opened, and outputs that stand already."""
    out, moved = fresh('out.yuv', 'moved.shift')
    nowhere = given['folder'] / 'none' / 'x.ppm'
    for name, place in (('a folder', given['folder']), ('a file that is not there', fresh('none.ppm')), ('a folder that is not there', nowhere),
                        ('a file for a folder', write('picture', b'') / 'x.ppm')):
        fails(name, 'convert', place, '-o', out, file=place, keeps=[out])
        fails(f'{name} in digest', 'digest', place, file=place)
        for words in (['list', place], ['summary', place], ['find', place, '1'], ['move', place, '-o', moved, '--to=plain']):
            fails(f'{name} in {words[0]}', 'shift', *words, file=place, keeps=[moved])
    rgb = bytes(range(18))
    picture = write('picture.ppm', files.ppm(3, 2, rgb))
    fails('an output in a folder that is not there', 'convert', picture, '--to=yuv', '-o', nowhere, file=nowhere, says=['a folder that exists'])
    fails('append in a folder that is not there', 'shift', 'append', nowhere, picture, '--crossing=1', file=nowhere, says=['a folder that exists'])
    fails('a folder as output', 'convert', picture, '--to=yuv', '-f', '-o', given['folder'])
    write('out.yuv', OLD)
    fails('an output that is there', 'convert', picture, '-o', out, keeps=[out], says=['--force'], file=out)
    for flag in ('--force', '-f'):
        write('out.yuv', OLD)
        makes(f'an output that is there, with {flag}', out, planes(3, 2, rgb), 'convert', flag, picture, '-o', out)
    makes('an output that is the input', picture, planes(3, 2, rgb), 'convert', '-f', picture, '--to=yuv', '-o', picture)


def ends_with_2(name, data, out):
    """Whether the library or the program refuses it is not said: nothing is written."""
    for way, last, more in (('', write('picture', data), {}), (' by a pipe', '-', {'feed': data})):
        done = run('convert', last, '-o', out, **more)
        holds(f'{name}{way}: 2 and a line', done.status == 2 and done.out == b'' and done.err.startswith(b'segvartin convert: '), done)
        check(f'{name}{way}: nothing written', (out.exists(), parts()), (False, []))


@contextlib.contextmanager
def another_user():
    """A folder and the words of a run as another user, who may read the program; nothing where that cannot be."""
    if os.geteuid() != 0:
        yield given['folder'], {}
        return
    folder = Path(tempfile.mkdtemp(prefix='segvartin-'))
    try:
        folder.chmod(0o755)
        program = shutil.copy(given['program'], folder / 'segvartin')
        os.chmod(program, 0o755)
        writable = folder / 'files'
        writable.mkdir()
        os.chown(writable, 65534, 65534)
        yield writable, {'program': program, 'user': 65534, 'group': 65534, 'extra_groups': []}
    finally:
        shutil.rmtree(folder)


def unreadable():
    with another_user() as (folder, words):
        hidden, shown = folder / 'hidden.ppm', folder / 'shown.ppm'
        for one, mode in ((hidden, 0o000), (shown, 0o644)):
            one.write_bytes(files.ppm(3, 2, bytes(18)))
            one.chmod(mode)
        day = folder / 'hidden.shift'
        day.write_bytes(files.shift_file([]))
        day.chmod(0)
        out = folder / 'out.yuv'
        for command in (['convert', hidden, '-o', out], ['digest', hidden], ['shift', 'list', day], ['compare', day, day],
                        ['shift', 'append', day, shown, '--crossing=1']):
            fails(f'an unreadable file in {command[:2]}', *command, file=command[-1] if command[0] in ('digest', 'compare') else None,
                  says=['ermission'], **words)
        check('an unreadable file: nothing written', (out.exists(), parts(folder)), (False, []))
        closed = folder / 'closed'
        closed.mkdir()
        (closed / 'out.yuv').write_bytes(OLD)
        closed.chmod(0o555)
        fails('a folder that may not be written', 'convert', shown, '-f', '-o', closed / 'out.yuv', says=['ermission'], **words)
        check('a folder that may not be written: the old file', (closed / 'out.yuv').read_bytes(), OLD)
        closed.chmod(0o755)
        kept = folder / 'kept.shift'
        kept.write_bytes(files.shift_file([]))
        kept.chmod(0o444)
        fails('append to a file that may not be written', 'shift', 'append', kept, shown, '--crossing=1', says=['ermission'], keeps=[kept], **words)


# ---- how input comes

def pieces_of_input():
    """Pictures that come a byte at a time, many in one stream, and from many files with few descriptors."""
    for form, data, rgb in forms(5, 3, 16):
        taken = fed_slowly(['convert', '-', '-f', '-o', path('out.yuv')], [data[k:k + 1] for k in range(len(data))], 0, False)
        check(f'{form}, a byte at a time', (*taken, path('out.yuv').read_bytes()), (b'', 0, planes(5, 3, rgb)))
    n = numbers(17)
    pixels = [n.randbytes(3) for _ in range(50)]
    made = 10 * b''.join(planes(1, 1, one) for one in pixels)
    stream = 10 * b''.join(files.ppm(1, 1, one) for one in pixels)
    makes('500 pictures in a stream', fresh('out.y4m'), files.y4m_file(1, 1, 0, made), 'convert', '-', '-o', path('out.y4m'), feed=stream)
    makes('500 pictures in a file', fresh('out.y4m'), files.y4m_file(1, 1, 0, made), 'convert', write('stream', stream), '-o', path('out.y4m'))
    names_ = [write(f'one-{k}.ppm', files.ppm(1, 1, one)) for k, one in enumerate(4 * pixels)]
    few = {'preexec_fn': lambda: resource.setrlimit(resource.RLIMIT_NOFILE, (24, 24))}
    makes('200 files with 24 descriptors', fresh('out.yuv'), made[:600], 'convert', *names_, '-o', path('out.yuv'), **few)
    for one in names_:
        one.unlink()


def pipes_for_files():
    """Where a file is needed as a whole a pipe is an error that says so, and one that nothing writes to is not waited for."""
    day, y4m = some_file(numbers(18), 3, 4, True), files.y4m_file(4, 2, 0, bytes(12))
    kept = write('day.shift', day)
    for words, data in ((['shift', 'list', '-'], day), (['shift', 'find', '-', '1'], day), (['shift', 'summary', '-', '-o', '-'], day),
                        (['shift', 'move', '-', '-o', fresh('moved.shift'), '--to=plain'], day), (['compare', '-', kept], day),
                        (['digest', '-'], y4m), (['digest', '--from=shift', '-'], day), (['shift', 'append', kept, '-', '--crossing=1'], y4m)):
        fails(f'{words[:2]} of a pipe', *words, feed=data, says=['file'], keeps=[kept, path('moved.shift')])
    with open(write('one.y4m', y4m), 'rb') as file:
        does('digest of a Y4M file as standard input', 'digest', '-', stdin=file, out=f'{sha(bytes(12))}  -#0\n'.encode())
    with open(path('one.y4m'), 'rb') as file:
        does('append of a Y4M file as standard input', 'shift', 'append', kept, '-', '--crossing=1', stdin=file)
    fifo = fresh('pipe')
    os.mkfifo(fifo)
    for words in (['shift', 'list', fifo], ['shift', 'find', fifo, '1'], ['shift', 'summary', fifo], ['compare', fifo, kept], ['compare', kept, fifo],
                  ['shift', 'move', fifo, '-o', fresh('moved.shift'), '--to=plain'], ['shift', 'append', fifo, kept]):
        child = subprocess.Popen([given['program'], *words], stdin=subprocess.PIPE, stdout=subprocess.DEVNULL, stderr=subprocess.PIPE)
        err, status = ended(child, 5)
        holds(f'{words[:2]} of a pipe that nothing writes to: 2 and a line', status == 2 and err.startswith(b'segvartin '), (err, status))
    fifo.unlink()


def memory():
    """Of a picture that comes by a pipe the planes are in memory, and a few bands of rows; the RGB frame is never there whole."""
    w, h = 8192, 2048
    size = files.picture_size(w, h, 0)
    most, rgb, grey = size + (24 << 20), files.ppm(w, h, bytes(3 * w * h)), files.pgm(w, h, bytes(w * h))
    for words, data in ((['--to=yuv'], rgb), (['--to=y4m'], rgb), (['--to=shift', '--crossing=1'], rgb), (['--to=yuv'], grey)):
        name = f'{data[:2].decode()} {words[0]}'
        child = feeding(['convert', '-', *words, '-f', '-o', path('out.data')], data[:-1])
        waited(lambda: struct.unpack('i', fcntl.ioctl(child.stdin, termios.FIONREAD, bytes(4))) == (0,))
        time.sleep(0.1)
        [taken] = re.findall(r'VmHWM:\s+(\d+) kB', Path(f'/proc/{child.pid}/status').read_text())
        child.stdin.write(data[-1:])
        check(f'{name}: how it ends', ended(child), (b'', 0))
        holds(f'{name}: in memory at most {most >> 10} KiB; planes are {size >> 10}, RGB {3 * w * h >> 10}', int(taken) <= most >> 10, taken)
    fresh('out.data')
    little = {'preexec_fn': lambda: resource.setrlimit(resource.RLIMIT_AS, (1 << 30, 1 << 30))}
    fails('rows that there is no memory for', 'convert', '--from=raw', '--size=1x2', '--stride=4294967295', '-', '-o', fresh('out.yuv'), feed=b'123',
          keeps=[path('out.yuv')], says=['memory'], **little)


# ---- writes that are interrupted

def feeding(words, data, **more):
    """The program with a pipe to its standard input, in which these bytes are, and which stays open."""
    child = subprocess.Popen([given['program'], *words], stdin=subprocess.PIPE, stdout=more.pop('stdout', subprocess.DEVNULL),
                             stderr=subprocess.PIPE, **more)
    child.stdin.write(data)
    child.stdin.flush()
    return child


def waited(condition, seconds=5.0):
    end = time.monotonic() + seconds
    while time.monotonic() < end:
        if condition():
            return True
        time.sleep(0.002)
    return condition()


def ended(child, seconds=LIMIT):
    """Standard error and status, once it has ended."""
    try:
        child.stdin.close()
    except BrokenPipeError:
        pass
    try:
        child.wait(seconds)
    except subprocess.TimeoutExpired:
        child.kill()
        child.wait()
    return child.stderr.read(), child.returncode


def interruptions():
    """A picture of 6 MB comes by a pipe, as far as half of it; then a signal."""
    w, h = 2000, 1000
    head, half = b'P6\n%d %d\n255\n' % (w, h), bytes(3 * w * h // 2)
    day = some_file(numbers(6), 3, 9, True)
    for name in ('SIGINT', 'SIGTERM', 'SIGHUP', 'SIGQUIT', 'SIGABRT'):
        number = getattr(signal, name)
        for what, output, words in (('yuv', 'out.yuv', ['convert', '-', '-f', '-o', path('out.yuv')]),
                                    ('y4m', 'out.y4m', ['convert', '-', '-f', '-o', path('out.y4m')]),
                                    ('shift', 'out.shift', ['convert', '-', '--crossing=1', '-f', '-o', path('out.shift')]),
                                    ('append', 'day.shift', ['shift', 'append', path('day.shift'), '-', '--crossing=1'])):
            for old in (True, False) if what != 'append' else (True,):
                place = path(output)
                place.unlink(missing_ok=True)
                if old:
                    place.write_bytes(day if what == 'append' else OLD)
                before = place.read_bytes() if old else None
                child = feeding(words, head + half)
                waited(parts)
                begun = parts()
                check(f'{name} in the midst of {what}: it has begun', len(begun), 1)
                child.send_signal(number)
                waited(lambda: child.poll() is not None)
                err, status = ended(child)
                check(f'{name} in the midst of {what}, {"over an old file" if old else "a new file"}: how it ends', (err, status), (b'', -number))
                check(f'{name} in the midst of {what}: the file', place.read_bytes() if place.exists() else None, before)
                check(f'{name} in the midst of {what}: nothing left over', parts(), [])
    # An input that ends in the midst
    child = feeding(['convert', '-', '-f', '-o', write('out.yuv', OLD)], head + half)
    err, status = ended(child)
    holds('an input that ends in the midst', status == 2 and b'refused 6' in err, (err, status))
    check('an input that ends in the midst: the file', (path('out.yuv').read_bytes(), parts()), (OLD, []))
    # Of a stream to standard output the whole pictures before a broken one are written
    small = files.ppm(3, 2, bytes(18))
    done = run('convert', '--to=yuv', '-', '-o', '-', feed=small + small + small[:-1])
    check('a stream that ends in the midst, to standard output', (done.out, done.status), (2 * planes(3, 2, bytes(18)), 2))
    # The signal before the first byte
    child = feeding(['convert', '-', '-f', '-o', path('out.yuv')], b'')
    time.sleep(0.1)
    child.send_signal(signal.SIGTERM)
    waited(lambda: child.poll() is not None)
    check('SIGTERM before the first byte', (*ended(child), path('out.yuv').read_bytes(), parts()), (b'', -signal.SIGTERM, OLD, []))
    signals_ignored()
    stopped()


def stopped():
    """Stopped and continued in the midst, as by Ctrl-Z and fg."""
    w, h = 1500, 1000
    data = files.ppm(w, h, bytes(3 * w * h))
    child = feeding(['convert', '-', '-f', '-o', path('out.yuv')], data[:2000000])
    for number in (signal.SIGSTOP, signal.SIGCONT, signal.SIGWINCH, signal.SIGSTOP, signal.SIGCONT):
        time.sleep(0.05)
        child.send_signal(number)
    try:
        child.stdin.write(data[2000000:])
    except BrokenPipeError:
        pass
    black = b'\x10' * (w * h) + b'\x80' * (w * h // 2)
    check('stopped and continued', (*ended(child), sha(path('out.yuv').read_bytes())), (b'', 0, sha(black)))


def signals_ignored():
    """What nohup does: an ignored SIGHUP stays ignored."""
    def ignoring():
        signal.signal(signal.SIGHUP, signal.SIG_IGN)

    w, h = 2000, 1000
    data = b'P6\n%d %d\n255\n' % (w, h) + bytes(3 * w * h)
    child = feeding(['convert', '-', '-f', '-o', path('out.yuv')], data[:3 * w * h // 2], preexec_fn=ignoring)
    time.sleep(0.2)
    child.send_signal(signal.SIGHUP)
    time.sleep(0.1)
    try:
        child.stdin.write(data[3 * w * h // 2:])
    except BrokenPipeError:
        pass
    check('SIGHUP that is ignored, as under nohup', ended(child), (b'', 0))


def synced():
    """A new file is on the disk before it takes its name."""
    if shutil.which('strace') is None:
        return left_out('files on the disk before they take their names', 'strace is not here')
    data = moved_forward(some_file(numbers(19), 3, 5, False))
    day, picture = write('day.shift', data), write('picture.ppm', files.ppm(3, 2, bytes(18)))
    write('day.shift.summary', files.summary(data))
    crossing = str(files.read_shift(data)[1][0].crossing)
    for count, words in ((1, ['convert', picture, '-f', '-o', path('out.yuv')]),
                         (1, ['convert', picture, '-f', '-o', path('out.y4m')]),
                         (1, ['convert', picture, '--crossing=1', '-f', '-o', path('out.shift')]),
                         (1, ['shift', 'find', day, crossing, '-f', '-o', path('found.yuv')]),
                         (2, ['shift', 'append', day, picture, '--crossing=1']),
                         (1, ['shift', 'summary', day]),
                         (1, ['shift', 'move', write('other.shift', data), '-f', '-o', path('moved.shift'), '--to=plain'])):
        log, calls = fresh('strace.log'), 'fsync,fdatasync,rename,renameat,renameat2'
        watched = ['strace', '-f', '-o', log, '-e', f'trace={calls}', given['program'], *words]
        subprocess.run(watched, stdout=subprocess.DEVNULL, stdin=subprocess.DEVNULL, check=True)
        made = re.findall(r'(sync|rename)(?:at2?)?\(', log.read_text())
        name = ' '.join(map(str, words[:2]))
        check(f'{name}: so many files take a name', made.count('rename'), count)
        before = [made[:k].count('sync') for k, call in enumerate(made) if call == 'rename']
        holds(f'{name}: all are synced before the first of them does', before[:1] == [count], made)
    fresh('day.shift.summary')


# ---- two runs at once, and what comes meanwhile

def together():
    """Runs that write one file at once; new files of other runs beside it; a file that comes while another is written."""
    rgb = numbers(20).randbytes(18)
    picture, made = write('picture.ppm', files.ppm(3, 2, rgb)), planes(3, 2, rgb)
    for name in ('day.shift', 'd' * 230):
        day = fresh(name)
        fresh(f'{name}.summary')
        for start in (0, 8):
            children = [subprocess.Popen([given['program'], 'shift', 'append', day, picture, f'--crossing={start + k}'], stderr=subprocess.PIPE)
                        for k in range(8)]
            check(f'eight appends at once to {name[:9]}: how they end', [(child.communicate()[1], child.returncode) for child in children],
                  8 * [(b'', 0)])
            records = files.read_shift(day.read_bytes())[1]
            check(f'eight appends at once to {name[:9]}: the records', sorted((one.crossing, one.planes) for one in records),
                  [(k, made) for k in range(start + 8)])
            if start == 0:
                does(f'a summary of {name[:9]}', 'shift', 'summary', day)
        check(f'eight appends at once to {name[:9]}: the summary', path(f'{name}.summary').read_bytes(), files.summary(day.read_bytes()))
        check(f'eight appends at once to {name[:9]}: nothing left over', parts(), [])
        fresh(name, f'{name}.summary')
    # Names that a new file would have, of another machine's run with the same number, say
    others = 'for end in part 0.part 1.part; do printf other > ".$0.$$.$end"; done; exec "$@"'
    for words in (['-f'], []):
        fresh('out.yuv')
        done = run('-c', others, 'out.yuv', given['program'], 'convert', *words, picture, '-o', 'out.yuv', program='sh', cwd=given['folder'])
        check(f'new files of another run {words}: the run', done, Run(b'', b'', 0))
        left = [path(one) for one in parts()]
        check(f'new files of another run {words}: they stay', [one.read_bytes() for one in left], 3 * [b'other'])
        check(f'new files of another run {words}: the file', path('out.yuv').read_bytes(), made)
        for one in left:
            one.unlink()
    comes_meanwhile(files.ppm(3, 2, rgb), made)


def comes_meanwhile(data, made):
    for words, kept in (([], True), (['-f'], False)):
        child = feeding(['convert', '-', *words, '-o', fresh('out.yuv')], data[:-1])
        waited(parts)
        write('out.yuv', OLD)
        child.stdin.write(data[-1:])
        err, status = ended(child)
        if kept:
            holds('a file that came meanwhile: 2 and a line that says so', status == 2 and b'--force' in err, (err, status))
        else:
            check('a file that came meanwhile, by force', (err, status), (b'', 0))
        check(f'a file that came meanwhile {words}: it', (path('out.yuv').read_bytes(), parts()), (OLD if kept else made, []))


def injected(faults, *words, **more):
    """A run in which system calls fail, as strace lets them."""
    watched = ['-f', '-o', path('strace.log'), '-e', 'trace=link,linkat,rename,renameat,renameat2', '-e', f'inject={faults}']
    return run(*watched, given['program'], *words, program='strace', **more)


def failing_places():
    """A new file that is complete and cannot take its place, and a report that cannot be printed behind one that did."""
    rgb = numbers(21).randbytes(18)
    picture, made = write('picture.ppm', files.ppm(3, 2, rgb)), planes(3, 2, rgb)
    if shutil.which('strace') is None:
        left_out('files that cannot take their places', 'strace is not here')
    else:
        for error in ('EPERM', 'EOPNOTSUPP'):
            done = injected(f'link,linkat:error={error}', 'convert', picture, '-o', fresh('out.yuv'))
            check(f'no hard links ({error})', (done, path('out.yuv').read_bytes(), parts()), (Run(b'', b'', 0), made, []))
        done = injected('link,linkat:error=EIO', 'convert', picture, '-o', fresh('out.yuv'))
        check('a place that cannot be taken', (done.out, done.status, path('out.yuv').exists(), parts()), (b'', 2, False, []))
        data = some_file(numbers(22), 3, 5, True)
        for which, day_grows in ((1, False), (2, True)):
            day, beside = write('day.shift', data), write('day.shift.summary', files.summary(data))
            done = injected(f'rename,renameat,renameat2:error=EIO:when={which}', 'shift', 'append', day, picture, '--crossing=1')
            check(f'append, name {which} fails: status', (done.out, done.status), (b'', 2))
            check(f'append, name {which} fails: the record is there', len(files.read_shift(day.read_bytes())[1]), 4 if day_grows else 3)
            check(f'append, name {which} fails: the summary, nothing left over', (beside.read_bytes(), parts()), (files.summary(data), []))
            told = f'{day} has its records'.encode(), f'try: segvartin shift summary {day}\n'.encode()
            check(f'append, name {which} fails: whether it is said that the record is there', [one in done.err for one in told], 2 * [day_grows])
        fresh('day.shift.summary', 'strace.log')
    for words, output in ((['convert', '--json', picture, '-o', fresh('out.yuv')], path('out.yuv')),
                          (['shift', 'append', '--json', fresh('new.shift'), picture, '--crossing=7'], path('new.shift')),
                          (['shift', 'summary', '--json', path('new.shift')], path('new.shift.summary')),
                          (['shift', 'find', path('new.shift'), '7', '-o', fresh('found.yuv')], path('found.yuv')),
                          (['shift', 'move', '--json', path('plain.shift'), '--to=settings', '-o', fresh('moved.shift')], path('moved.shift'))):
        write('plain.shift', files.shift_file([]))
        with open('/dev/full', 'wb') as full:
            done = run(*words, stdout=full)
        check(f'{words[:2]}, a report that cannot be printed: the file', (output.exists(), done.status), (True, 2))
        holds(f'{words[:2]}, a report that cannot be printed: what is said', b'is written' in done.err and os.fsencode(output.name) in done.err, done)
        output.unlink() if output.name != 'new.shift' else None
    fresh('new.shift')


# ---- writes that fail

def limited(size):
    """A limit on the size of files; writing past it is an error and no signal."""
    def limits():
        signal.signal(signal.SIGXFSZ, signal.SIG_IGN)
        resource.setrlimit(resource.RLIMIT_FSIZE, (size, size))
    return limits


@contextlib.contextmanager
def small_disk(size):
    """A file system of this size, or None where none may be mounted."""
    place = given['folder'] / 'small disk'
    place.mkdir(exist_ok=True)
    words = ['mount', '-t', 'tmpfs', '-o', f'size={size}', 'tmpfs', place]
    mounted = os.geteuid() == 0 and subprocess.run(words, stderr=subprocess.DEVNULL).returncode == 0
    try:
        yield place if mounted else None
    finally:
        if mounted:
            subprocess.run(['umount', place], check=True)
        place.rmdir()


def failing_writes(folder):
    """Words of runs that need more than 200 KiB in a folder, and the file that each would write."""
    picture = write('large.ppm', files.ppm(500, 400, bytes(600000)))
    day = folder / 'day.shift'
    day.write_bytes(files.shift_file([files.record(0, 256, 256, bytes(files.picture_size(256, 256, 0)))]))
    out = folder / 'out.yuv'
    yield 'convert to yuv', out, ['convert', picture, '-f', '-o', out]
    yield 'convert to yuv by a pipe', out, ['convert', '-', '-f', '-o', out]
    yield 'convert to y4m', folder / 'out.y4m', ['convert', picture, '-f', '-o', folder / 'out.y4m']
    yield 'convert to shift', folder / 'out.shift', ['convert', picture, '-f', '--crossing=1', '-o', folder / 'out.shift']
    yield 'append of a picture', day, ['shift', 'append', day, picture, '--crossing=1']
    yield 'append of a file', day, ['shift', 'append', day, path('large.shift')]
    yield 'move', folder / 'moved.shift', ['shift', 'move', path('large.shift'), '-f', '-o', folder / 'moved.shift', '--to=settings']
    yield 'find', folder / 'found.yuv', ['shift', 'find', path('large.shift'), '5', '-f', '-o', folder / 'found.yuv']
    yield 'summary', folder / 'made.summary', ['shift', 'summary', path('many.shift'), '-f', '-o', folder / 'made.summary']


def full_disks():
    write('large.shift', files.shift_file([files.record(5, 500, 500, bytes(files.picture_size(500, 500, 0)))]))
    write('many.shift', some_file(numbers(7), 4096, 1, False))
    ppm = files.ppm(500, 400, bytes(600000))

    def tried(how, folder, more):
        for name, output, words in failing_writes(folder):
            if name == 'summary' and how != 'a limit on the size of files of 40 KB':
                continue
            for old in (False, True):
                if output.name != 'day.shift':
                    output.unlink(missing_ok=True)
                    if old:
                        output.write_bytes(OLD)
                before = output.read_bytes() if output.exists() else None
                feed = {'feed': ppm} if '-' in words else {}
                done = run(*words, **feed, **more)
                holds(f'{name}, {how}: 2 and a line',
                      done.status == 2 and done.out == b'' and done.err.startswith(b'segvartin ') and 1 <= done.err.count(b'\n') <= 2, done)
                check(f'{name}, {how}: the file', output.read_bytes() if output.exists() else None, before)
                check(f'{name}, {how}: nothing left over', parts(folder), [])
            if output.name != 'day.shift':
                output.unlink(missing_ok=True)

    for size in (150000, 40000):
        tried(f'a limit on the size of files of {size // 1000} KB', given['folder'], {'preexec_fn': limited(size), 'restore_signals': False})
    def signalled():
        for limit, most in ((resource.RLIMIT_CORE, 0), (resource.RLIMIT_FSIZE, 40000)):
            resource.setrlimit(limit, (most, most))

    done = run('convert', path('large.ppm'), '-f', '-o', write('out.yuv', OLD), preexec_fn=signalled)
    check('SIGXFSZ: how it ends, the file, nothing left over', (done.status, path('out.yuv').read_bytes(), parts()), (-signal.SIGXFSZ, OLD, []))
    with small_disk('200k') as disk:
        if disk is None:
            left_out('a full disk', 'no file system may be mounted')
        else:
            tried('a full disk', disk, {})
    picture = write('picture.ppm', files.ppm(3, 2, bytes(18)))
    day = write('day.shift', some_file(numbers(8), 40, 3, True))
    for words in (['convert', '--to=yuv', picture, '-o', '-'], ['digest', picture], ['shift', 'list', day], ['shift', 'list', '--json', day],
                  ['shift', 'summary', day, '-o', '-'], ['compare', day, day], ['compare', '--json', day, day], ['--help'], ['completion', 'bash'],
                  ['help', '--man'], ['--version']):
        with open('/dev/full', 'wb') as full:
            done = run(*words, stdout=full)
        holds(f'{words[:2]} to a full device: 2 and a line', done.status == 2 and done.err.count(b'\n') in (1, 2), done)
    done = run('convert', '--to=yuv', picture, '-o', '/dev/full')
    holds('convert -o /dev/full: 2 and a line', done.status == 2 and done.err.startswith(b'segvartin convert: ') and b'more room' in done.err, done)
    holds('/dev/full is still a device', stat.S_ISCHR(os.stat('/dev/full').st_mode), os.stat('/dev/full'))
    does('convert -o /dev/null', 'convert', '--to=yuv', picture, '-o', '/dev/null')
    holds('/dev/null is still a device', stat.S_ISCHR(os.stat('/dev/null').st_mode), os.stat('/dev/null'))
    fifo = fresh('pipe')
    os.mkfifo(fifo)
    taken = []
    reader = threading.Thread(target=lambda: taken.append(fifo.read_bytes()))
    reader.start()
    does('convert to a pipe with a name', 'convert', '--to=yuv', picture, '-o', fifo)
    reader.join(LIMIT)
    check('convert to a pipe with a name: what came', (taken, fifo.is_fifo()), ([planes(3, 2, bytes(18))], True))
    fifo.unlink()


def closed_pipes():
    """A reader that takes a byte and goes: the signal ends the program, and it says nothing."""
    picture = write('large.ppm', files.ppm(1000, 800, bytes(2400000)))
    day = write('many.shift', some_file(numbers(7), 4096, 1, False))
    for words in (['convert', '--to=yuv', picture, '-o', '-'], ['convert', '--to=y4m', picture, '-o', '-'], ['shift', 'list', day],
                  ['shift', 'list', '--json', day], ['digest', day], ['shift', 'summary', day, '-o', '-']):
        reading, writing = os.pipe()
        fcntl.fcntl(writing, fcntl.F_SETPIPE_SZ, 4096)
        child = subprocess.Popen([given['program'], *words], stdout=writing, stderr=subprocess.PIPE, stdin=subprocess.DEVNULL)
        os.close(writing)
        taken = os.read(reading, 1)
        os.close(reading)
        err = child.communicate(timeout=LIMIT)[1]
        check(f'{words[:3]} | head -c 1', (len(taken), err, child.returncode), (1, b'', -signal.SIGPIPE))


def modes_and_links():
    picture = write('picture.ppm', files.ppm(3, 2, bytes(18)))
    made = planes(3, 2, bytes(18))
    for mode in (0o644, 0o600, 0o640, 0o755, 0o666, 0o400):
        out = write('out.yuv', OLD)
        out.chmod(mode)
        makes(f'over a file of mode {mode:o}', out, made, 'convert', '-f', picture, '-o', out)
        check(f'over a file of mode {mode:o}: its mode', stat.S_IMODE(out.stat().st_mode), mode)
        out.unlink()
    for mask in (0o022, 0o027, 0o077, 0o000):
        makes(f'a new file with umask {mask:03o}', fresh('out.yuv'), made, 'convert', picture, '-o', path('out.yuv'),
              preexec_fn=lambda: os.umask(mask))
        check(f'a new file with umask {mask:03o}: its mode', stat.S_IMODE(path('out.yuv').stat().st_mode), 0o666 & ~mask)
    for name, words in (('append', ['shift', 'append', path('day.shift'), picture, '--crossing=1']),
                        ('summary', ['shift', 'summary', path('day.shift')]),
                        ('move in place', ['shift', 'move', path('day.shift'), '-f', '-o', path('day.shift'), '--to=plain'])):
        data = moved_forward(some_file(numbers(9), 3, 5, False))
        day, beside = write('day.shift', data), write('day.shift.summary', files.summary(data))
        for one in (day, beside):
            one.chmod(0o640)
        does(name, *words)
        check(f'{name}: modes', [stat.S_IMODE(one.stat().st_mode) for one in (day, beside)], [0o640, 0o640])
        fresh('day.shift', 'day.shift.summary')
    if os.geteuid() == 0:
        for owner in ((1234, 4321), (0, 0)):
            out = write('out.yuv', OLD)
            os.chown(out, *owner)
            out.chmod(0o4750)
            makes(f'over a file of {owner}', out, made, 'convert', '-f', picture, '-o', out)
            about = out.stat()
            check(f'over a file of {owner}: owner, group and mode', (about.st_uid, about.st_gid, stat.S_IMODE(about.st_mode)), (*owner, 0o4750))
    out = write('out.yuv', OLD)
    out.chmod(0o640)
    child = feeding(['convert', '-', '-f', '-o', out], picture.read_bytes()[:-1])
    waited(parts)
    holds('a new file may be read by no more people than the old one', all(not path(one).stat().st_mode & 0o27 for one in parts()), parts())
    ended(child)
    # links
    folder = given['folder'] / 'linked'
    folder.mkdir(exist_ok=True)
    real, link, further = folder / 'real.yuv', *fresh('link.yuv', 'further.yuv')
    real.write_bytes(OLD)
    link.symlink_to('linked/real.yuv')
    further.symlink_to('link.yuv')
    fails('a link to a file that is there', 'convert', picture, '-o', further, says=['--force'], keeps=[real])
    makes('a link to a link to a file', real, made, 'convert', '-f', picture, '-o', further)
    check('links are links still', (link.is_symlink(), further.is_symlink(), real.is_symlink(), parts()), (True, True, False, []))
    real.unlink()
    makes('a link to a file that is not there', real, made, 'convert', picture, '-o', link)
    check('a link to a file that is not there: it is a link still', link.is_symlink(), True)
    day = folder / 'day.shift'
    day.write_bytes(files.shift_file([]))
    linked = fresh('day.shift')
    linked.symlink_to('linked/day.shift')
    does('append by a link', 'shift', 'append', linked, picture, '--crossing=7')
    check('append by a link: link and file', (linked.is_symlink(), day.read_bytes()), (True, files.shift_file([files.record(7, 3, 2, made)])))
    for one in (link, further, linked):
        one.unlink()
    loop = fresh('loop.yuv')
    loop.symlink_to('loop.yuv')
    done = run('convert', picture, '-f', '-o', loop)
    holds('a link to itself: 2 and a line', done.status == 2 and done.err.startswith(b'segvartin convert: '), done)
    loop.unlink()
    # a hard link keeps the old bytes: the new file takes the name
    out, other = write('out.yuv', OLD), fresh('other.yuv')
    os.link(out, other)
    makes('over a file with a second name', out, made, 'convert', '-f', picture, '-o', out)
    check('over a file with a second name: the other', other.read_bytes(), OLD)


def shorter_input():
    """A file that gets shorter while it is mapped: a line and 2, and nothing left over. It is made shorter once the output is begun."""
    picture = path('large.data')
    with open(picture, 'wb') as file:
        file.truncate(3 * 10000 * 4000)
    words = ['convert', '--from=raw', '--size=10000x4000', picture, '-f', '-o', write('out.yuv', OLD)]
    child = subprocess.Popen([given['program'], *words], stdin=subprocess.PIPE, stdout=subprocess.DEVNULL, stderr=subprocess.PIPE)
    waited(parts)
    os.truncate(picture, 1000)
    err, status = ended(child)
    check('an input that gets shorter: status, the old file, nothing left over', (status, path('out.yuv').read_bytes()[:30], parts()), (2, OLD, []))
    holds('an input that gets shorter: a line', err.startswith(b'segvartin convert: ') and err.count(b'\n') in (1, 2), err)
    fresh('large.data')


# ---- progress

BAR = re.compile(rb'\[#*\.*\] +\d+ %')


def fed_slowly(words, pieces, pause, terminal):
    """Standard error of a run whose standard input comes in pieces; on a terminal or in a pipe."""
    if terminal:
        main, other = pty.openpty()
        fcntl.ioctl(other, termios.TIOCSWINSZ, struct.pack('HHHH', 24, 100, 0, 0))
    else:
        main, other = os.pipe()
    child = subprocess.Popen([given['program'], *words], stdin=subprocess.PIPE, stdout=subprocess.DEVNULL, stderr=other)
    os.close(other)

    def feed():
        try:
            for piece in pieces:
                child.stdin.write(piece)
                child.stdin.flush()
                time.sleep(pause)
            child.stdin.close()
        except BrokenPipeError:
            pass

    feeder = threading.Thread(target=feed)
    feeder.start()
    text = b''
    while True:
        try:
            piece = os.read(main, 65536)
        except OSError as error:  # a terminal whose other side is closed
            if error.errno != errno.EIO:
                raise
            piece = b''
        if not piece:
            break
        text += piece
    feeder.join()
    os.close(main)
    return text, child.wait(LIMIT)


def on_screen(text):
    """What a terminal shows after a text of carriage returns, and of the sequence that clears a line's end."""
    lines, column = [''], 0
    for part in re.split(r'(\r|\n|\x1b\[[0-9;]*[A-Za-z])', text.decode('utf-8', 'replace')):
        if part == '\r':
            column = 0
        elif part == '\n':
            lines.append('')
            column = 0
        elif part in ('\x1b[K', '\x1b[0K'):
            lines[-1] = lines[-1][:column]
        elif part == '\x1b[2K':
            lines[-1] = ''
        elif part and not part.startswith('\x1b'):
            lines[-1] = lines[-1].ljust(column)
            lines[-1] = lines[-1][:column] + part + lines[-1][column + len(part):]
            column += len(part)
    return '\n'.join(line.rstrip() for line in lines).rstrip('\n')


def progress():
    w, h = 1000, 900
    data = files.ppm(w, h, bytes(3 * w * h))
    size = len(data) // 12 + 1
    pieces = [data[at:at + size] for at in range(0, len(data), size)]
    words = ['convert', '--to=yuv', '-', '-o', '-']
    text, status = fed_slowly(words, pieces, 0.2, True)
    check('a slow picture on a terminal: status', status, 0)
    bars = BAR.findall(text)
    holds('a slow picture on a terminal: a bar', 2 <= len(bars) <= 12, text)
    holds('a slow picture on a terminal: bytes done and to do', re.search(rb'[\d.]+ ?[kMG]?B? of [\d.]+ [kMG]?B', text) is not None, text)
    check('a slow picture on a terminal: erased at the end', on_screen(text), '')
    check('a slow picture in a pipe: nothing', fed_slowly(words, pieces, 0.2, False), (b'', 0))
    in_json = ['convert', '--json', '-', '-f', '-o', path('out.yuv')]
    check('a slow picture on a terminal with --json: nothing', fed_slowly(in_json, pieces, 0.2, True), (b'', 0))
    check('a quick picture on a terminal: nothing', fed_slowly(words, pieces, 0, True), (b'', 0))
    text, status = fed_slowly(words, pieces[:8], 0.25, True)
    check('a slow picture that ends early: status', status, 2)
    holds('a slow picture that ends early: the error stands alone',
          on_screen(text).startswith('segvartin convert: ') and 'refused 6' in on_screen(text), text)


# ---- names

NAMES = [b'with spaces.ppm', b'with\nnewline.ppm', b'-dash.ppm', b'--force', b'caf\xe9.ppm', b'quote\'s "and" \\.ppm', 'größe.ppm'.encode(),
         b'#1.ppm', b'a' * 240 + b'.ppm', b'\x1b[31mred.ppm']


def names():
    folder = given['folder'] / 'names'
    shutil.rmtree(folder, ignore_errors=True)
    folder.mkdir()
    rgb = numbers(15).randbytes(18)
    made = planes(3, 2, rgb)
    for name in NAMES:
        source, out = os.path.join(os.fsencode(folder), name), os.path.join(os.fsencode(folder), name[:200] + b'.out')
        with open(source, 'wb') as file:
            file.write(files.ppm(3, 2, rgb))
        for words in (['convert', '--to=yuv', b'-o', out, '--', name], ['convert', '--to=yuv', b'--output=' + name[:200] + b'.out', '--', name],
                      ['convert', '--to=yuv', '-o', out, source]):
            done = run(*words, cwd=folder)
            check(f'{name!r}: the run', done, Run(b'', b'', 0))
            check(f'{name!r}: the file', open(out, 'rb').read() if os.path.exists(out) else None, made)
            if os.path.exists(out):
                os.unlink(out)
        done = run('digest', '--', name, cwd=folder)
        check(f'{name!r}: one line', (done.out.count(b'\n'), done.err, done.status), (1, b'', 0))
        if b'\n' not in name and b'\\' not in name:
            check(f'{name!r}: its digest', done.out, sha(made).encode() + b'  ' + name + b'\n')
        else:  # as sha256sum writes such a name
            escaped = name.replace(b'\\', b'\\\\').replace(b'\n', b'\\n')
            check(f'{name!r}: its digest', done.out, b'\\' + sha(made).encode() + b'  ' + escaped + b'\n')
        value = parsed(f'{name!r} --json', run('digest', '--json', '--', name, cwd=folder).out)
        if isinstance(value, list) and len(value) == 1:
            check(f'{name!r}: its name in JSON', value[0].get('input'), name.decode('utf-8', 'replace'))
        broken = name + b'.none' if len(name) < 240 else name[:100]
        done = run('convert', '--to=yuv', '-o', out, '--', broken, cwd=folder)
        holds(f'{name!r}, not there: two lines at most', done.status == 2 and done.err.count(b'\n') <= 2, done)
        parsed(f'{name!r}, not there, --json', run('convert', '--json', '--to=yuv', '-o', out, '--', broken, cwd=folder).err)
    long = folder / (250 * 'x')
    for words in ([], ['-f']):
        makes('a name of 250 bytes', long, made, 'convert', '--to=yuv', *words, folder / 'with spaces.ppm', '-o', long)
    check('names: nothing left over', [one for one in os.listdir(os.fsencode(folder)) if one.endswith(b'.part')], [])


# ---- files past 4 GiB: sparse where they are read

def large_files():
    if not given['large']:
        return
    sizes = [(k, 16384, 16384) for k in range(11)] + [(11, 3, 2)]
    lengths = [files.record_size(w, h) for _, w, h in sizes]
    start, last = files.pairs(lengths), bytes(range(1, 11))
    offsets = [len(start) + sum(lengths[:k]) for k in range(12)]
    big = path('big.shift')
    with open(big, 'wb') as file:
        file.write(start)
        for (crossing, w, h), at in zip(sizes, offsets):
            file.seek(at)
            file.write(files.record(crossing, w, h, b''))
        file.write(last)
    done = run('shift', 'list', '--json', big)
    value = parsed('a shift file past 4 GiB', done.out)
    check('a shift file past 4 GiB: listed', [(one['offset'], one['bytes'], one['crossing']) for one in value['records']], list(zip(offsets, lengths,
          range(12))))
    does('a shift file past 4 GiB: digest of its last record', 'digest', '--crossing=11', big, out=f'{sha(last)}  {big}#11\n'.encode())
    made = b''.join(files.struct.pack('<IQB', crossing, at, 0 if crossing < 11 else 3) for (crossing, _, _), at in zip(sizes, offsets))
    makes('a shift file past 4 GiB: its summary', fresh('big.shift.summary'), made, 'shift', 'summary', big)
    done = run('shift', 'find', big, '11', '-o', fresh('found.yuv'))
    check('a shift file past 4 GiB: its last record', (path('found.yuv').read_bytes(), done.status), (last, 0))
    does('a shift file past 4 GiB and itself', 'compare', big, big,
         out=b'the same in both: 12\ndifferent:        0\nonly in ours:     0\nonly in theirs:   0\nfirst difference: none\n')
    room = shutil.disk_usage(given['folder']).free
    if room < 12 << 30:
        left_out('a shift file past 4 GiB written', f'{room >> 30} GiB are free, 12 are wanted')
    else:
        picture = write('picture.ppm', files.ppm(3, 2, bytes(18)))
        does('a shift file past 4 GiB: a record more', 'shift', 'append', big, picture, '--crossing=12')
        grown = files.pairs([*lengths, 18])
        with open(big, 'rb') as file:
            check('a shift file past 4 GiB: its pairs', file.read(len(grown)), grown)
            file.seek(len(grown) + sum(lengths))
            check('a shift file past 4 GiB: its new record', file.read(), files.record(12, 3, 2, planes(3, 2, bytes(18))))
        made = b''.join(made[at:at + 4] + files.struct.pack('<Q', offsets[at // 13] + 12) + made[at + 12:at + 13] for at in range(0, len(made), 13))
        check('a shift file past 4 GiB: its summary after that', path('big.shift.summary').read_bytes(), made + files.struct.pack('<IQB', 12,
              len(grown) + sum(lengths), 16))
        interrupted_move(big)
        does('a shift file past 4 GiB: moved forward', 'shift', 'move', big, '-o', fresh('moved.shift'), '--to=settings')
        does('a shift file past 4 GiB: with its moved form', 'compare', big, path('moved.shift'),
             out=b'the same in both: 13\ndifferent:        0\nonly in ours:     0\nonly in theirs:   0\nfirst difference: none\n')
        fresh('moved.shift')
    fresh('big.shift', 'big.shift.summary')
    # raw pixels: two rows that stand 4 GiB apart, and pictures of 1 GiB each
    apart = path('apart.data')
    with open(apart, 'wb') as file:
        file.write(b'\xff\0\0')
        file.seek(4294967295)
        file.write(b'\0\xff\0')
        file.truncate(2 * 4294967295)
    makes('rows that stand 4 GiB apart', fresh('out.yuv'), planes(1, 2, b'\xff\0\0\0\xff\0'), 'convert', '--from=raw', '--size=1x2',
          '--stride=4294967295', apart, '-o', path('out.yuv'))
    with open(apart, 'wb') as file:
        file.truncate(5 << 30)
        file.seek((5 << 30) - 8)
        file.write(bytes([255, 0, 0, 9, 0, 255, 0, 9]))
    made = planes(2, 1, bytes(6)) * 4 + planes(2, 1, bytes([255, 0, 0, 0, 255, 0]))
    makes('five pictures of 1 GiB', fresh('out.y4m'), files.y4m_file(2, 1, 0, made), 'convert', '--from=raw', '--size=16384x16384', '--pix-fmt=rgba',
          '--window=2x1+16382+16383',
          apart, '-o', path('out.y4m'))
    fresh('apart.data')


def interrupted_move(big):
    """A signal while 4 GiB are written by one call."""
    for number in (signal.SIGINT, signal.SIGTERM):
        child = subprocess.Popen([given['program'], 'shift', 'move', big, '-o', fresh('moved.shift'), '--to=settings'], stdin=subprocess.PIPE,
                                 stdout=subprocess.DEVNULL,
                                 stderr=subprocess.PIPE)
        waited(parts, 10)
        time.sleep(0.2)
        begun = parts()
        child.send_signal(number)
        check(f'{number.name} in the midst of a move of 4 GiB (begun: {begun})', (*ended(child), path('moved.shift').exists(), parts()), (b'',
              -number, False, []))


ALL = [refusals, wrong_flags, short_pictures, broken_pictures, broken_places, unreadable, pieces_of_input, pipes_for_files, memory, interruptions,
       synced, together, failing_places, full_disks, closed_pipes, modes_and_links, shorter_input, progress, names, large_files]
