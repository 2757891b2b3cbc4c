#!/usr/bin/env python3
"""Y4M files against ffmpeg and mjpegtools: they read ours, and we read theirs, with the same planes.

    tests/y4m.py Y4M OUT [--strict]     Y4M is examples/c/y4m.c, built; OUT a folder for the files

Both are Debian packages, ffmpeg and mjpegtools. Where one is missing it is installed by apt-get, if that is here and may be run; else what needs it
is left out, and a line says so. With --strict that is a failure. Where both are here, every comparison below is made, and one that could not be made
is a failure too.

The programs of mjpegtools round the U and V of odd sides down, where we and ffmpeg round up: of a picture of 5 by 3 in 4:2:0 they take U as 2 by 1.
So they are given sides that are even where they are halved, and that they refuse the others is a check of its own.
"""
import random
import shutil
import subprocess
import sys
from collections import Counter
from pathlib import Path

sys.dont_write_bytecode = True
import files
from packages import install

STRICT = '--strict' in sys.argv
WORDS = [word for word in sys.argv[1:] if word != '--strict']
if len(WORDS) != 2:
    sys.exit(__doc__)
Y4M, OUT = Path(WORDS[0]).resolve(), Path(WORDS[1])
NEEDED = {'ffmpeg': ['ffmpeg'], 'mjpegtools': ['y4mtopnm', 'pgmtoy4m', 'pnmtoy4m', 'yuvfps', 'y4mscaler', 'y4mcolorbars']}

numbers = random.Random(2)
# What was compared, and how many kinds of it there are.
compared = Counter()
KINDS = 11


def expect(holds, what):
    if not holds:
        sys.exit(f'tests/y4m.py: {what}')


# ---- the format, by tests/files.py

def code(sampling):
    return ('420', '422').index(sampling)


def picture_size(w, h, sampling):
    return files.picture_size(w, h, code(sampling))


def some_planes(w, h, sampling, count):
    return numbers.randbytes(count * picture_size(w, h, sampling))


def file_of(w, h, sampling, planes):
    return files.y4m_file(w, h, code(sampling), planes)


def line_of(data):
    return data.partition(b'\n')[0].decode('latin-1').split(' ')


# ---- the three programs

def run(*words, given=None):
    """What a program writes; it must end well."""
    done = subprocess.run([str(word) for word in words], input=given, stdout=subprocess.PIPE, stderr=subprocess.PIPE)
    if done.returncode != 0:
        said = done.stderr.decode(errors='replace')[-800:]
        sys.exit(f'tests/y4m.py: {" ".join(str(word) for word in words)} ended with {done.returncode}:\n{said}')
    return done.stdout


def ours(*words):
    """What the example prints; 1 is how it ends where the library refuses."""
    done = subprocess.run([Y4M, *words], stdout=subprocess.PIPE, text=True)
    expect(done.returncode in (0, 1), f'{words} ended with {done.returncode}')
    return done.stdout


def written(w, h, sampling, planes):
    """The file that the library writes of planes: that of the request, byte for byte."""
    path, made = OUT / 'planes.yuv', OUT / 'ours.y4m'
    path.write_bytes(planes)
    expect(ours('pack', made, sampling, str(w), str(h), path) == '', f'{w} x {h} in {sampling}: refused')
    data = made.read_bytes()
    expect(data == file_of(w, h, sampling, planes), f'{w} x {h} in {sampling}: written otherwise')
    return data


def read(data):
    """Size, sampling and planes that the library reads of a file; or None where it answers 19."""
    path, taken = OUT / 'theirs.y4m', OUT / 'taken.yuv'
    path.write_bytes(data)
    text = ours('list', path)
    taken.unlink(missing_ok=True)
    if text == 'refused 19\n':
        expect(ours('planes', path, taken) == text and not taken.exists(), 'planes of a file that is none')
        return None
    size, sampling, count = text.splitlines()[0].split(', ')
    w, h = map(int, size.split(' x '))
    sampling = {'4:2:0': '420', '4:2:2': '422'}[sampling]
    expect(ours('planes', path, taken) == '', 'planes of a file: refused')
    planes = taken.read_bytes()
    expect(len(planes) == int(count.split()[0]) * picture_size(w, h, sampling), 'planes of a file: their number')
    return w, h, sampling, planes


def by_ffmpeg(data):
    """The planes that ffmpeg reads, as they are."""
    path, taken = OUT / 'given.y4m', OUT / 'ffmpeg.yuv'
    path.write_bytes(data)
    run('ffmpeg', '-v', 'error', '-nostdin', '-f', 'yuv4mpegpipe', '-i', path, '-f', 'rawvideo', '-y', taken)
    return taken.read_bytes()


def of_ffmpeg(w, h, pixels, planes, before=(), behind=()):
    """The file that ffmpeg writes of planes, with words before its input and behind it."""
    path, made = OUT / 'planes.yuv', OUT / 'ffmpeg.y4m'
    path.write_bytes(planes)
    given = ['-f', 'rawvideo', '-pixel_format', pixels, '-video_size', f'{w}x{h}', '-framerate', '25', *before, '-i', path]
    run('ffmpeg', '-v', 'error', '-nostdin', *given, *behind, '-f', 'yuv4mpegpipe', '-y', made)
    return made.read_bytes()


def pgms(data):
    """Width, height and bytes of each PGM of several."""
    found = []
    while data:
        words = data.split(None, 4)[:4]
        expect(words[0] == b'P5' and words[3] == b'255', 'y4mtopnm: no PGM')
        w, h = int(words[1]), int(words[2])
        start = 1 + sum(len(word) for word in words) + 3
        expect(len(data) >= start + w * h, 'y4mtopnm: a PGM ends early')
        found.append((w, h, data[start:start + w * h]))
        data = data[start + w * h:]
    return found


def by_mjpegtools(data, h):
    """The planes that y4mtopnm reads: a PGM for each picture, Y above, U and V side by side below it."""
    planes = b''
    for width, height, pixels in pgms(run('y4mtopnm', '-v', '0', '-f', given=data)):
        rows = [pixels[at:at + width] for at in range(0, len(pixels), width)]
        planes += b''.join(rows[:h]) + b''.join(row[:width // 2] for row in rows[h:]) + b''.join(row[width // 2:] for row in rows[h:])
    return planes


def of_mjpegtools(w, h, planes, *words):
    """The file that pgmtoy4m writes of planes in 4:2:0, given as mpeg2dec does: a PGM for each, Y above, U and V side by side below it."""
    size, chroma = picture_size(w, h, '420'), w // 2 * (h // 2)
    given = b''
    for at in range(0, len(planes), size):
        y, u, v = planes[at:at + w * h], planes[at + w * h:at + w * h + chroma], planes[at + w * h + chroma:at + size]
        below = (u[k:k + w // 2] + v[k:k + w // 2] for k in range(0, chroma, w // 2))
        given += b'P5\n%d %d\n255\n' % (w, h + h // 2) + y + b''.join(below)
    return run('pgmtoy4m', *words, given=given)


# ---- ours, read by them

SIZES = [(1, 1), (2, 1), (1, 2), (2, 2), (4, 2), (5, 3), (16, 16), (17, 9), (64, 48), (99, 100), (100, 99), (641, 481), (1920, 1080), (16384, 1),
         (1, 16384), (16384, 2), (2, 16383)]


def halved_evenly(w, h, sampling):
    return w % 2 == 0 and (h % 2 == 0 or sampling == '422')


def ours_by_them(tools):
    for w, h in SIZES:
        for sampling in ('420', '422'):
            for count in (1, 3):
                planes = some_planes(w, h, sampling, count)
                data = written(w, h, sampling, planes)
                expect(read(data) == (w, h, sampling, planes), f'{w} x {h} in {sampling}: read back otherwise')
                name = f'{count} pictures of {w} x {h} in {sampling}'
                if 'ffmpeg' in tools:
                    expect(by_ffmpeg(data) == planes, f'{name}: ffmpeg reads other planes')
                    compared['files of ours read by ffmpeg'] += 1
                if 'mjpegtools' in tools and halved_evenly(w, h, sampling):
                    expect(by_mjpegtools(data, h) == planes, f'{name}: y4mtopnm reads other planes')
                    compared['files of ours read by y4mtopnm'] += 1
                    again = run('yuvfps', '-s', '25:1', '-r', '25:1', given=data)
                    expect(read(again) == (w, h, sampling, planes), f'{name}: other planes behind yuvfps')
                    compared['files of ours passed through yuvfps, and read here'] += 1
    nothing = written(4, 2, '420', b'')
    expect(nothing == b'YUV4MPEG2 W4 H2 F25:1 Ip C420jpeg\n' and read(nothing) == (4, 2, '420', b''), 'a file of no picture')


# ---- theirs, read by us

def theirs_of_ffmpeg():
    kinds = [
        # pixels, words before and behind the input, sampling or None for 19, the tag
        ('yuv420p', [], [], '420', 'C420jpeg'),
        ('yuv420p', ['-chroma_sample_location', 'center'], [], '420', 'C420jpeg'),
        ('yuv420p', ['-chroma_sample_location', 'left'], [], '420', 'C420mpeg2'),
        ('yuv420p', ['-chroma_sample_location', 'topleft'], [], None, 'C420paldv'),
        ('yuv420p', ['-color_range', 'tv'], [], '420', 'C420jpeg'),
        ('yuvj420p', [], [], '420', 'C420jpeg'),
        ('yuv420p', [], ['-vf', 'setsar=10/11'], '420', 'A10:11'),
        ('yuv420p', [], ['-vf', 'setfield=tff'], '420', 'It'),
        ('yuv420p', ['-chroma_sample_location', 'left'], ['-vf', 'setfield=bff,setsar=59/54'], '420', 'Ib'),
        ('yuv422p', [], [], '422', 'C422'),
        ('yuv422p', [], ['-vf', 'setfield=tff,setsar=12/11'], '422', 'It'),
        ('yuvj422p', [], [], '422', 'C422'),
        ('yuv444p', [], [], None, 'C444'),
        ('yuv411p', [], [], None, 'C411'),
        ('gray', [], [], None, 'Cmono'),
        ('yuv420p10le', [], ['-strict', '-1'], None, 'C420p10'),
        ('yuv422p16le', [], ['-strict', '-1'], None, 'C422p16'),
        ('yuva444p', [], ['-strict', '-1'], None, 'C444alpha'),
    ]
    for kind, (pixels, before, behind, sampling, tag) in enumerate(kinds):
        for w, h in SIZES if kind == 0 or pixels == 'yuv422p' and not behind else ((5, 3), (16, 16), (64, 48)) if sampling else ((16, 16), (64, 48)):
            count = 1 if w * h > 10000 else 3
            planes = some_planes(w, h, sampling, count) if sampling else numbers.randbytes(8 * w * h)
            data = of_ffmpeg(w, h, pixels, planes, before, behind if sampling else [*behind, '-frames:v', '1'])
            expect(tag in line_of(data), f'ffmpeg, {pixels}: {line_of(data)} has no {tag}')
            if sampling:
                expect('XYSCSS=' + line_of(data)[6][1:].upper() in line_of(data), f'ffmpeg, {pixels}: {line_of(data)} has no XYSCSS')
                expect(read(data) == (w, h, sampling, planes), f'ffmpeg, {pixels}, {w} x {h}: read otherwise')
                compared['files of ffmpeg read here'] += 1
            else:
                expect(read(data) is None, f'ffmpeg, {pixels}, {w} x {h}: not answered 19')
                compared['files of ffmpeg answered 19'] += 1


def theirs_of_mjpegtools(tools):
    for w, h in SIZES:
        if max(w, h) > 2048 or not halved_evenly(w, h, '420'):
            continue
        for words in ([], ['-i', 'p'], ['-i', 'b', '-a', '59:54', '-r', '25:1'], ['-x', '420mpeg2'], ['-x', '420paldv']):
            planes = some_planes(w, h, '420', 2)
            data = of_mjpegtools(w, h, planes, *words)
            if 'C420paldv' in line_of(data):
                expect(read(data) is None, f'pgmtoy4m {words}: not answered 19')
                compared['files of mjpegtools answered 19'] += 1
            else:
                expect(read(data) == (w, h, '420', planes), f'pgmtoy4m {words}, {w} x {h}: read otherwise')
                compared['files of pgmtoy4m read here'] += 1
    # What has other planes than those given is held against mjpegtools' own reading, and ffmpeg's.
    bars = {mode: run('y4mcolorbars', '-v', '0', '-n', '2', '-W', '64', '-H', '48', '-S', mode) for mode in ('420jpeg', '420mpeg2', '444')}
    scaled = {mode: run('y4mscaler', '-v', '0', '-I', 'sar=1:1', '-O', f'chromass={mode}', given=bars['444'])
              for mode in ('420jpeg', '420mpeg2', '420paldv', '422', '411', 'mono')}
    grey = run('pnmtoy4m', '-v', '0', given=b'P5\n8 6\n255\n' + numbers.randbytes(48))
    colours = run('pnmtoy4m', '-v', '0', given=b'P6\n8 6\n255\n' + numbers.randbytes(144))
    for data in (*bars.values(), *scaled.values(), grey, colours):
        [tag] = [tag for tag in line_of(data) if tag[0] == 'C']
        if tag in ('C420jpeg', 'C420mpeg2', 'C422'):
            found = read(data)
            expect(found and found[:3] == (64, 48, tag[1:4]) and found[3] == by_mjpegtools(data, 48), f'mjpegtools, {tag}: read otherwise')
            compared['files of y4mcolorbars and y4mscaler read here'] += 1
            if 'ffmpeg' in tools:
                expect(found[3] == by_ffmpeg(data), f'mjpegtools, {tag}: ffmpeg reads otherwise')
        else:
            expect(tag in ('C444', 'C420paldv', 'C411', 'Cmono') and read(data) is None, f'mjpegtools, {tag}: not answered 19')
            compared['files of mjpegtools answered 19'] += 1


def odd_sides():
    """mjpegtools takes U and V of odd sides rounded down: it reads none of ours, and we none of its own."""
    for w, h, sampling in ((5, 4, '420'), (4, 5, '420'), (5, 3, '420'), (5, 4, '422'), (1, 1, '422')):
        data = written(w, h, sampling, some_planes(w, h, sampling, 2))
        done = subprocess.run(['y4mtopnm', '-v', '0', '-f'], input=data, stdout=subprocess.PIPE, stderr=subprocess.PIPE)
        # Behind what it takes for the first picture there is no FRAME; now and then it crashes over that.
        expect(done.returncode != 0 or b'bad header magic' in done.stderr, f'y4mtopnm, {w} x {h} in {sampling}: reads odd sides, so compare them')
        again = run('y4mcolorbars', '-v', '0', '-W', str(w), '-H', str(h), '-S', '420jpeg') if sampling == '420' else b''
        if again:
            expect(len(again) == again.index(b'\n') + 1 + 6 + w * h + 2 * (w // 2) * (h // 2), f'y4mcolorbars, {w} x {h}: another size')
            expect(read(again) is None, f'y4mcolorbars, {w} x {h}: not answered 19')
        compared['files of odd sides that mjpegtools and we do not take of each other'] += 1


# ---- files of the example

def shift_file(records, settings):
    """A record: crossing, width, height, sampling, planes."""
    if not settings:
        return files.shift_file([files.record(crossing, w, h, planes) for crossing, w, h, _, planes in records])
    return files.settings_file([files.settings_record(crossing, w, h, (code(sampling), 255, 255, 255), planes)
                                for crossing, w, h, sampling, planes in records])


def of_records(tools):
    path, made = OUT / 'records.shift', OUT / 'record.y4m'
    for settings in (False, True):
        records = [(1400 + k, w, h, ('420', '422')[settings and k % 2], None) for k, (w, h) in enumerate(((64, 48), (5, 3), (1, 1), (16, 9)))]
        records = [(*one[:4], some_planes(*one[1:4], 1)) for one in records]
        path.write_bytes(shift_file(records, settings))
        for k, (_, w, h, sampling, planes) in enumerate(records):
            expect(ours('record', made, path, str(k)) == '', f'record {k}: refused')
            expect(made.read_bytes() == file_of(w, h, sampling, planes), f'record {k}: made otherwise')
            if 'ffmpeg' in tools:
                expect(by_ffmpeg(made.read_bytes()) == planes, f'record {k}: ffmpeg reads other planes')
                compared['records of shift files read by ffmpeg'] += 1
        made.unlink()
        done = subprocess.run([Y4M, 'record', made, path, '4'], stderr=subprocess.PIPE)
        expect(done.returncode == 1 and not made.exists(), 'a record that is not there')
    path.write_bytes(path.read_bytes()[:-1])
    expect(ours('record', made, path, '0') == 'refused 15\n' and not made.exists(), 'a record of what is no shift file')


def of_ppms(tools):
    """Black, white and a grey between: what they become is known."""
    made, names = OUT / 'ppm.y4m', []
    for grey in (b'\0', b'\xff', b'\x80'):
        names.append(OUT / f'{len(names)}.ppm')
        names[-1].write_bytes(b'P6\n# a comment\n7 5\n255\n' + 3 * 35 * grey)
    for sampling in ('420', '422'):
        expect(ours('ppm', made, sampling, *names) == '', 'pictures: refused')
        planes = b''.join(bytes([luma]) * 35 + b'\x80' * (picture_size(7, 5, sampling) - 35) for luma in (16, 235, 126))
        expect(read(made.read_bytes()) == (7, 5, sampling, planes), f'pictures in {sampling}: other planes')
        if 'ffmpeg' in tools:
            expect(by_ffmpeg(made.read_bytes()) == planes, f'pictures in {sampling}: ffmpeg reads other planes')
            compared['files of PPM pictures read by ffmpeg'] += 1
    names[1].write_bytes(b'P6 7 4 255 ' + 28 * b'abc')
    made.unlink()
    done = subprocess.run([Y4M, 'ppm', made, '420', *names], stdout=subprocess.PIPE, stderr=subprocess.PIPE)
    expect(done.returncode == 1 and b'another size' in done.stderr and not made.exists(), 'pictures of two sizes')


# ---- what is here

def missing(package):
    return [tool for tool in NEEDED[package] if shutil.which(tool) is None]


def versions(tools):
    said = []
    if 'ffmpeg' in tools:
        said.append('ffmpeg ' + run('ffmpeg', '-version').split()[2].decode())
    if 'mjpegtools' in tools:
        # its programs do not say it
        package = shutil.which('dpkg-query') and subprocess.run(['dpkg-query', '-W', '-f', '${Version}', 'mjpegtools'], stdout=subprocess.PIPE).stdout
        said.append(f'mjpegtools {package.decode() if package else ""}'.strip())
    return ' and '.join(said)


def main():
    OUT.mkdir(parents=True, exist_ok=True)
    wanted = [package for package in NEEDED if missing(package)]
    if wanted:
        install(wanted, 'y4m.py')
    tools = [package for package in NEEDED if not missing(package)]
    for package in NEEDED:
        if package not in tools:
            print(f'y4m.py: LEFT OUT: {package} is not here ({", ".join(missing(package))}); nothing is compared with it', flush=True)
    expect(not STRICT or len(tools) == 2, 'a package is not here')
    of_ppms(tools)
    of_records(tools)
    ours_by_them(tools)
    if 'ffmpeg' in tools:
        theirs_of_ffmpeg()
    if 'mjpegtools' in tools:
        theirs_of_mjpegtools(tools)
        odd_sides()
    for what, count in compared.items():
        print(f'    {count:4} {what}')
    expect(not tools or compared, 'nothing was compared')
    expect(len(tools) < 2 or len(compared) == KINDS, 'not everything was compared')
    print(f'y4m.py: {sum(compared.values())} comparisons with {versions(tools)}' if tools else 'y4m.py: NOTHING COMPARED: neither package is here')


main()
