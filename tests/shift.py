#!/usr/bin/env python3
"""Shift files by a writer in Python, without settings and with, against the library: what it lists of them, what it writes of the same records, what it makes
of them where they are moved, and their summaries.

    tests/shift.py SHIFT OUT [WORDS..]     SHIFT is examples/c/shift.c, built; OUT a folder for the files; it is run under WORDS

The writer, tests/files.py, was made from the request's own words for the layout, and shares no code with the library.
"""
import random
import struct
import subprocess
import sys
from pathlib import Path

sys.dont_write_bytecode = True
from files import pairs, plane_sizes, record, record_size, settings_file, settings_record, settings_record_size, shift_file, summary

SHIFT, OUT, WORDS = Path(sys.argv[1]).resolve(), Path(sys.argv[2]), sys.argv[3:]


# ---- what is said of files

def chroma(w, h, sampling):
    width, height = plane_sizes(w, h, sampling)[1]
    return width * height


NAMES = (('4:2:0', '4:2:2'), ('Limited', 'Full'), ('Bt601', 'Bt709', 'Bt2020', 'Smpte240', 'Bt470_6', 'Fcc', 'Custom'),
         ('Srgb', 'Rec709', 'Gamma2p2', 'Gamma2p8'))


def settings_listing(sizes):
    """What is listed of records with these crossings, widths, heights and settings."""
    text, offset = '', 8 + 12 * len(sizes)
    for k, (crossing, w, h, four) in enumerate(sizes):
        y = offset + 12
        u = y + w * h
        v = u + chroma(w, h, four[0])
        end = v + chroma(w, h, four[0])
        said = ['not recorded' if code == 255 else names[code] for code, names in zip(four, NAMES)]
        text += (f'{k}: crossing {crossing}, {w} x {h}, at {offset}, Y {y}, U {u}, V {v}, {end - offset} bytes, '
                 f'{said[0]}, range {said[1]}, matrix {said[2]}, transfer {said[3]}\n')
        offset = end
    return text


def listing(sizes):
    """What is listed of records with these crossings, widths and heights."""
    text, offset = '', 4 + 12 * len(sizes)
    for k, (crossing, w, h) in enumerate(sizes):
        y = offset + 8
        u = y + w * h
        v = u + chroma(w, h, 0)
        end = v + chroma(w, h, 0)
        text += f'{k}: crossing {crossing}, {w} x {h}, at {offset}, Y {y}, U {u}, V {v}, {end - offset} bytes\n'
        offset = end
    return text


def found(sizes, crossing):
    """What is printed of the first record of a crossing."""
    lines = [line.split(': ', 1)[1] + '\n' for line in listing(sizes).splitlines()]
    return next((line for line, size in zip(lines, sizes) if size[0] == crossing), 'none\n')


# ---- the comparison

runs = 0


def said(*words):
    global runs
    runs += 1
    done = subprocess.run([*WORDS, SHIFT, *words], stdout=subprocess.PIPE, text=True)
    if done.returncode not in (0, 1):
        sys.exit(f'tests/shift.py: {words} ended with {done.returncode}')
    return done.stdout


def expect(holds, what):
    if not holds:
        sys.exit(f'tests/shift.py: {what}')


def lists(name, data, text):
    path = OUT / 'python.shift'
    path.write_bytes(data)
    expect(said('list', path) == text, f'{name}: listed otherwise')


def packs(name, records, data, word='pack', refusal=15):
    """Data None: refused, and no file is made."""
    path, made = OUT / 'python.records', OUT / 'packed.shift'
    path.write_bytes(records)
    made.unlink(missing_ok=True)
    text = said(word, path, made)
    if data is None:
        expect(text == f'refused {refusal}\n' and not made.exists(), f'{name}: not refused')
    else:
        expect(text == '' and made.read_bytes() == data, f'{name}: made otherwise')


def sums(name, sizes, records):
    """A summary made, each crossing found in it, and it brought up to date with the last record."""
    path, made, last = OUT / 'python.shift', OUT / 'made.summary', OUT / 'last.record'
    path.write_bytes(shift_file(records))
    made.unlink(missing_ok=True)
    expect(said('sum', path, made) == '' and made.read_bytes() == summary(shift_file(records)), f'{name}: another summary')
    for crossing in [0, 1, 4294967295, *[size[0] for size in sizes[:3]]]:
        expect(said('find', path, made, str(crossing)) == found(sizes, crossing), f'{name}: crossing {crossing} found otherwise')
    if made.stat().st_size:
        path.write_bytes(shift_file(records[:-1]))
        expect(said('find', path, made, '0') == ('refused 17\n' if len(records) > 1 else 'none\n'), f'{name}: the summary of another file')
        expect(said('sum', path, made) == '', f'{name}: no summary of fewer records')
        last.write_bytes(records[-1])
        expect(said('add', path, made, last) == '' and made.read_bytes() == summary(shift_file(records)), f'{name}: brought up to date otherwise')
    if len(records) == 4096:
        path.write_bytes(shift_file(records))
        expect(said('add', path, made, last) == 'refused 15\n', f'{name}: one record too many is not refused')


def settings_sums(name, sizes, records):
    """A summary made of a file with settings, each crossing found in it, and it brought up to date with the last record, and not with one without settings."""
    path, made, last = OUT / 'python.shift', OUT / 'made.summary', OUT / 'last.record'
    path.write_bytes(settings_file(records))
    expect(said('sum', path, made) == '' and made.read_bytes() == summary(settings_file(records)), f'{name}: another summary')
    lines = {size[0]: line.split(': ', 1)[1] + '\n' for line, size in reversed(list(zip(settings_listing(sizes).splitlines(), sizes)))}
    for crossing in [0, *[size[0] for size in sizes[:3]]]:
        expect(said('find', path, made, str(crossing)) == lines.get(crossing, 'none\n'), f'{name}: crossing {crossing} found otherwise')
    if records:
        path.write_bytes(settings_file(records[:-1]))
        expect(said('sum', path, made) == '', f'{name}: no summary of fewer records')
        last.write_bytes(record(7, 1, 1, b'123'))
        expect(said('add', path, made, last) == 'refused 15\n', f'{name}: a record without settings is not refused')
        last.write_bytes(records[-1])
        expect(said('add', path, made, last) == '' and made.read_bytes() == summary(settings_file(records)), f'{name}: brought up to date otherwise')


def with_settings(numbers):
    """Files with settings listed, packed and summed up; files moved forward and back."""
    for count, side in ((0, 1), (1, 1), (1, 300), (2, 3), (17, 9), (65, 2), (4096, 1)):
        sizes = [(numbers.randrange(1 << 32), numbers.randint(1, side), numbers.randint(1, side),
                  (numbers.randrange(2), *(numbers.choice([255, *range(len(names))]) for names in NAMES[1:]))) for _ in range(count)]
        records = [settings_record(crossing, w, h, four, numbers.randbytes(settings_record_size(w, h, four) - 12)) for crossing, w, h, four in sizes]
        data = settings_file(records)
        lists(f'{count} records with settings', data, settings_listing(sizes))
        packs(f'{count} records with settings', b''.join(records), data, 'pack-settings')
        if records:
            packs(f'{count} records with settings, without', b''.join(records), None)
        settings_sums(f'{count} records with settings', sizes, records)
        packs(f'{count} records with settings, forward', data, None, 'forward')
        kept = all(four == (0, 255, 255, 255) for _, _, _, four in sizes)
        packs(f'{count} records with settings, back', data, shift_file([one[:8] + one[12:] for one in records]) if kept else None, 'back', 20)
        sizes, records = some(numbers, count, side)
        old, new = shift_file(records), settings_file([data[:8] + bytes([0, 255, 255, 255]) + data[8:] for data in records])
        packs(f'{count} records, forward', old, new, 'forward')
        packs(f'{count} records, back', new, old, 'back')
        packs(f'{count} records without settings, back', old, None, 'back')
    four = (0, 255, 255, 255)
    one = settings_record(7, 1, 1, four, b'123')
    for place, last in enumerate((1, 1, 6, 3)):
        for value in range(256):
            data = settings_file([one[:8 + place] + bytes([value]) + one[9 + place:]])
            good = value <= last or place and value == 255
            if good:
                lists(f'{value} in place {place}', data, settings_listing([(7, 1, 1, (*four[:place], value, *four[place + 1:]))]))
            else:
                lists(f'{value} in place {place}', data, 'refused 15\n')
            if value in (0, 1, 254, 255):
                unsaid = value == four[place]
                packs(f'{value} in place {place}, back', data, shift_file([record(7, 1, 1, b'123')]) if unsaid else None, 'back', 20 if good else 15)
    for name, broken in (('nothing behind 255', b'\xff' * 4), ('a byte less', settings_file([one])[:-1]), ('a byte more', settings_file([one]) + b'\0'),
                         ('no 255', settings_file([one])[4:]), ('255 before a file', b'\xff' * 4 + shift_file([record(7, 1, 1, b'123')]))):
        lists(name, broken, 'refused 15\n')


def some(numbers, count, side):
    sizes = [(numbers.randrange(1 << 32), numbers.randint(1, side), numbers.randint(1, side)) for _ in range(count)]
    return sizes, [record(crossing, w, h, numbers.randbytes(record_size(w, h) - 8)) for crossing, w, h in sizes]


def main():
    OUT.mkdir(parents=True, exist_ok=True)
    numbers = random.Random(20)
    for count, side in ((0, 1), (1, 1), (1, 500), (2, 3), (3, 40), (17, 9), (64, 2), (65, 2), (1000, 3), (4096, 1)):
        sizes, records = some(numbers, count, side)
        data = shift_file(records)
        lists(f'{count} records', data, listing(sizes))
        packs(f'{count} records', b''.join(records), data)
        sums(f'{count} records', sizes, records)
        few = [(one[0] % 3, *one[1:]) for one in sizes]
        sums(f'{count} records of three crossings', few, [struct.pack('<I', one[0]) + data[4:] for one, data in zip(few, records)])
    sizes, records = some(numbers, 4097, 1)
    lists('4097 records', shift_file(records), 'refused 15\n')
    packs('4097 records', b''.join(records), None)
    sizes, records = some(numbers, 3, 5)
    data = shift_file(records)
    for name, broken in (('a byte less', data[:-1]), ('a byte more', data + b'\0'), ('nothing', b''), ('no pairs', data[:4]),
                         ('count less', struct.pack('<I', 2) + data[4:]), ('high byte first', struct.pack('>I', 3) + data[4:]),
                         ('lengths exchanged', pairs([len(one) for one in reversed(records)]) + b''.join(records))):
        lists(name, broken, 'refused 15\n')
    for name, broken in (('a byte less', data[40:-1]), ('a byte more', data[40:] + b'\1'), ('a width of 0', record(1, 0, 1, b'')),
                         ('a height of 16385', record(1, 1, 16385, bytes(record_size(1, 16385) - 8)))):
        packs(name, broken, None)
    with_settings(numbers)
    # 11 records of the largest size and a small one, in a sparse file: the last starts past 2 ^ 32
    sizes = [(k, 16384, 16384) for k in range(11)] + [(11, 3, 5)]
    lengths = [record_size(w, h) for _, w, h in sizes]
    path, start = OUT / 'sparse.shift', pairs(lengths)
    with open(path, 'wb') as file:
        file.write(start)
        for (crossing, w, h), at in zip(sizes, (len(start) + sum(lengths[:k]) for k in range(12))):
            file.seek(at)
            file.write(record(crossing, w, h, b''))
        file.truncate(len(start) + sum(lengths))
    expect(len(start) + sum(lengths[:11]) > 1 << 32 and said('list', path) == listing(sizes), 'a file past 4 GiB: listed otherwise')
    with open(path, 'r+b') as file:
        file.seek(4 + 12 * 11)
        file.write(struct.pack('<Q', (len(start) + sum(lengths[:11])) % (1 << 32)))
    expect(said('list', path) == 'refused 15\n', 'an offset of 32 bits: not refused')
    path.unlink()
    print(f'shift.py: {runs} runs: files listed, packed and moved, summaries made, looked up and brought up to date')


main()
