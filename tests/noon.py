#!/usr/bin/env python3
"""Two shift files held against each other by a program in Python, against what the library says of them.

    tests/noon.py NOON OUT     NOON is examples/c/noon.c, built; OUT a folder for the files

The pairing below follows the request's own words, and shares no code with the library; tests/cli.py holds the program `segvartin` to it too.
"""
import os
import random
import subprocess
import sys
from pathlib import Path

sys.dont_write_bytecode = True
import files
from files import half


# ---- the pairing; a record is its crossing, its size, its sampling, and its three planes as lists of rows

def rows(numbers, w, h):
    return [numbers.randbytes(w) for _ in range(h)]


def record(numbers, crossing, w, h, sampling=0):
    tall = h if sampling else half(h)
    return crossing, (w, h, sampling), [rows(numbers, w, h), rows(numbers, half(w), tall), rows(numbers, half(w), tall)]


def shift_file(records, settings=None):
    """Without settings; or, where numbers for them are given, with settings, of which range, matrix and transfer are any."""
    texts = []
    for crossing, (w, h, sampling), planes in records:
        data = b''.join(row for plane in planes for row in plane)
        if settings:
            four = sampling, settings.choice((0, 1, 255)), settings.choice((0, 6, 255)), settings.choice((0, 3, 255))
            texts.append(files.settings_record(crossing, w, h, four, data))
        else:
            texts.append(files.record(crossing, w, h, data))
    return files.settings_file(texts) if settings else files.shift_file(texts)


def place(ours, theirs):
    """Where two records of one size first differ, or None."""
    for name, a, b in zip('YUV', ours, theirs):
        for r, (row, other) in enumerate(zip(a, b)):
            for c, (byte, value) in enumerate(zip(row, other)):
                if byte != value:
                    return f'plane {name}, row {r}, column {c}'
    return None


def report(ours, theirs):
    """What is printed, and the exit status."""
    left, same, differ = list(enumerate(theirs)), 0, []
    alone = 0
    for i, (crossing, size, planes) in enumerate(ours):
        # the k-th with the k-th: the first of theirs that is not taken yet
        found = next((one for one in left if one[1][0] == crossing), None)
        if found is None:
            alone += 1
            continue
        left.remove(found)
        j, (_, other_size, others) = found
        if size == other_size:
            said = place(planes, others)
        elif size[2] == other_size[2]:
            said = '{} x {} in ours, {} x {} in theirs'.format(*size[:2], *other_size[:2])
        else:
            said = ', '.join(f'{w} x {h} of 4:2:{2 * sampling} in {file}' for (w, h, sampling), file in ((size, 'ours'), (other_size, 'theirs')))
        if said is None:
            same += 1
        else:
            differ.append((crossing, i, f'crossing {crossing} (record {i} of ours, record {j} of theirs): {said}'))
    first = min(differ)[2] if differ else 'none'
    text = (f'the same in both: {same}\ndifferent:        {len(differ)}\nonly in ours:     {alone}\nonly in theirs:   {len(left)}\n'
            f'first difference: {first}\n')
    return text, 1 if differ or alone or left else 0


# ---- the comparison

runs = 0


def noon(*paths, **options):
    global runs
    runs += 1
    return subprocess.run([NOON, *paths], stderr=subprocess.PIPE, text=True, timeout=60, **options)


def said(ours, theirs):
    paths = OUT / 'ours.shift', OUT / 'theirs.shift'
    for path, data in zip(paths, (ours, theirs)):
        path.write_bytes(data)
    done = noon(*paths, stdout=subprocess.PIPE)
    return done.stdout, done.returncode, done.stderr


def expect(holds, what):
    if not holds:
        sys.exit(f'tests/noon.py: {what}')


def changed(numbers, planes):
    """The planes with one byte another."""
    planes = [list(plane) for plane in planes]
    plane = numbers.choice(planes)
    r = numbers.randrange(len(plane))
    c = numbers.randrange(len(plane[r]))
    plane[r] = plane[r][:c] + bytes([plane[r][c] ^ 1 << numbers.randrange(8)]) + plane[r][c + 1:]
    return planes


def main():
    global NOON, OUT
    NOON, OUT = Path(sys.argv[1]).resolve(), Path(sys.argv[2])
    OUT.mkdir(parents=True, exist_ok=True)
    numbers = random.Random(18)
    for case in range(200):
        count, crossings = numbers.choice((0, 1, 2, 5, 12)), numbers.choice((1, 3, 1 << 32))
        ours_set, theirs_set = numbers.choice((None, numbers)), numbers.choice((None, numbers))
        # 4:2:2 has a place in a file with settings alone
        sampling = (0, 1) if ours_set and theirs_set else (0,)
        ours = [record(numbers, numbers.randrange(crossings), numbers.randint(1, 20), numbers.randint(1, 20), numbers.choice(sampling)) for _ in range(count)]
        theirs = [(crossing, size, changed(numbers, planes) if numbers.random() < 0.2 else planes) for crossing, size, planes in ours if numbers.random() < 0.9]
        if case % 2:
            numbers.shuffle(theirs)
        if case % 3 == 0:
            theirs.append(record(numbers, numbers.randrange(crossings), 3, 2))
        if case % 5 == 0 and theirs and theirs_set:
            # one record in the other sampling
            k = numbers.randrange(len(theirs))
            crossing, (w, h, sampling), _ = theirs[k]
            theirs[k] = record(numbers, crossing, w, h, 1 - sampling)
        text, status = report(ours, theirs)
        expect(said(shift_file(ours, ours_set), shift_file(theirs, theirs_set)) == (text, status, ''), f'case {case}: reported otherwise')
    small = record(numbers, 7, 1, 1)
    like = (7, (1, 1, 1), small[2])
    for ours, theirs in ((small, like), (like, small)):
        text, status = report([ours], [theirs])
        expect('4:2:2' in text and said(shift_file([ours], numbers), shift_file([theirs], numbers)) == (text, status, ''), 'one pixel in unlike samplings')
    good = shift_file([record(numbers, 7, 3, 2)])
    for name, ours, theirs, which in (('ours', good[:-1], good, 'ours'), ('theirs', good, good + b'\0', 'theirs'), ('both', b'', b'', 'ours')):
        text = f'noon: {OUT / which}.shift is no shift file\n'
        expect(said(ours, theirs) == ('', 2, text), f'{name}: not refused')
    path, pipe = OUT / 'good.shift', OUT / 'pipe.shift'
    path.write_bytes(good)
    pipe.unlink(missing_ok=True)
    os.mkfifo(pipe)
    for names, which in (((pipe, path), pipe), ((path, pipe), pipe), ((path, OUT), OUT), ((path, OUT / 'none'), OUT / 'none')):
        done = noon(*names, stdout=subprocess.PIPE)
        expect((done.stdout, done.returncode, done.stderr) == ('', 2, f'noon: cannot read {which}\n'), f'{which}: read')
    pipe.unlink()
    with open('/dev/full', 'w') as full:
        done = noon(path, path, stdout=full)
    expect((done.returncode, done.stderr) == (2, 'noon: cannot write\n'), 'lines that cannot be written: no failure told')
    print(f'noon.py: {runs} runs: two shift files held against each other')


if __name__ == '__main__':
    main()
