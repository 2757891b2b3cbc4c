#!/usr/bin/env python3
"""Times `segvartin compare` over two equal shift files beside one memcmp over both, each a whole process that maps the files.

    bench/compare_files.py PROGRAM DIR [--size BYTES] [--turns N]

Makes two equal files in DIR of records of 1,920 x 1,080: each of BYTES (with K, M or G for powers of 1,024), or of a third of the memory that is
available, and of 4,096 records at most, which is 12.7 GB. They are read once, so that both stand in memory, and removed at the end; a DIR such as
/dev/shm keeps them there. Then in turn, N times (5): the memcmp program (bench/src/memcmp_files.c), and the program. Prints the least wall time of
each, from start to end of the process, and their ratio; and for information the time of a second memcmp over maps that are touched already. Turns in
which pages had to be read from a disk do not count. Exit status 1: the program takes more than twice memcmp's time.
"""
import os
import subprocess
import sys
import time
from pathlib import Path

sys.dont_write_bytecode = True
ROOT = Path(__file__).resolve().parent.parent
sys.path.insert(0, str(ROOT / 'tests'))
import files

W, H = 1920, 1080
MOST = 2.0  # times memcmp's time
FAULTS = 20  # pages that a run may read from the disk: its own program's, and no more


def available():
    for line in Path('/proc/meminfo').read_text().splitlines():
        if line.startswith('MemAvailable:'):
            return 1024 * int(line.split()[1])
    sys.exit('bench/compare_files.py: /proc/meminfo has no MemAvailable; name a size')


def size_of(word):
    unit = {'K': 1 << 10, 'M': 1 << 20, 'G': 1 << 30}.get(word[-1:].upper(), 1)
    return int(float(word[:-1] if unit > 1 else word) * unit)


def arguments(words):
    options, plain, words = {'--size': None, '--turns': '5'}, [], iter(words)
    for word in words:
        if word in options:
            options[word] = next(words, None)
        else:
            plain.append(word)
    if len(plain) != 2 or any(word.startswith('--') for word in plain):
        sys.exit(__doc__)
    try:
        size = size_of(options['--size']) if options['--size'] else available() // 3
        return Path(plain[0]).resolve(), Path(plain[1]), size, int(options['--turns'])
    except (TypeError, ValueError):
        sys.exit(__doc__)


def written(place, count):
    """A shift file of so many records; planes of noise that differ from record to record."""
    size = files.picture_size(W, H, 0)
    noise = os.urandom(2 * size) if not written.noise else written.noise
    written.noise = noise
    with open(place, 'wb') as file:
        file.write(files.pairs([8 + size] * count))
        for k in range(count):
            file.write(files.record(k, W, H, b''))
            file.write(memoryview(noise)[k * 997 % size:][:size])
        file.flush()
        os.fsync(file.fileno())  # so that nothing is written while times are taken
    return place


written.noise = b''


def read_once(place):
    with open(place, 'rb', buffering=0) as file:
        while file.read(1 << 24):
            pass


def timed(words):
    """Seconds from start to end of a process, whether it had to read from a disk, and what it wrote."""
    start = time.monotonic()
    child = subprocess.Popen(words, stdout=subprocess.PIPE)
    text = child.stdout.read()
    _, status, usage = os.wait4(child.pid, 0)
    taken = time.monotonic() - start
    child.returncode = os.waitstatus_to_exitcode(status)
    if child.returncode != 0:
        sys.exit(f'bench/compare_files.py: {words[0]} ended with {child.returncode}')
    return taken, usage.ru_majflt > FAULTS, text


def main():
    program, folder, size, turns = arguments(sys.argv[1:])
    record = files.record_size(W, H)
    count = max(1, min(files.RECORDS, (size - 4) // (record + 12)))
    folder.mkdir(parents=True, exist_ok=True)
    measure = folder / 'memcmp_files'
    subprocess.run(['gcc', '-std=c99', '-Wall', '-Wextra', '-Wpedantic', '-Werror', '-O2', ROOT / 'bench' / 'src' / 'memcmp_files.c', '-o', measure],
                   check=True)
    both = [folder / 'ours.shift', folder / 'theirs.shift']
    try:
        for one in both:
            written(one, count)
        for one in both:
            read_once(one)
        length = both[0].stat().st_size
        print(f'two equal files of {count} records of {W} x {H}, {length} bytes each; {turns} turns', flush=True)
        times, read = {'memcmp': [], 'compare': []}, {'memcmp': 0, 'compare': 0}
        for _ in range(turns):
            for name, words in (('memcmp', [measure, *both]), ('compare', [program, 'compare', *both])):
                taken, from_disk, text = timed(words)
                if from_disk:
                    read[name] += 1
                else:
                    times[name].append(taken)
                if name == 'compare' and f'the same in both: {count}\n'.encode() not in text:
                    sys.exit(f'bench/compare_files.py: compare says {text!r}')
        if not all(times.values()):
            sys.exit('bench/compare_files.py: the files do not stay in memory: name a smaller --size, or a folder in memory')
        again = float(timed([measure, '--again', *both])[2])
    finally:
        for one in (*both, measure):
            one.unlink(missing_ok=True)
    least = {name: min(taken) for name, taken in times.items()}
    for name, taken in times.items():
        rate, every = 2 * length / least[name] / 1e9, ', '.join(f'{1000 * one:.1f}' for one in taken)
        left = f'; {read[name]} turns that read from a disk left out' if read[name] else ''
        print(f'{name:8} {1000 * least[name]:8.1f} ms, {rate:5.1f} GB/s; all turns: {every}{left}')
    ratio = least['compare'] / least['memcmp']
    print(f'ratio    {ratio:.2f}; a second memcmp over touched maps {1000 * again:.1f} ms')
    if ratio > MOST:
        sys.exit(f'bench/compare_files.py: compare takes more than {MOST} times the time of memcmp')


main()
