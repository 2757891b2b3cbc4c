#!/usr/bin/env python3
"""The program `segvartin` as a person uses it: every subcommand, every refusal that flags reach, broken input, writes that fail or are interrupted.

    tests/cli.py PROGRAM DIR [--programs FOLDER] [--large] [--strict] [--only NAME,..]

PROGRAM is `segvartin`, built; DIR a folder for files. Expectations come from the program `frame` in FOLDER (target/bin by default; `tools/archive
programs` makes both programs there), from the conformance vectors, and from files that tests/files.py writes; none from the program's own code.
With --large files past 4 GiB too, which take 12 GiB of DIR. --only runs some of the functions of tests/cli_work.py and tests/cli_faults.py. ffmpeg,
zsh, fish, man, groff and strace are installed where they are missing and apt-get may do it; where one cannot be, a line says what is left out, and
with --strict that is a failure. Exit status 0: all passed.
"""
import shutil
import signal
import sys
import time
from pathlib import Path

sys.dont_write_bytecode = True
import cli_faults
import cli_work
from cli_checks import ROOT, given, told
from packages import install

# Programs that read what this one writes, or watch it, and their Debian packages
READERS = {'ffmpeg': 'ffmpeg', 'zsh': 'zsh', 'fish': 'fish', 'man': 'man-db', 'groff': 'groff', 'strace': 'strace'}


def arguments(words):
    options, plain, only = {'--programs': ROOT / 'target' / 'bin', '--only': ''}, [], iter(words)
    for word in only:
        if word in ('--large', '--strict'):
            given[word[2:]] = True
        elif word in options:
            options[word] = next(only, None)
        else:
            plain.append(word)
    if len(plain) != 2 or None in options.values() or any(word.startswith('--') for word in plain):
        sys.exit(__doc__)
    given.update(program=Path(plain[0]).resolve(), folder=Path(plain[1]).resolve(), programs=Path(options['--programs']).resolve())
    return options['--only']


def main():
    only = arguments(sys.argv[1:])
    for one in (given['program'], given['programs'] / 'frame', given['programs'] / 'luma_counts'):
        if not one.is_file():
            sys.exit(f'tests/cli.py: {one} is not here')
    if missing := [package for program, package in READERS.items() if shutil.which(program) is None]:
        install(missing, 'tests/cli.py')
    for number in (signal.SIGINT, signal.SIGQUIT, signal.SIGHUP):  # which a job in the background ignores, and what it starts too
        signal.signal(number, signal.SIG_DFL)
    given['folder'].mkdir(parents=True, exist_ok=True)
    for one in given['folder'].glob('.*.part'):  # of a run that was ended
        one.unlink()
    tests = [*cli_work.ALL, *cli_faults.ALL]
    names = only.split(',') if only else [test.__name__ for test in tests]
    if unknown := set(names) - {test.__name__ for test in tests}:
        sys.exit(f'tests/cli.py: no test is called {", ".join(sorted(unknown))}')
    for test in tests:
        if test.__name__ in names:
            start, checks, failed = time.monotonic(), told['checks'], told['failed']
            test()
            wrong = told['failed'] - failed
            print(f'    {test.__name__}: {told["checks"] - checks} checks{f", {wrong} FAILED" if wrong else ""}, {time.monotonic() - start:.1f} s',
                  flush=True)
    print(f'tests/cli.py: {told["checks"]} checks, ' + (f'{told["failed"]} failed' if told['failed'] else 'all passed'))
    sys.exit(1 if told['failed'] else 0)


if __name__ == '__main__':
    main()
