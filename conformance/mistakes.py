#!/usr/bin/env python3
"""Which vector catches which mistake: break copies of conformance/reference, one named mistake in each, and run the vectors on them.

    conformance/mistakes.py            write conformance/MISTAKES.md
    conformance/mistakes.py --check    say whether it is what this finds, and fail if not
    conformance/mistakes.py NAME..     show what the vectors tell of these mistakes, and write nothing

It needs a C compiler (CC, else cc) and Python. The mistakes stand in conformance/mistakes.txt. It fails where one that must be caught is not,
and where one that no input shows is.
"""
import functools
import os
import re
import subprocess
import sys
import tempfile
from collections import namedtuple
from pathlib import Path

HERE = Path(__file__).resolve().parent
sys.path.insert(0, str(HERE))
import run  # noqa: E402

EDITS = HERE / 'mistakes.txt'
TABLE = HERE / 'MISTAKES.md'
REFERENCE = HERE / 'reference'
SOURCES, HEADERS = ['lines.c', 'request.c', 'reference.c'], ['reference.h', 'request.h']
CC = os.environ.get('CC', 'cc')
LAST = ['counts', 'large', 'tables']  # asked where none of the other files tells
FIRST = [name for name in run.FILES if name not in LAST]
PATIENCE = 60  # seconds for a broken copy and a file

class Unexpected(Exception):
    """A mistake that must be told is not, or the opposite, or its text does not stand in the reference."""


# edits: file, old, new. floats: the weights come from floats.c. unseen: why no accepted input shows it.
Mistake = namedtuple('Mistake', 'part name rule edits floats unseen')


def mistakes():
    """The mistakes of mistakes.txt, in order."""
    found, part = [], None
    for block in EDITS.read_text().split('\n\n'):
        lines = [line for line in block.split('\n') if line and not line.startswith('#')]
        if not lines:
            continue
        if lines[0].startswith('part '):
            part = lines[0][len('part '):]
            continue
        said, edits = {}, []
        for line in lines:
            word, _, rest = line.partition(' ')
            if word == 'edit':
                edits.append((rest, [], []))
            elif word in ('-', '+'):
                edits[-1]['-+'.index(word) + 1].append(rest)
            else:
                said[word] = rest
        texts = [(file, '\n'.join(old), '\n'.join(new)) for file, old, new in edits]
        found.append(Mistake(part, said['mistake'], said['rule'], texts, 'floats' in said, said.get('unseen')))
    return found


MISTAKES = mistakes()


def missing_proofs():
    """Theorems that a reason names, as `NAME` of `crates/..`, and that do not stand there."""
    missing = []
    for mistake in MISTAKES:
        for names, path in re.findall(r'((?:`[^` ]+`(?:, | and )?)+) of `(crates/[^`]+)`', mistake.unseen or ''):
            text = (HERE.parent / path).read_text()
            missing += [f'{name} of {path}' for name in re.findall('`([^`]+)`', names) if not re.search(rf'^ *pub {name} :', text, re.MULTILINE)]
    return missing


# ---- breaking copies

@functools.lru_cache(maxsize=None)
def compiled(source, floats, *texts):
    """The object file of a source, given the texts of the source and of the headers."""
    with tempfile.TemporaryDirectory() as folder:
        for file, text in zip((source, *HEADERS), texts):
            Path(folder, file).write_text(text)
        words = [CC, '-std=c99', '-w', *(['-DREFERENCE_FLOATS'] if floats else []), '-c', source, '-o', 'it.o']
        subprocess.run(words, cwd=folder, check=True)
        return Path(folder, 'it.o').read_bytes()


def linked(folder, mistake):
    """The broken copy's program."""
    texts = {file: (REFERENCE / file).read_text() for file in (*SOURCES, 'floats.c', *HEADERS)}
    for file, old, new in mistake.edits:
        if texts[file].count(old) != 1:
            raise Unexpected(f'{mistake.name}: its text stands {texts[file].count(old)} times in {file}: {old}')
        texts[file] = texts[file].replace(old, new)
    sources = [*SOURCES, 'floats.c'] if mistake.floats else SOURCES
    for source in sources:
        (folder / f'{source}.o').write_bytes(compiled(source, mistake.floats, texts[source], *(texts[file] for file in HEADERS)))
    subprocess.run([CC, *(f'{source}.o' for source in sources), '-o', 'lines', '-lm'], cwd=folder, check=True)
    return [str(folder / 'lines')]


def found_by(mistake, files):
    """The vectors that tell, of these files, each with what they tell."""
    with tempfile.TemporaryDirectory() as folder:
        answers = run.of_lines(linked(Path(folder), mistake))
        return [wrong for given in files for wrong in run.judged(given, answers(given))[2]]


def shown(found):
    """A vector by name, and what it tells."""
    return f'{found.vector.file} {found.vector.number}', found.what


def tried(mistake, files, others):
    """The first vector that tells a mistake, what it tells, and how many do; of `others` where none of `files` does."""
    wrongs = found_by(mistake, files) or found_by(mistake, others)
    if mistake.unseen and all(found.vector.file == 'tables' for found in wrongs):
        wrongs = []
    if bool(wrongs) == bool(mistake.unseen):
        raise Unexpected(f'{mistake.name}: ' + (f'{shown(wrongs[0])} tells it' if wrongs else 'no vector tells it'))
    return (*shown(wrongs[0]), len(wrongs)) if wrongs else None


def page(results):
    caught = [mistake for mistake in MISTAKES if not mistake.unseen]
    lines = ['# Which vector catches which mistake', '',
             'Made by `conformance/mistakes.py`: each mistake is put into a copy of `conformance/reference`, which is built and given the vectors.',
             'The first vector that tells is named, with what it tells, and how many do. Counts, large frames and tables are asked only where no other',
             'vector tells.', '',
             f'{len(caught)} mistakes are caught. {len(MISTAKES) - len(caught)} more no accepted input can show.', '']
    for title in dict.fromkeys(mistake.part for mistake in MISTAKES):
        lines += [f'## {title}', '', '| mistake | rule | first vector that tells | what it tells | vectors that tell |', '|---|---|---|---|---|']
        for mistake in caught:
            if mistake.part == title:
                vector, what, count = results[mistake.name]
                lines.append(f'| {mistake.name} | {mistake.rule} | {vector} | {what} | {count} |')
        lines.append('')
    lines += ['## Mistakes that no accepted input can show', '',
              'Each was put into a copy too, and no vector tells it. The reason says why none can; where that is proved, it names the theorem.', '',
              '| mistake | rule | why |', '|---|---|---|']
    lines += [f'| {mistake.name} | {mistake.rule} | {mistake.unseen} |' for mistake in MISTAKES if mistake.unseen]
    return '\n'.join(lines) + '\n'


def main():
    run.PATIENCE = PATIENCE
    names = [word for word in sys.argv[1:] if word != '--check']
    chosen = [mistake for mistake in MISTAKES if not names or mistake.name in names]
    if len({mistake.name for mistake in MISTAKES}) != len(MISTAKES) or len(names) not in (0, len(chosen)):
        sys.exit('a name stands twice, or is none')
    if missing_proofs():
        sys.exit('no such theorem: ' + ', '.join(missing_proofs()))
    files = [[vector for name in FIRST for vector in run.vectors(name)]]  # of one process
    others = [run.vectors(name) for name in LAST]
    results, unexpected = {}, []
    for mistake in chosen:
        try:
            results[mistake.name] = tried(mistake, files, others)
        except Unexpected as error:
            unexpected.append(str(error))
        if names or sys.stdout.isatty():
            print(mistake.name, results.get(mistake.name), flush=True)
    if unexpected:
        sys.exit('\n'.join(unexpected))
    if names:
        return
    text = page(results)
    if sys.argv[1:]:
        if not TABLE.exists() or TABLE.read_text() != text:
            sys.exit('conformance/MISTAKES.md is not what conformance/mistakes.py finds')
        return
    TABLE.write_text(text)
    print(text.splitlines()[5])


if __name__ == '__main__':
    main()
