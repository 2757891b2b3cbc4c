#!/usr/bin/env python3
"""Make the conformance vectors from the proved library, and hold every answer to model, oracle and a reading of the rules.

    conformance/make.py RUST_DIR             write vectors/, tables/ and manifest.txt
    conformance/make.py RUST_DIR --check     say which of them is not what this makes, and fail if one is not

RUST_DIR is the folder that oracle/build asks for. The proved library and program stand in target/, where `tools/archive`
makes them. Every answer is the library's. Held to it are, and nothing is written where one differs:

- the program target/bin/frame, for requests;
- the model of the rules (model/), for every line;
- the oracle, the Rust over the exact tables (oracle/), for every frame call and request whose answer it has, and for every frame that is
  finished in bands;
- the reading of the rules in tools/rules_examples.py, for every line but large frames.
"""
import hashlib
import os
import re
import subprocess
import sys
from collections import Counter
from pathlib import Path

HERE = Path(__file__).resolve().parent
ROOT = HERE.parent
sys.path.insert(0, str(HERE))
import cases  # noqa: E402
import run  # noqa: E402
from cases import rules  # noqa: E402

OUT = ROOT / 'target' / 'conformance'
ARCHIVE = Path(os.environ.get('SEGVARTIN_LIB_DIR', ROOT / 'target' / 'staticlib')) / 'libsegvartin.a'
PROGRAM = ROOT / 'target' / 'bin' / 'frame'
STRICT = '-std=c99 -Wall -Wextra -Wpedantic -Wconversion -Wshadow -Werror -O2'.split()
LARGEST_READ = 20000  # pixels of a frame that the reading of the rules is asked for

# Rules that no vector stands under, and why.
WITHOUT = {'4.6': 'it follows from 4.1 to 4.5'}
WITHOUT.update({f'10.{n}': "it is the form of our library's calls" for n in range(1, 11)})
WITHOUT.update({f'16.{n}': 'the stored list of crates/replay_desk has its calls' for n in range(1, 7)})


def fail(message):
    sys.exit(f'conformance/make.py: {message}')


# ---- programs that answer

def library_program():
    """The proved library, taking calls in lines."""
    if not ARCHIVE.exists() or not PROGRAM.exists():
        fail('target/staticlib/libsegvartin.a and target/bin/frame are needed: tools/archive makes them')
    OUT.mkdir(parents=True, exist_ok=True)
    program = OUT / 'library'
    sources = [HERE / 'reference' / 'lines.c', HERE / 'reference' / 'request.c', HERE / 'library.c']
    subprocess.run(['cc', *STRICT, '-DWITHOUT_TABLES', *sources, ARCHIVE, '-o', program], check=True)
    return [str(program)]


def witness_program(rust):
    subprocess.run([ROOT / 'oracle' / 'build', rust], check=True)
    oracle, model = (ROOT / 'target' / name for name in ('oracle', 'model'))
    subprocess.run(['rustc', '--edition', '2024', '-O', '-D', 'warnings', '-C', 'overflow-checks=on', HERE / 'witness.rs', '--crate-name', 'witness',
                    '--out-dir', OUT, '-L', f'dependency={oracle}', '-L', f'dependency={model}', f'--extern=model={model}/libmodel.rlib',
                    f'--extern=oracle={oracle}/liboracle.rlib'], check=True)
    return str(OUT / 'witness')


def answers(command, lines):
    """Answers in lines, those of large frames digested; a missing one fails."""
    found = []
    for part in ([line] for line in lines) if lines[0].startswith('seed ') else [lines]:
        told = run.answers_in_lines(command, [run.expanded(line) for line in part])
        found += [run.digested(line, answer or '') for line, answer in zip(part, told)]
    return found


# ---- the reading of the rules

class Words:
    def __init__(self, line):
        self.left = line.split(' ')

    def word(self):
        return self.left.pop(0)

    def number(self):
        return int(self.word())

    def numbers(self, count):
        return [self.number() for _ in range(count)]

    def bytes(self):
        return bytearray.fromhex(self.word().replace('-', ''))

    def description(self):
        w, h, order, sampling, range_, matrix = self.numbers(6)
        kr, kb = (cases.float_of(int(self.word(), 16)) for _ in range(2))
        transfer, *strides = self.numbers(4)
        rounding, left, top, wide, high = self.numbers(5)
        codes = [(order, cases.ORDERS), (sampling, cases.SAMPLINGS), (range_, cases.RANGES), (matrix, cases.MATRICES), (transfer, cases.TRANSFERS),
                 (rounding, cases.ROUNDINGS)]
        settings = None
        if all(code < len(values) for code, values in codes):
            settings = rules.Settings(*(values[code] for code, values in codes), kr, kb)
        return settings, w, h, strides, rules.Window(left, top, wide, high)


def said(*parts):
    return ' '.join(cases.text_of(part) if isinstance(part, (bytes, bytearray)) else str(part) for part in parts)


def read_band(words, given, done, planes, carried, call=None):
    """One band call, and the rows done after it."""
    settings, w, h, strides, window = given
    rows, stride, source = call or (words.number(), words.number(), words.bytes())
    answer = (1, 0, 0)
    if settings is not None:
        answer, done = rules.band_call(settings, w, h, done, rows, source, [stride, *strides], planes, carried, window)
    return said(*answer, done, *planes, carried), done


def read_frame(words):
    settings, w, h, strides, window = words.description()
    if w * h > LARGEST_READ and max(w, h, window.W, window.H) <= 16384 and w * h > 0:
        return None
    stride, source = words.number(), words.bytes()
    planes = [words.bytes() for _ in range(3)]
    answer = (1, 0, 0) if settings is None else rules.frame_call(settings, w, h, source, [stride, *strides], planes, window)
    return said(*answer, *planes)


def opened(given):
    settings, w, h, _, window = given
    return said(*((1, 0, 0) if settings is None else rules.description_answer(settings, w, h, window) or (0, 0, 0)), 0)


def read_convoy_frame(words):
    settings, w, h, strides, window = words.description()
    stride, parts = words.number(), [rules.Part(*words.numbers(2)) for _ in range(4)]
    return rules.ConvoyFrame(None if settings is None else (settings, w, h, strides, window), stride, parts)


def reading(line):
    """The answer to a line by the reading of the rules, or None where it is not asked."""
    words = Words(line)
    kind = words.word()
    if kind == 'request':
        return said(rules.program(bytes(words.bytes())))
    if kind == 'frame':
        return read_frame(words)
    if kind == 'open':
        return opened(words.description())
    if kind == 'band':
        given, done = words.description(), words.number()
        call = words.number(), words.number(), words.bytes()
        planes = [words.bytes() for _ in range(3)]
        return read_band(words, given, done, planes, words.bytes(), call)[0]
    if kind == 'bands':
        given, planes, carried = words.description(), [words.bytes() for _ in range(3)], words.bytes()
        parts, done = [opened(given)], 0
        for _ in range(words.number()):
            part, done = read_band(words, given, done, planes, carried)
            parts.append(part)
        return ' '.join(parts)
    if kind == 'counts':
        codes, kr, kb = words.numbers(2), *(cases.float_of(int(words.word(), 16)) for _ in range(2))
        number, found = rules.counts_call(codes, kr, kb, [])
        return said(number, 0, 0, *found)
    if kind == 'read':
        first, room, data = words.number(), words.number(), bytes(words.bytes())
        number, count, entries = rules.read_call(data, first, room)
        return said(number, 0, 0, count, len(entries), *sum((list(entry) for entry in entries), []))
    if kind == 'read-any':
        first, room, data = words.number(), words.number(), bytes(words.bytes())
        number, count, entries, form = rules.read_any_call(data, first, room)
        return said(number, 0, 0, count, len(entries), form, *sum((list(entry) for entry in entries), []))
    if kind == 'write':
        form, records, output = words.number(), bytes(words.bytes()), words.bytes()
        number, size = rules.write_call(records, output, form)
        return said(number, 0, 0, size, output)
    if kind in ('record', 'record-settings'):
        crossing, w, h, *strides = words.numbers(6)
        four = words.numbers(4) if kind == 'record-settings' else None
        planes, output = [words.bytes() for _ in range(3)], words.bytes()
        answer, size = rules.record_call(crossing, w, h, strides, planes, output, four)
        return said(*answer, size, output)
    if kind == 'move':
        to, data, output = words.number(), bytes(words.bytes()), words.bytes()
        number, size = (rules.forward_call if to else rules.back_call)(data, output)
        return said(number, 0, 0, size, output)
    if kind == 'build':
        data, summary = bytes(words.bytes()), words.bytes()
        return said(rules.build_call(data, summary), 0, 0, summary)
    if kind == 'check':
        number, yes = rules.check_call(bytes(words.bytes()), words.bytes())
        return said(number, 0, 0, int(yes))
    if kind == 'find':
        crossing, data, summary = words.number(), bytes(words.bytes()), words.bytes()
        number, found = rules.find_call(data, summary, crossing)
        return said(number, 0, 0, int(found is not None), found or 0)
    if kind == 'update':
        data, added, summary = bytes(words.bytes()), bytes(words.bytes()), words.bytes()
        return said(rules.update_call(data, added, summary), 0, 0, summary)
    if kind == 'pair':
        number, none, report = rules.pair_call(bytes(words.bytes()), bytes(words.bytes()))
        return said(number, 0, 0, none, *(rules.report_numbers(report) if report else []))
    if kind == 'y4m-read':
        first, room, data = words.number(), words.number(), bytes(words.bytes())
        number, told, entries = rules.y4m_read_call(data, first, room)
        return said(number, 0, 0, *told, len(entries), *sum((list(entry) for entry in entries), []))
    if kind == 'y4m-write':
        numbers, pictures, output = words.numbers(3), bytes(words.bytes()), words.bytes()
        number, size = rules.y4m_write_call(*numbers, pictures, output)
        return said(number, 0, 0, size, output)
    if kind == 'y4m-picture':
        w, h, sampling, *strides = words.numbers(6)
        planes, output = [words.bytes() for _ in range(3)], words.bytes()
        number, size = rules.y4m_picture_call(w, h, sampling, strides, planes, output)
        return said(number, 0, 0, size, output)
    if kind == 'convoy':
        source, planes = words.bytes(), [words.bytes() for _ in range(3)]
        answer, done = rules.convoy_call([read_convoy_frame(words) for _ in range(words.number())], source, planes)
        return said(*answer, done, *planes)
    return None


# ---- what the oracle is asked beside frame calls

def frame_of_request(line):
    """The frame call that a request comes to, and how its answer becomes the reply; None where it is refused."""
    request = bytes.fromhex(line.split(' ')[1].replace('-', ''))
    if len(request) < 9 or rules.program(request).startswith(b'refused'):
        return None
    w, h = int.from_bytes(request[0:2], 'little'), int.from_bytes(request[2:4], 'little')
    order, sampling, range_, matrix, transfer = request[4:9]
    return cases.Frame(w, h, order, sampling, range_, matrix, transfer=transfer, source=request[9:], before=0).line()


def frame_of_bands(line, answer):
    """The frame call whose planes a sequence must leave, where it finished the frame; and these planes."""
    words, told = Words(line), answer.split(' ')
    words.word()
    head = words.left[:17]
    settings, w, h, strides, window = words.description()
    planes, carried = [words.bytes() for _ in range(3)], words.bytes()
    del carried
    rows = []
    for call in range(words.number()):
        count, stride, source = words.number(), words.number(), words.bytes()
        if told[4 + 8 * call] == '0':
            rows += [bytes(source[r * stride:r * stride + window.W * settings.c]) for r in range(count)]
    if len(rows) != h or told[0] != '0':
        return None
    head[14], head[16] = '0', str(h)  # the rows above and below the frame are in no band
    frame = f'frame {" ".join(head)} {window.W * settings.c} {cases.text_of(b"".join(rows))} ' + ' '.join(map(cases.text_of, planes))
    return frame, ' '.join(['0 0 0', *told[-4:-1]])


# ---- all of it

def equal(name, lines, should, found):
    """How many answers a witness confirms; None is one that it was not asked for."""
    for line, answer, other in zip(lines, should, found):
        if other not in (None, run.NOT_OFFERED) and other != answer:
            fail(f'{name} differs from the library\n> {line[:2000]}\n  library {answer[:2000]}\n  {name} {other[:2000]}')
    return sum(other not in (None, run.NOT_OFFERED) for other in found)


def answered(found, library, witness, confirmed):
    """The answers of a list, each held to the witnesses."""
    lines = [line for _, _, line in found.calls]
    should = answers(library, lines)
    if run.NOT_OFFERED in should or '' in should:
        fail(f'{found.name}: the library has not answered every line')
    if equal('the model', lines, should, answers([witness, 'model'], lines)) != len(lines):
        fail(f'{found.name}: the model has not answered every line')
    confirmed['model'] += len(lines)
    confirmed['reading'] += equal('the reading of the rules', lines, should, [reading(line) for line in lines])
    confirmed['oracle'] += equal('the oracle', lines, should, answers([witness, 'oracle'], lines))
    if found.name == 'requests':
        replies = run.of_requests([str(PROGRAM)])(run.Vector('', 0, '', '', line, '') for line in lines)
        confirmed['program'] += equal('target/bin/frame', lines, should, list(replies))
        asked = [(line, answer, frame_of_request(line)) for line, answer in zip(lines, should)]
        asked = [one for one in asked if one[2]]
        planes = [answer.split(' ')[3:] for answer in answers([witness, 'oracle'], [frame for _, _, frame in asked])]
        confirmed['oracle'] += equal('the oracle', [one[0] for one in asked], [one[1] for one in asked], [''.join(parts) for parts in planes])
    if found.name == 'bands':
        asked = [frame for frame in map(frame_of_bands, lines, should) if frame]
        confirmed['oracle'] += equal('the oracle', [one[0] for one in asked], [one[1] for one in asked],
                                     answers([witness, 'oracle'], [one[0] for one in asked]))
    return should


def vector_text(found, should):
    head = f'# {found.about}\n# conformance/make.py makes this file; conformance/README.md has its form.\n'
    blocks = [f'{number} {rule} {text}\n> {line}\n< {answer}\n' for number, ((rule, text, line), answer) in enumerate(zip(found.calls, should), 1)]
    return head + '\n' + '\n'.join(blocks)


def proved_tables():
    """The sixteen tables out of the constants of crates/sharp_gamma, by name; a gamma table stands there by its first indices."""
    tables = {}
    for rounding in run.ROUNDINGS:
        text = (ROOT / 'crates' / 'sharp_gamma' / 'src' / f'{rounding}.rt').read_text()
        for name, body in re.findall(r'pub const (\w+): \[u16; 256\] = \[(.*?)\];', text, re.DOTALL):
            transfer, kind = name.lower().split('_', 1)
            entries = [int(number) for number in re.findall(r'\d+', body)]
            if kind == 'first_index':
                kind = 'gamma'
                entries = spread(entries)
            tables[f'{transfer}-{rounding}-{kind}'] = entries
    return tables


def spread(first):
    """A gamma table by the first index of each entry."""
    table, m = [], 0
    for i in range(65536):
        while m < 255 and first[m + 1] <= i:
            m += 1
        table.append(m)
    return table


def table_files(witness, confirmed):
    tables = proved_tables()
    lines = [f'{kind} {transfer} {rounding}' for rounding in range(2) for transfer in range(4) for kind in ('linear', 'gamma')]
    told = answers([witness, 'model'], lines)
    files = {}
    for line, by_model in zip(lines, told):
        kind, transfer, rounding = line.split(' ')
        name = f'{run.TRANSFERS[int(transfer)]}-{run.ROUNDINGS[int(rounding)]}-{kind}'
        entries = tables[name]
        by_rules = (rules.LINEAR if kind == 'linear' else rules.GAMMA)[cases.TRANSFERS[int(transfer)], cases.ROUNDINGS[int(rounding)]]
        if list(map(str, entries)) != by_model.split(' ') or entries != by_rules:
            fail(f'{name}: the proved constants, the model and the reading of the rules differ')
        confirmed['model'] += 1
        confirmed['reading'] += 1
        files[HERE / 'tables' / f'{name}.txt'] = '\n'.join(' '.join(map(str, entries[at:at + 16])) for at in range(0, len(entries), 16)) + '\n'
    return files


def answer_number(answer):
    """The number of an answer; of a reply what it says."""
    words = answer.split(' ')
    if len(words) == 1:
        reply = bytes.fromhex(words[0].replace('-', ''))
        return int(reply.split()[1]) if reply.startswith(b'refused ') else 0
    return int(words[0])


def manifest(lists, tables, confirmed):
    """The files with their counts, and the rules with theirs."""
    lines = ['# What is in the conformance vectors: made by conformance/make.py, which also says whether the files are what it makes.',
             '# file: path, bytes, SHA-256; how many vectors, and of these how many are accepted and how many refused with each number.']
    of_rule = Counter()
    total = 0
    for path, (found, should) in lists.items():
        numbers = Counter(map(answer_number, should))
        refused = ', '.join(f'{number}: {count}' for number, count in sorted(numbers.items()) if number)
        text = found.text
        counts = f'{len(should)} vectors, {numbers[0]} accepted' + (f', refused {refused}' if refused else '')
        lines.append(f'file {path.relative_to(HERE)} {len(text.encode())} {hashlib.sha256(text.encode()).hexdigest()} {counts}')
        of_rule.update(rule for rule, _, _ in found.calls)
        total += len(should)
    for path, text in tables.items():
        lines.append(f'file {path.relative_to(HERE)} {len(text.encode())} {hashlib.sha256(text.encode()).hexdigest()} {len(text.split())} entries')
        of_rule['3.4' if 'linear' in path.name else '3.5'] += 1
    stored = list(run.counts_vectors())
    counts = run.COUNTS.read_text()
    digest = hashlib.sha256(counts.encode()).hexdigest()
    lines.append(f'file {run.COUNTS.name} {len(counts.encode())} {digest} {len(stored)} requests (tools/counts.py makes them)')
    of_rule['9.4'] += len(stored)
    every = total + len(tables) + len(stored)
    lines += ['', f'all: {every} vectors: {total} with a call in a line, {len(tables)} tables, {len(stored)} requests for counts',
              f'answers that were held to the model: {confirmed["model"]}, to the oracle: {confirmed["oracle"]}, to the reading of the rules in '
              f'tools/rules_examples.py: {confirmed["reading"]}, to the program frame: {confirmed["program"]}',
              '', '# rule: number, vectors that stand under it, title']
    for number, title in re.findall(r'^\*\*(\d+\.\d+) ([^*]+?)\.?\*\*', rules.TEXT, re.MULTILINE):
        why = f'; none, since {WITHOUT[number]}' if number in WITHOUT else ''
        if not of_rule[number] and not why:
            fail(f'no vector stands under rule {number}')
        lines.append(f'rule {number} {of_rule[number]} {title}{why}')
    return '\n'.join(lines) + '\n'


def made(rust):
    library, witness, confirmed = library_program(), witness_program(rust), Counter()
    lists = {}
    for found in cases.all_lists():
        should = answered(found, library, witness, confirmed)
        found.text = vector_text(found, should)
        lists[HERE / 'vectors' / f'{found.name}.txt'] = found, should
        print(f'{found.name}: {len(should)} vectors, {len(found.text)} bytes', flush=True)
    tables = table_files(witness, confirmed)
    files = {path: found.text for path, (found, _) in lists.items()}
    files.update(tables)
    files[HERE / 'manifest.txt'] = manifest(lists, tables, confirmed)
    return files


def main():
    if len(sys.argv) not in (2, 3) or sys.argv[1].startswith('-') or sys.argv[2:] not in ([], ['--check']):
        sys.exit(__doc__)
    files = made(sys.argv[1])
    if sys.argv[2:]:
        other = [path for path, text in files.items() if not path.exists() or path.read_bytes() != text.encode()]
        there = {*(HERE / 'vectors').glob('*'), *(HERE / 'tables').glob('*')}
        for path in other:
            print(f'{path.relative_to(ROOT)} is not what conformance/make.py makes')
        for path in sorted(there - set(files)):
            print(f'{path.relative_to(ROOT)} is none of the files that conformance/make.py makes')
        sys.exit(1 if other or there - set(files) else 0)
    for path, text in files.items():
        path.parent.mkdir(exist_ok=True)
        path.write_bytes(text.encode())


if __name__ == '__main__':
    main()
