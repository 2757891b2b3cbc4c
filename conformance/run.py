#!/usr/bin/env python3
"""Hold a program to the conformance vectors, and say by rule of docs/RULES.md what it breaks.

    conformance/run.py --request COMMAND     a program that reads one request and writes its reply (RULES 9.1 to 9.3), like `frame`
    conformance/run.py --lines COMMAND       a program that takes calls in lines (conformance/README.md)
    conformance/run.py --counts COMMAND      a program that reads a range and a matrix (RULES 9.4), like `luma_counts`

Each can be given, alone or with the others. COMMAND is a program and its arguments, in one word, quoted as for a shell.

    --only NAME,..   of the files with vectors these alone: requests, frames, large, bands, states, counts, tables, shift, summaries, pairs,
                     y4m, convoys
    --wrong N        how many wrong answers are shown in full (5)
    --patience N     seconds that one run of a program may take (600); after two that take longer it is not run again

Exit status 0: all that the program offers is as it must be, and that is something; 1: not so; 2: nothing could be judged. A kind of line that it
answers anywhere it offers: `not offered` to another of that kind is wrong. So is the answer after which it writes more lines than it was asked for, or
is ended by a signal. It needs Python alone, and the files beside it.
"""
import functools
import hashlib
import itertools
import shlex
import subprocess
import sys
import tempfile
from collections import namedtuple
from pathlib import Path

HERE = Path(__file__).resolve().parent
FILES = ['requests', 'frames', 'large', 'bands', 'states', 'counts', 'tables', 'shift', 'summaries', 'pairs', 'y4m', 'convoys']
COUNTS = HERE / 'luma_counts.txt'  # requests to the program of RULES 9.4
NOT_OFFERED = 'not offered'
PATIENCE = 3600  # seconds for one run of a program, where a script here runs it
MOST_TIMEOUTS = 2  # runs that may take too long
RESTARTS = 20  # lines that may end a program

Vector = namedtuple('Vector', 'file number rule text line answer')
Wrong = namedtuple('Wrong', 'vector rule what got')

PLANE_BYTE = 'ee'  # README.md: what the planes of a large frame have before the call
TRANSFERS = ['srgb', 'rec709', 'gamma2p2', 'gamma2p8']
ROUNDINGS = ['truncated', 'nearest']


def stop(why):
    """Nothing could be judged."""
    print(why, file=sys.stderr)
    sys.exit(2)


# ---- the files

def blocks(text):
    """The vectors of a file's text: head, call, answer."""
    for block in text.split('\n\n'):
        lines = [line for line in block.split('\n') if line and not line.startswith('#')]
        if lines:
            head, call, answer = lines
            assert call.startswith('> ') and answer.startswith('< '), head
            number, rule, what = head.split(' ', 2)
            yield int(number), rule, what, call[2:], answer[2:]


def table_vectors():
    """The sixteen tables, as the lines that ask for them."""
    number = 0
    for rounding, transfer, (rule, kind) in itertools.product(range(2), range(4), (('3.4', 'linear'), ('3.5', 'gamma'))):
        number += 1
        name = f'{TRANSFERS[transfer]}-{ROUNDINGS[rounding]}-{kind}'
        answer = ' '.join((HERE / 'tables' / f'{name}.txt').read_text().split())
        yield Vector('tables', number, rule, name, f'{kind} {transfer} {rounding}', answer)


def vectors(name):
    if name == 'tables':
        return list(table_vectors())
    return [Vector(name, *block) for block in blocks((HERE / 'vectors' / f'{name}.txt').read_text())]


def titles():
    """The rules by number, with their titles, out of the manifest."""
    lines = (HERE / 'manifest.txt').read_text().splitlines()
    return {line.split(' ')[1]: line.split(' ', 3)[3] for line in lines if line.startswith('rule ')}


# ---- pixels of the large frames

@functools.lru_cache(maxsize=None)
def drawn(seed, count):
    """README.md: the bytes of a seed."""
    states = itertools.accumulate(itertools.repeat(None, count - 1), lambda s, _: (1664525 * s + 1013904223) & 0xffffffff,
                                  initial=(1664525 * seed + 1013904223) & 0xffffffff)
    return bytes(s >> 24 for s in states)


def expanded(line):
    """The line that a program is given: that of a large frame has its bytes written out."""
    if not line.startswith('seed '):
        return line
    _, seed, *call = line.split(' ')
    source, *planes = map(int, call[-4:])
    return ' '.join(call[:-4] + [drawn(int(seed), source).hex()] + [PLANE_BYTE * length for length in planes])


def digested(line, answer):
    """The answer as the vector has it: of a large frame the SHA-256 of each plane."""
    if not line.startswith('seed ') or answer == NOT_OFFERED:
        return answer
    words = answer.split(' ')
    try:
        return ' '.join(words[:3] + [hashlib.sha256(bytes.fromhex(word.replace('-', ''))).hexdigest() for word in words[3:]])
    except ValueError:
        return answer


# ---- programs

class Program:
    """A program and its arguments, run on bytes, for so many seconds at the most."""

    def __init__(self, words, patience):
        self.words, self.patience, self.timeouts = words, patience, 0

    def run(self, data):
        """What it writes, and whether it came to its end by itself; whatever it wrote, where it did not."""
        if self.timeouts >= MOST_TIMEOUTS:
            return b'', False
        with tempfile.TemporaryFile() as given, tempfile.TemporaryFile() as got:
            given.write(data)
            given.seek(0)
            try:
                ended = subprocess.run(self.words, stdin=given, stdout=got, stderr=subprocess.DEVNULL, timeout=self.patience).returncode >= 0
            except subprocess.TimeoutExpired:
                ended = False
                self.timeouts += 1
            except OSError as error:
                stop(f'cannot run {self.words[0]}: {error.strerror}')
            got.seek(0)
            return got.read(), ended


def program_of(command):
    return command if isinstance(command, Program) else Program(command, PATIENCE)


def answers_in_lines(command, lines):
    """The answer to each line; None where the program gave none. Where it ends early, answers that it had not yet written are lost with it: it is
    given fewer lines, until the one that ends it is found, and goes on behind that."""
    program, answers, size, ended = program_of(command), [], len(lines), 0
    while len(answers) < len(lines) and ended < RESTARTS and program.timeouts < MOST_TIMEOUTS:
        part = lines[len(answers):len(answers) + size]
        data, whole = program.run(''.join(line + '\n' for line in part).encode())
        text = data.decode('ascii', 'replace').split('\n')
        more = len(text) - 1 - len(part)
        told = text[:-1][:len(part)]
        if len(told) == len(part) and (more > 0 or not whole):
            told[-1] = f'{told[-1]} and {more} lines more' if more > 0 else None
        answers += told
        if len(told) == len(part):
            size *= 2
        elif len(part) > 1:
            size = max(1, (len(part) - len(told)) // 2)
        else:
            answers.append(None)
            ended += 1
    return answers + [None] * (len(lines) - len(answers))


def portions(given):
    """Large frames a few at a time, so that not all their bytes stand in memory at once."""
    step = 6 if given and given[0].file == 'large' else len(given)
    return [given[at:at + step] for at in range(0, len(given), max(step, 1))]


def of_lines(command):
    """Answers to vectors by a program that takes calls in lines."""
    program = program_of(command)

    def answers(given):
        for part in portions(given):
            for vector, answer in zip(part, answers_in_lines(program, [expanded(vector.line) for vector in part])):
                yield None if answer is None else digested(vector.line, answer)
    return answers


def of_requests(command):
    """Answers to requests by a program that takes one of them."""
    program = program_of(command)

    def answers(given):
        for vector in given:
            reply, whole = program.run(bytes.fromhex(vector.line.split(' ')[1].replace('-', '')))
            yield (reply.hex() or '-') if whole else None
    return answers


# ---- what is wrong with an answer

LENT = {'frame': ['Y', 'U', 'V'], 'band': ['Y', 'U', 'V', 'carried row']}


def differing(got, should):
    """The first place where two texts of bytes differ."""
    got, should = got.replace('-', ''), should.replace('-', '')
    return next((i // 2 for i, (a, b) in enumerate(zip(got, should)) if a != b), min(len(got), len(should)) // 2)


def byte_at(text, place):
    digits = text.replace('-', '')[2 * place:2 * place + 2]
    return str(int(digits, 16)) if digits else 'none'


def plane_fault(vector, words, plane, got, should):
    """Of a plane of a frame or band call that is not as it should be: the rule that is broken, and what is wrong."""
    if len(got) != len(should) or vector.line.startswith('seed '):
        return vector.rule, f'{"YUV"[plane]} is another' + (' length' if len(got) != len(should) else '')
    at = differing(got, should)
    w, stride = int(words[1]), int(words[10 + plane])
    row = w if plane == 0 else (w + 1) // 2
    place = f'{"YUV"[plane]} row {at // stride} column {at % stride}' if stride else f'{"YUV"[plane]} byte {at}'
    what = f'{place}: {byte_at(got, at)}, must be {byte_at(should, at)}'
    if stride and at % stride >= row:
        return '2.4', what + ', which is padding'
    return vector.rule, what


def is_convoy_padding(words, plane, at):
    """Whether byte `at` of a plane's buffer is padding of a frame of this convoy."""
    for start in range(6, len(words), 26):  # a description of 17 words, the stride, and offset and length of four parts
        frame = words[start:start + 26]
        offset, length = map(int, frame[20 + 2 * plane:22 + 2 * plane])
        w, stride = int(frame[0]), int(frame[9 + plane])
        if offset <= at < offset + length and stride:
            return (at - offset) % stride >= (w if plane == 0 else (w + 1) // 2)
    return False


def fault(vector, got):
    """The rule that a wrong answer breaks, and what is wrong with it."""
    if got is None:
        return vector.rule, 'no answer'
    try:
        return fault_of_words(vector, got)
    except (ValueError, IndexError):
        return vector.rule, 'the answer does not have the form of one'


def fault_of_words(vector, got):
    words, told, should = vector.line.split(' '), got.split(' '), vector.answer.split(' ')
    kind = words[0]
    if kind == 'seed':
        words = words[2:]
        kind = words[0]
    if len(told) != len(should):
        return vector.rule, f'{len(told)} words, must be {len(should)}'
    first = next(i for i, (a, b) in enumerate(zip(told, should)) if a != b)
    if kind in ('frame', 'band', 'bands'):
        start, step = (0, 6) if kind == 'frame' else (0, 8) if kind == 'band' else (4, 8)
        if first < start:
            return vector.rule, f'opening: {" ".join(told[:4])}, must be {" ".join(should[:4])}'
        call, part = divmod(first - start, step)
        at = start + call * step
        where = f'band {call + 1}: ' if kind == 'bands' else ''
        if part < 3:
            return vector.rule, f'{where}answer {" ".join(told[at:at + 3])}, must be {" ".join(should[at:at + 3])}'
        if kind != 'frame' and part == 3:
            return '8.5', f'{where}{told[first]} rows done, must be {should[first]}'
        plane = part - (3 if kind == 'frame' else 4)
        if should[at] != '0':
            return '7.2', f'{where}refused, and {"YUVC"[plane]} is written'
        if plane == 3:
            return '8.8', f'{where}carried row byte {differing(told[first], should[first])} is another'
        rule, what = plane_fault(vector, words, plane, told[first], should[first])
        return rule, where + what
    if kind == 'request':
        replies = [bytes.fromhex(word[0].replace('-', '')) for word in (told, should)]
        if any(reply.startswith(b'refused') for reply in replies):
            return vector.rule, ', must be '.join(repr(reply)[2:-1] if len(reply) < 20 else 'planes' for reply in replies)
        at = differing(told[0], should[0])
        return vector.rule, f'byte {at} of the reply: {byte_at(told[0], at)}, must be {byte_at(should[0], at)}'
    if kind in ('linear', 'gamma'):
        return vector.rule, f'entry {first}: {told[first]}, must be {should[first]}'
    if kind == 'counts' and first >= 3:
        return vector.rule, f'luma {first - 3}: {told[first]}, must be {should[first]}'
    if first < 3:
        return vector.rule, f'answer {" ".join(told[:3])}, must be {" ".join(should[:3])}'
    if kind == 'convoy' and first > 3:
        plane, at = first - 4, differing(told[first], should[first])
        what = f'byte {at} of {"YUV"[plane]}: {byte_at(told[first], at)}, must be {byte_at(should[first], at)}'
        if should[0] == '18':
            return '7.2', f'refused with 18, and {what}'
        return ('2.4', what + ', which is padding') if is_convoy_padding(words, plane, at) else (vector.rule, what)
    if kind in ('write', 'record', 'record-settings', 'move', 'build', 'update', 'y4m-write', 'y4m-picture') and first == len(should) - 1:
        if should[0] != '0':
            return '7.2', 'refused, and the output is written'
        at = differing(told[first], should[first])
        return vector.rule, f'byte {at} of the output: {byte_at(told[first], at)}, must be {byte_at(should[first], at)}'
    return vector.rule, f'word {first + 1} of the answer: {told[first]}, must be {should[first]}'


def kind_of(vector):
    words = vector.line.split(' ')
    return words[2] if words[0] == 'seed' else words[0]


def judged(given, answers, offered=frozenset()):
    """How many answers are right, how many calls are of a kind that is not offered, and those that are wrong."""
    right, missing, wrong = 0, 0, []
    for vector, got in zip(given, answers):
        if got == vector.answer:
            right += 1
        elif got == NOT_OFFERED and kind_of(vector) not in offered:
            missing += 1
        else:
            wrong.append(Wrong(vector, *fault(vector, got), got))
    return right, missing, wrong


def counts_vectors():
    """The requests of RULES 9.4: octal, as printf takes them, and the lines of the reply."""
    for number, part in enumerate(COUNTS.read_text().split('request ')[1:], 1):
        head, reply = part.split('\n', 1)
        codes = head.strip('"').split('\\')[1:]
        request = bytes(int(code, 8) for code in codes).hex() or '-'
        yield Vector('luma_counts', number, '9.4', f'request {head}', f'request {request}', reply.encode().hex())


# ---- the command

def by_number(rule):
    return [int(part) for part in rule.split('.')]


def report(wrong, asked):
    """The rules that are broken, with how many of their vectors say so; `asked` has the rule of each vector."""
    print('\nrules that are broken: of the vectors under each how many are wrong, and the first of them')
    names, shares = titles(), {}
    for rule in sorted({found.rule for found in wrong}, key=by_number):
        of_rule = [found for found in wrong if found.rule == rule]
        elsewhere = sum(found.vector.rule != rule for found in of_rule)  # told by the answer of another rule's vector
        count, total = len(of_rule) - elsewhere, asked.count(rule)
        shares[rule] = len(of_rule) / (total + elsewhere), len(of_rule)
        said = ([f'{count} of {total}'] if total else []) + ([f'{elsewhere} under other rules'] if elsewhere else [])
        vector = of_rule[0].vector
        print(f'  {rule} {names.get(rule, "")}: {" and ".join(said)}, {vector.file} {vector.number}: {of_rule[0].what}')
    first = sorted(shares, key=lambda rule: shares[rule], reverse=True)[:2]
    print('a mistake in one rule shows under others too; look first at ' + ', then at '.join(first) + ', where the largest share is wrong')


def arguments(words):
    options = {'--request': None, '--lines': None, '--counts': None, '--only': ','.join(FILES), '--wrong': '5', '--patience': '600'}
    if len(words) % 2 or any(word not in options for word in words[::2]):
        stop(__doc__)
    options.update(zip(words[::2], words[1::2]))
    if not any(options[name] for name in ('--request', '--lines', '--counts')):
        stop(__doc__)
    if not (options['--wrong'].isdigit() and options['--patience'].isdigit()):
        stop(__doc__)
    unknown = [name for name in options['--only'].split(',') if name not in FILES]
    if unknown:
        stop(f'no file with vectors is called {", ".join(unknown)}')
    return options


def main():
    options = arguments(sys.argv[1:])
    only = options['--only'].split(',')

    def program(name):
        try:
            words = shlex.split(options[name])
        except ValueError as error:
            stop(f'{name} {options[name]}: {error}')
        return Program(words, int(options['--patience'])) if words else stop(f'{name}: no program')

    jobs = []
    if options['--request'] and 'requests' in only:
        jobs.append(('requests', vectors('requests'), of_requests(program('--request'))))
    if options['--lines']:
        takes_lines = of_lines(program('--lines'))
        jobs += [(f'{name}, in lines', vectors(name), takes_lines) for name in FILES if name in only]
    if options['--counts']:
        jobs.append(('luma_counts', list(counts_vectors()), of_requests(program('--counts'))))
    if not jobs:
        stop('no program is given that takes these vectors')
    told = [list(answers(given)) for _, given, answers in jobs]
    offered = {kind_of(vector) for (_, given, _), answers in zip(jobs, told)
               for vector, got in zip(given, answers) if got not in (None, NOT_OFFERED)}
    wrong, right, missing = [], 0, 0
    for (name, given, _), answers in zip(jobs, told):
        passed, absent, faults = judged(given, answers, offered)
        print(f'{name}: {passed} of {len(given)} right' + (f', {absent} not offered' if absent else ''), flush=True)
        right, missing, wrong = right + passed, missing + absent, wrong + faults
    for found in wrong[:int(options['--wrong'])]:
        vector = found.vector
        print(f'\n{vector.file} {vector.number}, RULES {found.rule}: {vector.text}\n  {found.what}')
        for sign, text in (('>', vector.line), ('<', vector.answer), ('got', str(found.got))):
            print(f'  {sign} {text[:200]}' + (' ..' if len(text) > 200 else ''))
    if all(answer in (None, '-') for answers in told for answer in answers):
        print('\nno answer at all: the program ends before it has answered, or writes nothing')
    elif wrong:
        report(wrong, [vector.rule for _, given, _ in jobs for vector in given])
    print(f'\n{right} right, {len(wrong)} wrong' + (f', {missing} not offered' if missing else ''))
    sys.exit(1 if wrong or not right else 0)


if __name__ == '__main__':
    main()
