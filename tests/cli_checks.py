"""What the tests of the program `segvartin` share: runs of it, checks that are counted, and its errors and refusals as notes of them say them."""
import json
import os
import subprocess
import sys
from collections import namedtuple
from pathlib import Path

sys.dont_write_bytecode = True
import files

ROOT = Path(__file__).resolve().parent.parent
LIMIT = 120  # seconds after which a run is ended

# Set by tests/cli.py: the program, a folder for files, the folder of the program `frame`, and what was asked for.
given = {'program': None, 'folder': None, 'programs': None, 'large': False, 'strict': False}
told = {'checks': 0, 'failed': 0, 'left out': 0}

Run = namedtuple('Run', 'out err status')


# ---- checks

def shown(value):
    text = repr(value)
    return text if len(text) <= 400 else f'{text[:300]} .. {text[-80:]} ({len(value) if hasattr(value, "__len__") else len(text)} long)'


def check(name, received, expected):
    """Counts a check; where it fails, says what was expected and what was received, and goes on."""
    told['checks'] += 1
    if received == expected:
        return True
    told['failed'] += 1
    print(f'tests/cli.py: {name}\n    expected {shown(expected)}\n    received {shown(received)}', flush=True)
    return False


def holds(name, condition, received):
    """The same where what is expected is said by the name alone."""
    return check(name, received if not condition else True, True)


def left_out(what, why):
    told['left out'] += 1
    print(f'tests/cli.py: LEFT OUT: {what}: {why}', flush=True)
    if given['strict']:
        check(f'{what}, with --strict', why, 'here')


# ---- runs

def path(name):
    return given['folder'] / name


def write(name, data):
    place = path(name)
    place.write_bytes(data)
    return place


def fresh(*names):
    """Paths in the folder where nothing stands."""
    for name in names:
        path(name).unlink(missing_ok=True)
    places = [path(name) for name in names]
    return places[0] if len(places) == 1 else places


def run(*words, feed=None, program=None, **more):
    """The program on these words; `feed` are bytes for its standard input, which else is /dev/null."""
    more.setdefault('stdout', subprocess.PIPE)
    more.setdefault('stderr', subprocess.PIPE)
    if feed is None:
        more.setdefault('stdin', subprocess.DEVNULL)
    else:
        more['input'] = feed
    try:
        done = subprocess.run([program or given['program'], *words], timeout=LIMIT, **more)
    except subprocess.TimeoutExpired:
        return Run(b'', f'no end after {LIMIT} seconds'.encode(), None)
    return Run(done.stdout or b'', done.stderr or b'', done.returncode)


def parts(folder=None):
    """Files that an output was written to and that should be gone, or have another name."""
    return sorted(one.name for one in (folder or given['folder']).iterdir() if one.name.endswith('.part'))


def does(name, *words, out=b'', status=0, **more):
    """A run that does its work and says nothing on standard error."""
    done = run(*words, **more)
    check(name, done, Run(out, b'', status))
    return done


def makes(name, output, data, *words, out=b'', **more):
    """A run that leaves exactly these bytes in a file."""
    done = run(*words, **more)
    if check(f'{name}: the run', done, Run(out, b'', 0)):
        check(f'{name}: the file', output.read_bytes() if output.exists() else None, data)
    check(f'{name}: no file left over', parts(output.parent), [])


def parsed(name, text):
    """The value of a text in JSON, of one line."""
    try:
        value = json.loads(text)
    except ValueError:
        check(f'{name}: JSON', text, 'JSON')
        return None
    check(f'{name}: one line', text.count(b'\n'), 1)
    return value


# ---- errors: standard error has two lines: one that begins with the program's name and its subcommand, and what to try

# Each refusal's words
REFUSALS = {
    15: 'the layout of a shift file is broken',
    17: "the summary is too short, or not the shift file's",
    19: 'the text or the planes of a Y4M file break its rules',
    2: 'width or height is 0',
    3: 'width or height, of the frame or of its source, is above 16384',
    4: 'kr or kb is not from 0 to 0.5',
    14: 'the window ends outside the large source',
    6: 'the source is too short',
    7: "the source's stride is below its row",
    12: 'a buffer is not exactly its rows long',
    20: 'a record has settings that the other form would lose',
}

SUBCOMMANDS = ['convert', 'digest', 'shift list', 'shift append', 'shift find', 'shift summary', 'shift move', 'compare', 'rules check']


def subcommand(words):
    """The subcommand that words begin with, or none."""
    texts = [word for word in words[:2] if isinstance(word, str)]
    return next((name for name in SUBCOMMANDS if ' '.join(texts).startswith(name)), '')


def state(keeps):
    return {one: one.read_bytes() if one.exists() else None for one in keeps}


def fails(name, *words, says=(), number=None, expected=None, received=None, file=None, keeps=(), as_json=True, **more):
    """A run that ends with 2, prints nothing, changes none of the files `keeps` and leaves none over; its text has each of `says`. A refusal
    has a number, and what was expected and received. Run again with --json, where that may be, it says the same there."""
    before, command = state(keeps), subcommand(words)
    done = run(*words, **more)
    check(f'{name}: status and standard output', (done.out, done.status), (b'', 2))
    text = done.err.decode('utf-8', 'surrogateescape')
    lines = text.splitlines()
    start = f'segvartin {command}: ' if command else 'segvartin'
    holds(f'{name}: a line that begins with {start!r}', bool(lines) and lines[0].startswith(start), text)
    holds(f'{name}: a second line that says what to try', len(lines) == 2 and lines[1].startswith('  try: ') and len(lines[1]) > 8, text)
    if number is not None:
        end = f'refused {number}, {REFUSALS[number]}: expected {expected or 0}, received {received or 0}'
        holds(f'{name}: a first line that ends in {end!r}', bool(lines) and lines[0].endswith(end), text)
    else:
        holds(f'{name}: no refusal of the library', 'refused' not in text, text)
    for said in says:
        holds(f'{name}: a text with {said!r}', said in text, text)
    if file is not None:
        holds(f'{name}: the file is named', os.fsdecode(file) in text, text)
    check(f'{name}: files are as before', state(keeps), before)
    check(f'{name}: no file left over', parts(), [])
    if as_json:
        fails_in_json(name, words, command, says, number, expected, received, file, more)
        check(f'{name}, --json: files are as before', state(keeps), before)
    return done


def fails_in_json(name, words, command, says, number, expected, received, file, more):
    at = words.index('--') if '--' in words else len(words)
    done = run(*words[:at], '--json', *words[at:], **more)
    check(f'{name}, --json: status and standard output', (done.out, done.status), (b'', 2))
    value = parsed(f'{name}, --json', done.err)
    error = value.get('error') if isinstance(value, dict) else None
    if not holds(f'{name}, --json: an error', isinstance(error, dict), value):
        return
    check(f'{name}, --json: its fields', sorted(error), ['command', 'expected', 'file', 'message', 'number', 'received', 'try'])
    if command:
        check(f'{name}, --json: its command', error.get('command'), command)
    check(f'{name}, --json: its number', error.get('number'), number)
    if number is None:
        holds(f'{name}, --json: a message', isinstance(error.get('message'), str) and error['message'] != '', error)
    else:
        check(f'{name}, --json: its message', error.get('message'), REFUSALS[number])
    if number is not None or expected is not None:
        check(f'{name}, --json: expected and received', (error.get('expected'), error.get('received')), (expected or 0, received or 0))
    holds(f'{name}, --json: what to try', isinstance(error.get('try'), str) and error['try'] != '', error)
    if file is not None:
        check(f'{name}, --json: its file', error.get('file'), str(file))


# ---- planes by the program `frame` (RULES 9)

def planes(w, h, rgb, sampling=0, range_=0, matrix=0, transfer=0):
    """The planes of a picture of at most 16,384 pixels."""
    head = w.to_bytes(2, 'little') + h.to_bytes(2, 'little') + bytes([0, sampling, range_, matrix, transfer])
    done = subprocess.run([given['programs'] / 'frame'], input=head + rgb, stdout=subprocess.PIPE, check=True, timeout=LIMIT)
    assert len(done.stdout) == files.picture_size(w, h, sampling), done.stdout
    return done.stdout


RANGES = ('limited', 'full')
MATRICES = ('bt601', 'bt709', 'bt2020', 'smpte240', 'bt470-6', 'fcc', 'custom')
TRANSFERS = ('srgb', 'rec709', 'gamma22', 'gamma28')
SAMPLINGS = ('420', '422')


def flags(sampling=0, range_=0, matrix=0, transfer=0):
    return ['--sampling', SAMPLINGS[sampling], '--range', RANGES[range_], '--matrix', MATRICES[matrix], '--transfer', TRANSFERS[transfer]]


def four_names(four):
    """A record's settings by the flags' names; None where one is not recorded."""
    return [None if code == files.NOT_RECORDED else names[code] for code, names in zip(four, (SAMPLINGS, RANGES, MATRICES, TRANSFERS))]


# ---- the vectors of conformance/

def vectors(name):
    """Number, text, words of the call and words of the answer of each vector."""
    for block in (ROOT / 'conformance' / 'vectors' / f'{name}.txt').read_text().split('\n\n'):
        lines = [line for line in block.split('\n') if line and not line.startswith('#')]
        if lines:
            yield f'{name} {lines[0]}', lines[1][2:].split(' '), lines[2][2:].split(' ')


def bytes_of(word):
    return bytes.fromhex(word.replace('-', ''))
