#!/usr/bin/env python3
"""Makes docs/terminal.svg: a terminal in which the program `segvartin` is used.

    tools/terminal.py PROGRAM             write it
    tools/terminal.py --check PROGRAM     fail if the file is not what this makes

The commands below are run by bash, each in a pseudo terminal of 100 columns, in a folder of their own that has the sample frame as sample.ppm; what
they print is drawn as text. Nothing of it depends on the time or on the folder. Plain Python, no packages.
"""
import fcntl
import os
import pty
import re
import struct
import subprocess
import sys
import tempfile
import termios
from pathlib import Path
from xml.sax.saxutils import escape

ROOT = Path(__file__).resolve().parent.parent
PICTURE = ROOT / 'docs' / 'terminal.svg'
COLUMNS, ROWS = 100, 40

COMMANDS = [
    'segvartin convert sample.ppm -o sample.y4m',
    'segvartin digest sample.ppm sample.y4m',
    'segvartin shift append day.shift sample.ppm --crossing 1400',
    'segvartin shift append day.shift sample.ppm --crossing 1401 --sampling 422 --matrix bt709',
    'segvartin shift list day.shift',
    'cp day.shift theirs.shift',
    "printf '\\0' | dd of=theirs.shift bs=1 seek=5000 conv=notrunc status=none",
    'segvartin compare day.shift theirs.shift',
    'head -c 9000 sample.ppm > rear.raw',
    'segvartin convert rear.raw --size 64x48 -o rear.yuv',
]

# The picture, in units of a pixel
CELL, LINE, SIZE, MARGIN = 8, 19, 13, 16
PAPER, TEXT, PROMPT = '#16181d', '#d6dae2', '#7fb069'


def run(command, folder, path):
    """What a command writes to a terminal, standard output and standard error as they come."""
    main, other = pty.openpty()
    fcntl.ioctl(other, termios.TIOCSWINSZ, struct.pack('HHHH', ROWS, COLUMNS, 0, 0))
    env = {'PATH': f'{path}:/usr/bin:/bin', 'TERM': 'xterm', 'LC_ALL': 'C.UTF-8', 'HOME': str(folder)}
    child = subprocess.Popen(['bash', '-c', command], cwd=folder, env=env, stdin=other, stdout=other, stderr=other, start_new_session=True)
    os.close(other)
    text = b''
    while True:
        try:
            piece = os.read(main, 65536)
        except OSError:  # the other side is closed
            break
        if not piece:
            break
        text += piece
    os.close(main)
    child.wait()
    return text.decode()


def lines_of(text):
    """The lines that a terminal of 100 columns shows."""
    text = re.sub(r'\x1b\[[0-9;]*[A-Za-z]', '', text).replace('\r\n', '\n')
    if '\r' in text or '\x1b' in text:
        sys.exit(f'tools/terminal.py: the text has more than lines: {text!r}')
    lines = text.split('\n')
    if lines[-1] == '':
        lines.pop()
    return [line[at:at + COLUMNS] for line in lines for at in range(0, max(len(line), 1), COLUMNS)]


def session(program):
    """Lines, and whether each is a command's."""
    with tempfile.TemporaryDirectory() as folder:
        path = Path(folder, 'bin')
        path.mkdir()
        (path / 'segvartin').symlink_to(Path(program).resolve())
        work = Path(folder, 'work')
        work.mkdir()
        (work / 'sample.ppm').write_bytes((ROOT / 'examples' / 'sample.ppm').read_bytes())
        shown = []
        for command in COMMANDS:
            shown += [(line, True) for line in lines_of(f'$ {command}')]
            shown += [(line, False) for line in lines_of(run(command, work, path))]
        return shown


def drawn(x, y, text, colour):
    """A text that takes its columns in any font."""
    start = len(text) - len(text.lstrip(' '))
    text = text.strip(' ')
    length = f'textLength="{CELL * len(text)}" lengthAdjust="spacingAndGlyphs"'
    return f'<text x="{x + CELL * start}" y="{y}" fill="{colour}" {length}>{escape(text)}</text>'


def picture(program):
    shown = session(program)
    width, height = 2 * MARGIN + CELL * COLUMNS, 2 * MARGIN + LINE * len(shown)
    lines = [
        f'<svg xmlns="http://www.w3.org/2000/svg" viewBox="0 0 {width} {height}" width="{width}" height="{height}" '
        f'font-family="ui-monospace, Menlo, Consolas, \'DejaVu Sans Mono\', monospace" font-size="{SIZE}" xml:space="preserve">',
        '<!-- Made by tools/terminal.py. -->',
        '<title>segvartin in a terminal</title>',
        f'<rect width="{width}" height="{height}" rx="8" fill="{PAPER}"/>',
    ]
    for row, (text, command) in enumerate(shown):
        if text.strip():
            lines.append(drawn(MARGIN, MARGIN + LINE * row + 14, text, PROMPT if command else TEXT))
    return '\n'.join(lines + ['</svg>', ''])


def main():
    words = [word for word in sys.argv[1:] if word != '--check']
    checking = len(words) < len(sys.argv) - 1
    if len(words) != 1:
        sys.exit(__doc__)
    if not checking:
        PICTURE.write_text(picture(words[0]))
    elif not PICTURE.exists() or PICTURE.read_text() != picture(words[0]):
        sys.exit('docs/terminal.svg is not what tools/terminal.py makes with this program')


main()
