#!/usr/bin/env python3
"""Make the declarations of the exported functions: in include/segvartin.h between its two marks, and rust/src/ffi.rs.

They are read out of crates/segvartin_c/src, so that C and Rust call what is there.

    tools/declarations.py                     write both
    tools/declarations.py --check [ARCHIVE]   say what differs from the files, and fail if anything does; of an
                                              archive also, that it defines these functions and no other

--check also holds the codes of settings, the numbers of refusals, the most pixels a side, the most frames of a
convoy, the cameras of a desk, the most records of a shift file and the bytes of a summary's entry, as the header and
the Rust crate name them, to the library's.
"""
import difflib
import re
import subprocess
import sys
from pathlib import Path

ROOT = Path(__file__).resolve().parent.parent
SOURCES = ROOT / 'crates' / 'segvartin_c' / 'src'
HEADER = ROOT / 'include' / 'segvartin.h'
FFI = ROOT / 'rust' / 'src' / 'ffi.rs'

SETTINGS = ROOT / 'rust' / 'src' / 'settings.rs'
ERRORS = ROOT / 'rust' / 'src' / 'error.rs'
SUMMARIES = ROOT / 'rust' / 'src' / 'summary.rs'
CONVOYS = ROOT / 'rust' / 'src' / 'convoy.rs'
DESKS = ROOT / 'rust' / 'src' / 'desk.rs'

# The header's names of refusals, by the library's; those of settings are the library's in capitals.
REFUSALS = {
    'MalformedShiftFile': 'MALFORMED_SHIFT_FILE', 'OutputTooShort': 'OUTPUT_TOO_SHORT', 'SummaryMismatch': 'SUMMARY_MISMATCH',
    'MalformedY4m': 'MALFORMED_Y4M', 'CameraMismatch': 'CAMERA_MISMATCH', 'BandStillWaiting': 'BAND_STILL_WAITING',
    'CameraInUse': 'CAMERA_IN_USE', 'PartsMismatch': 'PARTS_MISMATCH', 'SettingsRecorded': 'SETTINGS_RECORDED',
    'MalformedRequest': 'MALFORMED_REQUEST', 'ZeroBaseSize': 'ZERO_BASE_SIZE', 'SizeTooLarge': 'SIZE_TOO_LARGE',
    'MatrixNotAccepted': 'MATRIX_NOT_ACCEPTED', 'WindowOutsideSource': 'WINDOW_OUTSIDE_SOURCE',
    'BandRowsMismatch': 'BAND_ROWS_MISMATCH',
    'DestinationSizeMismatch': 'SOURCE_SIZE_MISMATCH', 'MinimumStrideSizeMismatch': 'SOURCE_STRIDE_MISMATCH',
    'LumaPlaneMinimumSizeMismatch': 'Y_STRIDE_MISMATCH', 'LumaPlaneSizeMismatch': 'Y_SIZE_MISMATCH',
    'UPlaneMinimumSizeMismatch': 'U_MISMATCH', 'VPlaneMinimumSizeMismatch': 'V_MISMATCH',
    'WholeRowsMismatch': 'WHOLE_ROWS_MISMATCH', 'CarriedRowSizeMismatch': 'CARRIED_ROW_MISMATCH',
}

BEGIN = '/* Made by tools/declarations.py from the library\'s source: change that, and run it. */\n'
END = '/* End of what tools/declarations.py makes. */\n'
FFI_HEADER = '''\
//! The exported functions, as include/segvartin.h says them.
// Made by tools/declarations.py from the library's source: change that, and run it.

'''

C_TYPES = {'u8': 'uint8_t', 'u16': 'uint16_t', 'u32': 'uint32_t', 'u64': 'uint64_t', 'usize': 'size_t', 'f32': 'float', 'f64': 'double'}
C_WIDTH = 140
RUST_WIDTH = 100

EXPORT = re.compile(r'#\[unsafe\(no_mangle\)\]\s*pub extern "C" fn (\w+)\(([^)]*)\)\s*->\s*(\w+)')
PARAMETER = re.compile(r'(?P<name>\w+): (?P<lent>&(?P<mut>mut )?)?'
                       r'(?P<bracket>\[)?(?P<type>\w+)(?:; (?P<count>\d+))?(?(bracket)\])')


def element(name):
    """The C type of a number's type."""
    if name not in C_TYPES:
        sys.exit(f'tools/declarations.py: no C type for {name}')
    return C_TYPES[name]


def parameters(function, text):
    """Each parameter as a match of PARAMETER."""
    found = []
    for part in filter(None, (part.strip() for part in text.split(','))):
        match = PARAMETER.fullmatch(part)
        if not match or (match['bracket'] and not match['lent']) or (match['count'] and not match['bracket']):
            sys.exit(f'tools/declarations.py: {function}: cannot read the parameter {part}')
        found.append(match)
    return found


def exports():
    """Name, parameters and result of every exported function, in the source's order."""
    text = ''.join(path.read_text() for path in sorted(SOURCES.glob('*.rt')))
    text = re.sub(r'//.*', '', text)
    found = [(name, parameters(name, given), result) for name, given, result in EXPORT.findall(text)]
    # An export that is written in a way EXPORT does not see must not go missing.
    if not found or len(found) != len(re.findall(r'\bno_mangle\b', text)) or len(found) != len(re.findall(r'\bextern "C" fn\b', text)):
        sys.exit(f'tools/declarations.py: {SOURCES}: not every exported function could be read')
    return found


def c_parameters(p):
    """A slice is a pointer and its length; an array by reference says its length in the brackets."""
    name, type_ = p['name'], element(p['type'])
    if not p['lent']:
        return [f'{type_} {name}']
    lent = type_ if p['mut'] else f'const {type_}'
    if p['count']:
        return [f'{lent} {name}[{p["count"]}]']
    if p['bracket']:
        return [f'{lent} *{name}', f'size_t {name}_len']
    return [f'{lent} *{name}']


def rust_parameters(p):
    name, type_ = p['name'], p['type']
    if not p['bracket'] or p['count']:
        return [p[0]]
    return [f'{name}: *{"mut" if p["mut"] else "const"} {type_}', f'{name}_len: usize']


def c_declaration(name, given, result):
    """Filled lines, those after the first below the first parameter."""
    head = f'{element(result)} {name}('
    lines, line = [], head
    words = [word for p in given for word in c_parameters(p)]
    for i, word in enumerate(words):
        word += ');' if i == len(words) - 1 else ','
        if line == head:
            line += word
        elif len(line) + 1 + len(word) <= C_WIDTH:
            line += ' ' + word
        else:
            lines.append(line)
            line = ' ' * len(head) + word
    return '\n'.join(lines + [line]) + '\n'


def rust_declaration(name, given, result):
    """As rustfmt lays it out."""
    words = [word for p in given for word in rust_parameters(p)]
    line = f'    pub(crate) fn {name}({", ".join(words)}) -> {result};\n'
    if len(line) <= RUST_WIDTH:
        return line
    return f'    pub(crate) fn {name}(\n' + ''.join(f'        {word},\n' for word in words) + f'    ) -> {result};\n'


def header_text(functions):
    before, begin, rest = HEADER.read_text().partition(BEGIN)
    _, end, after = rest.partition(END)
    if not begin or not end:
        sys.exit(f'tools/declarations.py: {HEADER}: a mark is missing')
    return before + BEGIN + '\n'.join(c_declaration(*f) for f in functions) + END + after


def ffi_text(functions):
    return FFI_HEADER + 'unsafe extern "C" {\n' + '\n'.join(rust_declaration(*f) for f in functions) + '}\n'


def archive_differs(functions, archive):
    """Whether the archive's global names are other than the functions'."""
    told = subprocess.run(['nm', '--defined-only', '--extern-only', '--format=posix', archive], check=True, capture_output=True, text=True)
    defined = sorted(line.split()[0] for line in told.stdout.splitlines() if len(line.split()) > 1)
    declared = sorted(name for name, _, _ in functions)
    if defined == declared:
        return False
    print(f'{archive} defines {defined}, declared are {declared}')
    return True


def named_numbers():
    """The library's codes and numbers by name: those of settings, and those of refusals."""
    codes = ''.join((ROOT / 'crates' / crate / 'src' / 'codes.rt').read_text() for crate in ('yuv_support', 'sharp_gamma'))
    settings = {f'{kind}::{name}': int(code) for code, kind, name in re.findall(r'(\d+) => Ok\((\w+)::(\w+)\),', codes)}
    custom = re.search(r'const CUSTOM: u32 = (\d+);', (ROOT / 'crates' / 'call_numbers' / 'src' / 'lib.rt').read_text())
    settings['YuvStandardMatrix::Custom'] = int(custom[1])
    answers = (ROOT / 'crates' / 'error_numbers' / 'src' / 'lib.rt').read_text()
    refusals = {name: int(number) for name, number in re.findall(r'YuvError::(\w+)(?:\(size\))? => AnswerNumbers \{ number: (\d+)', answers)}
    if len(settings) != 21 or refusals.keys() != REFUSALS.keys():
        sys.exit('tools/declarations.py: not every code or refusal of the library could be read')
    return settings, refusals


def names_differ():
    """Whether the header or the Rust crate has another number for a name, or another name."""
    settings, refusals = named_numbers()
    side = re.search(r'const MAX_SIDE: u32 = (\d+);', (ROOT / 'crates' / 'yuv_error' / 'src' / 'lib.rt').read_text())[1]
    convoy = re.search(r'const MAX_FRAMES: usize = (\d+);', (ROOT / 'crates' / 'convoy_parts' / 'src' / 'lib.rt').read_text())[1]
    cameras = re.search(r'pub places: \[Slot; (\d+)\]', (ROOT / 'crates' / 'desk' / 'src' / 'lib.rt').read_text())[1]
    records = re.search(r'const MOST_RECORDS: u32 = (\d+);', (ROOT / 'crates' / 'shift_file' / 'src' / 'lib.rt').read_text())[1]
    entry = re.search(r'const ENTRY: usize = (\d+);', (ROOT / 'crates' / 'summary_entry' / 'src' / 'lib.rt').read_text())[1]
    header = HEADER.read_text()
    ours = {name.split('::')[1].upper(): code for name, code in settings.items()} | {REFUSALS[name]: number for name, number in refusals.items()}
    ours |= {'FINISHED': 0, 'MAX_SIDE': int(side), 'MAX_CONVOY': int(convoy), 'MAX_RECORDS': int(records), 'SUMMARY_ENTRY': int(entry)}
    ours |= {'CAMERAS': int(cameras)}
    theirs = {name: int(number) for name, number in re.findall(r'\bSEGVARTIN_(\w+) = (\d+)', header)}
    theirs |= {name: int(number) for name, number in re.findall(r'#define SEGVARTIN_(MAX_\w+|SUMMARY_ENTRY|CAMERAS) (\d+)', header)}
    rust = {name: int(code) for name, code in re.findall(r'(\w+::\w+)(?:\(\.\.\))? => (\d+),', SETTINGS.read_text())}
    errors = ERRORS.read_text()
    numbers = {name: int(number) for name, number in re.findall(r'YuvError::(\w+)(?:\(_\))? => (\d+),', errors)}
    back = {name: int(number) for number, name in re.findall(r'(\d+) => YuvError::(\w+)', errors)}
    bytes_ = {'SUMMARY_ENTRY': int(re.search(r'const SUMMARY_ENTRY: usize = (\d+);', SUMMARIES.read_text())[1])}
    frames = {'MAX_CONVOY': int(re.search(r'const MAX_CONVOY: usize = (\d+);', CONVOYS.read_text())[1])}
    desk = {'CAMERAS': int(re.search(r'const CAMERAS: u32 = (\d+);', DESKS.read_text())[1])}
    differ = False
    for where, said, right in (
        (HEADER, theirs, ours), (SETTINGS, rust, settings), (ERRORS, numbers, refusals),
        (ERRORS, back, {name: number for name, number in refusals.items() if number != 1}), (SUMMARIES, bytes_, {'SUMMARY_ENTRY': int(entry)}),
        (CONVOYS, frames, {'MAX_CONVOY': int(convoy)}), (DESKS, desk, {'CAMERAS': int(cameras)}),
    ):
        for name in sorted(said.keys() | right.keys()):
            if said.get(name) != right.get(name):
                print(f'{where}: {name} is {said.get(name)}, and {right.get(name)} in the library')
                differ = True
    return differ


def main(words):
    checking = words[:1] == ['--check']
    if len(words) > (2 if checking else 0):
        sys.exit(__doc__)
    functions = exports()
    differs = False
    for path, text in ((HEADER, header_text(functions)), (FFI, ffi_text(functions))):
        if not checking:
            path.write_text(text)
        elif path.read_text() != text:
            differs = True
            sys.stdout.writelines(difflib.unified_diff(path.read_text().splitlines(True), text.splitlines(True), str(path), 'made'))
    if checking:
        differs = names_differ() or differs
    if checking and len(words) == 2:
        differs = archive_differs(functions, words[1]) or differs
    if differs:
        sys.exit('tools/declarations.py: the declarations are not those of the library')


main(sys.argv[1:])
