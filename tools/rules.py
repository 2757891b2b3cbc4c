#!/usr/bin/env python3
"""Hold the rules of docs/RULES.md and the definitions that cite them against each other.

A rule is a line of docs/RULES.md that starts with its number in bold, as **4.2. A citation is `RULES 4.2`, `RULES 4.2, 4.3`, `RULES 4.2 to 4.4`
or the like in a comment; it belongs to the definition that follows it or that it stands in, or to the file where it stands above the first `use`.

    tools/rules.py           list the rules, each with the definitions that cite it
    tools/rules.py --check   say which rules no definition cites, which citations name no rule, and which numbers stand twice; fail if any
"""
import re
import sys
from pathlib import Path

ROOT = Path(__file__).resolve().parent.parent
RULES = ROOT / 'docs' / 'RULES.md'
RULE = re.compile(r'^\*\*(\d+\.\d+) ([^*]*?)\.?\*\*', re.MULTILINE)
CITATION = re.compile(r'\bRULES(?:\.md,)? (\d+\.\d+(?:(?:,| and| to) \d+\.\d+)*)')
NUMBER = re.compile(r'\d+\.\d+')
DEFINITION = re.compile(r'^(?:(?:abbrev|unfoldable) )?pub (?!mod )(?:record |data )?([^\s:]+)')
# where rules may be named besides: such a citation must exist, and counts for no definition
ELSEWHERE = ['README.md', 'docs/**/*.md', 'vectors/*.md', 'include/*.h', 'rust/src/*.rs', 'rust/*.md', 'crates/*/src/*.rt', 'crates/*/proofs/**/*.antt', 'model/src/*.rs',
             'compare/src/*.rs', 'oracle/src/*.rs', 'conformance/*/*.[chm]*', 'tools/*.py']


def citations(path):
    """The numbers cited in a file of definitions, each with its line and the definition that it belongs to, '' for the file's own."""
    waiting, found, heading, name = [], [], True, ''
    for number, line in enumerate(path.read_text().splitlines(), 1):
        here = [(rule, number) for cited in CITATION.findall(line) for rule in NUMBER.findall(cited)]
        definition = DEFINITION.match(line)
        if definition or heading and line.startswith('use '):
            name, heading = definition.group(1) if definition else '', False
            found += [(rule, at, name) for rule, at in waiting + here]
            waiting = []
        elif line.startswith(' '):
            found += [(rule, at, name) for rule, at in here]
        else:
            waiting += here
    return found + [(rule, at, '') for rule, at in waiting]


def main():
    if sys.argv[1:] not in ([], ['--check']):
        sys.exit(__doc__)
    rules = RULE.findall(RULES.read_text())
    numbers = [number for number, _ in rules]
    cited = {number: [] for number in numbers}
    faults = [f'rule {number} stands twice' for number in sorted(set(numbers)) if numbers.count(number) > 1]
    for path in sorted(ROOT.glob('crates/*/specs/**/*.antt')):
        name = path.relative_to(ROOT)
        for rule, line, definition in citations(path):
            if rule in cited:
                cited[rule].append(f'{name} {definition}'.strip())
            else:
                faults.append(f'{name}:{line}: there is no rule {rule}')
    for path in sorted({path for pattern in ELSEWHERE for path in ROOT.glob(pattern)}):
        for line, text in enumerate(path.read_text().splitlines(), 1):
            faults += [f'{path.relative_to(ROOT)}:{line}: there is no rule {rule}' for some in CITATION.findall(text) for rule in NUMBER.findall(some) if rule not in cited]
    if not sys.argv[1:]:
        for number, title in rules:
            print(f'{number} {title}')
            for definition in cited[number]:
                print(f'    {definition}')
    faults += [f'no definition cites rule {number}, {title}' for number, title in rules if not cited[number]]
    if faults:
        sys.exit('\n'.join(faults) if sys.argv[1:] else None)
    print(f'{len(rules)} rules, {sum(map(len, cited.values()))} citations')


main()
