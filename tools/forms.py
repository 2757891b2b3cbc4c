#!/usr/bin/env python3
"""Counts the places in the crates' src/ that are written in an older language's forms, by the points of docs/DESIGN-PASS.md.

    tools/forms.py [--list] [FOLDER]

FOLDER is a checkout, this one where none is given. With --list each place is named. It reads the text of src/, and proves nothing: a place that
it counts may be right as it is, and docs/DESIGN-PASS.md says so of each that stays."""
import collections
import pathlib
import re
import sys

show_all = "--list" in sys.argv[1:]
given = [word for word in sys.argv[1:] if not word.startswith("--")]
root = pathlib.Path(given[0]) if given else pathlib.Path(__file__).resolve().parent.parent


def blank(text):
    """The text with comments and string literals blanked, each character in its place."""
    out, at = list(text), 0
    pattern = re.compile(r'//[^\n]*|b?"(?:\\.|[^"\\])*"|b?\'(?:\\.|[^\'\\\n])\'')
    for match in pattern.finditer(text):
        for k in range(match.start(), match.end()):
            if out[k] != "\n":
                out[k] = " "
    return "".join(out)


def closing(text, at):
    """The place after the bracket that closes the one at `at`."""
    pairs = {"(": ")", "{": "}", "[": "]"}
    shut, depth = pairs[text[at]], 0
    for k in range(at, len(text)):
        if text[k] == text[at]:
            depth += 1
        elif text[k] == shut:
            depth -= 1
            if depth == 0:
                return k + 1
    return len(text)


def parts(text):
    """What stands between commas that are in no bracket."""
    out, depth, last = [], 0, 0
    for k, letter in enumerate(text):
        if letter in "([{<":
            depth += 1
        elif letter in ")]}" or (letter == ">" and text[k - 1] not in "-="):
            depth -= 1
        elif letter == "," and depth == 0:
            out.append(text[last:k].strip())
            last = k + 1
    out.append(text[last:].strip())
    return [part for part in out if part]


Function = collections.namedtuple("Function", "crate name public parameters result clauses body line")
functions, texts = [], []
for path in sorted((root / "crates").glob("*/src/**/*.rt")):
    crate = path.relative_to(root / "crates").parts[0]
    raw = path.read_text()
    text = blank(raw)
    texts.append((crate, path, raw, text))
    for match in re.finditer(r"(pub )?(?:extern +\w* *)?(?:const )?fn (\w+)", text):
        at = match.end()
        if text[at] == "<":
            depth = 0
            while True:
                if text[at] == "<":
                    depth += 1
                elif text[at] == ">" and text[at - 1] != "-":
                    depth -= 1
                at += 1
                if depth == 0:
                    break
        if text[at] != "(":
            continue
        end = closing(text, at)
        parameters = parts(text[at + 1:end - 1])
        answer = re.match(r"\s*->\s*((?:\[[^\]]*\]|[^\[\n{;])*)", text[end:])
        result = answer.group(1).strip() if answer else ""
        k = end + (answer.end() if answer else 0)
        clauses = []
        while True:
            clause = re.match(r"\s*(requires|ensures|measure|decreases)\b[^{;]*", text[k:])
            if not clause:
                break
            open_at = k + clause.end()
            if open_at >= len(text) or text[open_at] != "{":
                break
            shut = closing(text, open_at)
            clauses.append((clause.group(1), re.sub(r"\s+", " ", text[open_at + 1:shut - 1]).strip()))
            k = shut
        where = re.match(r"[^{;]*", text[k:])
        k += where.end()
        body = text[k:closing(text, k)] if k < len(text) and text[k] == "{" else ""
        functions.append(Function(crate, match.group(2), bool(match.group(1)), parameters, result, clauses, body, text.count("\n", 0, match.start()) + 1))


def say(title, places):
    """Places are (crate, words)."""
    places = list(places)
    by_crate = collections.Counter(crate for crate, _ in places)
    counts = ", ".join(f"{crate} {count}" for crate, count in sorted(by_crate.items(), key=lambda pair: (-pair[1], pair[0])))
    print(f"{len(places):5}  {title}" + (f": {counts}" if counts else ""))
    if show_all:
        for crate, words in places:
            print(f"         {crate}: {words}")
    return len(places)


print(f"{len(functions)} functions, {sum(f.public for f in functions)} of them public, in {len(set(crate for crate, *_ in texts))} crates")

print("point 1: own enums of the shape of Option or Result, a flag with a value beside it, numbers for kinds or refusals")
enums, structs = [], []
for crate, path, raw, text in texts:
    for match in re.finditer(r"\b(enum|struct) (\w+)[^{;(]*\{", text):
        inside = text[match.end():closing(text, match.end() - 1) - 1]
        inside = re.sub(r"#\[[^\]]*\]", "", inside)
        (enums if match.group(1) == "enum" else structs).append((crate, match.group(2), parts(inside)))


def is_option_or_result(cases):
    """Two cases, of which one or both carry something, or three, of which one carries nothing and two do."""
    carrying = sum("(" in case or "{" in case for case in cases)
    return (len(cases) == 2 and carrying >= 1) or (len(cases) == 3 and carrying == 2)


say("own enums of two cases of which one carries something, or of three of which two do", [(c, n) for c, n, cases in enums if is_option_or_result(cases)])
answers = {n for c, n, cases in enums if is_option_or_result(cases)}
say("functions that answer one of these", [(f.crate, f.name) for f in functions if f.result.strip() in answers])
say("structs with an answer, or a flag that says whether there is one, beside a value",
    [(c, n) for c, n, fields in structs if len(fields) > 1 and any(re.match(r"(pub )?(answer|malformed|refused|failed|found)\s*:", field) for field in fields)])
say("early returns by a match on an answer", [(crate, f"line {text.count(chr(10), 0, m.start()) + 1}")
                                              for crate, _, _, text in texts for m in re.finditer(r"\b(?:Refused|Err)\(\w+\) => (?:\{\s*)?return\b", text)])
say("`.and(` of answers", [(crate, f"line {text.count(chr(10), 0, m.start()) + 1}") for crate, _, _, text in texts for m in re.finditer(r"\.and\(", text)])
# Found by reading at the commit of the page's first line: each answers a number that stands for a kind, or for none.
NUMBERS = {"next_size", "size_standing", "size_text", "one_size", "one_code", "code_text", "size_or_zero", "count_records", "line_end", "digit_at", "index_of",
           "next_tag", "takes", "broken_file", "tell_broken"}
say("functions whose number stands for a kind or for none (by their names when they were read)",
    [(f.crate, f.name) for f in functions if f.name in NUMBERS and re.search(r"\b(u8|u16|u32|u64|usize)\b", f.result) and "Option" not in f.result and "Result" not in f.result])

print("point 2: twins")
shapes = collections.defaultdict(list)
for f in functions:
    shape = re.sub(r"\b(420|422|Yuv420|Yuv422|u8|u16|u32|u64|usize|f32|i32|\d+|y|u|v|luma|chroma|WithSettings|WithoutSettings|PLACE_\w+)\b", "_", f.body)
    shape = re.sub(r"\s+", "", re.sub(r"\w*42[02]\w*", "_", shape))
    if len(shape) > 60:
        shapes[shape].append(f"{f.crate}::{f.name}")
groups = [names for names in shapes.values() if len(names) > 1]
say("functions whose body is another's but for a type, a size or a constant", [(name.split("::")[0], name.split("::")[1]) for names in groups for name in names])
if show_all:
    for names in groups:
        print("         together:", ", ".join(names))
fields_of = collections.defaultdict(list)
for c, n, fields in structs:
    fields_of[tuple(sorted(re.sub(r"\b(u8|u16|u32|u64|usize|f32|i32)\b", "_", re.sub(r"^pub ", "", field)) for field in fields if not field.startswith("ghost")))].append((c, n))
say("structs whose fields are another's but for their types", [place for places in fields_of.values() if len(places) > 1 for place in places])

print("point 3: loops that count an index by hand")
loops, counted = [], []
for f in functions:
    for match in re.finditer(r"(?:^|\n)\s*(?:'\w+: )?while ([^{]*)\{", f.body):
        start = f.body.index("{", match.start() + match.group(0).index("while"))
        inside = f.body[start:closing(f.body, start)]
        loops.append((f.crate, f.name))
        names = set(re.findall(r"\b([a-z_]\w*)\b", match.group(1)))
        if any(re.search(rf"\b{name} (?:[+-]=|= [^;=]*\b)", inside) for name in names):
            counted.append((f.crate, f.name))
say("`while` loops", loops)
say("of these, loops that change a local of their condition", counted)
say("`for` loops and iterator chains", [(f.crate, f.name) for f in functions for _ in re.finditer(r"\n\s*(?:'\w+: )?for |\.(?:iter|iter_mut|chunks|chunks_exact|windows|split)\(", f.body)])

print("point 4: equality, order, copying, conversion, printing by hand")
say("conversions by a match or a cast to or from numbers", [
    (f.crate, f.name) for f in functions
    if re.search(r"(_code|_of|_number|_numbers|number_of|wide|as_place|as_number|yes_or_no|found_count|found_place|form_told)$", f.name)
    and re.search(r"\b(u32|u64|usize)\b", " ".join(f.parameters) + " " + f.result) and ("match" in f.body or len(f.body) < 60)])
say("equalities, orders and copies", [(f.crate, f.name) for f in functions if re.match(r"(is_same|is_same_size|is_same_plane|goes_before|same_bytes|takes_left|copy|copy_bytes)$", f.name)])
say("functions that print", [(f.crate, f.name) for f in functions if f.name.startswith("print")])

print("point 5: facts in the contracts of three or more functions, parameters that always travel together")
facts = collections.defaultdict(list)
for f in functions:
    for kind, words in f.clauses:
        if kind == "requires":
            facts[words].append((f.crate, f.name))
repeated = {words: places for words, places in facts.items() if len(places) >= 3}
say("`requires` clauses", [place for places in facts.values() for place in places])
say(f"of these, clauses that stand word for word in three or more functions ({len(repeated)} facts)", [place for places in repeated.values() for place in places])
for words, places in sorted(repeated.items(), key=lambda pair: -len(pair[1])):
    print(f"         {len(places):3} {words}  ({', '.join(sorted({crate for crate, _ in places}))})")


def has(f, *patterns):
    return all(any(re.match(pattern, parameter) for parameter in f.parameters) for pattern in patterns)


TOGETHER = {
    "y, u and v as slices": (r"y: &", r"u: &", r"v: &"),
    "the tables of sums and of gamma": (r"sums: &", r"gamma: &"),
    "a form and the bytes of its file": (r"(form|from|form_a|our_form): ShiftForm", r"(file|ours|theirs|records|bytes): &\[u8\]"),
    "a form and a part": (r"form: ShiftForm", r"(part|record): &\[u8\]"),
    "an output and a place in it": (r"(output|summary|entries|y): &mut \[", r"(at|pair|start): usize"),
    "numbers and customs": (r"numbers", r"custom"),
}
for title, patterns in TOGETHER.items():
    say(title, [(f.crate, f.name) for f in functions if has(f, *patterns)])
say("functions of more than five parameters", [(f.crate, f.name) for f in functions if len(f.parameters) > 5])

print("point 6: buffers with a length beside them, parallel arrays, packed numbers")
ARRAY = r"\[(?:\d[\w.]*|[A-Z_]{2,}|[\w:]+(?:\(\d*\)|\s*\{[^{}]*\})); \w+\]|large_buffer\(\)|io::buffer\(\)"
say("arrays of a fixed size, filled in part or whole, but for those of tests", [
    (crate, f"line {text.count(chr(10), 0, m.start()) + 1}")
    for crate, _, _, text in texts for m in re.finditer(ARRAY, text.partition("#[cfg(test)]")[0])])
say("an array beside a count of what is in it", [(c, n) for c, n, fields in structs if any(re.search(r": \[", field) for field in fields) and any(re.match(r"(pub )?(count|len|length|size)\s*:", field) for field in fields)])

print("point 7: switches on the step to run")
say("functions whose body is one match between calls of different functions", [
    (f.crate, f.name) for f in functions
    if re.fullmatch(r"\{\s*match [\w.]+ \{(\s*[\w:]+(\([^()]*\))? => [\w:.]+\([^{}]*?\),?){2,}\s*\}\s*\}", f.body)])
