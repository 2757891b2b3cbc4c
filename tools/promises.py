#!/usr/bin/env python3
"""Holds docs/PROMISES.md to the tree.

    tools/promises.py --check

Says which edit, of the gate (`must-fail`) or beside it (`wrong`), or which rule the page does not name, and which file, edit, theorem or rule it
names that is not there; ends with 1 then.
A name of the form `CRATE/specs/FILE.antt` `NAME` (or proofs) must stand in that file. In a table with a column of rules, each number there
must be a rule of docs/RULES.md, and each rule must stand in one of them.
"""

import glob
import os
import re
import sys

ROOT = os.path.dirname(os.path.dirname(os.path.abspath(__file__)))


def main():
    if sys.argv[1:] != ["--check"]:
        sys.exit(__doc__)
    os.chdir(ROOT)
    page = open("docs/PROMISES.md", encoding="utf-8").read()
    faults = []
    edits = sorted(glob.glob("crates/*/must-fail/*.edit") + glob.glob("crates/*/wrong/*.edit"))
    for path in edits:
        crate, edit = path.split("/")[1], os.path.basename(path)[:-5]
        if f"`{edit}`" not in page and f"`{crate}/{edit}`" not in page:
            faults.append(f"not named: {crate}/{edit}")
    column = None
    for line in page.splitlines():
        cells = [cell.strip() for cell in line.split("|")]
        if "must-fail edit" in cells:
            column = cells.index("must-fail edit")
        elif line.startswith("|") and column:
            crate = ""
            for name in re.findall(r"`([\w/]+)`", cells[column]):
                crate = os.path.dirname(name) or crate
                if not {f"crates/{crate}/{folder}/{os.path.basename(name)}.edit" for folder in ("must-fail", "wrong")} & set(edits):
                    faults.append(f"no such edit: {crate}/{os.path.basename(name)}")
        else:
            column = None
    for cell in page.split("|"):
        for name, after in re.findall(r"`([\w/]+\.antt)`((?:,? `[\w-]+`)*)", cell):
            paths = [f"crates/{name}"] if "/" in name else glob.glob(f"crates/*/*/{name}")
            texts = [open(path, encoding="utf-8").read() for path in paths if os.path.exists(path)]
            if not texts:
                faults.append(f"no such file: {name}")
            for said in re.findall(r"`([\w-]+)`", after):
                if texts and not any(re.search(rf"(?m)^ *(?:abbrev |unfoldable )?(?:pub )?(?:record |data )?{said}(?![\w-])", text) for text in texts):
                    faults.append(f"not in {name}: {said}")
    rules = re.findall(r"(?m)^\*\*(\d+\.\d+) ", open("docs/RULES.md", encoding="utf-8").read())
    tables = re.findall(r"(?m)^\| id \| rules \|.*\n\|[-|]*\n((?:\|.*\n)+)", page)
    named = {number for table in tables for row in table.splitlines() for number in re.findall(r"\d+\.\d+", row.split("|")[2])}
    faults += [f"no such rule: {number}" for number in sorted(named - set(rules))]
    faults += [f"in no row: rule {number}" for number in rules if number not in named]
    for fault in faults:
        print(fault)
    if faults:
        sys.exit(1)
    print(f"docs/PROMISES.md names every one of {len(edits)} edits and {len(rules)} rules, and nothing that is not there")


main()
