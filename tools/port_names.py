#!/usr/bin/env python3
"""Brings the repository's own names to the spelling of the Rattle that docs/PORT.md speaks of.

At the top: `tools/port_names.py before`, commit, the kit's port/port.py, `tools/port_names.py after`. Each once.

before  The crate core is kernel from then on, since the kit has a library core. The root file of each crate gets a last line `// std::`, by which
        port.py knows that the crate may use the library's words; without it older spellings stay where port.py can't tell.
after   That line goes again. What specs/ define, fields and constructors too, is in snake case, and so is the part of a law's name that is such a name.
Edits of must-fail/ are respelled with the files that they name; what is left of them is mended by hand.
"""
import os
import re
import subprocess
import sys

MARK = "// std::\n"
# Where two names would fall together, one gets another name.
OTHER = {
    "noPlan": "without_plan", "tooLarge": "is_too_large", "badRow": "has_bad_row", "endsRun": "is_run_end", "writesPlan": "is_plan_write",
    "writesLifted": "is_lifted_write", "eqZ": "eq_z",
}
# Laws that port.py took for the library's words, and whose names would fall together with definitions: they keep their dash.
LAWS = ["cells_are", "ends_of", "first_below", "object_of", "owned_at", "pieces_are", "row_ends", "row_number", "row_put", "rows_taken", "starts_from"]
DECLARED = re.compile(r"^\s*(?:(?:pub|unfoldable|abbrev) )*([^\s:(){}=,.;]+)(?: \{[^}]*\})* : ")
CASES = re.compile(r"^  ((?:[a-z][\w'-]* )+): [A-Z]\w*$")


def files(*endings):
    for folder, below, names in os.walk("crates"):
        below[:] = sorted(b for b in below if b != "out")
        for name in sorted(names):
            if name.endswith(endings):
                yield os.path.join(folder, name)


def read(path):
    with open(path, encoding="utf-8") as f:
        return f.read()


def rewrite(path, change):
    old = read(path)
    new = change(old)
    if new != old:
        with open(path, "w", encoding="utf-8") as f:
            f.write(new)


def roots():
    for path in files("lib.rt", "main.rt"):
        if path.split(os.sep)[2:-1] == ["src"]:
            yield path


def before():
    subprocess.check_call(["git", "mv", "crates/core", "crates/kernel"])
    for path in files(".rt", ".antt", ".edit"):
        rewrite(path, lambda t: re.sub(r"\bcore::", "kernel::", re.sub(r"Rattle·core\b", "Rattle·kernel", t)))
    rewrite("crates.txt", lambda t: re.sub(r"\bcore\b", "kernel", t))
    for path in roots():
        rewrite(path, lambda t: t + MARK)


def snake(name):
    return re.sub(r"(?<=[a-z0-9])[A-Z](?![A-Z])", lambda m: "_" + m[0].lower(), name)


def word(name):
    """A name as a whole: not a part of another."""
    return r"(?<![\w'₀-₉-])%s(?![\w'₀-₉-])" % re.escape(name)


def respell(table):
    pattern = re.compile("|".join(word(n) for n in sorted(table, key=len, reverse=True)))
    for path in files(".rt", ".antt", ".edit"):
        rewrite(path, lambda t: pattern.sub(lambda m: table[m[0]], t))


def declared(path):
    for line in read(path).split("\n"):
        if m := DECLARED.match(line):
            yield m[1]
        if m := CASES.match(line):
            yield from m[1].split()


def after():
    for path in files(".rt"):
        rewrite(path, lambda t: t.replace(MARK, ""))
    respell({n: n.replace("_", "-") for n in LAWS})
    law_names = set()
    spec_names = set()
    for path in files(".antt"):
        (spec_names if "/specs/" in path else law_names).update(declared(path))
    table = {}
    for n in spec_names | law_names:
        if n in OTHER or re.match(r"[a-z]", n) and re.search(r"[a-z0-9][A-Z][a-z]", n):
            table[n] = OTHER.get(n, snake(n))
    for n in spec_names:
        if re.match(r"[a-z]", n) and "-" in n:
            table[n] = snake(n).replace("-", "_")
    together = [n for n, to in table.items() if to in spec_names | law_names or list(table.values()).count(to) > 1]
    if together:
        sys.exit("these names would fall together with others: " + ", ".join(sorted(together)))
    respell(table)
    print("".join("%s %s\n" % pair for pair in sorted(table.items())), end="")


def version():
    top = os.path.dirname(os.path.dirname(os.path.realpath(__file__)))
    of = re.search(r'(?m)^version = "(.*)"$', read(os.path.join(top, "rust", "Cargo.toml")))[1]
    if os.path.exists(os.path.join(top, ".git")):
        commit = subprocess.run(["git", "describe", "--always", "--dirty", "--abbrev=12"], cwd=top, capture_output=True, text=True)
        of += ", commit " + commit.stdout.strip() if commit.returncode == 0 else ""
    print(f"{os.path.basename(sys.argv[0])} (Laremban {of})")


if __name__ == "__main__":
    {"before": before, "after": after, "--version": version}[sys.argv[1]]()
