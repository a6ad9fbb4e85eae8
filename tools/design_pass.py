#!/usr/bin/env python3
"""Counts the places of docs/DESIGN-PASS.md in crates/*/src, point by point; with -v each place, with its file and line.

A place with a comment line `// Kept:` above or beside it, within its function or type, is counted as kept. Such a line at an impl or a
trait stands for the places in it, and one in the comment at the head of a file for all of the file."""
import re
import sys
from collections import defaultdict
from pathlib import Path

TOP = Path(__file__).resolve().parent.parent
VERBOSE = "-v" in sys.argv[1:]


class Piece:
    """An item of a source file: a function, a type, a constant or an impl's method, with the comment above it."""

    def __init__(self, file, line, text, kept, traits):
        self.file, self.line, self.text, self.trait = file, line, text, traits.get(line)
        self.code = "\n".join(re.sub(r"//.*", "", it) for it in text.split("\n"))
        found = re.search(r"\b(?:fn|enum|struct|trait|const|impl)\s+(?:<[^>]*>\s*)?(\w+)", self.code)
        self.name = found.group(1) if found else "?"
        self.kind = (re.search(r"\b(fn|enum|struct|trait|const|impl)\b", self.code) or [None, "?"])[1]
        self.kept = "// Kept:" in text or line in kept

    def body(self):
        return self.code[self.code.index("\n{"):] if "\n{" in self.code else self.code[self.code.find("{"):]

    def head(self):
        return re.split(r"\n\s*(?:requires|ensures)\b|\n?\s*\{", self.code, maxsplit=1)[0]

    def clauses(self, word):
        return re.findall(r"^\s*%s(?: \w+)? \{ (.*) \}\s*;?\s*$" % word, self.code, re.M)


def around(lines):
    """The numbers of the lines for which a line `// Kept:` stands that is at the head of the file, or at the impl or trait around them; and
    for each line in an impl of a trait, that trait."""
    head = next((n for n, line in enumerate(lines) if not line.startswith("//")), len(lines))
    kept = set(range(1, len(lines) + 1)) if "// Kept:" in "\n".join(lines[:head]) else set()
    traits, above, held, trait = {}, [], False, None
    for number, line in enumerate(lines, 1):
        if re.match(r"(?:pub )?(?:impl|trait)\b", line):
            held = "// Kept:" in "\n".join(above)
            trait = (re.match(r"impl(?:<.*?>)? (?:\w+::)*(\w+)(?:<.*>)? for ", line) or [None, None])[1]
        if held:
            kept.add(number)
        if trait:
            traits[number] = trait
        if line.startswith("}"):
            held, trait = False, None
        above = above + [line] if line.startswith(("// ", "#[")) else []
    return kept, traits


def pieces():
    """Each item of each source file, tests apart: from its first comment or attribute to the line before the next."""
    for file in sorted(TOP.glob("crates/*/src/**/*.rt")):
        if file.name == "tests.rt":
            continue
        lines = file.read_text(encoding="utf-8").split("\n")
        kept, traits = around(lines)
        start = re.compile(r"^(    )?(?:pub(?:\(\w+\))? )?(?:#\[|const fn|extern|unsafe|fn|enum|struct|trait|const|impl|type|static)\b|^(    )?#\[|^(    )?// ")
        begin, held = None, []
        for number, line in enumerate(lines, 1):
            if begin is None:
                if start.match(line) or re.match(r"^(    )?pub extern", line):
                    begin, held = number, [line]
                continue
            held.append(line)
            text = "\n".join(held)
            closes = re.match(r"^(    )?[})]", line) or (re.match(r"^(    )?(?:pub )?(?:const|type|struct|fn)\b.*[;}]$", line))
            if line == "":
                if re.search(r"\b(?:fn|enum|struct|trait|const|impl)\b", "\n".join(re.sub(r"//.*", "", it) for it in held)):
                    if not (re.search(r"\bimpl\b|\btrait\b", text) and not re.search(r"^\}", text, re.M)):
                        yield Piece(str(file.relative_to(TOP)), begin, text, kept, traits)
                        begin = None
                        continue
                    # the head of an impl: its methods are items of their own
                    begin = None
                    continue
                begin = None
            elif closes and line.startswith("}"):
                yield Piece(str(file.relative_to(TOP)), begin, text, kept, traits)
                begin = None
        if begin is not None and re.search(r"\b(?:fn|enum|struct|const)\b", "\n".join(held)):
            yield Piece(str(file.relative_to(TOP)), begin, "\n".join(held), kept, traits)


ITEMS = list(pieces())
FNS = [it for it in ITEMS if it.kind == "fn"]
FOUND = defaultdict(list)


def place(point, what, item, detail=""):
    FOUND[point, what].append((item, detail))


# 1. enums of the shape of Option or Result, flags with a value, numbers for kinds and refusals
for it in ITEMS:
    if it.kind == "enum":
        variants = re.findall(r"^    (\w+)(\(.*\)| \{.*)?,?$", it.code, re.M)
        empty = [v for v, held in variants if not held]
        full = [v for v, held in variants if held]
        words = {"Nothing", "Nowhere", "Passed", "Refused", "Full", "Done", "None"}
        if len(variants) <= 3 and words & {v for v, _ in variants}:
            place(1, "own enum of the shape of Option or Result", it)
    if it.kind == "struct":
        fields = re.findall(r"^    (?:pub )?(\w+): ([^,\n]+)", it.code, re.M)
        flags = [f for f, t in fields if t in ("bool", "Tested", "Outcome") or f in ("number", "tested", "any")]
        if flags and len(fields) > 1:
            place(1, "flag or code with a value beside it", it, ", ".join(flags))
    for name, kind in re.findall(r"\b(kind|direction|number|refusal|why|known): (u8|u16|u64|usize)\b", it.head() if it.kind == "fn" else it.code if it.kind == "struct" else ""):
        place(1, "number for a kind, a refusal or none", it, f"{name}: {kind}")
    if it.kind == "const" and re.search(r"block/src/numbers", it.file):
        place(1, "number for a kind, a refusal or none", it)
    if it.kind == "fn":
        for found in re.findall(r"(?:block\[0\]|\bkind) [=!]= (?:67|80|83)\b", it.body()):
            place(1, "number for a kind, a refusal or none", it, found)

# 2. twins: functions or types whose names differ in the table, the part or the like alone, and exports that stand twice
PAIRS = [(r"containers?|policies|policy", "T"), (r"selected|allowed|selecting|allowing|selects|allows|select|allow", "P"), (r"Container|Policy", "T"), (r"reachable|isolated", "R"), (r"range|order", "O"), (r"row|matrix|sets", "M")]
for pattern, mark in PAIRS:
    by = defaultdict(list)
    for it in ITEMS:
        if it.kind in ("fn", "struct", "enum") and re.search(pattern, it.name):
            by[it.file.split("/")[1], it.kind, re.sub(pattern, mark, it.name)].append(it)
    for group in by.values():
        if len({it.name for it in group}) > 1:
            for it in group:
                place(2, "names that differ in a word for the table, the part or the like", it)
names = defaultdict(list)
for it in FNS:
    if it.trait != "Iterator":
        names[it.name].append(it)
for name, group in names.items():
    files = {it.file.split("/")[1] for it in group}
    if len(files) > 1 and name != "main":
        for it in group:
            place(2, "one name in two crates", it)

# 3. loops that count by hand
for it in FNS:
    for found in re.findall(r"^\s*(?:'\w+: )?(while\b.*|loop\b.*)\{$", it.body(), re.M):
        bits = re.search(r"while (?:rest|\(?0 < rest|rest > 0)", found)
        place(3, "loop over bits" if bits else "while or loop", it, found.strip())

# 4. equality, order, conversion by hand
for it in FNS:
    body = re.sub(r"\s+", " ", it.body())
    if re.fullmatch(r"\{ \w+(\.\w+)? as \w+ \}", body.strip()) or re.search(r"^\{ if (\w+) (<|<=) (\w+) \{ (\1|\3) \} else \{ (\1|\3) \} \}$", body.strip()):
        place(4, "a cast, a minimum or a maximum as a function", it)
    elif re.search(r"\(a\[0\] == b\[0\]\)", body) or it.name in ("same", "saturating_sub", "one_more", "truth", "share", "finding_code", "cursor_at"):
        place(4, "equality, saturation or conversion by hand", it)
    casts = len(re.findall(r"\bas (?:u8|u16|u32|u64|usize)\b", it.code))
    for _ in range(casts):
        place(4, "`as`", it)

# 5. facts of three or more contracts, parameters that travel together
facts = defaultdict(list)
for it in FNS:
    for clause in it.clauses("requires"):
        for fact in re.split(r" × ", clause):
            fact = re.sub(r"\b(\w+)\.(old|now)\b", "M", fact.strip("() "))
            fact = re.sub(r"\b(block|bytes|out|memory)\b", "M", fact)
            fact = re.sub(r"\b[a-z]\b|\bslot\.0|\bcontainer_said M|\bpolicy_said M", "i", fact)
            facts[fact].append(it)
for fact, those in facts.items():
    holders = {it.file + it.name for it in those}
    if len(holders) >= 3:
        place(5, "fact in three or more contracts", those[0], f"| {fact} | {len(holders)} functions")
params = defaultdict(list)
for it in FNS:
    found = re.search(r"\((.*)\)", it.head(), re.S)
    got = sorted(set(re.findall(r"(\w+): ", found.group(1)))) if found else []
    for i, a in enumerate(got):
        for b in got[i + 1:]:
            params[a, b].append(it)
for pair, those in params.items():
    if len(those) >= 4 and "memory" not in pair:
        place(5, "two parameters together in four or more functions", those[0], f"| {' '.join(pair)} | {len(those)} functions")

# 6. buffers with a length or a position beside them, parallel arrays
for it in FNS:
    head = it.head()
    if re.search(r": &(?:mut )?\[\w+\](?:,\s*\w+: [^,]*)?,\s*(?:at|from|start|end|n|part|i): usize", head) and not re.search(r"memory: &(?:mut )?\[u64\],\s*(?:a|c|q): usize", head):
        place(6, "buffer with a position or a length beside it", it)
    if len(re.findall(r"\[\[u64; 4\]; (?:128|256|1024)\]", head)) > 1 or re.search(r"\[u64; 1024\].*\[\[u64; 4\]; 1024\]", head, re.S):
        place(6, "parallel arrays", it)

# 7. switches on which step to run
for it in FNS:
    if len(re.findall(r"\bif (?:kind|case|direction)\b", it.body())) > 1 or re.search(r"match case\b", it.body()):
        place(7, "switch on a number of the step", it)

# 8. proofs
proofs = list(TOP.glob("crates/*/proofs/**/*.antt"))
old = [it for it in proofs if it.name == "Proof.antt"]

total = defaultdict(int)
for (point, what), those in sorted(FOUND.items()):
    kept = sum(1 for it, _ in those if it.kept)
    total[point] += len(those)
    print(f"{point} {what}: {len(those)}, of which {kept} beside a line `// Kept:`")
    if VERBOSE:
        for it, detail in those:
            print(f"    {it.file}:{it.line} {it.name} {detail}{' (kept)' if it.kept else ''}")
print(f"8 proof files: {len(proofs)}, of which {len(old)} in the older form (Proof.antt); lines {sum(len(it.read_text(encoding='utf-8').splitlines()) for it in proofs)}")
print(f"items read: {len(ITEMS)}, functions {len(FNS)}")
