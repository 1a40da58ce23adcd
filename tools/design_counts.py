#!/usr/bin/env python3
"""Counts the places of src/ that are written in an older form, by the eight points of docs/DESIGN-PASS.md.

    python3 tools/design_counts.py [COMMIT] [-v]

With COMMIT it reads the files as they stood there, else those of the working tree; with -v it lists every place. A place that stays
for a reason has a comment that begins with `Kept:` in the four lines above it (or in the comment of its function): it is counted
both as found and as kept."""
import re
import subprocess
import sys

verbose = "-v" in sys.argv
args = [a for a in sys.argv[1:] if a != "-v"]
commit = args[0] if args else None


def git(*a):
    return subprocess.run(["git", *a], capture_output=True, text=True, check=True).stdout


def files(pattern):
    names = git("ls-tree", "-r", "--name-only", commit) if commit else git("ls-files")
    return [n for n in names.split("\n") if re.fullmatch(pattern, n)]


def text(name):
    return git("show", f"{commit}:{name}") if commit else open(name, encoding="utf-8").read()


SRC = {n: text(n) for n in files(r"crates/\w+/src/.*\.rt")}
PROOFS = {n: text(n) for n in files(r"crates/\w+/proofs/.*\.antt")}


def functions(s):
    """(name, line, parameters, whole text with the comment above) of each function of a file"""
    for m in re.finditer(r"^((?: *//[^\n]*\n)*)( *)(?:pub(?:\(crate\))? )?fn (\w+)(?:<.*?>)?\((.*?)\)(?: ->|\n|\s*\{).*?^\2\}", s, re.S | re.M):
        yield m.group(3), s[: m.start(2)].count("\n") + 1, m.group(4), m.group(0)


def is_kept(s, at):
    """a comment `Kept:` stands right above the line of this offset, in the comment above its function, or further up of all functions below"""
    above = s[:at].split("\n")[-5:]
    if any("// Kept:" in line for line in above) or re.search(r"// Kept:[^\n]*\bbelow\b", s[:at]):
        return True
    for name, line, params, whole in functions(s):
        start = s.find(whole)
        if start <= at < start + len(whole) and "// Kept:" in whole:
            return True
    return False


found = {}


def place(point, kind, name, at, what):
    s = SRC[name]
    found.setdefault((point, kind), []).append((name, s[:at].count("\n") + 1, what, is_kept(s, at)))


def each(point, kind, pattern, flags=re.M):
    for name, s in SRC.items():
        for m in re.finditer(pattern, s, flags):
            place(point, kind, name, m.start(), m.group(0).strip().split("\n")[0][:90])


# 1. Own enums of the shape of Option or Result: one variant holds a value, another says that there is none or why.
for name, s in SRC.items():
    for m in re.finditer(r"^ *(?:pub(?:\(crate\))? )?enum (\w+) \{(.*?)^ *\}", s, re.S | re.M):
        variants = re.findall(r"^ +(\w+)(\(.*?\))?,", m.group(2), re.M)
        names = {v for v, held in variants}
        if names & {"Refused", "Wrong", "End", "Nothing", "Over"} and len(variants) <= 3:
            place(1, "enum of the shape of Option or Result", name, m.start(), m.group(1))
# ... a verdict or a flag beside a value
each(1, "flag or verdict beside a value", r"^    (?:pub(?:\(crate\))? )?(?:verdict|good|is_over|moved|stopped): \S+,|^    pub\(crate\) kind: Kind,")
# ... a refusal handed on by hand
each(1, "refusal handed on by hand", r"(?:Refused|Err)\((\w+)\) => (?:\{\s*return )?(?:\w+::)?(?:\w+\()?(?:Refused|Err|refused|stuck|nothing)\b[^\n]*\1")
each(1, "refusal handed on by hand", r"if let (?:\w+::)?(?:Refused|Err)\(\w+\) = [^{]*\{\s*return")
# ... a refusal or a kind as a number
each(1, "number for a refusal or a kind", r"fn gate\([^{]*-> u64|fn number\(r: Refusal\)|numbers::number\(")

# 2. Twins: pairs of functions of one file, or of one name, whose texts differ only in names and numbers.
def shape(whole):
    body = re.sub(r"^ *//[^\n]*\n", "", whole, flags=re.M)
    body = re.sub(r"ensures \{.*?\}\n|requires \{.*?\}\n|ghost [^\n]*\n", "", body)
    words = re.findall(r"[A-Za-z_]\w*|\d[\w.]*|\S", body)
    keep = {"fn", "let", "mut", "if", "else", "return", "match", "while", "for", "in", "as", "pub", "true", "false", "len", "usize", "u64", "u32", "f64", "bool"}
    return tuple(w if not re.match(r"\w", w) or w in keep else "_" for w in words)


shapes = {}
for name, s in SRC.items():
    for fn, line, params, whole in functions(s):
        if whole.count("\n") >= 6:
            shapes.setdefault(shape(whole), []).append((name, s.find(whole) + len(whole) // 2, fn))
for group in shapes.values():
    if len(group) > 1:
        for name, at, fn in group:
            place(2, "function of another's shape", name, at, fn + " ~ " + ", ".join(f"{n.split('/')[1]}::{f}" for n, a, f in group if (n, f) != (name, fn)))

# 3. Loops that count an index by hand.
each(3, "while", r"^ *while ")

# 4. Equality, order, copying, conversion and printing by hand.
each(4, "by hand", r"^ *(?:pub(?:\(crate\))? )?fn (?:is_same|are_same|same|copy|copy_\w+|wipe|all_zero|symmetry_of|symmetry_word|kind_word|refusal_of|state_word|state_in|number|say|number_of)\(")

# 5. Parameters that travel together: three or more of one name and type, in three or more functions.
sets = {}
for name, s in SRC.items():
    for fn, line, params, whole in functions(s):
        ps = {re.sub(r"\s+", " ", p.strip()) for p in params.split(",") if ":" in p}
        sets[(name, s.find(whole) + whole.find("fn "), fn)] = ps
for group in ({"plan: Plan", "symmetry: Symmetry", "odd: bool"}, {"symmetry: Symmetry", "odd: bool"}, {"x: &[f64]", "wk: &[f64]", "yk: &[f64]"}, {"s: &[u8]", "from: usize", "to: usize"}, {"a: &[[f64; 15]; 15]", "s: usize"}, {"a: &mut [[f64; 15]; 15]", "n: usize"}):
    for (name, at, fn), ps in sets.items():
        if group <= ps:
            place(5, "parameters " + ", ".join(sorted(g.split(":")[0] for g in group)), name, at, fn)

# 6. Buffers with a length beside them.
each(6, "array with a count beside it", r"^    pub (?:list|bands|rows|points): \[\w+; \d+\],\n    pub (?:count|size): usize,")
each(6, "array and count as two parameters", r"(?:list: \[\w+; \d+\],\s*(?:count|n): usize)")

# 7. Switches on which step to run.
each(7, "chain of names", r"^ *if text::is\([^\n]*|^ *if is\(s, [^\n]*|^ *if (?:cases::)?is_case\([^\n]*")

titles = {1: "Option, Result, enums", 2: "twins", 3: "loops that count by hand", 4: "derives, From, Display", 5: "structs and invariants", 6: "slices, Vec, maps", 7: "closures", 8: "proofs"}
for (point, kind), places in sorted(found.items()):
    kept = sum(1 for p in places if p[3])
    print(f"{point} ({titles[point]}), {kind}: {len(places)}" + (f", of them kept {kept}" if kept else ""))
    if verbose:
        for name, line, what, k in places:
            print(f"    {name}:{line}: {what}" + ("  [kept]" if k else ""))
answers = sum(len(re.findall(r"^pub [\w+'-]+ : goal\.", s, re.M)) for n, s in PROOFS.items() if n.endswith("/Answers.antt"))
print(f"8 ({titles[8]}), answers: {answers} in {sum(n.endswith('/Answers.antt') for n in PROOFS)} files; lines of proofs {sum(s.count(chr(10)) for s in PROOFS.values())}")
