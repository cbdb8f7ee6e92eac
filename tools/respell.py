#!/usr/bin/env python3
"""Brings the definitions and lemmas of the crates to today's spelling, once, right after port.py.

usage: python3 tools/respell.py        at the top of the repository
       python3 tools/respell.py map    prints the names and changes nothing

Words in snake case, types and facts in camel case (CONTRACT_STYLE.md of the toolchain, "Names"). A dash stays only between two names of things, as in `length-joined`; a plain word is added with `_`. What Rust wrote
keeps its spelling. It goes by tokens: every .antt file, the clauses and ghost lines of .rt, the edits in must-fail/, and names between backquotes in pages.
"""
import collections
import glob
import os
import re
import subprocess
import sys

KIT = "/opt/rattle"
TOKEN = re.compile(r"[^\s(){}:;,.|`\"λ⟨⟩\[\]@!]+")
HEAD = re.compile(r"^( *)((?:(?:abbrev|unfoldable|opaque|pub|data|record) )*)([^\s(){}:;,.|`\"]+)((?: \{[^}]*\}| \([^)]*\))*) :(?= |\n)", re.M)
FACTS = {"holds": "Holds"}  # a fact in lower case, defined in Rows.antt and Timetable.antt of specs/ and a field elsewhere: turned where it is defined or imported
MADE = {"matchGives": "MatchGives", "treeGives": "TreeGives", "entriesGive": "EntriesGive", "holdsBy": "HoldsBy"}


def read(p):
    with open(p, encoding="utf-8") as f:
        return f.read()


def snake(s):
    s = re.sub(r"(?<=[a-z0-9])([A-Z])(?=[a-z0-9_'′-]|$)", lambda m: "_" + m.group(1).lower(), s)
    return s


def own_files():
    return sorted(glob.glob("crates/*/specs/*.antt") + glob.glob("crates/*/proofs/*.antt"))


def proof_files():
    return sorted(p for p in glob.glob("crates/*/proofs/**/*.antt", recursive=True) if p.count("/") > 3)


def strip(t):
    return re.sub(r"--.*", "", t)


def library():
    words = set()
    for top in ("rattle/std", "rattle/core", "rattle/std_alloc", "rattle/std_collections", "rattle/logic", "rattle/antt", "rattle/std_io", "rattle/std_heap", "rattle/io"):
        for folder, dirs, files in os.walk(os.path.join(KIT, top)):
            for f in files:
                if f.endswith(".antt"):
                    words.update(TOKEN.findall(strip(read(os.path.join(folder, f)))))
    return words


def main(argv):
    spec_defs, defs, tokens, imported = set(), set(), set(), set()
    for p in own_files():
        t = strip(read(p))
        for m in HEAD.finditer(t):
            defs.add(m.group(3))
            if "/specs/" in p:
                spec_defs.add(m.group(3))
        body = re.sub(r"^use .*", "", t, flags=re.M)
        tokens.update(TOKEN.findall(body))
        for m in re.finditer(r"^use (\S+?)\.\{(.*)\}", t, re.M):
            if re.match(r"Rattle\.(std|core)\b|(?!Rattle)", m.group(1)):
                imported.update(w.strip().split(" as ")[0] for w in m.group(2).split(","))
    lib = library()
    common = {"length", "take", "drop", "map", "append", "replicate", "reverse", "set", "sum", "max", "min", "sets", "get_or", "filter", "tokens", "joined"}
    # a word that is a thing's name: a definition of specs/ under its new spelling, or one of the library's most common
    things = {snake(d) for d in spec_defs if "-" not in d and d[0].islower()} | common

    def respell(n):
        if n in MADE:
            return MADE[n]
        if n[0].isupper() and not re.match(r"[A-Z][A-Za-z]+-", n) and re.fullmatch(r"[A-Z0-9-]+", n) and "-" in n:
            return n.replace("-", "_")
        low = snake(n) if (n[0].islower() or "-" in n) and re.search("[a-z]", n) else n
        if "-" not in low or not re.fullmatch(r"[A-Za-z][\w'′]*(-[\w'′]+)+", low):
            return low
        parts = low.split("-")
        isthing = lambda i: parts[i] in things or parts[i][0].isupper()
        out = parts[0]
        for i in range(1, len(parts)):
            out += ("-" if isthing(i - 1) and isthing(i) and n not in spec_defs else "_") + parts[i]
        if parts[0][0].isupper() and n not in spec_defs:
            out = parts[0] + "-" + out[len(parts[0]) + 1:]
        return out

    names = {}
    for n in sorted(tokens | defs):
        if n in defs or (n not in imported and n not in lib and re.fullmatch(r"[a-z][\w'′₀-₉]*([A-Z-][\w'′₀-₉]*)+", n)):
            if n in imported and n not in defs:
                continue
            r = respell(n)
            if r != n:
                names[n] = r
    # names that fall together in one file: the lemma gets `_lem`, as CONTRACT_STYLE.md has it; a definition keeps its dash
    said = set()
    while True:
        met = set()
        for p in own_files():
            here = collections.defaultdict(set)
            for n in set(TOKEN.findall(re.sub(r"(?m)^use \S+?(?=\.\{| as )", "", strip(read(p))))):
                here[names.get(n, n)].add(n)
            met.update((new, tuple(sorted(olds))) for new, olds in here.items() if len(olds) > 1)
        if not met - said:
            break
        for new, olds in sorted(met - said):
            said.add((new, olds))
            lemmas = [o for o in olds if o in defs and o not in spec_defs]
            for o in lemmas[:1] or [o for o in olds if "-" in o] or [o for o in olds if o in names][:1]:
                names[o] = new + "_lem" if lemmas else snake(o)
            if not lemmas and not any("-" in o for o in olds):
                for o in olds:
                    names.pop(o, None)
    said = sorted((new, olds, [names.get(o, o) for o in olds]) for new, olds in said)
    if argv == ["map"]:
        for o, n in sorted(names.items()):
            print(o, n)
        print("--- fall together")
        for s in said:
            print(s)
        return 0
    apply(names, defs)
    return 0


def turned(text, names):
    return TOKEN.sub(lambda m: names.get(m.group(0), m.group(0)), text)


def apply(names, defs):
    camel = {o: n for o, n in names.items() if re.search(r"[a-z][A-Z]", o) or o in MADE}
    for p in own_files():
        t = read(p)
        facts = FACTS if re.search(r"specs/(Rows|Timetable)\.antt$", p) or re.search(r"(?m)^use \S+\.(Rows|Timetable)\.\{[^}]*\bholds\b", t) else {}
        theirs = set()
        for m in re.finditer(r"(?m)^use (\S+?)\.\{(.*)\}", t):
            if not re.match(r"Rattle\.(?!std\b|core\b)", m.group(1)):
                theirs.update(w.strip().split(" as ")[-1] for w in m.group(2).split(","))
        write(p, t, turned(t, {o: n for o, n in {**names, **facts}.items() if o not in theirs}))
    for p in proof_files():
        t = read(p)
        # of the names with a dash only those that the file imports or reaches by a module; what the check makes keeps its spelling
        cited = set()
        for m in re.finditer(r"^use Rattle\.(?!std\b)\S+?\.\{(.*)\}", t, re.M):
            for w in m.group(1).split(","):
                cited.update(w.strip().split(" as "))
        theirs = set()
        for m in re.finditer(r"(?m)^use (\S+?)\.\{(.*)\}", t):
            if not re.match(r"Rattle\.(?!std\b|core\b)", m.group(1)):
                theirs.update(w.strip().split(" as ")[-1] for w in m.group(2).split(","))
        local = {n: r for n, r in names.items() if (n in cited or n in camel) and n not in theirs}
        for m in HEAD.finditer(strip(t)):  # a lemma of the file's own
            if m.group(3) in names and not re.search(r": tie\.", t[m.end() - 2:m.end() + 6]):
                local[m.group(3)] = names[m.group(3)]
        write(p, t, turned(t, local))
    for p in sorted(glob.glob("crates/*/src/*.rt")):
        write(p, read(p), clauses(read(p), names))
    for p in sorted(glob.glob("crates/*/must-fail/*.edit")):
        t = read(p)
        out, kind = [], ""
        for line in t.split("\n"):
            if line.startswith("file:"):
                kind = line
            if line.startswith(("old:", "new:")):
                if ".antt" in kind:
                    line = turned(line, names)
                else:
                    line = clauses("ensures {" + line[4:] + "}", names)[9:-1] and line[:4] + turned(line[4:], {o: n for o, n in names.items() if o in defs})
            elif line.startswith("#"):
                line = turned(line, camel)
            out.append(line)
        write(p, t, "\n".join(out))
    for p in ["README.md", "CONTRIBUTING.md"] + sorted(glob.glob("docs/*.md") + glob.glob("docs/changes/*.md")):
        t = read(p)
        write(p, t, re.sub(r"`[^`\n]*`", lambda m: turned(m.group(0), {o: n for o, n in names.items() if o in defs}), t))


def clauses(t, names):
    """The names in ghost lines, clauses and comments of Rattle source; code and strings stay."""
    out, i = [], 0
    at = re.compile(r"(?m)^ghost use [^;]*;|\b(?:requires|ensures|ghost|reads|invariant|decreases)\b[^{}\n;]*\{|//[^\n]*|\"(?:[^\"\\\n]|\\.)*\"")
    while True:
        m = at.search(t, i)
        if not m:
            out.append(t[i:])
            return "".join(out)
        out.append(t[i:m.start()])
        s = m.group(0)
        if s.startswith('"'):
            out.append(s)
            i = m.end()
        elif s.startswith("//"):
            out.append(turned(s, {o: n for o, n in names.items() if re.search(r"[a-z][A-Z]", o)}))
            i = m.end()
        elif s.startswith("ghost use"):
            out.append(turned(s, names))
            i = m.end()
        else:
            depth, j = 1, m.end()
            while depth and j < len(t):
                depth += {"{": 1, "}": -1}.get(t[j], 0)
                j += 1
            out.append(turned(t[m.start():j], names))
            i = j


def write(p, old, new):
    if re.match(r"crates/sublist_walk/", p):  # `within` of Told.antt is a fact; in comments it is a word
        new = "\n".join(re.sub(r"(?<![\w-])within(?![\w-])", "Within", l) if not re.match(r"\s*(--|//|#)", l) else l for l in new.split("\n"))
    if new != old:
        with open(p, "w", encoding="utf-8") as f:
            f.write(new)


if __name__ == "__main__":
    sys.exit(main(sys.argv[1:]))
