#!/usr/bin/env python3
"""Counts the places in crates/*/src where an older form may stand: python3 tools/forms.py [--list] [COMMIT]

With a commit the files are read from it, else from the work tree. docs/DESIGN-PASS.md says what each count means.
"""
import collections
import re
import subprocess
import sys

KEYWORDS = set(
    "as bool break const continue crate else enum extern false fn for if impl in let loop match mod mut pub ref return "
    "self Self static struct trait true type u8 u16 u32 u64 usize unsafe use where while Some None Ok Err".split()
)


def files(commit):
    """Path and text of each source file."""
    if commit:
        listed = subprocess.run(["git", "ls-tree", "-r", "--name-only", commit], capture_output=True, text=True, check=True)
        read = lambda path: subprocess.run(["git", "show", f"{commit}:{path}"], capture_output=True, text=True, check=True).stdout
    else:
        listed = subprocess.run(["git", "ls-files"], capture_output=True, text=True, check=True)
        read = lambda path: open(path, encoding="utf-8").read()
    for path in listed.stdout.splitlines():
        if re.fullmatch(r"crates/[^/]+/(src/.*\.rt|proofs/.*/Answers\.antt)", path):
            yield path, read(path)


def close(text, at, pair="{}"):
    """The place behind the bracket that closes the one at `at`."""
    deep = 0
    for i in range(at, len(text)):
        deep += (text[i] == pair[0]) - (text[i] == pair[1])
        if deep == 0:
            return i + 1
    return len(text)


def functions(text):
    """Name, parameters, contract and body of each function."""
    for m in re.finditer(r"\bfn (\w+)(<[^(]*>)?\(", text):
        end = close(text, m.end() - 1, "()")
        at, clauses = end, []
        while at < len(text) and text[at] not in ";":
            if text[at] == "{":
                head = text[end:at]
                stop = close(text, at)
                if re.search(r"(requires|ensures|ghost)\*?( \w+)?:? *$", head):
                    clauses.append(text[at + 1 : stop - 1])
                    at = end = stop
                    continue
                yield m.group(1), text[m.end() : close(text, m.end() - 1, "()") - 1], clauses, text[at:stop]
                break
            at += 1


def plain(code):
    return re.sub(r"//.*", "", code)


def shape(body):
    """A body with each name and number of its own replaced: twins have one shape."""
    seen, out = {}, []
    for token in re.findall(r"\w+|[^\s\w]", plain(body)):
        if token in ("u8", "u16", "u32", "u64", "usize"):
            token = "TYPE"
        elif re.match(r"\d", token):
            token = "NUMBER"
        elif re.match(r"\w", token) and token not in KEYWORDS:
            token = seen.setdefault(token, f"n{len(seen)}")
        out.append(token)
    return out


def conjuncts(clause):
    """The facts of a clause, split at × outside brackets."""
    part, deep, parts = "", 0, []
    for ch in clause:
        deep += (ch in "([{") - (ch in ")]}")
        if ch == "×" and deep == 0:
            parts.append(part)
            part = ""
        else:
            part += ch
    for p in parts + [part]:
        p = " ".join(p.split())
        while p.startswith("(") and close(p, 0, "()") == len(p):
            p = p[1:-1].strip()
        yield p


def groups(params):
    names = [re.sub(r"^mut ", "", p.split(":")[0].strip()) for p in re.split(r",(?![^<(]*[>)])", params) if ":" in p]
    kinds = [" ".join(p.split(":", 1)[1].split()) for p in re.split(r",(?![^<(]*[>)])", params) if ":" in p]
    pairs = [(n, re.sub(r"&mut |&'?\w* ?|&", "", k)) for n, k in zip(names, kinds)]
    return [tuple(pairs[i : i + 3]) for i in range(len(pairs) - 2)]


def main():
    args = sys.argv[1:]
    show = "--list" in args
    args = [a for a in args if a != "--list"]
    found = collections.OrderedDict((k, []) for k in (
        "enums", "twins", "index loops", "other loops", "conversions", "facts in three contracts or more",
        "three parameters that travel together", "switches", "answers", "answers that cite a name of the check's own",
        "kept"))
    shapes, facts, travels = collections.defaultdict(list), collections.defaultdict(set), collections.defaultdict(set)
    for path, text in files(args[0] if args else None):
        crate = path.split("/")[1]
        where = lambda at: f"{path}:{text.count(chr(10), 0, at) + 1}"
        if path.endswith(".antt"):
            for answer in re.split(r"^(?=pub )", text, flags=re.M)[1:]:
                name = f"{path.split('/proofs/')[1][:-13]} {answer.split()[1]}"
                found["answers"].append(f"{crate}::{name}")
                if re.search(r"-own\b|shared_slice_known|known_told|-keys\d|known-fits", answer):
                    found["answers that cite a name of the check's own"].append(f"{crate}::{name}")
            continue
        for m in re.finditer(r"^(?:pub )?enum (\w+)", text, re.M):
            found["enums"].append(f"{where(m.start())} {m.group(1)}")
        for m in re.finditer(r"^ *(while|loop)\b", text, re.M):
            body = text[m.start() : close(text, text.index("{", m.start()))]
            stepped = re.search(r"^ *\w+ [+-]= (\d+|[A-Z]\w*);", plain(body), re.M)
            found["index loops" if stepped else "other loops"].append(where(m.start()))
        for m in re.finditer(r"\bfn ((?:to|from)_c_\w+|wide|larger|smaller|least|sum|at_least_one|\w*word_of|long_of|short_of|number_of|low_\w+|high_word|eight|is_answer)\(", text):
            found["conversions"].append(f"{where(m.start())} {m.group(1)}")
        for m in re.finditer(r"// Kept: .*", text):
            found["kept"].append(f"{where(m.start())} {m.group(0)}")
        for m in re.finditer(r"\bmatch (\w*kind\w*\([^)]*\)|kind\w*) \{", text):
            found["switches"].append(f"{where(m.start())} {m.group(1)}")
        for name, params, clauses, body in functions(text):
            s = shape(body)
            if len(s) >= 12:
                shapes[" ".join(s)].append(f"{crate}::{name}")
            for c in clauses:
                for fact in conjuncts(c):
                    if "result" not in fact and len(fact) > 6:
                        facts[(crate, fact.replace(".old", ".now"))].add(name)
            for g in groups(params):
                travels[(crate, g)].add(name)
    found["twins"] = [", ".join(v) for v in shapes.values() if len(v) > 1]
    found["facts in three contracts or more"] = [f"{k[0]}: {k[1]} ({len(v)})" for k, v in facts.items() if len(v) > 2]
    found["three parameters that travel together"] = [
        f"{k[0]}: {', '.join(n for n, _ in k[1])} ({len(v)})" for k, v in travels.items() if len(v) > 2]
    for what, places in found.items():
        print(f"{what}: {len(places)}")
        if show:
            for place in places:
                print(f"    {place}")


main()
