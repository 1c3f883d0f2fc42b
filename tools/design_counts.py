#!/usr/bin/env python3
"""Counts, in src/ of every crate, what docs/DESIGN-PASS.md counts: python3 tools/design_counts.py [FOLDER] prints each count with its places."""
import collections
import glob
import re
import sys

ROOT = sys.argv[1] if len(sys.argv) > 1 else "."
FILES = sorted(glob.glob(f"{ROOT}/crates/*/src/*.rt"))


def lines(pattern, without=None):
    found = []
    for path in FILES:
        for number, line in enumerate(open(path), 1):
            if re.search(pattern, line) and not line.lstrip().startswith("//") and not (without and re.search(without, path + line)):
                found.append(f"{path[len(ROOT) + 8:]}:{number}: {line.strip()}")
    return found


def told(name, found):
    print(f"{name}: {len(found)}")
    for line in found:
        print(f"    {line}")


def functions():
    for path in FILES:
        text = re.sub(r"//[^\n]*", "", open(path).read())
        for m in re.finditer(r"\bfn (\w+)", text):
            depth = 0
            start = None
            at = m.end()
            while at < len(text):
                c = text[at]
                if c == ";" and depth == 0:
                    break
                if c in "([":
                    depth += 1
                elif c in ")]":
                    depth -= 1
                elif c == "{" and depth == 0:
                    end = at
                    braces = 0
                    while True:
                        braces += {"{": 1, "}": -1}.get(text[end], 0)
                        end += 1
                        if braces == 0:
                            break
                    if not re.search(r"(requires|ensures)(\s+\w+)?\s*$", text[:at]):
                        start = (at, end)
                        break
                    at = end
                    continue
                at += 1
            if start:
                yield path[len(ROOT) + 8:], m.group(1), text[m.end():start[0]], text[start[0]:start[1]]


def enums():
    found = []
    for path in FILES:
        for m in re.finditer(r"enum (\w+)[^{]*\{((?:[^{}]|\{[^{}]*\})*)\}", re.sub(r"//[^\n]*", "", open(path).read())):
            variants = [v.strip() for v in re.split(r",(?![^{(]*[})])", m.group(2)) if v.strip()]
            loaded = [v for v in variants if re.search(r"[({]", v)]
            failed = [v for v in variants if re.match(r"(Refused|Fault|Malformed|Ended|Faulty|Failed|End|Bad)\b", v)]
            if failed and (loaded or "Accepted" in m.group(2)):
                found.append(f"{path[len(ROOT) + 8:]}: {m.group(1)}")
    return found


told("1a enums of the shape of Option or Result", enums())
told("1b flags with a value beside", lines(r"^\s*(pub )?(proper|well|above|empty|unlike|written): bool,"))
told("1c numbers of refusals", lines(r"test\(.*, \d+\)|\bnumber: (u8|\d+),|Refused \{ number|refused\(number: u8|fault\(\d|fault\(number: u8", r"tnb_c/"))
told("1d letters and codes for kinds", lines(r"letter == b'|letters: (&)?\[u8; 4\]|b\"[-PMC]{4}\"|direction == \d|operation [!=]= \d|k == [012] \{"))
told("3  loops by hand", lines(r"^\s*while "))
shapes = collections.defaultdict(list)
for path, name, head, body in functions():
    code = re.sub(r"(requires|ensures)(\s+\w+)?\s*\{[^}]*\}", "", head) + body
    tokens = re.findall(r"\w+|[^\s\w]", code)
    if len(tokens) < 30:
        continue
    words = {"if", "else", "while", "for", "return", "match", "let", "mut", "as", "in", "self", "true", "false"}
    shape = tuple(t if not re.match(r"\w", t) or t in words else "_" for t in tokens)
    shapes[shape].append(f"{path}: {name}")
told("2  functions of one shape", [" = ".join(v) for v in shapes.values() if len(v) > 1])
by_function = (
    r"fn (wide|lower|unlike|minus|is_numeral|is_letter|positive|negative|as_unsigned|way_code|direction_of"
    r"|filled|changed|operated|foretold|written|valued|counted|worked|carried)\("
)
told("4a conversions of words by a function", lines(by_function))
told("4b types without PartialEq", lines(r"derive\(Clone, Copy\)\]"))
facts = collections.Counter()
for path, name, head, body in functions():
    own = set()
    for clause in re.findall(r"requires(?:\s+\w+)?\s*\{([^}]*)\}", head):
        for fact in clause.split(" × "):
            own.add(re.sub(r"\s+", " ", fact.strip().strip("()")))
    for fact in own:
        facts[(path.split("/")[0], fact)] += 1
told("5a facts in three contracts or more of a crate", [f"{n} times in {c}: {f}" for (c, f), n in sorted(facts.items(), key=lambda x: -x[1]) if n >= 3])
together = collections.Counter()
for path, name, head, body in functions():
    params = re.findall(r"(\w+): ", re.sub(r"(requires|ensures).*", "", head, flags=re.S))
    for i in range(len(params)):
        for j in range(i + 1, len(params)):
            together[(path.split("/")[0], params[i], params[j])] += 1
often = [(pair, n) for pair, n in sorted(together.items(), key=lambda x: -x[1]) if n >= 5]
told("5b parameters that travel together, in five functions or more of a crate", [f"{n} times in {c}: {a}, {b}" for (c, a, b), n in often])
told("6  a length beside a buffer", lines(r"^\s*(pub )?(count|bytes|items|wholes|waiting|held): usize,"))
told("7  switches on a flag or a step", lines(r"(inverse|back|turned|long): bool"))
