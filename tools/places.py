#!/usr/bin/env python3
"""Lists the places in crates/*/src at which a form may be plainer: python3 tools/places.py POINT, 1 to 8.

1 flags, number codes, results carried by hand   2 twins                   3 loops over an index or a count
4 order, conversion and printing by hand         5 facts and parameters    6 arrays and buffers with a count
7 steps and tables of functions                  8 lines and answers of proofs
Run at the top of the repository. The last line is the count.
"""
import glob
import re
import sys
from collections import defaultdict

SOURCES = sorted(glob.glob("crates/*/src/**/*.rt", recursive=True))
NAME = r"[A-Za-z_]\w*"

LINES = {
    1: r"^\s+(pub(\([a-z]+\))? )?\w+: bool,|Result<Result|Ok\(Err|Ok\(Ok|=> (return )?Err\((?!\w+::)|Err\(\w+\) => Answer|None => (return )?Err\(|cost == 0",
    4: r"fn (eq|cmp|partial_cmp|at_most|clone|fmt|from|try_from|default)\b|fn (number|kind|line|field|place)\(self\) -> u32|^\s+let (?P<name>\w+) = [\w.]+\.(?P=name)(\(\))?;$|^\s+(e?print(ln)?!\(rt; .*\{)|=> (e?print(ln)?!\(rt; .*\{)",
    6: r"^\s+(pub(\([a-z]+\))? )?(len|count|used|tasks): (usize|u32),$|: (&mut |&)?\[\w+(<[^>]*>)?; [0-9]+\](,|\)|$)|: &mut \[\w+\],$",
    7: r"\bdyn |: fn\(|\[fn\(|match (self\.)?(step|stage|phase|state|mode)\b",
}


def functions(path):
    """Yields name, line, parameters, clauses and body of each function with a body."""
    text = open(path, encoding="utf-8").read()
    for found in re.finditer(r"^( *)(?:pub(?:\([a-z]+\))? )?fn (%s)" % NAME, text, re.M):
        indent, name = found.group(1), found.group(2)
        at = text.find("\n" + indent + "{", found.start())
        one = re.search(r"\{$|\{\}$|;$", text[found.start():], re.M)
        head_end = found.start() + one.start()
        if at != -1 and re.search(r"^\s*(requires|ensures) ", text[found.start():at], re.M) and "\n" + indent + "}" not in text[found.start():at]:
            head_end = at
        end = text.find("\n" + indent + "}", head_end)
        head = text[found.start():head_end]
        body = text[head_end:end] if end != -1 else ""
        parameters = re.search(r"fn %s(?:<[^()]*(?:\([^()]*\)[^()]*)*>)?\(([^{}]*?)\)\s*(->|where|requires|ensures|$|\n)" % name, head, re.S)
        yield name, text[:found.start()].count("\n") + 1, parameters.group(1) if parameters else "", re.findall(r"^\s*(?:requires|ensures)[^{]*\{(.*)\}$", head, re.M), body


def by_line(point):
    places = []
    for path in SOURCES:
        for number, line in enumerate(open(path, encoding="utf-8"), 1):
            if re.search(LINES[point], line.rstrip("\n")) and not line.lstrip().startswith("//"):
                places.append(f"{path}:{number}: {line.strip()}")
    return places


def flags():
    """Lines that carry an Option, a Result or a flag by hand, and functions that answer a bool beside a value they write."""
    places = by_line(1)
    for path in SOURCES:
        text = open(path, encoding="utf-8").read()
        for found in re.finditer(r"fn (%s)(?:<[^{}]*?>)?\(([^{}]*?)\)\s*-> ((?:io::|anyhow::)?Result<)?bool" % NAME, text, re.S):
            if "&mut" in found.group(2):
                places.append(f"{path}:{text[:found.start()].count(chr(10)) + 1}: {found.group(1)} answers a bool beside what it writes")
    return places


def loops():
    """While loops with a counter of their own, and loops over numbers of which the variable is an index."""
    places = []
    for path in SOURCES:
        lines = open(path, encoding="utf-8").read().split("\n")
        for at, line in enumerate(lines):
            found = re.match(r"( *)(?:while .*|loop|for (%s) in .*\.\..*) \{$" % NAME, line)
            if not found:
                continue
            end = next(k for k in range(at + 1, len(lines)) if lines[k] == found.group(1) + "}")
            body = "\n".join(lines[at + 1:end])
            index = found.group(2)
            counted = re.search(r"\[[^\]]*\b%s\b|let \w+ = %s as usize" % (index, index), body) if index else re.search(r"\b\w+ [+-]= 1;|\bat = ", body)
            if counted:
                places.append(f"{path}:{at + 1}: {line.strip()}")
    return places


def twins():
    """Functions whose bodies are alike when names, numbers and texts are left out."""
    alike = defaultdict(list)
    for path in SOURCES:
        for name, line, _, _, body in functions(path):
            tokens = re.findall(r'b?"(?:[^"\\]|\\.)*"|%s|\d[\d_]*|\S' % NAME, re.sub(r"//.*", "", body))
            kept = [t if re.match(r"(if|else|for|in|match|return|let|mut|while|as)$|[^\w\"]", t) and not t.startswith('b"') else "x" for t in tokens]
            if len(kept) >= 25:
                alike[" ".join(kept)].append(f"{path}:{line}: {name}")
    return ["  ".join(group) for group in alike.values() if len(group) > 1]


def together():
    """Facts in the contracts of three functions of a crate, and pairs of parameters of three functions of a crate."""
    facts, pairs = defaultdict(set), defaultdict(set)
    for path in SOURCES:
        crate = path.split("/")[1]
        for name, line, parameters, clauses, _ in functions(path):
            where = f"{path}:{line}: {name}"
            for clause in clauses:
                fact = re.sub(r"\.(now|old|new|entry|exit)\b", "", clause).strip()
                facts[(crate, fact)].add(where)
            given = re.findall(r"(%s): ([^,]+)" % NAME, parameters)
            given = [f"{n}: {re.sub('&(mut )?', '', t).strip()}" for n, t in given]
            for i, first in enumerate(given):
                for second in given[i + 1:]:
                    pairs[(crate, first, second)].add(where)
    places = [f"{c}: fact {f} in {len(w)}: {', '.join(sorted(x.split(': ')[1] for x in w))}" for (c, f), w in facts.items() if len(w) >= 3]
    places += [f"{c}: {a}, {b} in {len(w)}: {', '.join(sorted(x.split(': ')[1] for x in w))}" for (c, a, b), w in pairs.items() if len(w) >= 3]
    return sorted(places)


def proofs():
    places = []
    for crate in sorted({path.split("/")[1] for path in SOURCES}):
        files = glob.glob(f"crates/{crate}/proofs/**/*.antt", recursive=True)
        if files:
            texts = [open(f, encoding="utf-8").read() for f in files]
            goals = sum(len(re.findall(r"^(?:abbrev )?pub \S+ : goal\.", t, re.M)) for t in texts)
            stopgap = sum(len(re.findall(r"ByRecursion|ContainsAt", t)) for t in texts + [open(f, encoding="utf-8").read() for f in glob.glob(f"crates/{crate}/specs/*.antt")])
            places.append(f"{crate}: {sum(t.count(chr(10)) for t in texts)} lines, {goals} goals answered, {stopgap} uses of the stopgap words")
    return places


point = int(sys.argv[1])
listed = flags() if point == 1 else loops() if point == 3 else twins() if point == 2 else together() if point == 5 else proofs() if point == 8 else by_line(point)
print("\n".join(listed))
print(len(listed))
