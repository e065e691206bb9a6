#!/usr/bin/env python3
"""Lists places in src/ where an older form of the language may stand, by the points of docs/DESIGN-PASS.md.

usage: tools/places.py [DIR]     the root DIR of a checkout (default: the current folder)

A line is a place to look at, not a fault: the page says of each what became of it.
"""
import collections
import glob
import os
import re
import sys

LINES = {
    "1 codes and flags": r"const [A-Z_]+: u8 = \d|fn (number|outcome|sender_byte)\b|-> \(|-> Option<(\(|Refusal)|, bool\)|\(held: bool|unwrap_or\([1-9]|\[u32; |Result<[A-Za-z]*, (usize|u8)>",
    "3 loops": r"^\s*for .* in [^{]*\.\.|\.enumerate\(\)|^\s*while\b|^\s*loop\b|held = held|same = same",
    "4 conversions by hand": r"fn (\w+_byte|bytes|tenths|hundredths|verdict|check_eq|outcome|number)\b|Some\(refusal\) => Err|let \[high, low\] = ",
    "6 buffers with a length": r"(\w+: (&mut )?\[\w+; [A-Z_0-9]+\])|\bused: usize|\blen: u8|\bn: usize",
    "7 steps and tables": r"match \w+ >> |\bdyn |: fn\(|Fn(Mut|Once)?\(",
}


def sources(root):
    for path in sorted(glob.glob(os.path.join(root, "crates/*/src/*.rt"))):
        with open(path, encoding="utf-8") as source:
            yield os.path.relpath(path, root), source.read().split("\n")


def by_line(root, pattern):
    return [f"{path}:{i}: {line.strip()}" for path, lines in sources(root) for i, line in enumerate(lines, 1)
            if re.search(pattern, line) and not line.strip().startswith(("//", "ghost", "ensures", "requires"))]


def twins(root):
    """Names of functions, types and constants that are declared more than once, but for the methods of a trait."""
    found = collections.defaultdict(list)
    for path, lines in sources(root):
        in_trait = False
        for i, line in enumerate(lines, 1):
            if re.match(r"\s*(pub )?trait |\s*impl.* for ", line):
                in_trait = True
            elif re.match(r"\S", line) and not line.startswith(("}", "//", "where")):
                in_trait = False
            name = re.match(r"\s*(?:pub(?:\(crate\))? )?(?:fn|const|struct|enum) (\w+)", line)
            if name and not in_trait and name.group(1) not in ("main", "new"):
                found[name.group(1)].append(f"{path}:{i}")
    return [f"{name}: {' '.join(at)}" for name, at in sorted(found.items()) if len(at) > 1]


def facts(root):
    """Preconditions that stand in more than one contract, whatever the value is called that they speak of."""
    found = collections.defaultdict(list)
    for path, lines in sources(root):
        for i, line in enumerate(lines, 1):
            fact = re.match(r"\s*requires (?:\w+ )?\{ (.*) \}", line)
            if fact:
                said = re.sub(r"\b(pool|shelf|tight|slot)_state\b( [A-Z]\w*\.\w+\.state)?", "STATE", fact.group(1))
                said = re.sub(r"\bself\.(old|now|entry)\b", "SELF", said)
                found[said].append(f"{path}:{i}")
    return [f"{fact}: {' '.join(at)}" for fact, at in sorted(found.items()) if len(at) > 1]


def proofs(root):
    texts = [open(p, encoding="utf-8").read() for p in glob.glob(os.path.join(root, "crates/*/proofs/**/*.antt"), recursive=True)]
    answers = sum(len(re.findall(r"^pub [\w-]+ : goal\.", t, re.M)) for t in texts)
    return [f"{len(texts)} files, {sum(t.count(chr(10)) for t in texts)} lines, {answers} answers"]


def main(root):
    found = {point: by_line(root, pattern) for point, pattern in LINES.items()}
    found["2 twins"] = twins(root)
    found["5 facts that stand again"] = facts(root)
    found["8 proofs"] = proofs(root)
    for point in sorted(found):
        print(f"{point}: {len(found[point])}")
        for place in found[point]:
            print(f"    {place}")


main(sys.argv[1] if len(sys.argv) > 1 else ".")
