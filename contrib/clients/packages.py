"""packages.py FILE: reads Debian's list of packages and writes calls of a solver: clauses, `?` and assumptions for a question.

A package is a variable. One that is installed needs one of each of its alternatives (Pre-Depends, Depends), in a version that is asked
for, and bears none that it breaks or conflicts with. Questions: can each tenth package be installed, and can 3,800 pairs of which one
needs what the other's needs may not stand beside?"""
import itertools
import random
import re
import sys

OPERATORS = {"<<": lambda order: order < 0, "<=": lambda order: order <= 0, "=": lambda order: order == 0,
             ">=": lambda order: order >= 0, ">>": lambda order: order > 0}


def weight(letter):
    return -1 if letter == "~" else ord(letter) if letter.isalpha() else ord(letter) + 256


def key(part):
    """Of a version's part: what is no number, and numbers, in turn. An end stands behind ~ and before all else."""
    return [tuple(map(weight, it)) + (0,) if i % 2 == 0 else int(it or 0) for i, it in enumerate(re.split(r"(\d+)", part))]


def compare(left, right):
    def parts(version):
        epoch, _, rest = version.rpartition(":") if ":" in version else ("0", "", version)
        upstream, _, revision = rest.rpartition("-") if "-" in rest else (rest, "", "0")
        return [int(epoch)], key(upstream), key(revision)

    for a, b in zip(parts(left), parts(right)):
        for x, y in itertools.zip_longest(a, b):
            fill = 0 if isinstance(x if x is not None else y, int) else (0,)
            x, y = fill if x is None else x, fill if y is None else y
            if x != y:
                return -1 if x < y else 1
    return 0


def packages(file):
    for paragraph in open(file, encoding="utf-8").read().split("\n\n"):
        fields = dict(re.findall(r"^([\w-]+): (.*)$", paragraph, re.M))
        if "Package" in fields:
            yield fields


def relations(text):
    """The alternatives of each entry, as name, operator, version."""
    for entry in filter(None, (it.strip() for it in text.split(","))):
        yield [re.match(r"([^\s:(]+)(?::\S+)?(?:\s*\(\s*([<>=]+)\s*([^\s)]+)\s*\))?", it.strip()).groups() for it in entry.split("|")]


def main():
    number, version, provided = {}, {}, {}
    listed = list(packages(sys.argv[1]))
    for fields in listed:
        number.setdefault(fields["Package"], len(number) + 1)
        version[fields["Package"]] = fields["Version"]
    for fields in listed:
        for [(name, _, what)] in relations(fields.get("Provides", "")):
            provided.setdefault(name, []).append((fields["Package"], what))

    def candidates(name, operator, wanted):
        if name in number and (not operator or OPERATORS[operator](compare(version[name], wanted))):
            yield number[name]
        for package, what in provided.get(name, []):
            if not operator or (what and OPERATORS[operator](compare(what, wanted))):
                yield number[package]

    clauses = set()
    for fields in listed:
        own = number[fields["Package"]]
        for alternatives in relations(fields.get("Pre-Depends", "") + "," + fields.get("Depends", "")):
            needed = {it for alternative in alternatives for it in candidates(*alternative)}
            if own not in needed:
                clauses.add((-own, *sorted(needed)))
        for [alternative] in relations(fields.get("Conflicts", "") + "," + fields.get("Breaks", "")):
            for other in candidates(*alternative):
                if other != own:
                    clauses.add((-max(own, other), -min(own, other)))
    for clause in sorted(clauses):
        print(*clause)
    chosen = list(range(10, len(number) + 1, 10))
    for package in chosen:
        print("?", package)
    dependents = {}
    for own, *needed in clauses:
        for other in needed:
            if other > 0:
                dependents.setdefault(other, []).append(-own)
    conflicts = sorted(clause for clause in clauses if len(clause) == 2 and clause[1] < 0)
    rng = random.Random(1)
    for clause in rng.choices(conflicts, k=3800):
        print("?", *(rng.choice([-it, *dependents.get(-it, [])]) for it in clause))
    print(f"{len(number)} packages, {len(clauses)} clauses, {len(chosen) + 3800} questions", file=sys.stderr)


main()
