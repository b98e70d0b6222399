"""Odd and random formulas get the right answer by split, work and check, and faults that are made by hand are found."""
import os
import random
import re
import shutil
import subprocess
import sys
import tempfile
from pathlib import Path

HERE = Path(__file__).resolve().parent.parent
sys.path.insert(0, str(HERE))
from common import program, varisat

PIGEONS = HERE / "pigeonhole-7.cnf"
# Texts with what a reader may get wrong, each for both verdicts where it can be.
ODD = [
    "p cnf 9 5\nc more variables than are used, a comment inside\n1 2 0\n-1 2 0\nc 1 0\n1 -2 0\n-1 -2 0\n1 2 0\n",
    "p cnf 3 2\n1 1 2 0\n-3 3 1 0\n",
    "1 1 2 0 2 1 0 -1\n2 0\r\n-2\t-2 0 3 -3 0\n",
    "p cnf 3 2\n1 2 3 0\n0\n",
    "p cnf 0 0\n",
    "c only a comment",
    "p cnf 1 2\n1 0\n-1 0\n",
    "p cnf 1000 3\n5 900 0\n-5 0\n-900 17 0\n",
    "p cnf 1000 4\n5 900 0\n-5 0\n-900 17 0 -17 -900 0\n",
    "p cnf 4 4\n4 0\n-4 2 0\n-2 1 0\n-1 -4 3 0",
]


def call(*words, **options):
    """Runs a script, and returns its status and what it printed on both streams."""
    words = [str(HERE / words[0]), *map(str, words[1:])]
    ran = subprocess.run(words, stdout=subprocess.PIPE, stderr=subprocess.STDOUT, text=True, **options)
    return ran.returncode, ran.stdout


def expect(wanted, words, **options):
    """Runs a script whose status is the one that is wanted and whose output has the other words that are wanted."""
    status, printed = call(*words, **options)
    if status != wanted[0] or any(word not in printed for word in wanted[1:]):
        sys.exit(f"contrib/cubes: {' '.join(map(str, words))}: wanted {wanted}, but status {status} and\n{printed}")
    return printed


def solve_here(cnf, folder, count, size):
    """Splits a formula and solves its batches one by one, without parallel."""
    folder.mkdir()
    cubes = expect((0,), ("split", cnf, count)).splitlines(True)
    for start in range(0, len(cubes), size):
        batch = folder / f"batch {start}.cubes"
        batch.write_text("".join(cubes[start : start + size]))
        printed = expect((0,), ("work", cnf, batch))
        if "\nv " in printed:
            (folder / "model").write_text(printed[printed.index("\nv ") :])
            return
        assert f"proof {batch.with_suffix('.marked')}" in printed


def try_formulas(folder):
    """Odd and random formulas get the verdict that one process comes to, and it is checked."""
    numbers, verdicts = random.Random(1), {10: 0, 20: 0}
    draw = lambda: " ".join(str(numbers.choice((-1, 1)) * numbers.randint(1, 9)) for _ in range(3)) + " 0\n"
    texts = ODD + ["".join(draw() for _ in range(numbers.randint(30, 55))) for _ in range(20)]
    for number, text in enumerate(texts):
        cnf, cubes = folder / f"a formula {number}.cnf", folder / f"its cubes {number}"
        cnf.write_bytes(text.encode())
        verdict = varisat("solve", str(cnf))[0]
        solve_here(cnf, cubes, numbers.choice((1, 2, 5, 9)), numbers.choice((1, 3, 20)))
        assert (cubes / "model").exists() == (verdict == 10), text
        expect((0, "satisfiable" if verdict == 10 else "unsatisfiable", "s VERIFIED"), ("check", cnf, cubes))
        verdicts[verdict] += 1
    assert min(verdicts.values()) > 5, verdicts


def change(path, old, new):
    """Replaces the first match of a pattern, which there is."""
    text, count = re.subn(old, new, path.read_bytes(), count=1, flags=re.MULTILINE)
    assert count == 1, (path, old)
    path.write_bytes(text)


def try_faults(folder):
    """What is changed by hand is found, and named."""
    solve_here(PIGEONS, folder / "right", 16, 4)
    expect((0, "s VERIFIED"), ("check", PIGEONS, folder / "right"))
    refused, missing = "4.marked: `varisat check --marked` refuses it", "no core refutes the cube"
    faults = [
        ((missing, "batch 4.marked is not there"), lambda proof: proof.unlink()),
        ((missing, "batch 4.marked does not refute it"), lambda proof: proof.write_bytes(b"")),
        ((refused, missing), lambda proof: os.truncate(proof, proof.read_bytes().index(b" ", proof.stat().st_size // 2) + 1)),
        ((missing,), lambda proof: change(proof, rb"^f 12 4 0\n[^\0]*", b"")),
        ((missing, "cube -1 -2 -3 4 12 0"), lambda proof: change(proof, rb"^f 12 4 0\n", b"")),
        ((refused, missing), lambda proof: change(proof, rb"^f -11 3 0\n", b"f 3 0\n")),
        ((refused, missing), lambda proof: change(proof, rb"\Z", b"f 0\n")),
        ((refused, missing), lambda proof: change(proof, rb"\A", b"i 1 0\n")),
        (("variable 57, which the formula does not have", missing), lambda proof: change(proof, rb"\A", b"i 57 0\ni -57 0\nf 0\n")),
        ((refused, missing), lambda proof: proof.write_bytes(random.Random(2).randbytes(1000))),
        (("x\\ns VERIFIED\\n.marked: `varisat",), lambda proof: (proof.parent / "x\ns VERIFIED\n.marked").write_text("i 1 0\n")),
        (("it is no file",), lambda proof: (proof.parent / "x.marked").mkdir()),
        (("does not satisfy the clause",), lambda proof: (proof.parent / "model").write_text("v 1 0\n")),
        (("its negation",), lambda proof: (proof.parent / "model").write_text("v 1 -1 0\n")),
    ]
    for number, (told, fault) in enumerate(faults):
        copy = folder / f"fault {number}"
        shutil.copytree(folder / "right", copy)
        fault(copy / "batch 4.marked")
        expect((1, "s NOT VERIFIED", *told), ("check", PIGEONS, copy))
    expect((2, "invalid positive value"), ("check", PIGEONS, folder / "right", "--jobs", "0"))
    expect((2, "usage: split"), ("split", PIGEONS, "2", "0"))
    expect((2, "invalid duration value"), ("work", PIGEONS, folder / "right/batch 4.cubes", "--seconds", "nan"))
    # A pipe that is read twice is an empty formula, of which each model is one.
    expect((2, "no file that can be read again"), ("check", "/dev/stdin", folder / "fault 12"), input="1 0 -1 0")
    with open("/dev/full", "w") as full:
        words = [HERE / "check", PIGEONS, folder / "right"]
        ran = subprocess.run(words, stdout=full, stderr=subprocess.PIPE, env={**os.environ, "PYTHONUNBUFFERED": ""})
        assert ran.returncode == 2 and b"No space left" in ran.stderr, ran
    other = folder / "other.cnf"
    other.write_text(PIGEONS.read_text().replace("p cnf 56 204\n1 2 ", "p cnf 56 204\n"))
    expect((1, "batch 0.marked: `varisat", "s NOT VERIFIED"), ("check", other, folder / "right"))


def main():
    program()
    with tempfile.TemporaryDirectory() as folder:
        try_formulas(Path(folder))
        try_faults(Path(folder))
    print("contrib/cubes: split, work and check passed")


if __name__ == "__main__":
    main()
