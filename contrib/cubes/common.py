"""What the scripts share: how a formula, cubes and the cores of a proof are read, and where the program is."""
import contextlib
import math
import os
import re
import subprocess
import sys
from pathlib import Path

HERE = Path(__file__).resolve().parent


def stop(why):
    """Ends the script with a fault."""
    print(f"{Path(sys.argv[0]).name}: {why}", file=sys.stderr)
    sys.exit(2)


def end(main):
    """Runs a script, and ends with its status: with 2 where a file or stream fails, also one that is written only as all ends."""
    try:
        try:
            status = main()
        except SystemExit as ended:
            status = ended.code
        if sys.stdout:
            sys.stdout.flush()
    except OSError as error:
        with contextlib.suppress(OSError):
            print(f"{Path(sys.argv[0]).name}: {error}", file=sys.stderr)
        # Python would try to write once more, and end with another status.
        os._exit(2)
    sys.exit(status)


def positive(text):
    """A number above 0; argparse ends with 2 where it is none."""
    if int(text) < 1:
        raise ValueError
    return int(text)


def duration(text):
    """A number of seconds, from 0."""
    if not 0 <= float(text) < math.inf:
        raise ValueError
    return float(text)


def program():
    """The program varisat: what VARISAT names, or what stands beside the scripts, or what the checkout built."""
    built = HERE.parent.parent / "crates/varisat_cli/out/varisat_cli"
    for path in [os.environ["VARISAT"]] if "VARISAT" in os.environ else [HERE / "varisat", built]:
        if os.path.isfile(path) and os.access(path, os.X_OK):
            return os.path.abspath(path)
    stop(f"the program varisat is not there: no {path}; `./varisat --prove` at the top builds it, or VARISAT names what `./varisat --which` tells")


def varisat(*words, **options):
    """Runs the program, and returns its status and what it printed: on standard error, where it printed nothing else."""
    ran = subprocess.run([program(), *words], stdout=subprocess.PIPE, stderr=subprocess.PIPE, **options)
    return ran.returncode, (ran.stdout or ran.stderr).decode(errors="replace").strip()


def read_bytes(path):
    try:
        return Path(path).read_bytes()
    except OSError as error:
        stop(error)


def read_formula(path):
    """The clauses of a DIMACS CNF file, each as a list of its literals as they stand. The program reads the same bytes before, so
    that a fault in them is found by the same rules as everywhere."""
    if os.path.exists(path) and not os.path.isfile(path):
        stop(f"{path} is no file that can be read again")
    text = read_bytes(path)
    status, told = varisat("solve", "-", "--no-simplify", "--max-steps", "0", input=text)
    if status not in (0, 10, 20):
        stop(f"{path}: {told}")
    clauses = [[]]
    for line in text.split(b"\n"):
        if line[:1] not in (b"c", b"p"):
            for literal in map(int, line.split()):
                if literal:
                    clauses[-1].append(literal)
                else:
                    clauses.append([])
    return clauses[:-1]


def cubes_of(text, name):
    """The cubes of a text, one a line, of literals up to 0 or the end; an `a` may stand in front, and `c` begins a comment."""
    cubes = []
    for line in text.split("\n"):
        words = line.split()
        if words and words[0][0] != "c":
            try:
                literals = [int(word) for word in words[words[0] == "a" :]]
            except ValueError as error:
                stop(f"{name}: {error}")
            cubes.append(tuple(literals[: literals.index(0)] if 0 in literals else literals))
    return cubes


def read_cubes(path):
    return cubes_of(read_bytes(path).decode("latin-1"), path)


def shown(path):
    """The path on one line, whatever bytes it has."""
    return ascii(str(path))[1:-1]


def write_line(literals):
    """The literals with a 0 behind them."""
    return " ".join(map(str, [*literals, 0]))


def split(folder, count, cube=()):
    """The cubes of the script `split` for the formula in a folder."""
    words = [HERE / "split", folder / "formula.cnf", str(count), *map(str, cube)]
    ran = subprocess.run(words, stdout=subprocess.PIPE, text=True)
    return cubes_of(ran.stdout, "split") if ran.returncode == 0 else stop("split failed")


def write_cubes(path, cubes):
    # In one step: where this is interrupted the file before stays.
    part = path.with_name(path.name + ".part")
    part.write_text("".join(f"a {write_line(cube)}\n" for cube in cubes))
    os.replace(part, path)


def write_batches(folder, cubes, size):
    """Writes a file for each batch, under a name that is new. Returns the names."""
    first = 1 + max((int(path.stem) for path in folder.glob("*.cubes") if path.stem.isdigit()), default=0)
    batches = [cubes[start : start + size] for start in range(0, len(cubes), size)]
    for number, batch in enumerate(batches, first):
        write_cubes(folder / f"{number:06}.cubes", batch)
    return [f"{number:06}.cubes" for number in range(first, first + len(batches))]


def cores_of(proof):
    """The cores of a marked proof: its lines `f`, each alone on its line, as a session writes them."""
    lines = re.findall(rb"^f((?: -?[1-9][0-9]*)*) 0$", proof, re.MULTILINE)
    return {frozenset(map(int, line.split())) for line in lines}


def cores_in(directory):
    """The cores of all proofs of a folder, which nothing has checked."""
    return {core for path in sorted(directory.glob("*.marked")) for core in cores_of(read_bytes(path))}


def negations(cores):
    """The formula of the negated cores. It has no model where the cores cover all assignments."""
    return "".join(write_line(-literal for literal in sorted(core)) + "\n" for core in sorted(cores, key=sorted))


def open_cubes(cubes, cores):
    """The cubes that no core refutes. A core refutes a cube that has all its literals."""
    return [cube for cube in cubes if not any(core <= set(cube) for core in cores)]


def false_clause(clauses, model):
    """The first clause of which no literal is one of the model, if there is one."""
    literals = set(model)
    return next((clause for clause in clauses if literals.isdisjoint(clause)), None)
