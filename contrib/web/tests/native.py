"""native.py FOLDER: writes random formulas there, and of each what the library for C answers, with its model or its proof."""
import io
import pathlib
import random
import sys

sys.path.insert(0, str(pathlib.Path(__file__).resolve().parents[2] / "python"))
import varisat

folder = pathlib.Path(sys.argv[1])
dice = random.Random(5)
for number in range(150):
    count = dice.choice([5, 20, 50, 80, 120, 150])
    clauses = [[dice.choice([v, -v]) for v in dice.sample(range(1, count + 1), 3)] for _ in range(int(count * dice.uniform(3.6, 5.2)))]
    text = f"p cnf {count} {len(clauses)}\n" + "".join(f"{' '.join(map(str, it))} 0\n" for it in clauses)
    proof = io.BytesIO()
    solver = varisat.Solver(for_file=True, proof=proof)
    solver.read_dimacs(io.BytesIO(text.encode()))
    answer = solver.solve()
    if not answer:
        solver.close_proof()
    name = folder / f"{number:03}"
    name.with_suffix(".cnf").write_text(text)
    name.with_suffix(".out").write_bytes(" ".join(map(str, solver.get_model())).encode() if answer else proof.getvalue())
