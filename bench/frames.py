"""How long a model checker takes that unrolls circuits frame by frame through IPASIR, beside the libraries of minisat and CaDiCaL."""
import os
import shutil
import statistics
import subprocess
import tempfile
from dataclasses import dataclass

import clients
import incremental
import learning
import programs

SUMMARY = "times bounded model checking of circuits, frame by frame through IPASIR, beside minisat and cadical where they are there"
SOURCES = f"{programs.ROOT}/bench/circuits"
# Ours divided by the fastest peer: what it is to be at most in the mean, and for each circuit.
MEAN, EACH = 0.55, 0.8
# How Yosys turns a circuit into gates of two inputs: first into registers and small cells. Then what nothing drives is made zero, and so
# is each first value that is not given, unless the Verilog has assertions, which have to hold of any.
LOWER = "memory_map; opt -full; techmap; opt; async2sync; dffunmap; "
ZERO = "setundef -zero -undriven -init; "
GATES = "simplemap; abc -g AND -fast; opt_clean; write_aiger -zinit out"


@dataclass
class Circuit:
    """The files that Yosys reads, the module on top, its parameters, how many frames are asked for at most, and what they come to: so many
    are unsatisfiable, and then one is satisfiable, or else none."""

    sources: list
    top: str
    parameters: dict
    frames: int
    answers: str
    # Whether the bad states are those of the assertions in the Verilog, and what it assumes holds. Else they are those of an output.
    has_assertions: bool = False


# The Verilog of picorv32, which bench/peers fetched, or another file.
CORE = "picorv32.v"
CIRCUITS = {
    "picorv32-assert": Circuit([CORE], "picorv32", {"ENABLE_COUNTERS": 0, "ENABLE_REGS_16_31": 0}, 20, 20 * "u", has_assertions=True),
    "picorv32-store": Circuit([CORE, f"{SOURCES}/store.v"], "store", {}, 30, 16 * "u" + "s"),
    "queues": Circuit([f"{clients.SOURCES}/queue.v", f"{SOURCES}/queues.v"], "queues", {"WIDTH": 4, "BITS": 3}, 12, 12 * "u"),
    "puzzle": Circuit([f"{SOURCES}/puzzle.v"], "puzzle", {"START": "36'h543678021", "GAP": 2}, 30, 18 * "u" + "s"),
}


@dataclass
class Checked:
    """The milliseconds of the processor, the largest resident size in KiB, and the answer to each frame: u or s."""

    taken: float
    memory: int
    answers: str


def add_arguments(command):
    command.add_argument("--repetitions", type=learning.positive, default=3, help="turns of all solvers (3)")
    command.add_argument("--only", action="append", choices=CIRCUITS, metavar="NAME", help=f"this circuit, and others named so: {', '.join(CIRCUITS)}")
    command.add_argument("--core", metavar="FILE", help="the Verilog of picorv32, for two of the circuits (that which bench/peers fetched)")
    programs.add_against(command)


def write_circuit(path, circuit, core):
    """Has Yosys write the circuit in AIGER. It reads copies, as the names of files order the gates."""
    sizes = "".join(f"chparam -set {name} {value} {circuit.top}; " for name, value in circuit.parameters.items())
    reads = " ".join(["-formal"] * circuit.has_assertions + [os.path.basename(source) for source in circuit.sources])
    with tempfile.TemporaryDirectory() as folder:
        for source in circuit.sources:
            shutil.copy(core if source == CORE else source, f"{folder}/{os.path.basename(source)}")
        script = f"read_verilog {reads}; {sizes}prep -top {circuit.top} -flatten; {LOWER}{'' if circuit.has_assertions else ZERO}{GATES}"
        done = subprocess.run(["yosys", "-q", "-p", script], cwd=folder, stdout=subprocess.PIPE, stderr=subprocess.STDOUT, text=True)
        if done.returncode:
            programs.stop(f"yosys ended with status {done.returncode}:\n{done.stdout}")
        os.replace(f"{folder}/out", path)


def check(program, path, circuit):
    """What a run of the model checker comes to, which has to be what is known of the circuit."""
    taken, memory, answers = incremental.must_run([program, path, str(circuit.frames)]).split()
    if answers != circuit.answers:
        programs.stop(f"{os.path.basename(program)} answers {answers}, not {circuit.answers}")
    return Checked(float(taken), int(memory), answers)


def print_heads(names):
    print(f"{'circuit':16} {'frames':>6} {'answer':>6}" + "".join(f" {name + ', s':>16} {'MiB':>5}" for name in names) + f" {'ours / the fastest peer':>24}")


def print_circuit(name, circuit, names, turns):
    """Prints the row of a circuit, and gives the mean seconds of each solver."""
    row = f"{name:16} {len(circuit.answers):6} {'sat' if circuit.answers[-1] == 's' else 'unsat':>6}"
    means = {}
    for solver, runs in zip(names, zip(*turns)):
        means[solver] = statistics.mean(run.taken for run in runs) / 1000
        row += f" {means[solver]:16.2f} {max(run.memory for run in runs) / 1024:5.0f}"
    print(f"{row} {ratio_to_peers(means):24.2f}" if peers_of(means) else row, flush=True)
    return means


def peers_of(means):
    return [seconds for name, seconds in means.items() if name not in ("varisat", programs.AGAINST)]


def ratio_to_peers(means):
    return means["varisat"] / min(peers_of(means))


def print_ends(rows, arguments):
    """Prints the means over the circuits, and gives the status."""
    if peers_of(rows[0]):
        ratios = [ratio_to_peers(means) for means in rows]
        told = f"{statistics.geometric_mean(ratios):.2f}, aim at most {MEAN}; the largest {max(ratios):.2f}, aim at most {EACH}"
        print(f"\nours / the fastest peer, in the geometric mean: {told}")
    if arguments.against:
        return programs.print_against([means["varisat"] / means[programs.AGAINST] for means in rows])
    return 0


def chosen(arguments):
    """The circuits that are asked for, and the file of picorv32's Verilog, or None. Without that file its circuits are left out."""
    core = arguments.core or (f"{programs.PEERS}/{CORE}" if programs.PEERS else None)
    named = {name: CIRCUITS[name] for name in arguments.only or CIRCUITS}
    circuits = {name: circuit for name, circuit in named.items() if core or CORE not in circuit.sources}
    if not circuits:
        programs.stop("there is no Verilog of picorv32: bench/peers DIR fetches it, and --peers DIR finds it")
    return circuits, core


def run(arguments):
    programs.check_tools("yosys")
    circuits, core = chosen(arguments)
    incremental.begin(arguments.repetitions, "mean")
    with tempfile.TemporaryDirectory() as folder:
        names = incremental.build(folder, "frames.cc", arguments)
        print_heads(names)
        rows = []
        for name, circuit in circuits.items():
            path = f"{folder}/{name}.aig"
            write_circuit(path, circuit, core)
            turns = [[check(f"{folder}/{solver}", path, circuit) for solver in names] for _ in range(arguments.repetitions)]
            rows.append(print_circuit(name, circuit, names, turns))
    return print_ends(rows, arguments)
