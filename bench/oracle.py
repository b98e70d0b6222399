"""Whether our session and the Rust crate answer random calls right, and how often they answer otherwise than each other."""
import collections
import itertools
import os
import random
import subprocess

import learning
import programs

SUMMARY = "compares the answers of random calls with the Rust crate's, and both with a table of all assignments"
SCRIPTS = 5000
# How many variables a script may bring into use. A set of assignments is a number with a bit for each of them.
VARIABLES = 12
ASSIGNMENTS = 1 << VARIABLES
ALL = (1 << ASSIGNMENTS) - 1
# The assignments in which each variable is true.
POSITIVE = [sum(1 << a for a in range(ASSIGNMENTS) if a >> v & 1) for v in range(VARIABLES)]
# Calls of a script behind its first clauses.
CALLS = 40
# How often each call comes. Behind most calls of solve the model or the core is asked for.
WEIGHTS = {"add": 8, "new": 2, "assume": 5, "solve": 9, "hide": 2, "observe": 2, "witness": 1, "sample": 1, "model": 1, "core": 1}
# The same in every third script: many variables are fixed, hidden and followed by others.
RECYCLING = {"add": 9, "new": 4, "assume": 7, "solve": 9, "hide": 5}
# How many scripts are recorded, and how many calls each has at least.
RECORDED = 50
RECORDED_CALLS = 20
RECORDED_HEAD = """# Answers of the Rust crate varisat 0.2.2, parted by empty lines: a call, ` = ` and its answer. The literals of a core may come in any order.
# Written by `bench/run oracle --record`: the first random scripts that the crate answers in the words of `varisat session`.
"""
# How long clauses are, there and else.
LENGTHS = [1, 2, 2, 2, 3, 3, 3, 3, 4]
RECYCLING_LENGTHS = [1, 1, 2, 2, 3]


def add_arguments(command):
    command.add_argument("--scripts", type=learning.positive, default=SCRIPTS, help=f"random scripts ({SCRIPTS})")
    command.add_argument("--seed", type=int, default=0, help="of the first script; each next one has the next (0)")
    command.add_argument("--program", help="another build of our program, and not ./varisat")
    command.add_argument("--record", metavar="FILE", help=f"write {RECORDED} scripts that both answer in the same words, as tests/crate_sessions has them")


def satisfying(literal):
    """The assignments that make a literal, a pair of a variable and a sign, true."""
    variable, sign = literal
    return POSITIVE[variable] if sign else ALL ^ POSITIVE[variable]


def satisfying_any(literals):
    found = 0
    for literal in literals:
        found |= satisfying(literal)
    return found


def satisfying_all(literals):
    found = ALL
    for literal in literals:
        found &= satisfying(literal)
    return found


class Session:
    """One of the two, with the names that its variables have there. A variable is a number below VARIABLES."""

    def __init__(self, command, tally):
        self.process = subprocess.Popen(command, stdin=subprocess.PIPE, stdout=subprocess.PIPE, stderr=subprocess.DEVNULL, text=True, bufsize=1)
        self.tally = tally
        self.lines = []
        self.answers = []
        self.names = {}
        self.hidden = []
        # Names that came back, and which of the hidden variables each may stand for.
        self.returned = []
        self.guesses = [()]
        self.ended = False

    def close(self):
        self.process.stdin.close()
        self.process.wait()
        self.process.stdout.close()

    def ask(self, *words):
        """Makes the call, and gives the words of the answer behind `ok`, or None where there is none."""
        if self.ended:
            return None
        self.lines.append(" ".join(map(str, words)))
        self.process.stdin.write(self.lines[-1] + "\n")
        answer = self.process.stdout.readline().split()
        self.answers.append(answer)
        if answer[:1] == ["ok"]:
            return answer[1:]
        self.ended = True
        self.fault("ended by " + (" ".join(answer) or "an end of its own") + f" at {words[0]}")
        return None

    def fault(self, kind):
        """Counts an answer that is not right, and keeps the shortest script that shows one of the kind."""
        self.tally.faults[kind] += 1
        kept = self.tally.shortest.get(kind)
        if kept is None or len(self.lines) < len(kept):
            self.tally.shortest[kind] = list(self.lines)

    def literal(self, literal):
        variable, sign = literal
        return self.names[variable] if sign else -self.names[variable]

    def literals(self, literals):
        return [self.literal(literal) for literal in literals]

    def read(self, words):
        """What a list of an answer says of names: a sign for each. None where it is `none`."""
        if words == ["none"]:
            return None
        return [(abs(number), number > 0) for number in map(int, words[:-1])]

    def in_use(self):
        return [*self.names.values(), *self.returned]


class Tally:
    """What the answers of one of the two came to."""

    def __init__(self):
        self.answers = collections.Counter()
        self.faults = collections.Counter()
        self.shortest = {}


class Script:
    """Random calls, made of both, and what is known of the variables: clauses, assumptions, modes."""

    def __init__(self, seed, sessions):
        self.random = random.Random(seed)
        self.sessions = sessions
        self.is_recycling = seed % 3 == 2
        self.count = 0
        self.clauses = []
        self.models = ALL
        self.assumed = []
        self.witnesses = set()
        # Whether some name stands for one of several hidden variables: then nothing more is hidden.
        self.is_open = False

    def live(self):
        return [session for session in self.sessions if not session.ended]

    def usable(self):
        """Variables that both know by a name, and that clauses may name."""
        return [v for v in self.named() if v not in self.witnesses]

    def named(self):
        return [v for v in range(self.count) if all(v in session.names for session in self.live())]

    def choose(self, most):
        usable = self.usable()
        if not usable:
            return []
        return [(self.random.choice(usable), self.random.random() < 0.5) for _ in range(most)]

    def new(self):
        if self.count == VARIABLES:
            return
        variable, self.count = self.count, self.count + 1
        for session in self.live():
            answer = session.ask("new")
            if answer is not None:
                name = int(answer[0])
                least = next(n for n in itertools.count(1) if n not in session.in_use())
                if name in session.in_use():
                    session.fault("a name that is in use is given")
                session.tally.answers["names, the least free one" if name == least else "names, another one"] += 1
                session.names[variable] = name

    def add(self):
        literals = self.choose(self.random.choice(RECYCLING_LENGTHS if self.is_recycling else LENGTHS))
        left = self.models & satisfying_any(literals)
        # Most scripts are to have models up to their end.
        if not literals or not left and self.random.random() < 0.95:
            return
        self.clauses.append(literals)
        self.models = left
        for session in self.live():
            session.ask("add", *session.literals(literals))

    def assume(self):
        self.assumed = self.choose(self.random.randrange(6))
        for session in self.live():
            session.ask("assume", *session.literals(self.assumed))

    def solve(self):
        wanted = self.models & satisfying_all(self.assumed) != 0
        for session in self.live():
            answer = session.ask("solve")
            if answer is not None:
                session.tally.answers[f"verdicts, {answer[0]}"] += 1
                if answer != ["true" if wanted else "false"]:
                    session.fault("a wrong verdict")
        if self.random.random() < 0.8:
            self.ask_list("model" if wanted else "core")

    def ask_list(self, call):
        for session in self.live():
            answer = session.ask(call)
            if answer is None:
                continue
            listed = session.read(answer)
            session.tally.answers[f"{call}s" if listed is not None else f"no {call}"] += 1
            if listed is not None:
                (self.see_model if call == "model" else self.see_core)(session, listed)

    def model(self):
        self.ask_list("model")

    def core(self):
        self.ask_list("core")

    def see_model(self, session, listed):
        if sorted(name for name, _ in listed) != sorted(session.in_use()):
            session.fault("a model without just the names in use")
            return
        signs = dict(listed)
        known = satisfying_all([(v, signs[name]) for v, name in session.names.items()])
        wanted = self.models & satisfying_all(self.assumed) & known
        fits = [guess for guess in session.guesses if wanted & satisfying_all([(v, signs[name]) for name, v in zip(session.returned, guess)])]
        if fits:
            session.guesses = fits
        else:
            session.fault("a model that is none")

    def see_core(self, session, listed):
        variables = {name: v for v, name in session.names.items()}
        core = [(variables.get(name), sign) for name, sign in listed]
        if not set(core) <= set(self.assumed):
            session.fault("a core of other literals than were assumed")
        elif self.models & satisfying_all(core):
            session.fault("a core that does not fail")

    def unassumed(self):
        assumed = {v for v, _ in self.assumed}
        return [v for v in self.named() if v not in assumed]

    def hide(self):
        variables = self.unassumed()
        if not variables or self.is_open or not self.is_recycling and len(self.sessions[0].hidden) > self.random.choice([0, 0, 2]):
            return
        variable = self.random.choice(variables)
        self.witnesses.discard(variable)
        for session in self.live():
            if session.ask("hide", session.names[variable]) is not None:
                del session.names[variable]
                session.hidden.append(variable)

    def set_mode(self, call):
        variables = self.unassumed()
        if not variables:
            return
        variable = self.random.choice(variables)
        if call == "witness":
            self.witnesses.add(variable)
        else:
            self.witnesses.discard(variable)
        for session in self.live():
            session.ask(call, session.names[variable])

    def witness(self):
        self.set_mode("witness")

    def sample(self):
        self.set_mode("sample")

    def may_stay_hidden(self, variable):
        """Whether its value is forced, or only unit clauses and tautologies name it."""
        if not all(self.models & satisfying((variable, sign)) for sign in (False, True)):
            return True
        naming = [set(clause) for clause in self.clauses if variable in dict(clause)]
        return all(len(clause) == 1 or any((v, not sign) in clause for v, sign in clause) for clause in naming)

    def observe(self):
        if self.is_open:
            return
        for session in self.live():
            answer = session.ask("observe")
            if answer is not None:
                self.take_back(session, [name for name, _ in session.read(answer)])

    def take_back(self, session, names):
        session.tally.answers["hidden variables that come back"] += len(names)
        least = sum(not self.may_stay_hidden(v) for v in session.hidden)
        if not least <= len(names) <= len(session.hidden) or len({*names, *session.in_use()}) < len(names) + len(session.in_use()):
            session.fault("hidden variables stay away, or come back under a name in use")
        elif len(names) == len(session.hidden) == 1:
            self.witnesses.add(session.hidden[0])
            session.names[session.hidden.pop()] = names[0]
        elif names:
            self.is_open = True
            session.returned = names
            session.guesses = list(itertools.permutations(session.hidden, len(names)))

    def begin(self):
        """Some variables, and in some scripts about as many clauses as leave a model."""
        for _ in range(self.random.randint(2, 4 if self.is_recycling else 8)):
            self.new()
        if not self.is_recycling and self.random.random() < 0.6:
            for _ in range(4 * self.count):
                self.add()

    def run(self):
        self.begin()
        names, weights = zip(*(RECYCLING if self.is_recycling else WEIGHTS).items())
        for call in self.random.choices(names, weights, k=CALLS):
            getattr(self, call)()
        self.solve()


def run_script(seed, commands, tallies):
    sessions = [Session(command, tally) for command, tally in zip(commands, tallies)]
    try:
        Script(seed, sessions).run()
    finally:
        for session in sessions:
            session.close()
    return sessions


def are_same(call, one, other):
    """Whether two answers to a call have the same words. The literals of a core come in any order."""
    return sorted(one) == sorted(other) if call == "core" else one == other


def record(arguments, commands):
    """Writes the first scripts that both answer in the same words: behind each call the crate's answer."""
    scripts = []
    for seed in itertools.count(arguments.seed):
        tallies = [Tally(), Tally()]
        ours, crate = run_script(seed, commands, tallies)
        same = ours.lines == crate.lines and all(are_same(*answers) for answers in zip(ours.lines, ours.answers, crate.answers))
        if same and len(crate.lines) >= RECORDED_CALLS and not any(tally.faults for tally in tallies):
            scripts.append("".join(f"{call} = {' '.join(answer)}\n" for call, answer in zip(crate.lines, crate.answers)))
        if len(scripts) == RECORDED:
            break
    with open(arguments.record, "w", encoding="utf-8") as file:
        file.write("\n".join([RECORDED_HEAD, *scripts]))
    print(f"{RECORDED} of {seed + 1 - arguments.seed} scripts are answered in the same words, and stand in {arguments.record}")
    return 0


def print_tallies(tallies):
    kinds = [kind for kind in dict.fromkeys(kind for tally in tallies for kind in tally.answers)]
    print(f"{'answers':<36} {'varisat':>9} {'crate':>9}")
    for kind in sorted(kinds):
        print(f"{kind:<36} {tallies[0].answers[kind]:>9,} {tallies[1].answers[kind]:>9,}")
    print(f"\n{'not right':<56} {'varisat':>9} {'crate':>9}")
    for kind in sorted({kind for tally in tallies for kind in tally.faults}):
        print(f"{kind:<56} {tallies[0].faults[kind]:>9,} {tallies[1].faults[kind]:>9,}")
    for name, tally in zip(("varisat", "crate"), tallies):
        for kind, lines in sorted(tally.shortest.items()):
            print(f"\n{name}: {kind}, behind {len(lines)} calls:\n  " + "\n  ".join(lines))


def run(arguments):
    if not os.path.exists(programs.CRATE_SESSION):
        programs.stop("the Rust crate is not built: cd bench/crate && cargo build --release")
    if not arguments.program:
        programs.build_ours()
    commands = [[arguments.program or programs.PROGRAM, "session"], [programs.CRATE_SESSION]]
    if arguments.record:
        return record(arguments, commands)
    tallies = [Tally(), Tally()]
    for seed in range(arguments.seed, arguments.seed + arguments.scripts):
        run_script(seed, commands, tallies)
    print(f"{arguments.scripts:,} scripts from seed {arguments.seed}\n")
    print_tallies(tallies)
    return 1 if tallies[0].faults else 0
