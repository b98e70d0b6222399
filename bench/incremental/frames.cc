// Bounded model checking of a circuit through IPASIR, so that any solver that has it can be linked.
//
//   frames FILE COUNT
//
// FILE has a circuit in the format AIGER, as text or binary: bad states (or outputs, if it has none) and constraints. Each frame brings
// three clauses for each gate that a bad state or a constraint depends on in some frame, a unit clause for each constraint, and a clause
// by which a new literal implies that the frame reaches a bad state. One search assumes that literal; if it is unsatisfiable, a unit
// clause makes the literal false for good. The program ends after COUNT frames or with the first one that reaches a bad state. Then the
// circuit is run on the inputs of the model, and has to reach a bad state while all constraints hold.
//
// It prints the CPU time in milliseconds, the largest resident size in KiB, and a letter for each frame: u if it was unsatisfiable, s if
// it was satisfiable.
#include "client.h"

#include <cstring>
#include <initializer_list>
#include <string>
#include <vector>

namespace {

// Literals of a circuit are twice the variable, and one more if they are negated. Variable 0 is false.
struct Latch {
    unsigned literal, next, reset;
};

struct Gate {
    unsigned literal, left, right;
};

struct Circuit {
    unsigned variables;
    std::vector<unsigned> inputs, bad, constraints;
    std::vector<Latch> latches;
    std::vector<Gate> gates;
};

unsigned read_number(FILE *file) {
    unsigned number;
    if (fscanf(file, "%u", &number) != 1)
        stop("the file lacks a number");
    return number;
}

std::vector<unsigned> read_numbers(FILE *file, unsigned count) {
    std::vector<unsigned> numbers;
    while (numbers.size() < count)
        numbers.push_back(read_number(file));
    return numbers;
}

// Gates of binary files are differences of literals, of which each byte has seven bits, the lowest first.
unsigned read_difference(FILE *file) {
    unsigned number = 0;
    for (int shift = 0;; shift += 7) {
        int byte = getc(file);
        if (byte == EOF)
            stop("the file ends within the gates");
        number |= (unsigned)(byte & 127) << shift;
        if (byte < 128)
            return number;
    }
}

// A latch without a value to begin with begins as false.
Latch read_latch(FILE *file, unsigned literal) {
    Latch latch = {literal, 0, 0};
    char line[64];
    if (!fgets(line, sizeof line, file) || sscanf(line, "%u %u", &latch.next, &latch.reset) < 1)
        stop("the file lacks a latch");
    return latch;
}

Circuit read_circuit(const char *name) {
    FILE *file = fopen(name, "rb");
    char line[256], format[4];
    unsigned variables, inputs, latches, outputs, gates, bad = 0, constraints = 0;
    if (!file || !fgets(line, sizeof line, file) ||
        sscanf(line, "%3s %u %u %u %u %u %u %u", format, &variables, &inputs, &latches, &outputs, &gates, &bad, &constraints) < 6)
        stop("the file has no circuit");
    bool is_binary = !strcmp(format, "aig");
    Circuit circuit = {variables, {}, {}, {}, {}, {}};
    unsigned next = 2;
    for (unsigned k = 0; k < inputs; k++, next += 2)
        circuit.inputs.push_back(is_binary ? next : read_number(file));
    for (unsigned k = 0; k < latches; k++, next += 2)
        circuit.latches.push_back(read_latch(file, is_binary ? next : read_number(file)));
    circuit.bad = read_numbers(file, outputs);
    if (bad)
        circuit.bad = read_numbers(file, bad);
    circuit.constraints = read_numbers(file, constraints);
    if (circuit.bad.empty())
        stop("the circuit has no bad state");
    for (int byte = 0; is_binary && byte != '\n' && byte != EOF;)
        byte = getc(file);
    for (unsigned k = 0; k < gates; k++, next += 2) {
        Gate gate = {is_binary ? next : read_number(file), 0, 0};
        gate.left = is_binary ? gate.literal - read_difference(file) : read_number(file);
        gate.right = is_binary ? gate.left - read_difference(file) : read_number(file);
        circuit.gates.push_back(gate);
    }
    fclose(file);
    return circuit;
}

// The variables that bad states and constraints depend on, in some frame. Each gate of an AIGER file follows those that it reads.
std::vector<bool> find_needed(const Circuit &circuit) {
    std::vector<bool> is_needed(circuit.variables + 1);
    for (unsigned literal : circuit.bad)
        is_needed[literal / 2] = true;
    for (unsigned literal : circuit.constraints)
        is_needed[literal / 2] = true;
    for (bool grows = true; grows;) {
        grows = false;
        for (auto gate = circuit.gates.rbegin(); gate != circuit.gates.rend(); ++gate)
            if (is_needed[gate->literal / 2])
                is_needed[gate->left / 2] = is_needed[gate->right / 2] = true;
        for (const Latch &latch : circuit.latches)
            if (is_needed[latch.literal / 2] && !is_needed[latch.next / 2])
                is_needed[latch.next / 2] = grows = true;
    }
    return is_needed;
}

// The circuit without what no bad state and no constraint depends on.
Circuit reduced(const Circuit &circuit) {
    std::vector<bool> is_needed = find_needed(circuit);
    Circuit left = {circuit.variables, {}, circuit.bad, circuit.constraints, {}, {}};
    for (unsigned literal : circuit.inputs)
        if (is_needed[literal / 2])
            left.inputs.push_back(literal);
    for (const Latch &latch : circuit.latches)
        if (is_needed[latch.literal / 2])
            left.latches.push_back(latch);
    for (const Gate &gate : circuit.gates)
        if (is_needed[gate.literal / 2])
            left.gates.push_back(gate);
    return left;
}

// The circuit's literals in one frame: for each variable a literal of the solver.
struct Frame {
    std::vector<int> of_variable;

    int literal(unsigned literal) const { return literal & 1 ? -of_variable[literal / 2] : of_variable[literal / 2]; }
};

struct Unrolling {
    const Circuit &circuit;
    void *solver = ipasir_init();
    int variables = 0;
    int truth = new_variable();
    std::vector<Frame> frames;

    explicit Unrolling(const Circuit &unrolled) : circuit(unrolled) { add({truth}); }

    int new_variable() { return ++variables; }

    void add(std::initializer_list<int> clause) {
        for (int literal : clause)
            ipasir_add(solver, literal);
        ipasir_add(solver, 0);
    }

    // In the first frame a latch that begins with no known value is free.
    int first_literal(const Latch &latch) { return latch.reset == 0 ? -truth : latch.reset == 1 ? truth : new_variable(); }

    void add_frame() {
        Frame frame = {std::vector<int>(circuit.variables + 1)};
        frame.of_variable[0] = -truth;
        for (const Latch &latch : circuit.latches)
            frame.of_variable[latch.literal / 2] = frames.empty() ? first_literal(latch) : frames.back().literal(latch.next);
        for (unsigned literal : circuit.inputs)
            frame.of_variable[literal / 2] = new_variable();
        for (const Gate &gate : circuit.gates) {
            int left = frame.literal(gate.left), right = frame.literal(gate.right);
            int both = frame.of_variable[gate.literal / 2] = new_variable();
            add({-both, left});
            add({-both, right});
            add({both, -left, -right});
        }
        for (unsigned literal : circuit.constraints)
            add({frame.literal(literal)});
        frames.push_back(frame);
    }

    // Whether the last frame reaches a bad state. If not, no later search has to ask that again.
    bool reaches() {
        int asked = new_variable();
        ipasir_add(solver, -asked);
        for (unsigned literal : circuit.bad)
            ipasir_add(solver, frames.back().literal(literal));
        ipasir_add(solver, 0);
        ipasir_assume(solver, asked);
        int answer = ipasir_solve(solver);
        if (answer != 10 && answer != 20)
            stop("a search came to no end");
        if (answer == 20)
            add({-asked});
        return answer == 10;
    }

    bool is_true(int literal) { return (ipasir_val(solver, abs(literal)) > 0) == (literal > 0); }

    bool begins_true(const Latch &latch) {
        return latch.reset == 1 || (latch.reset != 0 && is_true(frames[0].literal(latch.literal)));
    }

    // Runs the circuit on the inputs of the model, and on its values of latches that are free at first.
    void check_model() {
        std::vector<bool> values(circuit.variables + 1), before;
        auto holds = [](const std::vector<bool> &of, unsigned literal) { return of[literal / 2] != (literal & 1); };
        for (const Frame &frame : frames) {
            before = values;
            for (const Latch &latch : circuit.latches)
                values[latch.literal / 2] = &frame == &frames[0] ? begins_true(latch) : holds(before, latch.next);
            for (unsigned literal : circuit.inputs)
                values[literal / 2] = is_true(frame.literal(literal));
            for (const Gate &gate : circuit.gates)
                values[gate.literal / 2] = holds(values, gate.left) && holds(values, gate.right);
            for (unsigned literal : circuit.constraints)
                if (!holds(values, literal))
                    stop("a constraint does not hold in the run of the model");
        }
        for (unsigned literal : circuit.bad)
            if (holds(values, literal))
                return;
        stop("the run of the model reaches no bad state");
    }
};

// The largest resident size. That of `getrusage` counts the process from which this one was started too.
long peak_kibibytes() {
    FILE *file = fopen("/proc/self/status", "r");
    char line[256];
    long peak = 0;
    while (file && fgets(line, sizeof line, file) && sscanf(line, "VmHWM: %ld", &peak) != 1) {
    }
    if (!peak)
        stop("/proc/self/status has no peak of the resident size");
    fclose(file);
    return peak;
}

} // namespace

int main(int count, char **words) {
    if (count != 3)
        stop("usage: frames FILE COUNT");
    double began = milliseconds();
    Circuit circuit = reduced(read_circuit(words[1]));
    Unrolling unrolling(circuit);
    std::string answers;
    bool is_reached = false;
    while (!is_reached && (int)answers.size() < atoi(words[2])) {
        unrolling.add_frame();
        is_reached = unrolling.reaches();
        answers += is_reached ? 's' : 'u';
        if (getenv("FRAMES_SHOWN"))
            fprintf(stderr, "%zu frames, %d variables: %.0f ms\n", answers.size(), unrolling.variables, milliseconds() - began);
    }
    if (is_reached)
        unrolling.check_model();
    printf("%.1f %ld %s\n", milliseconds() - began, peak_kibibytes(), answers.c_str());
    ipasir_release(unrolling.solver);
    return 0;
}
