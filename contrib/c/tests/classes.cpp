// Each call of varisat.hpp, used rightly and wrongly.
#include "../varisat.hpp"

#include <array>
#include <cstdio>
#include <cstdlib>
#include <cstring>
#include <fcntl.h>
#include <unistd.h>
#if __cplusplus >= 202002L
#include <span>
#endif

#define CHECK(it) ((it) ? (void)0 : (printf("%s:%d: %s\n", __FILE__, __LINE__, #it), exit(1)))

using namespace varisat_cpp;
using Numbers = std::vector<int32_t>;

/// The number of the Error that the call throws: 0 if it throws none, and VARISAT_OUT_OF_MEMORY for std::bad_alloc.
template <class Call> static int error_of(Call call) {
    try {
        call();
        return 0;
    } catch (const Error &error) {
        CHECK(*error.what());
        return error.number;
    } catch (const std::bad_alloc &) {
        return VARISAT_OUT_OF_MEMORY;
    }
}

static void add_pigeons(Solver &solver, int n) {
    for (int p = 0; p < n; p++) {
        Numbers clause;
        for (int h = 0; h < n - 1; h++) clause.push_back(p * (n - 1) + h + 1);
        solver.add_clause(clause);
    }
    for (int h = 0; h < n - 1; h++)
        for (int p = 0; p < n; p++)
            for (int q = 0; q < p; q++) solver.add_clause({-(p * (n - 1) + h + 1), -(q * (n - 1) + h + 1)});
}

static void lists() {
    Solver solver;
    const int32_t pair[] = {-1, 2};
    const std::array<int32_t, 4> two = {-2, -3, 0, 0};
    solver.add_clause(pair);
#if __cplusplus >= 202002L
    solver.add_clauses(std::span(two).first(3));
    static_assert(!std::is_constructible_v<Literals, std::vector<int64_t>> && !std::is_constructible_v<Literals, int32_t>);
#else
    solver.add_clauses(Numbers(two.begin(), two.begin() + 3));
#endif
    solver.add_clause({1, 3});
    solver.assume(Numbers{1, 2});
    CHECK(solver.solve() == Verdict::satisfiable && (solver.model() == Numbers{1, 2, -3}) && solver.value(-3) && !solver.value(3));
    solver.assume({1, 3});
    CHECK(solver.solve() == Verdict::unsatisfiable && solver.failed_core().size() == 2 && solver.is_failed(3) && !solver.is_failed(2));
    CHECK(error_of([&] { solver.model(); }) == VARISAT_NOTHING && error_of([&] { solver.value(1); }) == VARISAT_NOTHING);
    solver.set_phase(-1);
    solver.unset_phase(1);
    CHECK(error_of([&] { solver.set_phase(0); }) == VARISAT_BAD_ARGUMENT && error_of([&] { solver.unset_phase(-1); }) == VARISAT_BAD_ARGUMENT);
    CHECK(!solver.fixed(1) && error_of([&] { solver.fixed(0); }) == VARISAT_BAD_ARGUMENT);
    solver.assume({});
    CHECK(solver.solve() == Verdict::satisfiable && solver.is_valid() && solver.var_count() == 3);
    solver.add_clause({});
    CHECK(solver.solve() == Verdict::unsatisfiable && solver.failed_core().empty());
}

static void refusals() {
    Solver solver;
    CHECK(error_of([&] { solver.add_clause({1, 0}); }) == VARISAT_BAD_ARGUMENT);
    CHECK(error_of([&] { solver.set("vsids_decay", 3); }) == VARISAT_OUT_OF_RANGE && error_of([&] { solver.set("decay", 3); }) == VARISAT_BAD_ARGUMENT);
    CHECK(error_of([&] { solver.read_dimacs_fd(-1); }) == VARISAT_READ_FAILED && error_of([&] { solver.close_proof(); }) == VARISAT_NOTHING);
    CHECK(error_of([&] { solver.count(varisat_counter(99)); }) == VARISAT_BAD_ARGUMENT && solver.count(VARISAT_STEPS) == 0);
    CHECK(error_of([] { Solver small(1); }) == VARISAT_OUT_OF_MEMORY && error_of([] { Simplifier small(1); }) == VARISAT_OUT_OF_MEMORY);
    Solver limited(10000);
    CHECK(error_of([&] { add_pigeons(limited, 20); }) == VARISAT_OUT_OF_MEMORY && !limited.is_valid());
    CHECK(error_of([&] { limited.solve(); }) == VARISAT_INVALID);
    solver.set_for_file(), solver.set("restart_glue", 0);
    // What was moved has no solver.
    Solver moved = std::move(solver);
    moved.add_clause({1});
    CHECK(moved.solve() == Verdict::satisfiable && error_of([&] { solver.solve(); }) == VARISAT_BAD_ARGUMENT);
    moved = Solver();
    CHECK(moved.var_count() == 0);
    static_assert(!std::is_copy_constructible_v<Solver> && !std::is_copy_assignable_v<Solver> && !std::is_copy_constructible_v<Simplifier>);
}

static void variables() {
    Solver solver;
    solver.add_clause({1, 2});
    solver.hide_var(2);
    solver.add_clause({-2});
    CHECK(solver.solve() == Verdict::satisfiable && (solver.observe_internal_vars() == Numbers{3}));
    CHECK(error_of([&] { solver.add_clause({3}); }) == VARISAT_WITNESS_VAR);
    solver.sample_var(3), solver.add_clause({-3}), solver.witness_var(1);
    CHECK(solver.solve() == Verdict::satisfiable && solver.value(1) && solver.new_var() == 4);
}

static void functions() {
    Solver solver;
    add_pigeons(solver, 12);
    CHECK(solver.solve_steps(10) == Verdict::unknown && solver.count(VARISAT_STEPS) == 10);
    int asked = 0;
    solver.set_terminate([&] { return ++asked == 2; });
    Solver moved = std::move(solver);
    CHECK(moved.solve() == Verdict::unknown && asked == 2);
    // An exception of the function, after which the solver goes on; and a call of the function's own.
    moved.set_terminate([]() -> bool { throw 7; });
    try {
        moved.solve();
        CHECK(false);
    } catch (int thrown) {
        CHECK(thrown == 7 && moved.is_valid());
    }
    moved.set_terminate([&] { return moved.add_clause({1}), false; });
    CHECK(error_of([&] { moved.solve(); }) == VARISAT_BUSY);
    moved.set_terminate(nullptr);
    moved.interrupt();
    CHECK(moved.solve() == Verdict::unknown && moved.solve_steps(1000) == Verdict::unknown);
}

static void proofs() {
    const char text[] = "1 2 0 -1 2 0 1 -2 0 -1 -2 0";
    std::string proof;
    Solver solver;
    auto keep = [&](const void *bytes, std::size_t size) { proof.append(static_cast<const char *>(bytes), size); };
    solver.write_proof(VARISAT_DRAT, keep);
    // The function of the open proof stays.
    CHECK(error_of([&] { solver.write_proof(VARISAT_DRAT, nullptr); }) == VARISAT_PROOF_OPEN);
    int ends[2];
    CHECK(!pipe(ends) && write(ends[1], text, strlen(text)) == (ssize_t)strlen(text) && !close(ends[1]));
    CHECK(solver.read_dimacs_fd(ends[0]) == 2 && !close(ends[0]) && solver.solve() == Verdict::unsatisfiable);
    solver.close_proof();
    CHECK(check_proof(VARISAT_DRAT, text, proof) && !check_proof(VARISAT_DRAT, "1 2 0", ""));
    try {
        check_proof(VARISAT_DRAT, "1 2 0", "3 4 0\n-3 0\n0\n");
        CHECK(false);
    } catch (const Error &error) {
        CHECK(error.number == VARISAT_WRONG_PROOF && error.place == 2 && strstr(error.what(), "wrong"));
    }
    Solver full;
    full.write_proof(VARISAT_DRAT, [](const void *, std::size_t) { throw std::string("full"); });
    try {
        add_pigeons(full, 6);
        full.solve();
        CHECK(false);
    } catch (const std::string &thrown) {
        CHECK(thrown == "full" && !full.is_valid() && error_of([&] { full.solve(); }) == VARISAT_INVALID);
    }
    Solver file;
    int fd = open("/dev/null", O_WRONLY);
    file.write_proof_fd(VARISAT_BINARY_DRAT, fd);
    file.add_clauses({1, 0, -1, 0});
    CHECK(file.solve() == Verdict::unsatisfiable && (file.close_proof(), !close(fd)));
    Solver checking;
    checking.self_check(), add_pigeons(checking, 5);
    CHECK(checking.solve() == Verdict::unsatisfiable);
}

static void simplifiers() {
    Simplifier simplifier;
    CHECK(error_of([&] { simplifier.clauses(); }) == VARISAT_NOTHING && error_of([&] { simplifier.freeze(0); }) == VARISAT_BAD_ARGUMENT);
    simplifier.add_clauses({1, 2, 0, -2, 3, 0}), simplifier.add_clause({1, 3, -3}), simplifier.freeze(1), simplifier.freeze(3);
    simplifier.simplify();
    CHECK(simplifier.clauses().size() == 3 && (simplifier.extend({3, -1}) == Numbers{-1, 2, 3}));
    CHECK(error_of([&] { simplifier.add_clause({1}); }) == VARISAT_SIMPLIFIED);
    Simplifier none = std::move(simplifier);
    CHECK(none.clauses().size() == 3);
    Simplifier empty;
    empty.simplify();
    CHECK(empty.clauses().empty() && empty.extend({}).empty());
}

int main() {
    lists(), refusals(), variables(), functions(), proofs(), simplifiers();
    printf("all passed as C++ %ld\n", __cplusplus / 100);
}
