/// varisat.hpp: the solver of varisat.h as C++ classes, from C++17 on. What varisat.h says of a call holds here too, but a refusal is an
/// exception: std::bad_alloc if memory ran out, otherwise an Error.
#ifndef VARISAT_HPP
#define VARISAT_HPP

#include <exception>
#include <functional>
#include <initializer_list>
#include <iterator>
#include <memory>
#include <new>
#include <stdexcept>
#include <string>
#include <string_view>
#include <type_traits>
#include <utility>
#include <vector>

#include "varisat.h"

// The name varisat is a type of varisat.h.
namespace varisat_cpp {

/// A refusal: a number of varisat.h and a text.
struct Error : std::runtime_error {
    Error(int number, const std::string &text, uint64_t place = 0) : std::runtime_error(text), number(number), place(place) {}
    int number;
    /// Where check_proof found a fault: a line of the text, or a step or a byte of the proof.
    uint64_t place;
};

/// Returns the answer of a call, or throws what it is an error of.
inline int checked(int answer, const char *text = "", uint64_t place = 0) {
    if (answer == VARISAT_OUT_OF_MEMORY) throw std::bad_alloc();
    if (answer < 0) throw Error(answer, *text ? text : varisat_strerror(answer), place);
    return answer;
}

/// A list of literals that is given: a vector, an array, a std::span or {1, -2}, or whatever else keeps its int32_t in one block.
class Literals {
    template <class List> using member = std::remove_cv_t<std::remove_pointer_t<decltype(std::data(std::declval<const List &>()))>>;

public:
    template <class List, class = std::enable_if_t<std::is_same_v<member<List>, int32_t>>>
    Literals(const List &list) : first(std::data(list)), count(std::size(list)) {}
    Literals(std::initializer_list<int32_t> list) : first(std::data(list)), count(list.size()) {}
    const int32_t *first;
    std::size_t count;
};

/// What a search found out. After `unknown`, which is an interrupted search, the next one goes on.
enum class Verdict { unknown = VARISAT_UNKNOWN, satisfiable = VARISAT_SATISFIABLE, unsatisfiable = VARISAT_UNSATISFIABLE };

/// A solver of growing formulas. It can be moved, but not copied. What a function throws that it calls comes out of the call.
class Solver {
public:
    /// A solver that takes at most so many bytes of memory; 0 sets no limit.
    explicit Solver(std::size_t heap_limit = 0) : calls(std::make_unique<Calls>()), solver(varisat_new(heap_limit)) {
        if (!solver) throw std::bad_alloc();
    }
    /// The solver of varisat.h, for calls that are not here.
    varisat *get() const noexcept { return solver.get(); }
    bool is_valid() { return done(varisat_is_valid(get())) == 1; }

    void add_clause(Literals clause) { done(varisat_add_clause(get(), clause.first, clause.count)); }
    /// Accepts clauses, each of which a 0 ends.
    void add_clauses(Literals numbers) { done(varisat_add_clauses(get(), numbers.first, numbers.count)); }
    /// Reads a DIMACS CNF text from an open file, and returns the highest variable of its header and its literals.
    int read_dimacs_fd(int fd) { return done(varisat_read_dimacs_fd(get(), fd)); }

    /// Assumes these literals in all searches, until others replace them.
    void assume(Literals literals) { done(varisat_assume(get(), literals.first, literals.count)); }
    Verdict solve() { return Verdict(done(varisat_solve(get()))); }
    Verdict solve_steps(uint64_t steps) { return Verdict(done(varisat_solve_steps(get(), steps))); }
    void interrupt() noexcept { varisat_interrupt(get()); }
    /// Interrupts searches once the function returns true, which they ask every 1000 steps. An empty function is not asked.
    void set_terminate(std::function<bool()> function) {
        done(varisat_set_terminate(get(), function ? ask : nullptr, calls.get()));
        calls->terminate = std::move(function);
    }

    /// The variables in use with their values. An Error with VARISAT_NOTHING if there is no model.
    std::vector<int32_t> model() { return list(varisat_model(get(), nullptr, 0)); }
    /// Whether the literal is true in the model. An Error with VARISAT_NOTHING if there is no model, or it has no such variable.
    bool value(int32_t literal) { return done(varisat_value(get(), literal)) == 1; }
    /// Some of the assumptions, which fail together with the clauses. An Error with VARISAT_NOTHING if there is no core.
    std::vector<int32_t> failed_core() { return list(varisat_failed_core(get(), nullptr, 0)); }
    /// Whether the literal is one of the core. An Error with VARISAT_NOTHING if there is no core.
    bool is_failed(int32_t literal) { return done(varisat_is_failed(get(), literal)) == 1; }

    /// Whether the literal is fixed: the clauses entail it. False if no search and no clause of one literal has fixed it yet.
    bool fixed(int32_t literal) { return done(varisat_fixed(get(), literal)) == 1; }

    /// Brings the least free variable into use, and returns it.
    int32_t new_var() { return done(varisat_new_var(get())); }
    void witness_var(int32_t variable) { done(varisat_witness_var(get(), variable)); }
    void sample_var(int32_t variable) { done(varisat_sample_var(get(), variable)); }
    void hide_var(int32_t variable) { done(varisat_hide_var(get(), variable)); }
    /// Brings hidden variables back as witnesses, and returns their new names.
    std::vector<int32_t> observe_internal_vars() { return list(varisat_observe_internal_vars(get(), nullptr, 0)); }
    /// Has searches decide the literal's variable first so that the literal is true, and ends that. No verdict depends on it.
    void set_phase(int32_t literal) { done(varisat_set_phase(get(), literal)); }
    void unset_phase(int32_t variable) { done(varisat_unset_phase(get(), variable)); }
    /// The highest variable that a call named or returned.
    int32_t var_count() { return done(varisat_var_count(get())); }

    /// Changes a setting by its name, such as "vsids_decay".
    void set(const std::string &name, uint64_t value) { done(varisat_set_named(get(), name.c_str(), value)); }
    void set_for_file() { done(varisat_set_for_file(get())); }
    uint64_t count(varisat_counter counter) {
        uint64_t count = varisat_count(get(), counter);
        return done(varisat_last_error()), count;
    }

    /// Writes a proof by the function, which throws if it cannot take all bytes: the solver is invalid after that.
    void write_proof(varisat_format format, std::function<void(const void *, std::size_t)> function) {
        done(varisat_write_proof(get(), format, take, calls.get()));
        calls->write = std::move(function);
    }
    void write_proof_fd(varisat_format format, int fd) { done(varisat_write_proof_fd(get(), format, fd)); }
    void close_proof() { done(varisat_close_proof(get())); }
    void self_check() { done(varisat_self_check(get())); }

private:
    struct Calls {
        std::function<bool()> terminate;
        std::function<void(const void *, std::size_t)> write;
        std::exception_ptr thrown;
    };
    struct Free {
        void operator()(varisat *solver) const noexcept { varisat_free(solver); }
    };
    /// It stays at one place while the solver is moved, as the library has its address.
    std::unique_ptr<Calls> calls;
    std::unique_ptr<varisat, Free> solver;

    /// Makes a call in C's stead: no exception may pass through C. Returns 1 if there was one.
    template <class Call> static int guarded(void *data, Call call) noexcept {
        try {
            return call(*static_cast<Calls *>(data));
        } catch (...) {
            static_cast<Calls *>(data)->thrown = std::current_exception();
            return 1;
        }
    }
    static int ask(void *data) noexcept {
        return guarded(data, [](Calls &calls) { return calls.terminate() ? 1 : 0; });
    }
    static int take(void *data, const void *bytes, std::size_t size) noexcept {
        return guarded(data, [=](Calls &calls) { return calls.write(bytes, size), 0; });
    }
    int done(int answer) {
        if (calls && calls->thrown) std::rethrow_exception(std::exchange(calls->thrown, nullptr));
        return checked(answer, answer == VARISAT_BUSY ? "" : varisat_error_text(get()));
    }
    std::vector<int32_t> list(int count) {
        std::vector<int32_t> numbers(static_cast<std::size_t>(done(count)));
        done(varisat_last_list(get(), numbers.data(), numbers.size()));
        return numbers;
    }
};

/// Makes clauses shorter before a solver takes them. Freeze what later clauses or assumptions name: other variables may be removed.
class Simplifier {
public:
    explicit Simplifier(std::size_t heap_limit = 0) : simplifier(varisat_simplifier_new(heap_limit)) {
        if (!simplifier) throw std::bad_alloc();
    }
    varisat_simplifier *get() const noexcept { return simplifier.get(); }
    void add_clause(Literals clause) { checked(varisat_simplifier_add_clause(get(), clause.first, clause.count)); }
    void add_clauses(Literals numbers) { checked(varisat_simplifier_add_clauses(get(), numbers.first, numbers.count)); }
    void freeze(int32_t variable) { checked(varisat_simplifier_freeze(get(), variable)); }
    void simplify() { checked(varisat_simplifier_simplify(get())); }
    /// The clauses that are left, each ended by a 0.
    std::vector<int32_t> clauses() {
        return list([&](int32_t *numbers, std::size_t room) { return varisat_simplifier_clauses(get(), numbers, room); });
    }
    /// A model of all clauses, from one of the clauses that are left.
    std::vector<int32_t> extend(Literals model) {
        return list([&](int32_t *numbers, std::size_t room) { return varisat_simplifier_extend(get(), model.first, model.count, numbers, room); });
    }

private:
    struct Free {
        void operator()(varisat_simplifier *simplifier) const noexcept { varisat_simplifier_free(simplifier); }
    };
    std::unique_ptr<varisat_simplifier, Free> simplifier;

    template <class Call> static std::vector<int32_t> list(Call call) {
        std::vector<int32_t> numbers(static_cast<std::size_t>(checked(call(nullptr, 0))));
        checked(call(numbers.data(), numbers.size()));
        return numbers;
    }
};

/// Whether the proof refutes the clauses of the DIMACS CNF text. False: all its lines are right, and refute nothing.
inline bool check_proof(varisat_format format, std::string_view text, std::string_view proof) {
    uint64_t place = 0;
    int answer = varisat_check_proof(format, text.data(), text.size(), proof.data(), proof.size(), &place);
    return checked(answer, "", place) == VARISAT_UNSATISFIABLE;
}

} // namespace varisat_cpp

#endif
