// IPASIR's calls over Debian's libminisat, without preprocessing.
#include "../../contrib/ipasir/ipasir.h"

#include <minisat/core/Solver.h>

#include <set>

using namespace Minisat;

namespace {

struct Client {
    Solver solver;
    vec<Lit> clause, assumptions;
    std::set<Lit> failed;

    Lit literal(int32_t number) {
        while (solver.nVars() < (number < 0 ? -number : number))
            solver.newVar();
        return mkLit((number < 0 ? -number : number) - 1, number < 0);
    }
};

Client &client(void *solver) { return *static_cast<Client *>(solver); }

} // namespace

extern "C" {

const char *ipasir_signature(void) { return "minisat-2.2.1"; }

void *ipasir_init(void) { return new Client; }

void ipasir_release(void *solver) { delete &client(solver); }

void ipasir_add(void *solver, int32_t number) {
    Client &c = client(solver);
    if (number) {
        c.clause.push(c.literal(number));
    } else {
        c.solver.addClause(c.clause);
        c.clause.clear();
    }
}

void ipasir_assume(void *solver, int32_t number) {
    Client &c = client(solver);
    c.assumptions.push(c.literal(number));
}

int ipasir_solve(void *solver) {
    Client &c = client(solver);
    bool is_satisfiable = c.solver.solve(c.assumptions);
    c.assumptions.clear();
    if (!is_satisfiable) {
        c.failed.clear();
        for (int i = 0; i < c.solver.conflict.size(); i++)
            c.failed.insert(~c.solver.conflict[i]);
    }
    return is_satisfiable ? 10 : 20;
}

int32_t ipasir_val(void *solver, int32_t number) {
    Client &c = client(solver);
    lbool value = c.solver.modelValue(c.literal(number));
    return value == l_True ? number : value == l_False ? -number : 0;
}

int ipasir_failed(void *solver, int32_t number) {
    Client &c = client(solver);
    return c.failed.count(c.literal(number)) > 0;
}

void ipasir_set_terminate(void *, void *, int (*)(void *)) {}

void ipasir_set_learn(void *, void *, int, void (*)(void *, int32_t *)) {}
}
