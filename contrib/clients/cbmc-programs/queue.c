// cbmc: --unwind 9 --unwinding-assertions --bounds-check --pointer-check
// A ring of four places: eight calls in any order lose nothing and give what was put first; a ring that forgets that it is full fails.
#include <assert.h>

_Bool nondet_bool(void);
int nondet_int(void);

static int ring[4], next, count, put_first[8], put, got;

int main(void) {
    for (int i = 0; i < 8; i++) {
        if (nondet_bool() && count < 4) {
            int it = nondet_int();
            ring[(next + count) % 4] = it;
            put_first[put++] = it;
            count++;
        } else if (count > 0) {
            assert(ring[next] == put_first[got++]);
            next = (next + 1) % 4;
            count--;
        }
        assert(count == put - got && count >= 0 && count <= 4);
    }
    assert(count < 4);
    return 0;
}
