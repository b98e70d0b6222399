/* Random calls for memory: each block keeps its bytes, lies at a multiple of 16 and apart from the others, and all come back. */
#include "../support.c"

enum { SLOTS = 400 };

static struct {
    unsigned char *at;
    size_t size;
} slots[SLOTS];
static uint64_t state;

static uint64_t below(uint64_t n) {
    state = state * 6364136223846793005u + 1442695040888963407u;
    return (state >> 33) % n;
}

static unsigned char mark(int slot, size_t i) { return (unsigned char)(slot * 31 + i * 7 + 1); }

static int is_kept(int slot, size_t size) {
    for (size_t i = 0; i < size; i++)
        if (slots[slot].at[i] != mark(slot, i))
            return 0;
    return 1;
}

static void set(int slot, unsigned char *at, size_t size) {
    slots[slot].at = at;
    slots[slot].size = size;
    for (size_t i = 0; i < size; i++)
        at[i] = mark(slot, i);
}

/* The heads from the first block to the end fit together, no two free blocks touch, and what is in use is counted. */
static int is_sound(void) {
    if (!end)
        return 1;
    struct block *it = (struct block *)(((size_t)&__heap_base + UNIT - 1) & -(size_t)UNIT);
    size_t before = 0, used = 0;
    for (int was_free = 0; it != end; it = behind(it, before)) {
        int is_free = !(it->size & 1);
        if (it > end || it->before != before || (is_free && was_free))
            return 0;
        was_free = is_free;
        before = size_of(it);
        used += is_free ? 0 : before;
    }
    return end->before == before && used == in_use;
}

/* 0 where all is well, or the number of the call after which it is not. */
int try_memory(uint64_t seed, int calls) {
    state = seed;
    for (int call = 1; call <= calls; call++) {
        int slot = (int)below(SLOTS);
        size_t size = below(4) ? below(200) : below((uint64_t)1 << below(18));
        if (!slots[slot].at) {
            struct tried it = rattle_alloc(size, 8);
            if (!it.ok || (size_t)it.p % 16)
                return call;
            set(slot, it.p, size);
        } else if (below(2)) {
            if (!is_kept(slot, slots[slot].size))
                return call;
            rattle_dealloc(slots[slot].at);
            slots[slot].at = NULL;
        } else {
            size_t kept = slots[slot].size < size ? slots[slot].size : size;
            struct tried it = rattle_realloc(slots[slot].at, kept, size, 8);
            slots[slot].at = it.p;
            if (!it.ok || (size_t)it.p % 16 || !is_kept(slot, kept))
                return call;
            set(slot, it.p, size);
        }
        if (call % 64 == 0 && !is_sound())
            return call;
    }
    for (int slot = 0; slot < SLOTS; slot++)
        if (slots[slot].at) {
            if (!is_kept(slot, slots[slot].size))
                return calls + 1;
            rattle_dealloc(slots[slot].at);
            slots[slot].at = NULL;
        }
    /* One free block is left. */
    return is_sound() && in_use == 0 && (!end || !end->before || end->before == (size_t)end - (((size_t)&__heap_base + UNIT - 1) & -(size_t)UNIT))
               ? 0 : calls + 2;
}

/* 0 where a product of 128 bits is the sum of the products of its parts, and shifts there and back are none. */
int try_wide(uint64_t seed, int calls) {
    state = seed;
    for (int call = 1; call <= calls; call++) {
        uint64_t a = below(1u << 31) << below(40), b = below(1u << 31) << below(40);
        wide x = of_halves(a, below(1u << 31)), y = of_halves(b, 0);
        int by = (int)below(127);
        wide left = __ashlti3(of_halves(1, 0), by);
        /* A product by a power of two is a shift. */
        if (__multi3(x, left) != __ashlti3(x, by) || __lshrti3(left, by) != 1)
            return call;
        /* It goes over sums, and either way round. */
        if (__multi3(x, y + 1) != __multi3(x, y) + x || __multi3(x, y) != __multi3(y, x))
            return call;
    }
    return 0;
}
