/* What the proved library calls, in a module for a web page: memory, numbers of 128 bits, and the text of an error of the system, of
 * which there is none. Not proved, as the C library of the other builds is not. Blocks of memory stand side by side from the end of the
 * constants to that of the memory, which grows; a free one is joined to free neighbours. */
/* The kit's clang has no headers. */
typedef __SIZE_TYPE__ size_t;
typedef __UINT64_TYPE__ uint64_t;
#define NULL ((void *)0)
#define SIZE_MAX (~(size_t)0)

enum { UNIT = 16, HEAD = 16, PAGE = 1 << 16, BINS = 256 };

/* A block in memory: its head, and what it holds. A free one has its place in a list of such. */
struct block {
    size_t before; /* the size of the one before it */
    size_t size;   /* its own, with the head; one more where it is in use */
    struct block *next, *last;
};

static struct block *bins[BINS];
static uint64_t filled[BINS / 64];
static struct block *end; /* the last one, of no size and in use; null before the first call */
static size_t in_use;
extern unsigned char __heap_base;

static size_t size_of(const struct block *it) { return it->size & ~(size_t)1; }

static struct block *behind(struct block *it, size_t size) { return (struct block *)((char *)it + size); }

/* Four bins for each power of two. */
static int bin_of(size_t size) {
    int log = 63 - __builtin_clzll(size);
    return log * 4 + (int)(size >> (log - 2) & 3);
}

static void put_free(struct block *it, size_t size) {
    int bin = bin_of(size);
    it->size = size;
    behind(it, size)->before = size;
    it->last = NULL;
    it->next = bins[bin];
    if (it->next)
        it->next->last = it;
    bins[bin] = it;
    filled[bin / 64] |= (uint64_t)1 << bin % 64;
}

static void take_free(struct block *it) {
    int bin = bin_of(it->size);
    if (it->next)
        it->next->last = it->last;
    if (it->last)
        it->last->next = it->next;
    else if (!(bins[bin] = it->next))
        filled[bin / 64] &= ~((uint64_t)1 << bin % 64);
}

/* A free block of that size at least: the first of its bin that is large enough, or the first of the next bin that has one. */
static struct block *find_free(size_t size) {
    int bin = bin_of(size);
    for (struct block *it = bins[bin]; it; it = it->next)
        if (it->size >= size)
            return it;
    for (int next = bin + 1; next < BINS; next = (next / 64 + 1) * 64) {
        uint64_t left = filled[next / 64] >> next % 64;
        if (left)
            return bins[next + __builtin_ctzll(left)];
    }
    return NULL;
}

/* Joins a block to the free ones beside it, and lists it. */
static void join_free(struct block *it, size_t size) {
    struct block *after = behind(it, size);
    if (!(after->size & 1)) {
        take_free(after);
        size += after->size;
    }
    if (it->before) {
        struct block *front = (struct block *)((char *)it - it->before);
        if (!(front->size & 1)) {
            take_free(front);
            size += front->size;
            it = front;
        }
    }
    put_free(it, size);
}

static void set_end(struct block *it) {
    end = it;
    end->size = 1;
}

/* More memory, of that size at least: false where the host gives none. */
static int grow_memory(size_t size) {
    size_t had = __builtin_wasm_memory_size(0), more = (size + 2 * HEAD) / PAGE + 1;
    /* Where it fails, a module made one of 32 bits says so otherwise than one of 64. */
    __builtin_wasm_memory_grow(0, more + had / 8);
    if (__builtin_wasm_memory_size(0) == had)
        __builtin_wasm_memory_grow(0, more);
    if (__builtin_wasm_memory_size(0) == had)
        return 0;
    size_t top = __builtin_wasm_memory_size(0) * PAGE;
    struct block *it = end;
    if (!it) {
        it = (struct block *)(((size_t)&__heap_base + UNIT - 1) & -(size_t)UNIT);
        it->before = 0;
    }
    size_t added = top - HEAD - (size_t)it;
    set_end(behind(it, added));
    join_free(it, added);
    return 1;
}

/* Makes a block one of that size in use, and frees what is behind that. */
static void *use(struct block *it, size_t had, size_t size) {
    if (had - size >= 2 * HEAD) {
        it->size = size | 1;
        behind(it, size)->before = size;
        join_free(behind(it, size), had - size);
    } else {
        size = had;
        it->size = size | 1;
    }
    in_use += size;
    return (char *)it + HEAD;
}

static size_t rounded(size_t size) { return size < UNIT ? HEAD + UNIT : (HEAD + size + UNIT - 1) & -(size_t)UNIT; }

static void *allocate(size_t size) {
    if (size > SIZE_MAX / 4)
        return NULL;
    size = rounded(size);
    struct block *it = find_free(size);
    if (!it && grow_memory(size))
        it = find_free(size);
    if (!it)
        return NULL;
    take_free(it);
    return use(it, it->size, size);
}

static struct block *block_of(void *p) { return (struct block *)((char *)p - HEAD); }

static void release(void *p) {
    struct block *it = block_of(p);
    in_use -= size_of(it);
    join_free(it, size_of(it));
}

static void *resize(void *p, size_t kept, size_t size) {
    struct block *it = block_of(p);
    size_t had = size_of(it);
    if (size > SIZE_MAX / 4)
        return NULL;
    struct block *after = behind(it, had);
    size_t room = had + (after->size & 1 ? 0 : after->size);
    if (room >= rounded(size)) {
        if (room != had)
            take_free(after);
        in_use -= had;
        behind(it, room)->before = room;
        return use(it, room, rounded(size));
    }
    void *new = allocate(size);
    if (new) {
        __builtin_memcpy(new, p, kept < size ? kept : size);
        release(p);
    }
    return new;
}

struct tried {
    uint64_t ok;
    void *p;
};

static struct tried tried(void *p) { return (struct tried){p != NULL, p ? p : (void *)UNIT}; }

struct tried rattle_alloc(size_t size, size_t align) {
    (void)align;
    return tried(allocate(size));
}

struct tried rattle_realloc(void *old, size_t kept, size_t size, size_t align) {
    (void)align;
    return tried(old ? resize(old, kept, size) : allocate(size));
}

void rattle_dealloc(void *old) {
    if (old)
        release(old);
}

int __xpg_strerror_r(int error, char *text, size_t size) {
    (void)error;
    if (size)
        text[0] = 0;
    return 0;
}

/* What clang calls for numbers of 128 bits, each of two words here. */
typedef unsigned __int128 wide;
typedef union {
    wide all;
    struct {
        uint64_t low, high;
    } half;
} halves;

static wide of_halves(uint64_t low, uint64_t high) {
    halves it;
    it.half.low = low;
    it.half.high = high;
    return it.all;
}

wide __multi3(wide x, wide y) {
    halves a = {.all = x}, b = {.all = y};
    uint64_t a0 = a.half.low & 0xffffffff, a1 = a.half.low >> 32, b0 = b.half.low & 0xffffffff, b1 = b.half.low >> 32;
    uint64_t low = a0 * b0, middle = a1 * b0 + (low >> 32), other = a0 * b1 + (middle & 0xffffffff);
    uint64_t high = a1 * b1 + (middle >> 32) + (other >> 32);
    return of_halves(other << 32 | (low & 0xffffffff), high + a.half.low * b.half.high + a.half.high * b.half.low);
}

wide __ashlti3(wide x, int by) {
    halves a = {.all = x};
    if (by >= 64)
        return of_halves(0, a.half.low << (by - 64));
    return by ? of_halves(a.half.low << by, a.half.high << by | a.half.low >> (64 - by)) : x;
}

wide __lshrti3(wide x, int by) {
    halves a = {.all = x};
    if (by >= 64)
        return of_halves(a.half.high >> (by - 64), 0);
    return by ? of_halves(a.half.low >> by | a.half.high << (64 - by), a.half.high >> by) : x;
}

/* For the page: blocks for what it hands over, and the bytes in use. */
void *web_new(size_t size) { return allocate(size); }
void web_free(void *p) { rattle_dealloc(p); }
size_t web_bytes(void) { return in_use; }
