// The heap of the WebAssembly module, in the place of the C library's: what std::alloc::Global calls (rattle_alloc, rattle_realloc,
// rattle_dealloc), the functions of the C library that LLVM calls by name, and what the page calls. Nothing proves it.
//
// Blocks have sizes of four steps a doubling: 64, 80, 96, 112, 128, 160 .. bytes, of which the first 16 are the block's own. A freed
// block goes to the list of its size, and is given again for that size alone.
typedef unsigned long u64;
typedef unsigned char u8;
typedef struct { u64 ok; void *p; } Tried; // C's struct { bool ok; void *p; }, as Rattle reads it

typedef struct Block { u64 size; struct Block *next; } Block; // size: its number, from 0

extern u8 __heap_base;
static Block *lists[160];
static u64 top; // the first byte that no block has
static u64 requests, refused; // how many there were, and the one that is refused: for tests
static u8 none;

static u64 bytes_of(u64 size) { return (4 + size % 4) << (size / 4 + 4); }

// The least size whose blocks have room for n bytes.
static u64 size_for(u64 n) {
    u64 size = 0;
    while (bytes_of(size) < n + sizeof(Block)) size++;
    return size;
}

// Memory up to this byte; false where the engine gives none.
static int reaches(u64 end) {
    u64 have = __builtin_wasm_memory_size(0) << 16;
    if (end <= have) return 1;
    u64 pages = (end - have + 65535) >> 16, quarter = have >> 18;
    // by a quarter of what there is, so that it isn't asked often; else by what is needed
    if (quarter > pages && __builtin_wasm_memory_grow(0, quarter) != (u64)-1 && end <= __builtin_wasm_memory_size(0) << 16) return 1;
    __builtin_wasm_memory_grow(0, pages);
    return end <= __builtin_wasm_memory_size(0) << 16;
}

static void *get(u64 n) {
    if (n >> 40) return 0;
    u64 size = size_for(n);
    Block *block = lists[size];
    if (block) {
        lists[size] = block->next;
        return block + 1;
    }
    if (!top) top = ((u64)&__heap_base + 15) & ~(u64)15;
    if (!reaches(top + bytes_of(size))) return 0;
    block = (Block *)top;
    top += bytes_of(size);
    block->size = size;
    return block + 1;
}

static void put(void *p) {
    Block *block = (Block *)p - 1;
    block->next = lists[block->size];
    lists[block->size] = block;
}

// Whether this request is refused: the one that a test wants, and what no block is aligned to.
static int is_refused(u64 align) { return ++requests == refused || align > 16; }

Tried rattle_alloc(u64 n, u64 align) {
    void *p = is_refused(align) ? 0 : get(n ? n : align);
    return (Tried){p != 0, p ? p : &none};
}

Tried rattle_realloc(u8 *p, u64 kept, u64 n, u64 align) {
    u64 wanted = n ? n : align;
    if (is_refused(align)) return (Tried){0, &none};
    if (!(wanted >> 40) && size_for(wanted) == ((Block *)p - 1)->size) return (Tried){1, p};
    u8 *q = get(wanted);
    if (!q) return (Tried){0, &none};
    __builtin_memcpy(q, p, kept < n ? kept : n);
    put(p);
    return (Tried){1, q};
}

void rattle_dealloc(void *p) { put(p); }

// For the page: room for an argument; and for the tests: the n-th request from now on is refused, none for 0; and how many there were.
__attribute__((export_name("host_alloc"))) void *host_alloc(u64 n) { return get(n ? n : 1); }
__attribute__((export_name("host_free"))) void host_free(void *p) { put(p); }
__attribute__((export_name("host_refuse"))) void host_refuse(u64 n) { requests = 0; refused = n; }
__attribute__((export_name("host_requests"))) u64 host_requests(void) { return requests; }

int memcmp(const void *a, const void *b, u64 n) {
    const u8 *x = a, *y = b;
    for (u64 i = 0; i < n; i++) if (x[i] != y[i]) return x[i] < y[i] ? -1 : 1;
    return 0;
}
int bcmp(const void *a, const void *b, u64 n) { return memcmp(a, b, n); }
