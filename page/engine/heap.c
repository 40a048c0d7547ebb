/*
 * What the proved code asks of the C library, for WebAssembly: a heap, and numbers of 128 bits. Only tested.
 *
 * A block begins with 16 bytes that hold its class; the class says its size. Blocks that are given back are kept in a list
 * for each class. `page_reset` forgets all blocks at once: the page calls it before each request, so that no call is slower
 * than the first one, or takes more memory, because of those before it.
 */
typedef __SIZE_TYPE__ size_t;
typedef __UINTPTR_TYPE__ uintptr_t;
typedef __UINT8_TYPE__ uint8_t;
typedef __UINT64_TYPE__ uint64_t;
typedef unsigned __int128 uint128_t;

enum { HEAD = 16, PAGE = 65536, CLASSES = 4 * 60 };

struct block {
    uint64_t class;
    struct block *next;
};

/* What the proved code takes from an allocation: whether there is a block, and where. Both fill a whole register. */
struct tried {
    uint64_t is_there;
    void *at;
};

extern uint8_t __heap_base;

static struct block *given_back[CLASSES];
static uintptr_t top, end;
static uint8_t nothing[16] __attribute__((aligned(16)));

/* The size of a class, with its head: four classes for each power of two, from 32 on. Those in use are multiples of 16. */
static size_t size_of(size_t class) {
    return (4 + (class & 3)) << ((class >> 2) + 3);
}

/* The least class that has room for a block of this size. */
static size_t class_of(size_t size) {
    size_t whole = (size + HEAD + 15) & ~(size_t)15;
    if (whole <= 32)
        return 0;
    size_t power = 63 - (size_t)__builtin_clzll(whole - 1);
    return (power - 5) * 4 + (((whole - 1) >> (power - 2)) & 3) + 1;
}

/* A block that was never used, from the end of the memory; none where the memory cannot grow. */
static struct block *fresh(size_t class) {
    size_t size = size_of(class);
    if (!top) {
        top = ((uintptr_t)&__heap_base + 15) & ~(uintptr_t)15;
        end = __builtin_wasm_memory_size(0) * PAGE;
    }
    if (end - top < size) {
        size_t pages = (size - (end - top) + PAGE - 1) / PAGE;
        size_t more = pages < 64 ? 64 : pages;
        if (__builtin_wasm_memory_grow(0, more) == (size_t)-1)
            return 0;
        end += more * PAGE;
    }
    struct block *made = (struct block *)top;
    top += size;
    return made;
}

static void *take(size_t size) {
    if (size > (size_t)1 << 40)
        return 0;
    size_t class = class_of(size);
    struct block *block = given_back[class];
    if (block)
        given_back[class] = block->next;
    else
        block = fresh(class);
    if (!block)
        return 0;
    block->class = class;
    return (uint8_t *)block + HEAD;
}

static void give_back(void *at) {
    if (!at || at == nothing)
        return;
    struct block *block = (struct block *)((uint8_t *)at - HEAD);
    block->next = given_back[block->class];
    given_back[block->class] = block;
}

/* For the proved code. It asks for no alignment above 16. */
struct tried rattle_alloc(size_t size, size_t align) {
    (void)align;
    void *at = take(size);
    return (struct tried){at != 0, at ? at : nothing};
}

struct tried rattle_realloc(void *at, size_t kept, size_t size, size_t align) {
    (void)align;
    if (at && at != nothing && size_of(((struct block *)((uint8_t *)at - HEAD))->class) - HEAD >= size)
        return (struct tried){1, at};
    void *made = take(size);
    if (!made)
        return (struct tried){0, nothing};
    __builtin_memcpy(made, at, kept < size ? kept : size);
    give_back(at);
    return (struct tried){1, made};
}

void rattle_dealloc(void *at) { give_back(at); }

/* For the page: room for a request or an answer, 0 where there is none. */
void *page_room(size_t size) { return take(size); }

/* For the page: forgets all blocks. */
void page_reset(void) {
    for (int class = 0; class < CLASSES; class++)
        given_back[class] = 0;
    top = ((uintptr_t)&__heap_base + 15) & ~(uintptr_t)15;
    end = __builtin_wasm_memory_size(0) * PAGE;
}

/* Products and shifts of 128 bits, for which WebAssembly has no instruction. */
uint128_t __multi3(uint128_t a, uint128_t b) {
    uint64_t a_low = (uint64_t)a, b_low = (uint64_t)b;
    uint64_t a0 = a_low & 0xffffffff, a1 = a_low >> 32, b0 = b_low & 0xffffffff, b1 = b_low >> 32;
    uint64_t low = a0 * b0, mid = a1 * b0 + (low >> 32), more = a0 * b1 + (mid & 0xffffffff);
    uint64_t high = a1 * b1 + (mid >> 32) + (more >> 32) + a_low * (uint64_t)(b >> 64) + (uint64_t)(a >> 64) * b_low;
    return (uint128_t)high << 64 | (more << 32 | (low & 0xffffffff));
}

uint128_t __ashlti3(uint128_t a, int by) {
    uint64_t low = (uint64_t)a, high = (uint64_t)(a >> 64);
    if (by & 64)
        return (uint128_t)(low << (by & 63)) << 64;
    if (by)
        high = high << by | low >> (64 - by);
    return (uint128_t)high << 64 | low << by;
}

uint128_t __lshrti3(uint128_t a, int by) {
    uint64_t low = (uint64_t)a, high = (uint64_t)(a >> 64);
    if (by & 64)
        return high >> (by & 63);
    if (by)
        low = low >> by | high << (64 - by);
    return (uint128_t)(high >> by) << 64 | low;
}
