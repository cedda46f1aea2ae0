// The heap of the program or the library in a page: blocks of size classes, four to a doubling, each kept in a list of its class when free.
// Free blocks are never joined: what was given back serves blocks of its class alone. A run of the program is short, and each begins with a
// memory of its own; a client of the library lives as long as its page, and its memory stays as large as it once was.

typedef unsigned long u64;
typedef unsigned char u8;

// Whether a block was found, and where. `ok` is 0 exactly where memory ran out.
typedef struct {
    u64 ok;
    u8 *block;
} Tried;

extern u8 __heap_base;

enum { HEAD = 16, ALIGNMENT = 16, PAGE = 16, MOST = 40 };

static u8 *top, *end;
static void *free_blocks[256];

// The class of a size from 16 on: 16, 32, 48, 64, and then four to each doubling.
static unsigned class_of(u64 size) {
    if (size <= 64)
        return (unsigned)((size - 1) / 16);
    unsigned high = 63 - (unsigned)__builtin_clzl(size - 1);
    return 4 + (high - 6) * 4 + (unsigned)(((size - 1) >> (high - 2)) & 3);
}

static u64 size_of_class(unsigned class) {
    if (class < 4)
        return (class + 1) * 16;
    unsigned high = (class - 4) / 4 + 6, quarter = (class - 4) & 3;
    return (1UL << high) + ((u64)(quarter + 1) << (high - 2));
}

static u64 *head_of(u8 *block) {
    return (u64 *)(block - HEAD);
}

// Grows the memory so that `size` bytes lie between top and end: by what is missing, and by a quarter, of at most 64 MiB.
static int grow(u64 size) {
    if (!top) {
        top = (u8 *)(((u64)&__heap_base + ALIGNMENT - 1) & ~(u64)(ALIGNMENT - 1));
        end = (u8 *)(__builtin_wasm_memory_size(0) << PAGE);
    }
    if ((u64)(end - top) >= size)
        return 1;
    u64 missing = size - (u64)(end - top);
    u64 pages = (missing + (1UL << PAGE) - 1) >> PAGE, more = (u64)end >> (PAGE + 2);
    if (more > 1024)
        more = 1024;
    if (pages < more)
        pages = more;
    // A memory that can't grow answers -1: of 64 bits, or of 32 where the memory was lowered.
    if ((unsigned)__builtin_wasm_memory_grow(0, pages) == ~0u)
        return 0;
    end += pages << PAGE;
    return 1;
}

static u8 *take(u64 size) {
    if (size < 16)
        size = 16;
    if (size > 1UL << MOST)
        return 0;
    unsigned class = class_of(size);
    void **block = free_blocks[class];
    if (block) {
        free_blocks[class] = *block;
        return (u8 *)block;
    }
    u64 whole = size_of_class(class) + HEAD;
    if (!grow(whole))
        return 0;
    u8 *taken = top + HEAD;
    top += whole;
    *head_of(taken) = class;
    return taken;
}

Tried rattle_alloc(u64 size, u64 alignment) {
    u8 *block = alignment > ALIGNMENT ? 0 : take(size);
    return (Tried){block != 0, block};
}

void rattle_dealloc(u8 *block) {
    if (!block)
        return;
    u64 class = *head_of(block);
    *(void **)block = free_blocks[class];
    free_blocks[class] = block;
}

Tried rattle_realloc(u8 *block, u64 kept, u64 size, u64 alignment) {
    if (!block)
        return rattle_alloc(size, alignment);
    if (size <= size_of_class((unsigned)*head_of(block)))
        return (Tried){1, block};
    u8 *wider = take(size);
    if (!wider)
        return (Tried){0, block};
    __builtin_memcpy(wider, block, kept < size ? kept : size);
    rattle_dealloc(block);
    return (Tried){1, wider};
}
