// The heap of the page's module: the blocks that the proved code asks for, and the rooms in which the page hands it bytes. It is to the
// module as malloc is to the programs, and no proof covers it; tests/module tries it against a model.
//
// A block is a head of 16 bytes and what its owner may use. It has a power of two of bytes, 32 at least; its class is the exponent. A
// block that was given back waits in the list of its class for the next one of that class. So no block is ever split or joined with
// another, both calls take the same few steps whatever lies in the heap, and a block wastes less than half of itself.

typedef unsigned long u64;

// The form in which the proved code takes an answer: whether there is a block, and where.
typedef struct {
    u64 is_there;
    void *at;
} Tried;

typedef struct Block {
    u64 class;
    // The next free block of the class; of no meaning while the block is in use.
    struct Block *next;
} Block;

enum {
    LEAST_CLASS = 5,
    // A block of the class above has more bytes than 32-bit memory.
    MOST_CLASS = 31,
    // Each block begins at a multiple of this, and its owner's part with it.
    ALIGNMENT = 16,
    PAGE_CLASS = 16,
};

// The linker puts it where the stack and the constants end.
extern unsigned char __heap_base;

// Where blocks have never been, up to the end of the memory. It is 0 until the first block is taken.
static u64 unused;
static Block *free_blocks[MOST_CLASS + 1];

// The class of a block for so many bytes; there may be none so large.
static u64 class_for(u64 bytes) {
    u64 whole = bytes + sizeof(Block);
    u64 class = 64 - __builtin_clzl(whole - 1);
    return class < LEAST_CLASS ? LEAST_CLASS : class;
}

static u64 memory_bytes(void) {
    return __builtin_wasm_memory_size(0) << PAGE_CLASS;
}

// Whether the memory reaches so far, once the host has let it grow or has not. The memory itself is asked, since the answer of a growth that is
// refused is another number where addresses have 32 bits.
static int reaches(u64 end) {
    u64 has = memory_bytes();
    if (end > has) {
        u64 lacking = (end - has + (1UL << PAGE_CLASS) - 1) >> PAGE_CLASS;
        (void)__builtin_wasm_memory_grow(0, lacking);
    }
    return end <= memory_bytes();
}

// A block of the class where none has been yet, or 0.
static Block *new_block(u64 class) {
    u64 start = unused ? unused : ((u64)&__heap_base + ALIGNMENT - 1) & ~(u64)(ALIGNMENT - 1);
    u64 end = start + (1UL << class);
    if (!reaches(end)) {
        return 0;
    }
    unused = end;
    Block *block = (Block *)start;
    block->class = class;
    return block;
}

// The part of a block that its owner may use, or 0.
static void *take(u64 bytes, u64 alignment) {
    // The first test keeps the sum in `class_for` from wrapping.
    if (bytes >> MOST_CLASS || alignment > ALIGNMENT || class_for(bytes) > MOST_CLASS) {
        return 0;
    }
    u64 class = class_for(bytes);
    Block *block = free_blocks[class];
    if (block) {
        free_blocks[class] = block->next;
    } else {
        block = new_block(class);
    }
    return block ? block + 1 : 0;
}

static void give(void *at) {
    Block *block = (Block *)at - 1;
    block->next = free_blocks[block->class];
    free_blocks[block->class] = block;
}

// The address of a refusal is read by nobody, but it may not be 0.
static Tried tried(void *at) {
    return at ? (Tried){1, at} : (Tried){0, &free_blocks};
}

// ---- what the proved code calls

Tried rattle_alloc(u64 bytes, u64 alignment) {
    return tried(take(bytes, alignment));
}

void rattle_dealloc(void *at) {
    give(at);
}

// The first `kept` bytes stay as they are. Where it is refused, so does the block.
Tried rattle_realloc(void *at, u64 kept, u64 bytes, u64 alignment) {
    Block *block = (Block *)at - 1;
    if (bytes <= (1UL << block->class) - sizeof(Block)) {
        return tried(at);
    }
    void *larger = take(bytes, alignment);
    if (larger) {
        __builtin_memcpy(larger, at, kept);
        give(at);
    }
    return tried(larger);
}

// ---- what the page calls

__attribute__((export_name("page_take"))) void *page_take(u64 bytes) {
    return take(bytes, ALIGNMENT);
}

__attribute__((export_name("page_give"))) void page_give(void *at) {
    give(at);
}
