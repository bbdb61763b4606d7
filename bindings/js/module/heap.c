/* The heap of the WebAssembly module: what the proved code's `Global` asks for, in the module's own memory.
 *
 * A call of the library leaves no block behind. So the host takes all memory back at once after each call, by `heap_clear`, and
 * nothing that a call leaves in the heap is there for the next one. Within a call a free block stands in the list of its size.
 * The sizes are 16, 32, 48, 64 and from there four to each doubling: no block is split or joined, and each request takes a bounded
 * number of steps. Before each block are 16 bytes, which have the number of its list. */
typedef __SIZE_TYPE__ size;

/* What `rattle_alloc` and `rattle_realloc` return, as the proved code takes it. */
struct answer {
    size is_given; /* 1 or 0 */
    void *block;
};

enum { PAGE = 65536, LISTS = 160, UNIT = 16 };

/* No request for more is tried, so that no sum below overflows. */
static const size MOST = (size)1 << 36;

/* Where the linker's data ends. */
extern unsigned char __heap_base;

struct block {
    size list;
    struct block *next; /* in that list, while it is free */
};

static struct block *free_blocks[LISTS];
static size end; /* of what was ever handed out since `heap_clear`; 0 before the first request */

#ifdef COUNTED
/* For tests: how many blocks are handed out, and how many requests are granted before one is refused. */
static size blocks;
static size granted = -1;

size heap_blocks(void) { return blocks; }

void heap_refuse_after(size requests) { granted = requests; }

static _Bool is_refused(void) { return granted != (size)-1 && granted-- == 0; }
#else
static _Bool is_refused(void) { return 0; }
#endif

/* The list whose blocks have room for so many bytes. */
static size list_for(size bytes) {
    if (bytes <= UNIT)
        return 0;
    size top = 63 - (size)__builtin_clzll(bytes - 1); /* 2^top <= bytes - 1 < 2^(top + 1), and top >= 4 */
    size quarter = ((bytes - 1) >> (top - 2)) & 3;
    return (top - 4) * 4 + quarter + 1;
}

/* How many bytes the blocks of a list have: (4 + list % 4) * 2^(list / 4 + 2), rounded up to a multiple of 16. */
static size size_of(size list) {
    size bytes = (4 + list % 4) << (list / 4 + 2);
    return (bytes + UNIT - 1) / UNIT * UNIT;
}

/* Lets the memory reach to an address, if it may grow so far. */
static _Bool reach(size to) {
    size pages = __builtin_wasm_memory_size(0);
    if (to <= pages * PAGE)
        return 1;
    size wanted = (to - pages * PAGE + PAGE - 1) / PAGE;
    /* First somewhat more, since each growth takes time. What growing returns is the old number of pages, or else it failed. */
    return __builtin_wasm_memory_grow(0, wanted + pages / 8) == pages || __builtin_wasm_memory_grow(0, wanted) == pages;
}

static void *take(size bytes) {
    if (bytes > MOST || is_refused())
        return 0;
    size list = list_for(bytes);
    struct block *block = free_blocks[list];
    if (block) {
        free_blocks[list] = block->next;
    } else {
        size start = end ? end : ((size)&__heap_base + UNIT - 1) / UNIT * UNIT;
        size after = start + UNIT + size_of(list);
        if (!reach(after))
            return 0;
        end = after;
        block = (struct block *)start;
        block->list = list;
    }
#ifdef COUNTED
    blocks++;
#endif
    return (unsigned char *)block + UNIT;
}

static struct block *block_of(void *bytes) { return (struct block *)((unsigned char *)bytes - UNIT); }

static void give_back(void *bytes) {
#ifdef COUNTED
    blocks--;
#endif
    struct block *block = block_of(bytes);
    block->next = free_blocks[block->list];
    free_blocks[block->list] = block;
}

/* What the proved code calls. Each block is at a multiple of 16 bytes, and no request asks for more. */
struct answer rattle_alloc(size bytes, size alignment) {
    void *block = alignment <= UNIT ? take(bytes) : 0;
    return (struct answer){block != 0, block};
}

/* Lets a block grow where it is, if it is the last: so a long list isn't there twice while it grows. */
static _Bool grow_last(struct block *block, size bytes) {
    size start = (size)block + UNIT;
    if (start + size_of(block->list) != end || bytes > MOST || is_refused())
        return 0;
    size list = list_for(bytes);
    if (!reach(start + size_of(list)))
        return 0;
    block->list = list;
    end = start + size_of(list);
    return 1;
}

/* A block with the first `kept` bytes of the one that it takes the place of; where there is none, that one is unchanged. */
struct answer rattle_realloc(void *old, size kept, size bytes, size alignment) {
    if (bytes <= size_of(block_of(old)->list) || grow_last(block_of(old), bytes))
        return (struct answer){1, old};
    struct answer answer = rattle_alloc(bytes, alignment);
    if (!answer.is_given)
        return (struct answer){0, old};
    __builtin_memcpy(answer.block, old, kept);
    give_back(old);
    return answer;
}

void rattle_dealloc(void *block) { give_back(block); }

/* What the host calls: room for what a call is given and answers, or null; its end; and the end of all of them. */
void *heap_take(size bytes) { return take(bytes); }

void heap_give_back(void *block) { give_back(block); }

void heap_clear(void) {
    end = 0;
    for (size list = 0; list < LISTS; list++)
        free_blocks[list] = 0;
}
