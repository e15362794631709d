/* The heap of the WebAssembly module: what the core takes, resizes and frees.
 *
 * The memory is a row of blocks, counted in units of 16 bytes. A block begins with its size and
 * that of the block before it, so a block that is freed is joined with free neighbours at once.
 * Free blocks are listed by size: a bin for each size below 16 units, and 8 bins for each power of
 * two above. A used block of no size ends the row; it moves on where the memory grows.
 */
typedef __UINT32_TYPE__ u32;
typedef __UINT64_TYPE__ u64;
typedef unsigned char byte;

enum {
    UNIT = 16,
    PAGE_UNITS = 4096,
    STEP = 16, /* the pages by which the memory grows at least, where it can */
    BINS = 208,
    LONGEST = 1 << 30
};

#ifdef __wasm__
extern byte __heap_base[];

/* Where the memory of the heap begins. */
static byte *memory_begin(void) {
    return __heap_base;
}

/* How many bytes from the address 0 on are there. */
static u64 memory_size(void) {
    return (u64)__builtin_wasm_memory_size(0) * PAGE_UNITS * UNIT;
}

/* Tries to grow the memory. Lowered to 32 bits, a failure is -1 in the low half alone. */
static _Bool memory_grow(u32 pages) {
    return (u32)__builtin_wasm_memory_grow(0, pages) != (u32)-1;
}
#else
byte *memory_begin(void);
u64 memory_size(void);
_Bool memory_grow(u32 pages);
#endif

/* A block; its bytes begin where `next` stands. The links are places of blocks, in units from the
 * beginning; 0 for none, as no block in a list stands there. */
typedef struct {
    u32 before; /* the size of the block before it */
    u32 size;   /* its own, doubled, and 1 more where it is free */
    u32 next, previous;
} block;

/* What the core is told: whether there is a block, and where; else some place that is not null. */
typedef struct {
    u64 ok;
    void *at;
} tried;

static byte *begin, nothing;
static u32 end;
static u32 first[BINS];
static u64 filled[(BINS + 63) / 64];

static block *block_at(u32 place) {
    return (block *)(begin + (u64)place * UNIT + UNIT / 2);
}

static block *block_of(void *bytes) {
    return (block *)((byte *)bytes - UNIT / 2);
}

static u32 place_of(block *it) {
    return (u32)(((byte *)it - begin) / UNIT);
}

static u32 size_of(block *it) {
    return it->size >> 1;
}

static _Bool is_free(block *it) {
    return it->size & 1;
}

/* The bin of free blocks of a size. */
static u32 bin_of(u32 size) {
    if (size < 16)
        return size;
    u32 power = 31 - (u32)__builtin_clz(size);
    return 16 + (power - 4) * 8 + ((size >> (power - 3)) & 7);
}

/* The first bin all of whose blocks have a size at least. */
static u32 bin_for(u32 size) {
    if (size < 16)
        return size;
    return bin_of(size + (1u << (28 - (u32)__builtin_clz(size))) - 1);
}

static void enlist(block *it) {
    u32 bin = bin_of(size_of(it)), place = place_of(it);
    it->size |= 1;
    it->previous = 0;
    it->next = first[bin];
    if (it->next)
        block_at(it->next)->previous = place;
    first[bin] = place;
    filled[bin / 64] |= 1ull << bin % 64;
}

static void unlist(block *it) {
    u32 bin = bin_of(size_of(it));
    it->size &= ~1u;
    if (it->next)
        block_at(it->next)->previous = it->previous;
    if (it->previous)
        block_at(it->previous)->next = it->next;
    else
        first[bin] = it->next;
    if (!first[bin])
        filled[bin / 64] &= ~(1ull << bin % 64);
}

/* Gives a block a size, which the block behind it is told. */
static void set_size(block *it, u32 size) {
    it->size = size << 1;
    block_at(place_of(it) + size)->before = size;
}

/* Frees a block that is in no list, joined with its free neighbours. */
static void release(block *it) {
    block *behind = block_at(place_of(it) + size_of(it));
    if (is_free(behind)) {
        unlist(behind);
        set_size(it, size_of(it) + size_of(behind));
    }
    block *before = block_at(place_of(it) - it->before);
    if (is_free(before)) {
        unlist(before);
        set_size(before, size_of(before) + size_of(it));
        it = before;
    }
    enlist(it);
}

/* Cuts a used block to a size, and frees the rest. */
static void cut(block *it, u32 size) {
    u32 rest = size_of(it) - size;
    if (!rest)
        return;
    set_size(it, size);
    block *behind = block_at(place_of(it) + size);
    set_size(behind, rest);
    release(behind);
}

/* Grows the memory by a free block of a size at least. */
static _Bool grow(u32 size) {
    u32 pages = (size + PAGE_UNITS - 1) / PAGE_UNITS;
    if (pages < STEP && memory_grow(STEP))
        pages = STEP;
    else if (!memory_grow(pages))
        return 0;
    block *it = block_at(end);
    end += pages * PAGE_UNITS;
    block_at(end)->size = 0;
    set_size(it, pages * PAGE_UNITS);
    release(it);
    return 1;
}

static block *last_block(void) {
    return block_at(end - block_at(end)->before);
}

/* Takes the free block at the end of the row, once the memory has grown for it to have a size at
 * least; null where it cannot grow. */
static block *grown(u32 size) {
    u32 room = is_free(last_block()) ? size_of(last_block()) : 0;
    if (room < size && !grow(size - room))
        return 0;
    block *it = last_block();
    unlist(it);
    return it;
}

/* Makes the row: a used block, so that no block in a list stands at 0, a free one, and the end. */
static _Bool start(void) {
    u64 at = ((u64)memory_begin() + UNIT - 1) & ~(u64)(UNIT - 1);
    if (memory_size() < at + 4 * UNIT && !memory_grow(1))
        return 0;
    begin = (byte *)at;
    end = (u32)((memory_size() - at) / UNIT) - 1;
    block_at(0)->before = 0;
    set_size(block_at(0), 1);
    block_at(end)->size = 0;
    set_size(block_at(1), end - 1);
    enlist(block_at(1));
    return 1;
}

/* Takes a free block of a size at least out of its list; null where there is none. */
static block *listed(u32 size) {
    u32 bin = bin_for(size), word = bin / 64;
    u64 bits = filled[word] & ~0ull << bin % 64;
    while (!bits) {
        if (++word == sizeof filled / sizeof *filled)
            return 0;
        bits = filled[word];
    }
    block *it = block_at(first[word * 64 + (u32)__builtin_ctzll(bits)]);
    unlist(it);
    return it;
}

/* The units of a block of so many bytes. */
static u32 units(u64 length) {
    return (u32)((length + UNIT / 2 + UNIT - 1) / UNIT);
}

/* Takes a block of so many bytes at least, at a whole unit; null where memory is wanting. */
void *xsugar_take(u64 length) {
    if (length > LONGEST || (!begin && !start()))
        return 0;
    u32 size = units(length);
    block *it = listed(size);
    if (!it && !(it = grown(size)))
        return 0;
    cut(it, size);
    return &it->next;
}

/* Frees a block. */
void xsugar_free(void *bytes) {
    release(block_of(bytes));
}

/* Makes a block one of so many bytes at least, where it stands; says whether that could be done. */
static _Bool resized(block *it, u64 length) {
    if (length > LONGEST)
        return 0;
    u32 size = units(length);
    block *behind = block_at(place_of(it) + size_of(it));
    u32 room = size_of(it) + (is_free(behind) ? size_of(behind) : 0);
    if (room < size)
        return 0;
    if (size_of(it) < size) {
        unlist(behind);
        set_size(it, room);
    }
    cut(it, size);
    return 1;
}

tried rattle_alloc(u64 length, u64 alignment) {
    (void)alignment;
    void *at = xsugar_take(length);
    return (tried){at != 0, at ? at : &nothing};
}

tried rattle_realloc(void *old, u64 kept, u64 length, u64 alignment) {
    (void)alignment;
    if (resized(block_of(old), length))
        return (tried){1, old};
    void *at = xsugar_take(length);
    if (!at)
        return (tried){0, &nothing};
    __builtin_memcpy(at, old, kept);
    xsugar_free(old);
    return (tried){1, at};
}

void rattle_dealloc(void *bytes) {
    xsugar_free(bytes);
}
