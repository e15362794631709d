/* Tests by themselves what the module has that is not proved. The heap, over a memory that ends:
 * blocks are taken, resized and freed at random, with marks in them that have to stay, and what the
 * row of blocks keeps to is looked at. And products of 128 bits, against those of the machine. */
#include <stdint.h>
#include <stdio.h>
#include <stdlib.h>
#include <string.h>

#include "builtins.c"
#include "heap.c"

enum { PAGE = PAGE_UNITS * UNIT, PAGES = 512, BLOCKS = 1500, ROUNDS = 1000000 };

typedef struct {
    byte *at;
    u64 length;
    byte mark;
} taken;

static _Alignas(UNIT) byte memory[PAGES * PAGE];
static u32 pages, most_pages;
static taken blocks[BLOCKS];
static u64 refused;

/* No whole unit, as the linker's place may be none. */
byte *memory_begin(void) {
    return memory + 40;
}

u64 memory_size(void) {
    return (u64)(uintptr_t)memory + (u64)pages * PAGE;
}

_Bool memory_grow(u32 more) {
    if (more > most_pages - pages)
        return 0;
    pages += more;
    return 1;
}

static void check(_Bool right, const char *what) {
    if (!right) {
        printf("failed: %s\n", what);
        exit(1);
    }
}

static u32 random_below(u32 most) {
    static u64 state = 88172645463325252u;
    state ^= state << 13;
    state ^= state >> 7;
    state ^= state << 17;
    return (u32)(state >> 32) % most;
}

/* Most are small, some have pages, a few have megabytes. */
static u64 random_length(void) {
    u32 kind = random_below(100);
    return random_below(kind < 80 ? 300 : kind < 97 ? 20000 : kind < 99 ? 300000 : 6000000);
}

/* Looks at the row: sizes lead from block to block up to the end and back, no two free blocks stand
 * side by side, and those that are free are those of the lists, each in its bin. */
static void check_row(void) {
    u32 place = 0, before = 0, free_blocks = 0, listed_blocks = 0;
    _Bool free_before = 0;
    while (size_of(block_at(place))) {
        block *it = block_at(place);
        check(it->before == before, "the size of the block before");
        check(!(free_before && is_free(it)), "free neighbours are joined");
        free_before = is_free(it), before = size_of(it), place += before;
        free_blocks += free_before;
    }
    check(place == end && block_at(end)->before == before, "the end of the row");
    for (u32 bin = 0; bin < BINS; bin++) {
        check(!first[bin] == !(filled[bin / 64] >> bin % 64 & 1), "the bit of a bin");
        for (u32 at = first[bin], previous = 0; at; previous = at, at = block_at(at)->next) {
            check(is_free(block_at(at)) && bin_of(size_of(block_at(at))) == bin, "a block of a bin");
            check(block_at(at)->previous == previous, "the link back");
            listed_blocks++;
        }
    }
    check(free_blocks == listed_blocks, "all free blocks are listed");
}

static void check_marks(taken *it, u64 length) {
    if (length)
        check(it->at[0] == it->mark && !memcmp(it->at, it->at + 1, length - 1), "the bytes of a block stay");
}

static void mark(taken *it) {
    check((uintptr_t)it->at % UNIT == 0, "a block begins at a whole unit");
    check(it->at > memory && it->at + it->length <= memory + (u64)pages * PAGE, "a block is in the memory");
    it->mark = (byte)random_below(256);
    memset(it->at, it->mark, it->length);
}

static void give(taken *it) {
    check_marks(it, it->length);
    rattle_dealloc(it->at);
    it->at = 0;
}

static void take(taken *it) {
    u64 length = random_length();
    tried told = rattle_alloc(length, 8);
    check(told.at != 0, "what is told is never null");
    if (!told.ok) {
        refused++;
        return;
    }
    *it = (taken){told.at, length, 0};
    mark(it);
}

static void resize(taken *it) {
    u64 length = random_length(), kept = it->length < length ? it->length : length;
    tried told = rattle_realloc(it->at, kept, length, 8);
    check(told.at != 0, "what is told is never null");
    if (!told.ok) {
        refused++;
        return check_marks(it, it->length);
    }
    it->at = told.at;
    check_marks(it, kept);
    it->length = length;
    mark(it);
}

/* Frees all blocks; all of the memory is one free block then. */
static void give_all(void) {
    for (u32 at = 0; at < BLOCKS; at++)
        if (blocks[at].at)
            give(&blocks[at]);
    check_row();
    check(size_of(block_at(1)) == end - 1 && is_free(block_at(1)), "one block is left");
}

static void at_random(void) {
    for (u32 round = 0; round < ROUNDS; round++) {
        taken *it = &blocks[random_below(BLOCKS)];
        if (!it->at)
            take(it);
        else if (random_below(2))
            resize(it);
        else
            give(it);
        if (round % 500 == 0)
            check_row();
    }
    give_all();
    check(refused > 100, "memory was wanting at times");
}

/* Small blocks take all memory; once they are freed, one block has nearly all of it. */
static void to_the_end(void) {
    void *all = 0, *it;
    u64 count = 0;
    while ((it = xsugar_take(24))) {
        memcpy(it, &all, sizeof all);
        all = it;
        count++;
    }
    check(count == end / 2 - (end % 2 == 0), "small blocks fill the memory");
    check(!xsugar_take(24) && !rattle_alloc(24, 8).ok, "no memory is left");
    while (all) {
        memcpy(&it, all, sizeof it);
        xsugar_free(all);
        all = it;
    }
    give_all();
    it = xsugar_take((u64)(PAGES - 1) * PAGE - UNIT * 8);
    check(it != 0, "nearly all memory is one block");
    check(rattle_realloc(it, 8, 8, 8).at == it, "a block is cut where it stands");
    xsugar_free(it);
    give_all();
}

static void too_long(void) {
    void *it = xsugar_take(1);
    tried told = rattle_realloc(it, 1, (u64)1 << 62, 1);
    check(!told.ok && told.at != 0, "a block cannot become too long");
    check(!rattle_alloc(~(u64)0, 1).ok && !rattle_alloc((u64)1 << 63, 1).ok, "no block is too long");
    xsugar_free(it);
    give_all();
}

static u64 random_word(void) {
    u64 word = (u64)random_below(~0u) << 32 | random_below(~0u);
    return random_below(4) ? word : random_below(2) ? ~(u64)0 : word >> random_below(64);
}

static void products(void) {
    for (u32 round = 0; round < ROUNDS; round++) {
        u128 left = (u128)random_word() << 64 | random_word(), right = (u128)random_word() << 64 | random_word();
        check(__multi3(left, right) == left * right, "a product");
    }
}

int main(void) {
    check(!rattle_alloc(1, 1).ok, "a memory without a page");
    most_pages = PAGES;
    at_random();
    to_the_end();
    too_long();
    products();
    printf("heap: %d rounds passed, memory was wanting in %llu\n", ROUNDS, (unsigned long long)refused);
    return 0;
}
