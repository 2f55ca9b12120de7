/* The heap of the module, in the place of the C library's malloc: memory from __heap_base on, which grows and never shrinks.
 *
 * Memory is a row of blocks without gaps. A block begins with its size and that of the block before it; a block that is free
 * has its neighbours in a list of free blocks of about its size. Two neighbours are never both free. Taking a block takes a
 * constant number of steps, whatever is free; so does giving one back.
 *
 * With HEAP_TEST the same code takes its memory from an array, for a test beside a sanitizer. */
#include "heap.h"

/* Sizes and addresses are multiples of UNIT. A block that is in use has the bit IN_USE in its size. */
enum { UNIT = 16, HEAD = 16, LEAST = 32, IN_USE = 1, PAGE = 65536, LISTS = 256 };

typedef struct block {
    size_t size, before;       /* of this block and of the one before it, heads included */
    struct block *next, *last; /* its neighbours in the list, if it is free */
} block;

/* List 4 n + m has sizes from (4 + m) 2^(n - 2) on, below the next one's. A bit says that it isn't empty. */
static block *lists[LISTS];
static uint64_t filled[LISTS / 64];
/* The block behind all others, of size 0 and in use; NULL before the first call. */
static block *end;

#ifdef HEAP_TEST
size_t heap_start(void);
size_t heap_pages(void);
int heap_grow(size_t pages);
#else
extern unsigned char __heap_base;
static size_t heap_start(void) { return (size_t)&__heap_base; }
static size_t heap_pages(void) { return __builtin_wasm_memory_size(0); }
/* (Binaryen's 32-bit form gives a failure as 2^32 - 1, so half of the number is compared; and it would cut the pages) */
static int heap_grow(size_t pages) {
    return pages <= UINT32_MAX / 2 && (uint32_t)__builtin_wasm_memory_grow(0, pages) != UINT32_MAX;
}
#endif

static block *at(block *from, size_t bytes) { return (block *)((unsigned char *)from + bytes); }
static size_t size_of(const block *it) { return it->size & ~(size_t)IN_USE; }

static unsigned list_of(size_t size) {
    unsigned high = 63 - (unsigned)__builtin_clzll(size);
    return 4 * high + (unsigned)(size >> (high - 2) & 3);
}

static void put_in(block *it) {
    unsigned list = list_of(it->size);
    it->last = NULL;
    it->next = lists[list];
    if (it->next) it->next->last = it;
    lists[list] = it;
    filled[list / 64] |= (uint64_t)1 << list % 64;
}

static void take_out(block *it) {
    unsigned list = list_of(it->size);
    if (it->next) it->next->last = it->last;
    if (it->last) it->last->next = it->next;
    else lists[list] = it->next;
    if (!lists[list]) filled[list / 64] &= ~((uint64_t)1 << list % 64);
}

/* Makes bytes that belong to no block a free one, joined with free neighbours. */
static void release(block *it, size_t size, size_t before) {
    block *behind = at(it, size);
    if (!(behind->size & IN_USE)) {
        take_out(behind);
        size += behind->size;
    }
    if (before) {
        block *other = (block *)((unsigned char *)it - before);
        if (!(other->size & IN_USE)) {
            take_out(other);
            it = other, size += before, before = it->before;
        }
    }
    it->size = size, it->before = before;
    at(it, size)->before = size;
    put_in(it);
}

/* Marks the first `size` bytes of a block that is in no list as in use, and releases the rest. */
static void keep(block *it, size_t size) {
    size_t rest = size_of(it) - size;
    if (rest < LEAST) {
        it->size |= IN_USE;
        return;
    }
    it->size = size | IN_USE;
    release(at(it, size), rest, size);
}

/* The block before the end if it is free; NULL otherwise. */
static block *last_free(void) {
    block *it = end->before ? (block *)((unsigned char *)end - end->before) : end;
    return it->size & IN_USE ? NULL : it;
}

/* Takes the memory from the end on, or from the heap's start, that the module has by now: whatever the host has grown it by too. */
static void extend(void) {
    block *it = end;
    size_t added = (heap_pages() * PAGE - HEAD - (size_t)it) / UNIT * UNIT;
    if (added < LEAST) return;
    end = at(it, added), end->size = IN_USE;
    release(it, added, it->before);
}

static int begin(void) {
    size_t start = (heap_start() + UNIT - 1) / UNIT * UNIT;
    if (heap_pages() * PAGE < start + HEAD && !heap_grow(1)) return 0;
    end = (block *)start;
    end->before = 0, end->size = IN_USE;
    extend();
    return 1;
}

/* The last block, made as large as `size` and taken out of its list; NULL if there is no memory. It grows by an eighth of the
 * memory where that can be had, since some engines copy all of it at each growth. */
static block *take_last(size_t size) {
    if (!end && !begin()) return NULL;
    block *it = last_free();
    if (!it || it->size < size) {
        size_t least = (size - (it ? it->size : 0) + LEAST + PAGE - 1) / PAGE, eighth = heap_pages() / 8;
        if (!(eighth > least && heap_grow(eighth)) && !heap_grow(least)) return NULL;
        extend();
        it = last_free();
    }
    take_out(it);
    return it;
}

/* The bytes of a block for so many bytes; 0 for more than an address space has. */
static size_t block_size(size_t bytes) {
    size_t size = bytes + HEAD + UNIT - 1;
    return bytes >= (size_t)1 << 47 ? 0 : size < LEAST ? LEAST : size / UNIT * UNIT;
}

/* A block of at least `size` bytes, taken out of its list: the first of a list of which each is large enough; NULL for none. */
static block *find(size_t size) {
    unsigned high = 63 - (unsigned)__builtin_clzll(size);
    unsigned list = list_of(size + ((size_t)1 << (high - 2)) - 1);
    for (unsigned word = list / 64; word < LISTS / 64; ++word) {
        uint64_t bits = filled[word] & (word == list / 64 ? ~(uint64_t)0 << list % 64 : ~(uint64_t)0);
        if (bits) {
            block *it = lists[64 * word + (unsigned)__builtin_ctzll(bits)];
            take_out(it);
            return it;
        }
    }
    return NULL;
}

void *heap_take(size_t bytes) {
    size_t size = block_size(bytes);
    if (!size) return NULL;
    block *it = find(size);
    if (!it && !(it = take_last(size))) return NULL;
    keep(it, size);
    return (unsigned char *)it + HEAD;
}

void heap_give(void *bytes) {
    block *it = (block *)((unsigned char *)bytes - HEAD);
    release(it, size_of(it), it->before);
}

void *heap_resize(void *bytes, size_t kept, size_t wanted) {
    block *it = (block *)((unsigned char *)bytes - HEAD), *behind = at(it, size_of(it));
    size_t size = block_size(wanted), whole = size_of(it) + (behind->size & IN_USE ? 0 : behind->size);
    if (!size) return NULL;
    if (size <= whole) {
        if (size > size_of(it)) {
            take_out(behind);
            it->size = whole;
            at(it, whole)->before = whole;
        }
        it->size = size_of(it);
        keep(it, size);
        return bytes;
    }
    unsigned char *other = heap_take(wanted);
    if (!other) return NULL;
    __builtin_memcpy(other, bytes, kept);
    heap_give(bytes);
    return other;
}

/* The calls by which the proved code asks for memory, as the toolchain's c/heap.c has them: `a` bytes for none. */
tried rattle_alloc(size_t n, size_t a) {
    void *found = heap_take(n ? n : a);
    return (tried){found != NULL, found ? found : &lists};
}

tried rattle_realloc(void *p, size_t kept, size_t n, size_t a) {
    size_t wanted = n ? n : a;
    void *found = heap_resize(p, kept < wanted ? kept : wanted, wanted);
    return (tried){found != NULL, found ? found : &lists};
}

void rattle_dealloc(void *p) { heap_give(p); }
