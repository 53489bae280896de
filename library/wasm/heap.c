/* What the proved module calls and what JavaScript calls, in place of limits.c: three functions of memory over one heap
 * that only grows, and the checked call. Each of the three may fail at any time; the proved function then returns 8.
 * An instance of the module serves one call, or after trinorm_forget another one, so the heap need not shrink.
 *
 * Compiled for wasm64, whose layout of data is that of the module. Addresses become 32 bits afterwards, so the heap ends
 * one page below 4 GiB: no address and no end of an area wraps around. */
typedef unsigned char byte;
typedef unsigned long size; /* 64 bits on wasm64 */

enum { PAGE = 65536, MOST_PAGES = 65535, STEP = 16, HEAD = 16, SMALL = 512, CLASSES = 32 + 8 * 64 };

#define EXPORTED(name) __attribute__((export_name(#name), visibility("default")))

/* The result of a function of memory; the module reads the first byte of `is_done`. `block` is never null. */
struct attempt {
    size is_done;
    void *block;
};

byte trinorm_answer(const byte *words, size words_length, const byte *input, size input_length, byte *answer, size room,
                    size *needed);

extern byte __heap_base;
static byte *unused;               /* the heap from here on was never used, or was given back */
static size most;                  /* the most bytes that the heap may take; 0: no limit */
static byte *free_blocks[CLASSES]; /* the free blocks of each class; the first bytes of each hold the next one */
static byte nothing;

static size rounded_up(size n, size step) {
    return (n + step - 1) / step * step;
}

/* The number of the least class whose blocks hold `n` bytes, and in `room` how many bytes these hold: steps of 16 bytes up to
 * SMALL, then eight classes for each doubling. */
static int class_of(size n, size *room) {
    if (n <= SMALL) {
        *room = n ? rounded_up(n, STEP) : STEP;
        return (int)(*room / STEP) - 1;
    }
    int log = 63 - __builtin_clzl(n - 1); /* 2^log < n <= 2^(log + 1) */
    size step = (size)1 << (log - 3);
    *room = rounded_up(n, step);
    return 32 + 8 * (log - 9) + (int)((*room - ((size)1 << log)) / step) - 1;
}

static _Bool grows_by(size pages) {
    return (unsigned)__builtin_wasm_memory_grow(0, pages) != ~0u;
}

/* Whether the memory reaches as far as `end`, after it has grown if it must. */
static _Bool reaches(byte *end) {
    size pages = __builtin_wasm_memory_size(0), needed = rounded_up((size)end, PAGE) / PAGE;
    if (most && (size)end - (size)&__heap_base > most)
        return 0;
    if (needed <= pages)
        return 1;
    if (needed > MOST_PAGES)
        return 0;
    size plenty = needed + pages / 8;
    if (plenty <= MOST_PAGES && grows_by(plenty - pages))
        return 1;
    return grows_by(needed - pages);
}

/* A free block of the class, or of one of the three larger ones, if there is one. */
static byte *free_block(int class, int last) {
    for (; class <= last; class++)
        if (free_blocks[class]) {
            byte *block = free_blocks[class];
            free_blocks[class] = *(byte **)block;
            return block;
        }
    return 0;
}

static byte *new_block(size n) {
    size room;
    if (n >> 46)
        return 0;
    int class = class_of(n, &room);
    byte *block = free_block(class, n <= SMALL ? class : class + 3);
    if (block)
        return block;
    if (!unused)
        unused = (byte *)rounded_up((size)&__heap_base, STEP);
    if (!reaches(unused + HEAD + room))
        return 0;
    block = unused + HEAD;
    *(size *)unused = room;
    unused = block + room;
    return block;
}

static struct attempt attempt(byte *block) {
    return block ? (struct attempt){1, block} : (struct attempt){0, &nothing};
}

struct attempt rattle_alloc(size n, size align) {
    return attempt(new_block(n ? n : align));
}

void rattle_dealloc(void *block) {
    size room = *(size *)((byte *)block - HEAD);
    if ((byte *)block + room == unused) { /* the last one returns to the unused part */
        unused = (byte *)block - HEAD;
        return;
    }
    int class = class_of(room, &room);
    *(byte **)block = free_blocks[class];
    free_blocks[class] = block;
}

/* Gives the last block another size in its place. */
static struct attempt resized(byte *block, size n) {
    size room;
    class_of(n, &room);
    if (!reaches(block + room))
        return attempt(0);
    *(size *)(block - HEAD) = room;
    unused = block + room;
    return attempt(block);
}

struct attempt rattle_realloc(void *old, size kept, size n, size align) {
    size room = *(size *)((byte *)old - HEAD);
    n = n ? n : align;
    if (n <= room && (n > room / 2 || room <= SMALL))
        return attempt(old);
    if ((byte *)old + room == unused && !(n >> 46))
        return resized(old, n);
    byte *block = new_block(n);
    if (block) {
        __builtin_memcpy(block, old, kept < n ? kept : n);
        rattle_dealloc(old);
    }
    return attempt(block);
}

/* An area of `n` bytes for words, an input, an answer or its length; 0 if memory runs out. */
EXPORTED(trinorm_area) size trinorm_area(size n) {
    return (size)new_block(n);
}

/* Sets the most bytes that the heap may take, areas included; 0: no limit. */
EXPORTED(trinorm_limit) void trinorm_limit(size n) {
    most = n;
}

/* The number of bytes that the memory has. */
EXPORTED(trinorm_held) size trinorm_held(void) {
    return __builtin_wasm_memory_size(0) * (size)PAGE;
}

/* Frees all areas. */
EXPORTED(trinorm_forget) void trinorm_forget(void) {
    unused = 0;
    for (int class = 0; class < CLASSES; class++)
        free_blocks[class] = 0;
}

/* As trinorm.h says. Each area is one of trinorm_area, so none lies over another. */
EXPORTED(trinorm_run)
unsigned trinorm_run(const byte *words, size words_length, const byte *input, size input_length, byte *answer, size room,
                     size *needed) {
    if (!words || !input || !answer || !needed)
        return 10;
    return trinorm_answer(words, words_length, input, input_length, answer, room, needed);
}
