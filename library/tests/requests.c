/* Stands in the place of the proved archive: its one function asks for memory in many ways, and checks what it gets. The
 * input is the number of rounds; the answer is one byte for each block that was lost or moved wrongly, so none if all is
 * right. */
#include <stdbool.h>
#include <stddef.h>
#include <stdint.h>
#include <stdlib.h>
#include <string.h>

struct tried {
    bool ok;
    void *p;
};

struct tried rattle_alloc(size_t size, size_t alignment);
struct tried rattle_realloc(void *old, size_t kept, size_t size, size_t alignment);
void rattle_dealloc(void *p);

enum { BLOCKS = 64 };

struct block {
    unsigned char *at;
    size_t size;
    unsigned char mark;
};

static bool is_whole(const struct block *block, size_t size) {
    for (size_t i = 0; i < size; i++)
        if (block->at[i] != block->mark)
            return false;
    return true;
}

static bool keep(struct block *block, struct tried tried, size_t size, unsigned char mark) {
    if (!tried.ok)
        return false;
    *block = (struct block){tried.p, size, mark};
    memset(block->at, mark, size);
    return true;
}

static size_t size_of_round(uint32_t x) {
    return x % 5 == 0 ? x % 100000 : x % 5 == 1 ? x % 700 : x % 40;
}

/* Gives back, grows, shrinks or makes one block, and returns how many faults it saw. */
static size_t round_of(struct block *block, uint32_t x, bool *out_of_memory) {
    size_t size = size_of_round(x >> 8), faults = 0;
    if (!block->at)
        *out_of_memory = !keep(block, rattle_alloc(size, 8), size, (unsigned char)x);
    else if (x % 3 == 0) {
        faults = !is_whole(block, block->size);
        rattle_dealloc(block->at);
        block->at = NULL;
    } else {
        size_t kept = block->size < size ? block->size : size;
        struct tried tried = rattle_realloc(block->at, kept, size, 8);
        if (tried.ok) {
            block->at = tried.p;
            faults = !is_whole(block, kept);
        }
        *out_of_memory = !keep(block, tried, size, (unsigned char)x);
    }
    return faults + (block->at && (uintptr_t)block->at % 16 != 0);
}

uint8_t trinorm_answer(const uint8_t *words, size_t words_length, const uint8_t *input, size_t input_length, uint8_t *answer,
                       size_t room, size_t *needed) {
    struct block blocks[BLOCKS] = {{0}};
    char text[21] = {0};
    memcpy(text, input, input_length < 20 ? input_length : 20);
    uint32_t x = 1;
    size_t faults = 0;
    bool out_of_memory = false;
    (void)words, (void)words_length;
    for (unsigned long left = strtoul(text, NULL, 10); left && !out_of_memory; left--) {
        x = x * 1664525u + 1013904223u;
        faults += round_of(&blocks[(x >> 24) % BLOCKS], x >> 4, &out_of_memory);
    }
    for (size_t i = 0; i < BLOCKS; i++)
        if (blocks[i].at) {
            faults += !is_whole(&blocks[i], blocks[i].size);
            rattle_dealloc(blocks[i].at);
        }
    /* no block is aligned to more than malloc's are */
    faults += rattle_alloc(64, 32).ok;
    *needed = out_of_memory ? 0 : faults;
    if (!out_of_memory && faults <= room)
        memset(answer, 'x', faults);
    return out_of_memory ? 8 : 0;
}
