/* The memory of a call: the three functions that the proved archive asks. They may fail at any time, and the archive has
 * an answer for that: it ends with "no memory" and gives back all that it holds.
 *
 * A call asks for many small blocks and gives each back before it ends. They are cut from chunks, which are the call's
 * own and go back whole at its end; a small block that was given back waits for the next of its size. What is larger
 * than SMALL is malloc's. Before each block is its size, which says whose it is. */
#include "call.h"
#include <stdalign.h>
#include <stdlib.h>
#include <string.h>

enum { HEAD = 16, LARGEST_CHUNK = 1 << 20 };

#ifdef _WIN32
/* C returns a structure of 16 bytes by a pointer there, and the archive in registers; windows/registers.ll joins the two. */
#define rattle_alloc trinorm_alloc
#define rattle_realloc trinorm_realloc
#endif

/* what the functions of memory return: `p` is never null */
struct tried {
    bool ok;
    void *p;
};

struct waiting {
    struct waiting *next;
};

struct chunk {
    struct chunk *next;
    size_t unused;
};

/* Blocks are aligned to STEP: malloc aligns what it returns, and what is before the first block of a chunk, and before
 * each block, has whole steps. */
_Static_assert(sizeof(struct chunk) % STEP == 0, "the first block of a chunk is aligned");
_Static_assert(HEAD % STEP == 0 && HEAD >= sizeof(size_t), "a block is aligned as its head is, which holds its size");
_Static_assert(alignof(max_align_t) >= STEP, "malloc aligns blocks to STEP");
_Static_assert(SMALL % STEP == 0 && sizeof(struct waiting) <= STEP, "a small block of each size can wait");

HIDDEN _Thread_local struct call *current_call QUICKLY_FOUND;

static unsigned char nothing;

static size_t *size_of(void *p) {
    return (size_t *)((unsigned char *)p - HEAD);
}

static size_t least(size_t n, size_t m) {
    return n < m ? n : m;
}

static void *large_block(struct call *call, size_t n) {
    if (n > SIZE_MAX - HEAD || (call && !call_may_hold(call, n)))
        return NULL;
    unsigned char *at = malloc(n + HEAD);
    if (!at) {
        if (call)
            call->held -= n;
        return NULL;
    }
    *(size_t *)at = n > SMALL ? n : SMALL + 1;
    return at + HEAD;
}

static bool make_chunk(struct call *call) {
    struct chunk *made = call_may_hold(call, call->next_chunk) ? malloc(call->next_chunk) : NULL;
    if (!made)
        return false;
    made->next = call->chunks;
    call->chunks = made;
    call->at = (unsigned char *)(made + 1);
    call->end = (unsigned char *)made + call->next_chunk;
    call->next_chunk = least(2 * call->next_chunk, LARGEST_CHUNK);
    return true;
}

static void *small_block(struct call *call, size_t n) {
    size_t steps = (n + STEP - 1) / STEP, size = steps * STEP;
    struct waiting *p = call->waiting[steps];
    if (p) {
        call->waiting[steps] = p->next;
        return p;
    }
    if ((size_t)(call->end - call->at) < HEAD + size && !make_chunk(call))
        return NULL;
    unsigned char *at = call->at;
    call->at += HEAD + size;
    *(size_t *)at = size;
    return at + HEAD;
}

/* a block of malloc's that stays one */
static void *larger(struct call *call, void *old, size_t had, size_t n) {
    if (n > SIZE_MAX - HEAD || (call && n > had && !call_may_hold(call, n - had)))
        return NULL;
    unsigned char *at = realloc(size_of(old), n + HEAD);
    if (!at) {
        if (call && n > had)
            call->held -= n - had;
        return NULL;
    }
    if (call && n < had)
        call->held -= least(call->held, had - n);
    *(size_t *)at = n;
    return at + HEAD;
}

static struct tried outcome_of(void *p) {
    return p ? (struct tried){true, p} : (struct tried){false, &nothing};
}

HIDDEN struct tried rattle_alloc(size_t n, size_t alignment) {
    struct call *call = current_call;
    n = n ? n : alignment;
    if (alignment > STEP || (call && call_is_stopped(call, n)))
        return outcome_of(NULL);
    return outcome_of(call && n <= SMALL ? small_block(call, n) : large_block(call, n));
}

HIDDEN void rattle_dealloc(void *p) {
    struct call *call = current_call;
    size_t size = *size_of(p);
    if (size <= SMALL) {
        struct waiting *block = p;
        block->next = call->waiting[size / STEP];
        call->waiting[size / STEP] = block;
        return;
    }
    if (call)
        call->held -= least(call->held, size);
    free(size_of(p));
}

HIDDEN struct tried rattle_realloc(void *old, size_t kept, size_t n, size_t alignment) {
    struct call *call = current_call;
    size_t had = *size_of(old);
    n = n ? n : alignment;
    if (n <= had && had <= SMALL)
        return outcome_of(old);
    if (alignment > STEP || (call && n > had && call_is_stopped(call, n - had)))
        return outcome_of(NULL);
    if (n > SMALL && had > SMALL)
        return outcome_of(larger(call, old, had, n));
    void *p = call && n <= SMALL ? small_block(call, n) : large_block(call, n);
    if (p) {
        /* outside a call the size of a short block is not known, only that it is malloc's */
        memcpy(p, old, least(kept, n));
        rattle_dealloc(old);
    }
    return outcome_of(p);
}

void call_frees_chunks(struct call *call) {
    for (struct chunk *chunk = call->chunks, *next; chunk; chunk = next) {
        next = chunk->next;
        free(chunk);
    }
    call->chunks = NULL;
}
