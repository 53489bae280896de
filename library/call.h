/* What the files of the library share: a call, its memory and its limits. */
#ifndef TRINORM_CALL_H
#define TRINORM_CALL_H
#include "trinorm.h"
#include <stdbool.h>

#ifdef _WIN32
#define HIDDEN /* windows/trinorm.def names what is exported */
#else
#define HIDDEN __attribute__((visibility("hidden")))
#endif

#ifdef __GLIBC__
#define QUICKLY_FOUND __attribute__((tls_model("initial-exec")))
#else /* other loaders have no room for such a variable of a library that is loaded later */
#define QUICKLY_FOUND
#endif

#ifndef SMALL
#define SMALL 512 /* 0: all blocks are malloc's, so that other tools see each */
#endif
/* blocks are aligned to STEP bytes, and have a multiple of that */
enum { STEP = 16, FIRST_CHUNK = 1 << 15 };

/* A call that runs. It begins with `next_chunk` FIRST_CHUNK, `limits`, and the times of its limits; all else is 0. */
struct call {
    struct waiting *waiting[SMALL / STEP + 1]; /* small blocks that were given back, by their size */
    unsigned char *at, *end;                   /* what is left of the newest chunk */
    struct chunk *chunks;
    size_t next_chunk;
    trinorm_limits *limits; /* null: none */
    uint32_t since;         /* how often memory was asked for since the clock was read */
    uint64_t held, last_time, next_stop;
};

/* of the call that runs in this thread, null outside a call */
extern HIDDEN _Thread_local struct call *current_call QUICKLY_FOUND;

/* Reads the clock, and returns whether the call is to end. */
HIDDEN bool call_reads_clock(struct call *call);

/* Adds `more` bytes to what the call holds, or returns false if that exceeds its limit. */
HIDDEN bool call_may_hold(struct call *call, size_t more);

/* Gives all chunks of the call back. */
HIDDEN void call_frees_chunks(struct call *call);

/* Whether the call is to end, where `size` bytes are asked for. The clock is read each 64th time, and for much memory. */
static inline bool call_is_stopped(struct call *call, size_t size) {
    if (!call->limits)
        return false;
    return call->limits->reached || ((++call->since >= 64 || size >= 65536) && call_reads_clock(call));
}
#endif
