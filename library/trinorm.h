/* The program as a library. No call keeps anything for a later one; several threads may call at the same time. */
#ifndef TRINORM_H
#define TRINORM_H
#include <stddef.h>
#include <stdint.h>
#ifdef __cplusplus
extern "C" {
#endif

/* The status of a call. 0 to 5 and 8 have the meaning of the same exit status of the program; 7, 9 and 10 do not. */
enum {
    TRINORM_DONE = 0,    /* the output */
    TRINORM_USAGE = 2,   /* an error line: invalid command line */
    TRINORM_INPUT = 3,   /* an error line: invalid input */
    TRINORM_REFUSED = 4, /* an error line: the input is valid, but the command cannot answer it */
    TRINORM_LARGE = 5,   /* an error line: a number exceeds the limit */
    TRINORM_ROOM = 7,    /* the output is longer than the buffer, which is unchanged; *needed is its length */
    TRINORM_MEMORY = 8,  /* out of memory, or a limit was reached */
    TRINORM_WORDS = 9,   /* the arguments are not UTF-8 */
    TRINORM_AREAS = 10   /* a pointer is null although its length is not 0, or an output area overlaps another area */
};

/* Runs a command on an input as the program does. `words` has the arguments of the command line, with a zero byte between
 * each two, such as "surfaces\0--coords\0quad". The standard output of the program is written to the buffer `answer` of
 * `room` bytes, and its length to *needed, which is 0 if the status exceeds 7. A pointer may be null if its length is 0.
 * All bytes of the buffer must be initialized. Do not call it in a signal handler, nor in the forked child of a process
 * with several threads. */
uint8_t trinorm_run(const uint8_t *words, size_t words_length, const uint8_t *input, size_t input_length,
                    uint8_t *answer, size_t room, size_t *needed);

/* Limits of a call. A field that is 0 or null sets no limit, nor does a null pointer to the limits. They are checked whenever
 * the call allocates memory. This happens often, but no time is guaranteed; use a separate process for a call that has to
 * end in time. */
typedef struct {
    uint64_t most_bytes;       /* the most memory that the call may hold at a time */
    uint64_t most_nanoseconds; /* the longest time of the call */
    int (*stop)(void *);       /* called about ten times a second, in the calling thread; if it returns nonzero, the call stops */
    void *stop_argument;
    uint8_t reached;           /* written by the call: one of the values below */
} trinorm_limits;

enum { TRINORM_NO_LIMIT = 0, TRINORM_MOST_BYTES = 1, TRINORM_MOST_TIME = 2, TRINORM_STOPPED = 3 };

/* The same within limits. If a limit is reached, the status is TRINORM_MEMORY, limits->reached is that limit, and all memory
 * of the call is freed. */
uint8_t trinorm_run_within(trinorm_limits *limits, const uint8_t *words, size_t words_length, const uint8_t *input,
                           size_t input_length, uint8_t *answer, size_t room, size_t *needed);

/* The version of the library, such as "1.0.0". A program that was linked to libtrinorm.so.1 runs with each later library of
 * that name. */
const char *trinorm_version(void);

/* The number of bytes that the call in this thread holds, for use in the function `stop`; 0 outside a call. */
uint64_t trinorm_held(void);

/* The proved function that trinorm_run and trinorm_run_within call. No pointer may be null, even if its length is 0, and the
 * areas that it writes may not overlap any other area. */
uint8_t trinorm_answer(const uint8_t *words, size_t words_length, const uint8_t *input, size_t input_length,
                       uint8_t *answer, size_t room, size_t *needed);
#ifdef __cplusplus
}
#endif
#endif
