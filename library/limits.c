/* The calls for C: they look at the areas before the proved function does, and let it ask for memory only within the
 * limits of the call. If a limit is reached, memory is refused; the proved function then ends with "no memory" and gives
 * back all that it holds. So a limit needs no leave of what is proved. */
#include "call.h"
#ifdef _WIN32
#include <windows.h>
#else
#include <time.h>
#endif

#define NONE UINT64_MAX
#define TENTH_OF_A_SECOND 100000000u

#ifndef TRINORM_VERSION
#define TRINORM_VERSION "unknown"
#endif

static unsigned char nothing;

/* ---- limits */

static uint64_t now(void) {
#ifdef _WIN32
    return (uint64_t)GetTickCount64() * 1000000u;
#else
    struct timespec t;
    clock_gettime(CLOCK_MONOTONIC, &t);
    return (uint64_t)t.tv_sec * 1000000000u + (uint64_t)t.tv_nsec;
#endif
}

bool call_reads_clock(struct call *call) {
    trinorm_limits *limits = call->limits;
    call->since = 0;
    uint64_t t = now();
    if (t > call->last_time) {
        limits->reached = TRINORM_MOST_TIME;
    } else if (limits->stop && t > call->next_stop) {
        call->next_stop = t + TENTH_OF_A_SECOND;
        if (limits->stop(limits->stop_argument))
            limits->reached = TRINORM_STOPPED;
    }
    return limits->reached != 0;
}

bool call_may_hold(struct call *call, size_t more) {
    uint64_t most = call->limits ? call->limits->most_bytes : 0;
    if (most && (call->held > most || more > most - call->held)) {
        call->limits->reached = TRINORM_MOST_BYTES;
        return false;
    }
    call->held += more;
    return true;
}

/* ---- areas */

struct area {
    const void *at;
    size_t length;
};

static bool overlap(struct area one, struct area other) {
    uintptr_t p = (uintptr_t)one.at, q = (uintptr_t)other.at;
    return one.length && other.length && p < q + other.length && q < p + one.length;
}

static bool is_area(struct area area) {
    return area.length == 0 || (area.at && area.length <= PTRDIFF_MAX && (uintptr_t)area.at <= UINTPTR_MAX - area.length);
}

static bool are_areas(struct area words, struct area input, struct area answer, struct area needed) {
    return is_area(words) && is_area(input) && is_area(answer) && is_area(needed) && !overlap(answer, words) &&
           !overlap(answer, input) && !overlap(answer, needed) && !overlap(needed, words) && !overlap(needed, input);
}

/* ---- calls */

static uint8_t answer_within(trinorm_limits *limits, const uint8_t *words, size_t words_length, const uint8_t *input,
                             size_t input_length, uint8_t *answer, size_t room, size_t *needed) {
    struct call call = {.next_chunk = FIRST_CHUNK, .limits = limits}, *around = current_call;
    if (limits) {
        uint64_t begun = limits->most_nanoseconds || limits->stop ? now() : 0;
        limits->reached = TRINORM_NO_LIMIT;
        call.last_time = limits->most_nanoseconds && limits->most_nanoseconds < NONE - begun ? begun + limits->most_nanoseconds : NONE;
        call.next_stop = begun + TENTH_OF_A_SECOND;
    }
    current_call = &call;
    uint8_t status = trinorm_answer(words, words_length, input, input_length, answer, room, needed);
    current_call = around;
    call_frees_chunks(&call);
    return status;
}

uint8_t trinorm_run_within(trinorm_limits *limits, const uint8_t *words, size_t words_length, const uint8_t *input,
                           size_t input_length, uint8_t *answer, size_t room, size_t *needed) {
    size_t told_nobody;
    unsigned char none = 0;
    size_t *to = needed ? needed : &told_nobody;
    if (!are_areas((struct area){words, words_length}, (struct area){input, input_length}, (struct area){answer, room},
                   (struct area){to, sizeof *to}))
        return TRINORM_AREAS;
    return answer_within(limits, words_length ? words : &nothing, words_length, input_length ? input : &nothing,
                         input_length, room ? answer : &none, room, to);
}

uint64_t trinorm_held(void) {
    return current_call ? current_call->held : 0;
}

uint8_t trinorm_run(const uint8_t *words, size_t words_length, const uint8_t *input, size_t input_length,
                    uint8_t *answer, size_t room, size_t *needed) {
    return trinorm_run_within(NULL, words, words_length, input, input_length, answer, room, needed);
}

const char *trinorm_version(void) {
    return TRINORM_VERSION;
}
