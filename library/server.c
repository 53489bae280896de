/* One process that answers many requests, until its input ends. A request is a number of 8 bytes, then two lengths of 4
 * bytes, those of the words and of the input, all in the machine's order, then the words, with a zero byte between each
 * two, and the input. An answer is the number of its request, a byte, the status, a length of 4 bytes, and a text of this
 * length. The process ends with status 6 if the input ends within a request, with 7 if an answer can't be written, and
 * with 8 if there is no memory for a request or for an answer. */
#include "trinorm.h"
#include <malloc.h>
#include <poll.h>
#include <signal.h>
#include <stdio.h>
#include <stdlib.h>
#include <string.h>
#include <sys/mman.h>
#include <unistd.h>

enum { NOT_READ = 6, NOT_WRITTEN = 7 };
enum { USUAL_REQUEST = 1 << 16, LONG = 1 << 20, USUAL_ROOM = 1 << 26 };

struct request {
    uint64_t number;
    uint32_t words, input;
};

/* pages that nothing was written to cost nothing */
static struct {
    uint8_t *at;
    size_t size;
} room;

/* the words and the input of a request */
static struct {
    uint8_t *at;
    size_t size;
} text;

static int make_room(size_t size) {
    if (room.at)
        munmap(room.at, room.size);
    room.size = size;
    room.at = mmap(NULL, size, PROT_READ | PROT_WRITE, MAP_PRIVATE | MAP_ANONYMOUS, -1, 0);
    if (room.at != MAP_FAILED)
        return 1;
    room.at = NULL;
    return 0;
}

static int make_text(size_t size) {
    free(text.at);
    text.size = size;
    text.at = malloc(size);
    return text.at != NULL;
}

/* What a call gives back is kept for the next one, and not handed to the system each time. */
static void keep_memory(void) {
#ifdef __GLIBC__
    mallopt(M_MMAP_THRESHOLD, 1 << 24);
    mallopt(M_TRIM_THRESHOLD, 1 << 24);
#endif
}

/* Gives memory back to the system after a request or an answer that took more than the usual. */
static int give_back(size_t answered) {
    int was_long = text.size > USUAL_REQUEST || answered > LONG;
    if (!was_long)
        return 1;
    if (text.size > USUAL_REQUEST && !make_text(USUAL_REQUEST))
        return 0;
    if (room.size > USUAL_ROOM && !make_room(USUAL_ROOM))
        return 0;
    madvise(room.at, room.size, MADV_DONTNEED);
#ifdef __GLIBC__
    malloc_trim(0);
#endif
    return 1;
}

/* Whether nobody can read an answer any more, as when the process that asked has ended. */
static int has_no_reader(void *unused) {
    (void)unused;
    struct pollfd to = {STDOUT_FILENO, 0, 0};
    return poll(&to, 1, 0) == 1 && (to.revents & POLLERR) != 0;
}

static uint8_t run(const struct request *asked, size_t *needed) {
    trinorm_limits limits = {0, 0, has_no_reader, NULL, 0};
    return trinorm_run_within(&limits, text.at, asked->words, text.at + asked->words, asked->input, room.at, room.size, needed);
}

static int write_answer(uint64_t number, uint8_t status, uint32_t length) {
    uint8_t head[sizeof number + sizeof status + sizeof length];
    memcpy(head, &number, sizeof number);
    head[sizeof number] = status;
    memcpy(head + sizeof number + sizeof status, &length, sizeof length);
    return fwrite(head, 1, sizeof head, stdout) == sizeof head && fwrite(room.at, 1, length, stdout) == length &&
           fflush(stdout) == 0;
}

/* 0, or the status with which the process ends. */
static int answer(const struct request *asked) {
    size_t needed = 0;
    uint8_t status = run(asked, &needed);
    if (status == TRINORM_ROOM) {
        if (needed > UINT32_MAX || !make_room(needed))
            return TRINORM_MEMORY;
        status = run(asked, &needed);
    }
    if (!write_answer(asked->number, status, (uint32_t)needed))
        return NOT_WRITTEN;
    return give_back(needed) ? 0 : TRINORM_MEMORY;
}

int main(void) {
    signal(SIGPIPE, SIG_IGN);
    keep_memory();
    if (!make_text(USUAL_REQUEST) || !make_room(USUAL_ROOM))
        return TRINORM_MEMORY;
    for (;;) {
        struct request asked;
        size_t got = fread(&asked, 1, sizeof asked, stdin);
        if (got < sizeof asked)
            return got ? NOT_READ : 0;
        size_t size = (size_t)asked.words + asked.input;
        if (size > text.size && !make_text(size))
            return TRINORM_MEMORY;
        if (fread(text.at, 1, size, stdin) != size)
            return NOT_READ;
        int fault = answer(&asked);
        if (fault)
            return fault;
    }
}
