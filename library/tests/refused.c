/* Refuses memory at each request in turn, that one alone and then with all behind it, over heap functions of its own:
 *     refused WORD.. < INPUT
 * Each call ends with the whole answer, or with "no memory" and the room as it was; and it gives back all that it took.
 * Status 1 where one doesn't. */
#include "trinorm.h"
#include <stdbool.h>
#include <stdio.h>
#include <stdlib.h>
#include <string.h>

struct tried {
    bool ok;
    void *p;
};

static unsigned char nothing;
static long requests, first_refused, last_refused, live;

static bool refuses(void) {
    long at = requests++;
    return first_refused <= at && at <= last_refused;
}

struct tried rattle_alloc(size_t n, size_t a) {
    if (refuses())
        return (struct tried){false, &nothing};
    live++;
    return (struct tried){true, malloc(n ? n : a)};
}

struct tried rattle_realloc(void *old, size_t kept, size_t n, size_t a) {
    (void)kept;
    if (refuses())
        return (struct tried){false, &nothing};
    return (struct tried){true, realloc(old, n ? n : a)};
}

void rattle_dealloc(void *p) {
    live--;
    free(p);
}

enum { ROOM = 1 << 20 };
static uint8_t words[1024], input[1 << 21], answer[ROOM], wanted[ROOM];
static size_t words_length, input_length, wanted_length;
static uint8_t wanted_status;

/* Whether the call with these requests refused ends as it may; `whole` says that it wasn't disturbed. */
static bool ends_well(long first, long last, bool *whole) {
    size_t needed = 77;
    requests = 0;
    first_refused = first;
    last_refused = last;
    memset(answer, 0xa5, wanted_length);
    uint8_t status = trinorm_answer(words, words_length, input, input_length, answer, ROOM, &needed);
    *whole = requests <= first;
    if (live != 0)
        return false;
    if (status == wanted_status && needed == wanted_length && memcmp(answer, wanted, wanted_length) == 0)
        return true;
    for (size_t i = 0; i < wanted_length; i++)
        if (answer[i] != 0xa5)
            return false;
    return status == TRINORM_MEMORY && needed == 0 && !*whole;
}

int main(int count, char **given) {
    for (int i = 1; i < count; i++) {
        words_length += i > 1;
        memcpy(words + words_length, given[i], strlen(given[i]));
        words_length += strlen(given[i]);
    }
    input_length = fread(input, 1, sizeof input, stdin);
    first_refused = last_refused = -1;
    wanted_status = trinorm_answer(words, words_length, input, input_length, wanted, ROOM, &wanted_length);
    bool whole = false;
    long at = 0;
    for (; !whole; at++)
        if (!ends_well(at, at, &whole) || !ends_well(at, 1L << 60, &whole)) {
            printf("request %ld was refused: the call ended otherwise, and holds %ld blocks\n", at, live);
            return 1;
        }
    printf("status %d, %zu bytes; %ld requests refused in turn\n", wanted_status, wanted_length, at - 1);
    return 0;
}
