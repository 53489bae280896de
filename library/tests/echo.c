/* In place of the library, for tests of the server: the words are one of
 *   echo         answers the input
 *   repeat N     answers N bytes
 *   status N     answers `text` with this status
 *   wait N       asks N times whether to stop, ten times a second
 *   hold N       takes N bytes of memory, writes to them, and gives them back */
#include "trinorm.h"
#include <stdlib.h>
#include <string.h>
#include <time.h>

static uint8_t put(uint8_t status, const uint8_t *text, size_t length, uint8_t *answer, size_t room, size_t *needed) {
    *needed = length;
    if (length > room)
        return TRINORM_ROOM;
    memcpy(answer, text, length);
    return status;
}

static uint8_t repeat(size_t length, uint8_t *answer, size_t room, size_t *needed) {
    *needed = length;
    if (length > room)
        return TRINORM_ROOM;
    memset(answer, 'x', length);
    return TRINORM_DONE;
}

static int is_stopped(trinorm_limits *limits, long times) {
    struct timespec tenth = {0, 100000000};
    for (; times > 0; times--) {
        nanosleep(&tenth, NULL);
        if (limits->stop && limits->stop(limits->stop_argument))
            return 1;
    }
    return 0;
}

static int hold(size_t size) {
    unsigned char *held = malloc(size);
    if (!held)
        return 0;
    memset(held, 1, size);
    volatile unsigned char last = held[size - 1];
    free(held);
    return last;
}

uint8_t trinorm_run_within(trinorm_limits *limits, const uint8_t *words, size_t words_length, const uint8_t *input,
                           size_t input_length, uint8_t *answer, size_t room, size_t *needed) {
    char command[64] = "";
    memcpy(command, words, words_length < sizeof command ? words_length : sizeof command - 1);
    long number = atol(command + strlen(command) + (strlen(command) < words_length));
    *needed = 0;
    if (!strcmp(command, "echo"))
        return put(TRINORM_DONE, input, input_length, answer, room, needed);
    if (!strcmp(command, "repeat"))
        return repeat((size_t)number, answer, room, needed);
    if (!strcmp(command, "status"))
        return put((uint8_t)number, (const uint8_t *)"text", 4, answer, room, needed);
    if (!strcmp(command, "wait"))
        return is_stopped(limits, number) ? TRINORM_MEMORY : put(TRINORM_DONE, input, input_length, answer, room, needed);
    if (!strcmp(command, "hold"))
        return hold((size_t)number) ? put(TRINORM_DONE, input, input_length, answer, room, needed) : TRINORM_MEMORY;
    return put(TRINORM_USAGE, (const uint8_t *)"refused: usage\n", 15, answer, room, needed);
}
