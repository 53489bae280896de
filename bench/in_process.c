/* For each line SIGNATURE of a file, the least time that a call took, in nanoseconds, a line each:
 *     in_process FILE ROUNDS WORD..
 * Calls go to trinorm_run, over the library's own memory and within no limits. What it gives back isn't handed to the system. */
#include "trinorm.h"
#include <malloc.h>
#include <stdio.h>
#include <stdlib.h>
#include <string.h>
#include <sys/mman.h>
#include <time.h>

#define MOST 20000

static char inputs[MOST][256];
static double least[MOST];

static double nanoseconds(void) {
    struct timespec t;
    clock_gettime(CLOCK_MONOTONIC, &t);
    return t.tv_sec * 1e9 + t.tv_nsec;
}

int main(int count, char **given) {
    static uint8_t words[1024];
    size_t length = 0, room = (size_t)1 << 26, needed;
    int inputs_read = 0;
    FILE *file = count > 3 ? fopen(given[1], "r") : NULL;
    uint8_t *answer = mmap(NULL, room, PROT_READ | PROT_WRITE, MAP_PRIVATE | MAP_ANONYMOUS, -1, 0);
    if (!file || answer == MAP_FAILED)
        return 2;
    mallopt(M_TRIM_THRESHOLD, 1 << 24);
    for (; inputs_read < MOST && fscanf(file, "%200s", inputs[inputs_read] + 4) == 1; inputs_read++) {
        memcpy(inputs[inputs_read], "sig ", 4);
        strcat(inputs[inputs_read], "\n");
        least[inputs_read] = 1e18;
    }
    fclose(file);
    for (int i = 3; i < count && length + strlen(given[i]) < sizeof words; i++) {
        length += i > 3;
        memcpy(words + length, given[i], strlen(given[i]));
        length += strlen(given[i]);
    }
    for (int round = 0; round < atoi(given[2]); round++)
        for (int i = 0; i < inputs_read; i++) {
            double begun = nanoseconds();
            trinorm_run(words, length, (uint8_t *)inputs[i], strlen(inputs[i]), answer, room, &needed);
            double took = nanoseconds() - begun;
            least[i] = took < least[i] ? took : least[i];
        }
    for (int i = 0; i < inputs_read; i++)
        printf("%.0f\n", least[i]);
    return 0;
}
