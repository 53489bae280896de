/* The program over the library, for systems for which the kit links none: its words, standard input, standard output and
 * exit status. What it does around the proved call is tested, and not proved. */
#include "trinorm.h"
#include <stdio.h>
#include <stdlib.h>
#include <string.h>
#ifdef _WIN32
#include <fcntl.h>
#include <io.h>
#endif

enum { MOST_INPUT = 1048576, USUAL_ROOM = 1 << 20, FAILED_SOURCE = 6, FAILED_SINK = 7 };

/* The words with a zero byte between each two; null if memory runs out. */
static uint8_t *joined(int count, char **words, size_t *length) {
    size_t all = 1;
    for (int i = 1; i < count; i++)
        all += strlen(words[i]) + 1;
    uint8_t *made = malloc(all), *to = made;
    for (int i = 1; made && i < count; i++) {
        size_t n = strlen(words[i]);
        memcpy(to, words[i], n);
        to += n;
        if (i + 1 < count)
            *to++ = 0;
    }
    *length = made ? (size_t)(to - made) : 0;
    return made;
}

static int reads_nothing(const char *command) {
    return strcmp(command, "make") == 0 || strcmp(command, "bulk") == 0;
}

static int write_whole(const uint8_t *text, size_t length) {
    return fwrite(text, 1, length, stdout) == length && fflush(stdout) == 0;
}

/* Reads standard input, up to one byte more than an input may have. */
static int read_input(uint8_t *to, size_t *length) {
    *length = fread(to, 1, MOST_INPUT + 1, stdin);
    return !ferror(stdin);
}

/* The answer, of which `needed` bytes are there unless the status is above TRINORM_LARGE. */
struct answer {
    uint8_t *at;
    size_t room, needed;
};

static uint8_t answer_of(const uint8_t *said, size_t said_length, const uint8_t *input, size_t length, struct answer *to) {
    uint8_t status = trinorm_run(said, said_length, input, length, to->at, to->room, &to->needed);
    if (status != TRINORM_ROOM)
        return status;
    free(to->at);
    to->room = to->needed;
    to->at = calloc(to->room, 1);
    return to->at ? trinorm_run(said, said_length, input, length, to->at, to->room, &to->needed) : TRINORM_MEMORY;
}

/* Whether the words were refused, before an input was looked at. */
static int ends_without_input(uint8_t status) {
    return status == TRINORM_USAGE || status == TRINORM_WORDS || status == TRINORM_MEMORY;
}

int main(int count, char **words) {
    static uint8_t input[MOST_INPUT + 1];
    size_t words_length, length = 0;
    uint8_t *said = joined(count, words, &words_length);
    struct answer answer = {calloc(USUAL_ROOM, 1), USUAL_ROOM, 0};
#ifdef _WIN32
    _setmode(0, _O_BINARY);
    _setmode(1, _O_BINARY);
#endif
    if (!said || !answer.at)
        return TRINORM_MEMORY;
    /* with an empty input: words that are refused are, whatever standard input has, and it is not read */
    uint8_t status = answer_of(said, words_length, input, 0, &answer);
    if (!ends_without_input(status) && !reads_nothing(words[1])) {
        if (!read_input(input, &length)) {
            static const char refusal[] = "refused: read\n";
            return write_whole((const uint8_t *)refusal, sizeof refusal - 1) ? FAILED_SOURCE : FAILED_SINK;
        }
        status = answer_of(said, words_length, input, length, &answer);
    }
    return status > TRINORM_LARGE || write_whole(answer.at, answer.needed) ? status : FAILED_SINK;
}
