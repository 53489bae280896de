/* Writes the vertex surfaces of a triangulation in quad coordinates. */
#include "trinorm.h"
#include <stdio.h>

int main(void) {
    static const char words[] = "surfaces\0--coords\0quad", input[] = "sig cPcbbbiht\n";
    static uint8_t room[1 << 16];
    size_t needed;
    uint8_t status = trinorm_run((const uint8_t *)words, sizeof words - 1, (const uint8_t *)input, sizeof input - 1,
                                 room, sizeof room, &needed);
    if (status == TRINORM_ROOM)
        fprintf(stderr, "the answer takes %zu bytes\n", needed);
    else
        fwrite(room, 1, needed, stdout);
    return status;
}
