/* Pairs whose instructions bench/whole counts. `whole bring STATE` brings a desk into a state and writes its three memories to standard output. `whole pairs COUNT` reads
   them from standard input and makes COUNT pairs of 80 bytes. */
#include "desk.h"

#include <stdio.h>
#include <stdlib.h>
#include <string.h>

static int written(const uint8_t *memory, size_t length) { return fwrite(memory, 1, length, stdout) == length; }

static int read_in(uint8_t *memory, size_t length) { return fread(memory, 1, length, stdin) == length; }

int main(int count, char **words)
{
    if (count != 3) return 2;
    if (strcmp(words[1], "bring") == 0) {
        bring((enum state)atoi(words[2]));
        return written(segment, sizeof segment) && written(blocks, sizeof blocks) && written(buffers, sizeof buffers) && fflush(stdout) == 0 ? 0 : 2;
    }
    if (!read_in(segment, sizeof segment) || !read_in(blocks, sizeof blocks) || !read_in(buffers, sizeof buffers)) return 2;
    for (int n = atoi(words[2]); n > 0; n--) pair(80);
    return 0;
}
