/*
 * A host that dumps its desk: sends the frames of standard input, a line of hexadecimal digits each, to a fresh desk, and writes the three memories to the
 * files that its arguments name. tools/check-board compares the board of these files with the board of the session.
 */
#include "tendrilhook_frames.h"

#include <stdio.h>
#include <string.h>

enum { MOST_LINE = 2 * TENDRILHOOK_FRAME_BYTES + 2 };

static uint8_t segment[TENDRILHOOK_SEGMENT_BYTES], blocks[TENDRILHOOK_BLOCKS_BYTES], buffers[TENDRILHOOK_BUFFERS_BYTES];
static uint8_t answer[TENDRILHOOK_ANSWER_BYTES], frame[TENDRILHOOK_FRAME_BYTES];

/* Puts the frame of a line into `frame`. Returns the frame's length. */
static size_t frame_of(const char *line)
{
    size_t n = 0;
    unsigned byte;
    while (n < TENDRILHOOK_FRAME_BYTES && sscanf(line + 2 * n, "%2X", &byte) == 1) frame[n++] = (uint8_t)byte;
    return n;
}

static int dumped(const char *path, const uint8_t *bytes, size_t length)
{
    FILE *file = fopen(path, "wb");
    if (file == NULL) return 0;
    size_t n = fwrite(bytes, 1, length, file);
    return fclose(file) == 0 && n == length;
}

int main(int count, char **words)
{
    char line[MOST_LINE + 1];
    if (count != 4) return 2;
    if (tendrilhook_fresh(segment, sizeof segment, blocks, sizeof blocks, buffers, sizeof buffers) != TENDRILHOOK_DONE) return 1;
    while (fgets(line, sizeof line, stdin) != NULL) {
        line[strcspn(line, "\n")] = '\0';
        size_t n = frame_of(line);
        if (tendrilhook_event(segment, sizeof segment, blocks, sizeof blocks, buffers, sizeof buffers, answer, sizeof answer, frame, n) == 0) return 1;
    }
    return dumped(words[1], segment, sizeof segment) && dumped(words[2], blocks, sizeof blocks) && dumped(words[3], buffers, sizeof buffers) ? 0 : 1;
}
