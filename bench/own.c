/* Calls whose instructions bench/own counts: on one file with records of 80 bytes, ten to a block. `counted` makes each call, and a line of standard output names it
   before. */
#include "tendrilhook_frames.h"

#include <stdio.h>
#include <stdlib.h>

static uint8_t segment[TENDRILHOOK_SEGMENT_BYTES], blocks[TENDRILHOOK_BLOCKS_BYTES], buffers[TENDRILHOOK_BUFFERS_BYTES];
static uint8_t answer[TENDRILHOOK_ANSWER_BYTES];

/* File 0 has records of the sizes that are measured; file 1 has as many records in a block as there may be, none of the full size. */
enum { WORDS = 40, FACTOR = 10, SHORT = 15, MOST_WORDS = 20, MOST = 16, MOST_SIZE = 37, RECORDS = 30 };

struct frame {
    uint8_t bytes[TENDRILHOOK_FRAME_BYTES];
    size_t length;
};

static struct frame written, shorter, short_one, read, written_most, read_most;

static size_t ask(const struct frame *frame)
{
    return tendrilhook_event(segment, sizeof segment, blocks, sizeof blocks, buffers, sizeof buffers, answer, sizeof answer, frame->bytes, frame->length);
}

__attribute__((noipa)) void counted(const struct frame *frame)
{
    if (ask(frame) < 4 || answer[1] != TENDRILHOOK_DONE) exit(2);
}

static void must(const struct frame *frame)
{
    if (ask(frame) < 4 || answer[1] != TENDRILHOOK_DONE) exit(2);
}

/* Builds a file, and opens a writer and a reader of it: accessors 0 and 1. */
static void open_file(uint8_t file, uint16_t words, uint8_t factor)
{
    static const enum tendrilhook_access accesses[] = { TENDRILHOOK_ACCESS_APPEND, TENDRILHOOK_ACCESS_READ };
    struct frame frame;
    frame.length = tendrilhook_frame_build(frame.bytes, file, words, factor, RECORDS, 1);
    must(&frame);
    for (int n = 0; n < 2; n++) {
        frame.length = tendrilhook_frame_open(frame.bytes, file, accesses[n], TENDRILHOOK_SHARE_BOTH, TENDRILHOOK_MULTI_DEFAULT);
        must(&frame);
    }
}

/* Makes the frames that are sent again and again. */
static void make_frames(void)
{
    static const uint8_t zeros[TENDRILHOOK_DATA_BYTES];
    written.length = tendrilhook_frame_write_words(written.bytes, 0, 0, zeros, WORDS);
    shorter.length = tendrilhook_frame_write_words(shorter.bytes, 0, 0, zeros, WORDS - 1);
    short_one.length = tendrilhook_frame_write(short_one.bytes, 0, 0, zeros, SHORT);
    read.length = tendrilhook_frame_read_words(read.bytes, 0, 1, WORDS);
    written_most.length = tendrilhook_frame_write(written_most.bytes, 1, 0, zeros, MOST_SIZE);
    read_most.length = tendrilhook_frame_read_words(read_most.bytes, 1, 1, MOST_WORDS);
}

/* Fills a block, begins another, and reads the first. The reads after none, one and all but one of its records are counted. */
static void block(const struct frame *frame, int written_before, const char *what)
{
    for (int n = written_before; n <= FACTOR; n++) must(frame);
    for (int n = 0; n < FACTOR; n++) {
        if (n == 0 || n == 1 || n == FACTOR - 1) {
            printf("a read after %d spent records in its block%s\n", n, what);
            counted(&read);
        } else
            must(&read);
    }
}

int main(void)
{
    if (tendrilhook_fresh(segment, sizeof segment, blocks, sizeof blocks, buffers, sizeof buffers) != 0) return 2;
    make_frames();
    open_file(0, WORDS, FACTOR);
    /* the open record goes with the first read */
    must(&written);
    must(&read);
    puts("a write that begins a block");
    counted(&written);
    puts("a read of a file's only record");
    counted(&read);
    must(&written);
    puts("a write after another");
    counted(&written);
    block(&written, 2, "");
    must(&read);
    block(&shorter, 0, ", of records of 78 bytes");
    must(&read);
    puts("a write of 15 bytes that begins a block");
    counted(&short_one);
    block(&short_one, 1, ", of records of 15 bytes");
    open_file(1, MOST_WORDS, MOST);
    must(&written_most);
    must(&read_most);
    for (int n = 0; n <= MOST; n++) must(&written_most);
    for (int n = 0; n < MOST - 1; n++) must(&read_most);
    puts("a read after 15 spent records in its block, R 20 and B 16, of records of 37 bytes");
    counted(&read_most);
    return 0;
}
