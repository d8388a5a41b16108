#include "desk.h"

#include <stdio.h>
#include <stdlib.h>
#include <string.h>

uint8_t segment[TENDRILHOOK_SEGMENT_BYTES], blocks[TENDRILHOOK_BLOCKS_BYTES], buffers[TENDRILHOOK_BUFFERS_BYTES];
uint8_t answer[TENDRILHOOK_ANSWER_BYTES];

const char *const state_names[STATES] = { "one file", "crowded", "holding", "full", "wide", "scattered" };

enum { PLACES = 64, ENTRIES = 128 };

static uint8_t frame[TENDRILHOOK_FRAME_BYTES];

size_t ask(const uint8_t *asked, size_t length)
{
    return tendrilhook_event(segment, sizeof segment, blocks, sizeof blocks, buffers, sizeof buffers, answer, sizeof answer, asked, length);
}

/* Sends the frame, which must be answered with this status. */
static void must(int status, size_t length)
{
    const int given = tendrilhook_answer_status(answer, ask(frame, length));
    if (given != status) {
        fprintf(stderr, "bench: operation %d of file %d is answered %d, not %d\n", frame[0], frame[1], given, status);
        exit(1);
    }
}

static void build(uint8_t file, uint16_t words, uint8_t factor, uint16_t records)
{
    must(TENDRILHOOK_DONE, tendrilhook_frame_build(frame, file, words, factor, records, 1));
}

static void open_place(uint8_t file, enum tendrilhook_access access)
{
    must(TENDRILHOOK_DONE, tendrilhook_frame_open(frame, file, access, TENDRILHOOK_SHARE_BOTH, TENDRILHOOK_MULTI_DEFAULT));
}

static void control(uint8_t file, uint8_t place, enum tendrilhook_control code, uint16_t parameter)
{
    must(TENDRILHOOK_DONE, tendrilhook_frame_control(frame, file, place, code, parameter));
}

static void write_words(uint8_t file, uint8_t place, int status, size_t words)
{
    uint8_t data[TENDRILHOOK_DATA_BYTES];
    memset(data, 0x5A, sizeof data);
    must(status, tendrilhook_frame_write_words(frame, file, place, data, words));
}

static void read_words(uint8_t file, uint8_t place, int status, size_t words)
{
    must(status, tendrilhook_frame_read_words(frame, file, place, words));
}

/* Builds the other seven files, with records of 16 bytes, and opens all their places: the given number of readers each, and writers at the rest. */
static void open_all(uint8_t readers)
{
    for (uint8_t file = 1; file < 8; file++) {
        build(file, 8, 16, 172);
        for (int n = 0; n < 8; n++) open_place(file, n < readers ? TENDRILHOOK_ACCESS_READ : TENDRILHOOK_ACCESS_APPEND);
    }
}

/* Shuffles the free list: reads of the other files wait with timeouts, and are aborted in another order. */
static void shuffle(void)
{
    static const uint8_t order[] = { 2, 0, 3, 1 };
    for (uint8_t place = 0; place < 4; place++)
        for (uint8_t file = 1; file < 8; file++) {
            control(file, place, TENDRILHOOK_CONTROL_TIMEOUT, (uint16_t)(10 + place));
            read_words(file, place, TENDRILHOOK_WAITING, 8);
        }
    for (int n = 0; n < 4; n++)
        for (uint8_t file = 7; file > 0; file--) control(file, order[n], TENDRILHOOK_CONTROL_ABORT, 0);
}

static void hold(int records)
{
    for (uint8_t file = 1; file < 8; file++)
        for (int n = 0; n < records; n++) write_words(file, 7, TENDRILHOOK_DONE, 8);
}

/* Writes to the other files until no more fits; then each of their writers waits with a timeout. */
static void fill(void)
{
    for (uint8_t file = 1; file < 8; file++)
        for (uint8_t place = 1; place < 8; place++) {
            static const uint8_t zeros[16];
            int status;
            control(file, place, TENDRILHOOK_CONTROL_TIMEOUT, (uint16_t)(100 + file));
            do {
                status = tendrilhook_answer_status(answer, ask(frame, tendrilhook_frame_write_words(frame, file, place, zeros, 8)));
                if (status == TENDRILHOOK_UNSOUND) exit(1);
            } while (status != TENDRILHOOK_WAITING);
        }
}

/* Makes the desk fresh and builds file 0. */
static void bring_fresh(void)
{
    tendrilhook_fresh(segment, sizeof segment, blocks, sizeof blocks, buffers, sizeof buffers);
    build(0, 128, 1, 13);
}

/* Builds the other seven files, of one block of 16 records of 200 bytes, and opens a writer of each: the block holds its open record. */
static void widen(void)
{
    for (uint8_t file = 1; file < 8; file++) {
        build(file, 100, 16, 14);
        open_place(file, TENDRILHOOK_ACCESS_APPEND);
    }
}

/* Reads word n of the segment (docs/SEGMENT.md). */
static unsigned word(unsigned n) { return (unsigned)segment[2 * n] << 8 | segment[2 * n + 1]; }

/* Says whether an entry on the free list links to the entry before it or after it in the segment. */
static int neighbours(void)
{
    unsigned entry = word(0), next;
    for (; entry < ENTRIES; entry = next) {
        next = word(82 + 10 * entry);
        if (next == entry + 1 || next + 1 == entry) return 1;
    }
    return 0;
}

/* Makes all 64 places wait, and aborts them in a pseudo-random order. All have a timer, but the first place only if `timed`: without it, the two entries that another
   place gets were not one place's before. */
static void wait_and_abort(int timed, unsigned *random)
{
    uint8_t order[PLACES];
    control(0, 0, TENDRILHOOK_CONTROL_TIMEOUT, (uint16_t)timed);
    for (uint8_t n = 0; n < PLACES; n++) {
        read_words(n / 8, n % 8, TENDRILHOOK_WAITING, 1);
        order[n] = n;
    }
    for (unsigned left = PLACES; left > 0; left--) {
        *random = *random * 1103515245u + 12345u;
        const unsigned n = (*random >> 16) % left;
        control(order[n] / 8, order[n] % 8, TENDRILHOOK_CONTROL_ABORT, 0);
        order[n] = order[left - 1];
    }
}

/* Puts the free list in no order: readers at all 64 places of the desk wait and are aborted until no entry links to a neighbour. All eight files are needed, since 64
   waits with timers take all 128 entries. The links are then written into a desk that has file 0 alone: no run leads to it, since a file that is built stays. */
static void scatter(void)
{
    static uint8_t scattered[sizeof segment];
    unsigned random = 1;
    for (uint8_t file = 1; file < 8; file++) build(file, 1, 1, 1);
    for (uint8_t n = 0; n < PLACES; n++) {
        open_place(n / 8, TENDRILHOOK_ACCESS_READ);
        control(n / 8, n % 8, TENDRILHOOK_CONTROL_EXTENDED_WAIT, TENDRILHOOK_ON);
        control(n / 8, n % 8, TENDRILHOOK_CONTROL_TIMEOUT, 1);
    }
    for (int round = 0; neighbours(); round++) wait_and_abort(round % 2 == 0, &random);
    memcpy(scattered, segment, sizeof segment);
    bring_fresh();
    memcpy(segment, scattered, 2);
    for (size_t n = 0; n < ENTRIES; n++) memcpy(segment + 2 * (82 + 10 * n), scattered + 2 * (82 + 10 * n), 2);
}

void bring(enum state state)
{
    bring_fresh();
    if (state == CROWDED || state == HOLDING || state == FULL) open_all(state == FULL ? 1 : 4);
    if (state == CROWDED || state == HOLDING) shuffle();
    if (state == HOLDING) hold(11);
    if (state == FULL) fill();
    if (state == WIDE) widen();
    if (state == SCATTERED) scatter();
    open_place(0, TENDRILHOOK_ACCESS_APPEND);
    open_place(0, TENDRILHOOK_ACCESS_READ);
    /* the first read discards the open record at the head */
    pair(8);
}

/* The frames are made once for each size: what is measured are the calls. */
void pair(unsigned size)
{
    static const uint8_t zeros[TENDRILHOOK_DATA_BYTES];
    static uint8_t write[TENDRILHOOK_FRAME_BYTES], read[TENDRILHOOK_FRAME_BYTES];
    static size_t written, asked, made_for = SIZE_MAX;
    if (size != made_for) {
        written = tendrilhook_frame_write(write, 0, 0, zeros, size);
        asked = tendrilhook_frame_read(read, 0, 1, size);
        made_for = size;
    }
    if (ask(write, written) != 4 || answer[1] != TENDRILHOOK_DONE || ask(read, asked) != 4 + size || answer[1] != TENDRILHOOK_DONE) {
        fprintf(stderr, "bench: a pair of %u bytes is not done\n", size);
        exit(1);
    }
}
