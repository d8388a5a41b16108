/*
 * Shows condition 1: a call for each refusal number, on a desk with open files, records and a request that waits. After each call the three memories are
 * compared, byte by byte, with a copy made before it, and so are the bytes of answer and output that a refused call may not write. It prints a row for each
 * call; the exit status is 1 if a number is wrong or a byte has changed.
 */
#include "tendrilhook_frames.h"

#include <stdio.h>
#include <stdlib.h>
#include <string.h>

/* The desk, then the other memories that a refused call must leave alone; and a copy of them all. */
static struct memories {
    uint8_t segment[TENDRILHOOK_SEGMENT_BYTES], blocks[TENDRILHOOK_BLOCKS_BYTES], buffers[TENDRILHOOK_BUFFERS_BYTES];
    uint8_t answer[TENDRILHOOK_ANSWER_BYTES], output[TENDRILHOOK_SHEET_BYTES];
} now, before;

static uint8_t frame[TENDRILHOOK_FRAME_BYTES];
static int faults;

#define DESK now.segment, sizeof now.segment, now.blocks, sizeof now.blocks, now.buffers, sizeof now.buffers

/* Sends the frame, which has this length. Returns the answer's length. */
static size_t event(size_t length)
{
    return tendrilhook_event(DESK, now.answer, sizeof now.answer, frame, length);
}

/* Prints a row. It is a fault if the status is not this number, or if anything is changed except the first `answered` bytes of the answer. */
static void refused(int number, const char *what, int status, size_t answered)
{
    int right = status == number && memcmp(now.answer + answered, before.answer + answered, sizeof now.answer - answered) == 0;
    int same = memcmp(now.segment, before.segment, sizeof now.segment) == 0 && memcmp(now.blocks, before.blocks, sizeof now.blocks) == 0
               && memcmp(now.buffers, before.buffers, sizeof now.buffers) == 0 && memcmp(now.output, before.output, sizeof now.output) == 0;
    printf("%2d  %-58s %s\n", status, what, right && same ? "53,284 bytes as they were" : "NOT AS IT SHOULD BE");
    faults += !right || !same;
    now = before;
}

/* Sends a frame that must be refused with this number; the row shows the frame, then what it is. */
static void bad(int number, const char *what, size_t length)
{
    char shown[128];
    size_t n = 0;
    before = now;
    size_t answered = event(length);
    for (size_t i = 0; i < length; i++) n += (size_t)snprintf(shown + n, sizeof shown - n, "%02X", (unsigned)frame[i]);
    snprintf(shown + n, sizeof shown - n, ": %s", what);
    refused(number, shown, tendrilhook_answer_status(now.answer, answered), answered);
}

static size_t open_frame(uint8_t file, enum tendrilhook_access access, enum tendrilhook_share share)
{
    return tendrilhook_frame_open(frame, file, access, share, TENDRILHOOK_MULTI_DEFAULT);
}

/* Builds a file of records of 4 words, with room for one. */
static size_t small_file(uint8_t file)
{
    return tendrilhook_frame_build(frame, file, 4, 1, 1, 1);
}

/* Prepares the desk. File 0: a writer whose write waits, and a reader. File 2: eight readers. File 3: a writer, and no room for another's open record. */
static void prepare(void)
{
    for (size_t i = 0; i < sizeof now.output; i++) now.output[i] = (uint8_t)(i * 7 + 3);
    tendrilhook_fresh(DESK);
    event(small_file(0));
    event(open_frame(0, TENDRILHOOK_ACCESS_APPEND, TENDRILHOOK_SHARE_EXCLUSIVE));
    event(open_frame(0, TENDRILHOOK_ACCESS_READ, TENDRILHOOK_SHARE_EXCLUSIVE));
    event(tendrilhook_frame_write(frame, 0, 0, "ABCD", 4));
    event(tendrilhook_frame_write(frame, 0, 0, "EFG", 3));
    event(small_file(2));
    for (int i = 0; i < 8; i++) event(open_frame(2, TENDRILHOOK_ACCESS_READ, TENDRILHOOK_SHARE_BOTH));
    event(small_file(3));
    event(open_frame(3, TENDRILHOOK_ACCESS_APPEND, TENDRILHOOK_SHARE_BOTH));
}

static void not_a_desk(void)
{
    before = now;
    size_t answered = tendrilhook_event(now.segment, sizeof now.segment - 1, now.blocks, sizeof now.blocks, now.buffers, sizeof now.buffers,
                                        now.answer, sizeof now.answer, frame, tendrilhook_frame_counts(frame, 0));
    refused(TENDRILHOOK_UNSOUND, "a segment that is a byte too short", tendrilhook_answer_status(now.answer, answered), 0);
    now.segment[1] ^= 1;
    bad(TENDRILHOOK_UNSOUND, "a segment with a bit changed", tendrilhook_frame_counts(frame, 0));
    now.segment[1] ^= 1;
}

static void not_an_event(void)
{
    size_t length = 1;
    before = now;
    refused(TENDRILHOOK_NOT_A_SHEET, "load: a text that is not a sheet", tendrilhook_load(DESK, 4, (const uint8_t *)"no sheet\n", 9), 0);
    refused(TENDRILHOOK_OUTPUT_TOO_SHORT, "save: an output of ten bytes", tendrilhook_save(DESK, 0, now.output, 10, &length), 0);
    faults += length != 0;
}

int main(void)
{
    prepare();
    not_a_desk();
    tendrilhook_frame_read_words(frame, 0, 0, 4);
    bad(TENDRILHOOK_BAD_FRAME, "a read that is cut off", 2);
    bad(TENDRILHOOK_NO_FILE, "a read from file 5, which is not built", tendrilhook_frame_read_words(frame, 5, 0, 4));
    bad(TENDRILHOOK_NOT_OPEN, "a read by accessor 5, which is not open", tendrilhook_frame_read_words(frame, 0, 5, 4));
    bad(TENDRILHOOK_OUTSTANDING, "a write while one waits", tendrilhook_frame_write(frame, 0, 0, "", 0));
    bad(TENDRILHOOK_WRONG_SIDE, "a write by a reader", tendrilhook_frame_write(frame, 0, 1, "", 0));
    bad(TENDRILHOOK_OUT_OF_RANGE, "a read of 131 words", tendrilhook_frame_read_words(frame, 0, 1, 131));
    bad(TENDRILHOOK_TOO_LARGE, "a build of more than 2,048 words", tendrilhook_frame_build(frame, 1, 128, 1, 14, 1));
    bad(TENDRILHOOK_NOTHING_THERE, "a collect of nothing", tendrilhook_frame_collect(frame, 0, 1));
    bad(TENDRILHOOK_FORBIDDEN, "a second reader of a file opened exclusive", open_frame(0, TENDRILHOOK_ACCESS_READ, TENDRILHOOK_SHARE_EXCLUSIVE));
    bad(TENDRILHOOK_EIGHT_OPEN, "a ninth accessor", open_frame(2, TENDRILHOOK_ACCESS_READ, TENDRILHOOK_SHARE_BOTH));
    bad(TENDRILHOOK_NO_ROOM, "a writer without room for its open record", open_frame(3, TENDRILHOOK_ACCESS_APPEND, TENDRILHOOK_SHARE_BOTH));
    not_an_event();
    return faults == 0 ? EXIT_SUCCESS : EXIT_FAILURE;
}
