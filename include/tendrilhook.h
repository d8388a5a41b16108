/*
 * tendrilhook.h: eight message files in memory that the caller lends, for C99 and C++.
 *
 * A desk is three byte memories of fixed length, and nothing else: the library allocates nothing, keeps nothing between calls, reads no
 * clock and starts no thread. A host lends the three memories to each call, as the call before left them. It may keep several desks, and
 * move one by copying its memories.
 *
 * Every call returns, with any bytes in any memory of the length given, and a call that is refused leaves the desk as it was. docs/HOST.md
 * is about threads, processes, restarts and refusal 29.
 *
 * The host must see to three things, since no call can test a pointer:
 *   - each pointer leads to as many bytes as the length after it says, and is not NULL even if that length is 0;
 *   - no two memories lent to one call overlap, and `length` leads to a size_t outside of them;
 *   - no two calls on one desk run at the same time.
 *
 *
 * The frames. An event is a frame of bytes, and its answer is one too. Words (2 bytes) have their high byte first. tendrilhook_frames.h makes
 * frames and reads answers, for a host that does not want to see their bytes.
 *
 *     frame                                   answer when done
 *     01 file R(2) B N(2) X     build         01 00 capacity(2)
 *     02 file access share multi  open        02 00 accessor ID(2)            ID 0 for a reader
 *     03 file acc count(2)      read          03 00 log(2) data
 *     04 file acc count(2) data write         04 00 log(2)
 *     05 file acc code param(2) control       05 00
 *     06 file acc               collect       06 00 log(2), data if a read
 *     07 file acc               close         07 00
 *     08 seconds(2)             time          08 00
 *     09 file                   counts        09 00 data records(2) all records(2) writers(2) readers(2)
 *
 *                 +----+------+-----+-----+-----+----+----+----+
 *     a write:    | 04 | file | acc | FF    FD  | 45 | 46 | 47 |        -3: three bytes
 *                 +----+------+-----+-----+-----+----+----+----+
 *                 +----+----+-----+-----+                    +----+----+
 *     its answer: | 04 | 00 | 00    03  |    or, refused:    | 04 | 22 |        hexadecimal 22 is 34: a reader may not write
 *                 +----+----+-----+-----+                    +----+----+
 *
 * With any status other than 0 the answer has two bytes, operation and status. A count is signed: 0 or more counts words, below 0 bytes.
 * The log is the amount moved, in the unit of the count; words are rounded up.
 *
 *   build    R words a record (1 to 128), B records a block (1 to 16), N records (1 to 2000), X extents (1 to 32). The capacity is N + 2 rounded
 *            up: B x D, where D is the smallest number of blocks that holds N + 2 records and for which D + 1 is a multiple of X
 *   open     access 0 reads; 1 writes, and purges the file if nobody has it open; 2 and 3 append. Share 0 or 1: one reader, one writer;
 *            2: one reader, many writers; 3: many of both. Multiaccess 0 to 2. A writer leaves an open record in the file
 *   read     counts -260 to 130. A longer record is cut to the count, and the rest is lost
 *   write    at most 2R bytes; the data are as long as the count says
 *   control  4 timeout: the longest wait in seconds, 0 for no limit; 6 verify, which does nothing; 45, 46 and 47: 1 on, 0 off
 *            43 abort: removes a waiting request, and nothing is left to collect; if it is completed, answers 2 and leaves it to be collected
 *            45 extended wait, to outlive the other side: requests wait also if nobody is there, and a waiting read stays when the last writer closes
 *            46 reads take open and close records too, and put type(2) and ID(2) before the data; count and log cover these 4 bytes
 *            47 the next read leaves its record in the file
 *   collect  gives the outcome of a read or write that was answered 1
 *   close    cancels a waiting request. A writer leaves a close record in the file
 *   time     the given number of seconds has passed: waiting requests whose time is up complete with status 22
 *   counts   gives the numbers of records that the file holds, and of writers and readers that have it open
 *
 * When a request waits. A read that finds no record, or a write that does not fit or has writers waiting ahead of it, is answered 1 and waits
 *   - if the other side has an accessor: a writer for a read, a reader for a write;
 *   - or if extended wait (45) is on;
 *   - or if it is this accessor's first read or write that is not refused.
 * Otherwise it ends with 2. An accessor whose request was answered 1 can only collect, abort (43) or close until the outcome is collected:
 * collect answers 1 as long as the request waits. The desk calls nobody: the host collects when it chooses.
 *
 * Room. Open and close records take a place each, as data records do, and a place is kept for the close record of each open writer. With W
 * writers open, a write fits if used + W + 1 is at most the capacity; a writer may open if used + W + 2 is, else the open is refused with 42.
 * Used counts the records put since the start of the oldest block that still holds one; an empty file has 0. So a file of N 1 (B 1, X 1) has
 * capacity 3, and after an open to append and a close the next open to append is refused with 42.
 *
 *
 * The sheet. A file is saved as text and loaded from it: frames, each a line of upper-case hexadecimal digits with LF at its end. The first
 * frame describes the file, the others are its records, oldest first.
 *
 *     01 R(2) B D(2) records(2)               R words a record, B records a block, D blocks, and the number of records, a line each
 *     type(2) ID(2) data                      type 0 data, 1 open, 2 close, and the writer's ID; only type 0 has data
 *
 *     0100040100030002                        4 words a record, 1 to a block, 3 blocks; 2 records:
 *     00010001                                writer 1 opened the file
 *     0000000141424344                        and wrote ABCD
 *
 * A text is a sheet if R is 1 to 128, B 1 to 16, B x D at least 3, D x ((R + 3) x B + 2) at most 2048, the records are at most B x D and as many
 * as the first frame says, the types 0 to 2, the IDs not 0, and the data at most 2R bytes; each line has its LF, and nothing follows the
 * last. A sheet omits who has the file open, what waits, and which places of the oldest block are spent: a loaded file is closed, and packed.
 */
#ifndef TENDRILHOOK_H
#define TENDRILHOOK_H

#include <stddef.h>
#include <stdint.h>

#ifdef __cplusplus
extern "C" {
#endif

/* The version of the library that this header declares. */
#define TENDRILHOOK_VERSION "1.0"

/* The lengths, in bytes, of the memories that a host lends. Any other length is refused (29), except a sheet's, which may be any. */
enum {
    TENDRILHOOK_SEGMENT_BYTES = 3876, /* accessors, lists and entries */
    TENDRILHOOK_BLOCKS_BYTES = 32768, /* the records of the eight files */
    TENDRILHOOK_BUFFERS_BYTES = 16640, /* a record buffer for each of 64 accessor places */
    TENDRILHOOK_ANSWER_BYTES = 264, /* an answer */
    TENDRILHOOK_RECORD_BYTES = 260, /* a record to look at */
    TENDRILHOOK_SHEET_BYTES = 8192 /* enough for any sheet */
};

/* The statuses: the second byte of an event's answer, and the result of the other four calls. A status of 29 or more is a refusal: the desk is as
   it was. If several refusals apply, the lowest is given. */
enum {
    TENDRILHOOK_DONE = 0, /* done */
    TENDRILHOOK_WAITING = 1, /* the request waits, or still waits: collect it later */
    TENDRILHOOK_END_OF_FILE = 2, /* nothing to read, or no room to write, and the request may not wait; abort: already completed */
    TENDRILHOOK_TIMED_OUT = 22, /* the request waited as long as its timeout allows */

    TENDRILHOOK_UNSOUND = 29, /* a lent memory has the wrong length or unsound content. An event then has no answer: its length is 0 */
    TENDRILHOOK_BAD_FRAME = 30, /* a frame that has none of the nine shapes, or write data not as long as their count. The answer is 00 1E */
    TENDRILHOOK_NO_FILE = 31, /* a file above 7 or not built; build and load: above 7 or already built */
    TENDRILHOOK_NOT_OPEN = 32, /* an accessor above 7 or not open */
    TENDRILHOOK_OUTSTANDING = 33, /* read, write or control (not 43) while a request is outstanding; close with a completed one uncollected */
    TENDRILHOOK_WRONG_SIDE = 34, /* a read or look by a writer, a write by a reader, 46 or 47 by a writer */
    TENDRILHOOK_OUT_OF_RANGE = 35, /* a number outside its range, or a control that does not exist */
    TENDRILHOOK_TOO_LARGE = 38, /* build: more than a file's 2,048 words of blocks */
    TENDRILHOOK_NOTHING_THERE = 39, /* collect, or control 43, with nothing outstanding; look with no record */
    TENDRILHOOK_FORBIDDEN = 40, /* open: multiaccess 3, a share other than that of the open accessors, or one accessor more than the share allows */
    TENDRILHOOK_EIGHT_OPEN = 41, /* open: eight accessors are open */
    TENDRILHOOK_NO_ROOM = 42, /* open: no room for the writer's open record */
    TENDRILHOOK_NOT_A_SHEET = 43, /* load: the text is not a sheet */
    TENDRILHOOK_OUTPUT_TOO_SHORT = 44 /* save: the output is shorter than the sheet */
};

/*
 * Makes a fresh desk: no file is built.
 *
 * Lent      segment, blocks and buffers, with any bytes in them.
 * Returns   TENDRILHOOK_DONE, or TENDRILHOOK_UNSOUND if one of the three lengths is wrong.
 * Changes   all three memories, to the last byte; nothing at all if it returns TENDRILHOOK_UNSOUND.
 */
uint8_t tendrilhook_fresh(uint8_t *segment, size_t segment_length,
                          uint8_t *blocks, size_t blocks_length,
                          uint8_t *buffers, size_t buffers_length);

/*
 * Takes one event, a frame, and answers it.
 *
 * Lent      segment, blocks and buffers, as the call before left them; answer, with any bytes in it; frame, of any length, which is read only.
 * Returns   the length of the answer, 2 to 264. The answer begins at the first byte of `answer`: operation and status, then what the table
 *           above says. 0 is refusal 29: a length is wrong, or the three memories are not those of a desk.
 * Changes   that many bytes of answer; the bytes after them stay. The desk's memories, as the event asks; they stay if it is refused (a status
 *           of 30 or more). Nothing at all if it returns 0.
 */
size_t tendrilhook_event(uint8_t *segment, size_t segment_length,
                         uint8_t *blocks, size_t blocks_length,
                         uint8_t *buffers, size_t buffers_length,
                         uint8_t *answer, size_t answer_length,
                         const uint8_t *frame, size_t frame_length);

/*
 * Copies the record that is there for a reader; the record stays where it is.
 *
 * Lent      segment, blocks and buffers, as the call before left them, which are read only; record, with any bytes in it; length.
 *           File and reader are any numbers.
 * Returns   TENDRILHOOK_DONE, or why not: TENDRILHOOK_UNSOUND (also if record_length is not TENDRILHOOK_RECORD_BYTES), _NO_FILE, _NOT_OPEN,
 *           _WRONG_SIDE for a writer, _NOTHING_THERE if there is no record.
 * Changes   record, and *length, the record's length: 0 to 260 bytes from the first byte of `record`; the bytes after them stay. If a read of
 *           this reader waited and is done, these are the data that collect will answer; else the data of the file's oldest data record.
 *           If the call is refused, *length is 0 and record stays.
 */
uint8_t tendrilhook_look(const uint8_t *segment, size_t segment_length,
                         const uint8_t *blocks, size_t blocks_length,
                         const uint8_t *buffers, size_t buffers_length,
                         size_t file, size_t reader,
                         uint8_t *record, size_t record_length, size_t *length);

/*
 * Saves a file: writes its sheet.
 *
 * Lent      segment, blocks and buffers, as the call before left them, which are read only; output, of any length and with any bytes in it;
 *           length. TENDRILHOOK_SHEET_BYTES of output are always enough. File is any number; the file may be open, and does not change.
 * Returns   TENDRILHOOK_DONE, or why not: TENDRILHOOK_UNSOUND, _NO_FILE, _OUTPUT_TOO_SHORT.
 * Changes   output, and *length, the sheet's length: the text begins at the first byte of `output` and has no zero byte at its end; the bytes
 *           after it stay. If the call is refused, *length is 0 and output stays.
 */
uint8_t tendrilhook_save(const uint8_t *segment, size_t segment_length,
                         const uint8_t *blocks, size_t blocks_length,
                         const uint8_t *buffers, size_t buffers_length,
                         size_t file,
                         uint8_t *output, size_t output_length, size_t *length);

/*
 * Loads a file from a sheet. The file must not be built yet; afterwards it is built, and nobody has it open.
 *
 * Lent      segment, blocks and buffers, as the call before left them; text, of any length and with any bytes in it, which is read only. File
 *           is any number.
 * Returns   TENDRILHOOK_DONE, or why not: TENDRILHOOK_UNSOUND, _NO_FILE (above 7, or already built), _NOT_A_SHEET.
 * Changes   the desk's memories, by adding that file; nothing at all if the call is refused.
 */
uint8_t tendrilhook_load(uint8_t *segment, size_t segment_length,
                         uint8_t *blocks, size_t blocks_length,
                         uint8_t *buffers, size_t buffers_length,
                         size_t file,
                         const uint8_t *text, size_t text_length);

#ifdef __cplusplus
}
#endif

#endif
