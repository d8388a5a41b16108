/*
 * tendrilhook_frames.h: makes the frames that tendrilhook_event takes and reads its answers, for C99 and C++11.
 *
 * Outside the proof. Nothing here is proved, and a host may do without it: tendrilhook.h has the bytes of each frame and answer. These functions only
 * put bytes into a frame and take them out of an answer; tools/check-frames compares them with document 01 and with the second opinion. What the desk
 * does with a frame is proved, whatever bytes the frame has.
 *
 * The builders, tendrilhook_frame_*, put a frame into the caller's memory of TENDRILHOOK_FRAME_BYTES and return its length. Numbers are put as they
 * are: the desk refuses those outside their range. If a count or data do not go into a frame, the builder returns 0 and writes nothing, and the desk
 * answers an empty frame with TENDRILHOOK_BAD_FRAME.
 *
 * The readers, tendrilhook_answer_*, are given an answer and the length that tendrilhook_event returned. They return its status: TENDRILHOOK_UNSOUND
 * for length 0, and TENDRILHOOK_NOT_THE_ANSWER, which is below 0, for bytes that no frame of this kind is answered with. What they give is 0 or empty
 * unless the status is TENDRILHOOK_DONE. A pointer to what the host has no use for may be NULL.
 *
 *     uint8_t frame[TENDRILHOOK_FRAME_BYTES], answer[TENDRILHOOK_ANSWER_BYTES], accessor;
 *     size_t length = tendrilhook_frame_open(frame, 0, TENDRILHOOK_ACCESS_APPEND, TENDRILHOOK_SHARE_EXCLUSIVE, TENDRILHOOK_MULTI_DEFAULT);
 *     length = tendrilhook_event(DESK, answer, sizeof answer, frame, length);
 *     int status = tendrilhook_answer_opened(answer, length, &accessor, NULL);
 *     if (status != TENDRILHOOK_DONE) fprintf(stderr, "%s\n", tendrilhook_status_sentence(status));
 *
 * Names that end with an underscore are this header's own.
 */
#ifndef TENDRILHOOK_FRAMES_H
#define TENDRILHOOK_FRAMES_H

#include "tendrilhook.h"
#include <string.h>

/* Lengths in bytes. */
enum {
    TENDRILHOOK_FRAME_BYTES = 261, /* the longest frame */
    TENDRILHOOK_DATA_BYTES = 256, /* the most data of a write */
    TENDRILHOOK_WORD_BYTES = 2, /* a word */
    TENDRILHOOK_HEAD_BYTES = 2, /* operation and status, which each answer begins with */
    TENDRILHOOK_TYPE_BYTES = 4 /* type and writer's ID, which stand before the data with TENDRILHOOK_CONTROL_TYPES */
};

/* The first byte of a frame and of its answer. */
enum tendrilhook_operation {
    TENDRILHOOK_OP_BUILD = 1,
    TENDRILHOOK_OP_OPEN = 2,
    TENDRILHOOK_OP_READ = 3,
    TENDRILHOOK_OP_WRITE = 4,
    TENDRILHOOK_OP_CONTROL = 5,
    TENDRILHOOK_OP_COLLECT = 6,
    TENDRILHOOK_OP_CLOSE = 7,
    TENDRILHOOK_OP_TIME = 8,
    TENDRILHOOK_OP_COUNTS = 9
};

/* What an accessor is opened for. */
enum tendrilhook_access {
    TENDRILHOOK_ACCESS_READ = 0, /* read */
    TENDRILHOOK_ACCESS_WRITE = 1, /* write, and purge the file if nobody has it open */
    TENDRILHOOK_ACCESS_WRITE_SAVE = 2, /* write after what is there, as append does */
    TENDRILHOOK_ACCESS_APPEND = 3 /* write after what is there */
};

/* Who may have the file open together. */
enum tendrilhook_share {
    TENDRILHOOK_SHARE_DEFAULT = 0, /* as exclusive */
    TENDRILHOOK_SHARE_EXCLUSIVE = 1, /* one reader and one writer */
    TENDRILHOOK_SHARE_WRITERS = 2, /* one reader and many writers */
    TENDRILHOOK_SHARE_BOTH = 3 /* many of both */
};

/* Multiaccess: 0 to 2 are allowed, and do the same. */
enum tendrilhook_multiaccess {
    TENDRILHOOK_MULTI_DEFAULT = 0 /* as 2 */
};

/* The codes of a control. */
enum tendrilhook_control {
    TENDRILHOOK_CONTROL_TIMEOUT = 4, /* the longest wait in seconds, 0 for no limit */
    TENDRILHOOK_CONTROL_VERIFY = 6, /* does nothing; any parameter */
    TENDRILHOOK_CONTROL_ABORT = 43, /* removes the waiting request; any parameter */
    TENDRILHOOK_CONTROL_EXTENDED_WAIT = 45, /* on or off: wait also if nobody is on the other side */
    TENDRILHOOK_CONTROL_TYPES = 46, /* on or off: read records of any type, with type and writer's ID before the data */
    TENDRILHOOK_CONTROL_KEEP = 47 /* on or off: the next read leaves its record in the file */
};

/* The parameters of the last three controls. */
enum tendrilhook_setting {
    TENDRILHOOK_OFF = 0,
    TENDRILHOOK_ON = 1
};

/* The types of a record, in a sheet and in what is read with TENDRILHOOK_CONTROL_TYPES. */
enum tendrilhook_type {
    TENDRILHOOK_TYPE_DATA = 0,
    TENDRILHOOK_TYPE_OPEN = 1,
    TENDRILHOOK_TYPE_CLOSE = 2
};

/* What a reader returns for bytes that no frame of its kind is answered with: another operation, or another length. */
enum { TENDRILHOOK_NOT_THE_ANSWER = -1 };

/* ---- Bytes and words. ---- */

/* Puts a byte. Returns the place after it. A number that is no byte is put as 255, which no rule allows for such a field. */
static inline uint8_t *tendrilhook_put_byte(uint8_t *at, unsigned number)
{
    at[0] = (uint8_t)(number > UINT8_MAX ? UINT8_MAX : number);
    return at + 1;
}

/* Puts a word, high byte first. Returns the place after it. */
static inline uint8_t *tendrilhook_put_word(uint8_t *at, uint16_t word)
{
    at[0] = (uint8_t)(word >> 8);
    at[1] = (uint8_t)(word & UINT8_MAX);
    return at + TENDRILHOOK_WORD_BYTES;
}

/* Gives the word that stands here, high byte first. */
static inline uint16_t tendrilhook_word(const uint8_t *at)
{
    return (uint16_t)((unsigned)at[0] << 8 | at[1]);
}

/* ---- The builders: each puts its fields in the order of the frame. ---- */

/* Puts operation and file. */
static inline uint8_t *tendrilhook_put_head_(uint8_t *frame, enum tendrilhook_operation operation, uint8_t file)
{
    return tendrilhook_put_byte(tendrilhook_put_byte(frame, (unsigned)operation), file);
}

/* Puts operation, file, accessor and the count: words as they are, bytes negated. Gives NULL, and puts nothing, if the count is no signed word. */
static inline uint8_t *tendrilhook_put_count_(uint8_t *frame, enum tendrilhook_operation operation, uint8_t file, uint8_t accessor,
                                              size_t count, int in_words)
{
    if (count > (in_words ? (size_t)INT16_MAX : (size_t)INT16_MAX + 1)) return NULL;
    uint8_t *at = tendrilhook_put_byte(tendrilhook_put_head_(frame, operation, file), accessor);
    return tendrilhook_put_word(at, (uint16_t)(in_words ? count : (size_t)UINT16_MAX + 1 - count));
}

/* Builds a file: words a record (1 to 128), records a block (1 to 16), records (1 to 2000), extents (1 to 32). */
static inline size_t tendrilhook_frame_build(uint8_t *frame, uint8_t file, uint16_t words, uint8_t factor, uint16_t records, uint8_t extents)
{
    uint8_t *at = tendrilhook_put_head_(frame, TENDRILHOOK_OP_BUILD, file);
    at = tendrilhook_put_word(at, words);
    at = tendrilhook_put_byte(at, factor);
    at = tendrilhook_put_word(at, records);
    at = tendrilhook_put_byte(at, extents);
    return (size_t)(at - frame);
}

/* Opens a file. */
static inline size_t tendrilhook_frame_open(uint8_t *frame, uint8_t file, enum tendrilhook_access access, enum tendrilhook_share share,
                                            uint8_t multiaccess)
{
    uint8_t *at = tendrilhook_put_head_(frame, TENDRILHOOK_OP_OPEN, file);
    at = tendrilhook_put_byte(at, (unsigned)access);
    at = tendrilhook_put_byte(at, (unsigned)share);
    at = tendrilhook_put_byte(at, multiaccess);
    return (size_t)(at - frame);
}

static inline size_t tendrilhook_frame_read_(uint8_t *frame, uint8_t file, uint8_t accessor, size_t count, int in_words)
{
    uint8_t *at = tendrilhook_put_count_(frame, TENDRILHOOK_OP_READ, file, accessor, count, in_words);
    return at == NULL ? 0 : (size_t)(at - frame);
}

/* Reads at most this number of bytes of a record (0 to 260); the log is in bytes. Returns 0 above 32,768 bytes. */
static inline size_t tendrilhook_frame_read(uint8_t *frame, uint8_t file, uint8_t accessor, size_t bytes)
{
    return tendrilhook_frame_read_(frame, file, accessor, bytes, 0);
}

/* Reads at most this number of words of a record (0 to 130); the log is in words. Returns 0 above 32,767 words. */
static inline size_t tendrilhook_frame_read_words(uint8_t *frame, uint8_t file, uint8_t accessor, size_t words)
{
    return tendrilhook_frame_read_(frame, file, accessor, words, 1);
}

static inline size_t tendrilhook_frame_write_(uint8_t *frame, uint8_t file, uint8_t accessor, const void *data, size_t bytes, int in_words)
{
    if (bytes > TENDRILHOOK_DATA_BYTES) return 0;
    uint8_t *at = tendrilhook_put_count_(frame, TENDRILHOOK_OP_WRITE, file, accessor, in_words ? bytes / TENDRILHOOK_WORD_BYTES : bytes, in_words);
    if (bytes > 0) memcpy(at, data, bytes);
    return (size_t)(at - frame) + bytes;
}

/* Writes a record of this number of bytes; the log is in bytes. Returns 0 above TENDRILHOOK_DATA_BYTES. */
static inline size_t tendrilhook_frame_write(uint8_t *frame, uint8_t file, uint8_t accessor, const void *data, size_t bytes)
{
    return tendrilhook_frame_write_(frame, file, accessor, data, bytes, 0);
}

/* Writes a record of this number of words; the log is in words. Returns 0 above TENDRILHOOK_DATA_BYTES. */
static inline size_t tendrilhook_frame_write_words(uint8_t *frame, uint8_t file, uint8_t accessor, const void *data, size_t words)
{
    if (words > TENDRILHOOK_DATA_BYTES / TENDRILHOOK_WORD_BYTES) return 0;
    return tendrilhook_frame_write_(frame, file, accessor, data, words * TENDRILHOOK_WORD_BYTES, 1);
}

/* Makes a setting of an accessor, or aborts its waiting request. */
static inline size_t tendrilhook_frame_control(uint8_t *frame, uint8_t file, uint8_t accessor, enum tendrilhook_control code, uint16_t parameter)
{
    uint8_t *at = tendrilhook_put_byte(tendrilhook_put_head_(frame, TENDRILHOOK_OP_CONTROL, file), accessor);
    at = tendrilhook_put_byte(at, (unsigned)code);
    at = tendrilhook_put_word(at, parameter);
    return (size_t)(at - frame);
}

/* Collects the outcome of a read or write that was answered TENDRILHOOK_WAITING. */
static inline size_t tendrilhook_frame_collect(uint8_t *frame, uint8_t file, uint8_t accessor)
{
    uint8_t *at = tendrilhook_put_byte(tendrilhook_put_head_(frame, TENDRILHOOK_OP_COLLECT, file), accessor);
    return (size_t)(at - frame);
}

/* Closes an accessor. */
static inline size_t tendrilhook_frame_close(uint8_t *frame, uint8_t file, uint8_t accessor)
{
    uint8_t *at = tendrilhook_put_byte(tendrilhook_put_head_(frame, TENDRILHOOK_OP_CLOSE, file), accessor);
    return (size_t)(at - frame);
}

/* Lets seconds pass, for all files. */
static inline size_t tendrilhook_frame_time(uint8_t *frame, uint16_t seconds)
{
    uint8_t *at = tendrilhook_put_byte(frame, TENDRILHOOK_OP_TIME);
    at = tendrilhook_put_word(at, seconds);
    return (size_t)(at - frame);
}

/* Asks what a file holds and who has it open. */
static inline size_t tendrilhook_frame_counts(uint8_t *frame, uint8_t file)
{
    return (size_t)(tendrilhook_put_head_(frame, TENDRILHOOK_OP_COUNTS, file) - frame);
}

/* ---- The readers. ---- */

/* The status of an answer to any frame. */
static inline int tendrilhook_answer_status(const uint8_t *answer, size_t length)
{
    if (length == 0) return TENDRILHOOK_UNSOUND;
    if (length < TENDRILHOOK_HEAD_BYTES || length > TENDRILHOOK_ANSWER_BYTES) return TENDRILHOOK_NOT_THE_ANSWER;
    return answer[1];
}

/* The status of an answer to this operation, which has `fixed` bytes after its head when it is done, and data after these if `data`. `*body` leads
   to the bytes after the head; unless the answer is done, to as many zero bytes. */
static inline int tendrilhook_answer_body_(enum tendrilhook_operation operation, const uint8_t *answer, size_t length,
                                           size_t fixed, int data, const uint8_t **body)
{
    static const uint8_t none[TENDRILHOOK_ANSWER_BYTES] = { 0 };
    int status = tendrilhook_answer_status(answer, length);
    size_t least = TENDRILHOOK_HEAD_BYTES + (status == TENDRILHOOK_DONE ? fixed : 0);
    *body = none;
    if (status == TENDRILHOOK_NOT_THE_ANSWER || length == 0) return status;
    if (answer[0] != (status == TENDRILHOOK_BAD_FRAME ? 0 : (unsigned)operation)) return TENDRILHOOK_NOT_THE_ANSWER;
    if (length < least || (length > least && !(data && status == TENDRILHOOK_DONE))) return TENDRILHOOK_NOT_THE_ANSWER;
    if (status == TENDRILHOOK_DONE) *body = answer + TENDRILHOOK_HEAD_BYTES;
    return status;
}

static inline void tendrilhook_give_word_(uint16_t *word, const uint8_t *at)
{
    if (word != NULL) *word = tendrilhook_word(at);
}

/* The answer of a build: how many records the file can hold. */
static inline int tendrilhook_answer_built(const uint8_t *answer, size_t length, uint16_t *capacity)
{
    const uint8_t *body;
    int status = tendrilhook_answer_body_(TENDRILHOOK_OP_BUILD, answer, length, TENDRILHOOK_WORD_BYTES, 0, &body);
    tendrilhook_give_word_(capacity, body);
    return status;
}

/* The answer of an open: the accessor, and the writer's ID, 0 for a reader. */
static inline int tendrilhook_answer_opened(const uint8_t *answer, size_t length, uint8_t *accessor, uint16_t *id)
{
    const uint8_t *body;
    int status = tendrilhook_answer_body_(TENDRILHOOK_OP_OPEN, answer, length, 1 + TENDRILHOOK_WORD_BYTES, 0, &body);
    if (accessor != NULL) *accessor = body[0];
    tendrilhook_give_word_(id, body + 1);
    return status;
}

static inline int tendrilhook_answer_moved_(enum tendrilhook_operation operation, const uint8_t *answer, size_t length,
                                            uint16_t *log, const uint8_t **data, size_t *bytes)
{
    const uint8_t *body;
    int status = tendrilhook_answer_body_(operation, answer, length, TENDRILHOOK_WORD_BYTES, 1, &body);
    tendrilhook_give_word_(log, body);
    if (data != NULL) *data = body + TENDRILHOOK_WORD_BYTES;
    if (bytes != NULL) *bytes = status == TENDRILHOOK_DONE ? length - TENDRILHOOK_HEAD_BYTES - TENDRILHOOK_WORD_BYTES : 0;
    return status;
}

/* The answer of a read: the log, and the data, which lie in the answer. */
static inline int tendrilhook_answer_read(const uint8_t *answer, size_t length, uint16_t *log, const uint8_t **data, size_t *bytes)
{
    return tendrilhook_answer_moved_(TENDRILHOOK_OP_READ, answer, length, log, data, bytes);
}

/* The answer of a write: the log. */
static inline int tendrilhook_answer_written(const uint8_t *answer, size_t length, uint16_t *log)
{
    const uint8_t *body;
    int status = tendrilhook_answer_body_(TENDRILHOOK_OP_WRITE, answer, length, TENDRILHOOK_WORD_BYTES, 0, &body);
    tendrilhook_give_word_(log, body);
    return status;
}

/* The answer of a control. */
static inline int tendrilhook_answer_controlled(const uint8_t *answer, size_t length)
{
    const uint8_t *body;
    return tendrilhook_answer_body_(TENDRILHOOK_OP_CONTROL, answer, length, 0, 0, &body);
}

/* The answer of a collect: the log, and the data of a read, which lie in the answer; those of a write are empty. */
static inline int tendrilhook_answer_collected(const uint8_t *answer, size_t length, uint16_t *log, const uint8_t **data, size_t *bytes)
{
    return tendrilhook_answer_moved_(TENDRILHOOK_OP_COLLECT, answer, length, log, data, bytes);
}

/* The answer of a close. */
static inline int tendrilhook_answer_closed(const uint8_t *answer, size_t length)
{
    const uint8_t *body;
    return tendrilhook_answer_body_(TENDRILHOOK_OP_CLOSE, answer, length, 0, 0, &body);
}

/* The answer of a passage of time. */
static inline int tendrilhook_answer_passed(const uint8_t *answer, size_t length)
{
    const uint8_t *body;
    return tendrilhook_answer_body_(TENDRILHOOK_OP_TIME, answer, length, 0, 0, &body);
}

/* What a file holds, and how many have it open. */
struct tendrilhook_counts {
    uint16_t data_records, all_records, writers, readers;
};

/* The answer of a counts. */
static inline int tendrilhook_answer_counted(const uint8_t *answer, size_t length, struct tendrilhook_counts *counts)
{
    const uint8_t *body;
    int status = tendrilhook_answer_body_(TENDRILHOOK_OP_COUNTS, answer, length, 4 * TENDRILHOOK_WORD_BYTES, 0, &body);
    if (counts == NULL) return status;
    counts->data_records = tendrilhook_word(body);
    counts->all_records = tendrilhook_word(body + TENDRILHOOK_WORD_BYTES);
    counts->writers = tendrilhook_word(body + 2 * TENDRILHOOK_WORD_BYTES);
    counts->readers = tendrilhook_word(body + 3 * TENDRILHOOK_WORD_BYTES);
    return status;
}

/* The type and the writer's ID before data that were read with TENDRILHOOK_CONTROL_TYPES; the record's own data begin TENDRILHOOK_TYPE_BYTES after.
   Returns 1, or 0 if the read was too short to get both. */
static inline int tendrilhook_record_type(const uint8_t *data, size_t bytes, uint16_t *type, uint16_t *id)
{
    static const uint8_t none[TENDRILHOOK_TYPE_BYTES] = { 0 };
    const uint8_t *at = bytes < TENDRILHOOK_TYPE_BYTES ? none : data;
    tendrilhook_give_word_(type, at);
    tendrilhook_give_word_(id, at + TENDRILHOOK_WORD_BYTES);
    return bytes >= TENDRILHOOK_TYPE_BYTES;
}

/* ---- The statuses in words. ---- */

struct tendrilhook_status_text_ {
    int status;
    const char *name, *sentence;
};

/* Gives the words for a status; the last row is for all others. */
static inline const struct tendrilhook_status_text_ *tendrilhook_text_of_(int status)
{
    static const struct tendrilhook_status_text_ texts[] = {
        { TENDRILHOOK_NOT_THE_ANSWER, "not the answer", "No frame of this kind is answered with these bytes." },
        { TENDRILHOOK_DONE, "done", "It is done." },
        { TENDRILHOOK_WAITING, "waiting", "The request waits, or still waits: collect it later." },
        { TENDRILHOOK_END_OF_FILE, "end of file",
          "There is nothing to read or no room to write, and nobody on the other side; or the request to abort is completed." },
        { TENDRILHOOK_TIMED_OUT, "timed out", "The request waited as long as its timeout allows." },
        { TENDRILHOOK_UNSOUND, "unsound", "A lent memory has the wrong length, or the memories are not those of a desk." },
        { TENDRILHOOK_BAD_FRAME, "bad frame", "The frame has none of the nine shapes, or its data are not as long as their count." },
        { TENDRILHOOK_NO_FILE, "no file", "The file is above 7 or not built; or it is to be built or loaded, and is built already." },
        { TENDRILHOOK_NOT_OPEN, "not open", "The accessor is above 7 or not open." },
        { TENDRILHOOK_OUTSTANDING, "outstanding", "The accessor has a request that is outstanding: collect it first." },
        { TENDRILHOOK_WRONG_SIDE, "wrong side", "A writer may not read, look or set 46 or 47, and a reader may not write." },
        { TENDRILHOOK_OUT_OF_RANGE, "out of range", "A number is outside its range, or there is no such control." },
        { TENDRILHOOK_TOO_LARGE, "too large", "The blocks of the file would have more than 2,048 words." },
        { TENDRILHOOK_NOTHING_THERE, "nothing there", "There is no outstanding request to collect or abort, or no record to look at." },
        { TENDRILHOOK_FORBIDDEN, "forbidden", "Multiaccess is 3, the open accessors have another share, or the share allows no more of them." },
        { TENDRILHOOK_EIGHT_OPEN, "eight open", "Eight accessors of the file are open." },
        { TENDRILHOOK_NO_ROOM, "no room", "The file has no room for the writer's open record." },
        { TENDRILHOOK_NOT_A_SHEET, "not a sheet", "The text is not a sheet." },
        { TENDRILHOOK_OUTPUT_TOO_SHORT, "output too short", "The output is shorter than the sheet." },
        { 0, "unknown", "There is no such status." }
    };
    size_t n = 0;
    while (n + 1 < sizeof texts / sizeof texts[0] && texts[n].status != status) n++;
    return &texts[n];
}

/* The name of a status in lower case, such as "end of file". */
static inline const char *tendrilhook_status_name(int status)
{
    return tendrilhook_text_of_(status)->name;
}

/* A sentence that says what a status means. */
static inline const char *tendrilhook_status_sentence(int status)
{
    return tendrilhook_text_of_(status)->sentence;
}

#endif
