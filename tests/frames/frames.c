/*
 * Says what include/tendrilhook_frames.h makes of lines of words, in C99 and in C++11; tools/check-frames compares it with tests/frames/table and with the
 * second opinion.
 *
 *     EVENT NUMBERS... ANSWER     the frame that the builder makes, or "none"; then the status and what else the reader gives of the answer
 *     type DATA                   whether there is a type, the type and the writer's ID
 *     status NUMBER               the status's name and its sentence
 *     number NAME                 a named number
 *
 * Bytes are hexadecimal digits, - for none, xN for N bytes 5A; "over" for words whose number of bytes is no size_t. A number is decimal, or a name of the
 * header without TENDRILHOOK_.
 */
#include "tendrilhook_frames.h"

#include <stdio.h>
#include <stdlib.h>

enum { GUARD = 64, PRESET = 0xA5, FILLER = 0x5A, MOST_WORDS = 8, MOST_BYTES = 1024, MOST_LINE = 4096 };

struct named {
    const char *name;
    int number;
};

#define NAMED(name) { #name, TENDRILHOOK_##name }

static const struct named names[] = {
    NAMED(FRAME_BYTES), NAMED(DATA_BYTES), NAMED(WORD_BYTES), NAMED(HEAD_BYTES), NAMED(TYPE_BYTES),
    NAMED(OP_BUILD), NAMED(OP_OPEN), NAMED(OP_READ), NAMED(OP_WRITE), NAMED(OP_CONTROL), NAMED(OP_COLLECT), NAMED(OP_CLOSE), NAMED(OP_TIME), NAMED(OP_COUNTS),
    NAMED(ACCESS_READ), NAMED(ACCESS_WRITE), NAMED(ACCESS_WRITE_SAVE), NAMED(ACCESS_APPEND),
    NAMED(SHARE_DEFAULT), NAMED(SHARE_EXCLUSIVE), NAMED(SHARE_WRITERS), NAMED(SHARE_BOTH), NAMED(MULTI_DEFAULT),
    NAMED(CONTROL_TIMEOUT), NAMED(CONTROL_VERIFY), NAMED(CONTROL_ABORT), NAMED(CONTROL_EXTENDED_WAIT), NAMED(CONTROL_TYPES), NAMED(CONTROL_KEEP),
    NAMED(OFF), NAMED(ON), NAMED(TYPE_DATA), NAMED(TYPE_OPEN), NAMED(TYPE_CLOSE), NAMED(NOT_THE_ANSWER)
};

/* A line's words. */
static const char *words[MOST_WORDS];

static void fault(const char *what, const char *word)
{
    fprintf(stderr, "frames: %s: %s\n", what, word);
    exit(1);
}

static int is(const char *word, const char *other)
{
    return strcmp(word, other) == 0;
}

static long number(const char *word)
{
    char *end;
    long found = strtol(word, &end, 10);
    if (end != word && *end == '\0') return found;
    for (size_t n = 0; n < sizeof names / sizeof names[0]; n++)
        if (is(names[n].name, word)) return names[n].number;
    fault("no number", word);
    return 0;
}

static uint8_t byte(size_t n)
{
    return (uint8_t)number(words[n]);
}

static uint16_t word(size_t n)
{
    return (uint16_t)number(words[n]);
}

/* Puts the bytes that a word stands for. Returns their number. */
static size_t bytes_of(const char *text, uint8_t *bytes)
{
    size_t length = 0;
    unsigned digits;
    if (is(text, "-")) return 0;
    if (text[0] == 'x') {
        length = (size_t)number(text + 1);
        if (length > MOST_BYTES) fault("too long", text);
        memset(bytes, FILLER, length);
        return length;
    }
    for (; text[0] != '\0' && length < MOST_BYTES; text += 2) {
        if (sscanf(text, "%2X", &digits) != 1) fault("no digits", text);
        bytes[length++] = (uint8_t)digits;
    }
    return length;
}

static void print_bytes(const uint8_t *bytes, size_t length)
{
    for (size_t n = 0; n < length; n++) printf("%02X", (unsigned)bytes[n]);
    if (length == 0) putchar('-');
}

/* Makes the frame of the line. Returns its length. */
static size_t build(uint8_t *frame)
{
    const char *event = words[0];
    static uint8_t data[MOST_BYTES];
    if (is(event, "time")) return tendrilhook_frame_time(frame, word(1));
    uint8_t file = byte(1);
    if (is(event, "counts")) return tendrilhook_frame_counts(frame, file);
    if (is(event, "build")) return tendrilhook_frame_build(frame, file, word(2), byte(3), word(4), byte(5));
    if (is(event, "open")) return tendrilhook_frame_open(frame, file, (enum tendrilhook_access)number(words[2]), (enum tendrilhook_share)number(words[3]), byte(4));
    uint8_t accessor = byte(2);
    if (is(event, "read")) return tendrilhook_frame_read(frame, file, accessor, (size_t)number(words[3]));
    if (is(event, "read_words")) return tendrilhook_frame_read_words(frame, file, accessor, (size_t)number(words[3]));
    if (is(event, "control")) return tendrilhook_frame_control(frame, file, accessor, (enum tendrilhook_control)number(words[3]), word(4));
    if (is(event, "collect")) return tendrilhook_frame_collect(frame, file, accessor);
    if (is(event, "close")) return tendrilhook_frame_close(frame, file, accessor);
    if (is(words[3], "over")) return tendrilhook_frame_write_words(frame, file, accessor, data, SIZE_MAX / 2 + 2);
    size_t bytes = bytes_of(words[3], data);
    const uint8_t *from = bytes == 0 ? NULL : data;
    if (is(event, "write")) return tendrilhook_frame_write(frame, file, accessor, from, bytes);
    if (is(event, "write_words")) return tendrilhook_frame_write_words(frame, file, accessor, from, bytes / 2);
    fault("no event", event);
    return 0;
}

/* Prints the frame of the line, between bytes that must stay. */
static void print_frame(void)
{
    uint8_t memory[GUARD + TENDRILHOOK_FRAME_BYTES + GUARD];
    memset(memory, PRESET, sizeof memory);
    size_t length = build(memory + GUARD);
    for (size_t n = 0; n < sizeof memory; n++)
        if ((n < GUARD || n >= GUARD + length) && memory[n] != PRESET) fault("a byte outside the frame is changed", words[0]);
    if (length == 0) printf("none");
    else print_bytes(memory + GUARD, length);
}

/* Prints what a read or collect gives. */
static int print_moved(int status, uint16_t log, const uint8_t *data, size_t bytes)
{
    printf(" %d %d ", status, log);
    print_bytes(data, bytes);
    return status;
}

/* Prints what the reader gives of an answer. Returns the status, and in `blind` the one that it gives to a host that wants nothing else. */
static int print_answer(const uint8_t *answer, size_t length, int *blind)
{
    const char *event = words[0];
    const uint8_t *data;
    uint16_t first = 9, second = 9;
    uint8_t accessor = 9;
    size_t bytes = 9;
    int status;
    if (strncmp(event, "read", 4) == 0) {
        *blind = tendrilhook_answer_read(answer, length, NULL, NULL, NULL);
        status = tendrilhook_answer_read(answer, length, &first, &data, &bytes);
        return print_moved(status, first, data, bytes);
    }
    if (is(event, "collect")) {
        *blind = tendrilhook_answer_collected(answer, length, NULL, NULL, NULL);
        status = tendrilhook_answer_collected(answer, length, &first, &data, &bytes);
        return print_moved(status, first, data, bytes);
    }
    if (is(event, "build")) {
        *blind = tendrilhook_answer_built(answer, length, NULL);
        status = tendrilhook_answer_built(answer, length, &first);
        printf(" %d %d", status, first);
        return status;
    }
    if (is(event, "open")) {
        *blind = tendrilhook_answer_opened(answer, length, NULL, NULL);
        status = tendrilhook_answer_opened(answer, length, &accessor, &second);
        printf(" %d %d %d", status, accessor, second);
        return status;
    }
    if (strncmp(event, "write", 5) == 0) {
        *blind = tendrilhook_answer_written(answer, length, NULL);
        status = tendrilhook_answer_written(answer, length, &first);
        printf(" %d %d", status, first);
        return status;
    }
    if (is(event, "counts")) {
        struct tendrilhook_counts counts;
        *blind = tendrilhook_answer_counted(answer, length, NULL);
        status = tendrilhook_answer_counted(answer, length, &counts);
        printf(" %d %d %d %d %d", status, counts.data_records, counts.all_records, counts.writers, counts.readers);
        return status;
    }
    *blind = status = is(event, "control") ? tendrilhook_answer_controlled(answer, length)
                      : is(event, "close") ? tendrilhook_answer_closed(answer, length)
                                           : tendrilhook_answer_passed(answer, length);
    printf(" %d", status);
    return status;
}

static void event(size_t count)
{
    uint8_t answer[MOST_BYTES];
    size_t length = bytes_of(words[count - 1], answer);
    int blind;
    print_frame();
    int status = print_answer(answer, length, &blind);
    if (blind != status) fault("another status without the pointers", words[0]);
    if (status != TENDRILHOOK_NOT_THE_ANSWER && tendrilhook_answer_status(answer, length) != status) fault("another status", words[0]);
}

static void type(void)
{
    uint8_t data[MOST_BYTES];
    uint16_t found = 9, id = 9;
    int there = tendrilhook_record_type(data, bytes_of(words[1], data), &found, &id);
    printf("%d %d %d", there, found, id);
}

/* Cuts a line into its words. Returns their number. */
static size_t cut(char *line)
{
    size_t count = 0;
    for (char *at = strtok(line, " \n"); at != NULL && count < MOST_WORDS; at = strtok(NULL, " \n")) words[count++] = at;
    return count;
}

int main(void)
{
    static char line[MOST_LINE];
    while (fgets(line, sizeof line, stdin) != NULL) {
        size_t count = cut(line);
        if (count < 2) fault("too few words", line);
        if (is(words[0], "number")) printf("%ld", number(words[1]));
        else if (is(words[0], "status")) printf("%s: %s", tendrilhook_status_name((int)number(words[1])), tendrilhook_status_sentence((int)number(words[1])));
        else if (is(words[0], "type")) type();
        else event(count);
        putchar('\n');
    }
    return fflush(stdout) == 0 ? 0 : 1;
}
