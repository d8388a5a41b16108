/*
 * The library's side of the second opinion: this program holds a desk's three memories and makes calls on them. Commands come on standard input, and
 * each call is answered on standard output; src/library/program.rs is the other end.
 *
 * A number is eight bytes, the low one first. Bytes are a number and as many bytes. Lent bytes are a shift, which moves their address, and bytes.
 *
 *     'M' lent segment, lent blocks, lent buffers     the memories are these now, of any lengths; no answer
 *     'F'                                             fresh
 *     'E' shade, room of the answer, lent frame       event
 *     'L' shade, room of the record, file, reader     look
 *     'S' shade, room of the sheet, file              save
 *     'D' file, lent text                             load
 *
 * The answer to a call: what is wrong, in words (bytes, none where all is well); the status (a number, 0 of an event); the answer, record or sheet
 * (bytes); each run of the three memories in which a byte changed since the other end knew it (0, 1 or 2 for the memory, offset, bytes); and the
 * number 3.
 *
 * Here is checked what no call may do, whatever it is lent: change a byte beside a memory, a byte behind the answer, record or sheet, or what it only
 * reads. All else is for the other end to judge.
 */
#include "tendrilhook.h"

#include <stdio.h>
#include <stdlib.h>
#include <string.h>

enum { GUARD = 64, SHIFTS = 16, PERIOD = 256, PIECE = 32, STEP = 1024, PARTS = 3 };

/* Memory lent to the library, which begins at `from` in `all`, between guard bytes; and its bytes as the other end knows them. */
struct lent {
    const char *name;
    uint8_t *all, *known;
    size_t from, length, room;
};

static struct lent desk[PARTS] = { { .name = "segment" }, { .name = "blocks" }, { .name = "buffers" } };
static struct lent to_read, to_write;

/* The length that a call gives, between two guard words. */
static size_t given[3];
static int shade;

static char fault[100];
static uint8_t guards[PERIOD + GUARD + SHIFTS];

static void take(void *to, size_t length)
{
    if (fread(to, 1, length, stdin) != length) exit(2);
}

static size_t take_number(void)
{
    uint8_t bytes[8];
    uint64_t number = 0;
    take(bytes, sizeof bytes);
    for (int i = 7; i >= 0; i--) number = number << 8 | bytes[i];
    return (size_t)number;
}

static void give(const void *from, size_t length)
{
    if (fwrite(from, 1, length, stdout) != length) exit(2);
}

static void give_number(uint64_t number)
{
    uint8_t bytes[8];
    for (int i = 0; i < 8; i++) bytes[i] = (uint8_t)(number >> 8 * i & 255);
    give(bytes, sizeof bytes);
}

static void give_bytes(const void *from, size_t length)
{
    give_number(length);
    give(from, length);
}

/* The first fault of a call is told. */
static void ask(int holds, const char *before, const char *name, const char *behind)
{
    if (!holds && fault[0] == 0) snprintf(fault, sizeof fault, "%s%s%s", before, name, behind);
}

/* In steps, since what memcpy and memset take for long memories is slow under an emulator. */
static void copy(uint8_t *to, const uint8_t *from, size_t length)
{
    for (size_t at = 0; at < length; at += STEP) memcpy(to + at, from + at, length - at < STEP ? length - at : STEP);
}

static void fill(uint8_t *to, int byte, size_t length)
{
    for (size_t at = 0; at < length; at += STEP) memset(to + at, byte, length - at < STEP ? length - at : STEP);
}

static uint8_t *bytes_of(const struct lent *lent)
{
    return lent->all + lent->from;
}

/* Makes a memory of this length, with any bytes in it. */
static void lend(struct lent *lent, size_t shift, size_t length)
{
    size_t from = GUARD + shift % SHIFTS, all = from + length + GUARD;
    if (all > lent->room) {
        free(lent->all);
        free(lent->known);
        lent->all = malloc(all);
        lent->known = malloc(all);
        if (lent->all == NULL || lent->known == NULL) exit(3);
        lent->room = all;
    }
    lent->from = from;
    lent->length = length;
    memcpy(lent->all, guards, from);
    memcpy(lent->all + from + length, guards + (from + length) % PERIOD, GUARD);
}

static int guards_stand(const struct lent *lent)
{
    size_t end = lent->from + lent->length;
    return memcmp(lent->all, guards, lent->from) == 0 && memcmp(lent->all + end, guards + end % PERIOD, GUARD) == 0;
}

static void take_lent(struct lent *lent)
{
    size_t shift = take_number(), length = take_number();
    lend(lent, shift, length);
    take(bytes_of(lent), length);
    copy(lent->known, bytes_of(lent), length);
}

/* What a call only reads: neither it nor what lies beside it has changed. */
static void check_read(const char *name)
{
    ask(guards_stand(&to_read), "bytes beside the ", name, " were changed");
    ask(memcmp(bytes_of(&to_read), to_read.known, to_read.length) == 0, "the ", name, " was changed");
}

/* Memory that a call writes to, filled with a shade that shows which bytes it left; the length that it gives is preset. */
static void take_output(void)
{
    size_t number = take_number(), length = take_number();
    shade = (int)(number & 255);
    lend(&to_write, number, length);
    fill(bytes_of(&to_write), shade, length);
    memset(given, shade, sizeof given);
}

static int all_shade(const uint8_t *bytes, size_t length)
{
    return length == 0 || (bytes[0] == shade && memcmp(bytes, bytes + 1, length - 1) == 0);
}

/* The call wrote as many bytes as the length that it gave says; all behind them stayed. */
static void check_output(const char *name)
{
    size_t preset;
    memset(&preset, shade, sizeof preset);
    ask(given[0] == preset && given[2] == preset, "words beside the length were changed", "", "");
    ask(given[1] != preset, "no length was given", "", "");
    ask(guards_stand(&to_write), "bytes beside the ", name, " memory were changed");
    ask(given[1] <= to_write.length, "the ", name, " is longer than its memory");
    if (given[1] > to_write.length) given[1] = 0;
    ask(all_shade(bytes_of(&to_write) + given[1], to_write.length - given[1]), "bytes behind the ", name, " were changed");
}

/* Whether so many bytes, or as many as there are, are what the other end knows. */
static int known(const struct lent *lent, size_t at, size_t length)
{
    if (length > lent->length - at) length = lent->length - at;
    return memcmp(bytes_of(lent) + at, lent->known + at, length) == 0;
}

static void give_changes(size_t which)
{
    struct lent *lent = &desk[which];
    for (size_t at = 0; at < lent->length;) {
        if (at % STEP == 0 && known(lent, at, STEP)) {
            at += STEP;
            continue;
        }
        size_t end = at;
        while (end < lent->length && !known(lent, end, PIECE)) end += PIECE;
        if (end > at) {
            size_t length = (end < lent->length ? end : lent->length) - at;
            copy(lent->known + at, bytes_of(lent) + at, length);
            give_number(which);
            give_number(at);
            give_bytes(lent->known + at, length);
        }
        at = end + PIECE;
    }
}

static void answer(size_t status)
{
    for (size_t which = 0; which < PARTS; which++) ask(guards_stand(&desk[which]), "bytes beside the ", desk[which].name, " were changed");
    give_bytes(fault, strlen(fault));
    give_number(status);
    give_bytes(bytes_of(&to_write), given[1]);
    for (size_t which = 0; which < PARTS; which++) give_changes(which);
    give_number(PARTS);
    if (fflush(stdout) != 0) exit(2);
}

/* The three memories, as every call is lent them. */
#define DESK bytes_of(&desk[0]), desk[0].length, bytes_of(&desk[1]), desk[1].length, bytes_of(&desk[2]), desk[2].length

static size_t event(void)
{
    take_output();
    take_lent(&to_read);
    given[1] = tendrilhook_event(DESK, bytes_of(&to_write), to_write.length, bytes_of(&to_read), to_read.length);
    check_read("frame");
    check_output("answer");
    return 0;
}

static size_t look(void)
{
    take_output();
    size_t file = take_number(), reader = take_number();
    size_t status = tendrilhook_look(DESK, file, reader, bytes_of(&to_write), to_write.length, &given[1]);
    check_output("record");
    return status;
}

static size_t save(void)
{
    take_output();
    size_t file = take_number();
    size_t status = tendrilhook_save(DESK, file, bytes_of(&to_write), to_write.length, &given[1]);
    check_output("sheet");
    return status;
}

static size_t load(void)
{
    size_t file = take_number();
    take_lent(&to_read);
    size_t status = tendrilhook_load(DESK, file, bytes_of(&to_read), to_read.length);
    check_read("text");
    return status;
}

static void obey(int command)
{
    fault[0] = 0;
    given[1] = 0;
    switch (command) {
    case 'M':
        for (size_t which = 0; which < PARTS; which++) take_lent(&desk[which]);
        break;
    case 'F': answer(tendrilhook_fresh(DESK)); break;
    case 'E': answer(event()); break;
    case 'L': answer(look()); break;
    case 'S': answer(save()); break;
    case 'D': answer(load()); break;
    default: exit(2);
    }
}

int main(void)
{
    /* never 0, which is what a stray store is most likely to leave */
    for (size_t at = 0; at < sizeof guards; at++) guards[at] = (uint8_t)(((at * 37 & 255) ^ 0xA5) | 1);
    for (size_t which = 0; which < PARTS; which++) lend(&desk[which], 0, 0);
    lend(&to_write, 0, 0);
    for (int command; (command = getchar()) != EOF;) obey(command);
    return 0;
}
