/*
 * Runs the library between fences: every memory that it is lent ends right before a page that nothing may touch, or begins right after one, so that a read or
 * write outside the memory is a fault of the machine. With `end`, frames and sheets of odd length lie at odd addresses.
 *
 *     fences end|begin < FRAMES      a hexadecimal line each, as the event program takes them; it prints their answers, a line each
 *
 * After each event a reader looks. After every 16th, a file is saved into outputs that are longer than its sheet, one byte too short, and just long enough; the
 * sheet is loaded into the same file of another desk, which has to save the same.
 */
#define _DEFAULT_SOURCE
#include "tendrilhook_frames.h"

#include <stdio.h>
#include <stdlib.h>
#include <string.h>
#include <sys/mman.h>
#include <unistd.h>

enum { FILES = 8, MOST_LINE = 2 * TENDRILHOOK_FRAME_BYTES };

static size_t page;
static int at_end;

/* Pages for memories of up to `most` bytes, between two pages that nothing may touch. */
struct fenced {
    uint8_t *inside;
    size_t most;
};

static struct fenced desk[2][3], answer, frame, record, sheet, text, lengths;

static struct fenced fence(size_t most)
{
    size_t room = (most + page) / page * page;
    uint8_t *all = mmap(NULL, room + 2 * page, PROT_NONE, MAP_PRIVATE | MAP_ANONYMOUS, -1, 0);
    if (all == MAP_FAILED || mprotect(all + page, room, PROT_READ | PROT_WRITE) != 0) exit(3);
    return (struct fenced){ all + page, room };
}

/* Lends a memory of this length, at the fence that `at_end` chooses. */
static uint8_t *lend(const struct fenced *fenced, size_t length)
{
    return at_end ? fenced->inside + fenced->most - length : fenced->inside;
}

#define PART(d, i, n) lend(&desk[d][i], n), (size_t)(n)
#define DESK(d) PART(d, 0, TENDRILHOOK_SEGMENT_BYTES), PART(d, 1, TENDRILHOOK_BLOCKS_BYTES), PART(d, 2, TENDRILHOOK_BUFFERS_BYTES)

static void fault(const char *what)
{
    fprintf(stderr, "fences: %s\n", what);
    exit(1);
}

/* Saves the sheet of a file into an output of exactly its length. Returns the length, 0 if save is refused. */
static size_t save(int d, size_t file)
{
    size_t *length = (size_t *)(void *)lend(&lengths, sizeof *length);
    int status = tendrilhook_save(DESK(d), file, lend(&sheet, TENDRILHOOK_SHEET_BYTES), TENDRILHOOK_SHEET_BYTES, length);
    size_t saved = *length;
    if (status != TENDRILHOOK_DONE) return 0;
    if (tendrilhook_save(DESK(d), file, lend(&sheet, saved - 1), saved - 1, length) != TENDRILHOOK_OUTPUT_TOO_SHORT) fault("an output that is too short is taken");
    if (tendrilhook_save(DESK(d), file, lend(&sheet, saved), saved, length) != TENDRILHOOK_DONE || *length != saved) fault("an output that is long enough is not taken");
    return saved;
}

static void carry(size_t file)
{
    size_t saved = save(0, file);
    if (saved == 0) return;
    uint8_t *copy = lend(&text, saved);
    memcpy(copy, lend(&sheet, saved), saved);
    if (tendrilhook_fresh(DESK(1)) != TENDRILHOOK_DONE || tendrilhook_load(DESK(1), file, copy, saved) != TENDRILHOOK_DONE) fault("a sheet that was saved is not loaded");
    if (save(1, file) != saved || memcmp(copy, lend(&sheet, saved), saved) != 0) fault("a loaded file has another sheet");
}

static int digit(int c)
{
    return c >= '0' && c <= '9' ? c - '0' : c >= 'A' && c <= 'F' ? c - 'A' + 10 : -1;
}

/* Decodes a line into a frame. Returns the frame's length, 0 if the line is not a frame. */
static size_t decode(const char *line, size_t length, uint8_t *bytes)
{
    if (length > MOST_LINE || length % 2 != 0) return 0;
    for (size_t i = 0; i < length / 2; i++) {
        int high = digit(line[2 * i]), under = digit(line[2 * i + 1]);
        if (high < 0 || under < 0) return 0;
        bytes[i] = (uint8_t)(16 * high + under);
    }
    return length / 2;
}

static void event(const char *line, size_t length, unsigned long turn)
{
    uint8_t bytes[TENDRILHOOK_FRAME_BYTES];
    size_t n = decode(line, length, bytes), *shown = (size_t *)(void *)lend(&lengths, sizeof *shown);
    uint8_t *lent = lend(&frame, n), *given = lend(&answer, TENDRILHOOK_ANSWER_BYTES);
    memcpy(lent, bytes, n);
    size_t answered = tendrilhook_event(DESK(0), given, TENDRILHOOK_ANSWER_BYTES, lent, n);
    for (size_t i = 0; i < answered; i++) printf("%02X", (unsigned)given[i]);
    putchar('\n');
    tendrilhook_look(DESK(0), turn % FILES, turn / FILES % FILES, lend(&record, TENDRILHOOK_RECORD_BYTES), TENDRILHOOK_RECORD_BYTES, shown);
    if (turn % 16 == 0) carry(turn / 16 % FILES);
}

int main(int argc, char **argv)
{
    char *line = NULL;
    size_t room = 0;
    unsigned long turn = 0;
    if (argc != 2 || (strcmp(argv[1], "end") != 0 && strcmp(argv[1], "begin") != 0)) return 2;
    page = (size_t)sysconf(_SC_PAGESIZE);
    at_end = strcmp(argv[1], "end") == 0;
    const size_t sizes[] = { TENDRILHOOK_SEGMENT_BYTES, TENDRILHOOK_BLOCKS_BYTES, TENDRILHOOK_BUFFERS_BYTES };
    for (int d = 0; d < 2; d++)
        for (int i = 0; i < 3; i++) desk[d][i] = fence(sizes[i]);
    answer = fence(TENDRILHOOK_ANSWER_BYTES);
    frame = fence(TENDRILHOOK_FRAME_BYTES);
    record = fence(TENDRILHOOK_RECORD_BYTES);
    sheet = fence(TENDRILHOOK_SHEET_BYTES);
    text = fence(TENDRILHOOK_SHEET_BYTES);
    lengths = fence(sizeof(size_t));
    if (tendrilhook_fresh(DESK(0)) != TENDRILHOOK_DONE) return 1;
    for (ssize_t got; (got = getline(&line, &room, stdin)) > 0; turn++) event(line, (size_t)got - (line[got - 1] == '\n'), turn);
    free(line);
    return fflush(stdout) == 0 ? 0 : 1;
}
