/*
 * A host in C: three stages of a chain and two message files between them.
 *
 *     station  --> file 0 -->  relay  --> file 1 -->  chart
 *
 * The relay moves each record from file 0 to file 1. Meanwhile the host saves file 1 to the disk, and later a fresh desk loads it from there. The
 * host also makes some calls that are refused. It prints each call: what it is for, the frame, the answer, and what that says. `examples/build`
 * builds it; it prints examples/host.out. Its argument is the path to save to; without one it uses a temporary file.
 */
#include "tendrilhook_frames.h"

#include <stdio.h>
#include <stdlib.h>
#include <string.h>

enum { IN_FILE = 0, OUT_FILE = 1 };

/* The desk: these three memories, and nothing else. */
static uint8_t segment[TENDRILHOOK_SEGMENT_BYTES];
static uint8_t blocks[TENDRILHOOK_BLOCKS_BYTES];
static uint8_t buffers[TENDRILHOOK_BUFFERS_BYTES];

/* The frame to send, and the last answer with its length. */
static uint8_t frame[TENDRILHOOK_FRAME_BYTES], answer[TENDRILHOOK_ANSWER_BYTES];
static size_t answered;

/* The record of the last answer, which lies in that answer, and its length. */
static const uint8_t *record;
static size_t record_length;

static void print_bytes(const uint8_t *bytes, size_t length, int width)
{
    for (size_t i = 0; i < length; i++) printf("%02X", (unsigned)bytes[i]);
    printf("%*s", width > 2 * (int)length ? width - 2 * (int)length : 0, "");
}

/* Sends the frame, and prints it with its answer. Returns the status, 29 for an answer of length 0. */
static int call(const char *purpose, size_t length)
{
    answered = tendrilhook_event(segment, sizeof segment, blocks, sizeof blocks, buffers, sizeof buffers,
                                 answer, sizeof answer, frame, length);
    int status = tendrilhook_answer_status(answer, answered);
    printf("%-36s ", purpose);
    print_bytes(frame, length, 28);
    printf("-> ");
    print_bytes(answer, answered, 24);
    printf("%2d %s\n", status, tendrilhook_status_name(status));
    return status;
}

static int build(const char *purpose, uint8_t file, uint16_t words, uint8_t factor, uint16_t records, uint8_t extents)
{
    return call(purpose, tendrilhook_frame_build(frame, file, words, factor, records, extents));
}

/* Opens a file. Returns the accessor. */
static uint8_t open_file(const char *purpose, uint8_t file, enum tendrilhook_access access)
{
    uint8_t accessor;
    call(purpose, tendrilhook_frame_open(frame, file, access, TENDRILHOOK_SHARE_EXCLUSIVE, TENDRILHOOK_MULTI_DEFAULT));
    if (tendrilhook_answer_opened(answer, answered, &accessor, NULL) != TENDRILHOOK_DONE) exit(EXIT_FAILURE);
    return accessor;
}

/* Reads at most the given number of bytes. */
static int read_record(const char *purpose, uint8_t file, uint8_t accessor, size_t bytes)
{
    call(purpose, tendrilhook_frame_read(frame, file, accessor, bytes));
    return tendrilhook_answer_read(answer, answered, NULL, &record, &record_length);
}

static int write_record(const char *purpose, uint8_t file, uint8_t accessor, const void *data, size_t length)
{
    return call(purpose, tendrilhook_frame_write(frame, file, accessor, data, length));
}

static int collect(const char *purpose, uint8_t file, uint8_t accessor)
{
    call(purpose, tendrilhook_frame_collect(frame, file, accessor));
    return tendrilhook_answer_collected(answer, answered, NULL, &record, &record_length);
}

static int close_file(const char *purpose, uint8_t file, uint8_t accessor)
{
    return call(purpose, tendrilhook_frame_close(frame, file, accessor));
}

/* Prints the record of the last answer. */
static void print_record(void)
{
    printf("    the record: %.*s\n", (int)record_length, (const char *)record);
}

/* Look, save and load are not events: they print what they are asked in the frame's place, and what they give in the answer's. */
static void look(const char *purpose, size_t file, size_t reader)
{
    uint8_t looked_at[TENDRILHOOK_RECORD_BYTES];
    size_t length;
    int status = tendrilhook_look(segment, sizeof segment, blocks, sizeof blocks, buffers, sizeof buffers,
                                  file, reader, looked_at, sizeof looked_at, &length);
    printf("%-36s %-28s-> ", purpose, "look");
    print_bytes(looked_at, length, 24);
    printf("%2d %s\n", status, tendrilhook_status_name(status));
}

static size_t save(const char *purpose, size_t file, uint8_t *output, size_t room)
{
    size_t length;
    int status = tendrilhook_save(segment, sizeof segment, blocks, sizeof blocks, buffers, sizeof buffers, file, output, room, &length);
    printf("%-36s save, room for %4zu bytes   -> %2zu bytes                %2d %s\n", purpose, room, length, status, tendrilhook_status_name(status));
    return length;
}

static void load(const char *purpose, size_t file, const uint8_t *text, size_t length)
{
    int status = tendrilhook_load(segment, sizeof segment, blocks, sizeof blocks, buffers, sizeof buffers, file, text, length);
    printf("%-36s load, %2zu bytes              -> %24s%2d %s\n", purpose, length, "", status, tendrilhook_status_name(status));
}

static void fresh(const char *purpose)
{
    int status = tendrilhook_fresh(segment, sizeof segment, blocks, sizeof blocks, buffers, sizeof buffers);
    printf("%s: %d %s\n\n", purpose, status, tendrilhook_status_name(status));
}

/* The relay writes each record of file 0 to file 1, until file 0 ends. There is room for all of them; else a write would be answered 1, and
   collected later, as the chart's read is. */
static void relay(uint8_t reader, uint8_t writer)
{
    while (read_record("relay takes a record from file 0", IN_FILE, reader, 16) == TENDRILHOOK_DONE)
        if (write_record("relay hands it on to file 1", OUT_FILE, writer, record, record_length) != TENDRILHOOK_DONE) exit(EXIT_FAILURE);
}

/* Station and relay do their work; chart's read waits for it. */
static void stages(uint8_t chart)
{
    static const char *const readings[] = { "wind 12", "wind 17", "rain 3" };
    uint8_t station = open_file("station opens file 0 to append", IN_FILE, TENDRILHOOK_ACCESS_APPEND);
    uint8_t taker = open_file("relay opens file 0 to read", IN_FILE, TENDRILHOOK_ACCESS_READ);
    uint8_t giver = open_file("relay opens file 1 to append", OUT_FILE, TENDRILHOOK_ACCESS_APPEND);

    printf("\nchart reads before there is anything, and waits\n");
    read_record("chart reads from file 1", OUT_FILE, chart, 16);
    collect("chart asks for the outcome", OUT_FILE, chart);

    printf("\nstation writes its readings and goes\n");
    for (size_t i = 0; i < sizeof readings / sizeof readings[0]; i++)
        write_record("station writes to file 0", IN_FILE, station, readings[i], strlen(readings[i]));
    close_file("station closes file 0", IN_FILE, station);

    printf("\nrelay moves what is there\n");
    relay(taker, giver);
    close_file("relay closes file 0", IN_FILE, taker);
    close_file("relay closes file 1", OUT_FILE, giver);
}

static void bad_calls(uint8_t chart)
{
    write_record("chart writes, but opened to read", OUT_FILE, chart, "fog", 3);
    read_record("chart asks for 261 bytes", OUT_FILE, chart, 261);
    read_record("a read from file 5", 5, 0, 16);
    tendrilhook_frame_read(frame, OUT_FILE, chart, 16);
    call("a frame that is cut off", 2);
    look("a look at a file that is empty", OUT_FILE, chart);
    segment[0] ^= 1;
    close_file("a bit of the segment is changed", OUT_FILE, chart);
    segment[0] ^= 1;
    close_file("and changed back: chart closes", OUT_FILE, chart);
}

/* Saves the sheet of file 1 to the disk. */
static void to_disk(FILE *disk)
{
    static uint8_t sheet[TENDRILHOOK_SHEET_BYTES];
    size_t length = save("the host saves file 1", OUT_FILE, sheet, sizeof sheet);
    if (fwrite(sheet, 1, length, disk) != length || fflush(disk) != 0) exit(EXIT_FAILURE);
    fwrite(sheet, 1, length, stdout);
}

/* Loads file 1 from the disk, reads from it, and makes calls that are refused. */
static void from_disk(FILE *disk)
{
    static uint8_t sheet[TENDRILHOOK_SHEET_BYTES], again[TENDRILHOOK_SHEET_BYTES];
    rewind(disk);
    size_t length = fread(sheet, 1, sizeof sheet, disk);
    load("file 1 is loaded from the disk", OUT_FILE, sheet, length);
    size_t saved = save("and saved once more", OUT_FILE, again, sizeof again);
    if (saved != length || memcmp(sheet, again, length) != 0) exit(EXIT_FAILURE);
    printf("    the same sheet\n");
    uint8_t chart = open_file("chart opens file 1 to read", OUT_FILE, TENDRILHOOK_ACCESS_READ);
    if (read_record("chart reads from file 1", OUT_FILE, chart, 16) == TENDRILHOOK_DONE) print_record();

    printf("\nthese are refused too, and change nothing\n");
    save("an output that is too short", OUT_FILE, again, 16);
    sheet[0] = 'o';
    load("a line with a letter for a digit", 2, sheet, length);
    sheet[0] = '0';
    load("the last line without its end", 2, sheet, length - 1);
    printf("\n");
    load("the whole sheet goes into file 2", 2, sheet, length);
}

int main(int argc, char **argv)
{
    FILE *disk = argc > 1 ? fopen(argv[1], "w+b") : tmpfile();
    if (disk == NULL) return EXIT_FAILURE;

    fresh("a fresh desk");
    /* Records of 8 words, 2 to a block, room for 4 and for the records of an open and a close. */
    build("build file 0", IN_FILE, 8, 2, 4, 1);
    build("build file 1", OUT_FILE, 8, 2, 4, 1);
    uint8_t chart = open_file("chart opens file 1 to read", OUT_FILE, TENDRILHOOK_ACCESS_READ);
    stages(chart);

    printf("\nchart looks, collects the read that waited, and looks at what is next\n");
    look("what the outcome will be", OUT_FILE, chart);
    if (collect("chart asks for the outcome", OUT_FILE, chart) == TENDRILHOOK_DONE) print_record();
    look("what chart would read next", OUT_FILE, chart);

    printf("\nthe host saves the file, which goes on: chart reads\n");
    to_disk(disk);
    while (read_record("chart reads from file 1", OUT_FILE, chart, 16) == TENDRILHOOK_DONE) print_record();

    printf("\nbad calls change nothing, and say why\n");
    bad_calls(chart);

    printf("\n");
    fresh("the next day, another fresh desk");
    from_disk(disk);
    return fclose(disk) == 0 ? EXIT_SUCCESS : EXIT_FAILURE;
}
