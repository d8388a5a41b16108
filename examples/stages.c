/*
 * A host to write like: three stages of a chain, each a process, a desk that they share (shared.h), and a scheduler.
 *
 *     model  --> file 0 -->  regrid  --> file 1 -->  plot
 *
 * The scheduler lets time pass, and cleans up after a dead stage:
 *
 *   - a stage killed between calls leaves its accessors open. The scheduler closes them, and another process goes on;
 *   - a stage killed within a call leaves the desk half changed. Nobody may trust it: the scheduler makes another from the last sheets.
 *
 * It prints examples/stages.out.
 */
#define _POSIX_C_SOURCE 200809L
#include "shared.h"

#include <poll.h>
#include <signal.h>
#include <stdio.h>
#include <stdlib.h>
#include <string.h>
#include <sys/mman.h>
#include <sys/wait.h>
#include <time.h>
#include <unistd.h>

/* Stage n reads file n - 2 and writes file n - 1, if there is such a file. */
enum { MODEL = 1, REGRID, PLOT, LAST = PLOT, SCHEDULER };
enum { FILES = 2, RECORDS = 200, MOST_DATA = 16 };

static const char *const names[] = { "", "model", "regrid", "plot", "scheduler" };
static char room[64];

/* This process: its number, its accessors, the frame that it sends and the last answer. */
static int self = SCHEDULER;
static uint8_t from, to, frame[TENDRILHOOK_FRAME_BYTES], answer[TENDRILHOOK_ANSWER_BYTES];
static size_t answered;

static void die(const char *why)
{
    fprintf(stderr, "stages: %s: %s\n", names[self], why);
    if (self == SCHEDULER) shm_unlink(room);
    exit(EXIT_FAILURE);
}

static int say(const char *what, int status)
{
    printf("%-10s%-46s-> %2d %s\n", names[self], what, status, tendrilhook_status_name(status));
    return status;
}

/* ---- Events. ---- */

/* Sends the frame. Returns the status. */
static int event(size_t length)
{
    return shared_event(frame, length, answer, &answered);
}

/* The file that this stage reads, and the one that it writes. */
static uint8_t in_file(void) { return (uint8_t)(self - REGRID); }
static uint8_t out_file(void) { return (uint8_t)(self - MODEL); }

/* Builds a file of records of 8 words, 2 to a block, with room for 4 and for the records of an open and a close. */
static int build(uint8_t file)
{
    return event(tendrilhook_frame_build(frame, file, 8, 2, 4, 1));
}

static uint8_t open_file(uint8_t file, enum tendrilhook_access access)
{
    uint8_t accessor;
    event(tendrilhook_frame_open(frame, file, access, TENDRILHOOK_SHARE_EXCLUSIVE, TENDRILHOOK_MULTI_DEFAULT));
    if (tendrilhook_answer_opened(answer, answered, &accessor, NULL) != TENDRILHOOK_DONE) die("cannot open");
    return accessor;
}

static int read_record(void)
{
    return event(tendrilhook_frame_read(frame, in_file(), from, MOST_DATA));
}

static int write_record(const void *data, size_t length)
{
    return event(tendrilhook_frame_write(frame, out_file(), to, data, length));
}

static int control(uint8_t file, uint8_t accessor, enum tendrilhook_control code, uint16_t parameter)
{
    return event(tendrilhook_frame_control(frame, file, accessor, code, parameter));
}

static int collect_from(uint8_t file, uint8_t accessor)
{
    return event(tendrilhook_frame_collect(frame, file, accessor));
}

static int close_file(uint8_t file, uint8_t accessor)
{
    return event(tendrilhook_frame_close(frame, file, accessor));
}

static int pass_seconds(uint16_t seconds)
{
    return event(tendrilhook_frame_time(frame, seconds));
}

/* Collects a request until it no longer waits; meanwhile other stages call, and time passes. Returns the last status. */
static int outcome(uint8_t file, uint8_t accessor, int status)
{
    while (status == TENDRILHOOK_WAITING) {
        nanosleep(&(struct timespec){ .tv_nsec = 200000 }, NULL);
        status = collect_from(file, accessor);
    }
    return status;
}

/* The data of the last answer, which was that of a read or a collect, and their length. */
static const uint8_t *data_of_answer(size_t *length)
{
    const uint8_t *data;
    if (tendrilhook_answer_read(answer, answered, NULL, &data, length) != TENDRILHOOK_DONE)
        tendrilhook_answer_collected(answer, answered, NULL, &data, length);
    return data;
}

/* The same, as text. */
static const char *record(void)
{
    static char text[MOST_DATA + 1];
    size_t length;
    const uint8_t *data = data_of_answer(&length);
    snprintf(text, sizeof text, "%.*s", (int)length, (const char *)data);
    return text;
}

/* ---- The stages. ---- */

static void open_all(void)
{
    shared_adopt();
    if (self != MODEL) from = open_file(in_file(), TENDRILHOOK_ACCESS_READ);
    if (self != PLOT) to = open_file(out_file(), TENDRILHOOK_ACCESS_APPEND);
    if (self == PLOT) control(in_file(), from, TENDRILHOOK_CONTROL_TIMEOUT, 3);
}

static void close_all(void)
{
    if (self != MODEL) close_file(in_file(), from);
    if (self != PLOT) close_file(out_file(), to);
}

/* Whether there is one more record for this stage, which is then read. A read that timed out is made again. */
static int next_record(void)
{
    int status;
    do status = outcome(in_file(), from, read_record());
    while (status == TENDRILHOOK_TIMED_OUT);
    return status == TENDRILHOOK_DONE;
}

static void hand_on(const void *data, size_t length)
{
    if (outcome(out_file(), to, write_record(data, length)) != TENDRILHOOK_DONE) die("a record was not taken");
}

/* Does the work of this stage to its end. Returns the number of records it moved. */
static int work(void)
{
    char text[MOST_DATA];
    int moved = 0;
    for (; self == MODEL && moved < RECORDS; moved++) hand_on(text, (size_t)snprintf(text, sizeof text, "step %d", moved));
    for (; self == REGRID && next_record(); moved++) {
        size_t length;
        const uint8_t *data = data_of_answer(&length);
        hand_on(data, length);
    }
    for (; self == PLOT && next_record(); moved++) {
        snprintf(text, sizeof text, "step %d", moved);
        if (strcmp(record(), text) != 0) die("a record is out of its order");
    }
    close_all();
    return moved;
}

/* Model writes its forecast for this hour, and does not wait if the file is full. */
static void forecast(int hours)
{
    char text[32], what[64];
    snprintf(text, sizeof text, "t850 +%dh", hours);
    snprintf(what, sizeof what, "writes \"%s\" to file 0", text);
    say(what, write_record(text, strlen(text)));
}

/* Regrid reads a record that stays in the file (control 47) until it is handed on: if regrid dies in between, its successor finds it. */
static void peek(void)
{
    char what[64];
    control(in_file(), from, TENDRILHOOK_CONTROL_KEEP, TENDRILHOOK_ON);
    int status = read_record();
    snprintf(what, sizeof what, "reads \"%s\" from file 0, where it stays", record());
    say(what, status);
}

static void relay(void)
{
    size_t length;
    peek();
    const uint8_t *data = data_of_answer(&length);
    say("hands it on to file 1", write_record(data, length));
    say("and takes it out of file 0", read_record());
}

static void collect(void)
{
    if (say("collects", collect_from(in_file(), from)) == TENDRILHOOK_DONE) printf("%10s\"%s\"\n", "", record());
}

static void show_all(void)
{
    while (next_record()) printf("%-10sgets \"%s\"\n", names[self], record());
    close_all();
}

static void killed(int number)
{
    (void)number;
    kill(getpid(), SIGKILL);
}

/* Makes the record buffers read-only for this process, so that the first store into them stops the call in its midst; there the process is killed. */
static void die_within_close(void)
{
    struct sigaction action = { .sa_handler = killed };
    sigaction(SIGSEGV, &action, NULL);
    mprotect(shared_buffers, SHARED_ROOM, PROT_READ);
    close_all();
    die("it should be dead");
}

/* The orders of the scheduler. An order has a number with it, and a report is a number. */
enum { TO_OPEN, TO_CLOSE, TO_WORK, TO_FORECAST, TO_PEEK, TO_RELAY, TO_ASK, TO_COLLECT, TO_SHOW, TO_DIE };

static int obey(const int *order)
{
    switch (order[0]) {
    case TO_OPEN: open_all(); break;
    case TO_CLOSE: close_all(); break;
    case TO_WORK: return work();
    case TO_FORECAST: forecast(order[1]); break;
    case TO_PEEK: peek(); break;
    case TO_RELAY: relay(); break;
    case TO_ASK: say("reads", read_record()); break;
    case TO_COLLECT: collect(); break;
    case TO_SHOW: show_all(); break;
    case TO_DIE: die_within_close(); break;
    }
    return 0;
}

/* ---- The scheduler. ---- */

static struct stage {
    pid_t pid;
    int orders, reports;
} stages[SCHEDULER];

static uint8_t sheets[FILES][TENDRILHOOK_SHEET_BYTES];
static size_t lengths[FILES];

/* Closes the pipes to a stage, which ends when nobody can give it orders any more. */
static void hang_up(int which)
{
    if (stages[which].pid == 0) return;
    close(stages[which].orders);
    close(stages[which].reports);
    stages[which].pid = 0;
}

static void stage(int which, int orders, int reports)
{
    int order[2], report;
    self = which;
    if (shared_attach(room, self) != 0) die("no shared memory");
    while (read(orders, order, sizeof order) == sizeof order) {
        report = obey(order);
        if (write(reports, &report, sizeof report) != sizeof report) break;
    }
    exit(EXIT_SUCCESS);
}

static void start(int which)
{
    int orders[2], reports[2];
    if (pipe(orders) != 0 || pipe(reports) != 0) die("no pipes");
    pid_t pid = fork();
    if (pid < 0) die("no process");
    if (pid == 0) {
        for (int other = MODEL; other <= LAST; other++) hang_up(other);
        close(orders[1]);
        close(reports[0]);
        stage(which, orders[0], reports[1]);
    }
    close(orders[0]);
    close(reports[1]);
    stages[which] = (struct stage){ pid, orders[1], reports[0] };
}

static void order(int which, int what, int number)
{
    if (write(stages[which].orders, (const int[]){ what, number }, 2 * sizeof(int)) != 2 * sizeof(int)) die("a stage takes no orders");
}

/* The number that the stage reports; below 0 if it died. */
static int report(int which)
{
    int number;
    return read(stages[which].reports, &number, sizeof number) == sizeof number ? number : -1;
}

static void tell(int which, int what, int number)
{
    order(which, what, number);
    if (report(which) < 0) die("a stage died");
}

static void tell_all(int what)
{
    for (int which = MODEL; which <= LAST; which++) tell(which, what, 0);
}

/* Lets the stages work at once; meanwhile seconds pass on the desk. */
static void at_once(int model, int regrid, int plot, int *reports)
{
    struct pollfd done[SCHEDULER] = { { .fd = -1 } };
    const int orders[] = { 0, model, regrid, plot };
    int left = LAST;
    for (int which = MODEL; which <= LAST; which++) {
        done[which] = (struct pollfd){ .fd = stages[which].reports, .events = POLLIN };
        order(which, orders[which], 0);
    }
    while (left > 0) {
        poll(done, SCHEDULER, 1);
        for (int which = MODEL; which <= LAST; which++) {
            if (done[which].fd < 0 || done[which].revents == 0) continue;
            if ((reports[which] = report(which)) < 0) die("a stage died");
            done[which].fd = -1;
            left--;
        }
        if (pass_seconds(1) != TENDRILHOOK_DONE) die("time does not pass");
    }
}

static void bury(int which)
{
    int status;
    waitpid(stages[which].pid, &status, 0);
    hang_up(which);
    printf("%-10s%s\n", names[which], WIFSIGNALED(status) && WTERMSIG(status) == SIGKILL ? "was killed" : "has gone");
}

/* Closes the accessors of a dead stage. A completed request has to be collected first. */
static void close_for(int which)
{
    for (uint8_t file = 0; file < FILES; file++)
        for (uint8_t place = 0; place < SHARED_PLACES; place++) {
            char what[64];
            if (shared->owner[file][place] != which) continue;
            snprintf(what, sizeof what, "closes file %d for %s", file, names[which]);
            if (say(what, close_file(file, place)) != TENDRILHOOK_OUTSTANDING) continue;
            say("collects for it", collect_from(file, place));
            printf("%10s\"%s\" comes back to the host\n", "", record());
            say(what, close_file(file, place));
        }
}

static void kill_between_calls(int which)
{
    kill(stages[which].pid, SIGKILL);
    bury(which);
    close_for(which);
    start(which);
    tell(which, TO_OPEN, 0);
}

/* Saves every file. The scheduler keeps the sheets where no stage can reach them; on a disk they would outlast the scheduler too. */
static void save_all(void)
{
    for (size_t file = 0; file < FILES; file++) {
        char what[64];
        snprintf(what, sizeof what, "saves file %zu", file);
        say(what, shared_save(file, sheets[file], &lengths[file]));
        fwrite(sheets[file], 1, lengths[file], stdout);
    }
}

/* Asks the library about such memories. Here the write's request is gone, and its data still lie in a buffer that no call reads: a desk, so the status is 0,
   but not one that the calls so far lead to. Only the host knows that a call was stopped. */
static void ask_library(void)
{
    static uint8_t sheet[TENDRILHOOK_SHEET_BYTES];
    size_t length;
    say("saves file 0, by the library itself", tendrilhook_save(shared->segment, sizeof shared->segment, shared->blocks, sizeof shared->blocks,
                                                              shared_buffers, TENDRILHOOK_BUFFERS_BYTES, 0, sheet, sizeof sheet, &length));
}

int main(void)
{
    int moved[SCHEDULER];
    setvbuf(stdout, NULL, _IOLBF, 0);
    signal(SIGPIPE, SIG_IGN);
    snprintf(room, sizeof room, "/tendrilhook-stages-%ld", (long)getpid());
    if (shared_make(room) != 0) die("no shared memory, or no robust mutexes");
    say("builds file 0", build(0));
    say("builds file 1", build(1));
    for (int which = MODEL; which <= LAST; which++) start(which);

    printf("\nThree stages at once, and time that passes.\n");
    tell_all(TO_OPEN);
    at_once(TO_WORK, TO_WORK, TO_WORK, moved);
    for (int which = MODEL; which <= LAST; which++) printf("%-10s%d records, in order\n", names[which], moved[which]);

    printf("\nRegrid is killed between two calls: it has read a record and not handed it on.\n");
    tell_all(TO_OPEN);
    tell(PLOT, TO_ASK, 0);
    tell(MODEL, TO_FORECAST, 6);
    tell(MODEL, TO_FORECAST, 12);
    tell(REGRID, TO_PEEK, 0);
    kill_between_calls(REGRID);
    tell(PLOT, TO_COLLECT, 0);
    tell(PLOT, TO_ASK, 0);
    tell(REGRID, TO_RELAY, 0);
    tell(PLOT, TO_COLLECT, 0);

    printf("\nPlot is killed between two calls: the outcome of its read lies there for it.\n");
    tell(PLOT, TO_ASK, 0);
    tell(REGRID, TO_RELAY, 0);
    kill_between_calls(PLOT);

    printf("\nModel is killed within a call: it closes file 0 while its write waits.\n");
    tell(MODEL, TO_FORECAST, 18);
    save_all();
    for (int hours = 24; hours <= 48; hours += 6) tell(MODEL, TO_FORECAST, hours);
    order(MODEL, TO_DIE, 0);
    report(MODEL);
    bury(MODEL);
    tell(REGRID, TO_ASK, 0);
    printf("%-10sfinds the desk %s\n", names[self], shared->broken ? "broken: a stage died within a call" : "whole");
    ask_library();
    say("makes another, from the last sheets", shared_renew(FILES, sheets, lengths));
    tell(REGRID, TO_ASK, 0);

    printf("\nAll open their files again, and go on after the last sheets.\n");
    start(MODEL);
    tell_all(TO_OPEN);
    for (int hours = 24; hours <= 36; hours += 6) tell(MODEL, TO_FORECAST, hours);
    at_once(TO_CLOSE, TO_WORK, TO_SHOW, moved);
    for (int which = MODEL; which <= LAST; which++) {
        pid_t pid = stages[which].pid;
        hang_up(which);
        waitpid(pid, NULL, 0);
    }
    return shm_unlink(room) == 0 ? EXIT_SUCCESS : EXIT_FAILURE;
}
