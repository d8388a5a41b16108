/* Measures what a write and the read that takes it cost: on desks in several states, and by queues of the kernel in the same process. Prints a line for each figure,
   tab-separated: NAME  BYTES  NANOSECONDS, processor time of one pair, the best of several rounds. `pairs count STATE PAIRS` makes PAIRS pairs of 80 bytes and prints nothing. */
#include "desk.h"

#include <errno.h>
#include <fcntl.h>
#include <mqueue.h>
#include <stdio.h>
#include <stdlib.h>
#include <string.h>
#include <sys/ipc.h>
#include <sys/msg.h>
#include <sys/resource.h>
#include <time.h>
#include <unistd.h>

enum { ROUNDS = 15, LARGEST = 256 };

static const unsigned sizes[] = { 8, 80, 256 };

static double now(void)
{
    struct timespec t;
    clock_gettime(CLOCK_PROCESS_CPUTIME_ID, &t);
    return 1e9 * (double)t.tv_sec + (double)t.tv_nsec;
}

static double best(void (*once)(unsigned), unsigned size, int times)
{
    double least = 1e18;
    for (int round = 0; round < ROUNDS; round++) {
        const double start = now();
        for (int n = 0; n < times; n++) once(size);
        const double each = (now() - start) / times;
        if (each < least) least = each;
    }
    return least;
}

static void say(const char *name, unsigned size, double nanoseconds) { printf("%s\t%u\t%.1f\n", name, size, nanoseconds); }

static void fail(const char *what)
{
    printf("%s\t0\tcannot be had: %s\n", what, strerror(errno));
}

/* POSIX message queues */
static mqd_t queue;
static char message[LARGEST];
static void by_posix(unsigned size)
{
    unsigned priority;
    if (mq_send(queue, message, size, 0) != 0 || mq_receive(queue, message, LARGEST, &priority) != (ssize_t)size) exit(2);
}

static void posix(void)
{
    struct mq_attr shape = { .mq_maxmsg = 8, .mq_msgsize = LARGEST };
    char name[64];
    snprintf(name, sizeof name, "/tendrilhook-bench-%ld", (long)getpid());
    queue = mq_open(name, O_RDWR | O_CREAT | O_EXCL, 0600, &shape);
    if (queue == (mqd_t)-1) { fail("POSIX message queue"); return; }
    mq_unlink(name);
    for (int n = 0; n < 3; n++) say("POSIX message queue", sizes[n], best(by_posix, sizes[n], 20000));
    mq_close(queue);
}

/* System V queues */
static int system_v;
static struct { long type; char text[LARGEST]; } letter = { .type = 1 };
static void by_system_v(unsigned size)
{
    if (msgsnd(system_v, &letter, size, 0) != 0 || msgrcv(system_v, &letter, LARGEST, 0, 0) != (ssize_t)size) exit(2);
}

static void system_five(void)
{
    system_v = msgget(IPC_PRIVATE, 0600);
    if (system_v < 0) { fail("System V queue"); return; }
    for (int n = 0; n < 3; n++) say("System V queue", sizes[n], best(by_system_v, sizes[n], 20000));
    msgctl(system_v, IPC_RMID, NULL);
}

/* a pipe */
static int ends[2];
static void by_pipe(unsigned size)
{
    if (write(ends[1], message, size) != (ssize_t)size || read(ends[0], message, size) != (ssize_t)size) exit(2);
}

static void a_pipe(void)
{
    if (pipe(ends) != 0) { fail("pipe"); return; }
    for (int n = 0; n < 3; n++) say("pipe", sizes[n], best(by_pipe, sizes[n], 20000));
}

/* Times the soundness test alone: a frame of no shape is refused right after it. */
static void by_test(unsigned size)
{
    static const uint8_t none[1] = { 0 };
    (void)size;
    if (ask(none, sizeof none) != 2) exit(2);
}

static uint8_t record[TENDRILHOOK_RECORD_BYTES], sheet[TENDRILHOOK_SHEET_BYTES];
static size_t length;

static void by_look(unsigned size)
{
    (void)size;
    tendrilhook_look(segment, sizeof segment, blocks, sizeof blocks, buffers, sizeof buffers, 0, 1, record, sizeof record, &length);
}

static void by_save(unsigned size)
{
    (void)size;
    if (tendrilhook_save(segment, sizeof segment, blocks, sizeof blocks, buffers, sizeof buffers, 0, sheet, sizeof sheet, &length) != 0) exit(2);
}

/* Loads into a desk that is made fresh each time. */
static void by_load(unsigned size)
{
    (void)size;
    tendrilhook_fresh(segment, sizeof segment, blocks, sizeof blocks, buffers, sizeof buffers);
    if (tendrilhook_load(segment, sizeof segment, blocks, sizeof blocks, buffers, sizeof buffers, 0, sheet, length) != 0) exit(2);
}

static void by_fresh(unsigned size)
{
    (void)size;
    tendrilhook_fresh(segment, sizeof segment, blocks, sizeof blocks, buffers, sizeof buffers);
}

static void others(void)
{
    bring(ONE_FILE);
    for (int n = 0; n < 12; n++) {
        static const uint8_t zeros[80];
        uint8_t frame[TENDRILHOOK_FRAME_BYTES];
        if (tendrilhook_answer_written(answer, ask(frame, tendrilhook_frame_write(frame, 0, 0, zeros, sizeof zeros)), NULL) != TENDRILHOOK_DONE) exit(2);
    }
    say("look", 80, best(by_look, 0, 2000));
    say("save of 12 records", 80, best(by_save, 0, 2000));
    const double made = best(by_fresh, 0, 2000);
    say("fresh", 0, made);
    say("load of 12 records", 80, best(by_load, 0, 2000) - made);
}

int main(int count, char **words)
{
    if (count == 4 && strcmp(words[1], "count") == 0) {
        bring((enum state)atoi(words[2]));
        for (int n = atoi(words[3]); n > 0; n--) pair(80);
        return 0;
    }
    posix();
    for (int state = 0; state < STATES; state++) {
        bring((enum state)state);
        for (int n = 0; n < 3; n++) say(state_names[state], sizes[n], best(pair, sizes[n], 2000));
        char name[64];
        snprintf(name, sizeof name, "soundness test, %s", state_names[state]);
        say(name, 0, best(by_test, 0, 2000));
    }
    posix();
    system_five();
    a_pipe();
    others();
    struct rusage used;
    getrusage(RUSAGE_SELF, &used);
    printf("peak memory\t0\t%ld\n", used.ru_maxrss);
    return 0;
}
