/* The functions of examples/shared.h, in C99 with POSIX. */
#define _POSIX_C_SOURCE 200809L
#include "shared.h"

#include <errno.h>
#include <fcntl.h>
#include <stdio.h>
#include <stdlib.h>
#include <sys/mman.h>
#include <unistd.h>

struct shared *shared;
uint8_t *shared_buffers;
static int self, generation;

#define DESK shared->segment, sizeof shared->segment, shared->blocks, sizeof shared->blocks, shared_buffers, (size_t)TENDRILHOOK_BUFFERS_BYTES

int shared_attach(const char *name, int number)
{
    int memory = shm_open(name, O_RDWR, 0);
    if (memory < 0) return errno;
    void *at = mmap(NULL, 2 * SHARED_ROOM, PROT_READ | PROT_WRITE, MAP_SHARED, memory, 0);
    close(memory);
    if (at == MAP_FAILED) return errno;
    shared = at;
    shared_buffers = (uint8_t *)at + SHARED_ROOM;
    self = number;
    generation = shared->generation;
    return 0;
}

int shared_make(const char *name)
{
    pthread_mutexattr_t kind;
    int memory = shm_open(name, O_RDWR | O_CREAT | O_EXCL, 0600);
    if (memory < 0) return errno;
    int error = ftruncate(memory, 2 * SHARED_ROOM) == 0 ? shared_attach(name, SHARED_NOBODY) : errno;
    close(memory);
    if (error == 0) error = pthread_mutexattr_init(&kind);
    if (error == 0) error = pthread_mutexattr_setpshared(&kind, PTHREAD_PROCESS_SHARED);
    if (error == 0) error = pthread_mutexattr_setrobust(&kind, PTHREAD_MUTEX_ROBUST);
    if (error == 0) error = pthread_mutex_init(&shared->lock, &kind);
    if (error == 0) return tendrilhook_fresh(DESK);
    shm_unlink(name);
    return error;
}

void shared_adopt(void)
{
    generation = shared->generation;
}

/* Locks the mutex. If its last owner died, `busy` says where: between calls, and the desk is whole; or within one, and nobody may trust the desk. */
static void take(void)
{
    int error = pthread_mutex_lock(&shared->lock);
    if (error == EOWNERDEAD) {
        if (shared->busy) shared->broken = 1;
        error = pthread_mutex_consistent(&shared->lock);
    }
    if (error != 0) abort();
}

static void give(void)
{
    pthread_mutex_unlock(&shared->lock);
}

/* Notes who has an accessor after an open or a close. The notes change while `busy` is set, as the desk does, so the two agree unless `broken` is set. */
static void note_owner(const uint8_t *frame, const uint8_t *answer, size_t length)
{
    uint8_t accessor;
    if (tendrilhook_answer_opened(answer, length, &accessor, NULL) == TENDRILHOOK_DONE) shared->owner[frame[1]][accessor] = self;
    if (tendrilhook_answer_closed(answer, length) == TENDRILHOOK_DONE) shared->owner[frame[1]][frame[2]] = SHARED_NOBODY;
}

int shared_event(const uint8_t *frame, size_t frame_length, uint8_t *answer, size_t *length)
{
    *length = 0;
    take();
    if (!shared->broken && generation == shared->generation) {
        shared->busy = 1;
        *length = tendrilhook_event(DESK, answer, TENDRILHOOK_ANSWER_BYTES, frame, frame_length);
        note_owner(frame, answer, *length);
        shared->busy = 0;
    }
    give();
    return tendrilhook_answer_status(answer, *length);
}

/* Save changes nothing of the desk, so a process that dies within it leaves the desk whole. */
int shared_save(size_t file, uint8_t *sheet, size_t *length)
{
    *length = 0;
    take();
    int status = shared->broken ? TENDRILHOOK_UNSOUND : tendrilhook_save(DESK, file, sheet, TENDRILHOOK_SHEET_BYTES, length);
    give();
    return status;
}

int shared_renew(size_t files, uint8_t (*sheets)[TENDRILHOOK_SHEET_BYTES], const size_t *lengths)
{
    take();
    shared->busy = 1;
    int status = tendrilhook_fresh(DESK);
    for (size_t file = 0; file < files && status == TENDRILHOOK_DONE; file++) status = tendrilhook_load(DESK, file, sheets[file], lengths[file]);
    for (int file = 0; file < SHARED_FILES; file++)
        for (int place = 0; place < SHARED_PLACES; place++) shared->owner[file][place] = SHARED_NOBODY;
    generation = ++shared->generation;
    shared->broken = status != TENDRILHOOK_DONE;
    shared->busy = 0;
    give();
    return status;
}
