/*
 * A desk in POSIX shared memory, guarded by a robust mutex: what a host of several processes puts around tendrilhook.h. docs/HOST.md gives the reasons.
 *
 * Each process maps the memory where it likes, since a desk holds no address. One call is under way at a time. A process that dies holding the mutex
 * does not stop the others: the next one to lock it learns of the death, and `busy` says whether the desk is whole.
 */
#ifndef SHARED_H
#define SHARED_H

#include "tendrilhook_frames.h"
#include <pthread.h>

enum { SHARED_FILES = 8, SHARED_PLACES = 8, SHARED_NOBODY = 0, SHARED_ROOM = 65536 };

struct shared {
    pthread_mutex_t lock;
    volatile int busy;                           /* a call is under way */
    volatile int broken;                         /* a process died within a call: nobody uses the desk until there is another */
    int generation;                              /* the number of desks before this one */
    int owner[SHARED_FILES][SHARED_PLACES];      /* the number of the process that has this accessor, or SHARED_NOBODY */
    uint8_t segment[TENDRILHOOK_SEGMENT_BYTES];
    uint8_t blocks[TENDRILHOOK_BLOCKS_BYTES];
};

/* This process's view: what is shared, and after it, on pages of their own, the record buffers. */
extern struct shared *shared;
extern uint8_t *shared_buffers;

/* Makes the memory, the mutex and a fresh desk. Returns 0, or an error number. */
int shared_make(const char *name);

/* Maps the memory for the process with this number, 1 or more. Returns 0, or an error number. */
int shared_attach(const char *name, int number);

/* Adopts the present desk: this process may call it from now on. Until then a new desk refuses the process, which has opened nothing there. */
void shared_adopt(void);

/* Makes an event: returns its status, and sets its answer's length. The status is also 29 if the desk is broken, or not the adopted one. */
int shared_event(const uint8_t *frame, size_t frame_length, uint8_t *answer, size_t *length);

/* Saves a file's sheet. Returns the status of save, 29 if the desk is broken. */
int shared_save(size_t file, uint8_t *sheet, size_t *length);

/* Makes another desk, with files 0 and up loaded from these sheets, and nothing open. Returns 0, or the first status that is not 0. */
int shared_renew(size_t files, uint8_t (*sheets)[TENDRILHOOK_SHEET_BYTES], const size_t *lengths);

#endif
