/* A desk for the benchmarks, and the states that it is measured in. */
#ifndef BENCH_DESK_H
#define BENCH_DESK_H

#include "tendrilhook_frames.h"

/* What the other files are like while file 0 passes records. */
enum state { ONE_FILE, CROWDED, HOLDING, FULL, WIDE, SCATTERED, STATES };

extern const char *const state_names[STATES];

/* Makes the desk fresh and brings it into a state: file 0 is built and empty, place 0 writes, place 1 reads. */
void bring(enum state state);

/* Makes a write of `size` bytes to file 0 and the read that takes it. Ends the program if an answer is wrong. */
void pair(unsigned size);

/* Asks one event and returns the length of its answer, which is in `answer`. */
size_t ask(const uint8_t *frame, size_t length);

extern uint8_t segment[TENDRILHOOK_SEGMENT_BYTES], blocks[TENDRILHOOK_BLOCKS_BYTES], buffers[TENDRILHOOK_BUFFERS_BYTES];
extern uint8_t answer[TENDRILHOOK_ANSWER_BYTES];

#endif
