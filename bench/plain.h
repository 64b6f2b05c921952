/* The slot core of a shared gateway (paper 01, with S-1, S-4, S-6, S-7 and S-9 of paper 02) and the fair rates of S-8, in plain C: the
   yardstick of the benchmark.
   Every call but tick answers 0 for accepted or the number of the first check that failed. */
#ifndef PLAIN_H
#define PLAIN_H

#include <stdbool.h>
#include <stdint.h>

#define PLAIN_DEPTH 128 /* places of each id; place p belongs to id p / PLAIN_DEPTH */

enum { PLAIN_CLIENTS = 64, PLAIN_PLACES = PLAIN_CLIENTS * PLAIN_DEPTH };

_Static_assert(PLAIN_DEPTH <= UINT8_MAX && PLAIN_PLACES <= UINT16_MAX, "a count or a place does not fit");

enum { PLAIN_SHARES = 1024 };

enum plain_type { PLAIN_INACTIVE = 0, PLAIN_INDIFFERENT = 1, PLAIN_PRIVATE = 2 };

enum plain_outcome { PLAIN_NONE, PLAIN_REAL, PLAIN_DUMMY, PLAIN_IDLE };

/* What is counted of a client since its join. */
enum plain_count { PLAIN_ACCEPTED, PLAIN_SENT, PLAIN_FULL, PLAIN_DRAINED, PLAIN_EMPTIED, PLAIN_DUMMIES, PLAIN_COUNTS };

/* A slot's outcome; id is set but for none, the packet only for real. */
typedef struct {
    uint64_t handle;
    uint32_t outcome, id, length, padding;
} plain_slot;

typedef struct {
    uint64_t handle;
    uint32_t length;
} plain_packet;

/* A core; all zero bytes make an unopened one. */
typedef struct {
    uint64_t indifferent, private, waiting; /* marks, one bit an id */
    uint32_t threshold;                     /* 0: unopened */
    uint32_t discipline;
    uint32_t generator;
    uint32_t rates;         /* of all active clients */
    uint32_t private_rates; /* of the private ones */
    uint32_t waiting_rates; /* of the indifferent ones with a packet waiting */

    int32_t level[PLAIN_CLIENTS];
    int32_t rate[PLAIN_CLIENTS];
    int32_t cap[PLAIN_CLIENTS]; /* burst * 1024; 0 but for the indifferent */
    uint8_t pool[PLAIN_CLIENTS];
    uint8_t head[PLAIN_CLIENTS];  /* ring place of the first packet, below PLAIN_DEPTH */
    uint8_t count[PLAIN_CLIENTS]; /* packets waiting, at most PLAIN_DEPTH */
    uint64_t counts[PLAIN_CLIENTS][PLAIN_COUNTS];
    uint64_t handle[PLAIN_PLACES]; /* apart from the lengths, so that no place has unused bytes */
    uint32_t length[PLAIN_PLACES];

    /* Discipline 0 only: the places of indifferent packets in order of acceptance,
       a circle through the extra place PLAIN_PLACES, which is its end. */
    uint16_t next[PLAIN_PLACES + 1], prev[PLAIN_PLACES + 1];
} plain_core;

uint32_t plain_open(plain_core *core, uint32_t threshold, uint32_t discipline, uint32_t seed);
uint32_t plain_join(plain_core *core, uint32_t id, uint32_t type, uint32_t rate, uint32_t burst);
uint32_t plain_change(plain_core *core, uint32_t id, uint32_t type, uint32_t rate, uint32_t burst);
uint32_t plain_leave(plain_core *core, uint32_t id);
uint32_t plain_load(plain_core *core, uint32_t id, uint32_t dummies);
uint32_t plain_arrive(plain_core *core, uint32_t id, uint64_t handle, uint32_t length);
/* Answers 0 and fills the slot, or 19. */
uint32_t plain_tick(plain_core *core, plain_slot *slot);
/* Answers 0 and gives each demand its rate, or 22 and gives none. */
uint32_t plain_rates(uint32_t threshold, const uint32_t *ids, const uint32_t *demands, uint32_t count, uint32_t *rates);

#endif
