/* The benchmark's calls. What begins with plain_ (sequence.c) and what begins with bench_ (libbench.a and libemptying.a) do the
   very same calls on their own core and must return the same number. privates + indifferents is 1 to 64. */
#ifndef SEQUENCE_H
#define SEQUENCE_H

#include <stdint.h>

/* MODE_REFUSED is also the first id that nobody has; handed in as the mode, it is known to neither compiler. */
enum { MODE_SLOTS = 0, MODE_REFUSED = 64 };
enum { CALLS_OF_SLOTS = 2, CALLS_OF_REFUSED = 4 }; /* calls a round */

uint64_t plain_run(uint32_t privates, uint32_t indifferents, uint32_t discipline, uint32_t depth,
                   uint32_t mode, uint32_t rounds);
uint64_t bench_run(uint32_t privates, uint32_t indifferents, uint32_t discipline, uint32_t depth,
                   uint32_t mode, uint32_t rounds);

/* Fair rates of lists of so many demands, one list after the other, each with one demand set anew. count is 1 to 64, highest at
   least 1. */
uint64_t plain_fair(uint32_t count, uint32_t threshold, uint32_t highest, uint32_t rounds);
uint64_t bench_fair(uint32_t count, uint32_t threshold, uint32_t highest, uint32_t rounds);

/* Clients are put on a core, with packets waiting; each round takes the core as it was then and empties those below end. They
   leave, where the type that they go to is 0, or change to it. Of the packets, so many are handed in to each queue, and then one
   in each filling round. clients is 1 to 64. */
uint64_t plain_emptying(uint32_t clients, uint32_t type, uint32_t each, uint32_t filling, uint32_t to, uint32_t end,
                        uint32_t rounds);
uint64_t bench_emptying(uint32_t clients, uint32_t type, uint32_t each, uint32_t filling, uint32_t to, uint32_t end,
                        uint32_t rounds);

/* Each round opens the core anew. */
uint64_t plain_opening(uint32_t rounds);
uint64_t bench_opening(uint32_t rounds);

#endif
