/* Stands in for libbench.a and libemptying.a, to try the harness without them. */
#include "sequence.h"

uint64_t bench_run(uint32_t privates, uint32_t indifferents, uint32_t discipline, uint32_t depth,
                   uint32_t mode, uint32_t rounds) {
    return plain_run(privates, indifferents, discipline, depth, mode, rounds);
}

uint64_t bench_fair(uint32_t count, uint32_t threshold, uint32_t highest, uint32_t rounds) {
    return plain_fair(count, threshold, highest, rounds);
}

uint64_t bench_emptying(uint32_t clients, uint32_t type, uint32_t each, uint32_t filling, uint32_t to, uint32_t end,
                        uint32_t rounds) {
    return plain_emptying(clients, type, each, filling, to, end, rounds);
}

uint64_t bench_opening(uint32_t rounds) { return plain_opening(rounds); }
