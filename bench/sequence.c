/* The benchmark's calls on the plain core. */
#include "sequence.h"

#include <assert.h>

#include "plain.h"

enum { BURST = 64, SHORTEST = 64, LINK = 1024, SEED = 1 };
/* In emptyings the clients to be emptied have these rates together, and each of the others has this one. */
enum { OWN_RATES = 768, CROWD_RATE = 5 };

/* What the sum takes for an answer other than a slot. */
static inline uint64_t code_of(uint32_t refused) { return refused == 0 ? 1 : 2 + (uint64_t)refused; }

static inline uint64_t code_of_slot(const plain_slot *slot) {
    uint64_t id = slot->id;
    switch (slot->outcome) {
    case PLAIN_REAL:
        return 1000 + id * 7 + slot->handle * 3 + (uint64_t)slot->length * 5 +
               (uint64_t)slot->padding * 11;
    case PLAIN_DUMMY:
        return 500 + id;
    case PLAIN_IDLE:
        return 600 + id;
    default:
        return 700;
    }
}

static inline uint64_t tick_code(plain_core *core) {
    plain_slot slot;
    uint32_t refused = plain_tick(core, &slot);
    return refused != 0 ? code_of(refused) : code_of_slot(&slot);
}

/* The next id, round and round: with a remainder in its place one compiler would divide and another count. */
static inline uint32_t next_id(uint32_t id, uint32_t clients) { return id + 1 < clients ? id + 1 : 0; }

/* Everything that can be is drawn into one function, as it is into bench_run. */
#define INLINED __attribute__((flatten))

static uint64_t run_slots(plain_core *core, uint32_t first, uint32_t clients, uint32_t rounds) {
    uint64_t sum = 0;
    for (uint32_t k = 0, id = first; k < rounds; k++, id = next_id(id, clients)) {
        sum += code_of(plain_arrive(core, id, k, SHORTEST + k % 1024));
        sum += tick_code(core);
    }
    return sum;
}

/* Four calls that are refused if the first id that nobody has is 64. The compiler does not know that number, nor of any two
   calls that they are for the same id, so that it cannot work out beforehand, or once for both, whether an id is too large. */
static uint64_t run_refused(plain_core *core, uint32_t clients, uint32_t beyond, uint32_t rounds) {
    uint64_t sum = 0;
    for (uint32_t k = 0, id = 0; k < rounds; k++, id = next_id(id, clients)) {
        sum += code_of(plain_arrive(core, beyond + k % 8, k, SHORTEST));
        sum += code_of(plain_load(core, beyond + k % 4, k));
        sum += code_of(plain_join(core, id, PLAIN_PRIVATE, 1, 0));
        sum += code_of(plain_arrive(core, next_id(id, clients), k, SHORTEST - 1));
    }
    return sum;
}

/* A bucket begins empty (S-4), and rounds whose arrivals are refused, for ids that nobody has, fill it: of BURST packets, at rate
   LINK / clients, it is full after BURST * clients ticks where clients divides LINK, as in every sequence. The private clients join
   after them, so that none makes a draw. */
static void join_all(plain_core *core, uint32_t clients, uint32_t indifferents) {
    uint32_t rate = LINK / clients, ticks = BURST * clients;
    for (uint32_t id = 0; id < indifferents; id++) plain_join(core, id, PLAIN_INDIFFERENT, rate, BURST);
    run_slots(core, PLAIN_CLIENTS, PLAIN_CLIENTS + ticks, ticks);
    for (uint32_t id = indifferents; id < clients; id++) plain_join(core, id, PLAIN_PRIVATE, rate, 0);
}

/* One packet less than the depth into each queue, one client after the other. */
static void fill_queues(plain_core *core, uint32_t clients, uint32_t depth) {
    for (uint32_t id = 0; id < clients; id++)
        for (uint32_t i = 1; i < depth; i++) plain_arrive(core, id, id, SHORTEST);
}

static void set_up(plain_core *core, uint32_t clients, uint32_t indifferents, uint32_t discipline,
                   uint32_t depth) {
    plain_open(core, LINK, discipline, SEED);
    join_all(core, clients, indifferents);
    fill_queues(core, clients, depth);
}

INLINED uint64_t plain_run(uint32_t privates, uint32_t indifferents, uint32_t discipline, uint32_t depth,
                           uint32_t mode, uint32_t rounds) {
    plain_core core = {0};
    uint32_t clients = privates + indifferents;
    set_up(&core, clients, indifferents, discipline, depth);
    return mode == MODE_SLOTS ? run_slots(&core, 0, clients, rounds)
                              : run_refused(&core, clients, mode, rounds);
}

INLINED static uint64_t run_fair(const uint32_t *ids, uint32_t *demands, uint32_t *rates, uint32_t count, uint32_t threshold,
                                 uint32_t highest, uint32_t rounds) {
    uint64_t sum = 0;
    for (uint32_t k = 0, i = 0; k < rounds; k++, i = next_id(i, count)) {
        demands[i] = 1 + k % 1024 * 37 % highest;
        sum += code_of(plain_rates(threshold, ids, demands, count, rates));
        sum += rates[i];
    }
    return sum;
}

uint64_t plain_fair(uint32_t count, uint32_t threshold, uint32_t highest, uint32_t rounds) {
    uint32_t ids[PLAIN_CLIENTS], demands[PLAIN_CLIENTS], rates[PLAIN_CLIENTS] = {0};
    for (uint32_t i = 0; i < PLAIN_CLIENTS; i++) {
        ids[i] = i;
        demands[i] = 1;
    }
    return run_fair(ids, demands, rates, count, threshold, highest, rounds);
}

static inline uint32_t burst_of(uint32_t type) { return type == PLAIN_INDIFFERENT ? BURST : 0; }

/* The crowd, of the other ids, waits for full buckets. Then the clients to be emptied join. Of the packets that come to every
   queue the crowd takes a bucketful; an indifferent client's bucket is empty then, and fills while those go out, since they were
   accepted before its own. */
static uint64_t set_up_emptying(plain_core *core, uint32_t clients, uint32_t type, uint32_t rate, uint32_t each,
                                uint32_t filling) {
    uint32_t ticks = BURST * LINK / CROWD_RATE + 1;
    for (uint32_t id = clients; id < PLAIN_CLIENTS; id++) plain_join(core, id, PLAIN_INDIFFERENT, CROWD_RATE, BURST);
    run_slots(core, PLAIN_CLIENTS, PLAIN_CLIENTS + ticks, ticks);
    for (uint32_t id = 0; id < clients; id++) plain_join(core, id, type, rate, burst_of(type));
    fill_queues(core, PLAIN_CLIENTS, each + 1);
    return run_slots(core, 0, clients, filling);
}

static uint64_t leave_ids(plain_core *core, uint32_t end) {
    uint64_t sum = 0;
    for (uint32_t id = 0; id < end; id++) sum += code_of(plain_leave(core, id));
    return sum;
}

static uint64_t change_ids(plain_core *core, uint32_t end, uint32_t to, uint32_t rate) {
    uint64_t sum = 0;
    for (uint32_t id = 0; id < end; id++) sum += code_of(plain_change(core, id, to, rate, burst_of(to)));
    return sum;
}

/* Every queue is empty before the rounds, or full. Behind them each client gets an arrival, with a tick: the answers tell who has
   room, and what was written is read. */
INLINED uint64_t plain_emptying(uint32_t clients, uint32_t type, uint32_t each, uint32_t filling, uint32_t to, uint32_t end,
                                uint32_t rounds) {
    plain_core core = {0};
    uint32_t rate = OWN_RATES / clients;
    plain_open(&core, LINK, 0, SEED);
    uint64_t sum = set_up_emptying(&core, clients, type, rate, each, filling);
    for (uint32_t id = 0; id < clients; id++) assert(core.count[id] == (each == 0 ? 0 : PLAIN_DEPTH));
    plain_core kept = core;
    for (uint32_t k = 0; k < rounds; k++) {
        core = kept;
        sum += to == PLAIN_INACTIVE ? leave_ids(&core, end) : change_ids(&core, end, to, rate);
    }
    return sum + run_slots(&core, 0, clients, clients);
}

/* Behind the rounds come some calls that read what was written. */
INLINED uint64_t plain_opening(uint32_t rounds) {
    plain_core core = {0};
    uint64_t sum = 0;
    plain_open(&core, LINK, 0, SEED);
    for (uint32_t k = 0; k < rounds; k++) sum += code_of(plain_open(&core, LINK, 0, k + 1));
    for (uint32_t id = 0; id < PLAIN_CLIENTS; id++) plain_join(&core, id, PLAIN_PRIVATE, 1, 0);
    fill_queues(&core, PLAIN_CLIENTS, 2);
    return sum + run_slots(&core, 0, PLAIN_CLIENTS, PLAIN_CLIENTS);
}
