/* The slot core of paper 01, with S-1, S-4, S-7 and S-9 of paper 02, in plain C. Nothing is on the heap, and every call but open, change
   and leave takes constant time, besides one walk over marks in a draw and one in the refill. */
#include "plain.h"

#include <string.h>

enum {
    FULL_LINK = 1024, /* shares of the link; also the tokens of one packet */
    MAX_BURST = 64,
    MAX_POOL = 255,
    MIN_LENGTH = 64,
    MAX_LENGTH = 1518,
    MAX_THROWS = 8, /* in one draw; the next value counts as it is */
    ORDER_END = PLAIN_PLACES,
    REFILL_GROUP = 8, /* ids refilled together, as two vectors */
};

static inline uint64_t mark(uint32_t id) { return UINT64_C(1) << id; }

static inline bool active(const plain_core *core, uint32_t id) {
    return (core->indifferent | core->private) & mark(id);
}

/* The order of acceptance */

static inline void order_push(plain_core *core, uint32_t place) {
    uint16_t last = core->prev[ORDER_END];
    core->next[last] = (uint16_t)place;
    core->prev[place] = last;
    core->next[place] = ORDER_END;
    core->prev[ORDER_END] = (uint16_t)place;
}

static inline void order_unlink(plain_core *core, uint32_t place) {
    uint16_t before = core->prev[place], after = core->next[place];
    core->next[before] = after;
    core->prev[after] = before;
}

/* The queues */

static inline uint32_t place_of(uint32_t id, uint32_t ring) {
    return id * PLAIN_DEPTH + ring % PLAIN_DEPTH;
}

static inline void queue_push(plain_core *core, uint32_t id, plain_packet packet, bool indifferent) {
    uint32_t place = place_of(id, (uint32_t)core->head[id] + core->count[id]);
    core->handle[place] = packet.handle;
    core->length[place] = packet.length;
    if (indifferent) {
        if (core->count[id] == 0) core->waiting_rates += (uint32_t)core->rate[id];
        if (core->discipline == 0) order_push(core, place);
    }
    core->waiting |= mark(id);
    core->count[id]++;
}

static inline plain_packet queue_pop(plain_core *core, uint32_t id, bool indifferent) {
    uint32_t place = place_of(id, core->head[id]);
    core->head[id] = (uint8_t)((core->head[id] + 1) % PLAIN_DEPTH);
    if (--core->count[id] == 0) {
        core->waiting &= ~mark(id);
        if (indifferent) core->waiting_rates -= (uint32_t)core->rate[id];
    }
    if (indifferent && core->discipline == 0) order_unlink(core, place);
    return (plain_packet){core->handle[place], core->length[place]};
}

/* Takes out all that the id holds, its level too, and its marks and rate. */
static void clear(plain_core *core, uint32_t id) {
    uint32_t rate = (uint32_t)core->rate[id];
    if (core->indifferent & mark(id)) {
        if (core->count[id] != 0) core->waiting_rates -= rate;
        if (core->discipline == 0)
            for (uint32_t i = 0; i < core->count[id]; i++)
                order_unlink(core, place_of(id, core->head[id] + i));
    } else {
        core->private_rates -= rate;
    }
    core->rates -= rate;
    core->indifferent &= ~mark(id);
    core->private &= ~mark(id);
    core->waiting &= ~mark(id);
    core->rate[id] = core->level[id] = core->cap[id] = 0;
    core->pool[id] = core->head[id] = core->count[id] = 0;
}

/* Puts a client where none is; queue, pool and bucket are empty there. */
static void settle(plain_core *core, uint32_t id, uint32_t type, uint32_t rate, uint32_t burst) {
    if (type == PLAIN_INDIFFERENT) {
        core->indifferent |= mark(id);
    } else {
        core->private |= mark(id);
        core->private_rates += rate;
    }
    core->rates += rate;
    core->rate[id] = (int32_t)rate;
    core->cap[id] = (int32_t)burst * FULL_LINK;
}

/* Checks 7 to 10 of join and change; held: the rates of the other clients. */
static uint32_t check_terms(const plain_core *core, uint32_t held, uint32_t type, uint32_t rate,
                            uint32_t burst) {
    if (type != PLAIN_INDIFFERENT && type != PLAIN_PRIVATE) return 7;
    if (rate - 1 >= FULL_LINK) return 8;
    if (type == PLAIN_INDIFFERENT ? burst - 1 >= MAX_BURST : burst != 0) return 9;
    return held + rate > core->threshold ? 10 : 0;
}

/* The calls */

uint32_t plain_open(plain_core *core, uint32_t threshold, uint32_t discipline, uint32_t seed) {
    if (threshold - 1 >= FULL_LINK) return 1;
    if (discipline > 1) return 2;
    if (seed == 0) return 3;
    *core = (plain_core){.threshold = threshold, .discipline = discipline, .generator = seed};
    core->next[ORDER_END] = core->prev[ORDER_END] = ORDER_END;
    return 0;
}

uint32_t plain_join(plain_core *core, uint32_t id, uint32_t type, uint32_t rate, uint32_t burst) {
    if (core->threshold == 0) return 19;
    if (id >= PLAIN_CLIENTS) return 4;
    if (active(core, id)) return 6;
    uint32_t refused = check_terms(core, core->rates, type, rate, burst);
    if (refused) return refused;
    memset(core->counts[id], 0, sizeof core->counts[id]);
    settle(core, id, type, rate, burst);
    return 0;
}

/* A change that keeps the type keeps queue and pool; the level comes down to the new cap. */
static void retune(plain_core *core, uint32_t id, uint32_t rate, uint32_t burst) {
    uint32_t gain = rate - (uint32_t)core->rate[id]; /* wraps when the rate falls */
    core->rates += gain;
    if (core->private & mark(id)) core->private_rates += gain;
    else if (core->waiting & mark(id)) core->waiting_rates += gain;
    core->rate[id] = (int32_t)rate;
    core->cap[id] = (int32_t)burst * FULL_LINK;
    if (core->level[id] > core->cap[id]) core->level[id] = core->cap[id];
}

uint32_t plain_change(plain_core *core, uint32_t id, uint32_t type, uint32_t rate, uint32_t burst) {
    if (core->threshold == 0) return 19;
    if (id >= PLAIN_CLIENTS) return 4;
    if (!active(core, id)) return 5;
    uint32_t refused = check_terms(core, core->rates - (uint32_t)core->rate[id], type, rate, burst);
    if (refused) return refused;
    bool indifferent = core->indifferent & mark(id);
    if (indifferent == (type == PLAIN_INDIFFERENT)) {
        retune(core, id, rate, burst);
    } else {
        core->counts[id][PLAIN_EMPTIED] += core->count[id];
        clear(core, id);
        settle(core, id, type, rate, burst);
    }
    return 0;
}

uint32_t plain_leave(plain_core *core, uint32_t id) {
    if (core->threshold == 0) return 19;
    if (id >= PLAIN_CLIENTS) return 4;
    if (!active(core, id)) return 5;
    clear(core, id);
    memset(core->counts[id], 0, sizeof core->counts[id]);
    return 0;
}

uint32_t plain_load(plain_core *core, uint32_t id, uint32_t dummies) {
    if (core->threshold == 0) return 19;
    if (id >= PLAIN_CLIENTS) return 4;
    if (!active(core, id)) return 5;
    if (core->indifferent & mark(id)) return 11;
    if (dummies > MAX_POOL - (uint32_t)core->pool[id]) return 12;
    core->pool[id] = (uint8_t)(core->pool[id] + dummies);
    return 0;
}

uint32_t plain_arrive(plain_core *core, uint32_t id, uint64_t handle, uint32_t length) {
    if (core->threshold == 0) return 19;
    if (id >= PLAIN_CLIENTS) return 4;
    if (!active(core, id)) return 5;
    if (length - MIN_LENGTH > MAX_LENGTH - MIN_LENGTH) return 13;
    if (core->count[id] == PLAIN_DEPTH) {
        core->counts[id][PLAIN_FULL]++;
        return 14;
    }
    bool indifferent = core->indifferent & mark(id);
    if (indifferent) {
        if (core->level[id] < FULL_LINK) {
            core->counts[id][PLAIN_DRAINED]++;
            return 15;
        }
        core->level[id] -= FULL_LINK;
    }
    core->counts[id][PLAIN_ACCEPTED]++;
    queue_push(core, id, (plain_packet){handle, length}, indifferent);
    return 0;
}

/* Tick */

static inline uint32_t step(uint32_t v) {
    v ^= v << 13;
    v ^= v >> 17;
    v ^= v << 5;
    return v;
}

/* A draw's target, the generator after it and the steps it took. */
typedef struct {
    uint32_t target, generator, steps;
} drawn;

/* Even odds (S-1): a value not below the limit, the largest multiple of the sum that is at most
   2^32, is thrown away. Every value up to 2^32 - sum counts, so that the limit, which costs a
   division, is worked out for the few above it only. */
static inline drawn draw_target(uint32_t generator, uint32_t sum) {
    uint32_t v = step(generator), steps = 1;
    if (__builtin_expect(v > -sum, 0)) {
        uint64_t limit = (UINT64_C(1) << 32) - -sum % sum; /* -sum is 2^32 - sum */
        for (; v >= limit && steps <= MAX_THROWS; steps++) v = step(v);
    }
    return (drawn){v % sum, v, steps};
}

/* The id drawn among the marks, whose rates have the sum given. */
static inline uint32_t draw(plain_core *core, uint64_t marks, uint32_t sum) {
    drawn d = draw_target(core->generator, sum);
    core->generator = d.generator;
    int32_t target = (int32_t)d.target;
    for (;; marks &= marks - 1) {
        uint32_t id = (uint32_t)__builtin_ctzll(marks);
        target -= core->rate[id];
        if (target < 0) return id;
    }
}

static inline void send_indifferent(plain_core *core, uint64_t ready, plain_slot *slot) {
    uint32_t id = core->discipline == 0 ? core->next[ORDER_END] / PLAIN_DEPTH
                                        : draw(core, ready, core->waiting_rates);
    plain_packet packet = queue_pop(core, id, true);
    core->counts[id][PLAIN_SENT]++;
    *slot = (plain_slot){packet.handle, PLAIN_REAL, id, packet.length, 0};
}

static inline void send_private(plain_core *core, plain_slot *slot) {
    uint32_t id = draw(core, core->private, core->private_rates);
    if (core->count[id] != 0) {
        plain_packet packet = queue_pop(core, id, false);
        core->counts[id][PLAIN_SENT]++;
        *slot = (plain_slot){packet.handle, PLAIN_REAL, id, packet.length,
                             MAX_LENGTH - packet.length};
    } else if (core->pool[id] != 0) {
        core->pool[id]--;
        core->counts[id][PLAIN_DUMMIES]++;
        *slot = (plain_slot){.outcome = PLAIN_DUMMY, .id = id};
    } else {
        *slot = (plain_slot){.outcome = PLAIN_IDLE, .id = id};
    }
}

/* Levels, rates or caps of four ids. */
typedef int32_t four __attribute__((vector_size(16), aligned(4), may_alias));

/* level + rate, up to cap, for a group of ids. */
static inline void refill_group(int32_t *level, const int32_t *rate, const int32_t *cap) {
    for (int i = 0; i < REFILL_GROUP; i += 4) {
        four more = *(four *)(level + i) + *(const four *)(rate + i);
        four top = *(const four *)(cap + i);
        four below = more < top; /* all ones or all zeros */
        *(four *)(level + i) = (more & below) | (top & ~below);
    }
}

/* Refills the groups that have an indifferent id; the others of a group have cap 0 and stay 0. */
static inline void refill(plain_core *core) {
    const uint64_t group_marks = (UINT64_C(1) << REFILL_GROUP) - 1;
    for (uint64_t marks = core->indifferent; marks != 0;) {
        uint64_t first = (uint64_t)__builtin_ctzll(marks) / REFILL_GROUP * REFILL_GROUP;
        refill_group(core->level + first, core->rate + first, core->cap + first);
        marks &= ~(group_marks << first);
    }
}

uint32_t plain_tick(plain_core *core, plain_slot *slot) {
    if (core->threshold == 0) return 19;
    uint64_t ready = core->waiting & core->indifferent;
    if (ready != 0) send_indifferent(core, ready, slot);
    else if (core->private != 0) send_private(core, slot);
    else *slot = (plain_slot){.outcome = PLAIN_NONE};
    refill(core);
    return 0;
}

/* ---- fair rates */

static inline uint32_t least(uint32_t a, uint32_t b) { return a < b ? a : b; }

static inline bool is_share(uint32_t n) { return n - 1 < PLAIN_SHARES; }

static inline bool is_list(const uint32_t *ids, const uint32_t *demands, uint32_t count) {
    for (uint32_t i = 0, lowest = 0; i < count; lowest = ids[i] + 1, i++)
        if (ids[i] < lowest || ids[i] >= PLAIN_CLIENTS || !is_share(demands[i])) return false;
    return true;
}

static inline uint32_t cut_sum(const uint32_t *demands, uint32_t count, uint32_t level) {
    uint32_t sum = 0;
    for (uint32_t i = 0; i < count; i++) sum += least(demands[i], level);
    return sum;
}

uint32_t plain_rates(uint32_t threshold, const uint32_t *ids, const uint32_t *demands, uint32_t count, uint32_t *rates) {
    if (!is_share(threshold) || count > PLAIN_CLIENTS || count > threshold || !is_list(ids, demands, count)) return 22;
    uint32_t level = 0, above = PLAIN_SHARES + 1; /* the demands fit at level, and not from above on */
    while (above - level > 1) {
        uint32_t middle = level + (above - level) / 2;
        if (cut_sum(demands, count, middle) <= threshold)
            level = middle;
        else
            above = middle;
    }
    uint32_t left = threshold - cut_sum(demands, count, level);
    for (uint32_t i = 0; i < count; i++) {
        uint32_t more = demands[i] > level && left > 0;
        rates[i] = least(demands[i], level) + more;
        left -= more;
    }
    return 0;
}
