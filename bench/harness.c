/* Times the proved core against the plain one.
     harness time calls|emptying [ROUNDS]       a table of nanoseconds a call; 1 if the sums differ
     harness list calls|emptying                a line for each sequence: index, calls a round, name
     harness one|before proved|plain I ROUNDS   runs sequence I once, or what of it does not count, and prints its sum
                                                (for callgrind) */
#define _POSIX_C_SOURCE 200809L
#include <inttypes.h>
#include <stdio.h>
#include <stdlib.h>
#include <string.h>
#include <time.h>

#include "plain.h"
#include "sequence.h"

/* What is timed: both run the calls, the lists, the emptyings and the opens of sequence.h. */
typedef struct {
    uint64_t (*calls)(uint32_t, uint32_t, uint32_t, uint32_t, uint32_t, uint32_t);
    uint64_t (*fair)(uint32_t, uint32_t, uint32_t, uint32_t);
    uint64_t (*emptying)(uint32_t, uint32_t, uint32_t, uint32_t, uint32_t, uint32_t, uint32_t);
    uint64_t (*opening)(uint32_t);
} implementation;

static const implementation proved = {bench_run, bench_fair, bench_emptying, bench_opening},
                            plain = {plain_run, plain_fair, plain_emptying, plain_opening};

/* A sequence of calls; where it has demands, of lists of them; where it has clients, of emptyings of theirs; or of opens. */
typedef struct {
    const char *name;
    uint32_t privates, indifferents, discipline, depth, mode;
    uint32_t demands, threshold, highest;
    uint32_t clients, type, each, filling, to;
    bool opens;
} sequence;

/* The number of places as a text. */
#define TEXT(number) #number
#define TEXT_OF(name) TEXT(name)
#define FULL TEXT_OF(PLAIN_DEPTH)

#define CALLS(text, p, i, d, deep, m) \
    {.name = text, .privates = p, .indifferents = i, .discipline = d, .depth = deep, .mode = m}
#define LISTS(text, n, limit, most) {.name = text, .demands = n, .threshold = limit, .highest = most}
#define OPENS(text) {.name = text, .opens = true}
/* The clients of all ids, with nothing waiting or, if private, with full queues. Full queues of indifferent clients have CROWDED of
   them: at rate 48 a bucket has had 128 tokens after 2,731 ticks, and that long the 3,072 packets of the 48 others go out. */
enum { CROWDED = 16, FILLING = 3000 };
#define EMPTYING(text, of, new) {.name = text ", 0 waiting", .clients = PLAIN_CLIENTS, .type = of, .to = new}
#define EMPTYING_FULL(text, n, of, rounds, new) \
    {.name = text ", " FULL " waiting", .clients = n, .type = of, .each = PLAIN_DEPTH, .filling = rounds, .to = new}

static const sequence sequences[] = {
    CALLS("1 private", 1, 0, 0, 1, MODE_SLOTS),
    CALLS("8 private", 8, 0, 0, 1, MODE_SLOTS),
    CALLS("64 private", 64, 0, 0, 1, MODE_SLOTS),
    CALLS("1 indifferent, discipline 0", 0, 1, 0, 1, MODE_SLOTS),
    CALLS("8 indifferent, discipline 0", 0, 8, 0, 1, MODE_SLOTS),
    CALLS("64 indifferent, discipline 0", 0, 64, 0, 1, MODE_SLOTS),
    CALLS("1 indifferent, discipline 1", 0, 1, 1, 1, MODE_SLOTS),
    CALLS("8 indifferent, discipline 1", 0, 8, 1, 1, MODE_SLOTS),
    CALLS("64 indifferent, discipline 1", 0, 64, 1, 1, MODE_SLOTS),
    CALLS("8 private + 8 indifferent, discipline 0", 8, 8, 0, 1, MODE_SLOTS),
    CALLS("8 private + 8 indifferent, discipline 1", 8, 8, 1, 1, MODE_SLOTS),
    /* Each queue has 1 packet before the first arrival, or one less than it has places, or than its client's bucket held. */
    CALLS("8 private, depth 1", 8, 0, 0, 2, MODE_SLOTS),
    CALLS("8 private, depth " FULL, 8, 0, 0, PLAIN_DEPTH, MODE_SLOTS),
    CALLS("8 indifferent, discipline 0, depth 1", 0, 8, 0, 2, MODE_SLOTS),
    CALLS("8 indifferent, discipline 0, depth 64", 0, 8, 0, 64, MODE_SLOTS),
    CALLS("8 indifferent, discipline 1, depth 1", 0, 8, 1, 2, MODE_SLOTS),
    CALLS("8 indifferent, discipline 1, depth 64", 0, 8, 1, 64, MODE_SLOTS),
    CALLS("only refused calls", 8, 0, 0, 1, MODE_REFUSED),
    LISTS("fair rates of 1 demand", 1, 1024, 1024),
    LISTS("fair rates of 8 demands", 8, 1024, 1024),
    LISTS("fair rates of 64 demands", 64, 1024, 1024),
    LISTS("fair rates of 64 demands, a share each", 64, 64, 1024),
    LISTS("fair rates of 64 demands, all met", 64, 1024, 15),
    OPENS("open"),
    EMPTYING("leave, private", PLAIN_PRIVATE, PLAIN_INACTIVE),
    EMPTYING_FULL("leave, private", PLAIN_CLIENTS, PLAIN_PRIVATE, 0, PLAIN_INACTIVE),
    EMPTYING("leave, indifferent", PLAIN_INDIFFERENT, PLAIN_INACTIVE),
    EMPTYING_FULL("leave, indifferent", CROWDED, PLAIN_INDIFFERENT, FILLING, PLAIN_INACTIVE),
    EMPTYING("private to indifferent", PLAIN_PRIVATE, PLAIN_INDIFFERENT),
    EMPTYING_FULL("private to indifferent", PLAIN_CLIENTS, PLAIN_PRIVATE, 0, PLAIN_INDIFFERENT),
    EMPTYING("indifferent to private", PLAIN_INDIFFERENT, PLAIN_PRIVATE),
    EMPTYING_FULL("indifferent to private", CROWDED, PLAIN_INDIFFERENT, FILLING, PLAIN_PRIVATE),
};
enum { SEQUENCES = sizeof sequences / sizeof sequences[0] };

/* The tables, and how each is timed: the best of so many repetitions of so many rounds. */
typedef struct {
    const char *name;
    bool emptying;
    int repetitions;
    uint32_t rounds;
} table;

static const table tables[] = {{"calls", false, 7, 500000}, {"emptying", true, 51, 2000}};

static bool in_table(const table *t, const sequence *s) { return t->emptying == (s->opens || s->clients > 0); }

static uint32_t calls_of(const sequence *s) {
    if (s->clients > 0) return s->clients;
    if (s->opens || s->demands > 0) return 1;
    return s->mode == MODE_SLOTS ? CALLS_OF_SLOTS : CALLS_OF_REFUSED;
}

static uint64_t run(const implementation *of, const sequence *s, uint32_t rounds) {
    if (s->opens) return of->opening(rounds);
    if (s->clients > 0) return of->emptying(s->clients, s->type, s->each, s->filling, s->to, s->clients, rounds);
    if (s->demands > 0) return of->fair(s->demands, s->threshold, s->highest, rounds);
    return of->calls(s->privates, s->indifferents, s->discipline, s->depth, s->mode, rounds);
}

/* What of a run does not count: no rounds, or, of emptyings, rounds that empty nobody. */
static uint64_t run_before(const implementation *of, const sequence *s, uint32_t rounds) {
    if (s->clients > 0) return of->emptying(s->clients, s->type, s->each, s->filling, s->to, 0, rounds);
    return run(of, s, 0);
}

static double now(void) {
    struct timespec t;
    clock_gettime(CLOCK_PROCESS_CPUTIME_ID, &t);
    return (double)t.tv_sec * 1e9 + (double)t.tv_nsec;
}

/* The best times of one implementation on one sequence, and its sum, that of what does not count included. */
typedef struct {
    double whole, before;
    uint64_t sum;
} timing;

static void time_once(timing *t, const implementation *of, const sequence *s, uint32_t rounds) {
    double start = now();
    t->sum = run_before(of, s, rounds);
    double between = now();
    t->sum += run(of, s, rounds);
    double end = now();
    if (t->whole == 0 || between - start < t->before) t->before = between - start;
    if (t->whole == 0 || end - between < t->whole) t->whole = end - between;
}

static double call_time(const timing *t, const sequence *s, uint32_t rounds) {
    return (t->whole - t->before) / ((double)rounds * calls_of(s));
}

/* Both on each sequence of the table; whether the sums agree. */
static bool time_both(const table *t, timing *ours, timing *theirs, uint32_t rounds) {
    for (int i = 0; i < SEQUENCES; i++) {
        if (!in_table(t, &sequences[i])) continue;
        time_once(&ours[i], &proved, &sequences[i], rounds);
        time_once(&theirs[i], &plain, &sequences[i], rounds);
        if (ours[i].sum == theirs[i].sum) continue;
        fprintf(stderr, "harness: %s: proved gives %" PRIu64 ", plain %" PRIu64 "\n", sequences[i].name, ours[i].sum,
                theirs[i].sum);
        return false;
    }
    return true;
}

/* Each repetition goes through all sequences, so that a slow spell of the machine hits none alone. */
static int time_all(const table *t, uint32_t rounds) {
    static timing ours[SEQUENCES], theirs[SEQUENCES];
    for (int repetition = 0; repetition < t->repetitions; repetition++)
        if (!time_both(t, ours, theirs, rounds)) return 1;
    puts("| sequence | proved ns/call | plain ns/call | ratio |\n|---|---:|---:|---:|");
    for (int i = 0; i < SEQUENCES; i++) {
        if (!in_table(t, &sequences[i])) continue;
        double a = call_time(&ours[i], &sequences[i], rounds);
        double b = call_time(&theirs[i], &sequences[i], rounds);
        printf("| %s | %.2f | %.2f | %.2f |\n", sequences[i].name, a, b, a / b);
    }
    return 0;
}

static int list(const table *t) {
    for (int i = 0; i < SEQUENCES; i++)
        if (in_table(t, &sequences[i])) printf("%d %" PRIu32 " %s\n", i, calls_of(&sequences[i]), sequences[i].name);
    return 0;
}

static int usage(void) {
    fputs("usage: harness time calls|emptying [ROUNDS] | list calls|emptying | one|before proved|plain INDEX ROUNDS\n", stderr);
    return 2;
}

/* A number from 0 to 4294967295, digits only. */
static int read_number(const char *text, uint32_t *number) {
    char *end;
    unsigned long long value = strtoull(text, &end, 10);
    if (*text < '0' || *text > '9' || *end != '\0' || value > UINT32_MAX) return 0;
    *number = (uint32_t)value;
    return 1;
}

static const table *table_of(const char *name) {
    for (size_t i = 0; i < sizeof tables / sizeof tables[0]; i++)
        if (strcmp(name, tables[i].name) == 0) return &tables[i];
    return NULL;
}

static int one(char **words) {
    bool whole = strcmp(words[0], "one") == 0;
    uint32_t index, rounds;
    if (!whole && strcmp(words[0], "before") != 0) return usage();
    if (!read_number(words[2], &index) || !read_number(words[3], &rounds)) return usage();
    if (index >= SEQUENCES) return usage();
    const implementation *of = strcmp(words[1], "proved") == 0  ? &proved
                               : strcmp(words[1], "plain") == 0 ? &plain
                                                                : NULL;
    if (of == NULL) return usage();
    printf("%" PRIu64 "\n", (whole ? run : run_before)(of, &sequences[index], rounds));
    return 0;
}

int main(int argc, char **argv) {
    if (argc == 5) return one(argv + 1);
    const table *t = argc == 3 || argc == 4 ? table_of(argv[2]) : NULL;
    if (t == NULL) return usage();
    if (argc == 3 && strcmp(argv[1], "list") == 0) return list(t);
    uint32_t rounds = t->rounds;
    if (strcmp(argv[1], "time") != 0) return usage();
    if (argc == 4 && (!read_number(argv[3], &rounds) || rounds == 0)) return usage();
    return time_all(t, rounds);
}
