/* The script program in plain C, over the plain core: standard input to standard output. The yardstick for `slots`. */
#include <stdio.h>
#include <string.h>
#include <unistd.h>

#include "plain.h"

enum { TEXT_LIMIT = 60000, ROOM = 780064, NUMBERS = 3 };

static char text[65536], out[ROOM];

/* Reads what a form's pattern says, # for a number and @ for a handle; answers 0, 16 or 17, shape before size. */
static int match(const char *pattern, const char *at, const char *end, uint64_t *numbers) {
    int large = 0;
    for (; *pattern; pattern++) {
        if (*pattern != '#' && *pattern != '@') {
            if (at == end || *at++ != *pattern) return 16;
            continue;
        }
        const char *first = at;
        uint64_t value = 0;
        int past = 0;
        while (at < end && *at >= '0' && *at <= '9') {
            past |= __builtin_mul_overflow(value, 10, &value);
            past |= __builtin_add_overflow(value, (uint64_t)(*at++ - '0'), &value);
        }
        if (at == first || (*first == '0' && at - first > 1)) return 16;
        large |= past | (*pattern == '#' && value > UINT32_MAX);
        *numbers++ = value;
    }
    if (at != end) return 16;
    return large ? 17 : 0;
}

static char *put(char *to, const char *word) {
    size_t length = strlen(word);
    memcpy(to, word, length);
    return to + length;
}

static char *put_number(char *to, uint64_t number) {
    char digits[20];
    int n = 0;
    do {
        digits[n++] = (char)('0' + number % 10);
        number /= 10;
    } while (number != 0);
    while (n > 0) *to++ = digits[--n];
    return to;
}

static char *put_answer(char *to, uint32_t number) {
    if (number == 0) return put(to, "(ok)\n");
    return put(put_number(put(to, "(refused "), number), ")\n");
}

static char *put_slot(char *to, const plain_slot *slot) {
    static const char *const words[] = {"(slot (none", "(slot (real ", "(slot (dummy ", "(slot (idle "};
    to = put(to, words[slot->outcome]);
    if (slot->outcome != PLAIN_NONE) to = put_number(to, slot->id);
    if (slot->outcome == PLAIN_REAL) {
        const uint64_t fields[] = {slot->handle, slot->length, slot->padding};
        for (int i = 0; i < 3; i++) {
            *to++ = ' ';
            to = put_number(to, fields[i]);
        }
    }
    return put(to, "))\n");
}

/* The forms that begin with the line's second byte; the first that fits is carried out. */
static char *line(plain_core *core, const char *at, const char *end, char *to) {
    uint64_t n[NUMBERS]; /* none but a handle has more than 32 bits where its form fits */
    int bad = 16;
    switch (end - at > 3 ? at[1] : 0) {
    case 'a':
        if ((bad = match("(arrive # (packet @ #))", at, end, n)) == 0)
            return put_answer(to, plain_arrive(core, n[0], n[1], n[2]));
        break;
    case 't':
        if ((bad = match("(tick)", at, end, n)) == 0) {
            plain_slot slot;
            uint32_t refused = plain_tick(core, &slot);
            return refused ? put_answer(to, refused) : put_slot(to, &slot);
        }
        break;
    case 'o':
        if ((bad = match("(open # # #)", at, end, n)) == 0) return put_answer(to, plain_open(core, n[0], n[1], n[2]));
        break;
    case 'j':
        if ((bad = match("(join # (private #))", at, end, n)) == 0) return put_answer(to, plain_join(core, n[0], 2, n[1], 0));
        if (bad == 17) break;
        if ((bad = match("(join # (indifferent # #))", at, end, n)) == 0)
            return put_answer(to, plain_join(core, n[0], 1, n[1], n[2]));
        break;
    case 'c':
        if ((bad = match("(change # (private #))", at, end, n)) == 0) return put_answer(to, plain_change(core, n[0], 2, n[1], 0));
        if (bad == 17) break;
        if ((bad = match("(change # (indifferent # #))", at, end, n)) == 0)
            return put_answer(to, plain_change(core, n[0], 1, n[1], n[2]));
        break;
    case 'l':
        if ((bad = match("(load # #)", at, end, n)) == 0) return put_answer(to, plain_load(core, n[0], n[1]));
        if (bad == 17) break;
        if ((bad = match("(leave #)", at, end, n)) == 0) return put_answer(to, plain_leave(core, n[0]));
        break;
    }
    return put_answer(to, (uint32_t)bad);
}

static char *run(const char *at, const char *end) {
    static plain_core core;
    char *to = out;
    while (at < end) {
        const char *feed = memchr(at, '\n', (size_t)(end - at));
        if (feed == NULL) return put_answer(to, 16);
        to = line(&core, at, feed, to);
        at = feed + 1;
    }
    return to;
}

int main(void) {
    size_t length = 0;
    ssize_t got;
    while (length < sizeof text && (got = read(0, text + length, sizeof text - length)) > 0) length += (size_t)got;
    char *end = length > TEXT_LIMIT ? put_answer(out, 18) : run(text, text + length);
    for (char *at = out; at < end; at += got)
        if ((got = write(1, at, (size_t)(end - at))) <= 0) return 1;
    return 0;
}
