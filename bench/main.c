/* The same work by the library and by its twin, in turn, as times and ratios. */
#define _POSIX_C_SOURCE 199309L
#include "twin.h"
#include <stdio.h>
#include <stdlib.h>
#include <string.h>
#include <time.h>

enum { ROUNDS = 9, SAMPLES = 100000, TEXT = 1200000 };

/* A table that grows by a node at a time. */
struct table {
    size_t count;
    uint8_t bytes[4096];
};

static int node(struct table *t, int kind, int tag, int a, int b, int c) {
    if (t->count == 512) abort();
    uint8_t *at = t->bytes + 8 * t->count;
    int field[3] = { a, b, c };
    at[0] = (uint8_t)kind;
    at[1] = (uint8_t)tag;
    for (int i = 0; i < 3; i++) {
        at[2 + 2 * i] = (uint8_t)field[i];
        at[3 + 2 * i] = (uint8_t)(field[i] >> 8);
    }
    return (int)t->count++;
}

static int number(struct table *t, int32_t n) { return node(t, 20, 0, 0, n & 0xffff, (int)((uint32_t)n >> 16)); }
static int name(struct table *t, int n) { return node(t, 23, n, 0, 0, 0); }
static int operation(struct table *t, int op, int a, int b) { return node(t, 24, op, a, b, 0); }
static int assign(struct table *t, int a, int b) { return node(t, 1, 0, a, b, 0); }
static int output(struct table *t, int a) { return node(t, 2, 0, a, 0, 0); }
static int sequence(struct table *t, int a, int b) { return node(t, 6, 0, a, b, 0); }
static int variable(struct table *t, int n, int a) { return node(t, 11, n, a, 0, 0); }
static int pair(struct table *t, int a, int b) { return node(t, 14, 0, a, b, 0); }

enum { COUNTER = 1, TOTAL = 2, ROUTINE = 3, PARAMETER = 4, FIRST = 5 };

static int add(struct table *t, int n, int by) { return assign(t, name(t, n), operation(t, 1, name(t, n), by)); }

/* declarations and a loop: while 0 < counter do (body; counter := counter - 1) */
static void looping(struct table *t, int declarations, int body) {
    int less = add(t, COUNTER, number(t, -1));
    int all = body < 0 ? less : sequence(t, body, less);
    int test = operation(t, 6, number(t, 0), name(t, COUNTER));
    node(t, 5, 0, declarations, node(t, 4, 0, test, all, 0), 0);
}

static struct table countdown(int32_t turns) {
    struct table t = { 0 };
    looping(&t, variable(&t, COUNTER, number(&t, turns)), -1);
    return t;
}

/* total := routine(total), where the routine is a function that adds 1; and a procedure that adds 1 to its argument's cell */
static struct table calls(int32_t turns) {
    struct table t = { 0 };
    int variables = pair(&t, variable(&t, COUNTER, number(&t, turns)), variable(&t, TOTAL, number(&t, 0)));
    int body = operation(&t, 1, name(&t, PARAMETER), number(&t, 1));
    int function = node(&t, 13, ROUTINE, body, 0, PARAMETER);
    int procedure = node(&t, 12, FIRST, add(&t, PARAMETER, number(&t, 1)), 0, PARAMETER);
    int declarations = pair(&t, variables, pair(&t, function, procedure));
    int first = assign(&t, name(&t, TOTAL), node(&t, 25, ROUTINE, name(&t, TOTAL), 0, 0));
    int second = node(&t, 7, FIRST, name(&t, TOTAL), 0, 0);
    looping(&t, declarations, sequence(&t, first, second));
    return t;
}

/* the oldest of 100 variables is used behind all others */
static struct table deep(int32_t turns) {
    struct table t = { 0 };
    int declarations = pair(&t, variable(&t, COUNTER, number(&t, turns)), variable(&t, TOTAL, number(&t, 0)));
    for (int i = 0; i < 100; i++) declarations = pair(&t, declarations, variable(&t, FIRST + i, number(&t, i)));
    looping(&t, declarations, add(&t, TOTAL, number(&t, 1)));
    return t;
}

static struct table products(int32_t turns) {
    struct table t = { 0 };
    int declarations = pair(&t, variable(&t, COUNTER, number(&t, turns)), variable(&t, TOTAL, number(&t, 0)));
    int product = operation(&t, 3, name(&t, TOTAL), number(&t, 12345));
    looping(&t, declarations, assign(&t, name(&t, TOTAL), product));
    return t;
}

static struct table copying(int32_t turns) {
    struct table t = { 0 };
    int declarations = variable(&t, COUNTER, number(&t, turns));
    looping(&t, declarations, output(&t, node(&t, 22, 0, 0, 0, 0)));
    return t;
}

/* a block of just this many nodes: a sixteenth variables, else assignments and outputs */
static struct table sized(int nodes) {
    struct table t = { 0 };
    int variables = nodes / 16, left = nodes - 3 * variables + 1, all = -1;
    int declarations = variable(&t, 0, number(&t, 0));
    for (int i = 1; i < variables; i++) declarations = pair(&t, declarations, variable(&t, i, number(&t, i)));
    for (int i = 0; left > 0; i++) {
        int piece, size;
        if (left >= 16) {
            piece = assign(&t, name(&t, i % variables), operation(&t, 1, name(&t, i * 7 % variables), number(&t, i)));
            size = 6;
        } else if (left % 3) {
            piece = output(&t, operation(&t, 3, number(&t, i), number(&t, i)));
            size = 5;
        } else {
            piece = output(&t, number(&t, i));
            size = 3;
        }
        all = all < 0 ? piece : sequence(&t, all, piece);
        left -= size;
    }
    node(&t, 5, 0, declarations, all, 0);
    if (t.count != (size_t)nodes) abort();
    return t;
}

static double seconds(void) {
    struct timespec now;
    clock_gettime(CLOCK_MONOTONIC, &now);
    return (double)now.tv_sec + 1e-9 * (double)now.tv_nsec;
}

/* One piece of work, which answers how many units it did. */
struct work {
    const struct table *table;
    uint32_t fuel;
    int repeats;
    double (*ours)(const struct work *), (*twin)(const struct work *);
};

static struct small_sample samples[SAMPLES];
static uint8_t text[2][TEXT], sheet[2][20000];
static struct small_datum data[2][SAMPLES];
static struct small_outcome outcome[2];

#define RUN(NAME, CALL, MEMORY, ROOM, SIDE)                                                                          \
    static double NAME(const struct work *w) {                                                                       \
        double steps = 0;                                                                                            \
        for (int i = 0; i < w->repeats; i++) {                                                                       \
            outcome[SIDE] = CALL(w->table->bytes, 8 * w->table->count, samples, SAMPLES, MEMORY[SIDE], ROOM, w->fuel); \
            steps += outcome[SIDE].steps;                                                                            \
        }                                                                                                            \
        return steps;                                                                                                \
    }
RUN(ours_text, small_run_text, text, TEXT, 0)
RUN(twin_text, twin_run_text, text, TEXT, 1)
RUN(ours_data, small_run_data, data, SAMPLES, 0)
RUN(twin_data, twin_run_data, data, SAMPLES, 1)

#define CHECK(NAME, CALL, BYTES, LENGTH)                                      \
    static double NAME(const struct work *w) {                                \
        for (int i = 0; i < w->repeats; i++)                                  \
            if (CALL(BYTES, LENGTH).refusal) abort();                         \
        return w->repeats;                                                    \
    }
#define SHEET_LENGTH ((size_t)(sheet[0][10] + 256 * sheet[0][11]))
CHECK(ours_check, small_check, w->table->bytes, 8 * w->table->count)
CHECK(twin_check_all, twin_check, w->table->bytes, 8 * w->table->count)
CHECK(ours_open, small_open, sheet[0], SHEET_LENGTH)
CHECK(twin_open_all, twin_open, sheet[0], SHEET_LENGTH)

#define WRITE(NAME, CALL, SIDE)                                                                              \
    static double NAME(const struct work *w) {                                                               \
        for (int i = 0; i < w->repeats; i++)                                                                 \
            if (CALL(w->table->bytes, 8 * w->table->count, sheet[SIDE], sizeof sheet[SIDE]).refusal) abort(); \
        return w->repeats;                                                                                   \
    }
WRITE(ours_sheet, small_sheet, 0)
WRITE(twin_sheet_all, twin_sheet, 1)

/* ns per unit, the best of the rounds; the two sides take turns */
static void measure(const struct work *w, int rounds, double *ours, double *twin) {
    *ours = *twin = 1e30;
    for (int i = 0; i < rounds; i++) {
        double t0 = seconds(), units = w->ours(w), t1 = seconds(), other = w->twin(w), t2 = seconds();
        if (units != other) {
            printf("the two sides differ in their counts: %.0f and %.0f\n", units, other);
            exit(1);
        }
        double a = 1e9 * (t1 - t0) / units, b = 1e9 * (t2 - t1) / units;
        if (a < *ours) *ours = a;
        if (b < *twin) *twin = b;
    }
}

static void same(bool equal, const char *what) {
    if (!equal) {
        printf("%s: the two sides differ\n", what);
        exit(1);
    }
}

/* Compares all that the two sides answered and wrote so far, then prints a row. */
static void show(const char *what, const char *unit, struct work w, int rounds) {
    double ours, twin;
    measure(&w, rounds, &ours, &twin);
    const struct small_outcome *a = &outcome[0], *b = &outcome[1];
    same(a->refusal == b->refusal && a->ended == b->ended && a->end == b->end && a->code == b->code && a->node == b->node
         && a->steps == b->steps && a->left == b->left && a->filled == b->filled, what);
    same(!memcmp(text[0], text[1], TEXT) && !memcmp(sheet[0], sheet[1], sizeof sheet[0]), what);
    for (size_t i = 0; i < SAMPLES; i++) same(data[0][i].sort == data[1][i].sort && data[0][i].number == data[1][i].number, what);
    printf("%-34s %10.2f %10.2f %8.2f   ns per %s\n", what, ours, twin, ours / twin, unit);
    fflush(stdout);
}

/* With an argument, only the first three rows: this is what bench/habits shows. */
int main(int count, char **words) {
    (void)words;
    for (size_t i = 0; i < SAMPLES; i++) samples[i] = (struct small_sample){ 0, (int32_t)(i * 2654435761u) };
    struct table down = countdown(1 << 30), call = calls(1 << 30), far = deep(1 << 30), copy = copying(SAMPLES), large = sized(512);
    struct table times = products(1 << 30), little = sized(64);
    const uint32_t steps = 10000000;
    printf("%-34s %10s %10s %8s\n", "", "library", "twin", "ratio");
    show("countdown", "step", (struct work){ &down, steps, 1, ours_text, twin_text }, ROUNDS);
    show("calls with arguments", "step", (struct work){ &call, steps, 1, ours_text, twin_text }, ROUNDS);
    show("lookups behind 100 bindings", "step", (struct work){ &far, steps, 1, ours_text, twin_text }, ROUNDS);
    if (count > 1) return 0;
    show("products", "step", (struct work){ &times, steps, 1, ours_text, twin_text }, ROUNDS);
    show("reads and puts, text", "step", (struct work){ &copy, steps, 4, ours_text, twin_text }, ROUNDS);
    show("reads and puts, data", "step", (struct work){ &copy, steps, 4, ours_data, twin_data }, ROUNDS);
    show("load 64 nodes and make one step", "call", (struct work){ &little, 1, 2000, ours_text, twin_text }, ROUNDS);
    show("check 512 nodes", "call", (struct work){ &large, 0, 2000, ours_check, twin_check_all }, ROUNDS);
    show("write the sheet of 512 nodes", "call", (struct work){ &large, 0, 2000, ours_sheet, twin_sheet_all }, ROUNDS);
    show("open that sheet", "call", (struct work){ &large, 0, 2000, ours_open, twin_open_all }, ROUNDS);

    printf("\nsteps of a countdown: the time of a step stays\n");
    const uint32_t lengths[] = { 100000, 1000000, 10000000, 100000000 };
    for (int i = 0; i < 4; i++) {
        char what[40];
        snprintf(what, sizeof what, "  %u steps", lengths[i]);
        show(what, "step", (struct work){ &down, lengths[i], i == 0 ? 10 : 1, ours_text, twin_text }, i == 3 ? 2 : 5);
    }
    printf("\nnodes: the time of a check grows with them\n");
    for (int nodes = 64; nodes <= 512; nodes *= 2) {
        struct table t = sized(nodes);
        char what[40];
        snprintf(what, sizeof what, "  %d nodes", nodes);
        show(what, "check", (struct work){ &t, 0, 2000, ours_check, twin_check_all }, ROUNDS);
    }
    return 0;
}
