/* Running: a loop over a switch, with the hot state in locals and flat tables. It tests no bound of a table: the check of the
   table is trusted to rule such faults out.

   To see what a habit of the library costs, bench/habits builds the twin with some of them put on: MEMORY (counters live in
   memory), WIDE (values of 12 bytes), CALLED (an operation is a call), TESTED (bounds are tested). RUNS is a habit that the library
   could take on: a binding knows where its unbroken run begins. */
#include "program.h"
#include <string.h>

#ifdef MEMORY
#define HOT volatile
#else
#define HOT
#endif

#ifdef CALLED
#define INLINE __attribute__((noinline))
#else
#define INLINE inline
#endif

/* Ends the run where a test fails, which never happens. */
#ifdef TESTED
#define TEST(holds) if (!(holds)) { end = 99; break; }
#else
#define TEST(holds)
#endif

enum tag { NUMBER, BOOLEAN, LOCATION, BODY };

struct value {
    int32_t number;
    uint8_t tag;
#ifdef WIDE
    uint32_t outer;
#endif
};

/* Environment k + 1 begins with binding k; environment 0 is empty. With RUNS, `first` is the environment that is the oldest of
   those that follow one another down from this binding's. */
struct binding {
    struct value value;
    uint16_t below;
#ifdef RUNS
    uint16_t first;
#endif
};

/* The environment behind the `newer` newest bindings of `env`. */
static inline uint32_t behind(const struct binding *bindings, uint32_t bound, uint32_t env, uint32_t newer) {
    (void)bound;
#ifdef RUNS
    for (uint32_t first; newer > env - (first = bindings[env - 1].first);) {
        newer -= env - first + 1;
        env = bindings[first - 1].below;
    }
    return env - newer;
#else
    for (; newer > 0; newer--) {
#ifdef TESTED
        if (env == 0 || env > bound) return 0;
#endif
        env = bindings[env - 1].below;
    }
    return env;
#endif
}

/* Puts a binding at `bound`, before the environment `below`. */
static inline void bind(struct binding *bindings, uint32_t bound, struct value value, uint32_t below) {
    bindings[bound].value = value;
    bindings[bound].below = (uint16_t)below;
#ifdef RUNS
    bindings[bound].first = (uint16_t)(below == bound && below > 0 ? bindings[below - 1].first : bound + 1);
#endif
}

struct frame {
    uint16_t env, bound;
    uint32_t other;
};

struct strip {
    uint8_t *text;
    struct small_datum *data;
    size_t filled, room;
};

static bool put_text(struct strip *s, struct value v) {
    char line[12];
    size_t at = 12;
    line[--at] = '\n';
    if (v.tag == BOOLEAN) {
        const char *word = v.number ? "true" : "false";
        at -= strlen(word);
        memcpy(line + at, word, strlen(word));
    } else {
        uint32_t size = v.number < 0 ? 0u - (uint32_t)v.number : (uint32_t)v.number;
        do line[--at] = (char)('0' + size % 10); while (size /= 10);
        if (v.number < 0) line[--at] = '-';
    }
    if (12 - at > s->room - s->filled) return false;
    memcpy(s->text + s->filled, line + at, 12 - at);
    s->filled += 12 - at;
    return true;
}

static bool put_data(struct strip *s, struct value v) {
    if (s->filled == s->room) return false;
    s->data[s->filled++] = (struct small_datum){ v.tag, v.number };
    return true;
}

/* The end of an operation, or 0. */
static INLINE int operate(int operator, struct value *left, const struct value *right) {
    if (left->tag != NUMBER || right->tag != NUMBER) return 33;
    int32_t a = left->number, b = right->number;
    switch (operator) {
    case 1: return __builtin_add_overflow(a, b, &left->number) ? 34 : 0;
    case 2: return __builtin_sub_overflow(a, b, &left->number) ? 34 : 0;
    case 3: return __builtin_mul_overflow(a, b, &left->number) ? 34 : 0;
    case 4:
        if (b == 0) return 35;
        if (a == INT32_MIN && b == -1) return 34;
        left->number = a / b;
        return 0;
    case 5: *left = (struct value){ .number = a == b, .tag = BOOLEAN }; return 0;
    default: *left = (struct value){ .number = a < b, .tag = BOOLEAN }; return 0;
    }
}

static struct small_outcome run(const struct program *p, const struct small_sample *samples, size_t count,
                                struct strip *strip, uint32_t fuel) {
    struct value values[MAX_NODES], cells[MAX_NODES], *HOT top = values;
    struct binding bindings[MAX_NODES];
    struct frame frames[MAX_NODES], *HOT frame = frames;
    const struct word *code = p->word, *HOT at = code;
    size_t taken = 0;
    uint32_t steps = 0;
    HOT uint32_t used = 0, bound = 0, env = 0;
    int end = -1, fault = 0;
    while (steps < fuel) {
        TEST((size_t)(at - code) < p->words)
        const struct word word = *at++;
        steps++;
        switch (word.op) {
        case NUM: TEST(top - values < MAX_NODES) *top++ = (struct value){ .number = word.operand, .tag = NUMBER }; continue;
        case TRUTH: TEST(top - values < MAX_NODES) *top++ = (struct value){ .number = word.operand, .tag = BOOLEAN }; continue;
        case READ:
            TEST(top - values < MAX_NODES)
            if (taken == count) { end = 36; break; }
            if (samples[taken].code) { end = 37; fault = samples[taken++].code; break; }
            *top++ = (struct value){ .number = samples[taken++].reading, .tag = NUMBER };
            continue;
        case LOOK: {
            uint32_t e = behind(bindings, bound, env, (uint32_t)word.operand);
            TEST(e > 0 && e <= bound && top - values < MAX_NODES)
            *top++ = bindings[e - 1].value;
            continue;
        }
        case DEREF:
            TEST(top > values && (top[-1].tag != LOCATION || (uint32_t)top[-1].number < used))
            if (top[-1].tag == LOCATION) top[-1] = cells[top[-1].number];
            continue;
        case OP: TEST(top - values >= 2) top--; if ((end = operate(word.operand, top - 1, top)) != 0) break; end = -1; continue;
        case JF:
            TEST(top > values)
            top--;
            if (top->tag != BOOLEAN) { end = 32; break; }
            if (!top->number) at = code + word.operand;
            continue;
        case JMP: at = code + word.operand; continue;
        case CALL: {
            uint32_t e = behind(bindings, bound, env, (uint32_t)word.operand);
            TEST(e > 0 && e <= bound && top > values && frame - frames < MAX_NODES && bound < MAX_NODES)
            *frame++ = (struct frame){ (uint16_t)env, (uint16_t)bound, (uint32_t)(at - code) };
            at = code + bindings[e - 1].value.number;
            bind(bindings, bound++, *--top, bindings[e - 1].below);
            env = bound;
            continue;
        }
        case RET: TEST(frame > frames) frame--; env = frame->env; bound = frame->bound; at = code + frame->other; continue;
        case ISLOC: TEST(top > values) if (top[-1].tag != LOCATION) { end = 31; break; } continue;
        case STORE:
            TEST(top - values >= 2 && top[-2].tag == LOCATION && (uint32_t)top[-2].number < used)
            top -= 2;
            cells[top->number] = top[1];
            continue;
        case PUT:
            TEST(top > values)
            top--;
            if (!(strip->text ? put_text(strip, *top) : put_data(strip, *top))) { end = 38; break; }
            continue;
        case ENTER: TEST(frame - frames < MAX_NODES) *frame++ = (struct frame){ (uint16_t)env, (uint16_t)bound, used }; continue;
        case LEAVE: TEST(frame > frames) frame--; env = frame->env; bound = frame->bound; used = frame->other; continue;
        case BIND: TEST(top > values && bound < MAX_NODES) bind(bindings, bound++, *--top, env); env = bound; continue;
        case NEW:
            TEST(top > values && bound < MAX_NODES && used < MAX_NODES)
            cells[used] = *--top;
            bind(bindings, bound++, (struct value){ .number = (int32_t)used++, .tag = LOCATION }, env);
            env = bound;
            continue;
        case CLOS:
            TEST(bound < MAX_NODES)
            bind(bindings, bound++, (struct value){ .number = word.operand, .tag = BODY }, env);
            env = bound;
            continue;
        default: end = 0; break;
        }
        break;
    }
    struct small_outcome outcome = { .steps = steps, .left = count - taken, .filled = strip->filled };
    if (end >= 0) {
        outcome.ended = true;
        outcome.end = (uint8_t)end;
        outcome.code = (uint8_t)fault;
        outcome.node = at[-1].node;
    }
    return outcome;
}

static struct small_outcome perform(const uint8_t *table, size_t length, const struct small_sample *samples, size_t count,
                                    struct strip *strip, uint32_t fuel) {
    struct program p;
    struct small_checked checked = load(&p, table, length);
    if (!checked.refusal && fuel > 1000000000) checked.refusal = 10;
    if (checked.refusal)
        return (struct small_outcome){ .refusal = checked.refusal, .node = checked.node, .left = count };
    return run(&p, samples, count, strip, fuel);
}

struct small_outcome twin_run_text(const uint8_t *table, size_t table_length, const struct small_sample *samples,
                                   size_t sample_count, uint8_t *text, size_t text_length, uint32_t fuel) {
    struct strip strip = { .text = text, .room = text_length };
    return perform(table, table_length, samples, sample_count, &strip, fuel);
}

struct small_outcome twin_run_data(const uint8_t *table, size_t table_length, const struct small_sample *samples,
                                   size_t sample_count, struct small_datum *memory, size_t datum_count, uint32_t fuel) {
    struct strip strip = { .data = memory, .room = datum_count };
    return perform(table, table_length, samples, sample_count, &strip, fuel);
}
