/* What the parts of the twin share: an accepted program. */
#ifndef PROGRAM_H
#define PROGRAM_H

#include "twin.h"

enum { MAX_NODES = 512, MAX_WORDS = 3 * MAX_NODES + 1 };

struct node {
    uint8_t kind, tag;
    uint16_t a, b, c;
};

enum op {
    NUM = 1, TRUTH, READ, LOOK, DEREF, OP, JF, JMP, CALL, RET, ISLOC, STORE, PUT, ENTER, LEAVE, BIND, NEW, CLOS, HALT
};

struct word {
    uint8_t op;
    uint16_t node;
    int32_t operand;
};

struct program {
    size_t nodes, words;
    struct node node[MAX_NODES];
    struct word word[MAX_WORDS];
};

/* Checks a table and translates it. */
struct small_checked load(struct program *program, const uint8_t *table, size_t length);

#endif
