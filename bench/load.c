/* Loading: the check of a table, and its translation, in one walk each; and sheets. */
#include "program.h"
#include <string.h>

static struct small_checked refuse(int number, size_t node) {
    return (struct small_checked){ (uint8_t)number, (uint16_t)node };
}

/* What a kind wants: tags from low to high, and of each field 0, a child's sort, a half of a number, or a name. */
enum { ZERO, COMMAND, DECLARATION, EXPRESSION, HALF, NAME };

struct form {
    uint8_t sort, low, high, field[3];
};

static const struct form forms[32] = {
    [1] = { COMMAND, 0, 0, { EXPRESSION, EXPRESSION, ZERO } },
    [2] = { COMMAND, 0, 0, { EXPRESSION, ZERO, ZERO } },
    [3] = { COMMAND, 0, 0, { EXPRESSION, COMMAND, COMMAND } },
    [4] = { COMMAND, 0, 0, { EXPRESSION, COMMAND, ZERO } },
    [5] = { COMMAND, 0, 0, { DECLARATION, COMMAND, ZERO } },
    [6] = { COMMAND, 0, 0, { COMMAND, COMMAND, ZERO } },
    [7] = { COMMAND, 0, 255, { EXPRESSION, ZERO, ZERO } },
    [10] = { DECLARATION, 0, 255, { EXPRESSION, ZERO, ZERO } },
    [11] = { DECLARATION, 0, 255, { EXPRESSION, ZERO, ZERO } },
    [12] = { DECLARATION, 0, 255, { COMMAND, ZERO, NAME } },
    [13] = { DECLARATION, 0, 255, { EXPRESSION, ZERO, NAME } },
    [14] = { DECLARATION, 0, 0, { DECLARATION, DECLARATION, ZERO } },
    [20] = { EXPRESSION, 0, 0, { ZERO, HALF, HALF } },
    [21] = { EXPRESSION, 0, 1, { ZERO, ZERO, ZERO } },
    [22] = { EXPRESSION, 0, 0, { ZERO, ZERO, ZERO } },
    [23] = { EXPRESSION, 0, 255, { ZERO, ZERO, ZERO } },
    [24] = { EXPRESSION, 1, 6, { EXPRESSION, EXPRESSION, ZERO } },
    [25] = { EXPRESSION, 0, 255, { EXPRESSION, ZERO, ZERO } },
    [26] = { EXPRESSION, 0, 0, { EXPRESSION, EXPRESSION, EXPRESSION } },
};

static bool is_child(uint8_t field) { return field >= COMMAND && field <= EXPRESSION; }

static struct small_checked check_shape(struct program *p, const uint8_t *table) {
    uint8_t parents[MAX_NODES] = { 0 };
    for (size_t n = 0; n < p->nodes; n++) {
        const uint8_t *at = table + 8 * n;
        struct node *node = &p->node[n];
        uint16_t field[3];
        memcpy(field, at + 2, 6);
        *node = (struct node){ at[0], at[1], field[0], field[1], field[2] };
        if (node->kind >= 32 || !forms[node->kind].sort) return refuse(3, n);
        const struct form *form = &forms[node->kind];
        if (node->tag < form->low || node->tag > form->high) return refuse(3, n);
        for (int i = 0; i < 3; i++) {
            if (form->field[i] == ZERO && field[i] != 0) return refuse(3, n);
            if (form->field[i] == NAME && field[i] > 255) return refuse(3, n);
        }
        for (int i = 0; i < 3; i++)
            if (is_child(form->field[i]) && field[i] >= n) return refuse(4, n);
        for (int i = 0; i < 3; i++) {
            if (!is_child(form->field[i])) continue;
            if (forms[p->node[field[i]].kind].sort != form->field[i]) return refuse(5, n);
            if (parents[field[i]] < 2) parents[field[i]]++;
        }
    }
    for (size_t n = 0; n + 1 < p->nodes; n++)
        if (parents[n] != 1) return refuse(6, n);
    if (forms[p->node[p->nodes - 1].kind].sort != COMMAND) return refuse(7, p->nodes - 1);
    return refuse(0, 0);
}

/* The walk over names and code. */
enum role { VALUE, PROCEDURE, FUNCTION };

struct walk {
    struct program *p;
    size_t visible;
    uint8_t name[MAX_NODES], role[MAX_NODES];
    struct small_checked fault;
};

static size_t emit(struct walk *w, int op, int node, int operand) {
    w->p->word[w->p->words] = (struct word){ (uint8_t)op, (uint16_t)node, operand };
    return w->p->words++;
}

static void land(struct walk *w, size_t jump) { w->p->word[jump].operand = (int32_t)w->p->words; }

static void declare(struct walk *w, int name, enum role role) {
    w->name[w->visible] = (uint8_t)name;
    w->role[w->visible++] = (uint8_t)role;
}

/* How many entries are newer than the name's, or -1 with the fault noted. */
static int newer(struct walk *w, int at, enum role wanted) {
    int name = w->p->node[at].tag;
    for (size_t i = w->visible; i-- > 0;) {
        if (w->name[i] != name) continue;
        if (w->role[i] == wanted) return (int)(w->visible - 1 - i);
        w->fault = refuse(9, at);
        return -1;
    }
    w->fault = refuse(8, at);
    return -1;
}

static bool expression(struct walk *w, int at);
static bool command(struct walk *w, int at);

static bool plain(struct walk *w, int at) {
    if (!expression(w, at)) return false;
    emit(w, DEREF, at, 0);
    return true;
}

static bool branch(struct walk *w, int at, bool (*way)(struct walk *, int)) {
    struct node n = w->p->node[at];
    if (!plain(w, n.a)) return false;
    size_t otherwise = emit(w, JF, at, 0);
    if (!way(w, n.b)) return false;
    size_t over = emit(w, JMP, at, 0);
    land(w, otherwise);
    if (!way(w, n.c)) return false;
    land(w, over);
    return true;
}

static bool call(struct walk *w, int at, enum role role) {
    int operand = newer(w, at, role);
    if (operand < 0 || !expression(w, w->p->node[at].a)) return false;
    emit(w, CALL, at, operand);
    return true;
}

static bool expression(struct walk *w, int at) {
    struct node n = w->p->node[at];
    switch (n.kind) {
    case 20: emit(w, NUM, at, (int32_t)((uint32_t)n.b | (uint32_t)n.c << 16)); return true;
    case 21: emit(w, TRUTH, at, n.tag); return true;
    case 22: emit(w, READ, at, 0); return true;
    case 23: {
        int operand = newer(w, at, VALUE);
        if (operand < 0) return false;
        emit(w, LOOK, at, operand);
        return true;
    }
    case 24:
        if (!plain(w, n.a) || !plain(w, n.b)) return false;
        emit(w, OP, at, n.tag);
        return true;
    case 25: return call(w, at, FUNCTION);
    default: return branch(w, at, expression);
    }
}

static bool routine(struct walk *w, int at, bool (*body)(struct walk *, int), enum role role) {
    struct node n = w->p->node[at];
    emit(w, CLOS, at, (int)w->p->words + 2);
    size_t over = emit(w, JMP, at, 0);
    declare(w, n.c, VALUE);
    if (!body(w, n.a)) return false;
    w->visible--;
    emit(w, RET, at, 0);
    land(w, over);
    declare(w, n.tag, role);
    return true;
}

static bool declaration(struct walk *w, int at) {
    struct node n = w->p->node[at];
    switch (n.kind) {
    case 10:
    case 11:
        if (!plain(w, n.a)) return false;
        emit(w, n.kind == 10 ? BIND : NEW, at, 0);
        declare(w, n.tag, VALUE);
        return true;
    case 12: return routine(w, at, command, PROCEDURE);
    case 13: return routine(w, at, expression, FUNCTION);
    default: return declaration(w, n.a) && declaration(w, n.b);
    }
}

static bool command(struct walk *w, int at) {
    struct node n = w->p->node[at];
    switch (n.kind) {
    case 1:
        if (!expression(w, n.a)) return false;
        emit(w, ISLOC, at, 0);
        if (!plain(w, n.b)) return false;
        emit(w, STORE, at, 0);
        return true;
    case 2:
        if (!plain(w, n.a)) return false;
        emit(w, PUT, at, 0);
        return true;
    case 3: return branch(w, at, command);
    case 4: {
        int again = (int)w->p->words;
        if (!plain(w, n.a)) return false;
        size_t over = emit(w, JF, at, 0);
        if (!command(w, n.b)) return false;
        emit(w, JMP, at, again);
        land(w, over);
        return true;
    }
    case 5: {
        size_t outside = w->visible;
        emit(w, ENTER, at, 0);
        if (!declaration(w, n.a) || !command(w, n.b)) return false;
        w->visible = outside;
        emit(w, LEAVE, at, 0);
        return true;
    }
    case 6: return command(w, n.a) && command(w, n.b);
    default: return call(w, at, PROCEDURE);
    }
}

struct small_checked load(struct program *p, const uint8_t *table, size_t length) {
    if (length == 0 || length % 8 || length > 8 * MAX_NODES) return refuse(2, 0);
    p->nodes = length / 8;
    p->words = 0;
    struct small_checked shape = check_shape(p, table);
    if (shape.refusal) return shape;
    struct walk w;
    w.p = p;
    w.visible = 0;
    int root = (int)p->nodes - 1;
    if (!command(&w, root)) return w.fault;
    emit(&w, HALT, root, 0);
    return refuse(0, 0);
}

struct small_checked twin_check(const uint8_t *table, size_t table_length) {
    struct program p;
    return load(&p, table, table_length);
}

static void put2(uint8_t *at, size_t number) {
    at[0] = (uint8_t)number;
    at[1] = (uint8_t)(number >> 8);
}

static void put_word(uint8_t *at, const struct word *word) {
    at[0] = word->op;
    at[1] = 0;
    memcpy(at + 2, &word->node, 2);
    memcpy(at + 4, &word->operand, 4);
}

static void put_header(uint8_t *at, size_t nodes, size_t words) {
    size_t code_at = 16 + 8 * nodes;
    size_t number[8] = { 1, nodes, words, 16, code_at, code_at + 8 * words, 0, 0 };
    for (int i = 0; i < 8; i++) put2(at + 2 * i, number[i]);
}

struct small_written twin_sheet(const uint8_t *table, size_t table_length, uint8_t *memory, size_t memory_length) {
    struct program p;
    struct small_checked checked = load(&p, table, table_length);
    if (checked.refusal) return (struct small_written){ checked.refusal, checked.node, 0 };
    size_t total = 16 + 8 * p.nodes + 8 * p.words;
    if (memory_length < total) return (struct small_written){ 12, 0, 0 };
    put_header(memory, p.nodes, p.words);
    memcpy(memory + 16, table, table_length);
    for (size_t i = 0; i < p.words; i++) put_word(memory + 16 + table_length + 8 * i, &p.word[i]);
    return (struct small_written){ 0, 0, total };
}

struct small_checked twin_open(const uint8_t *sheet, size_t length) {
    if (length < 16) return refuse(14, 0);
    size_t nodes = sheet[2] + 256u * sheet[3], words = sheet[4] + 256u * sheet[5];
    size_t total = 16 + 8 * nodes + 8 * words;
    uint8_t header[16];
    put_header(header, nodes, words);
    if (length != total || total > 65535 || memcmp(header, sheet, 16)) return refuse(14, 0);
    struct program p;
    struct small_checked checked = load(&p, sheet + 16, 8 * nodes);
    if (checked.refusal) return checked;
    if (words != p.words) return refuse(15, 0);
    for (size_t i = 0; i < words; i++) {
        uint8_t bytes[8];
        put_word(bytes, &p.word[i]);
        if (memcmp(bytes, sheet + 16 + 8 * nodes + 8 * i, 8)) return refuse(15, 0);
    }
    return refuse(0, 0);
}
