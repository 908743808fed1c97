/* The exports, called as a host calls them: every refusal, lent bytes and words with guards around them, NULL with 0,
 * answers that do not fit. The tables are the pond's of document 01, written down by hand.
 */
#include "planner.h"

#include <stdio.h>
#include <stdlib.h>
#include <string.h>

#define GUARD 32
#define MARK 0xA5
#define ROOM 1024

static unsigned checks;

static void expect(int holds, const char *what)
{
    checks++;
    if (!holds) {
        printf("exports: failed: %s\n", what);
        exit(1);
    }
}

/* ---- lent bytes: marked, with marks on both sides */

typedef struct lent {
    uint8_t bytes[GUARD + ROOM + GUARD];
    size_t len;
} lent;

static uint8_t *lend(lent *l, size_t len)
{
    memset(l->bytes, MARK, sizeof l->bytes);
    l->len = len;
    return l->bytes + GUARD;
}

/* All marks but those from `from` on, `count` of them, are as they were. */
static int marked_beside(const lent *l, size_t from, size_t count)
{
    for (size_t i = 0; i < sizeof l->bytes; i++)
        if ((i < GUARD + from || i >= GUARD + from + count) && l->bytes[i] != MARK)
            return 0;
    return 1;
}

static int holds_bytes(const lent *l, size_t from, const void *bytes, size_t count)
{
    return memcmp(l->bytes + GUARD + from, bytes, count) == 0;
}

static void put(uint8_t *to, uint64_t number, int count)
{
    for (int i = 0; i < count; i++)
        to[i] = (uint8_t)(number >> 8 * i);
}

/* ---- the pond */

typedef struct model {
    uint8_t bytes[ROOM];
    size_t len;
} model;

static void command(model *m, const char *bytes, size_t count)
{
    memcpy(m->bytes + m->len, bytes, count);
    m->len += count;
}

/* Bytes of a leaf or a test: its code, eight coefficients and the constant. */
#define LINEAR_BYTES ((size_t)37)
#define SITE_BYTES ((size_t)6)
/* A name with its code and its action, and the end command behind it. */
#define NAME_AND_END ((size_t)20)

/* A leaf or a test of so many bytes. */
static size_t linear_at(uint8_t *at, size_t bytes, uint8_t code, int32_t l1, int32_t constant)
{
    memset(at, 0, bytes);
    at[0] = code;
    put(at + 1, (uint32_t)l1, 4);
    put(at + bytes - 4, (uint32_t)constant, 4);
    return bytes;
}

static void linear(model *m, uint8_t code, int32_t l1, int32_t constant)
{
    m->len += linear_at(m->bytes + m->len, LINEAR_BYTES, code, l1, constant);
}

/* Action 1 has the name, action 2 has none. */
static model pond(const char *name)
{
    model m = {{0}, 0};
    command(&m, "\x02\x01\x00\x02\x00\x01", SITE_BYTES);
    linear(&m, 0x10, 0, 0);
    command(&m, "\x20\x01\x00", 3);
    linear(&m, 0x10, 1, 0);
    command(&m, "\x22\x01\x00\x01", 4);
    linear(&m, 0x10, 0, 50);
    linear(&m, 0x10, 0, -1);
    linear(&m, 0x12, -1, 10);
    command(&m, "\x20\x02\x00", 3);
    linear(&m, 0x10, 1, -10);
    linear(&m, 0x10, 1, 0);
    linear(&m, 0x12, -1, 10);
    command(&m, "\x22\x02\x00\x01\x30\x01\x00", 7);
    command(&m, name, 16);
    command(&m, "\xff", 1);
    return m;
}

/* The pond, with its level as the end worth. */
static model pond_ending(void)
{
    model m = pond("Hold            ");
    m.len--;
    linear(&m, 0x10, 1, 0);
    command(&m, "\x23\xff", 2);
    return m;
}

/* One action that does nothing: the reward is 0, the level stays, and at the end it is worth l1 times the level. */
static model still(int32_t l1)
{
    model m = {{0}, 0};
    command(&m, "\x02\x01\x00\x01\x00\x01", SITE_BYTES);
    linear(&m, 0x10, 0, 0);
    command(&m, "\x20\x01\x00", 3);
    linear(&m, 0x10, 1, 0);
    command(&m, "\x22\x01\x00\x01", 4);
    linear(&m, 0x10, l1, 0);
    command(&m, "\x23\xff", 2);
    return m;
}

/* Words of a node, and where its numbers and branches are. */
enum { NODE = 12, L1 = 1, CONSTANT = 9, HIGH = 10, LOW = 11 };

static const int64_t NODES[] = {
    0, 0,  0, 0, 0, 0, 0, 0, 0, 50,  2, 0, /* 1 */
    0, 0,  0, 0, 0, 0, 0, 0, 0, 0,   1, 0, /* 2 */
    2, -1, 0, 0, 0, 0, 0, 0, 0, 10,  1, 2, /* 3 */
    0, 0,  0, 0, 0, 0, 0, 0, 0, 100, 2, 0, /* 4 */
    0, 0,  0, 0, 0, 0, 0, 0, 0, 50,  1, 0, /* 5 */
    2, -1, 0, 0, 0, 0, 0, 0, 0, 20,  4, 5, /* 6 */
    2, -1, 0, 0, 0, 0, 0, 0, 0, 10,  6, 2, /* 7 */
};
#define WORDS (sizeof NODES / sizeof *NODES)
static const uint32_t STAGES[8] = {3, 7};
static const char LISTING[] = "PLAN 1 0 2 1 2\n"
                              "N 1 V 0 0 0 0 0 0 0 0 50 2\nN 2 V 0 0 0 0 0 0 0 0 0 1\nN 3 L -1 0 0 0 0 0 0 0 10 1 2\n"
                              "N 4 V 0 0 0 0 0 0 0 0 100 2\nN 5 V 0 0 0 0 0 0 0 0 50 1\n"
                              "N 6 L -1 0 0 0 0 0 0 0 20 4 5\nN 7 L -1 0 0 0 0 0 0 0 10 6 2\n"
                              "S 1 3\nS 2 7\n";
#define LISTING_BYTES (sizeof LISTING - 1)

/* What a call is given; a test changes one thing of the pond's. */
typedef struct call {
    model m;
    int64_t nodes[WORDS];
    size_t node_words;
    uint32_t stages[8];
    size_t stage_words;
    uint32_t steps;
    struct planner_state state;
} call;

static call usual(void)
{
    call c = {pond("Hold            "), {0}, WORDS, {0}, 8, 2, {0, {20}, 1}};
    memcpy(c.nodes, NODES, sizeof NODES);
    memcpy(c.stages, STAGES, sizeof STAGES);
    return c;
}

/* ---- value */

static uint32_t value(const call *c, uint8_t *out, size_t out_len)
{
    return planner_value_at(c->m.bytes, c->m.len, c->node_words == 0 ? NULL : c->nodes, c->node_words,
                            c->stage_words == 0 ? NULL : c->stages, c->stage_words, c->steps, &c->state, out, out_len);
}

/* The whole answer in a longer slice, in one of just its length, and in all that are too short. */
static void value_is(const call *given, uint32_t number, uint32_t place, uint32_t action, uint64_t low, int64_t high)
{
    call c = *given;
    lent out;
    uint8_t answer[PLANNER_VALUE_BYTES];
    put(answer, place, 4);
    put(answer + 4, action, 4);
    put(answer + 8, low, 8);
    put(answer + 16, (uint64_t)high, 8);
    for (size_t len = 0; len <= PLANNER_VALUE_BYTES + 3; len++) {
        uint8_t *start = lend(&out, len);
        int fits = len >= PLANNER_VALUE_BYTES;
        uint32_t r = value(&c, len == 0 ? NULL : start, len);
        expect(r == (fits || number != 0 ? number : 17), "number of a value");
        expect(marked_beside(&out, 0, fits ? sizeof answer : 0), "no byte beside a value's answer is written");
        expect(!fits || holds_bytes(&out, 0, answer, sizeof answer), "a value's answer");
        expect(memcmp(&c, given, sizeof c) == 0, "a value leaves model and tables as they are");
    }
}

static void value_refused(const call *c, uint32_t number, uint32_t place)
{
    value_is(c, number, place, 0, 0, 0);
}

static void starred(uint32_t steps, int32_t level, int32_t d, uint64_t low, uint32_t action)
{
    call c = usual();
    c.steps = steps;
    c.state.level[0] = level;
    c.state.denominator = d;
    value_is(&c, 0, 0, action, low, 0);
}

static void values_read(void)
{
    starred(2, 20, 1, 100, 2);
    starred(2, 30, 1, 100, 2);
    starred(2, 39, 2, 100, 1);
    starred(2, 10, 1, 50, 1);
    starred(2, 9, 1, 0, 1);
    starred(2, -5, 1, 0, 1);
    starred(1, 10, 1, 50, 2);
    starred(1, 19, 2, 0, 1);
    /* Both words, and a sign: a leaf (2^62 - 1) L1 - 1 in place of node 4. */
    call c = usual();
    c.nodes[3 * NODE + L1] = ((int64_t)1 << 62) - 1;
    c.nodes[3 * NODE + CONSTANT] = -1;
    c.state.level[0] = INT32_MAX;
    value_is(&c, 0, 0, 2, ((uint64_t)3 << 62) - ((uint64_t)1 << 31), ((int64_t)1 << 29) - 1);
    c.nodes[3 * NODE + L1] = -c.nodes[3 * NODE + L1];
    value_is(&c, 0, 0, 2, ((uint64_t)1 << 62) + ((uint64_t)1 << 31) - 2, -((int64_t)1 << 29));
    c.nodes[3 * NODE + L1] = 0;
    value_is(&c, 0, 0, 2, UINT64_MAX, -1);
}

static void values_of_states_refused(void)
{
    call c = usual();
    c.state.denominator = 0;
    value_refused(&c, 13, 0);
    c = usual();
    c.state.mask = 1;
    value_refused(&c, 13, 0);
    c = usual();
    c.state.level[1] = -1;
    value_refused(&c, 13, 0);
    c = usual();
    c.state.level[7] = 1;
    value_refused(&c, 13, 0);
    c.stages[1] = 0;
    value_refused(&c, 13, 0);
    c.state.level[7] = 0;
    c.nodes[6 * NODE] = 3;
    value_refused(&c, 15, 0);
    c = usual();
    c.steps = 3;
    value_refused(&c, 15, 0);
}

/* Node 7 is met first; each word of it is put wrong in turn. */
static void values_of_nodes_refused(void)
{
    static const int64_t beyond = (int64_t)1 << 62;
    static const int64_t wrong[NODE] = {3, beyond, INT64_MIN, INT64_MAX, -beyond, beyond, INT64_MIN, -beyond, INT64_MAX,
                                        INT64_MIN, 7, 0};
    for (int i = 0; i < NODE; i++) {
        call c = usual();
        c.nodes[6 * NODE + i] = wrong[i];
        value_refused(&c, 14, 0);
    }
    call c = usual();
    c.node_words = WORDS - 1;
    value_refused(&c, 14, 0);
    c.node_words = 0;
    value_refused(&c, 14, 0);
    c = usual();
    c.stages[1] = UINT32_MAX;
    value_refused(&c, 14, 0);
}

static void values_early_refused(void)
{
    call c = usual();
    c.stage_words = 7;
    c.steps = 0;
    value_refused(&c, 10, 0);
    c.stage_words = 0;
    value_refused(&c, 10, 0);
    c.stage_words = 8;
    c.m.bytes[0] = 1;
    value_refused(&c, 9, 0);
    c.steps = 9;
    value_refused(&c, 9, 0);
    c.steps = 2;
    c.state.denominator = 0;
    value_refused(&c, 3, 0);
}

/* ---- plain working */

static void worth_at(const model *m, uint32_t steps, struct planner_state state, uint32_t number, uint32_t place,
                     uint32_t action, uint64_t low, int64_t high)
{
    model kept = *m;
    lent out;
    uint8_t answer[PLANNER_WORTH_BYTES];
    put(answer, place, 4);
    put(answer + 4, action, 4);
    put(answer + 8, low, 8);
    put(answer + 16, (uint64_t)high, 8);
    for (size_t len = 0; len <= PLANNER_WORTH_BYTES + 3; len++) {
        uint8_t *start = lend(&out, len);
        int fits = len >= PLANNER_WORTH_BYTES, yields = number == 0 || number == 11;
        uint32_t r = planner_worth_at(kept.len == 0 ? NULL : kept.bytes, kept.len, steps, &state,
                                      len == 0 ? NULL : start, len);
        expect(r == (fits || !yields ? number : 17), "number of a worth");
        expect(marked_beside(&out, 0, fits ? sizeof answer : 0), "no byte beside a worth's answer is written");
        expect(!fits || holds_bytes(&out, 0, answer, sizeof answer), "a worth's answer");
        expect(memcmp(&kept, m, sizeof kept) == 0, "a worth leaves the model as it is");
    }
}

static void worth_is(const model *m, uint32_t steps, int32_t level, int32_t d, uint32_t number, uint32_t place,
                     uint32_t action, uint64_t low, int64_t high)
{
    struct planner_state state = {0, {level}, d};
    worth_at(m, steps, state, number, place, action, low, high);
}

static void worths(void)
{
    model m = pond("Hold            ");
    worth_is(&m, 2, 20, 1, 0, 0, 2, 100, 0);
    worth_is(&m, 2, 39, 2, 0, 0, 1, 100, 0);
    worth_is(&m, 0, 20, 0, 9, 0, 0, 0, 0);
    worth_is(&m, 9, 20, 0, 9, 0, 0, 0, 0);
    worth_is(&m, 2, 20, 0, 13, 0, 0, 0, 0);
    /* What is left counts: 10 is let out for 50 more, 9 and 19/2 stay. */
    m = pond_ending();
    worth_is(&m, 1, 10, 1, 0, 0, 2, 50, 0);
    worth_is(&m, 1, 9, 1, 0, 0, 1, 9, 0);
    worth_is(&m, 1, 19, 2, 0, 0, 1, 19, 0);
    worth_is(&m, 2, 25, 1, 0, 0, 2, 105, 0);
    worth_is(&m, 2, -5, 1, 0, 0, 1, (uint64_t)-5, -1);
    worth_is(&m, 0, 20, 1, 9, 0, 0, 0, 0);
    /* 2^62 is the first end worth beyond the limits. */
    m = still(INT32_MIN);
    worth_is(&m, 1, INT32_MIN + 1, 1, 0, 0, 1, ((uint64_t)1 << 62) - ((uint64_t)1 << 31), 0);
    worth_is(&m, 1, INT32_MIN, 1, 11, 0, 0, 0, 0);
    worth_is(&m, 8, INT32_MIN, 1, 11, 0, 0, 0, 0);
}

/* ---- whether an action is sure */

static void sure_at(const model *m, uint32_t steps, struct planner_state state, int32_t e, uint32_t number, uint32_t place,
                    uint32_t sure)
{
    model kept = *m;
    lent out;
    uint8_t answer[PLANNER_SURE_BYTES];
    put(answer, place, 4);
    put(answer + 4, sure, 4);
    for (size_t len = 0; len <= PLANNER_SURE_BYTES + 3; len++) {
        uint8_t *start = lend(&out, len);
        int fits = len >= PLANNER_SURE_BYTES, yields = number == 0 || number == 11;
        uint32_t r = planner_sure_at(kept.len == 0 ? NULL : kept.bytes, kept.len, steps, &state, e,
                                     len == 0 ? NULL : start, len);
        expect(r == (fits || !yields ? number : 17), "number of sure");
        expect(marked_beside(&out, 0, fits ? sizeof answer : 0), "no byte beside the answer of sure is written");
        expect(!fits || holds_bytes(&out, 0, answer, sizeof answer), "the answer of sure");
        expect(memcmp(&kept, m, sizeof kept) == 0, "sure leaves the model as it is");
    }
}

static void sure_is(const model *m, uint32_t steps, int32_t level, int32_t d, int32_t e, uint32_t number, uint32_t sure)
{
    struct planner_state state = {0, {level}, d};
    sure_at(m, steps, state, e, number, 0, sure);
}

static void sures(void)
{
    model m = pond("Hold            ");
    /* At 20 releasing leads by 50, which is more than 2 * 2 * 12 and less than 2 * 2 * 13. */
    sure_is(&m, 2, 20, 1, 12, 0, 1);
    sure_is(&m, 2, 20, 1, 13, 0, 0);
    sure_is(&m, 2, 40, 2, 12, 0, 1);
    sure_is(&m, 2, 40, 2, 13, 0, 0);
    sure_is(&m, 2, 20, 1, 0, 0, 1);
    sure_is(&m, 2, 20, 1, INT32_MAX, 0, 0);
    /* Holding leads by 1 below 10; with two steps left at 10 it does not matter when the water is let out. */
    sure_is(&m, 1, 9, 1, 0, 0, 1);
    sure_is(&m, 1, 9, 1, 1, 0, 0);
    sure_is(&m, 2, 10, 1, 0, 0, 0);
    /* 13 before 23, 9 before both. */
    sure_is(&m, 2, 20, 1, -1, 23, 0);
    sure_is(&m, 2, 20, 1, INT32_MIN, 23, 0);
    sure_is(&m, 2, 20, 0, -1, 13, 0);
    sure_is(&m, 0, 20, 0, -1, 9, 0);
    sure_is(&m, 9, 20, 0, -1, 9, 0);
    /* One action alone is sure for every change; 23 before 11. */
    m = still(INT32_MIN);
    sure_is(&m, 1, INT32_MIN + 1, 1, INT32_MAX, 0, 1);
    sure_is(&m, 1, INT32_MIN, 1, INT32_MAX, 11, 0);
    sure_is(&m, 1, INT32_MIN, 1, -1, 23, 0);
}

/* ---- models at fault, by every export that takes one */

static void name_is(const model *m, uint32_t action, uint32_t number, uint32_t place, const char *name);
static void listing_is(const call *given, uint32_t number, uint32_t place);
static void find_is(const model *m, const char *name, uint32_t number, uint32_t place, uint32_t action);
static void page_is(const call *given, uint32_t number, uint32_t place);
static void to_old_refused(const model *m, uint32_t number, uint32_t place);
static void model_unsolved(const model *m, uint32_t number, uint32_t place);
static void model_unpruned(const model *m, uint32_t number, uint32_t place);

static void model_refused(const model *m, uint32_t number, uint32_t place)
{
    call c = usual();
    c.m = *m;
    c.state.denominator = 0;
    planner_judged judged = planner_validate(m->len == 0 ? NULL : m->bytes, m->len);
    expect(judged.number == number && judged.place == place, "a model judged");
    value_refused(&c, number, place);
    worth_is(m, 2, 20, 0, number, place, 0, 0, 0);
    struct planner_state refused = {0, {20}, 0};
    sure_at(m, 2, refused, -1, number, place, 0);
    name_is(m, 0, number, place, "");
    find_is(m, "", number, place, 0);
    listing_is(&c, number, place);
    page_is(&c, number, place);
    to_old_refused(m, number, place);
    model_unsolved(m, number, place);
    model_unpruned(m, number, place);
}

static void models_refused(void)
{
    model none = {{0}, 0};
    model_refused(&none, 2, 0);
    model m = pond("Hold            ");
    size_t end = m.len - 1;
    m.bytes[0] = 0xFF;
    model_refused(&m, 1, 0);
    m.bytes[0] = 0x77;
    model_refused(&m, 3, 0);
    m.bytes[0] = 1; /* the site of old models */
    model_refused(&m, 3, 0);
    m.bytes[0] = 2;
    m.bytes[1] = 9;
    model_refused(&m, 4, 0);
    m.bytes[1] = 1;
    m.bytes[3] = 0x91; /* 401 actions */
    m.bytes[4] = 1;
    model_refused(&m, 4, 0);
    m = pond("Hold            ");
    m.bytes[SITE_BYTES + LINEAR_BYTES + 2] = 1; /* the reward of action 257 */
    model_refused(&m, 4, SITE_BYTES + LINEAR_BYTES);
    m = pond("Hold            ");
    m.bytes[SITE_BYTES] = 0x12;
    m.bytes[SITE_BYTES + 1] = 1;
    model_refused(&m, 5, SITE_BYTES);
    m.bytes[SITE_BYTES + 29] = 1; /* a coefficient of L8 */
    model_refused(&m, 4, SITE_BYTES);
    m = pond("Hold           \x7f");
    model_refused(&m, 4, (uint32_t)(end - 19));
    m = pond("Hold            ");
    m.len = end;
    model_refused(&m, 2, (uint32_t)end);
    command(&m, "\x10", 1);
    model_refused(&m, 2, (uint32_t)end);
    m.len = end;
    command(&m, "\x30\x01\x00" "Again           \xff", NAME_AND_END);
    model_refused(&m, 6, (uint32_t)end);
    m.len = end;
    linear(&m, 0x10, 0, 0);
    command(&m, "\xff", 1);
    model_refused(&m, 7, (uint32_t)(end + LINEAR_BYTES));
    m = pond("Hold            ");
    command(&m, "\xff", 1);
    model_refused(&m, 8, (uint32_t)end + 1);
}

static void end_worths_refused(void)
{
    model m = pond_ending();
    planner_judged judged = planner_validate(m.bytes, m.len);
    expect(judged.number == 0 && judged.place == 0, "an end worth");
    uint32_t end = (uint32_t)m.len - 1;
    m.bytes[0] = 0x23;
    model_refused(&m, 1, 0);
    m.bytes[0] = 2;
    m.len = end;
    model_refused(&m, 2, end);
    command(&m, "\x23\xff", 2);
    model_refused(&m, 5, end);
    m.len = end;
    linear(&m, 0x10, 0, 0);
    command(&m, "\x23\xff", 2);
    model_refused(&m, 6, (uint32_t)(end + LINEAR_BYTES));
    /* A next-step condition in it. */
    m.len = 0;
    command(&m, "\x02\x01\x01\x01\x00\x0a", SITE_BYTES);
    linear(&m, 0x10, 1, 0);
    linear(&m, 0x10, 0, 0);
    command(&m, "\x11\x05\x23\xff", 4);
    uint32_t condition = (uint32_t)(SITE_BYTES + 2 * LINEAR_BYTES);
    model_refused(&m, 4, condition + 2);
    m.bytes[condition + 1] = 1;
    model_refused(&m, 7, condition + 3);
}

/* A model of 262,145 bytes is refused before it is read; one byte less is judged. */
static void long_models_refused(void)
{
    const size_t most = PLANNER_MODEL_BYTES_MOST, longer = most + 1;
    uint8_t *bytes = calloc(longer, 1), out[PLANNER_NAME_BYTES], zeros[PLANNER_NAME_BYTES] = {0};
    call c = usual();
    struct planner_state none = {0, {0}, 0};
    expect(bytes != NULL && most == 262144, "memory");
    expect(planner_name(bytes, longer, 1, out, sizeof out) == 10, "a long model");
    expect(memcmp(out, zeros, sizeof out) == 0, "a long model's name");
    expect(planner_value_at(bytes, longer, c.nodes, WORDS, c.stages, 8, 0, &none, out, sizeof out) == 10,
           "a long model's value");
    expect(planner_worth_at(bytes, longer, 0, &none, out, sizeof out) == 10, "a long model's worth");
    expect(planner_listing(bytes, longer, 0, c.nodes, WORDS, c.stages, 8, NULL, 0, 1, out, sizeof out) == 10,
           "a long model's listing");
    expect(planner_find(bytes, longer, NULL, 0, out, sizeof out) == 10, "a name in a long model");
    expect(planner_page_at(bytes, longer, 0, c.nodes, WORDS, c.stages, 8, &none, NULL, 0, 1, out, sizeof out) == 10,
           "a long model's page");
    expect(planner_to_old(bytes, longer, NULL, 0, out, sizeof out) == 10, "a long model in the old form");
    expect(planner_solve(bytes, longer, 0, NULL, 0, NULL, 0, NULL, 0, NULL, 0, out, sizeof out) == 10, "a long model solved");
    expect(planner_prune(bytes, longer, c.nodes, WORDS, c.stages, 8, NULL, 0, 0, NULL, 0, NULL, 0, out, sizeof out) == 10,
           "a path in a long model's tables");
    planner_judged judged = planner_validate(bytes, longer);
    expect(judged.number == 10 && judged.place == 0, "a long model judged");
    expect(planner_name(bytes, most, 1, out, sizeof out) == 3, "a model of the greatest length");
    judged = planner_validate(bytes, most);
    expect(judged.number == 3 && judged.place == 0, "a model of the greatest length judged");
    /* A place beyond 16 bits: a chain of tests, and then a byte 0, which is no command. */
    size_t at = SITE_BYTES + LINEAR_BYTES;
    memcpy(bytes, "\x02\x01\x00\x01\x00\x01\x10", SITE_BYTES + 1);
    while (at <= 65535) {
        bytes[at] = 0x10;
        memcpy(bytes + at + LINEAR_BYTES, "\x12\x01", 2);
        at += 2 * LINEAR_BYTES;
    }
    judged = planner_validate(bytes, most);
    expect(judged.number == 3 && judged.place == at, "a place beyond 16 bits");
    put(zeros, at, 4);
    expect(planner_name(bytes, most, 1, out, sizeof out) == 3 && memcmp(out, zeros, sizeof out) == 0,
           "a place beyond 16 bits in an answer");
    free(bytes);
}

/* ---- name */

static void name_is(const model *m, uint32_t action, uint32_t number, uint32_t place, const char *name)
{
    model kept = *m;
    lent out;
    uint8_t answer[PLANNER_NAME_BYTES] = {0};
    put(answer, place, 4);
    put(answer + 4, strlen(name), 4);
    memcpy(answer + 8, name, strlen(name));
    for (size_t len = 0; len <= PLANNER_NAME_BYTES + 3; len++) {
        uint8_t *start = lend(&out, len);
        int fits = len >= PLANNER_NAME_BYTES;
        uint32_t r = planner_name(kept.len == 0 ? NULL : kept.bytes, kept.len, action, len == 0 ? NULL : start, len);
        expect(r == (fits || number != 0 ? number : 17), "number of a name");
        expect(marked_beside(&out, 0, fits ? sizeof answer : 0), "no byte beside a name's answer is written");
        expect(!fits || holds_bytes(&out, 0, answer, sizeof answer), "a name's answer");
        expect(memcmp(&kept, m, sizeof kept) == 0, "a name leaves the model as it is");
    }
}

static void names(void)
{
    model m = pond("Hold            ");
    name_is(&m, 1, 0, 0, "Hold");
    name_is(&m, 2, 0, 0, "");
    name_is(&m, 0, 16, 0, "");
    name_is(&m, 3, 16, 0, "");
    name_is(&m, UINT32_MAX, 16, 0, "");
    m = pond("sixteen letters!");
    name_is(&m, 1, 0, 0, "sixteen letters!");
    m = pond("                ");
    name_is(&m, 1, 0, 0, "");
    m = pond("  two words     ");
    name_is(&m, 1, 0, 0, "  two words");
}

/* ---- find */

static void find_is(const model *m, const char *name, uint32_t number, uint32_t place, uint32_t action)
{
    model kept = *m;
    size_t name_len = strlen(name);
    uint8_t sent[64];
    lent out;
    uint8_t answer[PLANNER_FIND_BYTES];
    put(answer, place, 4);
    put(answer + 4, action, 4);
    for (size_t len = 0; len <= PLANNER_FIND_BYTES + 3; len++) {
        uint8_t *start = lend(&out, len);
        int fits = len >= PLANNER_FIND_BYTES;
        memcpy(sent, name, name_len);
        uint32_t r = planner_find(kept.len == 0 ? NULL : kept.bytes, kept.len, name_len == 0 ? NULL : sent, name_len,
                                  len == 0 ? NULL : start, len);
        expect(r == (fits || number != 0 ? number : 17), "number of an action found");
        expect(marked_beside(&out, 0, fits ? sizeof answer : 0), "no byte beside a found action's answer is written");
        expect(!fits || holds_bytes(&out, 0, answer, sizeof answer), "a found action's answer");
        expect(memcmp(&kept, m, sizeof kept) == 0, "finding leaves the model as it is");
        expect(memcmp(sent, name, name_len) == 0, "finding leaves the name as it is");
    }
}

static void finds(void)
{
    model m = pond("Hold            ");
    find_is(&m, "Hold", 0, 0, 1);
    find_is(&m, "Hold   ", 0, 0, 1);
    find_is(&m, "Hold                    ", 0, 0, 1);
    find_is(&m, " Hold", 18, 0, 0);
    find_is(&m, "hold", 18, 0, 0);
    find_is(&m, "Hol", 18, 0, 0);
    find_is(&m, "Hold Hold Hold Hold", 18, 0, 0);
    find_is(&m, "Hold\x7f", 18, 0, 0);
    find_is(&m, "", 18, 0, 0);
    find_is(&m, "                    ", 18, 0, 0);
    m.len--;
    command(&m, "\x30\x02\x00" "  two words     \xff", NAME_AND_END);
    find_is(&m, "  two words ", 0, 0, 2);
    find_is(&m, "two words", 18, 0, 0);
    m.len -= NAME_AND_END;
    command(&m, "\x30\x02\x00" "Hold            \xff", NAME_AND_END);
    find_is(&m, "Hold ", 19, 0, 0);
    m = pond("                ");
    find_is(&m, "", 18, 0, 0);
    m = pond("sixteen letters!");
    find_is(&m, "sixteen letters!", 0, 0, 1);
    find_is(&m, "sixteen letters!!", 18, 0, 0);
}

/* ---- listing */

static uint32_t list(const call *c, uint8_t *text, size_t text_len, size_t place, uint8_t *out, size_t out_len)
{
    return planner_listing(c->m.len == 0 ? NULL : c->m.bytes, c->m.len, c->steps, c->node_words == 0 ? NULL : c->nodes,
                           c->node_words, c->stage_words == 0 ? NULL : c->stages, c->stage_words, text, text_len, place,
                           out, out_len);
}

/* The plan from `place` of a text of `text_len` bytes on, with every length of `out`. */
static void lines_at(const call *given, size_t text_len, size_t place, uint32_t number, uint32_t at, const char *lines)
{
    call c = *given;
    lent out, text;
    uint8_t answer[PLANNER_LISTING_BYTES];
    size_t size = number == 0 ? strlen(lines) : 0;
    put(answer, at, 4);
    put(answer + 4, size, 4);
    for (size_t len = 0; len <= PLANNER_LISTING_BYTES + 3; len++) {
        uint8_t *out_start = lend(&out, len), *text_start = lend(&text, text_len);
        int fits = len >= PLANNER_LISTING_BYTES;
        uint32_t r = list(&c, text_len == 0 ? NULL : text_start, text_len, place, len == 0 ? NULL : out_start, len);
        expect(r == (fits || number != 0 ? number : 17), "number of a listing");
        expect(marked_beside(&out, 0, fits ? sizeof answer : 0), "no byte beside a listing's answer is written");
        expect(!fits || holds_bytes(&out, 0, answer, sizeof answer), "a listing's answer");
        expect(marked_beside(&text, number == 0 ? place : 0, fits ? size : 0), "no byte beside the text is written");
        expect(!fits || number != 0 || holds_bytes(&text, place, lines, size), "the text");
        expect(memcmp(&c, given, sizeof c) == 0, "a listing leaves model and tables as they are");
    }
}

static void listing_at(const call *given, size_t text_len, size_t place, uint32_t number, uint32_t at)
{
    lines_at(given, text_len, place, number, at, LISTING);
}

static void listing_is(const call *given, uint32_t number, uint32_t place)
{
    listing_at(given, ROOM, 0, number, place);
    listing_at(given, 0, 1, number, place);
}

static void listings_written(void)
{
    call c = usual();
    listing_at(&c, ROOM, 0, 0, 0);
    listing_at(&c, ROOM, 17, 0, 0);
    listing_at(&c, LISTING_BYTES, 0, 0, 0);
    listing_at(&c, LISTING_BYTES + 5, 5, 0, 0);
    listing_at(&c, LISTING_BYTES - 1, 0, 17, 0);
    listing_at(&c, LISTING_BYTES + 5, 6, 17, 0);
    listing_at(&c, 0, 0, 17, 0);
    listing_at(&c, 0, 1, 17, 0);
    listing_at(&c, ROOM, ROOM + 1, 17, 0);
    listing_at(&c, ROOM, SIZE_MAX, 17, 0);
}

static void listings_refused(void)
{
    call c = usual();
    c.stage_words = 0;
    c.steps = 0;
    listing_is(&c, 10, 0);
    c.stage_words = 8;
    listing_is(&c, 9, 0);
    c.steps = 9;
    listing_is(&c, 9, 0);
    c.steps = 3;
    c.nodes[0] = -1;
    listing_is(&c, 15, 0);
    c.steps = 2;
    listing_is(&c, 14, 0);
    c = usual();
    c.node_words = WORDS - 1;
    listing_is(&c, 14, 0);
    c.node_words = 0;
    listing_is(&c, 14, 0);
    c = usual();
    c.stages[1] = UINT32_MAX;
    listing_is(&c, 14, 0);
}

/* ---- page */

static uint32_t page(const call *c, uint8_t *text, size_t text_len, size_t place, uint8_t *out, size_t out_len)
{
    return planner_page_at(c->m.len == 0 ? NULL : c->m.bytes, c->m.len, c->steps, c->node_words == 0 ? NULL : c->nodes,
                           c->node_words, c->stage_words == 0 ? NULL : c->stages, c->stage_words, &c->state, text,
                           text_len, place, out, out_len);
}

/* The page from `place` of a text of `text_len` bytes on, with every length of `out`. */
static void page_at(const call *given, size_t text_len, size_t place, uint32_t number, uint32_t at, const char *lines)
{
    call c = *given;
    lent out, text;
    uint8_t answer[PLANNER_PAGE_BYTES];
    size_t size = strlen(lines);
    put(answer, at, 4);
    put(answer + 4, size, 4);
    for (size_t len = 0; len <= PLANNER_PAGE_BYTES + 3; len++) {
        uint8_t *out_start = lend(&out, len), *text_start = lend(&text, text_len);
        int fits = len >= PLANNER_PAGE_BYTES;
        uint32_t r = page(&c, text_len == 0 ? NULL : text_start, text_len, place, len == 0 ? NULL : out_start, len);
        expect(r == (fits || number != 0 ? number : 17), "number of a page");
        expect(marked_beside(&out, 0, fits ? sizeof answer : 0), "no byte beside a page's answer is written");
        expect(!fits || holds_bytes(&out, 0, answer, sizeof answer), "a page's answer");
        expect(marked_beside(&text, number == 0 ? place : 0, fits ? size : 0), "no byte beside the page is written");
        expect(!fits || number != 0 || holds_bytes(&text, place, lines, size), "the page");
        expect(memcmp(&c, given, sizeof c) == 0, "a page leaves model and tables as they are");
    }
}

static void page_is(const call *given, uint32_t number, uint32_t place)
{
    page_at(given, ROOM, 0, number, place, "");
    page_at(given, 0, 1, number, place, "");
}

/* The lines of two stages. */
static const char *two_lines(const char *first, const char *name, const char *second, const char *other)
{
    static char lines[PLANNER_PAGE_TEXT_BYTES(2) + 1];
    snprintf(lines, sizeof lines, " 1 %30s %-16s\n 2 %30s %-16s\n", first, name, second, other);
    return lines;
}

/* At 39/2: 50 by action 2, which has no name, then 50 by action 1. */
static void pages_written(void)
{
    call c = usual();
    size_t size = PLANNER_PAGE_TEXT_BYTES(2);
    c.state.level[0] = 39;
    c.state.denominator = 2;
    const char *lines = two_lines("50", "", "50", "Hold");
    page_at(&c, ROOM, 0, 0, 0, lines);
    page_at(&c, ROOM, 17, 0, 0, lines);
    page_at(&c, size, 0, 0, 0, lines);
    page_at(&c, size + 5, 5, 0, 0, lines);
    page_at(&c, size - 1, 0, 17, 0, "");
    page_at(&c, size + 5, 6, 17, 0, "");
    page_at(&c, 0, 0, 17, 0, "");
    page_at(&c, 0, 1, 17, 0, "");
    page_at(&c, ROOM, ROOM, 17, 0, "");
    page_at(&c, ROOM, ROOM + 1, 17, 0, "");
    page_at(&c, ROOM, SIZE_MAX, 17, 0, "");
    page_at(&c, ROOM, SIZE_MAX - 101, 17, 0, "");
}

/* Foreign tables: a half below zero, zero, and the lowest value that one level comes to. */
static void pages_rounded(void)
{
    call c = usual();
    c.nodes[0 * NODE + CONSTANT] = 0;
    c.nodes[0 * NODE + L1] = 1;
    c.stages[0] = 1;
    c.stages[1] = 2;
    c.state.level[0] = -1;
    c.state.denominator = 2;
    page_at(&c, ROOM, 0, 0, 0, two_lines("-1", "", "0", "Hold"));
    c.state.level[0] = -4;
    page_at(&c, ROOM, 3, 0, 0, two_lines("-2", "", "0", "Hold"));
    c = usual();
    c.stages[0] = c.stages[1] = 1;
    c.nodes[L1] = c.nodes[CONSTANT] = -(((int64_t)1 << 62) - 1);
    c.state.level[0] = INT32_MAX;
    c.state.denominator = 1;
    page_at(&c, ROOM, 0, 0, 0, two_lines("-9903520314283042197045510144", "", "-9903520314283042197045510144", ""));
}

static void pages_refused(void)
{
    call c = usual();
    c.stage_words = 0;
    c.steps = 0;
    page_is(&c, 10, 0);
    c.stage_words = 8;
    page_is(&c, 9, 0);
    c.steps = 9;
    page_is(&c, 9, 0);
    c = usual();
    c.steps = 3;
    c.state.denominator = 0;
    c.nodes[2 * NODE] = 3;
    page_is(&c, 13, 0);
    /* Stage 1 meets a bad node, stage 3 has no root. */
    c.state.denominator = 1;
    page_is(&c, 15, 0);
    c.steps = 2;
    page_is(&c, 14, 0);
    c.steps = 1;
    page_is(&c, 14, 0);
    /* A bad node off the walks is not looked at. */
    c = usual();
    c.nodes[1 * NODE] = 3;
    page_at(&c, ROOM, 0, 0, 0, two_lines("50", "", "100", ""));
    c.stages[1] = UINT32_MAX;
    page_is(&c, 14, 0);
}

/* ---- models of the old form, and back */

/* What the two forms differ in: the site's byte, the bytes of an action and of a leaf or test. */
typedef struct form {
    uint8_t site;
    size_t action_bytes, linear_bytes;
} form;

static const form OLD = {0x01, 1, 21}, NEW = {0x02, 2, 37};

/* Levels and actions that a site of the old form may have. */
enum { OLD_LEVELS_MOST = 4, OLD_ACTIONS_MOST = 8 };

/* Bytes at a place, which moves on. */
static void byte_to(uint8_t **at, uint8_t byte)
{
    *(*at)++ = byte;
}

static void linear_to(uint8_t **at, const form *f, uint8_t code, int32_t l1, int32_t constant)
{
    *at += linear_at(*at, f->linear_bytes, code, l1, constant);
}

/* A command with an action below 256, the code being 0 for the site's. */
static void action_to(uint8_t **at, const form *f, uint8_t code, uint8_t action)
{
    if (code != 0)
        byte_to(at, code);
    byte_to(at, action);
    if (f->action_bytes == 2)
        byte_to(at, 0);
}

static void site_to(uint8_t **at, const form *f, uint8_t m, uint8_t n, uint8_t actions, uint8_t w)
{
    byte_to(at, f->site);
    byte_to(at, m);
    byte_to(at, n);
    action_to(at, f, 0, actions);
    byte_to(at, w);
}

static void level_to(uint8_t **at, const form *f, uint8_t code, uint8_t action, uint8_t index)
{
    action_to(at, f, code, action);
    byte_to(at, index);
}

/* One action and one level in a site of a condition, with every command. */
static model every_command(const form *f)
{
    model m = {{0}, 0};
    uint8_t *at = m.bytes;
    site_to(&at, f, 1, 1, 1, 10);
    linear_to(&at, f, 0x10, 0, 7);
    level_to(&at, f, 0x21, 1, 1);
    linear_to(&at, f, 0x10, -2, INT32_MAX);
    linear_to(&at, f, 0x10, 0, -1);
    linear_to(&at, f, 0x12, INT32_MIN, 10);
    action_to(&at, f, 0x20, 1);
    action_to(&at, f, 0x30, 1);
    memcpy(at, "Let water out!  ", PLANNER_NAME_LETTERS_MOST);
    at += PLANNER_NAME_LETTERS_MOST;
    linear_to(&at, f, 0x10, 1, -150);
    linear_to(&at, f, 0x10, 1, -50);
    byte_to(&at, 0x11);
    byte_to(&at, 5);
    level_to(&at, f, 0x22, 1, 1);
    linear_to(&at, f, 0x10, 0, 120);
    byte_to(&at, 0x23);
    byte_to(&at, 0xFF);
    m.len = (size_t)(at - m.bytes);
    return m;
}

/* So many levels and actions that do nothing. */
static model idle(const form *f, uint8_t m, uint8_t actions)
{
    model made = {{0}, 0};
    uint8_t *at = made.bytes;
    site_to(&at, f, m, 0, actions, 1);
    for (uint8_t action = 1; action <= actions; action++) {
        linear_to(&at, f, 0x10, 0, 0);
        action_to(&at, f, 0x20, action);
        for (uint8_t level = 1; level <= m; level++) {
            linear_to(&at, f, 0x10, 0, 0);
            level_to(&at, f, 0x22, action, level);
        }
    }
    byte_to(&at, 0xFF);
    made.len = (size_t)(at - made.bytes);
    return made;
}

typedef uint32_t conversion(const uint8_t *, size_t, uint8_t *, size_t, uint8_t *, size_t);

/* The other form in a buffer of so many bytes, with every length of `out`; no other one by a refusal. */
static void converted(conversion *convert, const model *m, size_t buffer_len, uint32_t number, uint32_t place,
                      const model *other)
{
    model kept = *m;
    lent out, buffer;
    size_t size = number == 0 ? other->len : 0;
    uint8_t answer[PLANNER_TO_NEW_BYTES];
    put(answer, place, 4);
    put(answer + 4, size, 4);
    for (size_t len = 0; len <= PLANNER_TO_NEW_BYTES + 3; len++) {
        uint8_t *out_start = lend(&out, len), *start = lend(&buffer, buffer_len);
        int fits = len >= PLANNER_TO_NEW_BYTES;
        uint32_t r = convert(kept.len == 0 ? NULL : kept.bytes, kept.len, buffer_len == 0 ? NULL : start, buffer_len,
                             len == 0 ? NULL : out_start, len);
        expect(r == (fits || number != 0 ? number : 17), "number of a conversion");
        expect(marked_beside(&out, 0, fits ? sizeof answer : 0), "no byte beside a conversion's answer is written");
        expect(!fits || holds_bytes(&out, 0, answer, sizeof answer), "a conversion's answer");
        expect(marked_beside(&buffer, 0, fits ? size : 0), "no byte behind the converted model is written");
        expect(!fits || number != 0 || holds_bytes(&buffer, 0, other->bytes, size), "the converted model");
        expect(memcmp(&kept, m, sizeof kept) == 0, "a conversion leaves the model as it is");
    }
}

/* Refused whatever the buffer. */
static void conversion_refused(conversion *convert, const model *m, uint32_t number, uint32_t place)
{
    converted(convert, m, ROOM, number, place, NULL);
    converted(convert, m, 1, number, place, NULL);
    converted(convert, m, 0, number, place, NULL);
}

static void to_old_refused(const model *m, uint32_t number, uint32_t place)
{
    conversion_refused(planner_to_old, m, number, place);
}

static void both_ways(const model *old, const model *new_one)
{
    converted(planner_to_new, old, ROOM, 0, 0, new_one);
    converted(planner_to_new, old, new_one->len, 0, 0, new_one);
    converted(planner_to_new, old, new_one->len - 1, 17, 0, NULL);
    converted(planner_to_new, old, 0, 17, 0, NULL);
    converted(planner_to_old, new_one, ROOM, 0, 0, old);
    converted(planner_to_old, new_one, old->len, 0, 0, old);
    converted(planner_to_old, new_one, old->len - 1, 17, 0, NULL);
    converted(planner_to_old, new_one, 0, 17, 0, NULL);
    /* Each given to the other one: an unknown byte. */
    conversion_refused(planner_to_new, new_one, 3, 0);
    conversion_refused(planner_to_old, old, 3, 0);
}

static void conversions(void)
{
    model old = every_command(&OLD), new_one = every_command(&NEW);
    expect(old.len == 5 + 7 * 21 + 3 + 2 + 18 + 2 + 3 + 2, "bytes of an old model");
    expect(new_one.len == 6 + 7 * 37 + 4 + 3 + 19 + 2 + 4 + 2, "bytes of a model");
    both_ways(&old, &new_one);
    old = idle(&OLD, OLD_LEVELS_MOST, 1);
    new_one = idle(&NEW, OLD_LEVELS_MOST, 1);
    both_ways(&old, &new_one);
    old = idle(&OLD, 1, OLD_ACTIONS_MOST);
    new_one = idle(&NEW, 1, OLD_ACTIONS_MOST);
    both_ways(&old, &new_one);
}

/* m of 5 and A of 9; 20 comes after the model's own and before 17. */
static void conversions_refused(void)
{
    model m = idle(&NEW, OLD_LEVELS_MOST + 1, 1);
    to_old_refused(&m, 20, 0);
    command(&m, "\xff", 1);
    to_old_refused(&m, 8, (uint32_t)m.len - 1);
    m = idle(&NEW, 1, OLD_ACTIONS_MOST + 1);
    to_old_refused(&m, 20, 0);
    m.len--;
    to_old_refused(&m, 2, (uint32_t)m.len);
    /* The old form's own, at its offsets. */
    m = idle(&OLD, OLD_LEVELS_MOST + 1, 1);
    conversion_refused(planner_to_new, &m, 4, 0);
    m = idle(&OLD, 1, OLD_ACTIONS_MOST + 1);
    conversion_refused(planner_to_new, &m, 4, 0);
    m = every_command(&OLD);
    m.bytes[5] = 0x13;
    conversion_refused(planner_to_new, &m, 3, 5);
    m = every_command(&OLD);
    m.bytes[5 + 21 + 1] = 2; /* the chance of action 2 */
    conversion_refused(planner_to_new, &m, 4, 5 + 21);
    m = every_command(&OLD);
    m.len--;
    conversion_refused(planner_to_new, &m, 2, (uint32_t)m.len);
    m.len = 0;
    conversion_refused(planner_to_new, &m, 2, 0);
    conversion_refused(planner_to_old, &m, 2, 0);
}

/* A reward that is a chain of 1,558 tests, and an end worth: just 65,535 bytes in the old form. With a condition in place of
 * the end worth it is one more. */
static size_t long_model(uint8_t *to, const form *f, int longer)
{
    uint8_t *at = to;
    site_to(&at, f, 1, 1, 1, 10);
    linear_to(&at, f, 0x10, 0, 7);
    level_to(&at, f, 0x21, 1, 1);
    linear_to(&at, f, 0x10, 1, 0);
    level_to(&at, f, 0x22, 1, 1);
    linear_to(&at, f, 0x10, 0, 5);
    if (longer) {
        linear_to(&at, f, 0x10, 0, 6);
        byte_to(&at, 0x11);
        byte_to(&at, 1);
    } else {
        byte_to(&at, 0x23);
        linear_to(&at, f, 0x10, 0, 6);
    }
    for (int i = 0; i < 1558; i++) {
        linear_to(&at, f, 0x10, 0, i);
        linear_to(&at, f, 0x12, 1, -i);
    }
    action_to(&at, f, 0x20, 1);
    byte_to(&at, 0xFF);
    return (size_t)(at - to);
}

static int all_marked(const uint8_t *bytes, size_t count)
{
    for (size_t i = 0; i < count; i++)
        if (bytes[i] != MARK)
            return 0;
    return 1;
}

static model text_of(const char *written)
{
    model m = {{0}, 0};
    command(&m, written, strlen(written));
    return m;
}

static void import_refused(const char *written, uint32_t number, uint32_t place)
{
    model text = text_of(written);
    conversion_refused(planner_import, &text, number, place);
}

#define STILL "site m=1 n=0 A=1 W=1 next 1 L1 = else : L1 reward 1 = "

/* A text, in a buffer with room, just enough and a byte short; every refusal, and that none comes too soon. */
static void imports(void)
{
    model text = text_of("site m=1 n=0 A=2 W=1 reward 1 = else : 0 next 1 L1 = else : L1 reward 2 = L1 >= 10 : 50 ; else : -1 "
                         "next 2 L1 = L1 >= 10 : L1 - 10 ; else : L1 name 1 \"Hold\" ");
    model made = pond("Hold            ");
    converted(planner_import, &text, ROOM, 0, 0, &made);
    converted(planner_import, &text, made.len, 0, 0, &made);
    converted(planner_import, &text, made.len - 1, 17, 0, NULL);
    converted(planner_import, &text, 0, 17, 0, NULL);
    import_refused("", 24, 0);
    import_refused("site m=1 n=0 A=1 W=1 rewarf", 24, 26);
    import_refused(STILL "else : L1*L2", 24, (uint32_t)sizeof STILL - 1 + 10);
    import_refused(STILL "else : 5 *", 24, (uint32_t)sizeof STILL - 1 + 10);
    import_refused(STILL "else : 2147483648 ;", 24, (uint32_t)sizeof STILL - 1 + 18);
    import_refused(STILL "else : -2147483648", 25, 0);
    import_refused(STILL "L1 <= -2147483647 - 1 : 1 ; else : 2*L2", 25, 0);
    import_refused(STILL "else : L2", 4, SITE_BYTES + LINEAR_BYTES + 4);
    import_refused(STILL "else : 0 reward 1 = else : 1", 6, SITE_BYTES + 3 * LINEAR_BYTES + 4 + 3);
    import_refused("site m=1 n=0 A=1 W=1", 7, SITE_BYTES);
    import_refused("site m=257 n=0 A=1 W=1", 4, 0);
    model longer = text_of(STILL);
    while (longer.len < 900) {
        command(&longer, "L1 < 1 & L1 < 2 : 1 ; ", 22);
    }
    command(&longer, "else : 0", 8);
    conversion_refused(planner_import, &longer, 10, 0);
}

/* A text of all bytes that one may have, and of one more. */
static void long_imports(void)
{
    const size_t most = PLANNER_MODEL_BYTES_MOST;
    model text = text_of(STILL "else : 0"), made = text_of(STILL);
    uint8_t *padded = malloc(most + 1), out[PLANNER_IMPORT_BYTES];
    expect(padded != NULL, "memory");
    memset(padded, ' ', most + 1);
    memcpy(padded, text.bytes, text.len);
    memset(made.bytes, MARK, sizeof made.bytes);
    expect(planner_import(padded, most, made.bytes, sizeof made.bytes, out, sizeof out) == 0, "the longest text");
    expect(planner_validate(made.bytes, SITE_BYTES + 2 * LINEAR_BYTES + 8).number == 0, "its model");
    memset(made.bytes, MARK, sizeof made.bytes);
    expect(planner_import(padded, most + 1, made.bytes, sizeof made.bytes, out, sizeof out) == 10, "a text one too long");
    padded[0] = '?';
    expect(planner_import(padded, most + 1, made.bytes, sizeof made.bytes, NULL, 0) == 10, "10 comes before 24 and 17");
    expect(all_marked(made.bytes, sizeof made.bytes), "nothing is written by a refusal");
    free(padded);
}

/* As many bytes as the old form has room for, and one more. */
static void long_conversions(void)
{
    const size_t most = PLANNER_OLD_MODEL_BYTES_MOST, room = PLANNER_TO_NEW_MODEL_BYTES;
    uint8_t *old = malloc(room), *new_one = malloc(room), *buffer = malloc(room), out[PLANNER_TO_OLD_BYTES];
    expect(old != NULL && new_one != NULL && buffer != NULL && most == 65535, "memory");
    size_t old_len = long_model(old, &OLD, 0), len = long_model(new_one, &NEW, 0);
    expect(old_len == most && len < room, "bytes of the longest old model");
    memset(buffer, MARK, room);
    expect(planner_to_old(new_one, len, buffer, most - 1, out, sizeof out) == 17 && all_marked(buffer, room), "a byte short");
    expect(planner_to_old(new_one, len, buffer, most, out, sizeof out) == 0, "the longest old model");
    expect(memcmp(buffer, old, most) == 0 && all_marked(buffer + most, room - most), "its bytes");
    uint8_t answer[PLANNER_TO_OLD_BYTES];
    put(answer, 0, 4);
    put(answer + 4, most, 4);
    expect(memcmp(out, answer, sizeof out) == 0, "its length");
    memset(buffer, MARK, room);
    expect(planner_to_new(old, most, buffer, room, out, sizeof out) == 0, "the longest old model made new");
    expect(memcmp(buffer, new_one, len) == 0 && all_marked(buffer + len, room - len), "its bytes again");
    old_len = long_model(old, &OLD, 1);
    len = long_model(new_one, &NEW, 1);
    expect(old_len == most + 1, "bytes of an old model one too long");
    memset(buffer, MARK, room);
    expect(planner_to_old(new_one, len, buffer, room, out, sizeof out) == 20, "one byte too many");
    expect(planner_to_old(new_one, len, NULL, 0, out, sizeof out) == 20, "20 comes before 17");
    expect(planner_to_new(old, old_len, buffer, room, out, sizeof out) == 10, "an old model one too long");
    expect(planner_to_new(old, old_len, NULL, 0, NULL, 0) == 10, "10 comes before 17");
    expect(all_marked(buffer, room), "nothing is written by a refusal");
    free(old);
    free(new_one);
    free(buffer);
}

/* ---- actions that are not permitted */

/* A pump that earns 1 and must not run below 0. The level is -1 next if condition 1 is yes, with weight 5 out of 10, but never
 * while it is yes. */
static model pump(void)
{
    model m = {{0}, 0};
    command(&m, "\x02\x01\x01\x01\x00\x0a", SITE_BYTES);
    linear(&m, 0x10, 0, 1);
    command(&m, "\x13", 1);
    linear(&m, 0x12, -1, 0);
    command(&m, "\x20\x01\x00", 3);
    linear(&m, 0x10, 0, 0);
    linear(&m, 0x10, 0, 5);
    command(&m, "\x11\x01\x21\x01\x00\x01", 6);
    linear(&m, 0x10, 0, -1);
    linear(&m, 0x10, 1, 0);
    command(&m, "\x11\x05\x22\x01\x00\x01\xff", 7);
    return m;
}

static const int64_t PUMP_NODES[] = {
    0, 0,  0, 0, 0, 0, 0, 0, 0, 10,  1, 0, /* 1 */
    3, 0,  0, 0, 0, 0, 0, 0, 0, 0,   0, 0, /* 2 */
    2, -1, 0, 0, 0, 0, 0, 0, 0, 0,   1, 2, /* 3 */
    0, 0,  0, 0, 0, 0, 0, 0, 0, 200, 1, 0, /* 4 */
    2, -1, 0, 0, 0, 0, 0, 0, 0, 0,   4, 2, /* 5 */
    1, 1,  0, 0, 0, 0, 0, 0, 0, 0,   5, 2, /* 6 */
};
#define PUMP_WORDS (sizeof PUMP_NODES / sizeof *PUMP_NODES)
static const char PUMP_LISTING[] = "PLAN 1 1 1 10 2\n"
                                   "N 1 V 0 0 0 0 0 0 0 0 10 1\nN 2 X\nN 3 L -1 0 0 0 0 0 0 0 0 1 2\n"
                                   "N 4 V 0 0 0 0 0 0 0 0 200 1\nN 5 L -1 0 0 0 0 0 0 0 0 4 2\nN 6 B 1 5 2\n"
                                   "S 1 3\nS 2 6\n";

static call pumping(uint32_t steps, uint32_t mask, int32_t level)
{
    call c = {pump(), {0}, PUMP_WORDS, {3, 6}, 8, steps, {mask, {level}, 1}};
    memcpy(c.nodes, PUMP_NODES, sizeof PUMP_NODES);
    return c;
}

/* From the tables and by plain working. */
static void pump_is(uint32_t steps, uint32_t mask, int32_t level, uint32_t action, uint64_t low)
{
    call c = pumping(steps, mask, level);
    value_is(&c, 0, 0, action, low, 0);
    worth_at(&c.m, steps, c.state, 0, 0, action, low, 0);
}

static void none_read(void)
{
    pump_is(1, 0, 0, 1, 10);
    pump_is(2, 1, 0, 1, 200);
    pump_is(2, 0, 0, 0, 0);
    pump_is(1, 0, -1, 0, 0);
    pump_is(2, 1, -1, 0, 0);
    call c = pumping(2, 0, 0);
    name_is(&c.m, 0, 16, 0, "");
    lines_at(&c, ROOM, 0, 0, 0, PUMP_LISTING);
    lines_at(&c, sizeof PUMP_LISTING + 4, 5, 0, 0, PUMP_LISTING);
    lines_at(&c, sizeof PUMP_LISTING - 2, 0, 17, 0, "");
    page_at(&c, ROOM, 7, 0, 0, two_lines("1", "", "none", ""));
    c.state.level[0] = -1;
    page_at(&c, PLANNER_PAGE_TEXT_BYTES(2), 0, 0, 0, two_lines("none", "", "none", ""));
    c.state.level[0] = 0;
    c.state.mask = 1;
    page_at(&c, ROOM, 0, 0, 0, two_lines("1", "", "2", ""));
}

/* A word of its row that is not zero, or a kind beyond; where no walk meets it, only the listing does. */
static void none_refused(void)
{
    for (int i = 0; i < NODE; i++) {
        call c = pumping(2, 0, 0);
        c.nodes[1 * NODE + i] = i == 0 ? 4 : 1;
        value_refused(&c, 14, 0);
        listing_is(&c, 14, 0);
        page_is(&c, 14, 0);
        c.nodes[1 * NODE + i] = i == 0 ? -1 : INT64_MIN;
        value_refused(&c, 14, 0);
        c.state.mask = 1;
        value_is(&c, 0, 0, 1, 200, 0);
        listing_is(&c, 14, 0);
    }
}

/* Allowed in rewards only, 5 at the 33rd entry, and no part of the old form. */
static void forbidding_refused(void)
{
    static const char *const taken[] = {"\x21\x01\x00\x01", "\x22\x01\x00\x01", "\x23"};
    static const size_t bytes[] = {4, 4, 1};
    model m = pump();
    to_old_refused(&m, 20, 0);
    command(&m, "\xff", 1);
    model_refused(&m, 8, (uint32_t)m.len - 1);
    for (int i = 0; i < 3; i++) {
        m.len = 0;
        command(&m, "\x02\x01\x01\x01\x00\x0a\x13", SITE_BYTES + 1);
        command(&m, taken[i], bytes[i]);
        command(&m, "\xff", 1);
        model_refused(&m, 4, SITE_BYTES + 1);
    }
    m.len = SITE_BYTES + 1;
    command(&m, "\x20\x01\x00\xff", 4);
    model_refused(&m, 7, SITE_BYTES + 4);
    m.bytes[0] = 0x13;
    model_refused(&m, 1, 0);
    m.bytes[0] = 0x02;
    m.len = SITE_BYTES;
    for (int i = 0; i < 33; i++)
        command(&m, "\x13", 1);
    model_refused(&m, 5, SITE_BYTES + 32);
    m.len--;
    model_refused(&m, 2, SITE_BYTES + 32);
}

/* ---- solving */

/* The nodes that the pond needs while it is loaded and in its actions, with two steps. */
enum { POND_LOADED = 7, POND_HOLD = 13, POND_PEAK = 21 };

/* All that a solve is lent, in the middle of marks: a word more than the peaks are. */
typedef struct lent_tables {
    int64_t nodes[GUARD + PLANNER_NODE_WORDS(POND_PEAK) + GUARD];
    uint32_t stages[GUARD + PLANNER_STAGE_WORDS + GUARD];
    uint32_t work[GUARD + PLANNER_WORK_WORDS(POND_PEAK) + GUARD];
    uint32_t peaks[GUARD + PLANNER_PEAK_WORDS + 1 + GUARD];
    uint8_t out[GUARD + PLANNER_SOLVE_BYTES + GUARD];
} lent_tables;

/* What a solve is given; a test changes one thing of the pond's. */
typedef struct solving {
    model m;
    uint32_t horizon;
    size_t capacity, stage_words, peak_words;
} solving;

static solving usual_solving(void)
{
    solving s = {pond("Hold            "), 2, POND_PEAK, PLANNER_STAGE_WORDS, PLANNER_PEAK_WORDS};
    return s;
}

static uint32_t solve(const solving *s, lent_tables *t, size_t out_len)
{
    return planner_solve(s->m.len == 0 ? NULL : s->m.bytes, s->m.len, s->horizon, t->nodes + GUARD,
                         PLANNER_NODE_WORDS(s->capacity), t->stages + GUARD, s->stage_words, t->work + GUARD,
                         PLANNER_WORK_WORDS(s->capacity), s->peak_words == 0 ? NULL : t->peaks + GUARD, s->peak_words,
                         out_len == 0 ? NULL : t->out + GUARD, out_len);
}

/* All lent words are zero after 11 and 12; then there are the pond's, where it is solved. */
static void leave(lent_tables *t, size_t capacity, uint32_t number)
{
    static const uint32_t peaks[] = {POND_LOADED, POND_HOLD, POND_PEAK};
    memset(t->nodes + GUARD, 0, PLANNER_NODE_WORDS(capacity) * sizeof *t->nodes);
    memset(t->stages + GUARD, 0, PLANNER_STAGE_WORDS * sizeof *t->stages);
    memset(t->work + GUARD, 0, PLANNER_WORK_WORDS(capacity) * sizeof *t->work);
    memset(t->peaks + GUARD, 0, PLANNER_PEAK_WORDS * sizeof *t->peaks);
    if (number == 0) {
        memcpy(t->nodes + GUARD, NODES, sizeof NODES);
        memcpy(t->stages + GUARD, STAGES, sizeof STAGES);
        memcpy(t->peaks + GUARD, peaks, sizeof peaks);
    }
}

/* With every length of `out`: a short one leaves everything untouched, as every refusal but 11 and 12 does. */
static void solve_is(const solving *given, uint32_t number, uint32_t place)
{
    solving s = *given;
    int yields = number == 0 || number == 11 || number == 12;
    for (size_t len = 0; len <= PLANNER_SOLVE_BYTES + 3; len++) {
        lent_tables made, left;
        int fits = len >= PLANNER_SOLVE_BYTES;
        memset(&made, MARK, sizeof made);
        memset(&left, MARK, sizeof left);
        if (fits && yields)
            leave(&left, s.capacity, number);
        if (fits) {
            put(left.out + GUARD, place, 4);
            put(left.out + GUARD + 4, number == 0 ? POND_PEAK : 0, 4);
        }
        uint32_t r = solve(&s, &made, len);
        expect(r == (fits || !yields ? number : 17), "number of a solve");
        expect(memcmp(made.peaks, left.peaks, sizeof made.peaks) == 0, "the peaks, and what is beside them");
        expect(memcmp(&made, &left, sizeof made) == 0, "what a solve is lent, and what is beside it");
        expect(memcmp(&s, given, sizeof s) == 0, "a solve leaves the model as it is");
    }
}

static void model_unsolved(const model *m, uint32_t number, uint32_t place)
{
    solving s = usual_solving();
    s.m = *m;
    solve_is(&s, number, place);
}

/* A reward of 2^31 - 1 in a site with W = 100: in stage 5 it leaves the limits. */
static model dear(void)
{
    model m = {{0}, 0};
    command(&m, "\x02\x01\x01\x01\x00\x64", SITE_BYTES);
    linear(&m, 0x10, 0, INT32_MAX);
    command(&m, "\x20\x01\x00", 3);
    linear(&m, 0x10, 0, 0);
    command(&m, "\x21\x01\x00\x01", 4);
    linear(&m, 0x10, 1, 0);
    command(&m, "\x22\x01\x00\x01\xff", 5);
    return m;
}

static void solves(void)
{
    solving s = usual_solving();
    solve_is(&s, 0, 0);
    s.capacity = POND_PEAK - 1;
    solve_is(&s, 12, 2);
    s.capacity = POND_LOADED;
    solve_is(&s, 12, 1);
    s.capacity = POND_LOADED - 1;
    solve_is(&s, 12, 0);
    s.capacity = 0;
    solve_is(&s, 12, 0);
    s = usual_solving();
    s.m = dear();
    s.horizon = 5;
    solve_is(&s, 11, 5);
}

/* 10 comes before 9 and the model's own. */
static void solves_refused(void)
{
    static const size_t lengths[] = {0, 1, 3, 8, PLANNER_PEAK_WORDS - 1, PLANNER_PEAK_WORDS + 1};
    for (size_t i = 0; i < sizeof lengths / sizeof *lengths; i++) {
        solving s = usual_solving();
        s.peak_words = lengths[i];
        solve_is(&s, 10, 0);
        s.horizon = 9;
        s.m.len = 0;
        solve_is(&s, 10, 0);
    }
    solving s = usual_solving();
    s.stage_words = 7;
    solve_is(&s, 10, 0);
    s = usual_solving();
    s.horizon = 0;
    s.m.len = 0;
    solve_is(&s, 9, 0);
    s.horizon = 9;
    solve_is(&s, 9, 0);
}

/* ---- paths that no state can take */

/* Two levels that stay: the reward is 1 where L1 + L2 <= 0, else 2 where L1 <= 0, else 3 where L2 <= 0, else 4. */
static model corner(void)
{
    static const int32_t tests[3][2] = {{0, 1}, {1, 0}, {1, 1}};
    model m = {{0}, 0};
    command(&m, "\x02\x02\x00\x01\x00\x01", SITE_BYTES);
    for (int32_t value = 1; value <= 4; value++)
        linear(&m, 0x10, 0, value);
    for (int i = 0; i < 3; i++) {
        linear(&m, 0x12, tests[i][0], 0);
        put(m.bytes + m.len - LINEAR_BYTES + 5, (uint32_t)tests[i][1], 4);
    }
    command(&m, "\x20\x01\x00", 3);
    linear(&m, 0x10, 1, 0);
    command(&m, "\x22\x01\x00\x01", 4);
    linear(&m, 0x10, 0, 0);
    put(m.bytes + m.len - LINEAR_BYTES + 5, 1, 4);
    command(&m, "\x22\x01\x00\x02\xff", 5);
    return m;
}

#define VALUE(value) 0, 0, 0, 0, 0, 0, 0, 0, 0, value, 1, 0
#define TEST(c1, c2, high, low) 2, c1, c2, 0, 0, 0, 0, 0, 0, 0, high, low

/* The plan, and what is left of it without the path where L1 and L2 are not above 0 and their sum is; then also without
 * the one where both are above 0 and their sum is not. */
enum { CORNER = 10, CORNER_ROOM = 12 };
static const int64_t CORNER_NODES[CORNER * NODE] = {
    VALUE(1), VALUE(2), TEST(1, 1, 1, 2), VALUE(3), TEST(1, 1, 1, 4), TEST(1, 0, 3, 5),
    VALUE(4), TEST(1, 1, 1, 7), TEST(1, 0, 3, 8), TEST(0, 1, 6, 9),
};
static const int64_t CORNER_CUT[CORNER * NODE] = {
    VALUE(1), VALUE(3), TEST(1, 1, 1, 2), TEST(1, 0, 1, 3), VALUE(2), TEST(1, 1, 1, 5),
    VALUE(4), TEST(1, 1, 1, 7), TEST(1, 0, 6, 8), TEST(0, 1, 4, 9),
};
static const int64_t CORNER_CUT_TWICE[CORNER * NODE] = {
    VALUE(1), VALUE(3), TEST(1, 1, 1, 2), TEST(1, 0, 1, 3), VALUE(2), TEST(1, 1, 1, 5),
    VALUE(4), TEST(1, 0, 6, 7), TEST(0, 1, 4, 8),
};

/* What a path is sent with; a test changes one thing of the corner's. */
typedef struct sent {
    model m;
    int64_t nodes[CORNER_ROOM * NODE];
    size_t node_words;
    uint32_t stages[8];
    size_t stage_words, work_words;
    uint32_t stage;
    uint8_t turns[4];
    size_t turns_len;
    int32_t multipliers[4];
    size_t multipliers_len;
} sent;

static sent usual_path(void)
{
    sent p = {corner(), {0}, CORNER_ROOM * NODE, {CORNER}, 8, PLANNER_WORK_WORDS(CORNER_ROOM), 1, {1, 1, 0}, 3, {1, 1, 1}, 3};
    memcpy(p.nodes, CORNER_NODES, sizeof CORNER_NODES);
    return p;
}

/* All that is lent to it, in the middle of marks. */
typedef struct lent_path {
    int64_t nodes[GUARD + CORNER_ROOM * NODE + GUARD];
    uint32_t stages[GUARD + PLANNER_STAGE_WORDS + GUARD];
    uint32_t work[GUARD + PLANNER_WORK_WORDS(CORNER_ROOM) + GUARD];
    uint8_t out[GUARD + PLANNER_PRUNE_BYTES + GUARD];
} lent_path;

static uint32_t prune(const sent *p, lent_path *l, size_t out_len)
{
    return planner_prune(p->m.len == 0 ? NULL : p->m.bytes, p->m.len, p->node_words == 0 ? NULL : l->nodes + GUARD,
                         p->node_words, p->stage_words == 0 ? NULL : l->stages + GUARD, p->stage_words,
                         p->work_words == 0 ? NULL : l->work + GUARD, p->work_words, p->stage,
                         p->turns_len == 0 ? NULL : p->turns, p->turns_len,
                         p->multipliers_len == 0 ? NULL : p->multipliers, p->multipliers_len,
                         out_len == 0 ? NULL : l->out + GUARD, out_len);
}

/* With every length of `out`: a short one leaves everything untouched, as every refusal does. An accepted path leaves these
 * rows below this root, and zeros. */
static void path_is(const sent *given, uint32_t number, uint32_t place, const int64_t *rows, uint32_t root)
{
    sent p = *given;
    for (size_t len = 0; len <= PLANNER_PRUNE_BYTES + 3; len++) {
        lent_path made, left;
        int fits = len >= PLANNER_PRUNE_BYTES, yields = number == 0 || number == 12;
        memset(&made, MARK, sizeof made);
        memcpy(made.nodes + GUARD, p.nodes, p.node_words * sizeof *p.nodes);
        memcpy(made.stages + GUARD, p.stages, sizeof p.stages);
        memcpy(&left, &made, sizeof left);
        if (fits && number == 0) {
            memset(left.nodes + GUARD, 0, p.node_words * sizeof *p.nodes);
            memcpy(left.nodes + GUARD, rows, root * NODE * sizeof *rows);
            memset(left.stages + GUARD, 0, sizeof p.stages);
            left.stages[GUARD + p.stage - 1] = root;
            memset(left.work + GUARD, 0, p.work_words * sizeof *left.work);
        }
        if (fits)
            put(left.out + GUARD, place, 4);
        uint32_t r = prune(&p, &made, len);
        expect(r == (fits || !yields ? number : 17), "number of a path");
        expect(memcmp(&made, &left, sizeof made) == 0, "what a path is lent, and what is beside it");
        expect(memcmp(&p, given, sizeof p) == 0, "a path leaves model, turns and multipliers as they are");
    }
}

static void path_refused(const sent *p, uint32_t number, uint32_t place)
{
    path_is(p, number, place, NULL, 0);
}

/* Everything else is wrong too, but 10 and 9. */
static void model_unpruned(const model *m, uint32_t number, uint32_t place)
{
    sent p = usual_path();
    p.m = *m;
    p.stages[0] = 0;
    p.nodes[0] = 9;
    p.turns_len = 0;
    path_refused(&p, number, place);
}

static void paths_cut(void)
{
    sent p = usual_path();
    path_is(&p, 0, 0, CORNER_CUT, CORNER);
    p.multipliers[0] = p.multipliers[1] = p.multipliers[2] = INT32_MAX;
    path_is(&p, 0, 0, CORNER_CUT, CORNER);
    memcpy(p.nodes, CORNER_CUT, sizeof CORNER_CUT);
    p.turns[0] = p.turns[1] = 0;
    p.turns[2] = 1;
    path_is(&p, 0, 0, CORNER_CUT_TWICE, CORNER - 1);
    /* Another stage's word, and anything behind the greatest. */
    p = usual_path();
    p.stages[0] = 0;
    p.stages[7] = CORNER;
    p.stage = 8;
    p.nodes[CORNER * NODE] = -1;
    path_is(&p, 0, 0, CORNER_CUT, CORNER);
    p.stage = 1;
    path_refused(&p, 15, 0);
}

/* Both slices count, whole nodes alone; 12 yields to a short `out`. */
static void paths_without_room(void)
{
    sent p = usual_path();
    p.node_words = CORNER_ROOM * NODE - 1;
    path_refused(&p, 12, 1);
    p = usual_path();
    p.work_words--;
    path_refused(&p, 12, 1);
    p.work_words = 0;
    path_refused(&p, 12, 1);
    p.stages[5] = CORNER;
    p.stage = 6;
    path_refused(&p, 12, 6);
}

static void paths_refused(void)
{
    static const uint8_t bytes[] = {2, 0x31, 0xFF};
    sent p = usual_path();
    p.turns[2] = 1;
    path_refused(&p, 21, 0);
    p = usual_path();
    p.multipliers[1] = 2;
    path_refused(&p, 21, 0);
    p.multipliers[0] = p.multipliers[1] = p.multipliers[2] = -1;
    path_refused(&p, 21, 0);
    p.multipliers[0] = p.multipliers[1] = p.multipliers[2] = 0;
    path_refused(&p, 21, 0);
    memset(p.turns, 0, sizeof p.turns); /* a multiplier below 0 would make the sum 0 */
    p.multipliers[0] = p.multipliers[1] = 1;
    p.multipliers[2] = -1;
    path_refused(&p, 21, 0);
    p.work_words = 0; /* 21 comes before 12 */
    path_refused(&p, 21, 0);
    p.multipliers_len = 2;
    path_refused(&p, 22, 0);
    p.multipliers_len = 4;
    path_refused(&p, 22, 0);
    p = usual_path();
    p.turns_len = 4;
    path_refused(&p, 22, 0);
    p.multipliers_len = 4;
    path_refused(&p, 22, 0);
    p.turns_len = p.multipliers_len = 0;
    path_refused(&p, 22, 0);
    for (size_t i = 0; i < sizeof bytes; i++) {
        p = usual_path();
        p.turns[2] = bytes[i];
        path_refused(&p, 22, 0);
    }
    p.nodes[1 * NODE + HIGH] = 2; /* the site has action 1 alone */
    path_refused(&p, 14, 0);
    p = usual_path();
    p.stages[7] = CORNER_ROOM + 1;
    path_refused(&p, 14, 0);
    p.stages[7] = UINT32_MAX;
    path_refused(&p, 14, 0);
    p.stage = 2;
    path_refused(&p, 15, 0);
    p.m.bytes[0] = 1;
    path_refused(&p, 3, 0);
    p.stage = 0;
    path_refused(&p, 9, 0);
    p.stage = 9;
    path_refused(&p, 9, 0);
    p.stage_words = 7;
    path_refused(&p, 10, 0);
    p.stage_words = 0;
    path_refused(&p, 10, 0);
}

/* ---- two sites together */

/* The rain of document 01: one condition, one action that earns the level, over W 10. Its tables for two steps. */
static model rain(void)
{
    model m = {{0}, 0};
    command(&m, "\x02\x01\x01\x01\x00\x0a", SITE_BYTES);
    linear(&m, 0x10, 0, 7);
    command(&m, "\x21\x01\x00\x01", 4);
    linear(&m, 0x10, 1, 0);
    command(&m, "\x20\x01\x00", 3);
    linear(&m, 0x10, 1, -150);
    linear(&m, 0x10, 1, -50);
    command(&m, "\x11\x05\x22\x01\x00\x01\xff", 7);
    return m;
}

/* Both sides: the pond with W 10 at 20, and the rain at 200. */
typedef struct two {
    call first;
    call second;
} two;

static two both_usual(void)
{
    two t = {usual(), usual()};
    t.first.m.bytes[SITE_BYTES - 1] = 10;
    t.second.m = rain();
    memset(t.second.nodes, 0, sizeof t.second.nodes);
    memset(t.second.stages, 0, sizeof t.second.stages);
    uint8_t answer[PLANNER_SOLVE_BYTES];
    uint32_t work[PLANNER_WORK_WORDS(40)], peaks[PLANNER_PEAK_WORDS];
    int64_t nodes[PLANNER_NODE_WORDS(40)];
    expect(planner_solve(t.second.m.bytes, t.second.m.len, 2, nodes, PLANNER_NODE_WORDS(40), t.second.stages, 8, work,
                         PLANNER_WORK_WORDS(40), peaks, PLANNER_PEAK_WORDS, answer, sizeof answer) == 0,
           "the rain is solved");
    memcpy(t.second.nodes, nodes, sizeof t.second.nodes);
    t.second.state.level[0] = 200;
    return t;
}

static const int64_t *nodes_of(const call *c)
{
    return c->node_words == 0 ? NULL : c->nodes;
}

static const uint32_t *stages_of(const call *c)
{
    return c->stage_words == 0 ? NULL : c->stages;
}

/* With every length of `out`: a short one yields to every refusal but 11. */
static void total_is(const two *given, uint32_t number, uint32_t place, uint32_t first, uint32_t second, uint64_t low,
                     int64_t high)
{
    two t = *given;
    const call *a = &t.first, *b = &t.second;
    lent out;
    uint8_t answer[PLANNER_TOTAL_BYTES];
    put(answer, place, 4);
    put(answer + 4, first, 4);
    put(answer + 8, second, 4);
    put(answer + 12, low, 8);
    put(answer + 20, (uint64_t)high, 8);
    for (size_t len = 0; len <= PLANNER_TOTAL_BYTES + 3; len++) {
        uint8_t *start = lend(&out, len);
        int fits = len >= PLANNER_TOTAL_BYTES, yields = number == 0 || number == 11;
        uint32_t r = planner_total_at(a->m.bytes, a->m.len, nodes_of(a), a->node_words, stages_of(a), a->stage_words, &a->state,
                                      b->m.bytes, b->m.len, nodes_of(b), b->node_words, stages_of(b), b->stage_words, &b->state,
                                      a->steps, len == 0 ? NULL : start, len);
        expect(r == (fits || !yields ? number : 17), "number of a total");
        expect(marked_beside(&out, 0, fits ? sizeof answer : 0), "no byte beside a total's answer is written");
        expect(!fits || holds_bytes(&out, 0, answer, sizeof answer), "a total's answer");
        expect(memcmp(&t, given, sizeof t) == 0, "a total leaves models and tables as they are");
    }
}

static void total_refused(const two *t, uint32_t number, uint32_t place)
{
    total_is(t, number, place, 0, 0, 0, 0);
}

static void totals(void)
{
    /* 100 at the pond is 100 * 10^2 over 10^2, and the rain's 28,000 stays: the pond has no condition. */
    two t = both_usual();
    total_is(&t, 0, 0, 2, 1, 38000, 0);
    two turned = {t.second, t.first};
    turned.first.steps = 2;
    total_is(&turned, 0, 0, 1, 2, 38000, 0);
    /* The same model twice, in two states. */
    turned.first = t.first;
    turned.second = t.first;
    turned.second.state.level[0] = 10;
    total_is(&turned, 0, 0, 2, 1, 150, 0);
    /* Below zero. */
    t.second.state.level[0] = -1000;
    total_is(&t, 0, 0, 2, 1, UINT64_MAX - 201999, -1);
    /* None on either side: both actions and both words are 0. */
    t = both_usual();
    memset(t.first.nodes, 0, sizeof t.first.nodes);
    t.first.nodes[0] = 3;
    t.first.stages[1] = 1;
    total_is(&t, 0, 0, 0, 0, 0, 0);
    two other = {t.second, t.first};
    other.first.steps = 2;
    total_is(&other, 0, 0, 0, 0, 0, 0);
}

/* One leaf that reads coefficient * (2^31 - 1) + constant. */
static void leaf_read(call *c, int64_t coefficient, int64_t constant)
{
    memset(c->nodes, 0, sizeof c->nodes);
    c->nodes[L1] = coefficient;
    c->nodes[CONSTANT] = constant;
    c->nodes[HIGH] = 1;
    for (int i = 0; i < 8; i++)
        c->stages[i] = 1;
    c->state.level[0] = INT32_MAX;
}

/* Tables that no solve left. The pond has no condition and the rain one; with W 64 and 8 steps the first numerator is
 * multiplied by 2^48, the second is not. */
static void totals_at_the_ends(void)
{
    two t = both_usual();
    t.first.steps = 8;
    t.first.m.bytes[SITE_BYTES - 1] = 64;
    t.second.m.bytes[SITE_BYTES - 1] = 64;
    /* 2^79 = (2^31 - 1) * (2^48 + 2^17) + 2^17: times 2^48 it is 2^127, outside, and the second brings it back. */
    leaf_read(&t.first, ((int64_t)1 << 48) + ((int64_t)1 << 17), (int64_t)1 << 17);
    leaf_read(&t.second, 0, -1);
    total_is(&t, 0, 0, 1, 1, UINT64_MAX, INT64_MAX);
    leaf_read(&t.second, 0, 0);
    total_refused(&t, 11, 0);
    /* -2^127 is the other end. */
    leaf_read(&t.first, -((int64_t)1 << 48) - ((int64_t)1 << 17), -((int64_t)1 << 17));
    total_is(&t, 0, 0, 1, 1, 0, INT64_MIN);
    leaf_read(&t.second, 0, -1);
    total_refused(&t, 11, 0);
    leaf_read(&t.second, 0, 1);
    total_is(&t, 0, 0, 1, 1, 1, INT64_MIN);
    /* None comes before 11, and 26 before none. */
    leaf_read(&t.second, 0, 0);
    t.second.nodes[0] = 3;
    t.second.nodes[HIGH] = 0;
    total_is(&t, 0, 0, 0, 0, 0, 0);
    t.second.state.denominator = 2;
    total_refused(&t, 26, 0);
}

/* All of the first's refusals, then the second's, then 26. */
static void totals_refused(void)
{
    two t = both_usual();
    t.second.state.denominator = 2;
    total_refused(&t, 26, 0);
    t.second.state.denominator = 1;
    t.first.m.bytes[SITE_BYTES - 1] = 9;
    total_refused(&t, 26, 0);
    t.second.nodes[(t.second.stages[1] - 1) * NODE] = 4;
    total_refused(&t, 14, 0);
    t.second.stages[1] = 0;
    total_refused(&t, 15, 0);
    t.second.state.mask = 2;
    total_refused(&t, 13, 0);
    t.second.m.bytes[0] = 1;
    total_refused(&t, 3, 0);
    t.second.stage_words = 7;
    total_refused(&t, 10, 0);
    t.first.nodes[6 * NODE] = 4;
    total_refused(&t, 14, 0);
    t.first.stages[1] = 0;
    total_refused(&t, 15, 0);
    t.first.state.denominator = 0;
    total_refused(&t, 13, 0);
    t.first.m.len--;
    total_refused(&t, 2, (uint32_t)t.first.m.len);
    t.first.steps = 9;
    total_refused(&t, 9, 0);
    t.first.stage_words = 0;
    total_refused(&t, 10, 0);
}

int main(void)
{
    values_read();
    values_of_states_refused();
    values_of_nodes_refused();
    values_early_refused();
    worths();
    sures();
    models_refused();
    end_worths_refused();
    long_models_refused();
    names();
    finds();
    listings_written();
    listings_refused();
    pages_written();
    pages_rounded();
    pages_refused();
    conversions();
    conversions_refused();
    long_conversions();
    imports();
    long_imports();
    none_read();
    none_refused();
    forbidding_refused();
    solves();
    solves_refused();
    paths_cut();
    paths_without_room();
    paths_refused();
    totals();
    totals_at_the_ends();
    totals_refused();
    printf("exports: %u checks\n", checks);
    return 0;
}
