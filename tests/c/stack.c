/* How much stack a call takes: it runs on a thread whose stack is just as large as the header asks for, painted before.
 *
 *   stack MODEL HORIZON NODES    a solve
 *   stack --path NODES           a path that is cut off the longest diagram of so many nodes
 *   stack --sure MODEL STEPS     plain working of every action, at levels of zero
 *   stack --import TEXT          the model of a text
 */
#define _GNU_SOURCE

#include "planner.h"

#include <pthread.h>
#include <stdio.h>
#include <stdlib.h>
#include <string.h>
#include <sys/mman.h>

#define PAINT 0x5A
#define PAGE ((size_t)4096)

static uint8_t model[PLANNER_MODEL_BYTES_MOST + 1], buffer[PLANNER_MODEL_BYTES_MOST];
static size_t model_len, capacity;
static uint32_t horizon, number;
static int64_t *nodes;
static uint32_t *work, stages[PLANNER_STAGE_WORDS], peaks[PLANNER_PEAK_WORDS];
static uint8_t out[PLANNER_SOLVE_BYTES];

static void fail(const char *what)
{
    fprintf(stderr, "stack: %s\n", what);
    exit(2);
}

static void *solve(void *unused)
{
    (void)unused;
    number = planner_solve(model, model_len, horizon, nodes, PLANNER_NODE_WORDS(capacity), stages, PLANNER_STAGE_WORDS,
                           work, PLANNER_WORK_WORDS(capacity), peaks, PLANNER_PEAK_WORDS, out, sizeof out);
    return NULL;
}

static void *prune(void *unused)
{
    static const uint8_t turns[] = {1};
    static const int32_t multipliers[] = {1};
    (void)unused;
    number = planner_prune(model, model_len, nodes, PLANNER_NODE_WORDS(capacity), stages, PLANNER_STAGE_WORDS, work,
                           PLANNER_WORK_WORDS(capacity), 1, turns, 1, multipliers, 1, out, PLANNER_PRUNE_BYTES);
    return NULL;
}

static void *sure(void *unused)
{
    static const struct planner_state state = {0, {0}, 1};
    (void)unused;
    number = planner_sure_at(model, model_len, horizon, &state, 0, out, PLANNER_SURE_BYTES);
    return NULL;
}

/* The text stands where a model would. */
static void *import(void *unused)
{
    (void)unused;
    number = planner_import(model, model_len, buffer, sizeof buffer, out, PLANNER_IMPORT_BYTES);
    return NULL;
}

static void read_model(const char *path)
{
    FILE *file = fopen(path, "rb");
    if (file == NULL)
        fail("cannot open the model");
    model_len = fread(model, 1, sizeof model, file);
    fclose(file);
}

/* A site of one level that stays, and one action. */
static void write_model(void)
{
    static const uint8_t site[] = {0x02, 1, 0, 1, 0, 1, 0x10}, reward[] = {0x20, 1, 0, 0x10, 1}, next[] = {0x22, 1, 0, 1, 0xFF};
    memcpy(model, site, sizeof site);
    memcpy(model + 43, reward, sizeof reward);
    memcpy(model + 83, next, sizeof next);
    model_len = 88;
}

/* L1 <= 3, L1 <= 4 and so on, each on the high side of the next, below a root that asks whether 1 <= 0. */
static void write_chain(void)
{
    for (size_t row = 1; row <= capacity; row++) {
        int64_t *node = nodes + PLANNER_NODE_WORDS(row - 1), below = (int64_t)row - 1;
        int is_leaf = row <= 2, is_root = row == capacity;
        node[0] = is_leaf ? 0 : 2;
        node[1] = !is_leaf && !is_root;
        node[9] = is_root ? 1 : -(int64_t)row;
        node[10] = is_leaf || is_root ? 1 : below;
        node[11] = is_leaf ? 0 : is_root ? below : 1;
    }
    stages[0] = (uint32_t)capacity;
}

/* Runs the call on a stack of so many bytes, in whole pages, and gives how many of these it used; none are left where that is
 * all of them. */
static size_t used_of(void *(*call)(void *), size_t size)
{
    /* A page that must not be touched lies below the stack. */
    uint8_t *low = mmap(NULL, size + PAGE, PROT_READ | PROT_WRITE, MAP_PRIVATE | MAP_ANONYMOUS, -1, 0);
    if (low == MAP_FAILED || mprotect(low, PAGE, PROT_NONE) != 0)
        fail("out of memory");
    memset(low + PAGE, PAINT, size);
    pthread_attr_t attributes;
    pthread_t thread;
    if (pthread_attr_init(&attributes) != 0 || pthread_attr_setstack(&attributes, low + PAGE, size) != 0
        || pthread_create(&thread, &attributes, call, NULL) != 0 || pthread_join(thread, NULL) != 0)
        fail("cannot run a thread with this stack");
    size_t untouched = 0;
    while (untouched < size && low[PAGE + untouched] == PAINT)
        untouched++;
    return size - untouched;
}

static int prints(const char *what, void *(*call)(void *), size_t asked)
{
    size_t size = (asked + PAGE - 1) / PAGE * PAGE, used = used_of(call, size);
    printf("%s: number %u, %zu of %zu bytes of stack\n", what, (unsigned)number, used, size);
    return used < size;
}

static void lend(const char *nodes_asked)
{
    capacity = strtoul(nodes_asked, NULL, 10);
    nodes = calloc(PLANNER_NODE_WORDS(capacity) + 1, sizeof *nodes);
    work = calloc(PLANNER_WORK_WORDS(capacity) + 1, sizeof *work);
    if (nodes == NULL || work == NULL)
        fail("out of memory");
}

int main(int count, char **arguments)
{
    const char *verb = count > 1 ? arguments[1] : "";
    char what[300];
    if (strcmp(verb, "--path") == 0 && count == 3) {
        lend(arguments[2]);
        write_model();
        write_chain();
        snprintf(what, sizeof what, "a path, %zu nodes", capacity);
        return !prints(what, prune, PLANNER_STACK_BYTES(capacity)) || number != 0 || stages[0] != capacity - 1;
    }
    if (strcmp(verb, "--import") == 0 && count == 3) {
        read_model(arguments[2]);
        snprintf(what, sizeof what, "%s, imported", arguments[2]);
        return !prints(what, import, PLANNER_IMPORT_STACK_BYTES) || number != 0;
    }
    if (count != 4)
        fail("usage: stack MODEL HORIZON NODES, --path NODES, --sure MODEL STEPS or --import TEXT");
    int is_sure = strcmp(verb, "--sure") == 0;
    read_model(arguments[1 + is_sure]);
    horizon = (uint32_t)strtoul(arguments[2 + is_sure], NULL, 10);
    if (is_sure) {
        snprintf(what, sizeof what, "%s, sure with %u steps", arguments[2], (unsigned)horizon);
        return !prints(what, sure, PLANNER_STACK_BYTES(0)) || number != 0;
    }
    lend(arguments[3]);
    snprintf(what, sizeof what, "%s, horizon %u, %zu nodes", verb, (unsigned)horizon, capacity);
    return !prints(what, solve, PLANNER_STACK_BYTES(capacity));
}
