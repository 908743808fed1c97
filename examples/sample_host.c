/* A host: solves a model file, an old one too, and says what to do in one state, and the whole plan.
 *
 *   sample_host MODEL HORIZON NODES [--page] MASK L1 .. D
 *   sample_host --text
 *
 * L1 .. are the numerators of one level or more; those that are left out are 0. Prints the peak, the value and the action with
 * HORIZON steps left, or that it is none, the action that its name leads back to, then the listing; with --page the state's
 * page and nothing else; a refusal as `R number place`. With --text the model is a text that stands below, and what is printed
 * is what the calls say that go beyond a plan: planner_import, planner_prune, planner_sure, planner_total.
 */
#define _POSIX_C_SOURCE 200809L

#include "planner.h"

#include <inttypes.h>
#include <limits.h>
#include <pthread.h>
#include <stdio.h>
#include <stdlib.h>
#include <string.h>

/* No line of a listing is longer: nine numbers of 20 characters, and less than 48 for all else. */
#define LINE_BYTES_MOST ((size_t)(48 + 21 * (PLANNER_LEVELS_MOST + 1)))

/* Two tanks. Pumping pays by how full they are, resting nothing, and neither moves any water. */
static const char TANKS[] = "site m=2 n=0 A=2 W=1\n"
                            "name 1 \"Pump\"\n"
                            "reward 1 = L1 + L2 <= 0 : 1 ; L1 <= 0 : 2 ; L2 <= 0 : 3 ; else : 4\n"
                            "next 1 L1 = else : L1   next 1 L2 = else : L2\n"
                            "name 2 \"Rest\"\n"
                            "reward 2 = else : 0\n"
                            "next 2 L1 = else : L1   next 2 L2 = else : L2\n";

typedef struct plan {
    uint8_t *model;
    size_t model_len;
    uint32_t horizon;
    size_t capacity;
    int64_t *nodes;
    uint32_t stages[PLANNER_STAGE_WORDS];
    uint32_t *work;
    uint32_t peaks[PLANNER_PEAK_WORDS];
    uint32_t number;
    uint8_t out[PLANNER_SOLVE_BYTES];
} plan;

static void fail(const char *what)
{
    fprintf(stderr, "sample_host: %s\n", what);
    exit(2);
}

static void *lent(size_t count, size_t size)
{
    void *space = calloc(count == 0 ? 1 : count, size);
    if (space == NULL)
        fail("out of memory");
    return space;
}

/* A number of `count` bytes, low byte first. */
static uint64_t number_at(const uint8_t *bytes, int count)
{
    uint64_t number = 0;
    while (count-- > 0)
        number = number << 8 | bytes[count];
    return number;
}

static void refused(uint32_t number, const uint8_t *out)
{
    printf("R %" PRIu32 " %" PRIu64 "\n", number, number_at(out, 4));
    exit(1);
}

/* One byte more than a model may have is read, so that a longer file is refused and not cut. */
static void load(plan *p, const char *path)
{
    FILE *file = fopen(path, "rb");
    if (file == NULL)
        fail("cannot open the model");
    p->model = lent(PLANNER_MODEL_BYTES_MOST + 1, 1);
    p->model_len = fread(p->model, 1, PLANNER_MODEL_BYTES_MOST + 1, file);
    if (ferror(file))
        fail("cannot read the model");
    fclose(file);
}

/* An old model begins with 01, which is no command of a new one: it is made new first. */
static void renew(plan *p)
{
    uint8_t out[PLANNER_TO_NEW_BYTES];
    uint8_t *model = lent(PLANNER_TO_NEW_MODEL_BYTES, 1);
    uint32_t number = planner_to_new(p->model, p->model_len, model, PLANNER_TO_NEW_MODEL_BYTES, out, sizeof out);
    if (number != 0)
        refused(number, out);
    free(p->model);
    p->model = model;
    p->model_len = (size_t)number_at(out + 4, 4);
}

/* Runs a call on a thread of its own, with the stack that it needs. */
static void run(void *(*call)(void *), plan *p, size_t stack)
{
    pthread_attr_t attributes;
    pthread_t thread;
    if (pthread_attr_init(&attributes) != 0 || pthread_attr_setstacksize(&attributes, stack) != 0
        || pthread_create(&thread, &attributes, call, p) != 0 || pthread_join(thread, NULL) != 0)
        fail("cannot run a thread with the stack that a call needs");
    pthread_attr_destroy(&attributes);
    if (p->number != 0)
        refused(p->number, p->out);
}

static void *solve_here(void *argument)
{
    plan *p = argument;
    p->number = planner_solve(p->model, p->model_len, p->horizon, p->nodes, PLANNER_NODE_WORDS(p->capacity), p->stages,
                              PLANNER_STAGE_WORDS, p->work, PLANNER_WORK_WORDS(p->capacity), p->peaks,
                              PLANNER_PEAK_WORDS, p->out, sizeof p->out);
    return NULL;
}

static void solve(plan *p)
{
    p->nodes = lent(PLANNER_NODE_WORDS(p->capacity), sizeof *p->nodes);
    p->work = lent(PLANNER_WORK_WORDS(p->capacity), sizeof *p->work);
    run(solve_here, p, PLANNER_STACK_BYTES(p->capacity));
}

/* The peak, which is the largest word of the peaks, and who needs so many nodes: loading, or the first action that does. */
static void print_peak(const plan *p)
{
    uint64_t peak = number_at(p->out + 4, 4);
    size_t at = 0;
    while (at < PLANNER_PEAK_WORDS - 1 && p->peaks[at] != peak)
        at++;
    printf("solved, peak %" PRIu64 " in ", peak);
    if (at == 0)
        printf("loading\n");
    else
        printf("action %zu\n", at);
}

/* A number in two 64-bit words, the high one signed, in decimal. */
static void print_words(uint64_t low, uint64_t high)
{
    char digits[40];
    size_t at = sizeof digits;
    int negative = high >> 63 != 0;
    if (negative) {
        low = ~low + 1;
        high = ~high + (low == 0);
    }
    uint32_t limbs[4] = {(uint32_t)(high >> 32), (uint32_t)high, (uint32_t)(low >> 32), (uint32_t)low};
    digits[--at] = '\0';
    do {
        uint64_t rest = 0;
        for (int i = 0; i < 4; i++) {
            rest = rest << 32 | limbs[i];
            limbs[i] = (uint32_t)(rest / 10);
            rest %= 10;
        }
        digits[--at] = (char)('0' + rest);
    } while ((limbs[0] | limbs[1] | limbs[2] | limbs[3]) != 0);
    printf("%s%s", negative ? "-" : "", digits + at);
}

/* A panel sends the name back: the action that carries it, if no other does. */
static void print_found(const plan *p, const uint8_t *name, size_t letters)
{
    uint8_t out[PLANNER_FIND_BYTES];
    uint32_t number = planner_find(p->model, p->model_len, name, letters, out, sizeof out);
    if (number == 19)
        printf("several actions are called %.*s\n", (int)letters, (const char *)name);
    else if (number != 0)
        refused(number, out);
    else
        printf("%.*s is action %" PRIu64 "\n", (int)letters, (const char *)name, number_at(out + 4, 4));
}

static void print_name(const plan *p, uint32_t action)
{
    uint8_t out[PLANNER_NAME_BYTES];
    uint32_t number = planner_name(p->model, p->model_len, action, out, sizeof out);
    if (number != 0)
        refused(number, out);
    int letters = (int)number_at(out + 4, 4);
    printf("action %" PRIu32 "%s%.*s\n", action, letters == 0 ? "" : " ", letters, (const char *)out + 8);
    if (letters > 0)
        print_found(p, out + 8, (size_t)letters);
}

static void print_value(const plan *p, const struct planner_state *state)
{
    uint8_t out[PLANNER_VALUE_BYTES];
    uint32_t number = planner_value_at(p->model, p->model_len, p->nodes, PLANNER_NODE_WORDS(p->capacity), p->stages,
                                       PLANNER_STAGE_WORDS, p->horizon, state, out, sizeof out);
    if (number != 0)
        refused(number, out);
    uint32_t action = (uint32_t)number_at(out + 4, 4);
    if (action == 0) {
        printf("value none\n");
        return;
    }
    /* An accepted model begins with 02, m, n, A in two bytes, W. */
    printf("value ");
    print_words(number_at(out + 8, 8), number_at(out + 16, 8));
    printf(" / (%" PRId32 " * %d^%" PRIu32 ")\n", state->denominator, p->model[5], p->model[2] * p->horizon);
    print_name(p, action);
}

static void print_plan(const plan *p)
{
    uint8_t out[PLANNER_LISTING_BYTES];
    size_t room = LINE_BYTES_MOST * (p->capacity + 1 + PLANNER_STAGE_WORDS);
    uint8_t *text = lent(room, 1);
    uint32_t number = planner_listing(p->model, p->model_len, p->horizon, p->nodes, PLANNER_NODE_WORDS(p->capacity),
                                      p->stages, PLANNER_STAGE_WORDS, text, room, 0, out, sizeof out);
    if (number != 0)
        refused(number, out);
    fwrite(text, 1, (size_t)number_at(out + 4, 4), stdout);
    free(text);
}

/* A line for each number of steps left. */
static void print_page(const plan *p, const struct planner_state *state)
{
    uint8_t out[PLANNER_PAGE_BYTES], text[PLANNER_PAGE_TEXT_BYTES(PLANNER_STAGE_WORDS)];
    uint32_t number = planner_page_at(p->model, p->model_len, p->horizon, p->nodes, PLANNER_NODE_WORDS(p->capacity),
                                      p->stages, PLANNER_STAGE_WORDS, state, text, sizeof text, 0, out, sizeof out);
    if (number != 0)
        refused(number, out);
    fwrite(text, 1, (size_t)number_at(out + 4, 4), stdout);
}

static void *import_here(void *argument)
{
    plan *p = argument;
    p->number = planner_import((const uint8_t *)TANKS, sizeof TANKS - 1, p->model, PLANNER_MODEL_BYTES_MOST, p->out,
                               PLANNER_IMPORT_BYTES);
    p->model_len = (size_t)number_at(p->out + 4, 4);
    return NULL;
}

/* The plan asks L2 <= 0, then L1 <= 0, then L1 + L2 <= 0: on the path low, low, high -L2 < 0, -L1 < 0 and L1 + L2 <= 0, each
 * taken once, add up to 0 < 0, so that no state takes it. */
static void *cut_off_here(void *argument)
{
    static const uint8_t turns[] = {0, 0, 1};
    static const int32_t multipliers[] = {1, 1, 1};
    plan *p = argument;
    p->number = planner_prune(p->model, p->model_len, p->nodes, PLANNER_NODE_WORDS(p->capacity), p->stages,
                              PLANNER_STAGE_WORDS, p->work, PLANNER_WORK_WORDS(p->capacity), p->horizon, turns,
                              sizeof turns, multipliers, sizeof multipliers / sizeof *multipliers, p->out,
                              PLANNER_PRUNE_BYTES);
    return NULL;
}

/* Whether the best action stays best, whatever rewards differ by at most so much. */
static void print_sure(const plan *p, const struct planner_state *state, int32_t change)
{
    uint8_t out[PLANNER_SURE_BYTES];
    uint32_t number = planner_sure_at(p->model, p->model_len, p->horizon, state, change, out, sizeof out);
    if (number != 0)
        refused(number, out);
    printf("rewards differ by at most %" PRId32 ": %s\n", change, number_at(out + 4, 4) != 0 ? "sure" : "not sure");
}

/* The site at one state and the same site at another, as two that share no water. */
static void print_total(const plan *p, const struct planner_state *first, const struct planner_state *second)
{
    uint8_t out[PLANNER_TOTAL_BYTES];
    size_t words = PLANNER_NODE_WORDS(p->capacity);
    uint32_t number = planner_total_at(p->model, p->model_len, p->nodes, words, p->stages, PLANNER_STAGE_WORDS, first,
                                       p->model, p->model_len, p->nodes, words, p->stages, PLANNER_STAGE_WORDS, second,
                                       p->horizon, out, sizeof out);
    if (number != 0)
        refused(number, out);
    printf("two sites: actions %" PRIu64 " and %" PRIu64 ", total ", number_at(out + 4, 4), number_at(out + 8, 4));
    print_words(number_at(out + 12, 8), number_at(out + 20, 8));
    printf(" / %" PRId32 "\n", first->denominator);
}

/* The text above: imported, solved for one step, and asked about two states. Its W is 1. */
static void print_tanks(plan *p)
{
    struct planner_state full = {0, {5, 5}, 1}, empty = {0, {-5, -5}, 1};
    p->model = lent(PLANNER_MODEL_BYTES_MOST, 1);
    run(import_here, p, PLANNER_IMPORT_STACK_BYTES);
    printf("imported, %zu bytes\n", p->model_len);
    p->horizon = 1;
    p->capacity = 64;
    solve(p);
    printf("the plan has %" PRIu32 " nodes", p->stages[0]);
    run(cut_off_here, p, PLANNER_STACK_BYTES(p->capacity));
    printf(", and %" PRIu32 " once a path is cut off\n", p->stages[0]);
    print_plan(p);
    print_value(p, &full);
    print_sure(p, &full, 1);
    print_sure(p, &full, 2);
    print_total(p, &full, &empty);
}

static long long argument(const char *text, long long least, long long most)
{
    char *end;
    long long number = strtoll(text, &end, 10);
    if (end == text || *end != '\0' || number < least || number > most)
        fail("an argument is not a number in range");
    return number;
}

/* The mask, levels and their denominator; levels that are left out are 0. */
static struct planner_state state_of(int count, char **arguments)
{
    struct planner_state state = {0, {0}, 0};
    if (count < 3 || count > PLANNER_LEVELS_MOST + 2)
        fail("usage: sample_host MODEL HORIZON NODES [--page] MASK L1 .. D, or sample_host --text");
    state.mask = (uint32_t)argument(arguments[0], 0, UINT32_MAX);
    for (int i = 0; i < count - 2; i++)
        state.level[i] = (int32_t)argument(arguments[1 + i], INT32_MIN, INT32_MAX);
    state.denominator = (int32_t)argument(arguments[count - 1], INT32_MIN, INT32_MAX);
    return state;
}

/* The model of a file, solved. */
static void print_file(plan *p, int count, char **arguments)
{
    int page = count > 4 && strcmp(arguments[4], "--page") == 0, first = 4 + page;
    struct planner_state state = state_of(count - first, arguments + first);
    load(p, arguments[1]);
    if (p->model_len > 0 && p->model[0] == 0x01)
        renew(p);
    p->horizon = (uint32_t)argument(arguments[2], 0, UINT32_MAX);
    p->capacity = (size_t)argument(arguments[3], 0, PLANNER_NODES_MOST);
    solve(p);
    if (page) {
        print_page(p, &state);
    } else {
        print_peak(p);
        print_value(p, &state);
        print_plan(p);
    }
}

int main(int count, char **arguments)
{
    plan p;
    memset(&p, 0, sizeof p);
    if (count == 2 && strcmp(arguments[1], "--text") == 0)
        print_tanks(&p);
    else
        print_file(&p, count, arguments);
    free(p.model);
    free(p.nodes);
    free(p.work);
    return 0;
}
