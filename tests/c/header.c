/* The header as C99 and as C++11: each function of a state beside the one that takes the state's fields, at a state with
 * eight levels. The model's reward, and the one leaf of the table, is L1 + 2 L2 + .. + 8 L8 + 9.
 */
#include "planner.h"
#include "planner.h" /* once more does no harm */

#include <stdio.h>
#include <string.h>

static uint8_t model[1024];
static size_t len;

static void byte(int b)
{
    model[len++] = (uint8_t)b;
}

/* A leaf with these coefficients: 1 to 8, or 1 for one level alone. */
static void leaf(int one_level, int constant)
{
    byte(0x10);
    for (int level = 1; level <= PLANNER_LEVELS_MOST + 1; level++) {
        int number = one_level == 0 ? level : level == one_level;
        byte(level > PLANNER_LEVELS_MOST ? constant : number);
        byte(0);
        byte(0);
        byte(0);
    }
}

static void write_model(void)
{
    static const uint8_t site[6] = {0x02, 8, 0, 1, 0, 1};
    memcpy(model, site, sizeof site);
    len = sizeof site;
    leaf(0, 9);
    byte(0x20);
    byte(1);
    byte(0);
    for (int level = 1; level <= PLANNER_LEVELS_MOST; level++) {
        leaf(level, 0);
        byte(0x22);
        byte(1);
        byte(0);
        byte(level);
    }
    byte(0xFF);
}

static int same(const char *what, uint32_t number, uint32_t other, const uint8_t *out, const uint8_t *other_out, size_t count)
{
    if (number == 0 && other == 0 && memcmp(out, other_out, count) == 0)
        return 1;
    printf("header: %s: %u and %u, or other answers\n", what, (unsigned)number, (unsigned)other);
    return 0;
}

int main(void)
{
    /* 3 + 2 * 5 + 3 * 7 + 4 * 11 + 5 * 13 + 6 * 17 + 7 * 19 + 8 * 23 is 562, and 9 * 2 is 18: 580, halved 290. */
    struct planner_state s = {0, {3, 5, 7, 11, 13, 17, 19, 23}, 2};
    const int64_t nodes[12] = {0, 1, 2, 3, 4, 5, 6, 7, 8, 9, 1, 0};
    const uint32_t stages[8] = {1, 0, 0, 0, 0, 0, 0, 0};
    uint8_t out[PLANNER_VALUE_BYTES], other[PLANNER_VALUE_BYTES], text[PLANNER_PAGE_TEXT_BYTES(1) + 1];
    /* 8 * 1 and 9 * 2 are 26, with the 580 606. */
    struct planner_state t = {0, {0, 0, 0, 0, 0, 0, 0, 1}, 2};
    uint8_t both[PLANNER_TOTAL_BYTES], other_both[PLANNER_TOTAL_BYTES];
    uint32_t r, q;
    int good = 1;
    write_model();
    r = planner_value_at(model, len, nodes, 12, stages, 8, 1, &s, out, sizeof out);
    q = planner_value(model, len, nodes, 12, stages, 8, 1, 0, 3, 5, 7, 11, 13, 17, 19, 23, 2, other, sizeof other);
    good &= same("value", r, q, out, other, sizeof out) && out[4] == 1 && out[8] == 580 % 256 && out[9] == 580 / 256;
    r = planner_worth_at(model, len, 1, &s, out, sizeof out);
    q = planner_worth(model, len, 1, 0, 3, 5, 7, 11, 13, 17, 19, 23, 2, other, sizeof other);
    good &= same("worth", r, q, out, other, sizeof out) && out[4] == 1 && out[8] == 580 % 256 && out[9] == 580 / 256;
    r = planner_sure_at(model, len, 1, &s, 4, out, sizeof out);
    q = planner_sure(model, len, 1, 0, 3, 5, 7, 11, 13, 17, 19, 23, 2, 4, other, sizeof other);
    good &= same("sure", r, q, out, other, PLANNER_SURE_BYTES) && out[4] == 1;
    memset(text, 0, sizeof text);
    r = planner_page_at(model, len, 1, nodes, 12, stages, 8, &s, text, sizeof text, 0, out, sizeof out);
    good &= r == 0 && strstr((const char *)text, " 290 ") != NULL;
    q = planner_page(model, len, 1, nodes, 12, stages, 8, 0, 3, 5, 7, 11, 13, 17, 19, 23, 2, text, sizeof text, 0, other,
                     sizeof other);
    good &= same("page", r, q, out, other, PLANNER_PAGE_BYTES) && strstr((const char *)text, " 290 ") != NULL;
    r = planner_total_at(model, len, nodes, 12, stages, 8, &s, model, len, nodes, 12, stages, 8, &t, 1, both, sizeof both);
    q = planner_total(model, len, nodes, 12, stages, 8, 0, 3, 5, 7, 11, 13, 17, 19, 23, 2, model, len, nodes, 12, stages, 8, 0, 0,
                      0, 0, 0, 0, 0, 0, 1, 2, 1, other_both, sizeof other_both);
    good &= same("total", r, q, both, other_both, sizeof both) && both[4] == 1 && both[8] == 1 && both[12] == 606 % 256;
    good &= planner_validate(model, len).number == 0;
    printf("header: %s\n", good ? "as it should be" : "FAILED");
    return !good;
}
