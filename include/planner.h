/* The tank planner, for C and C++. Link with libplanner.a.
 *
 * Every function but planner_validate returns a number: 0 for success, else that of the refusal. The rest of its answer
 * goes to the start of `out`, numbers low byte first, zeros where a refusal gives none. Exactly the answer's bytes are
 * written. Where `out` is shorter than the answer nothing at all is written anywhere, and the number is 17 unless an
 * earlier refusal applies: of all refusals only 11 and 12 yield to it.
 *
 * A slice is a pointer and a count of elements; NULL is good where the count is 0. The slices of a call must not overlap.
 * Nothing else is read or written, nothing is kept between calls, and calls on different slices may run at once.
 *
 *  1 to 8  the model is refused; place is an offset in it
 *  9       horizon, steps or stage not 1 to 8
 * 10       stage words not eight, peaks not 401, a model or a text above 262,144 bytes, or an old one above 65,535
 * 11       a number leaves its limits; place is the stage, 0 while loading
 * 12       the tables are too small; place is the stage, 0 while loading
 * 13       the state is not one of the model's
 * 14       a node is not as the layout has it
 * 15       a stage word is 0
 * 16       action not 1 to A
 * 17       `out`, `text` or `buffer` is too short, or `place` past the end of `text`
 * 18       no action carries the name
 * 19       several actions carry the name
 * 20       the model does not fit the old form: above 4 levels, 8 actions or 65,535 bytes once written, or a command 13
 * 21       the multipliers do not show that no state takes the path
 * 22       the path is empty, has a byte other than 0 and 1 or leaves the diagram, or has not a multiplier for each test
 * 23       the change of rewards is below zero
 * 24       the text is not one of the grammar; place is the offset of the first byte that no text can have there, or the length
 * 25       a number of the text is beyond signed 32 bits
 * 26       two sites whose weight totals W or whose states' denominators differ
 */
#ifndef PLANNER_H
#define PLANNER_H

#include <stddef.h>
#include <stdint.h>

#ifdef __cplusplus
extern "C" {
#endif

/* What the tables are made of, for a table of so many nodes; more than PLANNER_NODES_MOST are never used. A node is twelve
 * words: kind (0 leaf, 1 condition, 2 test, 3 the leaf "none"), eight coefficients, constant, high, low; behind kind 3 all are
 * zero. Its work words are eight of 32 bits. */
#define PLANNER_NODES_MOST 65535u
#define PLANNER_NODE_WORDS(nodes) ((size_t)12 * (nodes))
#define PLANNER_WORK_WORDS(nodes) ((size_t)8 * (nodes))
#define PLANNER_STAGE_WORDS ((size_t)8)

/* The words of the peaks: loading's, and one for each of PLANNER_ACTIONS_MOST actions. */
#define PLANNER_PEAK_WORDS ((size_t)401)

/* A site has at most so many levels and actions; a model is at most so long, and a name in it. */
#define PLANNER_LEVELS_MOST 8
#define PLANNER_ACTIONS_MOST 400
#define PLANNER_MODEL_BYTES_MOST ((size_t)262144)
#define PLANNER_NAME_LETTERS_MOST ((size_t)16)

/* A model of the old form is at most so long; in the new form it has fewer bytes than the second figure. */
#define PLANNER_OLD_MODEL_BYTES_MOST ((size_t)65535)
#define PLANNER_TO_NEW_MODEL_BYTES ((size_t)115500)

/* The bytes of each answer. */
#define PLANNER_SOLVE_BYTES ((size_t)8)
#define PLANNER_VALUE_BYTES ((size_t)24)
#define PLANNER_TOTAL_BYTES ((size_t)28)
#define PLANNER_WORTH_BYTES ((size_t)24)
#define PLANNER_NAME_BYTES ((size_t)24)
#define PLANNER_LISTING_BYTES ((size_t)8)
#define PLANNER_FIND_BYTES ((size_t)8)
#define PLANNER_PAGE_BYTES ((size_t)8)
#define PLANNER_TO_NEW_BYTES ((size_t)8)
#define PLANNER_TO_OLD_BYTES ((size_t)8)
#define PLANNER_IMPORT_BYTES ((size_t)8)
#define PLANNER_PRUNE_BYTES ((size_t)4)
#define PLANNER_SURE_BYTES ((size_t)8)

/* The bytes of a page, for so many stages: 50 columns and a line end for each. */
#define PLANNER_PAGE_TEXT_BYTES(horizon) ((size_t)51 * (horizon))

/* The stack that a thread needs to solve with so many nodes. Recursion goes down by node numbers: merging and choosing each
 * at most 2 levels a node deep, a substitution one level a node and the same again for the test that it replaces. The
 * figure is the larger sum of these levels' frames in the built library, rounded up. Beside the recursion stand the roots of
 * up to 5,211 diagrams. */
#define PLANNER_STACK_BYTES_A_NODE ((size_t)2816)
#define PLANNER_STACK_BYTES_BESIDE ((size_t)65536)
#define PLANNER_STACK_BYTES(nodes) (PLANNER_STACK_BYTES_BESIDE + PLANNER_STACK_BYTES_A_NODE * (size_t)(nodes))

/* The stack that a thread needs to import a text, whatever the text: 262,144 bytes for the model, until every refusal is out,
 * 1,048,576 for a list of the questions on the way to a result, and the frames of the calls, those of up to 33 brackets too.
 * planner_prune needs what planner_solve does; every other call does with PLANNER_STACK_BYTES_BESIDE. */
#define PLANNER_IMPORT_STACK_BYTES ((size_t)1376256)

/* A state: bit i - 1 of mask is condition i; the levels' numerators, those beyond the site's levels zero, and their
 * denominator. Each function of a state has one with the suffix _at that takes it so. */
struct planner_state {
    uint32_t mask;
    int32_t level[PLANNER_LEVELS_MOST];
    int32_t denominator;
};

/* Solves the model into the lent tables. Answer: place u32, peak u32, the largest count of needed nodes.
 * `peaks` has exactly PLANNER_PEAK_WORDS words. The first becomes the peak of loading, word a that of action a: the largest
 * count over the operations of the action in all stages; zeros after the last action. The largest of them is the answer's.
 * A refusal 1 to 10 or 17 leaves all words as they are; 11 and 12 leave them zero. */
uint32_t planner_solve(const uint8_t *model, size_t model_len, uint32_t horizon,
                       int64_t *nodes, size_t node_words, uint32_t *stages, size_t stage_words,
                       uint32_t *work, size_t work_words, uint32_t *peaks, size_t peak_words,
                       uint8_t *out, size_t out_len);

/* The value and the best action at a state, with 1 to horizon steps left, from tables that planner_solve filled.
 * Bit i - 1 of mask is condition i; l1 to l8 are the levels' numerators, d their denominator.
 * Answer: place u32, action u32, low word u64, high word i64. The value is
 * (high * 2^64 + low) / (d * W^(n * steps)), with the model's W and n.
 * The value is none where whatever is done has a chance above zero of a forbidden action within the steps: the number, both
 * words and the action are then 0. A value of 0 has an action from 1 on. */
uint32_t planner_value(const uint8_t *model, size_t model_len, const int64_t *nodes, size_t node_words,
                       const uint32_t *stages, size_t stage_words, uint32_t steps, uint32_t mask,
                       int32_t l1, int32_t l2, int32_t l3, int32_t l4, int32_t l5, int32_t l6, int32_t l7, int32_t l8,
                       int32_t d, uint8_t *out, size_t out_len);

static inline uint32_t planner_value_at(const uint8_t *model, size_t model_len, const int64_t *nodes, size_t node_words,
                                        const uint32_t *stages, size_t stage_words, uint32_t steps,
                                        const struct planner_state *state, uint8_t *out, size_t out_len)
{
    const int32_t *l = state->level;
    return planner_value(model, model_len, nodes, node_words, stages, stage_words, steps, state->mask, l[0], l[1], l[2],
                         l[3], l[4], l[5], l[6], l[7], state->denominator, out, out_len);
}

/* The same worked from the model alone, without tables; its time grows steeply with the steps. Answers as planner_value. */
uint32_t planner_worth(const uint8_t *model, size_t model_len, uint32_t steps, uint32_t mask,
                       int32_t l1, int32_t l2, int32_t l3, int32_t l4, int32_t l5, int32_t l6, int32_t l7, int32_t l8,
                       int32_t d, uint8_t *out, size_t out_len);

static inline uint32_t planner_worth_at(const uint8_t *model, size_t model_len, uint32_t steps,
                                        const struct planner_state *state, uint8_t *out, size_t out_len)
{
    const int32_t *l = state->level;
    return planner_worth(model, model_len, steps, state->mask, l[0], l[1], l[2], l[3], l[4], l[5], l[6], l[7],
                         state->denominator, out, out_len);
}

/* Whether the action that planner_worth gives stays best where prices move (K12): sure is 1 where its worth exceeds that of
 * every other action that has one by more than 2 * steps * e, else 0; at a state whose value is none it is 0. For any model
 * with the same chances, next levels, end worth and forbidden leaves, and rewards that differ nowhere by more than e, a sure
 * action is best there, alone; and the value moves by at most steps * e, sure or not.
 * Answer: place u32, sure u32. Refusals in order: 10; 9; 1 to 8; 13; 23 where e is below zero; 17; 11 as planner_worth gives
 * it. Time and stack are those of planner_worth. */
uint32_t planner_sure(const uint8_t *model, size_t model_len, uint32_t steps, uint32_t mask,
                      int32_t l1, int32_t l2, int32_t l3, int32_t l4, int32_t l5, int32_t l6, int32_t l7, int32_t l8,
                      int32_t d, int32_t e, uint8_t *out, size_t out_len);

static inline uint32_t planner_sure_at(const uint8_t *model, size_t model_len, uint32_t steps,
                                       const struct planner_state *state, int32_t e, uint8_t *out, size_t out_len)
{
    const int32_t *l = state->level;
    return planner_sure(model, model_len, steps, state->mask, l[0], l[1], l[2], l[3], l[4], l[5], l[6], l[7],
                        state->denominator, e, out, out_len);
}

/* An action's name without its trailing spaces, empty where it has none. Action 0, that of a value none, is refused with 16.
 * Answer: place u32, length u32, the name's bytes, zeros up to 16. */
uint32_t planner_name(const uint8_t *model, size_t model_len, uint32_t action, uint8_t *out, size_t out_len);

/* The action that carries a name, which may be any bytes of any length. Trailing spaces of it do not matter; leading and inner
 * ones and capitals do. Nobody carries the empty name. Answer: place u32, action u32. */
uint32_t planner_find(const uint8_t *model, size_t model_len, const uint8_t *name, size_t name_len,
                      uint8_t *out, size_t out_len);

/* The plan as text, written to `text` from `place` on. Answer: place u32 of a refusal, length u32 of what was written.
 * The length is cut to 32 bits; a table that planner_solve filled has a text far below that.
 * A refusal leaves `text` as it is. */
uint32_t planner_listing(const uint8_t *model, size_t model_len, uint32_t horizon,
                         const int64_t *nodes, size_t node_words, const uint32_t *stages, size_t stage_words,
                         uint8_t *text, size_t text_len, size_t place, uint8_t *out, size_t out_len);

/* The page of a state, written to `text` from `place` on: a line for each of 1 to horizon steps left, with the steps in 2
 * columns, the value's whole part rounded downward in 30 and the action's name in 16; where there is no value `none` at the
 * right end of the 30 and no name. The state is planner_value's.
 * Answer: place u32 of a refusal, length u32 of what was written. A refusal leaves `text` as it is; 15 of any stage comes
 * before 14 of any. */
uint32_t planner_page(const uint8_t *model, size_t model_len, uint32_t horizon, const int64_t *nodes, size_t node_words,
                      const uint32_t *stages, size_t stage_words, uint32_t mask, int32_t l1, int32_t l2, int32_t l3,
                      int32_t l4, int32_t l5, int32_t l6, int32_t l7, int32_t l8, int32_t d, uint8_t *text,
                      size_t text_len, size_t place, uint8_t *out, size_t out_len);

static inline uint32_t planner_page_at(const uint8_t *model, size_t model_len, uint32_t horizon, const int64_t *nodes,
                                       size_t node_words, const uint32_t *stages, size_t stage_words,
                                       const struct planner_state *state, uint8_t *text, size_t text_len, size_t place,
                                       uint8_t *out, size_t out_len)
{
    const int32_t *l = state->level;
    return planner_page(model, model_len, horizon, nodes, node_words, stages, stage_words, state->mask, l[0], l[1], l[2],
                        l[3], l[4], l[5], l[6], l[7], state->denominator, text, text_len, place, out, out_len);
}

/* The number and the place of a model's refusal: 10 and 0 for a model above 262,144 bytes, else 1 to 8; 0 and 0 where it is
 * accepted. */
typedef struct planner_judged {
    uint32_t number;
    size_t place;
} planner_judged;

planner_judged planner_validate(const uint8_t *model, size_t model_len);

/* A model in the other form (K6), written to the start of `buffer`: the same commands in the same order, with the same values
 * and best actions. An old model begins with site 01; a new one, which all functions above read, with site 02. Answer:
 * place u32 of a refusal, an offset in the model that is given; length u32 of what was written. A refusal leaves `buffer` as
 * it is, and no byte behind the result is touched.
 *
 * Old into new. Refusals in order: 10 for an old model above 65,535 bytes; 1 to 8 by the old form's rules; 17. */
uint32_t planner_to_new(const uint8_t *old, size_t old_len, uint8_t *buffer, size_t buffer_len,
                        uint8_t *out, size_t out_len);

/* New into old; planner_to_new then gives the same bytes again. Refusals in order: 10 for a model above 262,144 bytes; 1 to 8;
 * 20 where it does not fit the old form; 17. */
uint32_t planner_to_old(const uint8_t *model, size_t model_len, uint8_t *buffer, size_t buffer_len,
                        uint8_t *out, size_t out_len);

/* The model of a text (K13), written to the start of `buffer`; docs/TEXT-MODELS.md has the grammar and the commands that a text
 * becomes. Answer: place u32 of a refusal; length u32 of what was written. A refusal leaves `buffer` as it is, and no byte behind
 * the model is touched. Refusals in order: 10 for a text above 262,144 bytes; 24, whose place is an offset in the text; 25; then of
 * the model that it becomes 10, and 1 to 8 by the model's offsets; 17. The stack is PLANNER_IMPORT_STACK_BYTES. */
uint32_t planner_import(const uint8_t *text, size_t text_len, uint8_t *buffer, size_t buffer_len,
                        uint8_t *out, size_t out_len);

/* Cuts a path that no state can take off the diagram of a stage, 1 to 8, in tables that planner_solve filled. `turns` has a
 * byte for each node on the way from the stage's root: 1 where the path goes on at the high branch, 0 at the low one.
 * `multipliers` has a number of 0 or more for each linear test on the way, the last node's too, in that order; conditions
 * have none. A high side of a test p reads p <= 0, a low side -p < 0. These are added up, each times its multiplier: the path
 * is accepted exactly when all coefficients cancel and the constant is above 0, or is 0 with a multiplier above 0 on some low
 * side.
 *
 * The last node is then replaced, on this path only, by the branch that the path does not take, all nodes are made anew, and
 * node, stage and work words are numbered and cleared as after solving. Every state reads the same values and actions as
 * before, so one path may follow another. Nodes that other paths share are copied, so that there may be more of them.
 *
 * Answer: place u32. Refusals in order: 10; 9 for the stage; 1 to 8; 15 for this stage alone; 14 for any node up to the
 * greatest of the eight stage words; 22; 21; 17; 12, its place being the stage, where the nodes up to that greatest word and
 * one for each turn but the last exceed what the tables hold. A refusal, 12 too, leaves all words as they are. The stack is
 * that of planner_solve. */
uint32_t planner_prune(const uint8_t *model, size_t model_len, int64_t *nodes, size_t node_words,
                       uint32_t *stages, size_t stage_words, uint32_t *work, size_t work_words, uint32_t stage,
                       const uint8_t *turns, size_t turns_len, const int32_t *multipliers, size_t multipliers_len,
                       uint8_t *out, size_t out_len);

/* Two sites that share no water and no condition, as one: both actions and the best expected total, with so many steps left to
 * both. Each side has its model, the tables that planner_solve filled for it, and its state; W and d must be the same. One
 * model may stand on both sides, at two states.
 * Answer: place u32, first action u32, second action u32, low word u64, high word i64. The total is
 * (high * 2^64 + low) / (d * W^((n1 + n2) * steps)). It is none where either side has no value: the number, both words and
 * both actions are then 0.
 * Refusals in order: those of planner_value for the first side, then those for the second; 26; 17; 11, place 0, where the
 * numerator lies outside the two words. */
uint32_t planner_total(const uint8_t *model1, size_t model1_len, const int64_t *nodes1, size_t node_words1,
                       const uint32_t *stages1, size_t stage_words1, uint32_t mask1, int32_t l11, int32_t l12, int32_t l13,
                       int32_t l14, int32_t l15, int32_t l16, int32_t l17, int32_t l18, int32_t d1,
                       const uint8_t *model2, size_t model2_len, const int64_t *nodes2, size_t node_words2,
                       const uint32_t *stages2, size_t stage_words2, uint32_t mask2, int32_t l21, int32_t l22, int32_t l23,
                       int32_t l24, int32_t l25, int32_t l26, int32_t l27, int32_t l28, int32_t d2,
                       uint32_t steps, uint8_t *out, size_t out_len);

static inline uint32_t planner_total_at(const uint8_t *model1, size_t model1_len, const int64_t *nodes1, size_t node_words1,
                                        const uint32_t *stages1, size_t stage_words1, const struct planner_state *state1,
                                        const uint8_t *model2, size_t model2_len, const int64_t *nodes2, size_t node_words2,
                                        const uint32_t *stages2, size_t stage_words2, const struct planner_state *state2,
                                        uint32_t steps, uint8_t *out, size_t out_len)
{
    const int32_t *l = state1->level, *k = state2->level;
    return planner_total(model1, model1_len, nodes1, node_words1, stages1, stage_words1, state1->mask, l[0], l[1], l[2], l[3],
                         l[4], l[5], l[6], l[7], state1->denominator, model2, model2_len, nodes2, node_words2, stages2,
                         stage_words2, state2->mask, k[0], k[1], k[2], k[3], k[4], k[5], k[6], k[7], state2->denominator,
                         steps, out, out_len);
}

#ifdef __cplusplus
}
#endif

#endif
