/* grasp_step. */
#include <string.h>

#include "test.h"

/* Steps with all margins looked at; what is refused leaves the state. */
static uint8_t step(uint64_t state[GRASP_STATE_FIELDS], const char *digits, uint64_t side) {
    const struct bytes message = hex(digits);
    const uint8_t *bytes = lend(BYTES, message.at, message.len);
    uint64_t *lent = lend(STATE, state, GRASP_STATE_FIELDS * sizeof *lent);
    uint8_t refusal = saw_refusal(grasp_step(lent, bytes, message.len, side));
    EXPECT(is_as_lent(BYTES));
    EXPECT(has_margins(STATE));
    EXPECT(refusal == 0 || is_as_lent(STATE));
    memcpy(state, lent, GRASP_STATE_FIELDS * sizeof *lent);
    return refusal;
}

static int is_state(const uint64_t state[GRASP_STATE_FIELDS], uint64_t phase, uint64_t session,
                    uint64_t count, uint64_t turn) {
    return state[GRASP_STATE_PHASE] == phase && state[GRASP_STATE_SESSION] == session &&
           state[GRASP_STATE_COUNT] == count && state[GRASP_STATE_TURN] == turn;
}

/* Session 7: a Request of count 3, Negotiates, a Wait and an End. */
static const char request[] = "83 03 07 83 61 41 02 03", negotiate_3[] = "83 05 07 83 61 41 02 03",
                  negotiate_2[] = "83 05 07 83 61 41 02 02", negotiate_1[] = "83 05 07 83 61 41 02 01",
                  negotiate_0[] = "83 05 07 83 61 41 02 00", wait[] = "83 07 07 19 03E8",
                  end[] = "83 06 07 81 18 65";

/* They ask; the turn passes with each Negotiate, stays with a Wait, and the End closes for good. */
static void test_talk(void) {
    uint64_t state[GRASP_STATE_FIELDS] = {0};
    EXPECT_NUMBER(step(state, request, GRASP_SIDE_THEY), 0);
    EXPECT(is_state(state, GRASP_PHASE_OPEN, 7, 3, GRASP_SIDE_WE));
    EXPECT_NUMBER(step(state, negotiate_2, GRASP_SIDE_THEY), GRASP_REFUSAL_NOT_ALLOWED);
    EXPECT_NUMBER(step(state, negotiate_3, GRASP_SIDE_WE), GRASP_REFUSAL_NOT_ALLOWED);
    EXPECT_NUMBER(step(state, negotiate_1, GRASP_SIDE_WE), GRASP_REFUSAL_NOT_ALLOWED);
    EXPECT_NUMBER(step(state, "83 05 08 83 61 41 02 02", GRASP_SIDE_WE), GRASP_REFUSAL_NOT_ALLOWED);
    EXPECT_NUMBER(step(state, wait, GRASP_SIDE_WE), 0);
    EXPECT(is_state(state, GRASP_PHASE_OPEN, 7, 3, GRASP_SIDE_WE));
    EXPECT_NUMBER(step(state, negotiate_2, GRASP_SIDE_WE), 0);
    EXPECT(is_state(state, GRASP_PHASE_OPEN, 7, 2, GRASP_SIDE_THEY));
    EXPECT_NUMBER(step(state, negotiate_1, GRASP_SIDE_THEY), 0);
    EXPECT(is_state(state, GRASP_PHASE_OPEN, 7, 1, GRASP_SIDE_WE));
    EXPECT_NUMBER(step(state, negotiate_0, GRASP_SIDE_WE), GRASP_REFUSAL_NOT_ALLOWED);
    EXPECT_NUMBER(step(state, request, GRASP_SIDE_WE), GRASP_REFUSAL_NOT_ALLOWED);
    EXPECT_NUMBER(step(state, "81 00", GRASP_SIDE_WE), GRASP_REFUSAL_NOT_ALLOWED);
    EXPECT_NUMBER(step(state, "81 00 00", GRASP_SIDE_WE), GRASP_REFUSAL_BYTES_AFTER);
    EXPECT_NUMBER(step(state, "", GRASP_SIDE_WE), GRASP_REFUSAL_BAD_SIZE);
    EXPECT_NUMBER(step(state, end, GRASP_SIDE_THEY), GRASP_REFUSAL_NOT_ALLOWED);
    EXPECT_NUMBER(step(state, end, GRASP_SIDE_WE), 0);
    EXPECT(is_state(state, GRASP_PHASE_CLOSED, 0, 0, 0));
    EXPECT_NUMBER(step(state, request, GRASP_SIDE_THEY), GRASP_REFUSAL_NOT_ALLOWED);
}

/* What opens a fresh state. */
static void test_fresh(void) {
    uint64_t state[GRASP_STATE_FIELDS] = {0};
    EXPECT_NUMBER(step(state, "83 03 07 83 61 41 02 00", GRASP_SIDE_WE), GRASP_REFUSAL_NOT_ALLOWED);
    EXPECT_NUMBER(step(state, "83 04 07 83 61 41 02 03", GRASP_SIDE_WE), GRASP_REFUSAL_NOT_ALLOWED);
    EXPECT_NUMBER(step(state, negotiate_2, GRASP_SIDE_WE), GRASP_REFUSAL_NOT_ALLOWED);
    EXPECT_NUMBER(step(state, wait, GRASP_SIDE_THEY), GRASP_REFUSAL_NOT_ALLOWED);
    EXPECT_NUMBER(step(state, end, GRASP_SIDE_THEY), GRASP_REFUSAL_NOT_ALLOWED);
    EXPECT_NUMBER(step(state, request, 2), GRASP_REFUSAL_NOT_ALLOWED);
    EXPECT_NUMBER(step(state, request, UINT64_MAX), GRASP_REFUSAL_NOT_ALLOWED);
    EXPECT_NUMBER(step(state, "83 03 1A FFFFFFFF 83 61 41 02 18 FF", GRASP_SIDE_WE), 0);
    EXPECT(is_state(state, GRASP_PHASE_OPEN, UINT32_MAX, 255, GRASP_SIDE_THEY));
}

/* A state with a number that isn't one of ours refuses every message, by its own number or by 20. */
static void test_no_state(void) {
    static const uint64_t states[][GRASP_STATE_FIELDS] = {
        {UINT64_MAX, UINT64_MAX, UINT64_MAX, UINT64_MAX},
        {3, 7, 3, 0},
        {GRASP_PHASE_OPEN, (uint64_t)1 << 32 | 7, 3, 0},
        {GRASP_PHASE_OPEN, 7, 256 + 3, 0},
        {GRASP_PHASE_OPEN, 7, 3, 2},
        {GRASP_PHASE_OPEN, 7, 0, 0},
        {GRASP_PHASE_CLOSED, 7, 3, 0},
    };
    static const char *const messages[] = {request, negotiate_2, wait, end};
    for (size_t i = 0; i < sizeof states / sizeof *states; i++) {
        uint64_t state[GRASP_STATE_FIELDS];
        memcpy(state, states[i], sizeof state);
        for (size_t j = 0; j < sizeof messages / sizeof *messages; j++) {
            EXPECT_NUMBER(step(state, messages[j], GRASP_SIDE_WE), GRASP_REFUSAL_NOT_ALLOWED);
            EXPECT_NUMBER(step(state, messages[j], GRASP_SIDE_THEY), GRASP_REFUSAL_NOT_ALLOWED);
        }
        EXPECT_NUMBER(step(state, "FF", GRASP_SIDE_WE), GRASP_REFUSAL_INDEFINITE);
        EXPECT_NUMBER(step(state, "FF", UINT64_MAX), GRASP_REFUSAL_INDEFINITE);
    }
}

void test_negotiation(void) {
    test_talk();
    test_fresh();
    test_no_state();
}
