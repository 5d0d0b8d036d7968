/* The names of grasp.h and their numbers, and the words of grasp_text.h. */
#include <string.h>

#include "grasp_text.h"
#include "test.h"

#define IS(name, number)                                                                                     \
    { "GRASP_" #name, GRASP_##name, number }

/* Every name with its number, as in docs/RULES.md and RFC 8990; `run` looks that none is missing. */
static const struct {
    const char *name;
    uint64_t is, wanted;
} numbers[] = {
    /* refusals */
    IS(OK, 0), IS(REFUSAL_BAD_SIZE, 1), IS(REFUSAL_CUT, 2), IS(REFUSAL_RESERVED, 3),
    IS(REFUSAL_INDEFINITE, 4), IS(REFUSAL_LONG_HEAD, 5), IS(REFUSAL_TOO_DEEP, 6), IS(REFUSAL_BYTES_AFTER, 7),
    IS(REFUSAL_UNKNOWN_KIND, 8), IS(REFUSAL_BAD_SHAPE, 9), IS(REFUSAL_LONG_NAME, 10),
    IS(REFUSAL_BAD_TEXT, 11), IS(REFUSAL_BAD_RECORD, 12), IS(REFUSAL_BAD_LINK, 13),
    IS(REFUSAL_EARLY_CLOCK, 14), IS(REFUSAL_BAD_TABLE, 15), IS(REFUSAL_BAD_NAMES, 16),
    IS(REFUSAL_CALL_OUTPUT, 17), IS(REFUSAL_NO_SUCH_MESSAGE, 18), IS(REFUSAL_WRITE_OUTPUT, 19),
    IS(REFUSAL_NOT_ALLOWED, 20),
    /* kinds */
    IS(KIND_NOOP, 0), IS(KIND_DISCOVERY, 1), IS(KIND_RESPONSE, 2), IS(KIND_REQUEST_NEGOTIATION, 3),
    IS(KIND_REQUEST_SYNCHRONIZATION, 4), IS(KIND_NEGOTIATE, 5), IS(KIND_END, 6), IS(KIND_WAIT, 7),
    IS(KIND_SYNCH, 8), IS(KIND_FLOOD, 9), IS(KIND_INVALID, 99),
    /* flags */
    IS(FLAG_DISCOVERY, 1), IS(FLAG_NEGOTIATION, 2), IS(FLAG_SYNCHRONIZATION, 4), IS(FLAG_DRY_RUN, 8),
    /* limits and sizes */
    IS(MAX_MESSAGE_BYTES, 2048), IS(MAX_NAME_BYTES, 64), IS(MAX_NAMES, 16), IS(MAX_NAMES_BYTES, 1057),
    IS(MAX_INTERFACES, 8), IS(STACK_BYTES, 8192), IS(ADDRESS_BYTES, 16), IS(TABLE_BYTES, 2048),
    /* verdicts */
    IS(VERDICT_OWN, 1), IS(VERDICT_ANSWER, 2), IS(VERDICT_DUPLICATE, 3), IS(VERDICT_LAST, 4),
    IS(VERDICT_NOWHERE, 5), IS(VERDICT_NOROW, 6), IS(VERDICT_RELAY, 7), IS(VERDICT_NOOP, 8),
    IS(VERDICT_HAND, 9),
    /* the answer's fields */
    IS(ANSWER_VERDICT, 0), IS(ANSWER_HANDED_UP, 1), IS(ANSWER_MASK, 2), IS(ANSWER_LENGTH, 3),
    IS(ANSWER_FIELDS, 4),
    /* a message's fields */
    IS(MESSAGE_KIND, 0), IS(MESSAGE_SESSION, 1), IS(MESSAGE_INITIATOR_AT, 2), IS(MESSAGE_INITIATOR_LEN, 3),
    IS(MESSAGE_TTL, 4), IS(MESSAGE_HAS_OBJECTIVE, 5), IS(MESSAGE_NAME_AT, 6), IS(MESSAGE_NAME_LEN, 7),
    IS(MESSAGE_FLAGS, 8), IS(MESSAGE_COUNT, 9), IS(MESSAGE_COUNT_AT, 10), IS(MESSAGE_VALUE_AT, 11),
    IS(MESSAGE_VALUE_LEN, 12), IS(MESSAGE_LIST, 13), IS(MESSAGE_LIST_AT, 14), IS(MESSAGE_LIST_MANY, 15),
    IS(MESSAGE_OUTCOME, 16), IS(MESSAGE_ITEM_AT, 17), IS(MESSAGE_ITEM_LEN, 18), IS(MESSAGE_FIELDS, 19),
    /* lists, outcomes, locators, protocols and null */
    IS(LIST_LOCATORS, 1), IS(LIST_DIVERT, 2), IS(LIST_PAIRS, 3), IS(OUTCOME_ACCEPT, 1),
    IS(OUTCOME_DECLINE, 2), IS(OUTCOME_DECLINE_REASON, 3), IS(OPTION_IPV6, 103), IS(OPTION_IPV4, 104),
    IS(OPTION_DOMAIN, 105), IS(OPTION_URI, 106), IS(PROTOCOL_NULL, 0), IS(PROTOCOL_TCP, 6),
    IS(PROTOCOL_UDP, 17), IS(PORT_NULL, 65536),
    /* a locator's fields, and a pair's */
    IS(LOCATOR_KIND, 0), IS(LOCATOR_AT, 1), IS(LOCATOR_LEN, 2), IS(LOCATOR_PROTOCOL, 3), IS(LOCATOR_PORT, 4),
    IS(LOCATOR_FIELDS, 5), IS(PAIR_NAME_AT, 0), IS(PAIR_NAME_LEN, 1), IS(PAIR_FLAGS, 2), IS(PAIR_COUNT, 3),
    IS(PAIR_COUNT_AT, 4), IS(PAIR_VALUE_AT, 5), IS(PAIR_VALUE_LEN, 6), IS(PAIR_LOCATOR, 7),
    IS(PAIR_FIELDS, 12),
    /* a state's fields, phases and sides */
    IS(STATE_PHASE, 0), IS(STATE_SESSION, 1), IS(STATE_COUNT, 2), IS(STATE_TURN, 3), IS(STATE_FIELDS, 4),
    IS(PHASE_FRESH, 0), IS(PHASE_OPEN, 1), IS(PHASE_CLOSED, 2), IS(SIDE_WE, 0), IS(SIDE_THEY, 1),
    /* a record's fields */
    IS(NUMBER_PORT, 0), IS(NUMBER_TTL, 1), IS(NUMBER_INTERFACES, 2), IS(NUMBER_LINKS, 3), IS(NUMBER_CLOCK, 4),
    IS(NUMBER_TALLY, 5), IS(NUMBER_FIELDS, 6)};

/* The words of the numbers that have any. */
enum { NUMBERS = 256 };
static const char *const refusals[NUMBERS] = {
    [GRASP_OK] = "accepted",
    [GRASP_REFUSAL_BAD_SIZE] = "no bytes, or over 2,048",
    [GRASP_REFUSAL_CUT] = "ends inside an item",
    [GRASP_REFUSAL_RESERVED] = "reserved head",
    [GRASP_REFUSAL_INDEFINITE] = "indefinite length",
    [GRASP_REFUSAL_LONG_HEAD] = "head longer than needed",
    [GRASP_REFUSAL_TOO_DEEP] = "nested too deep",
    [GRASP_REFUSAL_BYTES_AFTER] = "bytes after the item",
    [GRASP_REFUSAL_UNKNOWN_KIND] = "unknown kind",
    [GRASP_REFUSAL_BAD_SHAPE] = "not the shape of a message",
    [GRASP_REFUSAL_LONG_NAME] = "name over 64 bytes",
    [GRASP_REFUSAL_BAD_TEXT] = "text that isn't UTF-8",
    [GRASP_REFUSAL_BAD_RECORD] = "bad record",
    [GRASP_REFUSAL_BAD_LINK] = "no such link, or it is down",
    [GRASP_REFUSAL_EARLY_CLOCK] = "clock earlier than the record's",
    [GRASP_REFUSAL_BAD_TABLE] = "bad relay table",
    [GRASP_REFUSAL_BAD_NAMES] = "bad own names",
    [GRASP_REFUSAL_CALL_OUTPUT] = "output shorter than 2,048 bytes",
    [GRASP_REFUSAL_NO_SUCH_MESSAGE] = "no message has this description",
    [GRASP_REFUSAL_WRITE_OUTPUT] = "output shorter than the message",
    [GRASP_REFUSAL_NOT_ALLOWED] = "step not allowed",
};
static const char *const verdicts[NUMBERS] = {[GRASP_VERDICT_OWN] = "OWN",
                                              [GRASP_VERDICT_ANSWER] = "ANSWER",
                                              [GRASP_VERDICT_DUPLICATE] = "DUPLICATE",
                                              [GRASP_VERDICT_LAST] = "LAST",
                                              [GRASP_VERDICT_NOWHERE] = "NOWHERE",
                                              [GRASP_VERDICT_NOROW] = "NOROW",
                                              [GRASP_VERDICT_RELAY] = "RELAY",
                                              [GRASP_VERDICT_NOOP] = "NOOP",
                                              [GRASP_VERDICT_HAND] = "HAND"};
static const char *const kinds[NUMBERS] = {
    [GRASP_KIND_NOOP] = "Noop",
    [GRASP_KIND_DISCOVERY] = "Discovery",
    [GRASP_KIND_RESPONSE] = "Response",
    [GRASP_KIND_REQUEST_NEGOTIATION] = "Request negotiation",
    [GRASP_KIND_REQUEST_SYNCHRONIZATION] = "Request synchronization",
    [GRASP_KIND_NEGOTIATE] = "Negotiate",
    [GRASP_KIND_END] = "End",
    [GRASP_KIND_WAIT] = "Wait",
    [GRASP_KIND_SYNCH] = "Synch",
    [GRASP_KIND_FLOOD] = "Flood",
    [GRASP_KIND_INVALID] = "Invalid",
};

/* Whether a text is the words of a number, or of one that has none. */
static int says(const char *text, const char *words, const char *unknown) {
    return strcmp(text, words != NULL ? words : unknown) == 0;
}

void test_numbers(void) {
    const uint64_t wide = (uint64_t)1 << 32 | 1;
    for (size_t i = 0; i < sizeof numbers / sizeof *numbers; i++)
        expect_number(numbers[i].is, numbers[i].wanted, __FILE__, __LINE__, numbers[i].name);
    for (size_t number = 0; number < NUMBERS; number++) {
        EXPECT(says(grasp_refusal_text((uint8_t)number), refusals[number], "unknown refusal"));
        EXPECT(says(grasp_verdict_text(number), verdicts[number], "unknown verdict"));
        EXPECT(says(grasp_kind_text(number), kinds[number], "unknown kind"));
    }
    EXPECT(says(grasp_verdict_text(wide), NULL, "unknown verdict"));
    EXPECT(says(grasp_kind_text(wide), NULL, "unknown kind"));
}
