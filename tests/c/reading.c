/* grasp_read, grasp_locator, grasp_pair, and the header's functions on what they fill. */
#include <string.h>

#include "test.h"

uint8_t read_bytes(struct bytes bytes, uint64_t fields[GRASP_MESSAGE_FIELDS]) {
    const uint8_t *lent = lend(BYTES, bytes.at, bytes.len);
    uint64_t *block = lend(FIELDS, NULL, GRASP_MESSAGE_FIELDS * sizeof *block);
    uint8_t refusal = saw_refusal(grasp_read(lent, bytes.len, block));
    EXPECT(is_as_lent(BYTES));
    EXPECT(has_margins(FIELDS));
    EXPECT(refusal == 0 || is_as_lent(FIELDS));
    memcpy(fields, block, GRASP_MESSAGE_FIELDS * sizeof *block);
    return refusal;
}

typedef size_t read_part(const uint8_t *bytes, size_t len, size_t at, uint64_t *fields);

/* Reads a locator or pair with all margins looked at. */
static size_t part_at(read_part *read, size_t numbers, struct bytes bytes, size_t at, uint64_t *fields) {
    const uint8_t *lent = lend(BYTES, bytes.at, bytes.len);
    uint64_t *block = lend(FIELDS, NULL, numbers * sizeof *block);
    size_t end = read(lent, bytes.len, at, block);
    EXPECT(is_as_lent(BYTES));
    EXPECT(has_margins(FIELDS));
    EXPECT(end != 0 || is_as_lent(FIELDS));
    EXPECT(end <= bytes.len);
    memcpy(fields, block, numbers * sizeof *block);
    return end;
}

static size_t locator_at(struct bytes bytes, size_t at, uint64_t fields[GRASP_LOCATOR_FIELDS]) {
    return part_at(grasp_locator, GRASP_LOCATOR_FIELDS, bytes, at, fields);
}

static size_t pair_at(struct bytes bytes, size_t at, uint64_t fields[GRASP_PAIR_FIELDS]) {
    return part_at(grasp_pair, GRASP_PAIR_FIELDS, bytes, at, fields);
}

/* Bytes that are refused, each by its number. */
static void test_refused(void) {
    static const struct {
        const char *digits;
        uint8_t refusal;
    } refused[] = {
        {"", GRASP_REFUSAL_BAD_SIZE},
        {"81", GRASP_REFUSAL_CUT},
        {"19 03", GRASP_REFUSAL_CUT},
        {"83 07 07 62 41", GRASP_REFUSAL_CUT},
        {"9B FFFFFFFFFFFFFFFF 00", GRASP_REFUSAL_CUT},
        {"BB FFFFFFFFFFFFFFFF 00", GRASP_REFUSAL_CUT},
        {"5B FFFFFFFFFFFFFFFF", GRASP_REFUSAL_CUT},
        {"81 1C", GRASP_REFUSAL_RESERVED},
        {"81 F8 1F", GRASP_REFUSAL_RESERVED},
        {"9F 00 FF", GRASP_REFUSAL_INDEFINITE},
        {"FF", GRASP_REFUSAL_INDEFINITE},
        {"81 18 00", GRASP_REFUSAL_LONG_HEAD},
        {"1B 00000000FFFFFFFF", GRASP_REFUSAL_LONG_HEAD},
        {"81 81 81 81 81 81 81 81 80", GRASP_REFUSAL_TOO_DEEP},
        {"81 00 00", GRASP_REFUSAL_BYTES_AFTER},
        {"81 18 C8", GRASP_REFUSAL_UNKNOWN_KIND},
        {"81 1B FFFFFFFFFFFFFFFF", GRASP_REFUSAL_UNKNOWN_KIND},
        {"80", GRASP_REFUSAL_BAD_SHAPE},
        {"82 00 07", GRASP_REFUSAL_BAD_SHAPE},
        {"81 81 81 81 81 81 81 80", GRASP_REFUSAL_BAD_SHAPE},
        {"83 07 07 1B FFFFFFFFFFFFFFFF", GRASP_REFUSAL_BAD_SHAPE},
        {"84 01 07 44 C0000201 83 61 FF 01 02", GRASP_REFUSAL_BAD_TEXT},
    };
    uint64_t fields[GRASP_MESSAGE_FIELDS];
    for (size_t i = 0; i < sizeof refused / sizeof *refused; i++)
        EXPECT_NUMBER(read_bytes(hex(refused[i].digits), fields), refused[i].refusal);
}

/* A name of 64 bytes is read, of 65 refused as 10; a message of 2,048 bytes is read, of 2,049 refused as 1.
 */
static void test_limits(void) {
    uint64_t fields[GRASP_MESSAGE_FIELDS];
    for (size_t length = GRASP_MAX_NAME_BYTES; length <= GRASP_MAX_NAME_BYTES + 1; length++) {
        struct bytes name = hex("83 03 07 83 78");
        append_byte(&name, (uint8_t)length, 1);
        append_byte(&name, 'x', length);
        append(&name, hex("00 01"));
        EXPECT_NUMBER(read_bytes(name, fields),
                      length == GRASP_MAX_NAME_BYTES ? GRASP_OK : GRASP_REFUSAL_LONG_NAME);
    }
    for (size_t length = GRASP_MAX_MESSAGE_BYTES; length <= GRASP_MAX_MESSAGE_BYTES + 1; length++) {
        struct bytes invalid = hex("83 18 63 07 59");
        append_byte(&invalid, (uint8_t)((length - 7) >> 8), 1);
        append_byte(&invalid, (uint8_t)(length - 7), 1);
        append_byte(&invalid, 0, length - 7);
        EXPECT_NUMBER(read_bytes(invalid, fields),
                      length == GRASP_MAX_MESSAGE_BYTES ? GRASP_OK : GRASP_REFUSAL_BAD_SIZE);
    }
}

/* The fields that a message has, in the order of the block. */
static void test_kinds(void) {
    static const struct {
        const char *digits;
        uint64_t fields[GRASP_MESSAGE_FIELDS];
    } kinds[] = {
        {"81 00", {GRASP_KIND_NOOP}},
        {"84 01 07 44 C0000201 83 63 455831 01 02",
         {GRASP_KIND_DISCOVERY, 7, 4, 4, 0, 1, 10, 3, 1, 2, 14, 15, 0}},
        {"83 03 1A FFFFFFFF 84 60 0F 18 FF 80",
         {GRASP_KIND_REQUEST_NEGOTIATION, UINT32_MAX, 0, 0, 0, 1, 9, 0, 15, 255, 10, 12, 1}},
        {"83 04 00 83 61 41 00 00", {GRASP_KIND_REQUEST_SYNCHRONIZATION, 0, 0, 0, 0, 1, 5, 1, 0, 0, 7, 8, 0}},
        {"83 05 01 83 61 41 00 00", {GRASP_KIND_NEGOTIATE, 1, 0, 0, 0, 1, 5, 1, 0, 0, 7, 8, 0}},
        {"83 08 01 83 61 41 00 00", {GRASP_KIND_SYNCH, 1, 0, 0, 0, 1, 5, 1, 0, 0, 7, 8, 0}},
        {"83 06 07 81 18 65", {GRASP_KIND_END, 7, [GRASP_MESSAGE_OUTCOME] = GRASP_OUTCOME_ACCEPT}},
        {"83 06 07 81 18 66", {GRASP_KIND_END, 7, [GRASP_MESSAGE_OUTCOME] = GRASP_OUTCOME_DECLINE}},
        {"83 06 07 82 18 66 60",
         {GRASP_KIND_END, 7, [GRASP_MESSAGE_OUTCOME] = GRASP_OUTCOME_DECLINE_REASON, 7, 0}},
        {"83 06 07 82 18 66 62 6E6F",
         {GRASP_KIND_END, 7, [GRASP_MESSAGE_OUTCOME] = GRASP_OUTCOME_DECLINE_REASON, 7, 2}},
        {"83 07 07 19 03E8", {GRASP_KIND_WAIT, 7, 0, 0, 1000}},
        {"82 18 63 07", {GRASP_KIND_INVALID, 7, [GRASP_MESSAGE_ITEM_AT] = 4, 0}},
        {"83 18 63 07 F6", {GRASP_KIND_INVALID, 7, [GRASP_MESSAGE_ITEM_AT] = 4, 1}},
        {"85 09 07 44 C0000201 19 03E8 82 83 63 455831 04 02 80",
         {GRASP_KIND_FLOOD, 7, 4, 4, 1000, 1, 14, 3, 4, 2, 18, 19, 0, GRASP_LIST_PAIRS, 11, 1}},
        {"85 02 07 44 C0000201 00 82 18 64 84 18 68 44 C0000202 11 00",
         {GRASP_KIND_RESPONSE, 7, 4, 4, [GRASP_MESSAGE_LIST] = GRASP_LIST_DIVERT, 12, 1}},
        {"85 02 07 44 C0000201 00 83 18 64 84 18 68 44 C0000202 11 00 84 18 69 61 64 06 00",
         {GRASP_KIND_RESPONSE, 7, 4, 4, [GRASP_MESSAGE_LIST] = GRASP_LIST_DIVERT, 12, 2}},
        {"86 02 07 44 C0000201 00 82 18 64 84 18 68 44 C0000202 11 00 83 61 41 02 01",
         {GRASP_KIND_RESPONSE, 7, 4, 4, 0, 1, 24, 1, 2, 1, 26, 27, 0, GRASP_LIST_DIVERT, 12, 1}},
    };
    for (size_t i = 0; i < sizeof kinds / sizeof *kinds; i++) {
        uint64_t fields[GRASP_MESSAGE_FIELDS];
        EXPECT_NUMBER(read_bytes(hex(kinds[i].digits), fields), 0);
        for (size_t field = 0; field < GRASP_MESSAGE_FIELDS; field++)
            EXPECT_NUMBER(fields[field], kinds[i].fields[field]);
    }
}

static int spans(struct grasp_span span, const char *digits) {
    return are_same(hex(digits), span.at, span.len);
}

/* A Response with the greatest numbers, a locator of each kind and an objective. */
static void test_locators(void) {
    const struct bytes response =
        hex("89 02 1A FFFFFFFF 50 FE80 0000 0000 0000 0000 0000 0000 0001 1A FFFFFFFF"
            "84 18 67 50 20010DB8 00000000 00000000 00000001 06 19 1B69"
            "84 18 68 44 C0000201 11 00"
            "84 18 69 61 64 06 19 FFFF"
            "84 18 6A 63 753A76 F6 F6"
            "84 63 455831 0F 18 FF 82 01 02");
    static const uint64_t wanted[][GRASP_LOCATOR_FIELDS] = {
        {GRASP_OPTION_IPV6, 33, 16, GRASP_PROTOCOL_TCP, 7017},
        {GRASP_OPTION_IPV4, 57, 4, GRASP_PROTOCOL_UDP, 0},
        {GRASP_OPTION_DOMAIN, 67, 1, GRASP_PROTOCOL_TCP, 65535},
        {GRASP_OPTION_URI, 76, 3, GRASP_PROTOCOL_NULL, GRASP_PORT_NULL},
    };
    uint64_t fields[GRASP_MESSAGE_FIELDS], locator[GRASP_LOCATOR_FIELDS];
    size_t at;
    EXPECT_NUMBER(read_bytes(response, fields), 0);
    EXPECT_NUMBER(fields[GRASP_MESSAGE_LIST], GRASP_LIST_LOCATORS);
    EXPECT_NUMBER(fields[GRASP_MESSAGE_LIST_MANY], 4);
    at = (size_t)fields[GRASP_MESSAGE_LIST_AT];
    for (size_t i = 0; i < 4; i++) {
        at = locator_at(response, at, locator);
        EXPECT(memcmp(locator, wanted[i], sizeof locator) == 0);
    }
    EXPECT(spans(grasp_locator_address(response.at, response.len, locator), "753A76"));
    EXPECT_NUMBER(grasp_message_kind(fields), GRASP_KIND_RESPONSE);
    EXPECT_NUMBER(grasp_message_session(fields), UINT32_MAX);
    EXPECT_NUMBER(grasp_message_ttl(fields), UINT32_MAX);
    EXPECT_NUMBER(grasp_message_flags(fields), 15);
    EXPECT_NUMBER(grasp_message_count(fields), 255);
    EXPECT(spans(grasp_message_initiator(response.at, response.len, fields),
                 "FE80 0000 0000 0000 0000 0000 0000 0001"));
    EXPECT(spans(grasp_message_name(response.at, response.len, fields), "455831"));
    EXPECT(spans(grasp_message_value(response.at, response.len, fields), "82 01 02"));
    EXPECT_NUMBER(locator_at(response, at, locator), 0);
}

/* A Flood of two pairs, the second with a value and a locator. */
static void test_pairs(void) {
    const struct bytes flood = hex("86 09 07 44 C0000201 00 82 83 62 4142 04 02 80"
                                   "82 84 61 42 04 18 18 62 6E6F 84 18 6A 60 11 F6");
    static const uint64_t wanted[GRASP_PAIR_FIELDS] = {20,
                                                       1,
                                                       GRASP_FLAG_SYNCHRONIZATION,
                                                       24,
                                                       22,
                                                       24,
                                                       3,
                                                       GRASP_OPTION_URI,
                                                       31,
                                                       0,
                                                       GRASP_PROTOCOL_UDP,
                                                       GRASP_PORT_NULL};
    uint64_t fields[GRASP_MESSAGE_FIELDS], pair[GRASP_PAIR_FIELDS];
    size_t at;
    EXPECT_NUMBER(read_bytes(flood, fields), 0);
    EXPECT_NUMBER(fields[GRASP_MESSAGE_LIST_MANY], 2);
    at = pair_at(flood, (size_t)fields[GRASP_MESSAGE_LIST_AT], pair);
    EXPECT(spans(grasp_pair_name(flood.at, flood.len, pair), "4142"));
    EXPECT(spans(grasp_pair_value(flood.at, flood.len, pair), ""));
    EXPECT_NUMBER(pair[GRASP_PAIR_LOCATOR], 0);
    EXPECT(spans(grasp_pair_address(flood.at, flood.len, pair), ""));
    at = pair_at(flood, at, pair);
    EXPECT_NUMBER(at, flood.len);
    EXPECT(memcmp(pair, wanted, sizeof pair) == 0);
    EXPECT(spans(grasp_pair_value(flood.at, flood.len, pair), "62 6E6F"));
}

/* The address of a pair's locator. */
static void test_pair_address(void) {
    const struct bytes flood = hex("85 09 07 44 C0000201 00 82 83 61 41 04 02 84 18 68 44 C0000202 11 00");
    uint64_t fields[GRASP_MESSAGE_FIELDS], pair[GRASP_PAIR_FIELDS];
    EXPECT_NUMBER(read_bytes(flood, fields), 0);
    EXPECT_NUMBER(pair_at(flood, (size_t)fields[GRASP_MESSAGE_LIST_AT], pair), flood.len);
    EXPECT_NUMBER(pair[GRASP_PAIR_LOCATOR + GRASP_LOCATOR_KIND], GRASP_OPTION_IPV4);
    EXPECT(spans(grasp_pair_address(flood.at, flood.len, pair), "C0000202"));
}

/* Locators and pairs are judged by their shape alone: a text needn't be UTF-8, and a name may be long. */
static void test_shapes(void) {
    const struct bytes domain = hex("84 18 69 61 FF 06 00"), uri = hex("84 18 6A 61 FF F6 F6");
    struct bytes pair = hex("82 83 78 41");
    uint64_t fields[GRASP_PAIR_FIELDS];
    append_byte(&pair, 0xFF, GRASP_MAX_NAME_BYTES + 1);
    append(&pair, hex("04 02"));
    append(&pair, domain);
    EXPECT_NUMBER(locator_at(domain, 0, fields), domain.len);
    EXPECT_NUMBER(locator_at(uri, 0, fields), uri.len);
    EXPECT_NUMBER(pair_at(pair, 0, fields), pair.len);
}

/* No place makes a reader of parts leave its bytes. */
static void test_places(void) {
    static const size_t far[] = {SIZE_MAX, SIZE_MAX - 1, (size_t)1 << 63, (size_t)1 << 32};
    const struct bytes none = {{0}, 0}, flood = hex("85 09 07 44 C0000201 00 82 83 61 41 04 02 80");
    uint64_t fields[GRASP_PAIR_FIELDS];
    for (size_t i = 0; i < sizeof far / sizeof *far; i++) {
        EXPECT_NUMBER(locator_at(flood, far[i], fields), 0);
        EXPECT_NUMBER(pair_at(flood, far[i], fields), 0);
        EXPECT_NUMBER(locator_at(none, far[i], fields), 0);
        EXPECT_NUMBER(pair_at(none, far[i], fields), 0);
    }
    EXPECT_NUMBER(locator_at(none, 0, fields), 0);
    EXPECT_NUMBER(pair_at(none, 0, fields), 0);
    for (size_t at = 0; at <= flood.len + 2; at++) {
        EXPECT_NUMBER(locator_at(flood, at, fields), 0);
        EXPECT_NUMBER(pair_at(flood, at, fields), at == 9 ? flood.len : 0);
    }
}

/* A span that isn't within the bytes is empty. */
static void test_spans(void) {
    const struct bytes bytes = hex("01 02 03");
    EXPECT_NUMBER(grasp_span_in(bytes.at, bytes.len, 0, 3).len, 3);
    EXPECT_NUMBER(grasp_span_in(bytes.at, bytes.len, 3, 0).len, 0);
    EXPECT_NUMBER(grasp_span_in(bytes.at, bytes.len, 1, 3).len, 0);
    EXPECT_NUMBER(grasp_span_in(bytes.at, bytes.len, 4, 0).len, 0);
    EXPECT_NUMBER(grasp_span_in(bytes.at, bytes.len, UINT64_MAX, 1).len, 0);
    EXPECT_NUMBER(grasp_span_in(bytes.at, bytes.len, 1, UINT64_MAX).len, 0);
    EXPECT(grasp_span_in(bytes.at, bytes.len, UINT64_MAX, UINT64_MAX).at == bytes.at);
    EXPECT(grasp_span_in(bytes.at, bytes.len, 3, 0).at == bytes.at + 3);
    EXPECT(grasp_span_in(NULL, 0, 0, 0).at == NULL && grasp_span_in(NULL, 0, 0, 0).len == 0);
}

void test_reading(void) {
    const struct bytes reason = hex("83 06 07 82 18 66 62 6E6F");
    uint64_t fields[GRASP_MESSAGE_FIELDS];
    test_refused();
    test_limits();
    test_kinds();
    test_locators();
    test_pairs();
    test_pair_address();
    test_shapes();
    test_places();
    test_spans();
    EXPECT_NUMBER(read_bytes(reason, fields), 0);
    EXPECT(spans(grasp_message_item(reason.at, reason.len, fields), "6E6F"));
}
