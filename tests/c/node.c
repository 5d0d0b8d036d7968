/* The node, with its record as a struct that is changed in place and as numbers. */
#include <string.h>

#include "test.h"

/* How the record is lent: by grasp_fresh, .. or by grasp_record_fresh, .. */
static enum { AS_NUMBERS, IN_PLACE, FORMS } form;

static const uint8_t own[GRASP_ADDRESS_BYTES] = {0x20, 0x01, 0x0D, 0xB8, 0, 0, 0, 0, 0, 0, 0, 0, 0, 0, 0, 1};

/* What a host keeps, and what the last call wrote. */
struct host {
    uint8_t address[GRASP_ADDRESS_BYTES], table[GRASP_TABLE_BYTES + 8];
    uint64_t record[GRASP_NUMBER_FIELDS], answer[GRASP_ANSWER_FIELDS];
    size_t table_size;
    struct bytes out;
};

/* What a node call is given beside record and table. */
struct call {
    uint64_t clock, interface;
    struct bytes names, message;
    size_t size;
};

static struct call called(uint64_t clock, uint64_t interface, const char *names, const char *message) {
    return (struct call){clock, interface, hex(names), hex(message), GRASP_MAX_MESSAGE_BYTES};
}

/* Whether the record has a struct. */
static int has_struct(const struct host *host) {
    const uint64_t *record = host->record;
    return record[GRASP_NUMBER_PORT] <= UINT16_MAX && record[GRASP_NUMBER_TTL] <= UINT32_MAX &&
           record[GRASP_NUMBER_INTERFACES] <= UINT8_MAX && record[GRASP_NUMBER_LINKS] <= UINT8_MAX;
}

/* Lends the record in its form. */
static void *lend_record(const struct host *host) {
    const uint64_t *record = host->record;
    struct grasp_record node;
    if (form == AS_NUMBERS)
        return lend(RECORD, record, sizeof host->record);
    EXPECT(has_struct(host));
    memset(&node, 0, sizeof node);
    memcpy(node.address, host->address, sizeof node.address);
    node.port = (uint16_t)record[GRASP_NUMBER_PORT];
    node.ttl = (uint32_t)record[GRASP_NUMBER_TTL];
    node.interfaces = (uint8_t)record[GRASP_NUMBER_INTERFACES];
    node.links = (uint8_t)record[GRASP_NUMBER_LINKS];
    node.clock = record[GRASP_NUMBER_CLOCK];
    node.tally = record[GRASP_NUMBER_TALLY];
    return lend(RECORD, &node, sizeof node);
}

/* Keeps the record as a call left it. */
static void keep_record(struct host *host, const void *lent) {
    struct grasp_record node;
    EXPECT(has_margins(RECORD));
    if (form == AS_NUMBERS) {
        memcpy(host->record, lent, sizeof host->record);
        return;
    }
    memcpy(&node, lent, sizeof node);
    memcpy(host->address, node.address, sizeof node.address);
    host->record[GRASP_NUMBER_PORT] = node.port;
    host->record[GRASP_NUMBER_TTL] = node.ttl;
    host->record[GRASP_NUMBER_INTERFACES] = node.interfaces;
    host->record[GRASP_NUMBER_LINKS] = node.links;
    host->record[GRASP_NUMBER_CLOCK] = node.clock;
    host->record[GRASP_NUMBER_TALLY] = node.tally;
}

/* Whether a call left the record as it was. */
static int is_kept(const struct host *host, const void *lent) {
    struct host after = *host;
    keep_record(&after, lent);
    return memcmp(after.record, host->record, sizeof after.record) == 0 &&
           memcmp(after.address, host->address, sizeof after.address) == 0;
}

/* Asks for a fresh record with all margins looked at. */
static uint8_t fresh(struct host *host, uint64_t interfaces, uint64_t links) {
    const uint8_t *address = lend(ADDRESS, own, sizeof own);
    void *record = lend_record(host);
    uint8_t refusal = form == AS_NUMBERS
                          ? grasp_fresh(address, 7017, 60000, interfaces, links, record)
                          : grasp_record_fresh(record, address, 7017, 60000, interfaces, links);
    EXPECT(is_as_lent(ADDRESS));
    EXPECT(refusal == 0 || is_kept(host, record));
    keep_record(host, record);
    return saw_refusal(refusal);
}

/* A node with so many interfaces, all up. */
static struct host node(uint64_t interfaces) {
    struct host host = {{0}, {0}, {0}, {0}, GRASP_TABLE_BYTES, {{0}, 0}};
    EXPECT_NUMBER(fresh(&host, interfaces, ((uint64_t)1 << interfaces) - 1), 0);
    EXPECT(form == AS_NUMBERS || memcmp(host.address, own, sizeof own) == 0);
    memcpy(host.address, own, sizeof own);
    return host;
}

static uint8_t set_links(struct host *host, uint64_t links) {
    const uint8_t *address = lend(ADDRESS, host->address, sizeof host->address);
    void *record = lend_record(host);
    uint8_t refusal =
        form == AS_NUMBERS ? grasp_set_links(address, record, links) : grasp_record_set_links(record, links);
    EXPECT(is_as_lent(ADDRESS));
    EXPECT(refusal == 0 || is_kept(host, record));
    keep_record(host, record);
    return saw_refusal(refusal);
}

/* Calls the node with all margins looked at; what is refused leaves all, and what isn't sent stays. */
static uint8_t take(struct host *host, const struct call *call) {
    const uint8_t *address = lend(ADDRESS, host->address, sizeof host->address);
    const uint8_t *names = lend(NAMES, call->names.at, call->names.len);
    const uint8_t *message = lend(BYTES, call->message.at, call->message.len);
    uint64_t *answer = lend(ANSWER, NULL, sizeof host->answer);
    uint8_t *table = lend(TABLE, host->table, host->table_size), *out = lend(OUT, NULL, call->size);
    void *record = lend_record(host);
    uint8_t refusal =
        form == AS_NUMBERS
            ? grasp_node_call(address, record, table, host->table_size, call->clock, call->interface, names,
                              call->names.len, message, call->message.len, out, call->size, answer)
            : grasp_record_call(record, table, host->table_size, call->clock, call->interface, names,
                                call->names.len, message, call->message.len, out, call->size, answer);
    EXPECT(is_as_lent(ADDRESS) && is_as_lent(NAMES) && is_as_lent(BYTES));
    EXPECT(has_margins(TABLE) && has_margins(OUT) && has_margins(ANSWER) && has_margins(RECORD));
    if (saw_refusal(refusal) != 0) {
        EXPECT(is_kept(host, record) && is_as_lent(TABLE) && is_as_lent(OUT) && is_as_lent(ANSWER));
        return refusal;
    }
    keep_record(host, record);
    memcpy(host->table, table, host->table_size);
    memcpy(host->answer, answer, sizeof host->answer);
    saw_verdict(host->answer[GRASP_ANSWER_VERDICT]);
    host->out.len = (size_t)host->answer[GRASP_ANSWER_LENGTH];
    memcpy(host->out.at, out, host->out.len);
    EXPECT(is_as_lent_from(OUT, host->out.len));
    return 0;
}

/* Takes a message that isn't refused: what is the verdict, is it handed up, and where is what sent. */
static void verdict(struct host *host, struct call call, uint64_t verdict, uint64_t handed_up, uint64_t mask,
                    const char *sent) {
    struct bytes bytes = hex(sent);
    EXPECT_NUMBER(take(host, &call), 0);
    EXPECT_NUMBER(host->answer[GRASP_ANSWER_VERDICT], verdict);
    EXPECT_NUMBER(host->answer[GRASP_ANSWER_HANDED_UP], handed_up);
    EXPECT_NUMBER(host->answer[GRASP_ANSWER_MASK], mask);
    EXPECT(are_same(bytes, host->out.at, host->out.len));
    EXPECT_NUMBER(host->record[GRASP_NUMBER_CLOCK], call.clock);
}

/* A number of the table. */
static uint64_t in_table(const struct host *host, size_t row, size_t place) {
    uint64_t number = 0;
    for (size_t i = 0; i < 8; i++)
        number = number << 8 | host->table[32 * row + 8 * place + i];
    return number;
}

/* The rules' Discovery and Flood of "EX1", session 7, from 192.0.2.1, and what becomes of them. */
static const char discovery[] = "84 01 07 44 C0000201 83 63 455831 01 02",
                  relayed[] = "84 01 07 44 C0000201 83 63 455831 01 01",
                  flood[] = "85 09 07 44 C0000201 19 03E8 82 83 63 455831 04 02 80",
                  flooded[] = "85 09 07 44 C0000201 19 03E8 82 83 63 455831 04 01 80";

static void test_discovery(void) {
    struct host host = node(3);
    verdict(&host, called(5, 0, "80", discovery), GRASP_VERDICT_RELAY, 0, 6, relayed);
    EXPECT_NUMBER(host.record[GRASP_NUMBER_TALLY], 2);
    EXPECT_NUMBER(in_table(&host, 0, 0), ((uint64_t)1 << 32) + 7);
    EXPECT_NUMBER(in_table(&host, 0, 1), 0xC0000201);
    EXPECT_NUMBER(in_table(&host, 0, 2), 0);
    EXPECT_NUMBER(in_table(&host, 0, 3), 5);
    verdict(&host, called(5, 0, "80", discovery), GRASP_VERDICT_DUPLICATE, 0, 0, "");
    verdict(&host, called(60004, 2, "80", discovery), GRASP_VERDICT_DUPLICATE, 0, 0, "");
    verdict(&host, called(60005, 2, "80", discovery), GRASP_VERDICT_RELAY, 0, 3, relayed);
    EXPECT_NUMBER(host.record[GRASP_NUMBER_TALLY], 4);
    verdict(&host, called(60005, 1, "81 63 455831", discovery), GRASP_VERDICT_ANSWER, 0, 2,
            "85 02 07 44 C0000201 19 EA60 84 18 67 50 20010DB8 00000000 00000000 00000001 06 19 1B69");
    EXPECT_NUMBER(host.record[GRASP_NUMBER_TALLY], 4);
    verdict(&host, called(60005, 0, "80", "84 01 08 44 C0000201 83 63 455831 01 18 18"), GRASP_VERDICT_RELAY,
            0, 6, "84 01 08 44 C0000201 83 63 455831 01 17");
    verdict(&host, called(60005, 0, "80", "84 01 09 44 C0000201 83 63 455831 01 01"), GRASP_VERDICT_LAST, 0,
            0, "");
    verdict(&host, called(60005, 0, "80", "84 01 09 44 C0000201 83 63 455831 01 00"), GRASP_VERDICT_LAST, 0,
            0, "");
    verdict(&host,
            called(60005, 0, "80", "84 01 07 50 C0000201 00000000 00000000 00000000 83 63 455831 01 02"),
            GRASP_VERDICT_RELAY, 0, 6, "84 01 07 50 C0000201 00000000 00000000 00000000 83 63 455831 01 01");
    verdict(&host,
            called(60005, 0, "81 63 455831",
                   "84 01 07 50 20010DB8 00000000 00000000 00000001 83 63 455831 01 02"),
            GRASP_VERDICT_OWN, 0, 0, "");
}

static void test_flood(void) {
    struct host host = node(GRASP_MAX_INTERFACES);
    verdict(&host, called(0, 3, "81 63 455831", flood), GRASP_VERDICT_RELAY, 1, 0xF7, flooded);
    EXPECT_NUMBER(host.record[GRASP_NUMBER_TALLY], 7);
    EXPECT_NUMBER(in_table(&host, 0, 0), ((uint64_t)3 << 32) + 7);
    verdict(&host, called(119999, 7, "80", flood), GRASP_VERDICT_DUPLICATE, 0, 0, "");
    verdict(&host, called(120000, 7, "80", flood), GRASP_VERDICT_RELAY, 1, 0x7F, flooded);
    verdict(&host, called(120000, 7, "80", "85 09 08 44 C0000201 00 82 83 60 00 01 80"), GRASP_VERDICT_LAST,
            1, 0, "");
    verdict(&host,
            called(120000, 7, "80", "85 09 08 50 20010DB8 00000000 00000000 00000001 00 82 83 60 00 02 80"),
            GRASP_VERDICT_OWN, 0, 0, "");
    EXPECT_NUMBER(set_links(&host, 0x80), 0);
    verdict(&host, called(120000, 7, "80", "85 09 08 44 C0000201 00 82 83 60 00 02 80"),
            GRASP_VERDICT_NOWHERE, 1, 0, "");
    EXPECT_NUMBER(host.record[GRASP_NUMBER_TALLY], 14);
}

/* A Noop is nothing, and every other kind is handed up; no clock is too late. */
static void test_other_kinds(void) {
    static const char *const others[] = {
        "85 02 07 44 C0000201 00 84 18 68 44 C0000202 11 00",
        "83 03 07 83 60 00 00",
        "83 04 07 83 60 00 00",
        "83 05 07 83 60 00 00",
        "83 06 07 81 18 65",
        "83 07 07 00",
        "83 08 07 83 60 00 00",
        "82 18 63 07",
    };
    struct host host = node(1);
    for (size_t i = 0; i < sizeof others / sizeof *others; i++)
        verdict(&host, called(i, 0, "80", others[i]), GRASP_VERDICT_HAND, 1, 0, "");
    verdict(&host, called(UINT64_MAX, 0, "80", "81 00"), GRASP_VERDICT_NOOP, 0, 0, "");
    verdict(&host, called(UINT64_MAX, 0, "80", discovery), GRASP_VERDICT_NOWHERE, 0, 0, "");
}

/* 64 rows that live leave no row; one that dies leaves one. */
static void test_full_table(void) {
    struct host host = node(2);
    for (uint8_t session = 0; session < 65; session++) {
        struct call call = called(session, 1, "80", "84 01 18 00 44 C0000201 83 60 00 02");
        call.message.at[3] = (uint8_t)(24 + session);
        EXPECT_NUMBER(take(&host, &call), 0);
        EXPECT_NUMBER(host.answer[GRASP_ANSWER_VERDICT],
                      session < 64 ? GRASP_VERDICT_RELAY : GRASP_VERDICT_NOROW);
    }
    verdict(&host, called(59999, 1, "80", flood), GRASP_VERDICT_NOROW, 1, 0, "");
    verdict(&host, called(60000, 1, "80", flood), GRASP_VERDICT_RELAY, 1, 1, flooded);
    EXPECT_NUMBER(in_table(&host, 0, 0), ((uint64_t)3 << 32) + 7);
    EXPECT_NUMBER(host.record[GRASP_NUMBER_TALLY], 65);
}

/* Everything is wrong at first; mended one by one, the refusals come in their order. */
static void test_order(void) {
    struct host host = node(3);
    struct call call = called(9, 3, "", "");
    host.record[GRASP_NUMBER_TALLY] = ((uint64_t)1 << 63) + 1;
    host.record[GRASP_NUMBER_CLOCK] = 10;
    host.table[0] = 0xFF;
    host.table_size = GRASP_TABLE_BYTES - 1;
    call.size = GRASP_MAX_MESSAGE_BYTES - 1;
    EXPECT_NUMBER(take(&host, &call), GRASP_REFUSAL_BAD_RECORD);
    host.record[GRASP_NUMBER_TALLY]--;
    EXPECT_NUMBER(take(&host, &call), GRASP_REFUSAL_BAD_LINK);
    call.interface = 2;
    EXPECT_NUMBER(take(&host, &call), GRASP_REFUSAL_EARLY_CLOCK);
    call.clock = 10;
    EXPECT_NUMBER(take(&host, &call), GRASP_REFUSAL_BAD_TABLE);
    host.table_size = GRASP_TABLE_BYTES;
    EXPECT_NUMBER(take(&host, &call), GRASP_REFUSAL_BAD_TABLE);
    host.table[0] = 0;
    EXPECT_NUMBER(take(&host, &call), GRASP_REFUSAL_BAD_NAMES);
    call.names = hex("80");
    EXPECT_NUMBER(take(&host, &call), GRASP_REFUSAL_CALL_OUTPUT);
    call.size = 0;
    EXPECT_NUMBER(take(&host, &call), GRASP_REFUSAL_CALL_OUTPUT);
    call.size = GRASP_MAX_MESSAGE_BYTES + 1;
    EXPECT_NUMBER(take(&host, &call), GRASP_REFUSAL_BAD_SIZE);
    call.message = hex(discovery);
    EXPECT_NUMBER(take(&host, &call), 0);
    EXPECT_NUMBER(host.record[GRASP_NUMBER_TALLY], ((uint64_t)1 << 63) + 2);
    EXPECT_NUMBER(take(&host, &call), GRASP_REFUSAL_BAD_RECORD);
}

/* Messages are refused by their own numbers, and all stays. */
static void test_bad_messages(void) {
    static const struct {
        const char *digits;
        uint8_t refusal;
    } bad[] = {{"81", GRASP_REFUSAL_CUT},
               {"81 1C", GRASP_REFUSAL_RESERVED},
               {"FF", GRASP_REFUSAL_INDEFINITE},
               {"81 18 00", GRASP_REFUSAL_LONG_HEAD},
               {"8181818181818181 80", GRASP_REFUSAL_TOO_DEEP},
               {"81 00 00", GRASP_REFUSAL_BYTES_AFTER},
               {"81 0A", GRASP_REFUSAL_UNKNOWN_KIND},
               {"82 00 07", GRASP_REFUSAL_BAD_SHAPE},
               {"83 03 07 83 61 80 00 01", GRASP_REFUSAL_BAD_TEXT}};
    struct host host = node(2);
    struct call call = called(0, 0, "80", flood);
    EXPECT_NUMBER(take(&host, &call), 0);
    for (size_t i = 0; i < sizeof bad / sizeof *bad; i++) {
        call = called(UINT64_MAX, 1, "80", bad[i].digits);
        EXPECT_NUMBER(take(&host, &call), bad[i].refusal);
    }
    call = called(0, 0, "80", "83 03 07 83 78 41");
    append_byte(&call.message, 'x', GRASP_MAX_NAME_BYTES + 1);
    append(&call.message, hex("00 01"));
    EXPECT_NUMBER(take(&host, &call), GRASP_REFUSAL_LONG_NAME);
    call.message.len = 0;
    append_byte(&call.message, 0x80, GRASP_MAX_MESSAGE_BYTES + 1);
    EXPECT_NUMBER(take(&host, &call), GRASP_REFUSAL_BAD_SIZE);
}

/* Own names that are none, and the most that may be. */
static void test_names(void) {
    static const char *const bad[] = {"",          "00",    "A0",          "81",       "81 00",
                                      "81 61 FF",  "80 80", "98 11",       "9F FF",    "81 78 03 455831",
                                      "81 78 41 ", "C0 80", "82 60 81 60", "81 43 00", "FF"};
    struct host host = node(2);
    struct call call;
    for (size_t i = 0; i < sizeof bad / sizeof *bad; i++) {
        call = called(0, 0, bad[i], "81 00");
        EXPECT_NUMBER(take(&host, &call), GRASP_REFUSAL_BAD_NAMES);
    }
    for (size_t names = GRASP_MAX_NAMES; names <= GRASP_MAX_NAMES + 1; names++) {
        call = called(0, 0, "", "81 00");
        append_byte(&call.names, (uint8_t)(0x80 + names), 1);
        append_byte(&call.names, 0x60, names);
        EXPECT_NUMBER(take(&host, &call), names == GRASP_MAX_NAMES ? GRASP_OK : GRASP_REFUSAL_BAD_NAMES);
    }
    for (size_t length = GRASP_MAX_NAME_BYTES; length <= GRASP_MAX_NAME_BYTES + 1; length++) {
        call = called(0, 0, "81 78", "81 00");
        append_byte(&call.names, (uint8_t)length, 1);
        append_byte(&call.names, 'x', length);
        EXPECT_NUMBER(take(&host, &call),
                      length == GRASP_MAX_NAME_BYTES ? GRASP_OK : GRASP_REFUSAL_BAD_NAMES);
    }
}

/* Builds own names, and looks that no byte but theirs is written; those that are built are taken. */
static size_t build(const char *const *names, size_t many, size_t size, struct bytes *built) {
    struct host host = node(2);
    struct call call = called(0, 0, "", "81 00");
    uint8_t *out = lend(OUT, NULL, size);
    built->len = grasp_own_names(names, many, out, size);
    EXPECT(built->len <= size && has_margins(OUT));
    EXPECT(is_as_lent_from(OUT, built->len));
    if (built->len > 0) {
        memcpy(built->at, out, built->len);
        call.names = *built;
        EXPECT_NUMBER(take(&host, &call), 0);
    }
    return built->len;
}

/* Own names from texts: none, heads of one byte and of two, the most, and what is too much. */
static void test_own_names(void) {
    static const char *const some[] = {"", "EX1", "12345678901234567890123", "123456789012345678901234"};
    char text[GRASP_MAX_NAME_BYTES + 2];
    const char *most[GRASP_MAX_NAMES + 1];
    struct bytes built, wanted = hex("84 60 63 455831 77");
    append(&wanted, (struct bytes){"12345678901234567890123", 23});
    append(&wanted, hex("78 18"));
    append(&wanted, (struct bytes){"123456789012345678901234", 24});
    EXPECT_NUMBER(build(NULL, 0, 1, &built), 1);
    EXPECT(are_same(hex("80"), built.at, built.len));
    EXPECT_NUMBER(build(NULL, 0, 0, &built), 0);
    EXPECT_NUMBER(build(some, 4, wanted.len, &built), wanted.len);
    EXPECT(are_same(wanted, built.at, built.len));
    EXPECT_NUMBER(build(some, 4, wanted.len - 1, &built), 0);
    memset(text, 'x', sizeof text);
    for (size_t i = 0; i < sizeof most / sizeof *most; i++)
        most[i] = text;
    text[GRASP_MAX_NAME_BYTES] = '\0';
    EXPECT_NUMBER(build(most, GRASP_MAX_NAMES, GRASP_MAX_NAMES_BYTES, &built), GRASP_MAX_NAMES_BYTES);
    EXPECT_NUMBER(build(most, GRASP_MAX_NAMES, GRASP_MAX_NAMES_BYTES - 1, &built), 0);
    EXPECT_NUMBER(build(most, GRASP_MAX_NAMES + 1, 2 * GRASP_MAX_NAMES_BYTES, &built), 0);
    text[GRASP_MAX_NAME_BYTES] = 'x';
    text[GRASP_MAX_NAME_BYTES + 1] = '\0';
    EXPECT_NUMBER(build(most, 1, GRASP_MAX_NAMES_BYTES, &built), 0);
}

/* Tables that are none: lengths, and each way that a row isn't free or used. */
static void test_tables(void) {
    static const size_t sizes[] = {
        0, 1, 8, GRASP_TABLE_BYTES - 8, GRASP_TABLE_BYTES - 1, GRASP_TABLE_BYTES + 1, GRASP_TABLE_BYTES + 8};
    static const char *const bad[] = {
        "00000000 00000001 00000000 00000000", /* no tag */
        "00000005 00000001 00000000 00000000", /* a tag that isn't ours */
        "00000001 00000001 00000001 00000000", /* four bytes over 2^32 */
        "FFFFFFFF FFFFFFFF FFFFFFFF FFFFFFFF",
    };
    const struct call call = called(1, 0, "80", "81 00");
    for (size_t i = 0; i < sizeof sizes / sizeof *sizes; i++) {
        struct host host = node(2);
        host.table_size = sizes[i];
        EXPECT_NUMBER(take(&host, &call), GRASP_REFUSAL_BAD_TABLE);
    }
    for (size_t i = 0; i < sizeof bad / sizeof *bad; i++) {
        struct host host = node(2);
        memcpy(host.table + 2016, hex(bad[i]).at, 16);
        EXPECT_NUMBER(take(&host, &call), GRASP_REFUSAL_BAD_TABLE);
    }
    {
        struct host host = node(2);
        memcpy(host.table, hex("00000001 00000001").at, 8);
        host.table[31] = 2; /* admitted after the clock */
        EXPECT_NUMBER(take(&host, &call), GRASP_REFUSAL_BAD_TABLE);
        host.table[31] = 1;
        EXPECT_NUMBER(take(&host, &call), 0);
    }
}

/* Interfaces and links that are none, also by bits that a narrower number would lose. */
static void test_records(void) {
    static const uint64_t counts[] = {0, GRASP_MAX_INTERFACES + 1, 256 + 2, ((uint64_t)1 << 32) + 2,
                                      UINT64_MAX};
    static const uint64_t masks[] = {4, 256 + 1, ((uint64_t)1 << 63) + 1, UINT64_MAX};
    const struct call call = called(1, 0, "80", "81 00");
    struct host host = node(2), bad;
    for (size_t i = 0; i < sizeof counts / sizeof *counts; i++) {
        EXPECT_NUMBER(fresh(&host, counts[i], 0), GRASP_REFUSAL_BAD_RECORD);
        bad = host;
        bad.record[GRASP_NUMBER_INTERFACES] = counts[i];
        if (form == IN_PLACE && !has_struct(&bad))
            continue;
        EXPECT_NUMBER(take(&bad, &call), GRASP_REFUSAL_BAD_RECORD);
        EXPECT_NUMBER(set_links(&bad, 0), GRASP_REFUSAL_BAD_RECORD);
    }
    for (size_t i = 0; i < sizeof masks / sizeof *masks; i++) {
        EXPECT_NUMBER(fresh(&host, 2, masks[i]), GRASP_REFUSAL_BAD_RECORD);
        EXPECT_NUMBER(set_links(&host, masks[i]), GRASP_REFUSAL_BAD_LINK);
        bad = host;
        bad.record[GRASP_NUMBER_LINKS] = masks[i];
        if (form == IN_PLACE && !has_struct(&bad))
            continue;
        EXPECT_NUMBER(take(&bad, &call), GRASP_REFUSAL_BAD_RECORD);
        EXPECT_NUMBER(set_links(&bad, 0), GRASP_REFUSAL_BAD_RECORD);
    }
}

/* Numbers that no record has room for. */
static void test_wide_numbers(void) {
    static const uint64_t widths[] = {16, 32, 8, 8};
    const struct call call = called(1, 0, "80", "81 00");
    for (size_t field = GRASP_NUMBER_PORT; field <= GRASP_NUMBER_LINKS; field++) {
        struct host host = node(2);
        host.record[field] += (uint64_t)1 << widths[field];
        EXPECT_NUMBER(take(&host, &call), GRASP_REFUSAL_BAD_RECORD);
        EXPECT_NUMBER(set_links(&host, 0), GRASP_REFUSAL_BAD_RECORD);
    }
}

/* A record of all ones, interfaces that aren't there or down, and links that come and go. */
static void test_links(void) {
    static const uint64_t none[] = {2, GRASP_MAX_INTERFACES, 64, 256, (uint64_t)1 << 32, UINT64_MAX};
    const struct call good = called(1, 0, "80", "81 00");
    struct host host = node(2), bad = host;
    memset(bad.record, 0xFF, sizeof bad.record);
    if (form == IN_PLACE)
        memcpy(bad.record, (uint64_t[]){UINT16_MAX, UINT32_MAX, UINT8_MAX, UINT8_MAX},
               4 * sizeof *bad.record);
    EXPECT_NUMBER(take(&bad, &good), GRASP_REFUSAL_BAD_RECORD);
    EXPECT_NUMBER(set_links(&bad, UINT64_MAX), GRASP_REFUSAL_BAD_RECORD);
    for (size_t i = 0; i < sizeof none / sizeof *none; i++) {
        const struct call call = called(1, none[i], "80", "81 00");
        EXPECT_NUMBER(take(&host, &call), GRASP_REFUSAL_BAD_LINK);
    }
    EXPECT_NUMBER(set_links(&host, 2), 0);
    EXPECT_NUMBER(host.record[GRASP_NUMBER_LINKS], 2);
    EXPECT_NUMBER(take(&host, &good), GRASP_REFUSAL_BAD_LINK);
    EXPECT_NUMBER(set_links(&host, 0), 0);
    EXPECT_NUMBER(set_links(&host, 3), 0);
    EXPECT_NUMBER(take(&host, &good), 0);
    EXPECT_NUMBER(host.record[GRASP_NUMBER_PORT], 7017);
    EXPECT_NUMBER(host.record[GRASP_NUMBER_TTL], 60000);
}

void test_node(void) {
    for (form = AS_NUMBERS; form < FORMS; form++) {
        test_discovery();
        test_flood();
        test_other_kinds();
        test_full_table();
        test_order();
        test_bad_messages();
        test_names();
        test_own_names();
        test_tables();
        test_records();
        test_links();
    }
    form = AS_NUMBERS;
    test_wide_numbers();
}
