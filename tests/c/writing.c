/* grasp_write. */
#include <string.h>

#include "test.h"

/* What is to be written: a block, a list and a source. */
struct description {
    uint64_t fields[GRASP_MESSAGE_FIELDS], list[8 * GRASP_PAIR_FIELDS];
    size_t numbers;
    struct bytes source;
};

/* The description of a message that is accepted. */
static struct description described(struct bytes message) {
    struct description it = {{0}, {0}, 0, message};
    size_t at, row;
    EXPECT_NUMBER(read_bytes(message, it.fields), 0);
    at = (size_t)it.fields[GRASP_MESSAGE_LIST_AT];
    for (uint64_t i = 0; i < it.fields[GRASP_MESSAGE_LIST_MANY]; i++) {
        row = it.numbers;
        if (it.fields[GRASP_MESSAGE_LIST] == GRASP_LIST_PAIRS) {
            at = grasp_pair(message.at, message.len, at, it.list + row);
            grasp_pair_to_write(it.list + row);
            it.numbers += GRASP_PAIR_FIELDS;
        } else {
            at = grasp_locator(message.at, message.len, at, it.list + row);
            it.numbers += GRASP_LOCATOR_FIELDS;
        }
    }
    grasp_message_to_write(it.fields);
    return it;
}

/* Writes with all margins looked at; what is refused leaves all. */
static uint8_t write_to(const struct description *it, size_t size, struct bytes *written) {
    const uint8_t *source = lend(BYTES, it->source.at, it->source.len);
    const uint64_t *list = lend(LIST, it->list, it->numbers * sizeof *list);
    const uint64_t *fields = lend(FIELDS, it->fields, sizeof it->fields);
    uint8_t *out = lend(OUT, NULL, size);
    uint64_t *length = lend(LENGTH, NULL, sizeof *length);
    uint8_t refusal =
        saw_refusal(grasp_write(source, it->source.len, list, it->numbers, fields, out, size, length));
    EXPECT(is_as_lent(BYTES) && is_as_lent(LIST) && is_as_lent(FIELDS));
    EXPECT(has_margins(OUT) && has_margins(LENGTH));
    EXPECT(refusal == 0 || (is_as_lent(OUT) && is_as_lent(LENGTH)));
    written->len = 0;
    if (refusal == 0 && *length <= size) {
        written->len = (size_t)*length;
        memcpy(written->at, out, written->len);
        EXPECT(is_as_lent_from(OUT, written->len));
    }
    return refusal;
}

/* What was read and described is written as the same bytes, where they fit and no number is left over. */
static void test_again(const char *digits) {
    const struct bytes message = hex(digits);
    struct description it = described(message);
    struct bytes written;
    EXPECT_NUMBER(write_to(&it, message.len, &written), 0);
    EXPECT(are_same(written, message.at, message.len));
    EXPECT_NUMBER(write_to(&it, message.len + 5, &written), 0);
    EXPECT(are_same(written, message.at, message.len));
    EXPECT_NUMBER(write_to(&it, message.len - 1, &written), GRASP_REFUSAL_WRITE_OUTPUT);
    EXPECT_NUMBER(write_to(&it, 0, &written), GRASP_REFUSAL_WRITE_OUTPUT);
    it.numbers++;
    EXPECT_NUMBER(write_to(&it, message.len, &written), GRASP_REFUSAL_NO_SUCH_MESSAGE);
}

/* Any field or number of the list that is all ones is in no message without empty spans; 18 comes before 19.
 */
static void test_all_ones(const char *digits) {
    const struct description it = described(hex(digits));
    struct description other;
    struct bytes written;
    for (size_t field = 0; field < GRASP_MESSAGE_FIELDS; field++) {
        other = it;
        other.fields[field] = UINT64_MAX;
        EXPECT_NUMBER(write_to(&other, 0, &written), GRASP_REFUSAL_NO_SUCH_MESSAGE);
    }
    for (size_t number = 0; number < it.numbers; number++) {
        other = it;
        other.list[number] = UINT64_MAX;
        EXPECT_NUMBER(write_to(&other, 0, &written), GRASP_REFUSAL_NO_SUCH_MESSAGE);
    }
    other = it;
    memset(other.fields, 0xFF, sizeof other.fields);
    memset(other.list, 0xFF, sizeof other.list);
    EXPECT_NUMBER(write_to(&other, GRASP_MAX_MESSAGE_BYTES, &written), GRASP_REFUSAL_NO_SUCH_MESSAGE);
    EXPECT_NUMBER(write_to(&other, 0, &written), GRASP_REFUSAL_NO_SUCH_MESSAGE);
}

/* A list with a number less, or a row more or less, than is said, and a shorter source. */
static void test_lengths(const char *digits, size_t row) {
    const struct description it = described(hex(digits));
    const size_t lengths[] = {it.numbers - 1, it.numbers + row, it.numbers - row, 0};
    struct description other = it;
    struct bytes written;
    for (size_t i = 0; i < sizeof lengths / sizeof *lengths; i++) {
        other.numbers = lengths[i];
        EXPECT_NUMBER(write_to(&other, GRASP_MAX_MESSAGE_BYTES, &written), GRASP_REFUSAL_NO_SUCH_MESSAGE);
    }
    other = it;
    other.fields[GRASP_MESSAGE_LIST_MANY]++;
    EXPECT_NUMBER(write_to(&other, GRASP_MAX_MESSAGE_BYTES, &written), GRASP_REFUSAL_NO_SUCH_MESSAGE);
    other = it;
    other.source.len = 5;
    EXPECT_NUMBER(write_to(&other, GRASP_MAX_MESSAGE_BYTES, &written), GRASP_REFUSAL_NO_SUCH_MESSAGE);
    other.source.len = 0;
    EXPECT_NUMBER(write_to(&other, GRASP_MAX_MESSAGE_BYTES, &written), GRASP_REFUSAL_NO_SUCH_MESSAGE);
}

/* A Noop of no source and no list; a message over 2,048 bytes; 23 and 24 in one and two bytes. */
static void test_edges(void) {
    struct description it = {{0}, {0}, 0, {{0}, 0}};
    struct bytes written;
    EXPECT_NUMBER(write_to(&it, 2, &written), 0);
    EXPECT(are_same(written, "\x81\x00", 2));
    it.fields[GRASP_MESSAGE_KIND] = GRASP_KIND_WAIT;
    it.fields[GRASP_MESSAGE_SESSION] = 24;
    it.fields[GRASP_MESSAGE_TTL] = 23;
    EXPECT_NUMBER(write_to(&it, GRASP_MAX_MESSAGE_BYTES, &written), 0);
    EXPECT(are_same(written, "\x83\x07\x18\x18\x17", 5));
    it.fields[GRASP_MESSAGE_TTL] = (uint64_t)1 << 32;
    EXPECT_NUMBER(write_to(&it, GRASP_MAX_MESSAGE_BYTES, &written), GRASP_REFUSAL_NO_SUCH_MESSAGE);
    for (size_t length = GRASP_MAX_MESSAGE_BYTES; length <= GRASP_MAX_MESSAGE_BYTES + 1; length++) {
        it = (struct description){{0}, {0}, 0, hex("59")};
        it.fields[GRASP_MESSAGE_KIND] = GRASP_KIND_INVALID;
        append_byte(&it.source, (uint8_t)((length - 7) >> 8), 1);
        append_byte(&it.source, (uint8_t)(length - 7), 1);
        append_byte(&it.source, 0xFF, length - 7);
        it.fields[GRASP_MESSAGE_ITEM_LEN] = it.source.len;
        EXPECT_NUMBER(write_to(&it, 2 * GRASP_MAX_MESSAGE_BYTES, &written),
                      length == GRASP_MAX_MESSAGE_BYTES ? GRASP_OK : GRASP_REFUSAL_NO_SUCH_MESSAGE);
    }
}

/* A Response with an objective and one without, and a Flood. */
static const char response[] = "88 02 07 50 FE80 0000 0000 0000 0000 0000 0000 0001 19 EA60"
                               "84 18 67 50 20010DB8 00000000 00000000 00000001 06 19 1B69"
                               "84 18 69 61 64 06 19 FFFF"
                               "84 18 6A 61 75 F6 F6"
                               "84 63 455831 08 05 82 01 02",
                  plain[] = "85 02 07 44 C0000201 00 84 18 68 44 C0000202 11 00",
                  flood[] = "86 09 07 44 C0000201 00 82 83 61 41 04 02 80"
                            "82 84 61 42 04 18 18 F5 84 18 6A 60 11 F6";

void test_writing(void) {
    static const char *const messages[] = {
        response,
        flood,
        plain,
        "81 00",
        "84 01 07 44 C0000201 83 63 455831 01 02",
        "83 03 1A FFFFFFFF 84 60 0F 18 FF 80",
        "83 04 00 83 61 41 00 00",
        "83 05 01 83 61 41 00 00",
        "83 06 07 81 18 65",
        "83 06 07 81 18 66",
        "83 06 07 82 18 66 60",
        "83 06 07 82 18 66 62 6E6F",
        "83 07 07 19 03E8",
        "83 08 01 83 61 41 00 00",
        "82 18 63 07",
        "83 18 63 07 F6",
        "85 02 07 44 C0000201 00 82 18 64 84 18 68 44 C0000202 11 00",
        "85 02 07 44 C0000201 00 83 18 64 84 18 68 44 C0000202 11 00 84 18 69 61 64 06 00",
        "86 02 07 44 C0000201 00 82 18 64 84 18 68 44 C0000202 11 00 83 61 41 02 01",
    };
    for (size_t i = 0; i < sizeof messages / sizeof *messages; i++)
        test_again(messages[i]);
    test_all_ones(response);
    test_all_ones("86 09 07 44 C0000201 00 82 84 61 41 04 02 00 84 18 68 44 C0000202 06 00"
                  "82 84 61 42 04 18 18 F5 84 18 6A 61 75 11 F6");
    test_lengths(response, GRASP_LOCATOR_FIELDS);
    test_lengths(plain, GRASP_LOCATOR_FIELDS);
    test_lengths(flood, GRASP_PAIR_FIELDS);
    test_edges();
}
