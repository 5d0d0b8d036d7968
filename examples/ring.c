/*
 * Three rails cabled in a ring, in one process: the storm that doesn't happen.
 *
 * Rail A floods one announcement on both of its links. The rails relay it with
 * libgrasp, and the ring falls silent. Then the same ring with a relay that
 * remembers nothing: it is cut off after MOST_COPIES.
 */
#include <inttypes.h>
#include <stdio.h>
#include <string.h>

#include "grasp.h"
#include "grasp_text.h"

enum { RAILS = 3, MOST_COPIES = 1000, MOST_UNDERWAY = 8 };

/* A rail's two interfaces: to the next rail and to the one before. */
enum { NEXT = 0, PREVIOUS = 1, INTERFACES = 2, ALL_UP = 3 };

/* What a rail keeps: its record, its relay table and the names that it answers to. */
struct rail {
    struct grasp_record record;
    uint8_t table[GRASP_TABLE_BYTES];
    uint8_t names[GRASP_MAX_NAMES_BYTES];
    size_t names_len;
};

/* A copy under way: when and where it arrives. */
struct copy {
    uint64_t due;
    size_t rail;
    uint64_t interface;
    uint8_t bytes[GRASP_MAX_MESSAGE_BYTES];
    size_t len;
};

struct ring {
    struct rail rails[RAILS];
    struct copy underway[MOST_UNDERWAY];
    size_t copies_underway;
    unsigned copies_sent;
};

/* How long a copy takes from each rail to the next, and back, in ms. */
static const uint64_t delay[RAILS] = {1, 1, 5};

/* Every rail offers its lamp and its supply. */
static const char *const own_names[] = {"LAMP", "SUPPLY"};

/* Sends a copy on each interface of the mask. */
static void send_copies(struct ring *ring, uint64_t now, size_t from, uint64_t mask, const uint8_t *bytes,
                        size_t len) {
    for (uint64_t interface = 0; interface < INTERFACES; interface++) {
        struct copy *copy = &ring->underway[ring->copies_underway];
        if ((mask >> interface & 1) == 0 || ring->copies_underway == MOST_UNDERWAY)
            continue;
        copy->rail = (from + (interface == NEXT ? 1 : RAILS - 1)) % RAILS;
        copy->interface = interface == NEXT ? PREVIOUS : NEXT;
        copy->due = now + delay[interface == NEXT ? from : copy->rail];
        copy->len = len;
        memcpy(copy->bytes, bytes, len);
        ring->copies_underway++;
        ring->copies_sent++;
    }
}

/* Takes the copy that arrives first. */
static struct copy next_arrival(struct ring *ring) {
    size_t first = 0;
    struct copy copy;
    for (size_t i = 1; i < ring->copies_underway; i++)
        if (ring->underway[i].due < ring->underway[first].due)
            first = i;
    copy = ring->underway[first];
    ring->copies_underway--;
    memmove(&ring->underway[first], &ring->underway[first + 1],
            (ring->copies_underway - first) * sizeof copy);
    return copy;
}

/* Tells which objective a message announces. */
static void hear(const uint8_t *bytes, size_t len) {
    uint64_t fields[GRASP_MESSAGE_FIELDS];
    if (grasp_read(bytes, len, fields) == GRASP_OK) {
        struct grasp_span name = grasp_message_name(bytes, len, fields);
        printf("  heard %.*s", (int)name.len, (const char *)name.at);
    }
}

/* What a rail does with a copy: it asks its node, sends where the node says, and hears what is handed up. */
static void relay(struct ring *ring, const struct copy *copy) {
    struct rail *rail = &ring->rails[copy->rail];
    uint8_t out[GRASP_MAX_MESSAGE_BYTES];
    uint64_t answer[GRASP_ANSWER_FIELDS];
    uint8_t refusal =
        grasp_record_call(&rail->record, rail->table, sizeof rail->table, copy->due, copy->interface,
                          rail->names, rail->names_len, copy->bytes, copy->len, out, sizeof out, answer);
    if (refusal != GRASP_OK) {
        printf("refused: %s\n", grasp_refusal_text(refusal));
        return;
    }
    send_copies(ring, copy->due, copy->rail, answer[GRASP_ANSWER_MASK], out,
                (size_t)answer[GRASP_ANSWER_LENGTH]);
    printf("%4" PRIu64 " ms  rail %c  %-9s  tally %" PRIu64, copy->due, 'A' + (int)copy->rail,
           grasp_verdict_text(answer[GRASP_ANSWER_VERDICT]), rail->record.tally);
    if (answer[GRASP_ANSWER_HANDED_UP])
        hear(copy->bytes, copy->len);
    printf("\n");
}

/* What a rail without a node does: it forwards what comes in on every other link. */
static void forward(struct ring *ring, const struct copy *copy) {
    send_copies(ring, copy->due, copy->rail, ALL_UP & ~((uint64_t)1 << copy->interface), copy->bytes,
                copy->len);
}

/* A fresh rail: its record, a table of zeros and its names. */
static struct rail fresh_rail(size_t number) {
    const uint8_t address[GRASP_ADDRESS_BYTES] = {0x20, 0x01, 0x0D, 0xB8, [15] = (uint8_t)(number + 1)};
    struct rail rail = {.record = GRASP_RECORD_INIT};
    uint8_t refusal = grasp_record_fresh(&rail.record, address, 7017, 60000, INTERFACES, ALL_UP);
    if (refusal != GRASP_OK)
        printf("rail %zu: %s\n", number, grasp_refusal_text(refusal));
    rail.names_len =
        grasp_own_names(own_names, sizeof own_names / sizeof *own_names, rail.names, sizeof rail.names);
    return rail;
}

/* Puts three fresh rails in the ring, with nothing under way. */
static void begin(struct ring *ring) {
    for (size_t i = 0; i < RAILS; i++)
        ring->rails[i] = fresh_rail(i);
    ring->copies_underway = 0;
    ring->copies_sent = 0;
}

/* Rail A announces its lamp, 4,000 K, on both links, with a loop count of 6. */
static void flood(struct ring *ring) {
    static const uint8_t name[] = {'L', 'A', 'M', 'P'}, value[] = {0x19, 0x0F, 0xA0};
    uint8_t source[GRASP_ADDRESS_BYTES + sizeof name + sizeof value], out[GRASP_MAX_MESSAGE_BYTES];
    uint64_t fields[GRASP_MESSAGE_FIELDS] = {0}, pair[GRASP_PAIR_FIELDS] = {0}, length;
    memcpy(source, ring->rails[0].record.address, GRASP_ADDRESS_BYTES);
    memcpy(source + GRASP_ADDRESS_BYTES, name, sizeof name);
    memcpy(source + GRASP_ADDRESS_BYTES + sizeof name, value, sizeof value);
    fields[GRASP_MESSAGE_KIND] = GRASP_KIND_FLOOD;
    fields[GRASP_MESSAGE_SESSION] = 7;
    fields[GRASP_MESSAGE_INITIATOR_LEN] = GRASP_ADDRESS_BYTES;
    fields[GRASP_MESSAGE_TTL] = 60000;
    fields[GRASP_MESSAGE_LIST] = GRASP_LIST_PAIRS;
    fields[GRASP_MESSAGE_LIST_MANY] = 1;
    pair[GRASP_PAIR_NAME_AT] = GRASP_ADDRESS_BYTES;
    pair[GRASP_PAIR_NAME_LEN] = sizeof name;
    pair[GRASP_PAIR_FLAGS] = GRASP_FLAG_SYNCHRONIZATION;
    pair[GRASP_PAIR_COUNT] = 6;
    pair[GRASP_PAIR_VALUE_AT] = GRASP_ADDRESS_BYTES + sizeof name;
    pair[GRASP_PAIR_VALUE_LEN] = sizeof value;
    if (grasp_write(source, sizeof source, pair, GRASP_PAIR_FIELDS, fields, out, sizeof out, &length) ==
        GRASP_OK)
        send_copies(ring, 0, 0, ALL_UP, out, (size_t)length);
}

/* Lets copies arrive until none is under way or too many were sent; the clock of the last. */
static uint64_t run(struct ring *ring, void (*receive)(struct ring *, const struct copy *)) {
    uint64_t now = 0;
    while (ring->copies_underway > 0 && ring->copies_sent < MOST_COPIES) {
        struct copy copy = next_arrival(ring);
        receive(ring, &copy);
        now = copy.due;
    }
    return now;
}

int main(void) {
    static struct ring ring;
    uint64_t last;
    printf("Rails with a node:\n");
    begin(&ring);
    flood(&ring);
    run(&ring, relay);
    printf("%u copies, and the ring is silent.\n\n", ring.copies_sent);
    printf("Rails that forward everything on every other link:\n");
    begin(&ring);
    flood(&ring);
    last = run(&ring, forward);
    printf("%u copies after %" PRIu64 " ms, and %zu are under way.\n", ring.copies_sent, last,
           ring.copies_underway);
    return 0;
}
