/*
 * Copperladle: a proved GRASP (RFC 8990) node, for C.
 *
 * Link with libgrasp.a (`bash tools/archive` writes target/staticlib/libgrasp.a);
 * grasp.pc has the flags for pkg-config. grasp_text.h has words for logs,
 * examples/ring.c is a small host. The headers are C11 or C++11.
 *
 * The archive is for x86-64 with System V calls, as on Linux; `rt` builds for no
 * other target. It uses the red zone and SSE2: on bare metal an interrupt handler
 * needs a stack of its own and saves the SSE registers.
 *
 * Every function answers every argument: no byte, place or number is expected
 * to have been checked. It answers 0, or the number of a refusal (enum
 * grasp_refusal) and then has changed nothing; grasp_locator and grasp_pair
 * answer a place.
 *
 * All memory is the caller's. No pointer is kept when a call returns, nothing is
 * allocated and there are no globals, so calls on different memory may run side
 * by side and one may interrupt another. The archive calls nothing but functions
 * of <string.h>.
 *
 * What a caller must see to, since no function can test it: a pointer is not
 * NULL, is aligned for its type and points at as many bytes or numbers as are said
 * here, initialised unless they are only filled; and memory that is written
 * overlaps no other argument. Where a length follows the pointer and is 0, nothing
 * is read or written there, and the pointer may be NULL.
 *
 * Stack: see GRASP_STACK_BYTES.
 *
 * Names: GRASP_, a family, and a word of its own; no two families begin alike.
 * Values are of REFUSAL (no refusal: GRASP_OK), KIND, FLAG, VERDICT, LIST, OUTCOME,
 * OPTION, PROTOCOL, PORT, PHASE, SIDE. Places in an array of numbers are of ANSWER,
 * MESSAGE, LOCATOR, PAIR, STATE, NUMBER; the last, FIELDS, is how many there are.
 * Limits are of MAX; a size is what it measures, and BYTES.
 */
#ifndef GRASP_H
#define GRASP_H

#include <stddef.h>
#include <stdint.h>

#ifdef __cplusplus
extern "C" {
#endif

/* The release: as text, and as 10,000 times the major number, 100 times the minor one and the patch. */
#define GRASP_VERSION "0.1.0"
#define GRASP_VERSION_NUMBER 100

/* The numbers of the refusals. */
enum grasp_refusal {
    GRASP_OK = 0, /* no refusal */
    /* of the bytes of a message */
    GRASP_REFUSAL_BAD_SIZE = 1,     /* no bytes, or over GRASP_MAX_MESSAGE_BYTES */
    GRASP_REFUSAL_CUT = 2,          /* the bytes end inside an item */
    GRASP_REFUSAL_RESERVED = 3,     /* additional information 28 to 30, or a two-byte simple value below 32 */
    GRASP_REFUSAL_INDEFINITE = 4,   /* additional information 31, a lone break included */
    GRASP_REFUSAL_LONG_HEAD = 5,    /* a head longer than needed */
    GRASP_REFUSAL_TOO_DEEP = 6,     /* level 9 reached */
    GRASP_REFUSAL_BYTES_AFTER = 7,  /* bytes after the item */
    GRASP_REFUSAL_UNKNOWN_KIND = 8, /* an array that begins with an unsigned number that is no kind */
    GRASP_REFUSAL_BAD_SHAPE = 9,    /* any other departure from the message shapes */
    GRASP_REFUSAL_LONG_NAME = 10,   /* an objective's name over GRASP_MAX_NAME_BYTES */
    GRASP_REFUSAL_BAD_TEXT = 11,    /* an objective's name, a reason, a domain name or a URI that isn't
                                       UTF-8 */
    /* of a record or a node call */
    GRASP_REFUSAL_BAD_RECORD = 12,  /* no or over GRASP_MAX_INTERFACES interfaces, a link at or above them, or
                                       tally above 2^63 */
    GRASP_REFUSAL_BAD_LINK = 13,    /* arrival on no interface or on a link that is down, or new links with a
                                       bit at or above the interfaces */
    GRASP_REFUSAL_EARLY_CLOCK = 14, /* clock earlier than the record's */
    GRASP_REFUSAL_BAD_TABLE = 15,   /* table not GRASP_TABLE_BYTES long, or a row bad */
    GRASP_REFUSAL_BAD_NAMES = 16,   /* own names not one array, with nothing after it and no head longer than
                                       needed, of at most GRASP_MAX_NAMES UTF-8 texts of at most
                                       GRASP_MAX_NAME_BYTES each */
    GRASP_REFUSAL_CALL_OUTPUT = 17, /* the node call's output shorter than GRASP_MAX_MESSAGE_BYTES */
    /* of a description to write */
    GRASP_REFUSAL_NO_SUCH_MESSAGE = 18, /* no accepted message has this description */
    GRASP_REFUSAL_WRITE_OUTPUT = 19,    /* the output is shorter than the encoding */
    /* of a negotiation */
    GRASP_REFUSAL_NOT_ALLOWED = 20 /* a step that isn't allowed */
};

/* The kinds of messages. */
enum grasp_kind {
    GRASP_KIND_NOOP = 0,
    GRASP_KIND_DISCOVERY = 1,
    GRASP_KIND_RESPONSE = 2,
    GRASP_KIND_REQUEST_NEGOTIATION = 3,
    GRASP_KIND_REQUEST_SYNCHRONIZATION = 4,
    GRASP_KIND_NEGOTIATE = 5,
    GRASP_KIND_END = 6,
    GRASP_KIND_WAIT = 7,
    GRASP_KIND_SYNCH = 8,
    GRASP_KIND_FLOOD = 9,
    GRASP_KIND_INVALID = 99
};

/* The bits of an objective's flags (RFC 8990, section 2.10.2). */
enum grasp_flag {
    GRASP_FLAG_DISCOVERY = 1,
    GRASP_FLAG_NEGOTIATION = 2,
    GRASP_FLAG_SYNCHRONIZATION = 4,
    GRASP_FLAG_DRY_RUN = 8
};

/* The limits: what is more is refused. */
enum {
    GRASP_MAX_MESSAGE_BYTES = 2048, /* of a message, and so the room that a node call's output must have */
    GRASP_MAX_NAME_BYTES = 64,      /* of an objective's name */
    GRASP_MAX_NAMES = 16,           /* a node's own */
    GRASP_MAX_NAMES_BYTES = 1057,   /* of the array of own names: 1 + 16 * (2 + 64) */
    GRASP_MAX_INTERFACES = 8
};

/*
 * More stack than any call was seen to use on x86-64. tests/c/stack.c paints a
 * stack, calls each function where it goes deepest, and looks how far down the
 * paint is gone: a node call uses most, under 4,600 bytes. No function recurses, whatever
 * the message's nesting.
 */
enum { GRASP_STACK_BYTES = 8192 };

/* ---- The node ---- */

enum { GRASP_ADDRESS_BYTES = 16 };

/*
 * A node's record, which the host keeps and calls change in place.
 * grasp_record_fresh fills it; a host may read it between calls. The bytes between
 * its members mean nothing, and a call may leave any there, old ones of the stack
 * too: compare, checksum or store the members and not the struct.
 */
struct grasp_record {
    uint8_t address[GRASP_ADDRESS_BYTES]; /* the node's own */
    uint16_t port;      /* of an answer, whose locator is the address, TCP (6) and this port */
    uint32_t ttl;       /* of an answer, in ms */
    uint8_t interfaces; /* how many: 1 to GRASP_MAX_INTERFACES */
    uint8_t links;      /* bit i: interface i is up */
    uint64_t clock;     /* the last accepted one, in ms */
    uint64_t tally;     /* the copies of all relays */
};

/*
 * A record that is initialised and is no node's yet: every call refuses it, but
 * grasp_record_fresh makes a node of it.
 *
 *     struct grasp_record node = GRASP_RECORD_INIT;
 */
#define GRASP_RECORD_INIT                                                                                    \
    { {0}, 0, 0, 0, 0, 0, 0 }

/* The archive has this layout. */
#ifdef __cplusplus
#define GRASP_ASSERT static_assert
#else
#define GRASP_ASSERT _Static_assert
#endif
GRASP_ASSERT(sizeof(struct grasp_record) == 48, "size of struct grasp_record");
GRASP_ASSERT(offsetof(struct grasp_record, address) == 0, "place of address");
GRASP_ASSERT(offsetof(struct grasp_record, port) == 16, "place of port");
GRASP_ASSERT(offsetof(struct grasp_record, ttl) == 20, "place of ttl");
GRASP_ASSERT(offsetof(struct grasp_record, interfaces) == 24, "place of interfaces");
GRASP_ASSERT(offsetof(struct grasp_record, links) == 25, "place of links");
GRASP_ASSERT(offsetof(struct grasp_record, clock) == 32, "place of clock");
GRASP_ASSERT(offsetof(struct grasp_record, tally) == 40, "place of tally");
#undef GRASP_ASSERT

/*
 * The relay table: 64 rows of four numbers, eight bytes each, the most significant
 * first. A fresh one is all zeros; a host only clears and lends it.
 */
enum { GRASP_TABLE_BYTES = 2048 };

/* What a node does with a message: of 1 to 7, for a Discovery or a Flood, the first that applies. */
enum grasp_verdict {
    GRASP_VERDICT_OWN = 1,       /* its initiator is the record's address, 16 bytes; one of 4 is never ours */
    GRASP_VERDICT_ANSWER = 2,    /* a Discovery of an own name: send the output back */
    GRASP_VERDICT_DUPLICATE = 3, /* one of its kind, session and initiator was relayed less than 60,000 ms
                                    ago, a Flood 120,000 */
    GRASP_VERDICT_LAST = 4,      /* its count, a Flood's being the first pair's, is 0 or 1 */
    GRASP_VERDICT_NOWHERE = 5,   /* no other link is up */
    GRASP_VERDICT_NOROW = 6,     /* the table is full */
    GRASP_VERDICT_RELAY = 7,     /* send the output on */
    GRASP_VERDICT_NOOP = 8,      /* a Noop */
    GRASP_VERDICT_HAND = 9       /* for the host */
};

/* The answer of a node call. */
enum grasp_answer_field {
    GRASP_ANSWER_VERDICT = 0,
    GRASP_ANSWER_HANDED_UP = 1, /* 1 if the host is to look at the message */
    GRASP_ANSWER_MASK = 2,      /* send on interface i where bit i is set: RELAY, every other link that is up;
                                   ANSWER, the one it came in by; else none */
    GRASP_ANSWER_LENGTH = 3,    /* how many bytes of the output to send, 0 if there is nothing to */
    GRASP_ANSWER_FIELDS = 4
};

/*
 * Begins a node: answers 0 and puts a fresh record, whose clock and tally are 0;
 * or answers 12 and leaves the record as it was. The record is read too, so it is
 * to be initialised (GRASP_RECORD_INIT), and the address is not to be the record's
 * own. The table that goes with a fresh record is all zeros, and negotiations begin
 * anew.
 */
uint8_t grasp_record_fresh(struct grasp_record *node, const uint8_t address[GRASP_ADDRESS_BYTES],
                           uint16_t port, uint32_t ttl, uint64_t interfaces, uint64_t links);

/*
 * Puts new links in the place of the old ones. Answers 0; or 12, then 13, and
 * leaves the record as it was.
 */
uint8_t grasp_record_set_links(struct grasp_record *node, uint64_t links);

/*
 * Says what the node does with a message that came in by an interface, at a clock
 * in ms, 64 bits, that never goes back (a 32-bit tick that wraps is refused as 14).
 * Answers 0, fills the answer, and changes the record (clock and tally), the table
 * and, where something is to be sent, the first bytes of the output; or answers
 * the number of the refusal, 12 to 17 and then 1 to 11 as grasp_read, and leaves
 * all as it was. The names are one CBOR array of the node's own names (`80`: none;
 * `81 63 45 58 31`: "EX1"), as grasp_own_names makes it. The output must have room
 * for GRASP_MAX_MESSAGE_BYTES. Record and table are handed in as the call before
 * left them.
 */
uint8_t grasp_record_call(struct grasp_record *node, uint8_t *table, size_t table_len, uint64_t clock,
                          uint64_t interface, const uint8_t *names, size_t names_len, const uint8_t *message,
                          size_t len, uint8_t *out, size_t out_len, uint64_t answer[GRASP_ANSWER_FIELDS]);

/* How many bytes a text has before its 0; one more than GRASP_MAX_NAME_BYTES where it has more. */
static inline size_t grasp_name_len(const char *name) {
    size_t len = 0;
    while (len <= GRASP_MAX_NAME_BYTES && name[len] != '\0')
        len++;
    return len;
}

/*
 * Puts the array of so many own names, texts that end in 0, at the front of the
 * output. Answers its length, at least 1 and at most GRASP_MAX_NAMES_BYTES; or 0, with
 * the output as it was, for more than GRASP_MAX_NAMES names, a name over
 * GRASP_MAX_NAME_BYTES, or an output shorter than the array. That the names are UTF-8
 * is asked by the node call.
 */
static inline size_t grasp_own_names(const char *const *names, size_t many, uint8_t *out, size_t out_len) {
    size_t length = 1, at = 0;
    if (many > GRASP_MAX_NAMES)
        return 0;
    for (size_t i = 0; i < many; i++) {
        size_t len = grasp_name_len(names[i]);
        if (len > GRASP_MAX_NAME_BYTES)
            return 0;
        length += (len < 24 ? 1 : 2) + len;
    }
    if (out_len < length)
        return 0;
    out[at++] = (uint8_t)(0x80 + many);
    for (size_t i = 0; i < many; i++) {
        size_t len = grasp_name_len(names[i]);
        if (len >= 24)
            out[at++] = 0x78;
        out[at++] = (uint8_t)(len < 24 ? 0x60 + len : len);
        for (size_t j = 0; j < len; j++)
            out[at++] = (uint8_t)names[i][j];
    }
    return length;
}

/* ---- Reading ---- */

/*
 * Where each field of a message stands in the block that grasp_read fills. A
 * place is an offset into the message's bytes. Addresses, names, reasons, domain
 * names and URIs are contents without their heads; a value and Invalid's item are
 * encoded items. What a message lacks is 0, but a value or Invalid's item that is
 * left out has length 0 at the place where it would stand.
 */
enum grasp_message_field {
    GRASP_MESSAGE_KIND = 0,
    GRASP_MESSAGE_SESSION = 1,
    GRASP_MESSAGE_INITIATOR_AT = 2,
    GRASP_MESSAGE_INITIATOR_LEN = 3, /* 4 or 16 */
    GRASP_MESSAGE_TTL = 4,           /* Response, Flood: ttl; Wait: waiting time; in ms */
    GRASP_MESSAGE_HAS_OBJECTIVE = 5, /* 1 if there is one; a Flood's is its first pair's */
    GRASP_MESSAGE_NAME_AT = 6,
    GRASP_MESSAGE_NAME_LEN = 7,
    GRASP_MESSAGE_FLAGS = 8,     /* bits of enum grasp_flag */
    GRASP_MESSAGE_COUNT = 9,     /* loop count */
    GRASP_MESSAGE_COUNT_AT = 10, /* the head of the loop count ends at GRASP_MESSAGE_VALUE_AT */
    GRASP_MESSAGE_VALUE_AT = 11,
    GRASP_MESSAGE_VALUE_LEN = 12, /* 0: no value */
    GRASP_MESSAGE_LIST = 13,      /* enum grasp_list */
    GRASP_MESSAGE_LIST_AT = 14,   /* the first element: for grasp_locator or grasp_pair */
    GRASP_MESSAGE_LIST_MANY = 15,
    GRASP_MESSAGE_OUTCOME = 16,  /* End: enum grasp_outcome */
    GRASP_MESSAGE_ITEM_AT = 17,  /* End: the reason; Invalid: its item */
    GRASP_MESSAGE_ITEM_LEN = 18, /* Invalid: 0 if there is none */
    GRASP_MESSAGE_FIELDS = 19
};

/* What a message's list is; a message without one has 0. */
enum grasp_list {
    GRASP_LIST_LOCATORS = 1, /* a Response's */
    GRASP_LIST_DIVERT = 2,   /* the locators of a Response's divert */
    GRASP_LIST_PAIRS = 3     /* a Flood's */
};

/* How a negotiation ends. */
enum grasp_outcome { GRASP_OUTCOME_ACCEPT = 1, GRASP_OUTCOME_DECLINE = 2, GRASP_OUTCOME_DECLINE_REASON = 3 };

/* A locator's kind, by the number of its option in RFC 8990. */
enum grasp_option {
    GRASP_OPTION_IPV6 = 103,
    GRASP_OPTION_IPV4 = 104,
    GRASP_OPTION_DOMAIN = 105,
    GRASP_OPTION_URI = 106
};

/* A locator's protocol, and the port of a URI without one. */
enum { GRASP_PROTOCOL_NULL = 0, GRASP_PROTOCOL_TCP = 6, GRASP_PROTOCOL_UDP = 17, GRASP_PORT_NULL = 65536 };

/* The block of a locator. */
enum grasp_locator_field {
    GRASP_LOCATOR_KIND = 0, /* enum grasp_option */
    GRASP_LOCATOR_AT = 1,   /* the address, domain name or URI */
    GRASP_LOCATOR_LEN = 2,
    GRASP_LOCATOR_PROTOCOL = 3, /* TCP, UDP, or of a URI null */
    GRASP_LOCATOR_PORT = 4,     /* 0 to 65,535, or of a URI null */
    GRASP_LOCATOR_FIELDS = 5
};

/* The block of a pair: its objective, then its locator (five zeros: none). */
enum grasp_pair_field {
    GRASP_PAIR_NAME_AT = 0,
    GRASP_PAIR_NAME_LEN = 1,
    GRASP_PAIR_FLAGS = 2,
    GRASP_PAIR_COUNT = 3,
    GRASP_PAIR_COUNT_AT = 4,
    GRASP_PAIR_VALUE_AT = 5,
    GRASP_PAIR_VALUE_LEN = 6,
    GRASP_PAIR_LOCATOR = 7, /* five numbers, as the block of a locator */
    GRASP_PAIR_FIELDS = 12
};

/*
 * Reads the message that the len bytes are. Answers 0 and fills the block, or
 * answers the number of the refusal, 1 to 11, and leaves the block as it was. Of
 * several refusals it is the first of 1; that of the leftmost head at fault, 2 to
 * 6; 7; 8; 9; 11; 10.
 */
uint8_t grasp_read(const uint8_t *bytes, size_t len, uint64_t fields[GRASP_MESSAGE_FIELDS]);

/*
 * Reads the locator at a place of the message. Answers the place after it and
 * fills the block, or answers 0 and leaves the block as it was where no locator
 * is there. To go through a message's locators:
 *
 *     size_t at = (size_t)fields[GRASP_MESSAGE_LIST_AT];
 *     for (uint64_t i = 0; i < fields[GRASP_MESSAGE_LIST_MANY]; i++)
 *         at = grasp_locator(bytes, len, at, locator);
 *
 * At other places it judges the shape of what stands there alone: not its texts
 * (neither UTF-8 nor a name's length), and not the message around it.
 */
size_t grasp_locator(const uint8_t *bytes, size_t len, size_t at, uint64_t fields[GRASP_LOCATOR_FIELDS]);

/* The same for a Flood's pairs. A value has no more levels than a Flood leaves it, at other places too. */
size_t grasp_pair(const uint8_t *bytes, size_t len, size_t at, uint64_t fields[GRASP_PAIR_FIELDS]);

/* Some bytes of a message. */
struct grasp_span {
    const uint8_t *at;
    size_t len;
};

/* So many bytes from a place on; none where they don't lie within the len bytes. */
static inline struct grasp_span grasp_span_in(const uint8_t *bytes, size_t len, uint64_t at, uint64_t many) {
    struct grasp_span span = {bytes, 0};
    if (bytes != NULL && at <= len && many <= len - at) {
        span.at = bytes + at;
        span.len = (size_t)many;
    }
    return span;
}

/*
 * The fields of a message by what they are, from a block that grasp_read filled;
 * those with bytes take the bytes that it read.
 */
static inline uint8_t grasp_message_kind(const uint64_t fields[GRASP_MESSAGE_FIELDS]) {
    return (uint8_t)fields[GRASP_MESSAGE_KIND];
}

static inline uint32_t grasp_message_session(const uint64_t fields[GRASP_MESSAGE_FIELDS]) {
    return (uint32_t)fields[GRASP_MESSAGE_SESSION];
}

static inline uint32_t grasp_message_ttl(const uint64_t fields[GRASP_MESSAGE_FIELDS]) {
    return (uint32_t)fields[GRASP_MESSAGE_TTL];
}

static inline uint8_t grasp_message_flags(const uint64_t fields[GRASP_MESSAGE_FIELDS]) {
    return (uint8_t)fields[GRASP_MESSAGE_FLAGS];
}

static inline uint8_t grasp_message_count(const uint64_t fields[GRASP_MESSAGE_FIELDS]) {
    return (uint8_t)fields[GRASP_MESSAGE_COUNT];
}

static inline struct grasp_span grasp_message_initiator(const uint8_t *bytes, size_t len,
                                                        const uint64_t fields[GRASP_MESSAGE_FIELDS]) {
    return grasp_span_in(bytes, len, fields[GRASP_MESSAGE_INITIATOR_AT], fields[GRASP_MESSAGE_INITIATOR_LEN]);
}

static inline struct grasp_span grasp_message_name(const uint8_t *bytes, size_t len,
                                                   const uint64_t fields[GRASP_MESSAGE_FIELDS]) {
    return grasp_span_in(bytes, len, fields[GRASP_MESSAGE_NAME_AT], fields[GRASP_MESSAGE_NAME_LEN]);
}

static inline struct grasp_span grasp_message_value(const uint8_t *bytes, size_t len,
                                                    const uint64_t fields[GRASP_MESSAGE_FIELDS]) {
    return grasp_span_in(bytes, len, fields[GRASP_MESSAGE_VALUE_AT], fields[GRASP_MESSAGE_VALUE_LEN]);
}

/* The reason of an End, or Invalid's item. */
static inline struct grasp_span grasp_message_item(const uint8_t *bytes, size_t len,
                                                   const uint64_t fields[GRASP_MESSAGE_FIELDS]) {
    return grasp_span_in(bytes, len, fields[GRASP_MESSAGE_ITEM_AT], fields[GRASP_MESSAGE_ITEM_LEN]);
}

/* A locator's address, domain name or URI. */
static inline struct grasp_span grasp_locator_address(const uint8_t *bytes, size_t len,
                                                      const uint64_t fields[GRASP_LOCATOR_FIELDS]) {
    return grasp_span_in(bytes, len, fields[GRASP_LOCATOR_AT], fields[GRASP_LOCATOR_LEN]);
}

static inline struct grasp_span grasp_pair_name(const uint8_t *bytes, size_t len,
                                                const uint64_t fields[GRASP_PAIR_FIELDS]) {
    return grasp_span_in(bytes, len, fields[GRASP_PAIR_NAME_AT], fields[GRASP_PAIR_NAME_LEN]);
}

static inline struct grasp_span grasp_pair_value(const uint8_t *bytes, size_t len,
                                                 const uint64_t fields[GRASP_PAIR_FIELDS]) {
    return grasp_span_in(bytes, len, fields[GRASP_PAIR_VALUE_AT], fields[GRASP_PAIR_VALUE_LEN]);
}

/* The address, domain name or URI of a pair's locator; none where the pair has no locator. */
static inline struct grasp_span grasp_pair_address(const uint8_t *bytes, size_t len,
                                                   const uint64_t fields[GRASP_PAIR_FIELDS]) {
    return grasp_locator_address(bytes, len, fields + GRASP_PAIR_LOCATOR);
}

/* ---- Writing ---- */

/*
 * Writes the message that a block describes, every head in its shortest form.
 * The block is laid out as grasp_read fills it; its places are offsets into the
 * source. Answers 0, stores the length and puts the encoding at the front of the
 * output, whose other bytes stay; or answers 18, else 19, and leaves all as it was.
 *
 * An objective's value and Invalid's item are encoded items and are copied; all
 * else is encoded from numbers and contents. The locators of a Response or of its
 * divert are rows of five numbers, as the block of a locator. The pairs of a
 * Flood are rows of twelve, as the block of a pair, with 0 for
 * GRASP_PAIR_COUNT_AT. GRASP_MESSAGE_LIST_MANY says how many rows there are, and
 * list_len how many numbers: five or twelve times as many, and 0 for a kind without
 * a list; else 18. In the block GRASP_MESSAGE_COUNT_AT and GRASP_MESSAGE_LIST_AT are
 * 0, of a Flood GRASP_MESSAGE_HAS_OBJECTIVE to GRASP_MESSAGE_VALUE_LEN too (its
 * objectives stand in the rows), and so is every field that the message lacks; else
 * 18. The place of a value, of Invalid's item or of a text that has length 0 isn't
 * looked at. What was read is taken again, with the bytes that were read as source,
 * once grasp_message_to_write, and grasp_pair_to_write for each pair, made it ready.
 */
uint8_t grasp_write(const uint8_t *source, size_t len, const uint64_t *list, size_t list_len,
                    const uint64_t fields[GRASP_MESSAGE_FIELDS], uint8_t *out, size_t out_len,
                    uint64_t *length);

/* Makes a block that grasp_read filled ready for grasp_write: what only a reader says becomes 0. */
static inline void grasp_message_to_write(uint64_t fields[GRASP_MESSAGE_FIELDS]) {
    if (fields[GRASP_MESSAGE_KIND] == GRASP_KIND_FLOOD)
        for (int field = GRASP_MESSAGE_HAS_OBJECTIVE; field <= GRASP_MESSAGE_VALUE_LEN; field++)
            fields[field] = 0;
    fields[GRASP_MESSAGE_COUNT_AT] = 0;
    fields[GRASP_MESSAGE_LIST_AT] = 0;
}

/* The same for the block of a pair that grasp_pair filled. That of a locator is ready as it is. */
static inline void grasp_pair_to_write(uint64_t fields[GRASP_PAIR_FIELDS]) {
    fields[GRASP_PAIR_COUNT_AT] = 0;
}

/* ---- Negotiation ---- */

/*
 * The state of a negotiation, one for a session. A fresh one is all zeros, and a
 * host begins each session with it; grasp_step changes it. Phase 0 is fresh,
 * whatever the other fields hold within the bounds that grasp_step names.
 */
enum grasp_state_field {
    GRASP_STATE_PHASE = 0,
    GRASP_STATE_SESSION = 1, /* open: the session */
    GRASP_STATE_COUNT = 2,   /* open: the count of the last Request or Negotiate */
    GRASP_STATE_TURN = 3,    /* open: the side that may move */
    GRASP_STATE_FIELDS = 4
};

enum grasp_phase { GRASP_PHASE_FRESH = 0, GRASP_PHASE_OPEN = 1, GRASP_PHASE_CLOSED = 2 };

/* The two sides of a session. */
enum grasp_side { GRASP_SIDE_WE = 0, GRASP_SIDE_THEY = 1 };

/*
 * Takes one step of a negotiation: the message that the len bytes are, sent by
 * this side. Answers 0 and puts the state that the message leads to, or answers
 * the number of the refusal and leaves the state as it was: 1 to 11 as
 * grasp_read, then 20. A fresh state takes a Request of negotiation with a count
 * of at least 1, by either side. An open one takes from the side with the turn,
 * with the state's session: a Negotiate with a count one lower and at least 1, a
 * Wait, or an End. A Request and a Negotiate give the turn to the other side; a
 * Wait leaves the state as it was, and may be repeated. All else is 20, and so is a
 * side or a state with a number that isn't one of the above, a session over 32
 * bits, a count over 255, or a count of 0 in an open state. A state that becomes
 * closed has 0 in its other fields. That a Negotiate is about the Request's
 * objective is the host's to see to: names and values aren't compared.
 */
uint8_t grasp_step(uint64_t state[GRASP_STATE_FIELDS], const uint8_t *bytes, size_t len, uint64_t side);

/* ---- The node over numbers ---- */

/*
 * The same three functions for a host that keeps the record as its address, 16
 * bytes, and these numbers. A port of more than 16 bits, a ttl of more than 32,
 * and interfaces or links of more than 8 are a bad record: 12.
 */
enum grasp_number_field {
    GRASP_NUMBER_PORT = 0,
    GRASP_NUMBER_TTL = 1,        /* in ms */
    GRASP_NUMBER_INTERFACES = 2, /* how many: 1 to GRASP_MAX_INTERFACES */
    GRASP_NUMBER_LINKS = 3,      /* bit i: interface i is up */
    GRASP_NUMBER_CLOCK = 4,      /* the last accepted one, in ms */
    GRASP_NUMBER_TALLY = 5,      /* the copies of all relays */
    GRASP_NUMBER_FIELDS = 6
};

/* As grasp_record_fresh. */
uint8_t grasp_fresh(const uint8_t address[GRASP_ADDRESS_BYTES], uint16_t port, uint32_t ttl,
                    uint64_t interfaces, uint64_t links, uint64_t numbers[GRASP_NUMBER_FIELDS]);

/* As grasp_record_set_links. */
uint8_t grasp_set_links(const uint8_t address[GRASP_ADDRESS_BYTES], uint64_t numbers[GRASP_NUMBER_FIELDS],
                        uint64_t links);

/* As grasp_record_call. */
uint8_t grasp_node_call(const uint8_t address[GRASP_ADDRESS_BYTES], uint64_t numbers[GRASP_NUMBER_FIELDS],
                        uint8_t *table, size_t table_len, uint64_t clock, uint64_t interface,
                        const uint8_t *names, size_t names_len, const uint8_t *message, size_t len,
                        uint8_t *out, size_t out_len, uint64_t answer[GRASP_ANSWER_FIELDS]);

#ifdef __cplusplus
}
#endif

#endif
