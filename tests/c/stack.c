/*
 * How much stack the calls use. Each runs once on a painted stack; how far down
 * the paint is gone is what it used, the frame of its caller included. Prints
 * the calls that used GRASP_STACK_BYTES or more; with an argument, all.
 */
#include <stdio.h>
#include <string.h>
#include <ucontext.h>

#include "grasp.h"

enum { STACK = 65536, PAINT = 0xA5 };

static uint8_t stack[STACK];
static ucontext_t back, there;

/* What the calls are given and fill. */
static const uint8_t address[GRASP_ADDRESS_BYTES] = {0x20, 0x01, 0x0D, 0xB8};
static const uint8_t names[] = {0x81, 0x63, 'E', 'X', '2'};
static uint8_t message[GRASP_MAX_MESSAGE_BYTES], table[GRASP_TABLE_BYTES], out[GRASP_MAX_MESSAGE_BYTES];
static size_t length;
static uint64_t fields[GRASP_MESSAGE_FIELDS], rows[400 * GRASP_PAIR_FIELDS], numbers[GRASP_NUMBER_FIELDS],
    answer[GRASP_ANSWER_FIELDS], state[GRASP_STATE_FIELDS];
static struct grasp_record node = GRASP_RECORD_INIT;
static size_t listed;
static uint8_t answered;

/* The bytes of the stack that a call on it uses. */
static size_t used_by(void (*call)(void)) {
    size_t clean = 0;
    memset(stack, PAINT, STACK);
    getcontext(&there);
    there.uc_stack.ss_sp = stack;
    there.uc_stack.ss_size = STACK;
    there.uc_link = &back;
    makecontext(&there, call, 0);
    swapcontext(&back, &there);
    while (clean < STACK && stack[clean] == PAINT)
        clean++;
    return STACK - clean;
}

static void put(const void *bytes, size_t many) {
    memcpy(message + length, bytes, many);
    length += many;
}

/* A Flood with as many pairs as a message holds, the first's value of five levels: eight in all. */
static void flood(void) {
    static const uint8_t head[] = {0x98, 0xB8, 0x09, 0x07, 0x44, 0xC0, 0x00, 0x02, 0x01, 0x19, 0x03, 0xE8};
    static const uint8_t deep[] = {0x82, 0x84, 0x60, 0x04, 0x18, 0x18, 0x81, 0x81, 0x81, 0x81, 0x80, 0x80};
    static const uint8_t pair[] = {0x82, 0x84, 0x62, 'A', 'B', 0x04, 0x01, 0x19, 0x04, 0x00, 0x80};
    length = 0;
    put(head, sizeof head);
    put(deep, sizeof deep);
    for (int i = 1; i < 0xB8 - 4; i++)
        put(pair, sizeof pair);
}

static void discovery(void) {
    static const uint8_t bytes[] = {0x84, 0x01, 0x07, 0x44, 0xC0, 0x00, 0x02, 0x01,
                                    0x83, 0x63, 'E',  'X',  '2',  0x01, 0x02};
    length = 0;
    put(bytes, sizeof bytes);
}

/* The description of the message, for grasp_write. */
static void describe(void) {
    size_t at;
    flood();
    grasp_read(message, length, fields);
    at = (size_t)fields[GRASP_MESSAGE_LIST_AT];
    for (listed = 0; listed < fields[GRASP_MESSAGE_LIST_MANY]; listed++) {
        at = grasp_pair(message, length, at, rows + listed * GRASP_PAIR_FIELDS);
        grasp_pair_to_write(rows + listed * GRASP_PAIR_FIELDS);
    }
    grasp_message_to_write(fields);
}

static void fresh_node(void) {
    memset(table, 0, sizeof table);
    grasp_fresh(address, 7017, 60000, GRASP_MAX_INTERFACES, 0xFF, numbers);
    grasp_record_fresh(&node, address, 7017, 60000, GRASP_MAX_INTERFACES, 0xFF);
}

static void flooded_node(void) {
    flood();
    fresh_node();
}

static void asked_node(void) {
    discovery();
    fresh_node();
}

static void read(void) { answered = grasp_read(message, length, fields); }

static void locate(void) { answered = grasp_locator(message, length, 12, fields) != 0; }

static void pair(void) { answered = grasp_pair(message, length, 12, fields) == 0; }

static void write(void) {
    answered =
        grasp_write(message, length, rows, listed * GRASP_PAIR_FIELDS, fields, out, sizeof out, answer);
}

static void record_fresh(void) {
    answered = grasp_record_fresh(&node, address, 7017, 60000, GRASP_MAX_INTERFACES, 0xFF);
}

static void record_set_links(void) { answered = grasp_record_set_links(&node, 0x7F); }

static void record_call(void) {
    answered = grasp_record_call(&node, table, sizeof table, 1, 0, names, sizeof names, message, length, out,
                                 sizeof out, answer);
}

static void begin(void) { answered = grasp_fresh(address, 7017, 60000, GRASP_MAX_INTERFACES, 0xFF, numbers); }

static void set_links(void) { answered = grasp_set_links(address, numbers, 0x7F); }

static void node_call(void) {
    answered = grasp_node_call(address, numbers, table, sizeof table, 1, 0, names, sizeof names, message,
                               length, out, sizeof out, answer);
}

/* A Flood is read, which goes deepest, and then not allowed. */
static void step(void) {
    answered = grasp_step(state, message, length, GRASP_SIDE_THEY) != GRASP_REFUSAL_NOT_ALLOWED;
}

static const struct {
    const char *name;
    void (*prepare)(void);
    void (*call)(void);
} calls[] = {
    {"grasp_record_fresh", fresh_node, record_fresh},
    {"grasp_record_set_links", fresh_node, record_set_links},
    {"grasp_record_call, RELAY", flooded_node, record_call},
    {"grasp_record_call, ANSWER", asked_node, record_call},
    {"grasp_read", flood, read},
    {"grasp_locator", flood, locate},
    {"grasp_pair", flood, pair},
    {"grasp_write", describe, write},
    {"grasp_fresh", fresh_node, begin},
    {"grasp_set_links", fresh_node, set_links},
    {"grasp_node_call, RELAY", flooded_node, node_call},
    {"grasp_node_call, ANSWER", asked_node, node_call},
    {"grasp_step", flood, step},
};

int main(int argc, char **argv) {
    int failed = 0;
    (void)argv;
    for (size_t i = 0; i < sizeof calls / sizeof *calls; i++) {
        size_t used;
        calls[i].prepare();
        calls[i].call(); /* binds what the archive calls */
        calls[i].prepare();
        used = used_by(calls[i].call);
        if (answered != 0)
            printf("%s: answers %d\n", calls[i].name, answered);
        if (argc > 1 || used >= GRASP_STACK_BYTES)
            printf("%s: %zu bytes of stack\n", calls[i].name, used);
        failed |= answered != 0 || used >= GRASP_STACK_BYTES;
    }
    return failed;
}
