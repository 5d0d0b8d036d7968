/* What the tests of the C surface share. */
#ifndef TEST_H
#define TEST_H

#include <stddef.h>
#include <stdint.h>

#include "grasp.h"

/* Says which test fails, and counts it. */
void expect(int holds, const char *file, int line, const char *what);
#define EXPECT(holds) expect((holds) != 0, __FILE__, __LINE__, #holds)

/* The same for a number. */
void expect_number(uint64_t is, uint64_t wanted, const char *file, int line, const char *what);
#define EXPECT_NUMBER(is, wanted) expect_number(is, wanted, __FILE__, __LINE__, #is)

/* What memory is lent for. */
enum lent { BYTES, LIST, FIELDS, OUT, LENGTH, ADDRESS, RECORD, TABLE, NAMES, ANSWER, STATE, LENT };

/*
 * Lends so many bytes between a page that can't be touched and others that must
 * stay; where there is no content, numbers that no call gives. No bytes may be
 * lent as NULL.
 */
void *lend(enum lent what, const void *content, size_t len);

/* Whether a call left the bytes around the lent ones as they were; those too; those from a place on. */
int has_margins(enum lent what);
int is_as_lent(enum lent what);
int is_as_lent_from(enum lent what, size_t place);

/* Notes an answer, so that one that is never given is found. */
uint8_t saw_refusal(uint8_t refusal);
uint64_t saw_verdict(uint64_t verdict);

/* A message or other bytes. */
struct bytes {
    uint8_t at[2 * GRASP_MAX_MESSAGE_BYTES];
    size_t len;
};

/* The bytes that hexadecimal digits say; blanks are skipped. */
struct bytes hex(const char *digits);
void append(struct bytes *bytes, struct bytes more);
void append_byte(struct bytes *bytes, uint8_t byte, size_t times);
int are_same(struct bytes bytes, const void *others, size_t len);

/* The tests. */
void test_reading(void);
void test_writing(void);
void test_node(void);
void test_negotiation(void);
void test_numbers(void);

/* Reads with all margins looked at; what is refused leaves the block. */
uint8_t read_bytes(struct bytes bytes, uint64_t fields[GRASP_MESSAGE_FIELDS]);

#endif
