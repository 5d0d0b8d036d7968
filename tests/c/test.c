/*
 * Calls every function of the C surface with good, bad and extreme arguments, and
 * prints what isn't as the rules say. The archive itself isn't instrumented: what
 * it reads or writes outside of lent memory is found by the pages and bytes around
 * it, and what the header's own functions do by the sanitizers.
 */
#include <stdio.h>
#include <string.h>
#include <sys/mman.h>

#include "test.h"

enum { PAGE = 4096, AREA = 4 * PAGE, NUMBERS = 256 };

/* Where lent memory touches the page that can't be touched; at last also what has no bytes is lent as NULL.
 */
static enum { AT_FRONT, AT_END, AT_END_OR_NULL, SIDES } side;
static const char *const sides[SIDES] = {"at the front", "at the end", "at the end, or NULL"};

static struct {
    uint8_t *area, *at;
    size_t len;
    uint8_t before[AREA];
} all_lent[LENT];

static int failures, refusals[NUMBERS], verdicts[NUMBERS];

void expect(int holds, const char *file, int line, const char *what) {
    if (holds)
        return;
    failures++;
    printf("%s:%d: not so (memory %s): %s\n", file, line, sides[side % SIDES], what);
}

void expect_number(uint64_t is, uint64_t wanted, const char *file, int line, const char *what) {
    if (is == wanted)
        return;
    failures++;
    printf("%s:%d: %s is %#jx and not %#jx\n", file, line, what, (uintmax_t)is, (uintmax_t)wanted);
}

/* Puts each area between two pages that can't be touched. */
static void put_fences(void) {
    for (int what = 0; what < LENT; what++) {
        uint8_t *pages = mmap(NULL, AREA + 2 * PAGE, PROT_NONE, MAP_PRIVATE | MAP_ANONYMOUS, -1, 0);
        if (pages == MAP_FAILED || mprotect(pages + PAGE, AREA, PROT_READ | PROT_WRITE) != 0) {
            perror("memory");
            failures++;
            return;
        }
        all_lent[what].area = pages + PAGE;
    }
}

void *lend(enum lent what, const void *content, size_t len) {
    uint8_t *area = all_lent[what].area;
    uint8_t *at = side == AT_FRONT ? area : area + AREA - len;
    for (size_t i = 0; i < AREA; i++)
        area[i] = (uint8_t)(i * 167 + 0xC5);
    if (content != NULL && len > 0)
        memcpy(at, content, len);
    memcpy(all_lent[what].before, area, AREA);
    all_lent[what].at = at;
    all_lent[what].len = len;
    return side == AT_END_OR_NULL && len == 0 ? NULL : at;
}

int has_margins(enum lent what) {
    const uint8_t *area = all_lent[what].area, *before = all_lent[what].before;
    size_t front = (size_t)(all_lent[what].at - area);
    size_t end = front + all_lent[what].len;
    return memcmp(area, before, front) == 0 && memcmp(area + end, before + end, AREA - end) == 0;
}

int is_as_lent(enum lent what) { return memcmp(all_lent[what].area, all_lent[what].before, AREA) == 0; }

int is_as_lent_from(enum lent what, size_t place) {
    size_t from = (size_t)(all_lent[what].at - all_lent[what].area) + place;
    return place <= all_lent[what].len &&
           memcmp(all_lent[what].area + from, all_lent[what].before + from, AREA - from) == 0;
}

uint8_t saw_refusal(uint8_t refusal) {
    refusals[refusal]++;
    return refusal;
}

uint64_t saw_verdict(uint64_t verdict) {
    verdicts[verdict % NUMBERS]++;
    return verdict;
}

struct bytes hex(const char *digits) {
    static const char all[] = "0123456789ABCDEF";
    struct bytes bytes = {{0}, 0};
    int half = 0;
    for (; *digits != '\0'; digits++) {
        const char *digit = strchr(all, *digits);
        if (digit == NULL)
            continue;
        bytes.at[bytes.len] = (uint8_t)(bytes.at[bytes.len] * 16 + (digit - all));
        bytes.len += (size_t)half;
        half = !half;
    }
    return bytes;
}

void append(struct bytes *bytes, struct bytes more) {
    memcpy(bytes->at + bytes->len, more.at, more.len);
    bytes->len += more.len;
}

void append_byte(struct bytes *bytes, uint8_t byte, size_t times) {
    memset(bytes->at + bytes->len, byte, times);
    bytes->len += times;
}

int are_same(struct bytes bytes, const void *others, size_t len) {
    return bytes.len == len && memcmp(bytes.at, others, len) == 0;
}

/* Every refusal and every verdict was met. */
static void test_all_met(void) {
    for (int number = 0; number < NUMBERS; number++) {
        EXPECT((refusals[number] > 0) == (number <= GRASP_REFUSAL_NOT_ALLOWED));
        EXPECT((verdicts[number] > 0) == (number >= GRASP_VERDICT_OWN && number <= GRASP_VERDICT_HAND));
    }
}

int main(void) {
    put_fences();
    for (side = AT_FRONT; side < SIDES && failures == 0; side++) {
        test_reading();
        test_writing();
        test_node();
        test_negotiation();
    }
    test_numbers();
    test_all_met();
    return failures != 0;
}
