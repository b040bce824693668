/* Calls every function of bavolinesk.h and compares the whole answer with the one that document 01 fixes: each field,
        each refusal in its
 * order, and that a refusal keeps every lent byte. Prints how many comparisons were made and which failed; returns 1 if one did.
 *
 *     tools/staticlib
 *     gcc -std=c99 -Wall -Wextra -Werror -Iinclude host/c/coverage.c target/staticlib/libcapi.a -o target/c-coverage
 */
#include "bavolinesk.h"

#include <stdio.h>
#include <string.h>

static int made, failed;

static void same(int line, unsigned long long got, unsigned long long due)
{
    made++;
    if (got != due) {
        failed++;
        printf("line %d: got %llu, due %llu\n", line, got, due);
    }
}

#define SAME(got, due) same(__LINE__, (unsigned long long)(got), (unsigned long long)(due))

/* Every field of an answer, in the header's order. */
#define ADDED(call, refusal_, node_) \
    do { bavo_added r = (call); SAME(r.refusal, refusal_); SAME(r.node, node_); } while (0)
#define LOOKUP(call, refusal_, answer_, node_, looks_) \
    do { bavo_lookup r = (call); SAME(r.refusal, refusal_); SAME(r.answer, answer_); SAME(r.node, node_); \
        SAME(r.looks, looks_); } while (0)
#define PRESENCE(call, refusal_, held_, looks_) \
    do { bavo_presence r = (call); SAME(r.refusal, refusal_); SAME(r.held, held_); SAME(r.looks, looks_); } while (0)
#define VIEW(call, refusal_, offset_, length_) \
    do { bavo_view r = (call); SAME(r.refusal, refusal_); SAME(r.offset, offset_); SAME(r.length, length_); } while (0)
#define ENTRY(call, refusal_, on_, node_) \
    do { bavo_entry_moved r = (call); SAME(r.refusal, refusal_); SAME(r.on, on_); SAME(r.node, node_); } while (0)
#define PAIR(call, refusal_, answer_, table_, node_, looks_) \
    do { bavo_pair_lookup r = (call); SAME(r.refusal, refusal_); SAME(r.answer, answer_); \
        SAME(r.table, table_); SAME(r.node, node_); SAME(r.looks, looks_); } while (0)
#define MOVED(call, refusal_, table_, node_) \
    do { bavo_moved r = (call); SAME(r.refusal, refusal_); SAME(r.table, table_); SAME(r.node, node_); } while (0)
#define ROW(call, refusal_, table_, offset_, length_) \
    do { bavo_row_view r = (call); SAME(r.refusal, refusal_); SAME(r.table, table_); SAME(r.offset, offset_); \
        SAME(r.length, length_); } while (0)

#define B(text) ((const uint8_t *)(text))

static const uint8_t long_part[BAVO_MAX_VALUE + 1];

static bavo_added add(uint8_t *image, size_t len, const char *key, uint64_t number, uint8_t kind, const char *value)
{
    return bavo_add(image, len, B(key), strlen(key), number, kind, B(value), strlen(value), 1);
}

/* Fresh images of the legal lengths and of the two beside them. */
static void fresh(void)
{
    static uint8_t image[BAVO_MAX_IMAGE + 1];
    memset(image, 0xA5, sizeof image);
    SAME(bavo_fresh(image, BAVO_MIN_IMAGE - 1), BAVO_BAD_IMAGE);
    SAME(bavo_fresh(image, BAVO_MAX_IMAGE + 1), BAVO_BAD_IMAGE);
    SAME(image[0], 0xA5);
    SAME(bavo_fresh(image, BAVO_MAX_IMAGE), BAVO_DONE);
    SAME(bavo_fresh(image, BAVO_MIN_IMAGE), BAVO_DONE);
    SAME(image[0], 64);
    SAME(image[63], 0);
    SAME(image[64], 0xA5);
    SAME(bavo_check(image, BAVO_MIN_IMAGE), true);
    SAME(bavo_check(image, BAVO_MIN_IMAGE + 1), false);
    LOOKUP(bavo_get(image, BAVO_MIN_IMAGE, B("any"), 3, 0), BAVO_DONE, BAVO_ABSENT, 0, 12);
}

/* The image of document 01's case P11, byte by byte; with one byte less there is no room. */
static void first_addition(void)
{
    static const uint8_t due[92] = {
        0x5C, 0, 0, 0, 1, 0, 0, 0, 0x58, 0, 0, 0, 0x0C, 0, 0, 0, 1, 0, 0, 0,
        [64] = 1, 0, 0, 0, 0x0C, 0, 0, 0, 0, 0, 0, 0, 9, 'a', 1, 1, 0, 0, 0, 0, 0, 0, 1, 'x', 0x40, 0, 0, 0,
    };
    uint8_t image[92];
    SAME(bavo_fresh(image, 92), BAVO_DONE);
    ADDED(add(image, 92, "a", 1, BAVO_KIND_VALUE, "x"), BAVO_DONE, 1);
    SAME(memcmp(image, due, 92), 0);
    SAME(bavo_fresh(image, 91), BAVO_DONE);
    ADDED(add(image, 91, "a", 1, BAVO_KIND_VALUE, "x"), BAVO_NO_ROOM, 0);
}

/* The refusals of an addition: each call has one fault more in front of the last one's. */
static void addition_refused(uint8_t *image, size_t len)
{
    uint8_t kept[256];
    memcpy(kept, image, len);
    ADDED(bavo_add(image, len, B("a"), 1, 1, 1, B(""), 0, 1), BAVO_DUPLICATE, 0);
    ADDED(bavo_add(image, len, B("a"), 1, 1, 1, B(""), 0, 0), BAVO_BAD_HEIGHT, 0);
    ADDED(bavo_add(image, len, B("a"), 1, 1, 1, B(""), 0, BAVO_MAX_HEIGHT + 1), BAVO_BAD_HEIGHT, 0);
    ADDED(bavo_add(image, len, B("a"), 1, 1, 1, long_part, BAVO_MAX_VALUE + 1, 0), BAVO_LONG_VALUE, 0);
    ADDED(bavo_add(image, len, long_part, BAVO_MAX_KEY + 1, 1, 1, long_part, BAVO_MAX_VALUE + 1, 0), BAVO_LONG_KEY, 0);
    ADDED(bavo_add(image, len, long_part, BAVO_MAX_KEY + 1, BAVO_MAX_NUMBER + 1, 1, long_part, BAVO_MAX_VALUE + 1, 0),
        BAVO_BAD_NUMBER, 0);
    ADDED(bavo_add(image, len, long_part, BAVO_MAX_KEY + 1, BAVO_MAX_NUMBER + 1, 2, long_part, BAVO_MAX_VALUE + 1, 0),
        BAVO_BAD_KIND, 0);
    ADDED(bavo_add(image, len - 1, long_part, BAVO_MAX_KEY + 1, BAVO_MAX_NUMBER + 1, 2, long_part, BAVO_MAX_VALUE + 1, 0),
        BAVO_BAD_IMAGE, 0);
    SAME(memcmp(kept, image, len), 0);
}

/* The older table: a@1=x in node 1 at 64, b@2=y in node 2 at 88, c@0=w in node 3 at 112. */
static void make_older(uint8_t *image, size_t len)
{
    SAME(bavo_fresh(image, len), BAVO_DONE);
    ADDED(add(image, len, "a", 1, BAVO_KIND_VALUE, "x"), BAVO_DONE, 1);
    ADDED(add(image, len, "b", 2, BAVO_KIND_VALUE, "y"), BAVO_DONE, 2);
    ADDED(add(image, len, "c", 0, BAVO_KIND_VALUE, "w"), BAVO_DONE, 3);
    SAME(bavo_check(image, len), true);
}

/* The newer one: the deletion a@3 with a value that nothing shows in node 1 at 64, c@4=v in node 2 at 88. */
static void make_newer(uint8_t *image, size_t len)
{
    SAME(bavo_fresh(image, len), BAVO_DONE);
    ADDED(add(image, len, "a", 3, BAVO_KIND_DELETION, "z"), BAVO_DONE, 1);
    ADDED(add(image, len, "c", 4, BAVO_KIND_VALUE, "v"), BAVO_DONE, 2);
    SAME(bavo_check(image, len), true);
}

/* Presence, lookup and value in one table. All nodes have height 1: a search looks at eleven empty links,
        then along the lowest chain. */
static void questions(const uint8_t *older, const uint8_t *newer, size_t len)
{
    PRESENCE(bavo_contains(older, len, B("b"), 1, 2, BAVO_KIND_VALUE), BAVO_DONE, 1, 13);
    PRESENCE(bavo_contains(older, len, B("b"), 1, 2, BAVO_KIND_DELETION), BAVO_DONE, 0, 13);
    PRESENCE(bavo_contains(older, len, B("b"), 1, 3, BAVO_KIND_VALUE), BAVO_DONE, 0, 13);
    PRESENCE(bavo_contains(older, len, long_part, BAVO_MAX_KEY + 1, 3, 1), BAVO_LONG_KEY, 0, 0);
    PRESENCE(bavo_contains(older, len, long_part, BAVO_MAX_KEY + 1, BAVO_MAX_NUMBER + 1, 1), BAVO_BAD_NUMBER, 0, 0);
    PRESENCE(bavo_contains(older, len, long_part, BAVO_MAX_KEY + 1, BAVO_MAX_NUMBER + 1, 2), BAVO_BAD_KIND, 0, 0);
    PRESENCE(bavo_contains(older, len - 1, long_part, BAVO_MAX_KEY + 1, BAVO_MAX_NUMBER + 1, 2), BAVO_BAD_IMAGE, 0, 0);
    LOOKUP(bavo_get(older, len, B("c"), 1, 4), BAVO_DONE, BAVO_FOUND, 3, 14);
    LOOKUP(bavo_get(newer, len, B("a"), 1, 3), BAVO_DONE, BAVO_DELETED, 0, 12);
    LOOKUP(bavo_get(newer, len, B("a"), 1, 2), BAVO_DONE, BAVO_ABSENT, 0, 13);
    LOOKUP(bavo_get(older, len, long_part, BAVO_MAX_KEY + 1, 0), BAVO_LONG_KEY, 0, 0, 0);
    LOOKUP(bavo_get(older, len, long_part, BAVO_MAX_KEY + 1, BAVO_MAX_NUMBER + 1), BAVO_BAD_NUMBER, 0, 0, 0);
    LOOKUP(bavo_get(older, len - 1, long_part, BAVO_MAX_KEY + 1, BAVO_MAX_NUMBER + 1), BAVO_BAD_IMAGE, 0, 0, 0);
    VIEW(bavo_value(older, len, 2), BAVO_DONE, 111, 1);
    VIEW(bavo_value(newer, len, 1), BAVO_DONE, 0, 0);
    VIEW(bavo_value(older, len, 4), BAVO_NO_NODE, 0, 0);
    VIEW(bavo_value(older, len, 0), BAVO_NO_NODE, 0, 0);
    VIEW(bavo_value(older, len - 1, 0), BAVO_BAD_IMAGE, 0, 0);
    SAME(bavo_value_refusal(older, len, 3), BAVO_DONE);
    SAME(bavo_value_refusal(older, len, 4), BAVO_NO_NODE);
    SAME(bavo_value_refusal(older, len - 1, 4), BAVO_BAD_IMAGE);
    VIEW(bavo_get_value(older, len, B("b"), 1, 2), BAVO_DONE, 111, 1);
    VIEW(bavo_get_value(older, len, B("b"), 1, 1), BAVO_DONE, 0, 0);
    VIEW(bavo_get_value(newer, len, B("a"), 1, 3), BAVO_DONE, 0, 0);
    VIEW(bavo_get_value(older, len, long_part, BAVO_MAX_KEY + 1, 0), BAVO_LONG_KEY, 0, 0);
    VIEW(bavo_get_value(older, len, long_part, BAVO_MAX_KEY + 1, BAVO_MAX_NUMBER + 1), BAVO_BAD_NUMBER, 0, 0);
    VIEW(bavo_get_value(older, len - 1, long_part, BAVO_MAX_KEY + 1, BAVO_MAX_NUMBER + 1), BAVO_BAD_IMAGE, 0, 0);
}

static bavo_entry_cursor on(size_t node)
{
    bavo_entry_cursor at = {BAVO_ON, node};
    return at;
}

/* The entry cursor over a@3-, c@4=v. */
static void entry_cursor(const uint8_t *newer, size_t len)
{
    bavo_entry_cursor nowhere = {BAVO_NOWHERE, 0}, beyond = {2, 1}, idle = {BAVO_NOWHERE, 77};
    ENTRY(bavo_entry_first(newer, len, nowhere), BAVO_DONE, BAVO_ON, 1);
    ENTRY(bavo_entry_first(newer, len, idle), BAVO_DONE, BAVO_ON, 1);
    ENTRY(bavo_entry_first(newer, len, beyond), BAVO_NO_NODE, 2, 1);
    ENTRY(bavo_entry_first(newer, len - 1, beyond), BAVO_BAD_IMAGE, 2, 1);
    ENTRY(bavo_entry_seek(newer, len, nowhere, B("a"), 1, 2), BAVO_DONE, BAVO_ON, 2);
    ENTRY(bavo_entry_seek(newer, len, nowhere, B("d"), 1, 0), BAVO_DONE, BAVO_NOWHERE, 0);
    ENTRY(bavo_entry_seek(newer, len, on(2), long_part, BAVO_MAX_KEY + 1, 0), BAVO_LONG_KEY, BAVO_ON, 2);
    ENTRY(bavo_entry_seek(newer, len, on(2), long_part, BAVO_MAX_KEY + 1, BAVO_MAX_NUMBER + 1), BAVO_BAD_NUMBER, BAVO_ON, 2);
    ENTRY(bavo_entry_seek(newer, len, on(3), long_part, BAVO_MAX_KEY + 1, BAVO_MAX_NUMBER + 1), BAVO_NO_NODE, BAVO_ON, 3);
    ENTRY(bavo_entry_next(newer, len, nowhere), BAVO_DONE, BAVO_ON, 1);
    ENTRY(bavo_entry_next(newer, len, on(1)), BAVO_DONE, BAVO_ON, 2);
    ENTRY(bavo_entry_next(newer, len, on(2)), BAVO_DONE, BAVO_NOWHERE, 0);
    ENTRY(bavo_entry_next(newer, len, on(SIZE_MAX)), BAVO_NO_NODE, BAVO_ON, SIZE_MAX);
    ENTRY(bavo_entry_prev(newer, len, on(2)), BAVO_DONE, BAVO_ON, 1);
    ENTRY(bavo_entry_prev(newer, len, on(1)), BAVO_DONE, BAVO_NOWHERE, 0);
    ENTRY(bavo_entry_prev(newer, len, nowhere), BAVO_DONE, BAVO_NOWHERE, 0);
    ENTRY(bavo_entry_prev(newer, len, on(0)), BAVO_NO_NODE, BAVO_ON, 0);
    VIEW(bavo_entry_key(newer, len, on(1)), BAVO_DONE, 77, 1);
    VIEW(bavo_entry_key(newer, len, nowhere), BAVO_DONE, 0, 0);
    VIEW(bavo_entry_key(newer, len, beyond), BAVO_NO_NODE, 0, 0);
    VIEW(bavo_entry_value(newer, len, on(2)), BAVO_DONE, 111, 1);
    VIEW(bavo_entry_value(newer, len, on(1)), BAVO_DONE, 0, 0);
    VIEW(bavo_entry_value(newer, len, on(3)), BAVO_NO_NODE, 0, 0);
    SAME(bavo_entry_number(newer, len, on(2)), 4);
    SAME(bavo_entry_number(newer, len, beyond), 0);
    SAME(bavo_entry_kind(newer, len, on(1)), BAVO_KIND_DELETION);
    SAME(bavo_entry_kind(newer, len, on(2)), BAVO_KIND_VALUE);
    SAME(bavo_entry_refusal(newer, len, on(2)), BAVO_DONE);
    SAME(bavo_entry_refusal(newer, len, nowhere), BAVO_DONE);
    SAME(bavo_entry_refusal(newer, len, beyond), BAVO_NO_NODE);
    SAME(bavo_entry_refusal(newer, len - 1, beyond), BAVO_BAD_IMAGE);
}

static bavo_cursor in(uint32_t table, size_t node)
{
    bavo_cursor at = {table, node};
    return at;
}

/* Document 01's rows at 3 and at 4: b=y, c=w, then b=y, c=v. */
static void visible_cursor(const uint8_t *f, const uint8_t *g, size_t n)
{
    bavo_cursor nowhere = in(BAVO_NOWHERE, 0);
    PAIR(bavo_pair_get(f, n, g, n, B("b"), 1, 3), BAVO_DONE, BAVO_FOUND, BAVO_SECOND, 2, 26);
    PAIR(bavo_pair_get(f, n, g, n, B("c"), 1, 4), BAVO_DONE, BAVO_FOUND, BAVO_FIRST, 2, 13);
    PAIR(bavo_pair_get(f, n, g, n, B("a"), 1, 3), BAVO_DONE, BAVO_DELETED, 0, 0, 12);
    PAIR(bavo_pair_get(f, n, g, n, B("a"), 1, 0), BAVO_DONE, BAVO_ABSENT, 0, 0, 26);
    PAIR(bavo_pair_get(f, n, g, n - 1, long_part, BAVO_MAX_KEY + 1, BAVO_MAX_NUMBER + 1), BAVO_BAD_IMAGE, 0, 0, 0, 0);
    PAIR(bavo_pair_get(f, n, g, n, long_part, BAVO_MAX_KEY + 1, BAVO_MAX_NUMBER + 1), BAVO_BAD_NUMBER, 0, 0, 0, 0);
    MOVED(bavo_first(f, n, g, n, 3, nowhere), BAVO_DONE, BAVO_SECOND, 2);
    MOVED(bavo_first(f, n, g, n, 1, nowhere), BAVO_DONE, BAVO_SECOND, 1);
    MOVED(bavo_first(f, n, g, n, 3, in(3, 2)), BAVO_NO_NODE, 3, 2);
    MOVED(bavo_first(f, n - 1, g, n, 3, in(3, 2)), BAVO_BAD_IMAGE, 3, 2);
    MOVED(bavo_seek(f, n, g, n, 3, nowhere, B("bb"), 2), BAVO_DONE, BAVO_SECOND, 3);
    MOVED(bavo_seek(f, n, g, n, 4, nowhere, B("bb"), 2), BAVO_DONE, BAVO_FIRST, 2);
    MOVED(bavo_seek(f, n, g, n, 4, nowhere, B("d"), 1), BAVO_DONE, BAVO_NOWHERE, 0);
    MOVED(bavo_seek(f, n, g, n, 4, in(2, 3), long_part, BAVO_MAX_KEY + 1), BAVO_LONG_KEY, 2, 3);
    MOVED(bavo_seek(f, n, g, n, BAVO_MAX_NUMBER + 1, in(2, 3), long_part, BAVO_MAX_KEY + 1), BAVO_BAD_NUMBER, 2, 3);
    MOVED(bavo_seek(f, n, g, n, BAVO_MAX_NUMBER + 1, in(1, 3), long_part, BAVO_MAX_KEY + 1), BAVO_NO_NODE, 1, 3);
    MOVED(bavo_next(f, n, g, n, 3, nowhere), BAVO_DONE, BAVO_SECOND, 2);
    MOVED(bavo_next(f, n, g, n, 3, in(2, 2)), BAVO_DONE, BAVO_SECOND, 3);
    MOVED(bavo_next(f, n, g, n, 4, in(2, 2)), BAVO_DONE, BAVO_FIRST, 2);
    MOVED(bavo_next(f, n, g, n, 3, in(2, 3)), BAVO_DONE, BAVO_NOWHERE, 0);
    MOVED(bavo_next(f, n, g, n, 3, in(UINT32_MAX, 1)), BAVO_NO_NODE, UINT32_MAX, 1);
    MOVED(bavo_prev(f, n, g, n, 3, in(2, 3)), BAVO_DONE, BAVO_SECOND, 2);
    MOVED(bavo_prev(f, n, g, n, 3, in(2, 2)), BAVO_DONE, BAVO_NOWHERE, 0);
    MOVED(bavo_prev(f, n, g, n, 3, nowhere), BAVO_DONE, BAVO_NOWHERE, 0);
    MOVED(bavo_prev(f, n, g, n, BAVO_MAX_NUMBER + 1, in(2, 2)), BAVO_BAD_NUMBER, 2, 2);
}

static void row_views(const uint8_t *f, const uint8_t *g, size_t n)
{
    bavo_cursor nowhere = in(BAVO_NOWHERE, 9);
    ROW(bavo_row_key(f, n, g, n, in(BAVO_SECOND, 3)), BAVO_DONE, BAVO_SECOND, 125, 1);
    ROW(bavo_row_key(f, n, g, n, in(BAVO_FIRST, 2)), BAVO_DONE, BAVO_FIRST, 101, 1);
    ROW(bavo_row_key(f, n, g, n, nowhere), BAVO_DONE, 0, 0, 0);
    ROW(bavo_row_key(f, n, g, n, in(BAVO_FIRST, 3)), BAVO_NO_NODE, 0, 0, 0);
    ROW(bavo_row_key(f, n, g, n - 1, nowhere), BAVO_BAD_IMAGE, 0, 0, 0);
    ROW(bavo_row_value(f, n, g, n, in(BAVO_SECOND, 3)), BAVO_DONE, BAVO_SECOND, 135, 1);
    ROW(bavo_row_value(f, n, g, n, in(BAVO_FIRST, 2)), BAVO_DONE, BAVO_FIRST, 111, 1);
    ROW(bavo_row_value(f, n, g, n, in(BAVO_FIRST, 1)), BAVO_DONE, BAVO_FIRST, 0, 0);
    ROW(bavo_row_value(f, n, g, n, in(3, 1)), BAVO_NO_NODE, 0, 0, 0);
    SAME(bavo_row_refusal(f, n, g, n, in(BAVO_SECOND, 3)), BAVO_DONE);
    SAME(bavo_row_refusal(f, n, g, n, nowhere), BAVO_DONE);
    SAME(bavo_row_refusal(f, n, g, n, in(3, 1)), BAVO_NO_NODE);
    SAME(bavo_row_refusal(f, n - 1, g, n, in(3, 1)), BAVO_BAD_IMAGE);
}

/* The lowest link of node 1 leads back to node 1; then the type in node 1's tag, at 78, is 2. */
static void damage(uint8_t *f, uint8_t *g, size_t n)
{
    g[72] = 1;
    SAME(bavo_check(g, n), false);
    LOOKUP(bavo_get(g, n, B("c"), 1, 4), BAVO_DAMAGED, 0, 0, 0);
    VIEW(bavo_get_value(g, n, B("c"), 1, 4), BAVO_DAMAGED, 0, 0);
    PRESENCE(bavo_contains(g, n, B("c"), 1, 0, 1), BAVO_DAMAGED, 0, 0);
    ADDED(add(g, n, "d", 5, BAVO_KIND_VALUE, ""), BAVO_DAMAGED, 0);
    ENTRY(bavo_entry_next(g, n, on(1)), BAVO_DAMAGED, BAVO_ON, 1);
    MOVED(bavo_seek(f, n, g, n, 2, in(2, 3), B("b"), 1), BAVO_DAMAGED, 2, 3);
    g[78] = 2;
    VIEW(bavo_entry_key(g, n, on(1)), BAVO_DAMAGED, 0, 0);
    VIEW(bavo_value(g, n, 1), BAVO_DAMAGED, 0, 0);
    SAME(bavo_entry_refusal(g, n, on(1)), BAVO_DAMAGED);
    ROW(bavo_row_value(f, n, g, n, in(2, 1)), BAVO_DAMAGED, 0, 0, 0);
    SAME(bavo_row_refusal(f, n, g, n, in(2, 1)), BAVO_DAMAGED);
}

int main(void)
{
    uint8_t older[200] = {0}, newer[200] = {0};
    fresh();
    first_addition();
    make_older(older, sizeof older);
    make_newer(newer, sizeof newer);
    addition_refused(older, sizeof older);
    questions(older, newer, sizeof older);
    entry_cursor(newer, sizeof newer);
    visible_cursor(newer, older, sizeof newer);
    row_views(newer, older, sizeof newer);
    damage(newer, older, sizeof newer);
    printf("%d comparisons, %d failed\n", made, failed);
    return failed != 0;
}
