/* The named cases of scans.c: tables of keys @1=x in nodes of height 1 with one damage. A node takes 24 bytes: height, entry length,
 * one link, and 12 bytes of entry: length of key plus 8, key, tag with the type first, length of value, value. */

#define SMALL 200
#define AT_SNAPSHOT 9

static unsigned compared;

static void same(int line, unsigned long long got, unsigned long long due)
{
    compared++;
    if (got != due) {
        failed++;
        printf("scans_named.h, line %d: got %llu, due %llu\n", line, got, due);
    }
}

#define SAME(got, due) same(__LINE__, (unsigned long long)(got), (unsigned long long)(due))
#define MOVED(call, refusal_, table_, node_) \
    do { bavo_moved r = (call); SAME(r.refusal, refusal_); SAME(r.table, table_); SAME(r.node, node_); } while (0)
#define ENTRY(call, refusal_, on_, node_) \
    do { bavo_entry_moved r = (call); SAME(r.refusal, refusal_); SAME(r.on, on_); SAME(r.node, node_); } while (0)

static void make(uint8_t *image, const char *keys)
{
    SAME(bavo_fresh(image, SMALL), BAVO_DONE);
    for (; *keys; keys++)
        SAME(bavo_add(image, SMALL, (const uint8_t *)keys, 1, 1, BAVO_KIND_VALUE, (const uint8_t *)"x", 1, 1).refusal, BAVO_DONE);
}

static size_t start(size_t node)
{
    return 64 + 24 * (node - 1);
}

/* The type of c above 1, or the length of its value above what its entry holds: 14 and 22 bytes into its node. */
static void one_cannot_be_read(size_t byte)
{
    uint8_t image[SMALL], empty[SMALL];
    const bavo_cursor none = {BAVO_NOWHERE, 0}, a = {BAVO_FIRST, 1}, b = {BAVO_FIRST, 2}, d = {BAVO_FIRST, 4};
    const bavo_entry_cursor entry_b = {BAVO_ON, 2}, entry_d = {BAVO_ON, 4};
    make(empty, "");
    make(image, "abc");
    image[start(3) + byte] = 2;
    MOVED(bavo_next(image, SMALL, empty, SMALL, AT_SNAPSHOT, none), BAVO_DONE, BAVO_FIRST, 1);
    MOVED(bavo_next(image, SMALL, empty, SMALL, AT_SNAPSHOT, a), BAVO_DONE, BAVO_FIRST, 2);
    MOVED(bavo_next(image, SMALL, empty, SMALL, AT_SNAPSHOT, b), BAVO_DAMAGED, BAVO_FIRST, 2);
    MOVED(bavo_seek(image, SMALL, empty, SMALL, AT_SNAPSHOT, none, (const uint8_t *)"c", 1), BAVO_DAMAGED, BAVO_NOWHERE, 0);
    ENTRY(bavo_entry_next(image, SMALL, entry_b), BAVO_DAMAGED, BAVO_ON, 2);
    make(image, "abcd");
    image[start(3) + byte] = 2;
    MOVED(bavo_prev(image, SMALL, empty, SMALL, AT_SNAPSHOT, d), BAVO_DAMAGED, BAVO_FIRST, 4);
    ENTRY(bavo_entry_prev(image, SMALL, entry_d), BAVO_DAMAGED, BAVO_ON, 4);
}

/* The lowest link of a node leads to node 1: to itself from the first, back from the second. */
static void link_to_one(size_t node)
{
    uint8_t image[SMALL], empty[SMALL];
    const bavo_cursor at = {BAVO_FIRST, node};
    const bavo_entry_cursor entry = {BAVO_ON, node};
    make(empty, "");
    make(image, "ab");
    image[start(node) + 8] = 1;
    SAME(bavo_check(image, SMALL), false);
    ENTRY(bavo_entry_next(image, SMALL, entry), BAVO_DAMAGED, BAVO_ON, node);
    MOVED(bavo_next(image, SMALL, empty, SMALL, AT_SNAPSHOT, at), BAVO_DAMAGED, BAVO_FIRST, node);
}

static unsigned named_cases(void)
{
    one_cannot_be_read(14);
    one_cannot_be_read(22);
    link_to_one(1);
    link_to_one(2);
    return compared;
}
