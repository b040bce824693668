/* A scan ends, whatever the bytes: two tables are damaged in one byte, bit or link at a time, and each pair is scanned with both
 * cursors, both ways, by the loops that README types. Every move must lead onward to a node that can be read, and there may be no
 * more moves than nodes. Then the named cases. Prints the counts and what failed with the damage; returns 1 if something did.
 *
 *     tools/staticlib
 *     gcc -std=c99 -Wall -Wextra -Werror -Iinclude host/c/scans.c target/staticlib/libcapi.a -o target/c-scans
 */
#include "bavolinesk.h"

#include <stdio.h>
#include <string.h>

#define IMAGE 384
#define PAIRS 100000
#define SNAPSHOT 3

static uint8_t newer[IMAGE], older[IMAGE];

/* The one damage: `length` bytes at `at` of the newer or the older table. */
static struct {
    const char *table;
    size_t at, length;
    uint8_t bytes[4];
} damage;

static unsigned long long scans, moves, nowhere, refused, failed;

static void fail(const char *what, uint64_t from, uint64_t to)
{
    if (failed++ < 5) {
        printf("%s, node %llu to node %llu; damage: %s table at %zu:", what, (unsigned long long)from,
            (unsigned long long)to, damage.table, damage.at);
        for (size_t i = 0; i < damage.length; i++)
            printf(" %02x", damage.bytes[i]);
        printf("\n");
    }
}

static uint64_t state = 88172645463325252u;

static size_t below(size_t bound)
{
    state ^= state << 13;
    state ^= state >> 7;
    state ^= state << 17;
    return (size_t)((state >> 11) % bound);
}

static uint32_t word(const uint8_t *image, size_t at)
{
    return image[at] | (uint32_t)image[at + 1] << 8 | (uint32_t)image[at + 2] << 16 | (uint32_t)image[at + 3] << 24;
}

/* The order of keys: by unsigned bytes, a proper prefix first. */
static int order(const uint8_t *a, size_t a_len, const uint8_t *b, size_t b_len)
{
    int by_bytes = memcmp(a, b, a_len < b_len ? a_len : b_len);
    return by_bytes ? by_bytes : (a_len > b_len) - (a_len < b_len);
}

static void ended(uint32_t refusal, const char *what)
{
    scans++;
    if (refusal == BAVO_DONE)
        nowhere++;
    else if (refusal == BAVO_DAMAGED || refusal == BAVO_BAD_IMAGE)
        refused++;
    else
        fail(what, refusal, 0);
}

/* ---- the visible cursor */

/* Whether the second of two places lies onward of the first, which may be nowhere, and is a row at the snapshot. */
static bool row_onward(bavo_cursor from, bavo_cursor to, bool up)
{
    bavo_row_view key = bavo_row_key(newer, IMAGE, older, IMAGE, to);
    bavo_row_view last = bavo_row_key(newer, IMAGE, older, IMAGE, from);
    const uint8_t *table = to.table == BAVO_FIRST ? newer : older;
    bavo_entry_cursor entry = {BAVO_ON, to.node};
    if (bavo_row_refusal(newer, IMAGE, older, IMAGE, to) != BAVO_DONE || key.refusal != BAVO_DONE)
        return false;
    if (bavo_entry_kind(table, IMAGE, entry) != BAVO_KIND_VALUE || bavo_entry_number(table, IMAGE, entry) > SNAPSHOT)
        return false;
    if (from.table == BAVO_NOWHERE || last.refusal != BAVO_DONE)
        return true;
    int sign = order((last.table == BAVO_FIRST ? newer : older) + last.offset, last.length, table + key.offset, key.length);
    return up ? sign < 0 : sign > 0;
}

static bavo_cursor scan_rows(bavo_cursor at, bool up)
{
    size_t most = (size_t)word(newer, 4) + word(older, 4), made = 0;
    for (;;) {
        bavo_moved moved = up ? bavo_next(newer, IMAGE, older, IMAGE, SNAPSHOT, at)
                              : bavo_prev(newer, IMAGE, older, IMAGE, SNAPSHOT, at);
        if (moved.refusal != BAVO_DONE || moved.table == BAVO_NOWHERE) {
            ended(moved.refusal, "a refusal of the visible cursor");
            return at;
        }
        bavo_cursor to = {moved.table, moved.node};
        moves++;
        if (!row_onward(at, to, up) || ++made > most) {
            fail(up ? "bavo_next leads not onward" : "bavo_prev leads not onward", at.node, to.node);
            return at;
        }
        at = to;
    }
}

/* ---- the entry cursor */

static bool entry_onward(const uint8_t *image, bavo_entry_cursor from, bavo_entry_cursor to, bool up)
{
    bavo_view key = bavo_entry_key(image, IMAGE, to), last = bavo_entry_key(image, IMAGE, from);
    uint64_t number = bavo_entry_number(image, IMAGE, to), last_number = bavo_entry_number(image, IMAGE, from);
    if (bavo_entry_refusal(image, IMAGE, to) != BAVO_DONE)
        return false;
    if (from.on == BAVO_NOWHERE || last.refusal != BAVO_DONE)
        return true;
    int sign = order(image + last.offset, last.length, image + key.offset, key.length);
    if (sign == 0)
        sign = (last_number < number) - (last_number > number);
    return up ? sign < 0 : sign > 0;
}

static bavo_entry_cursor scan_entries(const uint8_t *image, bavo_entry_cursor at, bool up)
{
    size_t most = word(image, 4), made = 0;
    for (;;) {
        bavo_entry_moved moved = up ? bavo_entry_next(image, IMAGE, at) : bavo_entry_prev(image, IMAGE, at);
        if (moved.refusal != BAVO_DONE || moved.on == BAVO_NOWHERE) {
            ended(moved.refusal, "a refusal of the entry cursor");
            return at;
        }
        bavo_entry_cursor to = {moved.on, moved.node};
        moves++;
        if (!entry_onward(image, at, to, up) || ++made > most) {
            fail(up ? "bavo_entry_next leads not onward" : "bavo_entry_prev leads not onward", at.node, to.node);
            return at;
        }
        at = to;
    }
}

/* Everything of the pair as it is now. */
static void scan_all(void)
{
    const uint8_t *images[] = {newer, older};
    for (int t = 0; t < 2; t++) {
        bavo_entry_cursor begin = {BAVO_NOWHERE, 0}, drawn = {BAVO_ON, 1 + below(6)};
        scan_entries(images[t], scan_entries(images[t], begin, true), false);
        if (drawn.node <= word(images[t], 4))
            scan_entries(images[t], drawn, false);
    }
    bavo_cursor begin = {BAVO_NOWHERE, 0}, drawn = {BAVO_SECOND, 1 + below(6)};
    scan_rows(scan_rows(begin, true), false);
    if (drawn.node <= word(older, 4))
        scan_rows(drawn, false);
}

/* ---- tables and damage */

static void fill(uint8_t *image)
{
    size_t keys = 2 + below(5), tall = 1 + below(3);
    bavo_fresh(image, IMAGE);
    for (size_t i = 3 + below(6); i > 0; i--) {
        uint8_t key[2] = {(uint8_t)('a' + below(keys)), 'k'};
        uint8_t kind = below(4) ? BAVO_KIND_VALUE : BAVO_KIND_DELETION;
        bavo_add(image, IMAGE, key, 1 + below(2), 1 + below(4), kind, (const uint8_t *)"xyz", below(4), 1 + below(tall));
    }
}

static void put(uint8_t *image, size_t at, uint32_t value, size_t length)
{
    damage.table = image == newer ? "newer" : "older";
    damage.at = at;
    damage.length = length;
    for (size_t i = 0; i < length; i++)
        image[at + i] = damage.bytes[i] = (uint8_t)(value >> 8 * i);
}

/* One byte, bit, link or slot of a table. */
static void damage_once(uint8_t *image)
{
    size_t count = word(image, 4), node = 1 + below(count ? count : 1);
    size_t start = count ? word(image, IMAGE - 4 * node) : 64, used = word(image, 8), at = 64 + below(used - 63);
    switch (below(6)) {
    case 0:
        put(image, at, (uint32_t)below(256), 1);
        break;
    case 1:
        put(image, at, image[at] ^ 1u << below(8), 1);
        break;
    case 2:
        put(image, start + 8, (uint32_t)(below(2) ? node : below(count + 2)), 4);
        break;
    case 3:
        put(image, 16 + 4 * below(4), (uint32_t)below(count + 2), 4);
        break;
    case 4:
        put(image, IMAGE - 4 * node, below(2) ? 64 : (uint32_t)below(used), 4);
        break;
    default:
        put(image, below(IMAGE - 4), image[at] ^ 1u << below(8), 1);
    }
}

static void damaged_pairs(void)
{
    static uint8_t sound[2][IMAGE];
    for (int pair = 0; pair < PAIRS; pair++) {
        if (pair % 100 == 0) {
            fill(newer);
            fill(older);
            memcpy(sound[0], newer, IMAGE);
            memcpy(sound[1], older, IMAGE);
        }
        memcpy(newer, sound[0], IMAGE);
        memcpy(older, sound[1], IMAGE);
        damage_once(below(2) ? newer : older);
        scan_all();
    }
}

#include "scans_named.h"

int main(void)
{
    damaged_pairs();
    printf("%d pairs, each with one damage: %llu scans, %llu moves; ended nowhere %llu, refused %llu; failed %llu\n", PAIRS,
        scans, moves, nowhere, refused, failed);
    unsigned long long before = failed;
    unsigned made = named_cases();
    printf("named cases: %u comparisons, %llu failed\n", made, failed - before);
    return failed != 0;
}
