/* The riser's story. A management controller puts each accelerator function that it finds into a table and deletes each one that
 * it loses; the host reads the rows at a snapshot, upward and downward, over a newer and an older table. A cheap riser drops its
 * link and retrains: while it is gone no pass may show its gpu, upward or downward. Then a card scribbles on the older table, and
 * still every call returns. The program prints what it does, compares each answer with what is due, and returns 1 if one is off.
 *
 *     tools/staticlib
 *     gcc -std=c99 -Wall -Wextra -Werror -Iinclude host/c/example.c target/staticlib/libcapi.a -o target/c-example
 */
#include "bavolinesk.h"

#include <stdio.h>
#include <string.h>

#define IMAGE 256

/* The first table is the newer one. */
static uint8_t newer[IMAGE];
static uint8_t older[IMAGE];

static int off;

static void due(bool right, const char *what)
{
    if (!right) {
        printf("  OFF: %s\n", what);
        off = 1;
    }
}

static const uint8_t *bytes(const char *text)
{
    return (const uint8_t *)text;
}

static const char *refusal_name(uint32_t refusal)
{
    static const char *const names[] = {
        "not refused", "bad image", "type above 1", "number too large", "key too long", "value too long",
        "height not 1 to 12", "no room", "duplicate", "damage met", "no such node",
    };
    return refusal < sizeof names / sizeof names[0] ? names[refusal] : "unknown";
}

/* ---- the management controller */

static void found(uint8_t *table, const char *function, uint64_t number, const char *lanes, size_t height)
{
    bavo_added added = bavo_add(table, IMAGE, bytes(function), strlen(function), number, BAVO_KIND_VALUE,
        bytes(lanes), strlen(lanes), height);
    printf("controller: %llu found %s, %s, node %zu\n", (unsigned long long)number, function, lanes, added.node);
    due(added.refusal == BAVO_DONE && added.node > 0, "the addition is accepted");
}

static void lost(uint8_t *table, const char *function, uint64_t number)
{
    bavo_added added = bavo_add(table, IMAGE, bytes(function), strlen(function), number, BAVO_KIND_DELETION,
        bytes(""), 0, 1);
    printf("controller: %llu lost %s, node %zu\n", (unsigned long long)number, function, added.node);
    due(added.refusal == BAVO_DONE && added.node > 0, "the deletion is accepted");
}

/* ---- the host */

typedef struct {
    const char *function;
    const char *lanes;
} row;

static const uint8_t *part(bavo_row_view view)
{
    return (view.table == BAVO_SECOND ? older : newer) + view.offset;
}

static bool is_text(bavo_row_view view, const char *text)
{
    return view.length == strlen(text) && memcmp(part(view), text, view.length) == 0;
}

/* Prints the row at a cursor, which is to be this one; none is due if `want` is null. */
static void show(const char *way, uint64_t snapshot, bavo_moved moved, const row *want)
{
    bavo_cursor at = {moved.table, moved.node};
    bavo_row_view key = bavo_row_key(newer, IMAGE, older, IMAGE, at);
    bavo_row_view value = bavo_row_value(newer, IMAGE, older, IMAGE, at);
    printf("host: %s at %llu: ", way, (unsigned long long)snapshot);
    if (moved.refusal != BAVO_DONE)
        printf("refused, %s\n", refusal_name(moved.refusal));
    else if (moved.table == BAVO_NOWHERE)
        printf("no more\n");
    else
        printf("%.*s %.*s (table %u, node %zu)\n", (int)key.length, (const char *)part(key), (int)value.length,
            (const char *)part(value), moved.table, moved.node);
    due(moved.refusal == BAVO_DONE, "the move is accepted");
    due(bavo_row_refusal(newer, IMAGE, older, IMAGE, at) == BAVO_DONE, "the views are accepted");
    if (want == NULL)
        due(moved.table == BAVO_NOWHERE, "no row is shown");
    else
        due(moved.table != BAVO_NOWHERE && is_text(key, want->function) && is_text(value, want->lanes),
            "the row is the one that is due");
}

/* Reads every row upward and then, from the last one, downward. */
static void read_rows(uint64_t snapshot, const row *rows, size_t count)
{
    bavo_cursor at = {BAVO_NOWHERE, 0}, last = at;
    bavo_moved moved;
    for (size_t i = 0; i <= count; i++) {
        moved = bavo_next(newer, IMAGE, older, IMAGE, snapshot, at);
        show("upward", snapshot, moved, i < count ? &rows[i] : NULL);
        last = at;
        at.table = moved.table;
        at.node = moved.node;
    }
    at = last;
    for (size_t i = count; i-- > 0;) {
        moved = bavo_prev(newer, IMAGE, older, IMAGE, snapshot, at);
        show("downward", snapshot, moved, i > 0 ? &rows[i - 1] : NULL);
        at.table = moved.table;
        at.node = moved.node;
    }
}

/* What rusty-leveldb 4.0.2 showed of the same entries when it was run on them (docs/DIFFERENCES.md). */
static void old_code(const char *shown)
{
    printf("          the old code, %s\n", shown);
}

/* One function, by its name. */
static void look_up(const char *function, uint64_t snapshot, uint32_t answer)
{
    static const char *const names[] = {"absent", "found", "deleted"};
    bavo_pair_lookup lookup = bavo_pair_get(newer, IMAGE, older, IMAGE, bytes(function), strlen(function), snapshot);
    const char *says = lookup.answer <= BAVO_DELETED ? names[lookup.answer] : "unknown";
    printf("host: %s at %llu: %s after %zu looks\n", function, (unsigned long long)snapshot, says, lookup.looks);
    due(lookup.refusal == BAVO_DONE && lookup.answer == answer, "the lookup says what is due");
}

/* ---- what goes wrong */

/* An entry that is there already is refused, and not one byte changes. */
static void add_twice(void)
{
    uint8_t before[IMAGE];
    memcpy(before, older, IMAGE);
    bavo_added added = bavo_add(older, IMAGE, bytes("gpu0"), 4, 2, BAVO_KIND_VALUE, bytes("x4"), 2, 1);
    printf("controller: 2 gpu0 once more: refusal %u, %s\n", added.refusal, refusal_name(added.refusal));
    due(added.refusal == BAVO_DUPLICATE && added.node == 0, "the duplicate is refused");
    due(memcmp(before, older, IMAGE) == 0, "a refusal keeps every byte");
}

/* A card writes into the older table: the lowest link of node 1, which stands at 64, leads back to node 1. */
static void scribble(void)
{
    bavo_cursor at = {BAVO_NOWHERE, 0};
    due(bavo_check(older, IMAGE), "the older table is sound");
    older[64 + 8] = 1;
    printf("card: a link of the older table leads back to itself\n");
    due(!bavo_check(older, IMAGE), "the check says no");
    bavo_lookup lookup = bavo_get(older, IMAGE, bytes("ssd0"), 4, 5);
    printf("host: ssd0 in the older table: refusal %u, %s\n", lookup.refusal, refusal_name(lookup.refusal));
    due(lookup.refusal == BAVO_DAMAGED, "the search ends and says damage");
    bavo_moved moved = bavo_seek(newer, IMAGE, older, IMAGE, 5, at, bytes("pcie"), 4);
    printf("host: seek over both tables: refusal %u, %s\n", moved.refusal, refusal_name(moved.refusal));
    due(moved.refusal == BAVO_DAMAGED && moved.table == at.table && moved.node == at.node,
        "a refused move hands back the cursor");
}

int main(void)
{
    const row nic[] = {{"nic0", "x8"}};
    const row gpu_nic[] = {{"gpu0", "x16"}, {"nic0", "x8"}};
    const row nic_ssd[] = {{"nic0", "x8"}, {"ssd0", "x4"}};
    const row all[] = {{"gpu0", "x8"}, {"nic0", "x8"}, {"ssd0", "x4"}};

    due(bavo_fresh(older, IMAGE) == BAVO_DONE, "the older table is fresh");
    due(bavo_fresh(newer, IMAGE) == BAVO_DONE, "the newer table is fresh");
    found(older, "nic0", 1, "x8", 1);
    found(older, "gpu0", 2, "x16", 2);
    lost(older, "gpu0", 3);
    found(newer, "ssd0", 4, "x4", 1);
    found(newer, "gpu0", 5, "x8", 1);

    read_rows(0, NULL, 0);
    read_rows(1, nic, 1);
    read_rows(2, gpu_nic, 2);
    read_rows(3, nic, 1);
    old_code("downward at 3: gpu0 x16, a card that is gone");
    read_rows(4, nic_ssd, 2);
    old_code("downward at 4: nothing below ssd0, though nic0 is there");
    read_rows(5, all, 3);
    look_up("gpu0", 1, BAVO_ABSENT);
    look_up("gpu0", 4, BAVO_DELETED);
    look_up("gpu0", 5, BAVO_FOUND);

    add_twice();
    scribble();
    puts(off ? "something is off" : "every answer is as it is due");
    return off;
}
