/* Bavolinesk: a snapshot table in memory that others can scribble on, for C99 and C++ on 64-bit x86 Linux.
 *
 * A table is an image: a part of memory that the caller lends, 64 to 65,536 bytes, with no alignment asked. It holds entries, each
 * a key, a number, a type (value or deletion) and a value. A reader asks for the rows at a snapshot: of each key the entry with
 * the highest number up to the snapshot, if that is a value. Keys go in the order of their unsigned bytes, a proper prefix first;
 * entries of one key by descending number.
 *
 * What holds of every call:
 * - It takes any bytes as an image and any numbers as a cursor, and returns; no search looks at more links than the image's count
 *   of nodes plus twelve.
 * - What it refuses has a number, BAVO_BAD_IMAGE to BAVO_NO_NODE; the comment of each call names its refusals in the order in which
 *   they are tested. A refused call changes not one byte.
 * - Only bavo_fresh and bavo_add write, and only to the image that they are lent as uint8_t *.
 * - On a sound image (bavo_check says yes) no call gives BAVO_DAMAGED. On another one whose header holds, a call gives it or answers
 *   from what it read.
 * - A scan ends, whatever the bytes: a move that does not end nowhere ends on an entry that can be read whole and lies strictly
 *   onward of where it started, or it is refused. So of moves in one direction, over bytes that stay, no more than there are nodes
 *   end on one before a move is refused or ends nowhere.
 * - There is no global state, no allocation and no lock: calls are reentrant. Several threads may read one image at the same
 *   time; while one writes to it, no other call may use it.
 *
 * Who may write during a call: answers are proved for bytes that hold still while the call lasts. If a device overwrites an image
 * during a call, the call still ends, within the same bounds, and reads and writes nothing outside what it was lent (a view that it
 * hands back lies in its image too); but its answer is worth nothing, and an addition may leave any bytes in the image that it was
 * lent. For an answer that counts, copy the image to private memory and call on the copy, or hold the device off. This rests on
 * compiled code that reads a byte no more often than the source does.
 *
 * What is asked of the caller:
 * - Every pointer is non-null and names as many bytes as its length says, for as long as the call lasts. An empty part is any
 *   non-null pointer with the length 0.
 * - The parts lent to one call do not overlap if one of them is an image that the call may write. Where it writes none, they may:
 *   the same image may be both tables, and a key may lie in an image.
 *
 * Link with target/staticlib/libcapi.a. Every call is proved to do what the definitions in crates/capi/specs and in the crates
 * below say.
 */
#ifndef BAVOLINESK_H
#define BAVOLINESK_H

#include <stdbool.h>
#include <stddef.h>
#include <stdint.h>

#ifdef __cplusplus
extern "C" {
#endif

/* ---- refusals: what the field `refusal` and the companions hold */

#define BAVO_DONE 0u        /* not refused */
#define BAVO_BAD_IMAGE 1u   /* the image's length or a field of its header is out of its limits */
#define BAVO_BAD_KIND 2u    /* type above 1 */
#define BAVO_BAD_NUMBER 3u  /* number or snapshot above BAVO_MAX_NUMBER */
#define BAVO_LONG_KEY 4u    /* key longer than BAVO_MAX_KEY */
#define BAVO_LONG_VALUE 5u  /* value longer than BAVO_MAX_VALUE */
#define BAVO_BAD_HEIGHT 6u  /* height not 1 to BAVO_MAX_HEIGHT */
#define BAVO_NO_ROOM 7u     /* no room for one more node */
#define BAVO_DUPLICATE 8u   /* the table has an entry of this key and number */
#define BAVO_DAMAGED 9u     /* damage was met; never on a sound image */
#define BAVO_NO_NODE 10u    /* a cursor, or a node whose value is asked for, names no node of its table */

/* ---- limits */

#define BAVO_MIN_IMAGE 64u     /* bytes of the smallest image: a header */
#define BAVO_MAX_IMAGE 65536u  /* bytes of the largest */
#define BAVO_MAX_NODES 4096u   /* entries of one table */
#define BAVO_MAX_KEY 1024u     /* bytes of a key; 0 is allowed */
#define BAVO_MAX_VALUE 4096u   /* bytes of a value; 0 is allowed */
#define BAVO_MAX_HEIGHT 12u    /* levels of a node; 1 is the least */
#define BAVO_MAX_NUMBER ((uint64_t)0xFFFFFFFFFFFFFFu) /* 2^56 - 1, of a number and of a snapshot */

/* ---- types of an entry */

#define BAVO_KIND_DELETION 0u
#define BAVO_KIND_VALUE 1u

/* ---- what a lookup says: the field `answer` */

#define BAVO_ABSENT 0u   /* no entry of the key up to the snapshot */
#define BAVO_FOUND 1u    /* the newest one is a value: it is at `node` */
#define BAVO_DELETED 2u  /* the newest one is a deletion */

/* ---- where a cursor is: `on` of an entry cursor is BAVO_NOWHERE or BAVO_ON; `table` of a visible cursor, and of what stands at
 *      it, is BAVO_NOWHERE, BAVO_FIRST or BAVO_SECOND. A larger number in a cursor is refused with 10, like a node that the table
 *      does not have. */

#define BAVO_NOWHERE 0u
#define BAVO_ON 1u
#define BAVO_FIRST 1u
#define BAVO_SECOND 2u

/* ---- one table */

/* What an addition answers: the new node's number, from 1 in order of arrival. Refused: node 0. */
typedef struct {
    uint32_t refusal;
    size_t node;
} bavo_added;

/* What a lookup answers, and how many links it looked at. The node is 0 unless the answer is BAVO_FOUND. Refused: 0, 0, 0. */
typedef struct {
    uint32_t refusal;
    uint32_t answer;
    size_t node;
    size_t looks;
} bavo_lookup;

/* Whether an entry is held, 1 or 0, and how many links were looked at. Refused: 0, 0. */
typedef struct {
    uint32_t refusal;
    uint32_t held;
    size_t looks;
} bavo_presence;

/* A part of the image: `length` bytes from `image + offset`, within the image. Refused, nowhere, without a row, and of a deletion's value:
 * 0, 0. */
typedef struct {
    uint32_t refusal;
    size_t offset;
    size_t length;
} bavo_view;

/* Makes an empty table of the image: writes its first 64 bytes and keeps the others. Answers the refusal, or 0.
 * Refusal: 1, for the length only. */
uint32_t bavo_fresh(uint8_t *image, size_t image_len);

/* Adds an entry in a node of the given height, which the caller draws: 1 for most, each level more for about a quarter as many.
 * It takes 8 bytes, 4 for each level and the entry's bytes where the free part begins, one slot of 4 bytes where it ends, and
 * changes the node count, the first free byte and at most `height` links. Nothing else is touched, on a damaged image too. In a sound
 * image nodes keep their numbers and entries, so a stored cursor shows after it what it showed before. It writes the first free byte
 * first, then the node, its slot and the links to it from the lowest up, and the count last: before that word is written the table
 * does not have the node.
 * Refusals: 1, 2, 3, 4, 5, 6, then 9 or 8, then 7. */
bavo_added bavo_add(uint8_t *image, size_t image_len, const uint8_t *key, size_t key_len, uint64_t number, uint8_t kind,
    const uint8_t *value, size_t value_len, size_t height);

/* Whether the image is sound: header, nodes, slots, entries and every link are as additions to a fresh image leave them. It refuses
 * nothing; an image whose header does not hold is not sound. */
bool bavo_check(const uint8_t *image, size_t image_len);

/* Whether the entry of this key, number and type is held.
 * Refusals: 1, 2, 3, 4, 9. */
bavo_presence bavo_contains(const uint8_t *image, size_t image_len, const uint8_t *key, size_t key_len, uint64_t number,
    uint8_t kind);

/* The newest entry of a key up to a snapshot.
 * Refusals: 1, 3, 4, 9. */
bavo_lookup bavo_get(const uint8_t *image, size_t image_len, const uint8_t *key, size_t key_len, uint64_t snapshot);

/* The value of a node that a lookup found; a deletion's is empty.
 * Refusals: 1, 10, 9. */
bavo_view bavo_value(const uint8_t *image, size_t image_len, size_t node);

/* Its companion: the refusal that bavo_value gives to the same arguments, or 0. */
uint32_t bavo_value_refusal(const uint8_t *image, size_t image_len, size_t node);

/* The value of a key at a snapshot: bavo_get and bavo_value in one call. A value, an empty one too, never stands at offset 0, so refusal,
 * offset and length 0 say that the key has no row.
 * Refusals: 1, 3, 4, 9. */
bavo_view bavo_get_value(const uint8_t *image, size_t image_len, const uint8_t *key, size_t key_len, uint64_t snapshot);

/* ---- the entry cursor: over all entries of one table in their order, deletions included. On any bytes bavo_entry_next ends on an
 *      entry after the cursor's in that order, bavo_entry_prev before it, bavo_entry_seek at or after the key and number, and
 *      bavo_entry_refusal is 0 there; else the move is refused with 9, or ends nowhere. */

/* Nowhere, or on a node: two numbers that the caller keeps. {0, 0} is where to begin; nowhere, `node` does not matter. */
typedef struct {
    uint32_t on;
    size_t node;
} bavo_entry_cursor;

/* Where a move leads. Refused: `on` and `node` exactly as they were handed. */
typedef struct {
    uint32_t refusal;
    uint32_t on;
    size_t node;
} bavo_entry_moved;

/* To the first entry; nowhere if there is none. The cursor that is handed is tested, and else not used.
 * Refusals: 1, 10, 9. */
bavo_entry_moved bavo_entry_first(const uint8_t *image, size_t image_len, bavo_entry_cursor at);

/* To the first entry at or after the key and number in the order; nowhere if there is none. The cursor is tested, and else not used.
 * Refusals: 1, 10, 3, 4, 9. */
bavo_entry_moved bavo_entry_seek(const uint8_t *image, size_t image_len, bavo_entry_cursor at, const uint8_t *key,
    size_t key_len, uint64_t number);

/* To the entry after the cursor's; from nowhere to the first, from the last nowhere.
 * Refusals: 1, 10, 9. */
bavo_entry_moved bavo_entry_next(const uint8_t *image, size_t image_len, bavo_entry_cursor at);

/* To the entry before the cursor's; from nowhere and from the first nowhere.
 * Refusals: 1, 10, 9. */
bavo_entry_moved bavo_entry_prev(const uint8_t *image, size_t image_len, bavo_entry_cursor at);

/* The key at a cursor; nowhere it is empty.
 * Refusals: 1, 10, 9. */
bavo_view bavo_entry_key(const uint8_t *image, size_t image_len, bavo_entry_cursor at);

/* The value at a cursor; nowhere, and of a deletion, it is empty.
 * Refusals: 1, 10, 9. */
bavo_view bavo_entry_value(const uint8_t *image, size_t image_len, bavo_entry_cursor at);

/* The number at a cursor; nowhere, and where bavo_entry_refusal is not 0, it is 0. */
uint64_t bavo_entry_number(const uint8_t *image, size_t image_len, bavo_entry_cursor at);

/* The type at a cursor; nowhere, and where bavo_entry_refusal is not 0, it is 0. */
uint8_t bavo_entry_kind(const uint8_t *image, size_t image_len, bavo_entry_cursor at);

/* The companion of the four views at a cursor: the refusal that they give to the same arguments, 1, 10 or 9, or 0. */
uint32_t bavo_entry_refusal(const uint8_t *image, size_t image_len, bavo_entry_cursor at);

/* ---- two tables: the first is the newer one */

/* What a lookup in a pair answers, and how many links it looked at in the tables that it asked. Table and node are 0 unless the answer
 * is BAVO_FOUND. Refused: 0, 0, 0, 0. */
typedef struct {
    uint32_t refusal;
    uint32_t answer;
    uint32_t table;
    size_t node;
    size_t looks;
} bavo_pair_lookup;

/* Nowhere, or on a node of the first or the second table: two numbers that the caller keeps. {0, 0} is where to
 * begin; nowhere, `node` does not matter. */
typedef struct {
    uint32_t table;
    size_t node;
} bavo_cursor;

/* Where a move leads. Refused: `table` and `node` exactly as they were handed. */
typedef struct {
    uint32_t refusal;
    uint32_t table;
    size_t node;
} bavo_moved;

/* A part of the first (1) or of the second (2) image: `length` bytes from `offset`, within that image. The part of a deletion's
 * value is the empty one at 0 of its image. Refused, and nowhere: 0, 0, 0. */
typedef struct {
    uint32_t refusal;
    uint32_t table;
    size_t offset;
    size_t length;
} bavo_row_view;

/* The newest entry of a key up to a snapshot: the first table is asked, the second only if the first says absent.
 * Refusals: 1 (first table, then second), 3, 4, 9. */
bavo_pair_lookup bavo_pair_get(const uint8_t *first, size_t first_len, const uint8_t *second, size_t second_len,
    const uint8_t *key, size_t key_len, uint64_t snapshot);

/* The moves of the visible cursor go over the keys that have a row at the snapshot, over both tables together. Each answers from
 * the entries that are held at that call; the place that it leads to is the entry that gives the row. On any bytes they end on a
 * value numbered up to the snapshot whose views are not refused, bavo_next above the cursor's key, bavo_prev below it, bavo_seek at
 * or above the key that it was given; else they are refused with 9, or end nowhere. */

/* To the least key with a row; nowhere if there is none. The cursor that is handed is tested, and else not used.
 * Refusals: 1 (first table, then second), 10, 3, 9. */
bavo_moved bavo_first(const uint8_t *first, size_t first_len, const uint8_t *second, size_t second_len, uint64_t snapshot,
    bavo_cursor at);

/* To the least key with a row, at or above the given one; nowhere if there is none. The cursor is tested, and else not used.
 * Refusals: 1 (first table, then second), 10, 3, 4, 9. */
bavo_moved bavo_seek(const uint8_t *first, size_t first_len, const uint8_t *second, size_t second_len, uint64_t snapshot,
    bavo_cursor at, const uint8_t *key, size_t key_len);

/* To the least key with a row above the cursor's; from nowhere to the least of all, from the last nowhere.
 * Refusals: 1 (first table, then second), 10, 3, 9. */
bavo_moved bavo_next(const uint8_t *first, size_t first_len, const uint8_t *second, size_t second_len, uint64_t snapshot,
    bavo_cursor at);

/* To the greatest key with a row below the cursor's; from nowhere and from the first nowhere.
 * Refusals: 1 (first table, then second), 10, 3, 9. */
bavo_moved bavo_prev(const uint8_t *first, size_t first_len, const uint8_t *second, size_t second_len, uint64_t snapshot,
    bavo_cursor at);

/* The key of the node at a cursor. No snapshot is asked for: in sound tables a stored cursor shows the same whatever is added.
 * Refusals: 1 (first table, then second), 10, 9. */
bavo_row_view bavo_row_key(const uint8_t *first, size_t first_len, const uint8_t *second, size_t second_len, bavo_cursor at);

/* The value of the node at a cursor; a deletion's is empty.
 * Refusals: 1 (first table, then second), 10, 9. */
bavo_row_view bavo_row_value(const uint8_t *first, size_t first_len, const uint8_t *second, size_t second_len, bavo_cursor at);

/* The companion of the two: the refusal that they give to the same arguments, or 0. */
uint32_t bavo_row_refusal(const uint8_t *first, size_t first_len, const uint8_t *second, size_t second_len, bavo_cursor at);

#ifdef __cplusplus
}
#endif

#endif
