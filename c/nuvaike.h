/* Nuvaike for C: columns in memory, compressed into trees and back.
 *
 * Each call is one of the library libnuvaike.so (or libnuvaike.a), which `c/link` makes. All but nuvaike_free answer a status
 * (enum nuvaike_status): 0 where the call is done. A call that is refused leaves its handles and its buffers as they were.
 *
 * What the caller owes, which nothing can check:
 *   - A pointer with a length points to as many items that may be read, and written where it isn't const. With the length 0
 *     any pointer will do, NULL too. Buffers that are written overlap no other argument.
 *   - A handle begins as zeros, is copied by no one, and ends with nuvaike_free. Two handles of one call are different ones.
 *   - A handle is used by one thread at a time. Calls on different handles may run at the same time: they share nothing.
 *   - The bytes of a `bool` buffer are 0 or 1, also before the call (calloc, or memset to 0).
 *
 * Who frees: the library takes no buffer of the caller's and hands out none of its own. It copies what it is given, and writes
 * what it answers into the caller's buffers. A handle's tree alone is the library's, and nuvaike_free gives it back.
 */
#ifndef NUVAIKE_H
#define NUVAIKE_H

#include <stdbool.h>
#include <stddef.h>
#include <stdint.h>

#ifdef __cplusplus
extern "C" {
#endif

/* A compressed column, or none. Begin with `struct nuvaike_tree tree = {0};` and don't touch the fields. */
struct nuvaike_tree {
    void *at;
    bool full;
};

/* Why a call is refused. */
enum nuvaike_status {
    NUVAIKE_DONE = 0,
    NUVAIKE_NO_MEMORY = 1,        /* memory ran out */
    NUVAIKE_TOO_MANY_ROWS = 2,    /* more than 2^31 rows */
    NUVAIKE_NO_WORDS = 3,         /* no sample word */
    NUVAIKE_UNKNOWN_FORM = 4,     /* a form of validity that is none of enum nuvaike_validity */
    NUVAIKE_VALIDITY_LENGTH = 5,  /* validity of another number of rows, or a bitmap that ends too early */
    NUVAIKE_BAD_OFFSETS = 6,      /* no offset, or offsets that don't begin at 0, fall, or don't end at the bytes' length */
    NUVAIKE_VALUE_TOO_LONG = 7,   /* a text or binary of 2^32 bytes or more */
    NUVAIKE_NOT_UTF8 = 8,         /* a text, or the name of a zone, that isn't UTF-8 */
    NUVAIKE_BAD_UNIT = 9,         /* a unit that is none of enum nuvaike_unit */
    NUVAIKE_NO_TREE = 10,         /* a handle without a tree */
    NUVAIKE_OTHER_TYPE = 11,      /* a column of another type than the call decodes */
    NUVAIKE_BUFFER_LENGTH = 12,   /* a buffer of another length than the call needs */
    NUVAIKE_NOT_STORABLE = 13,    /* a tree that no file can hold */
    NUVAIKE_BAD_FILE = 14,        /* bytes that are no file of trees */
    NUVAIKE_NOT_ONE_TREE = 15     /* a file of no tree, or of several */
};

/* How validity is given. */
enum nuvaike_validity {
    NUVAIKE_ALL_VALID = 0,  /* no validity: no row may be null. `valid` and `offset` aren't looked at */
    NUVAIKE_BYTES = 1,      /* a byte for each row, 0 where the row is null; `offset` isn't looked at */
    NUVAIKE_BITMAP = 2      /* a bit for each row, the lowest of each byte first, the first row's at `offset`: Arrow's bitmaps */
};

/* The units of timestamps. */
enum nuvaike_unit { NUVAIKE_NANOSECONDS = 0, NUVAIKE_MICROSECONDS = 1, NUVAIKE_MILLISECONDS = 2, NUVAIKE_SECONDS = 3 };

/* ---- From rows to a tree.
 *
 * `rows` has `len` items. `form` says how validity is given, `valid` has `valid_len` bytes of it, and `offset` is the place of the
 * first row's bit in a bitmap. What stands beneath a null isn't looked at. `words` has at least one word: samples are placed by
 * the words alone, so equal columns and words give equal trees. `out` gets the tree; one that it had is freed.
 * Refused: NO_MEMORY, UNKNOWN_FORM, VALIDITY_LENGTH, NO_WORDS, TOO_MANY_ROWS, and what is named at a call. */
uint8_t nuvaike_compress_u8(const uint8_t *rows, size_t len, uint8_t form, const uint8_t *valid, size_t valid_len, uint64_t offset, const uint64_t *words, size_t words_len, struct nuvaike_tree *out);
uint8_t nuvaike_compress_u16(const uint16_t *rows, size_t len, uint8_t form, const uint8_t *valid, size_t valid_len, uint64_t offset, const uint64_t *words, size_t words_len, struct nuvaike_tree *out);
uint8_t nuvaike_compress_u32(const uint32_t *rows, size_t len, uint8_t form, const uint8_t *valid, size_t valid_len, uint64_t offset, const uint64_t *words, size_t words_len, struct nuvaike_tree *out);
uint8_t nuvaike_compress_u64(const uint64_t *rows, size_t len, uint8_t form, const uint8_t *valid, size_t valid_len, uint64_t offset, const uint64_t *words, size_t words_len, struct nuvaike_tree *out);
uint8_t nuvaike_compress_i8(const int8_t *rows, size_t len, uint8_t form, const uint8_t *valid, size_t valid_len, uint64_t offset, const uint64_t *words, size_t words_len, struct nuvaike_tree *out);
uint8_t nuvaike_compress_i16(const int16_t *rows, size_t len, uint8_t form, const uint8_t *valid, size_t valid_len, uint64_t offset, const uint64_t *words, size_t words_len, struct nuvaike_tree *out);
uint8_t nuvaike_compress_i32(const int32_t *rows, size_t len, uint8_t form, const uint8_t *valid, size_t valid_len, uint64_t offset, const uint64_t *words, size_t words_len, struct nuvaike_tree *out);
uint8_t nuvaike_compress_i64(const int64_t *rows, size_t len, uint8_t form, const uint8_t *valid, size_t valid_len, uint64_t offset, const uint64_t *words, size_t words_len, struct nuvaike_tree *out);

/* Truth values, a byte each: false of 0, else true. */
uint8_t nuvaike_compress_bool(const uint8_t *rows, size_t len, uint8_t form, const uint8_t *valid, size_t valid_len, uint64_t offset, const uint64_t *words, size_t words_len, struct nuvaike_tree *out);

/* Texts (UTF-8) and binaries, Arrow's large layout: row r has the bytes offsets[r] to offsets[r + 1]. There is one offset more
 * than there are rows, the first is 0 and the last is `bytes_len`. Also refused: BAD_OFFSETS, VALUE_TOO_LONG, and of texts
 * NOT_UTF8, where a row that isn't null isn't. */
uint8_t nuvaike_compress_text(const uint64_t *offsets, size_t offsets_len, const uint8_t *bytes, size_t bytes_len, uint8_t form, const uint8_t *valid, size_t valid_len, uint64_t offset, const uint64_t *words, size_t words_len, struct nuvaike_tree *out);
uint8_t nuvaike_compress_binary(const uint64_t *offsets, size_t offsets_len, const uint8_t *bytes, size_t bytes_len, uint8_t form, const uint8_t *valid, size_t valid_len, uint64_t offset, const uint64_t *words, size_t words_len, struct nuvaike_tree *out);

/* Timestamps, each a count of units. Where `has_zone` isn't 0, the zone has a name, any text, which may be empty. Also refused:
 * BAD_UNIT, and NOT_UTF8 of the name. */
uint8_t nuvaike_compress_timestamp(const int64_t *rows, size_t len, uint8_t form, const uint8_t *valid, size_t valid_len, uint64_t offset, uint8_t unit, uint8_t has_zone, const uint8_t *zone, size_t zone_len, const uint64_t *words, size_t words_len, struct nuvaike_tree *out);

/* ---- What a tree is. `tree` is read, and has the same tree afterwards; it isn't const, since the library lifts the tree out of
 * the handle while it reads. Refused: NO_TREE. */

/* Frees the tree and leaves none; on a handle without a tree it does nothing. Call it once at the end of each handle. */
void nuvaike_free(struct nuvaike_tree *tree);

/* The number of rows. */
uint8_t nuvaike_rows(struct nuvaike_tree *tree, uint64_t *count);

/* The bytes of the tree, at most 2^64 - 1. */
uint8_t nuvaike_nbytes(struct nuvaike_tree *tree, uint64_t *bytes);

/* The plain tree of the same column, without any encoding, in another handle, which is freed by itself. Its bytes are those of
 * the plain column, and it decodes without being decoded again. Also refused: NO_MEMORY. */
uint8_t nuvaike_plain(struct nuvaike_tree *tree, struct nuvaike_tree *out);

/* ---- Bytes behind their number. The bytes stand at the front of `place`, and `count` tells how many they are. Where `place` is
 * too small (BUFFER_LENGTH), `count` is told and `place` stays as it was: call with the length 0 first, or with a guess.
 * No 0 is written behind them. Also refused: NO_MEMORY. */

/* The column's type, as `i64?` or `timestamp us<UTC>`. */
uint8_t nuvaike_type(struct nuvaike_tree *tree, uint8_t *place, size_t place_len, uint64_t *count);

/* The tree's listing, a line for each node. */
uint8_t nuvaike_listing(struct nuvaike_tree *tree, uint8_t *place, size_t place_len, uint64_t *count);

/* The bytes of the tree's file, which `vx show` and `vx rows` read. Also refused: NOT_STORABLE. */
uint8_t nuvaike_store(struct nuvaike_tree *tree, uint8_t *place, size_t place_len, uint64_t *count);

/* A tree from the bytes of its file. Refused: NO_MEMORY, BAD_FILE, NOT_ONE_TREE. */
uint8_t nuvaike_open(const uint8_t *bytes, size_t bytes_len, struct nuvaike_tree *out);

/* ---- From a tree to rows.
 *
 * `out` and `valid` have a place for each row, and no other. Beneath a null stands 0, false or nothing; `valid` is true where a
 * row isn't null. Refused: NO_TREE, NO_MEMORY, OTHER_TYPE, BUFFER_LENGTH. */
uint8_t nuvaike_decode_u8(struct nuvaike_tree *tree, uint8_t *out, size_t len, bool *valid, size_t valid_len);
uint8_t nuvaike_decode_u16(struct nuvaike_tree *tree, uint16_t *out, size_t len, bool *valid, size_t valid_len);
uint8_t nuvaike_decode_u32(struct nuvaike_tree *tree, uint32_t *out, size_t len, bool *valid, size_t valid_len);
uint8_t nuvaike_decode_u64(struct nuvaike_tree *tree, uint64_t *out, size_t len, bool *valid, size_t valid_len);
uint8_t nuvaike_decode_i8(struct nuvaike_tree *tree, int8_t *out, size_t len, bool *valid, size_t valid_len);
uint8_t nuvaike_decode_i16(struct nuvaike_tree *tree, int16_t *out, size_t len, bool *valid, size_t valid_len);
uint8_t nuvaike_decode_i32(struct nuvaike_tree *tree, int32_t *out, size_t len, bool *valid, size_t valid_len);
uint8_t nuvaike_decode_i64(struct nuvaike_tree *tree, int64_t *out, size_t len, bool *valid, size_t valid_len);
uint8_t nuvaike_decode_bool(struct nuvaike_tree *tree, bool *out, size_t len, bool *valid, size_t valid_len);
uint8_t nuvaike_decode_timestamp(struct nuvaike_tree *tree, int64_t *out, size_t len, bool *valid, size_t valid_len);

/* The number of bytes of all rows of texts or binaries. */
uint8_t nuvaike_byte_count(struct nuvaike_tree *tree, uint64_t *count);

/* Texts or binaries in Arrow's large layout. `offsets` has a place more than there are rows, `bytes` as many as
 * nuvaike_byte_count tells. */
uint8_t nuvaike_decode_bytes(struct nuvaike_tree *tree, uint64_t *offsets, size_t offsets_len, uint8_t *bytes, size_t bytes_len, bool *valid, size_t valid_len);

#ifdef __cplusplus
}
#endif
#endif
