/*
 * Barcovento: pixel masks (Mumbling bitmaps), Paimon row blocks and Mosaic buckets.
 *
 * Every call takes any bytes and any numbers. It returns 0 and sets its outputs, or it returns the
 * refusal number and leaves every output untouched.
 *
 * A slice is a pointer and a number of elements. A pointer is never null and is aligned for its
 * type, also where the number of elements is 0. Outputs overlap neither inputs nor each other; two
 * inputs may be the same bytes. No call keeps a pointer, or any state: threads may use them at once.
 *
 * Stack, in KiB, that is enough for a call at the largest inputs (measured; no proof covers it):
 *   42  bv_bitmap_union bv_bitmap_intersection bv_bitmap_difference bv_bitmap_symmetric_difference
 *   19  bv_store_put
 *   15  bv_bucket_page
 *   14  bv_bucket_field
 *   11  bv_bucket_check bv_bitmap_write
 *   10  bv_bitmap_check bv_bitmap_explain bv_bitmap_probe bv_bitmap_rank bv_bitmap_page
 *   10  bv_store_fetch bv_store_drop bv_store_save bv_store_load
 *    7  bv_block_page
 *    6  bv_schema_column
 *    5  bv_block_field
 *    4  bv_block_check bv_schema_check
 *    1  bv_number_read
 *
 * Refusals:
 *    1  bitmap under 6 bytes                     20  schema bad
 *    2  version not 1                            21  block under 4 bytes or too long
 *    3  over 8,192 containers                    22  row count negative, over 65,536, or offsets don't fit
 *    4  descriptors cut short                    23  rows and offsets don't touch
 *    5  b1, b2, e break the width rules          24  row bytes bad
 *    6  exception offsets not rising or too high 25  row or column number absent
 *    7  spare bits set in a chunk                30  bucket: wrong column count, children, or ill-formed header number
 *    8  descriptor over 63                       31  bucket cut short
 *    9  bytes left are not the containers        32  bad value or ill-formed length
 *   10  sparse not rising, or dense under 32     33  bad number of entries, or index past them
 *   11  cardinality wrong                        34  spare bits set
 *   12  positions not strictly rising or too big 35  null in a NOT NULL column
 *   13  written form longer than its room        36  bytes left over
 *                                                37  bucket too long or over 65,536 rows
 *
 *   40  store: slot number over 63               42  store: the bytes judged are not forms lying apart,
 *   41  store: fetch or drop of an empty slot        or a saved store that is bad or does not fit
 *   44  store: a slot that is not the owner's
 */
#ifndef BARCOVENTO_H
#define BARCOVENTO_H

#include <stddef.h>
#include <stdint.h>

#define BARCOVENTO_VERSION "0.1.0"

#ifdef __cplusplus
extern "C" {
#endif

/* The refusals by name. The project's docs/FORMATS.md has every rule, in the order of each call. */
enum {
    /* bitmaps */
    BV_BITMAP_SHORT = 1,      /* under 6 bytes */
    BV_BITMAP_VERSION = 2,    /* version not 1 */
    BV_BITMAP_CONTAINERS = 3, /* over 8,192 containers */
    BV_CHUNK_CUT = 4,         /* a chunk of descriptors cut short */
    BV_CHUNK_WIDTHS = 5,      /* b1, b2, e break the width rules */
    BV_CHUNK_OFFSETS = 6,     /* exception offsets not rising, or not below n */
    BV_CHUNK_SPARE = 7,       /* spare bits of a chunk set */
    BV_CHUNK_DESCRIPTOR = 8,  /* a descriptor over 63 */
    BV_BITMAP_REST = 9,       /* the bytes after the descriptors are not exactly the containers */
    BV_CONTAINER = 10,        /* a sparse container not rising, or a dense one with under 32 members */
    BV_CARDINALITY = 11,      /* not the number of members */
    BV_POSITIONS = 12,        /* a list of positions not strictly rising, or one too large */
    BV_ROOM = 13,             /* what is to be written is longer than its room */
    /* schemas and row blocks */
    BV_SCHEMA = 20,           /* a bad schema */
    BV_BLOCK_LENGTH = 21,     /* under 4 bytes, or over 16,777,216 */
    BV_BLOCK_COUNT = 22,      /* a row count that is negative or over 65,536, or offsets that do not fit */
    BV_BLOCK_OFFSETS = 23,    /* rows and offsets do not touch */
    BV_BLOCK_ROW = 24,        /* a row's bytes are bad */
    BV_ABSENT = 25,           /* no such row or column, of a block, bucket or schema */
    /* buckets */
    BV_BUCKET_HEADER = 30,    /* the number of columns or of children wrong or ill-formed */
    BV_BUCKET_CUT = 31,       /* cut short */
    BV_BUCKET_VALUE = 32,     /* a bad value, or an ill-formed length or number of entries */
    BV_BUCKET_ENTRIES = 33,   /* a number of entries not 2 to 255, or an index past them */
    BV_BUCKET_SPARE = 34,     /* spare bits set */
    BV_BUCKET_NULL = 35,      /* a null in a NOT NULL column */
    BV_BUCKET_REST = 36,      /* bytes left over */
    BV_BUCKET_LIMIT = 37,     /* over 16,777,216 bytes, or over 65,536 rows */
    /* stores */
    BV_STORE_SLOT = 40,       /* a slot number over 63 */
    BV_STORE_EMPTY = 41,      /* fetch or drop of an empty slot */
    BV_STORE_BAD = 42,        /* not forms lying apart, or saved bytes that are bad or do not fit */
    BV_STORE_OWNER = 44       /* a slot that is not the owner's */
};

/* Bitmaps, reading. Refusals 1 to 11: each call judges the whole bitmap first. */

/* The number of members. */
uint32_t bv_bitmap_check(const uint8_t *bytes, size_t len, uint32_t *cardinality);

/*
 * Why the bitmap is refused: the first rule that it breaks, and where. This call never refuses: it
 * returns 0 and sets all five outputs, always. All five are 0 if the bitmap is accepted.
 *
 * *number is the refusal, 1 to 11. *index is the chunk (4 to 8) or the container (10) at fault,
 * counted from 0, else 0. *byte is a place in the bitmap, from 0 on; what was found and what was
 * wanted are 0 where the table has nothing:
 *
 *   number    *byte                                               *found, *wanted
 *   1         0                                                   the length, 6
 *   2         0, the version                                      the version, 1
 *   3         4, the container count                              the count, 8192
 *   4, 5      where the chunk starts, for 4 perhaps at len
 *   6         the first exception offset that is wrong
 *   7         the first byte with spare bits set
 *   8         where the chunk starts                              the first descriptor over 63, 63
 *   9         where the containers start, perhaps at len          bytes there, bytes asked for
 *   10        where the container starts
 *   11        1, the cardinality                                  the one stored, the one counted
 */
uint32_t bv_bitmap_explain(const uint8_t *bytes, size_t len, uint32_t *number, size_t *index,
                           size_t *byte, size_t *found, size_t *wanted);

/* Whether the position, any 32-bit number, is a member: 0 or 1. */
uint32_t bv_bitmap_probe(const uint8_t *bytes, size_t len, uint32_t position, uint8_t *member);

/* How many members lie below the position, any 32-bit number. */
uint32_t bv_bitmap_rank(const uint8_t *bytes, size_t len, uint32_t position, uint32_t *below);

/*
 * The first members at or above *place into the list, as many as the room takes; the rest of the
 * list is unchanged. *place becomes the last member given plus 1, or stays if none was given.
 * *finished becomes 1 if no member remains, else 0. *given is the number of members given.
 * A listing whose *finished is not 0 gives nothing: list, *place and *finished stay, *given is 0.
 * Start with *place 0 and *finished 0.
 */
uint32_t bv_bitmap_page(const uint8_t *bytes, size_t len, uint32_t *place, uint8_t *finished,
                        uint32_t *list, size_t room, uint32_t *given);

/* Bitmaps, writing. *length is the form's length: the first *length bytes of out hold the form, the rest is unchanged. */

/* The one form of a strictly rising list of positions. Refusals 12, 13. */
uint32_t bv_bitmap_write(const uint32_t *positions, size_t count, uint8_t *out, size_t room,
                         size_t *length);

/*
 * The one form of the combined set. Refusals 1 to 11 of a, then 1 to 11 of b, then 13.
 * Union: in at least one. Intersection: in both. Difference: in a only. Symmetric difference: in
 * exactly one.
 */
uint32_t bv_bitmap_union(const uint8_t *a, size_t a_len, const uint8_t *b, size_t b_len,
                         uint8_t *out, size_t room, size_t *length);
uint32_t bv_bitmap_intersection(const uint8_t *a, size_t a_len, const uint8_t *b, size_t b_len,
                                uint8_t *out, size_t room, size_t *length);
uint32_t bv_bitmap_difference(const uint8_t *a, size_t a_len, const uint8_t *b, size_t b_len,
                              uint8_t *out, size_t room, size_t *length);
uint32_t bv_bitmap_symmetric_difference(const uint8_t *a, size_t a_len, const uint8_t *b,
                                        size_t b_len, uint8_t *out, size_t room, size_t *length);

/*
 * A store: up to 64 numbered bitmaps, each as its one written form, in a lent buffer of any length.
 *
 * Two owners share it. Owner 0 has slots 0 to 31 and the buffer's first half, owner 1 slots 32 to 63
 * and the second half; half is len / 2, rounded down. Where len is odd, the last byte is nobody's and no
 * call changes it. An owner of another number has no slot.
 *
 * A lent directory says where forms lie: for slot i, directory[2 * i] is where its form starts, counted
 * from the first byte of its owner's half, and directory[2 * i + 1] its length. A length of 0 is an
 * empty slot, whatever its start says. A directory has BV_STORE_DIRECTORY numbers; all zeros is the
 * empty store. The buffer's bytes outside the forms mean nothing.
 * A directory of a store without owners, whose starts count from the buffer's first byte for all 64
 * slots, must not be handed on: it is not recognised. Save such a store with the library that wrote it,
 * and load the saved bytes, which fit if the first 32 forms and the last 32 each fit a half.
 *
 * Put, fetch and drop judge the owner's slots and half first, save those of both. 42: `numbers` is not
 * BV_STORE_DIRECTORY, or a judged slot that is not empty does not lie within its half, is not accepted,
 * is accepted but is not the written form of its set, or overlaps another of its owner's.
 * What the other owner's numbers and half hold changes no answer of put, fetch and drop, and these
 * calls leave them as they are, byte for byte.
 *
 * Put and load may move forms: after them the slots hold what is said below, and where forms lie, the
 * starts of empty slots and all bytes of a half outside forms are free: of the owner's half after put,
 * of both after load. A refused call leaves buffer, directory and output as they were. Nothing else
 * that is handed in overlaps buffer or directory.
 */
enum {
    BV_STORE_DIRECTORY = 128
};

/*
 * The slot holds the bitmap's written form, in place of what it held; the owner's other slots hold what
 * they held. Refusals 40, 44, 42, the bitmap's 1 to 11, then 13: exactly if the forms in the owner's
 * other slots and the new one are together longer than its half.
 */
uint32_t bv_store_put(uint8_t *buffer, size_t len, uint32_t *directory, size_t numbers,
                      uint32_t owner, uint32_t slot, const uint8_t *bitmap, size_t bitmap_len);

/* The slot's form into out: *length is its length, the rest of out is unchanged. Refusals 40, 44, 42, 41, 13. */
uint32_t bv_store_fetch(const uint8_t *buffer, size_t len, const uint32_t *directory, size_t numbers,
                        uint32_t owner, uint32_t slot, uint8_t *out, size_t room, size_t *length);

/* The slot is empty: its length becomes 0, all else stays. Refusals 40, 44, 42, 41. */
uint32_t bv_store_drop(const uint8_t *buffer, size_t len, uint32_t *directory, size_t numbers,
                       uint32_t owner, uint32_t slot);

/*
 * The whole store, both owners' slots, as bytes: 64 entries in the order of the slots, each a length in
 * groups of seven bits, shortest, and then the form's bytes; 00 for an empty slot. *length is their
 * length, the rest of out is unchanged. Refusals 42, 13: they are longer than out.
 */
uint32_t bv_store_save(const uint8_t *buffer, size_t len, const uint32_t *directory, size_t numbers,
                       uint8_t *out, size_t room, size_t *length);

/*
 * Each of the 64 slots holds its entry of the saved bytes. What the store held before is not judged.
 * Refusal 42: `numbers` is not BV_STORE_DIRECTORY; the bytes are not exactly 64 such entries, of written
 * forms alone, with nothing behind; or the first 32 forms, or the last 32, are together longer than a
 * half.
 */
uint32_t bv_store_load(uint8_t *buffer, size_t len, uint32_t *directory, size_t numbers,
                       const uint8_t *saved, size_t saved_len);

/*
 * Numbers in groups of seven bits, low group first: the high bit is set on all bytes but the last.
 * So are written the column count, lengths, precisions and scales of a schema, the lengths and
 * nanoseconds of a row, and the column count, number of children, numbers of entries and lengths of a
 * bucket. (A block's offsets and row count are 4 plain bytes.) Any form of 1 to 5 bytes up to
 * 4,294,967,295 is accepted, also one that is padded: 80 80 00 is 0 in three bytes.
 */

/*
 * The number at the front of the bytes; what follows it is not looked at. This call never refuses: it
 * returns 0 and sets all four outputs, always.
 *
 *   *found            *value, *used, *shortest
 *   BV_NUMBER         the number, how many bytes it has, 1 if no form is shorter, else 0
 *   BV_CUT_SHORT      0: under five bytes are there, and all have the high bit
 *   BV_ILL_FORMED     0: the first four bytes have the high bit and the fifth is over 0F
 */
enum {
    BV_NUMBER = 0,
    BV_CUT_SHORT = 1,
    BV_ILL_FORMED = 2
};

uint32_t bv_number_read(const uint8_t *bytes, size_t len, uint8_t *found, uint32_t *value,
                        uint32_t *used, uint8_t *shortest);

/* Schemas. */

/* The number of columns, 1 to 64. Refusal 20. */
uint32_t bv_schema_check(const uint8_t *schema, size_t len, uint32_t *columns);

/*
 * One column: its type (the id, 0 to 16), whether it may be null (0 or 1), its length or precision
 * (0 where the type has none), and its scale (DECIMAL, else 0). Refusals 20, then 25.
 */
uint32_t bv_schema_column(const uint8_t *schema, size_t len, uint32_t column, uint8_t *type,
                          uint8_t *nullable, uint32_t *size, uint32_t *scale);

/*
 * The answer for one field. The outputs that a kind does not use are set to 0.
 *
 *   kind              uses
 *   BV_NULL           -
 *   BV_YES_NO         whole: 0 or 1
 *   BV_WHOLE          whole: integers, DATE, TIME, DECIMAL up to precision 18
 *   BV_FLOAT          bits: the stored bits, in the low 32
 *   BV_DOUBLE         bits: the stored bits
 *   BV_TIME           whole: the stored count; nanos: 0 where none are stored
 *   BV_PLACE          start and length of text, bytes or large DECIMAL in the block or bucket
 */
enum {
    BV_NULL = 0,
    BV_YES_NO = 1,
    BV_WHOLE = 2,
    BV_FLOAT = 3,
    BV_DOUBLE = 4,
    BV_TIME = 5,
    BV_PLACE = 6
};

/* Row blocks. Each call judges the schema and then the whole block first. */

/* The number of rows. Refusals 20, 21, 22, then row by row 23 before 24, then 23 for the end. */
uint32_t bv_block_check(const uint8_t *schema, size_t schema_len, const uint8_t *block,
                        size_t block_len, uint32_t *rows);

/* One field. Refusals as for a check, then 25. */
uint32_t bv_block_field(const uint8_t *schema, size_t schema_len, const uint8_t *block,
                        size_t block_len, uint32_t row, uint32_t column, uint8_t *kind,
                        int64_t *whole, uint64_t *bits, uint32_t *nanos, size_t *start,
                        size_t *length);

/*
 * A page: fields as numbers in a lent list, three numbers for each field.
 *
 *   first     the kind
 *   second    BV_YES_NO: 0 or 1. BV_WHOLE, BV_TIME: the whole number or count as int64_t, converted to
 *             uint64_t. BV_FLOAT, BV_DOUBLE: the stored bits. BV_PLACE: the start. BV_NULL: 0
 *   third     BV_TIME: the nanoseconds. BV_PLACE: the length. Every other kind: 0
 */

/*
 * The fields of the rows from row *place on, as many whole rows as the list takes, row by row and in a
 * row column by column: a row takes three numbers for each column. *given is the number of rows given,
 * *place grows by it, and the rest of the list is unchanged. *rows is the number of rows of the block:
 * where *place is then not below *rows no row is left; else *given is 0 exactly if the list is too short
 * for one row. *place is any number; where the block has no such row nothing is given and *place stays.
 * Start with *place 0. Refusals as for a check.
 */
uint32_t bv_block_page(const uint8_t *schema, size_t schema_len, const uint8_t *block,
                       size_t block_len, uint32_t *place, uint64_t *list, size_t room,
                       uint32_t *given, uint32_t *rows);

/* Buckets of a given number of rows. Each call judges the schema and then the whole bucket first. */

/*
 * Whether the bucket is sound. Refusals 20, 37, then 30 to 36 in the order of the layout (section 8 of
 * docs/FORMATS.md).
 */
uint32_t bv_bucket_check(const uint8_t *schema, size_t schema_len, uint32_t rows,
                         const uint8_t *bucket, size_t bucket_len);

/* One field. Refusals as for a check, then 25. */
uint32_t bv_bucket_field(const uint8_t *schema, size_t schema_len, uint32_t rows,
                         const uint8_t *bucket, size_t bucket_len, uint32_t row, uint32_t column,
                         uint8_t *kind, int64_t *whole, uint64_t *bits, uint32_t *nanos,
                         size_t *start, size_t *length);

/*
 * The fields of one column in the rows from row *place on, as many as the list takes, three numbers for
 * each row. *given is the number of rows given, *place grows by it, and the rest of the list is unchanged.
 * *place is any number; where the bucket has no such row nothing is given and *place stays. Start with
 * *place 0. Refusals as for a check, then 25 for the column.
 */
uint32_t bv_bucket_page(const uint8_t *schema, size_t schema_len, uint32_t rows,
                        const uint8_t *bucket, size_t bucket_len, uint32_t column, uint32_t *place,
                        uint64_t *list, size_t room, uint32_t *given);

#ifdef __cplusplus
}
#endif

#endif
