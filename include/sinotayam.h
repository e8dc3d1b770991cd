/* Sinotayam: messages of DDS into value rows. Every call takes any input, ends, and writes nothing outside what it is lent.
   A length counts elements: bytes of a book, a message or data, words of a table or an index. A pointer is not null and its memory does not
   overlap a part that is written, even where the length is 0. A call keeps nothing and takes no memory of its own but stack: 37,236 bytes were the most that was
   found (README.md says how). */
#ifndef SINOTAYAM_H
#define SINOTAYAM_H

#include <stddef.h>
#include <stdint.h>

#ifdef __cplusplus
extern "C" {
#endif

/* The numbers given back. */
enum {
    SINOTAYAM_READ = 0,
    SINOTAYAM_NOT_ENOUGH_DATA = 1,
    SINOTAYAM_INVALID_DATA = 2,
    SINOTAYAM_INVALID_TYPE = 3,
    SINOTAYAM_NOT_PREPARED = 8,
    SINOTAYAM_BAD_ROOT = 9,
    SINOTAYAM_TOO_LONG = 10,
    SINOTAYAM_UNSUPPORTED = 11,
    SINOTAYAM_TOO_DEEP = 12,
    SINOTAYAM_NO_ROOM = 13,
    SINOTAYAM_NO_DISCRIMINATOR = 14,
    SINOTAYAM_NOT_TEXT = 15,
    SINOTAYAM_UNFIT = 16,
    /* what is wrong with a book */
    SINOTAYAM_BOOK_HEAD = 17,
    SINOTAYAM_BOOK_RECORD_LENGTH = 18,
    SINOTAYAM_BOOK_CODE_RANGE = 19,
    SINOTAYAM_BOOK_TYPE_LINK = 20,
    SINOTAYAM_BOOK_BOUND = 21,
    SINOTAYAM_BOOK_MEMBER_LIST = 22,
    SINOTAYAM_BOOK_FIRST_MEMBER = 23
};

/* How XCDR2 is read, which each reading call is told: as the crate dust_dds does, or as DDS-XTypes 1.3 does (any other number is that too).
   XCDR1 is read alike in both. */
enum {
    SINOTAYAM_CRATE = 0,
    SINOTAYAM_STANDARD = 1
};

/* The words of a row: kind, id, a, b, place. The place is where the row's value stood in the data, which is the message without its first four bytes: the first
   byte of a number, of a text's length; for a structure, enum or union the place where it was opened, for a list that after its length, for an array that
   after any DHEADER. A table holds as many rows as it has words for, divided by this. */
#define SINOTAYAM_ROW 5

/* The words in which the index of any book has room. */
#define SINOTAYAM_INDEX 65

/* The kinds of types, in a book; a row's kind is one of them too. docs/BOOK.md has the book's form. */
enum {
    SINOTAYAM_KIND_NONE = 0,
    SINOTAYAM_KIND_BOOLEAN = 1,
    SINOTAYAM_KIND_BYTE = 2,
    SINOTAYAM_KIND_INT16 = 3,
    SINOTAYAM_KIND_INT32 = 4,
    SINOTAYAM_KIND_INT64 = 5,
    SINOTAYAM_KIND_UINT16 = 6,
    SINOTAYAM_KIND_UINT32 = 7,
    SINOTAYAM_KIND_UINT64 = 8,
    SINOTAYAM_KIND_FLOAT32 = 9,
    SINOTAYAM_KIND_FLOAT64 = 10,
    SINOTAYAM_KIND_FLOAT128 = 11,
    SINOTAYAM_KIND_INT8 = 12,
    SINOTAYAM_KIND_UINT8 = 13,
    SINOTAYAM_KIND_CHAR8 = 14,
    SINOTAYAM_KIND_CHAR16 = 15,
    SINOTAYAM_KIND_STRING8 = 16,
    SINOTAYAM_KIND_STRING16 = 17,
    SINOTAYAM_KIND_ALIAS = 18,
    SINOTAYAM_KIND_BITMASK = 19,
    SINOTAYAM_KIND_ANNOTATION = 20,
    SINOTAYAM_KIND_ENUM = 21,
    SINOTAYAM_KIND_STRUCTURE = 22,
    SINOTAYAM_KIND_UNION = 23,
    SINOTAYAM_KIND_BITSET = 24,
    SINOTAYAM_KIND_SEQUENCE = 25,
    SINOTAYAM_KIND_ARRAY = 26,
    SINOTAYAM_KIND_MAP = 27
};

/* Of a type in a book: its extensibility. */
enum {
    SINOTAYAM_FINAL = 0,
    SINOTAYAM_APPENDABLE = 1,
    SINOTAYAM_MUTABLE = 2
};

/* Of a member in a book: its flags, which are added up, and its try-construct. */
enum {
    SINOTAYAM_OPTIONAL = 1,
    SINOTAYAM_DEFAULT = 2
};

enum {
    SINOTAYAM_USE_DEFAULT = 0,
    SINOTAYAM_DISCARD = 1,
    SINOTAYAM_TRIM = 2
};

/* No type: a record's element and a literal's type, where there is none. */
#define SINOTAYAM_NO_TYPE 65535

/* Reads a message of the book's type `root`, in the mode that `standard` says. Returns rows * 256 + number. The table holds the rows and then zeros; on a refusal it is all zero.
   Into *position and *need goes what is told of a 1: the place in the data where the read that ran short began, and how many bytes it still needed,
   which is over 0. Of a message under 4 bytes they are 0 and 4 minus its length; for every other number both are 0. */
uint64_t sinotayam_read(const uint8_t *book, size_t book_len, uint16_t root, const uint8_t *message, size_t message_len, uint8_t standard, uint64_t *table, size_t words, uint64_t *position, uint64_t *need);

/* The record that stands for the book's head. */
#define SINOTAYAM_HEAD 65535

/* What is wrong with a book: record * 256 + number, and 0 for a right one. The number is 17 to 23, the record is counted from 0, or SINOTAYAM_HEAD.
   The first broken rule in reading order is told: a record's own bytes before its members, bytes left after the last record last. */
uint32_t sinotayam_fault(const uint8_t *book, size_t book_len);

/* Which encodings a type is used with, which the type check is told: any, or XCDR2 only (any other number is that too). */
enum {
    SINOTAYAM_ANY_ENCODING = 0,
    SINOTAYAM_ONLY_XCDR2 = 1
};

/* The type check: 0 where every reading of the book's type `root`, in either mode, gives 0, 1, 2, 10, 13 or 14, and no member's header is taken for
   another's; 17 to 23 for a book that breaks a rule, 9 for a root that is none of its types, else 16. Asked of the ids in each structure or union that is
   Mutable or has an optional member: for any encoding, that their low 16 bits differ and are at most 16,383; for XCDR2 only, that each is at
   most 268,435,455. */
uint8_t sinotayam_check(const uint8_t *book, size_t book_len, uint16_t root, uint8_t only_xcdr2);

/* Judges a book once, and fills an index for sinotayam_read_prepared. Returns 0; 17 to 23 for a book that breaks a rule; 13 where the
   index has fewer words than the book has types and one more. After any number but 0 the index holds no types, and every reading with it is 8, also
   where sinotayam_read would read: use an index only after 0. */
uint8_t sinotayam_prepare(const uint8_t *book, size_t book_len, uint32_t *index, size_t index_len);

/* The same as sinotayam_read, with an index for which sinotayam_prepare returned 0 on the same book: the book is not judged again. */
uint64_t sinotayam_read_prepared(const uint8_t *book, size_t book_len, const uint32_t *index, size_t index_len, uint16_t root, const uint8_t *message, size_t message_len, uint8_t standard, uint64_t *table, size_t words, uint64_t *position, uint64_t *need);

/* Whether row number `row` of the table is a text whose place is inside the data, which is the message without its first four bytes: 0 or 15.
   Where it is 0, the text is the b bytes (kind 16) or 2 * b bytes (kind 17) from data + a on. */
uint8_t sinotayam_text(const uint64_t *table, size_t words, size_t row, const uint8_t *data, size_t data_len);

#ifdef __cplusplus
}
#endif

#endif
