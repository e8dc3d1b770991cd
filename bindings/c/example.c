/* A message of the README's worked book, read and shown. Build it with the archive beside the header:
       tools/archive --out lib
       cc -Wall -Wextra -Wpedantic bindings/c/example.c -Ilib lib/libsinotayam.a -o example && ./example
   It prints the rows; after a refusal it says why and exits with 1. */
#include "sinotayam.h"

#include <inttypes.h>
#include <stdio.h>
#include <string.h>

#define ROWS 2048

/* books/worked.txt, as tools/book --hex writes it. */
static const uint8_t book[] = {
    0x00, 0x00, 0x00, 0x71, 0x01, 0x00, 0x05,
    0x00, 0x0E, SINOTAYAM_KIND_UINT16, 0, 0, 0, 0, 0, 0, 0, 0xFF, 0xFF, 0, 0,
    0x00, 0x0E, SINOTAYAM_KIND_INT8, 0, 0, 0, 0, 0, 0, 0, 0xFF, 0xFF, 0, 0,
    0x00, 0x0E, SINOTAYAM_KIND_STRING8, 0, 0, 0, 0, 0, 0, 0, 0xFF, 0xFF, 0, 0,
    0x00, 0x0E, SINOTAYAM_KIND_SEQUENCE, 0, 0, 0, 0, 0, 0, 0, 0x00, 0x00, 0, 0,
    0x00, 0x32, SINOTAYAM_KIND_STRUCTURE, SINOTAYAM_APPENDABLE, 0, 0, 0, 0, 0, 0, 0xFF, 0xFF, 0, 4,
    0, 0, 0, 1, 0, 0, 0, SINOTAYAM_DISCARD, 0,
    0, 0, 0, 2, 0, 2, 0, SINOTAYAM_DISCARD, 0,
    0, 0, 0, 3, 0, 3, 0, SINOTAYAM_DISCARD, 0,
    0, 0, 0, 4, 0, 1, 0, SINOTAYAM_DISCARD, 0,
};
static const uint16_t root = 4;

static const uint8_t message[] = {
    0x00, 0x09, 0x00, 0x00, 0x15, 0x00, 0x00, 0x00, 0x74, 0x0E, 0x00, 0x00, 0x03, 0x00, 0x00, 0x00, 0x42, 0x37, 0x00,
    0x00, 0x02, 0x00, 0x00, 0x00, 0x10, 0x0E, 0x6A, 0x0E, 0xFB,
};

static uint64_t table[ROWS * SINOTAYAM_ROW];
static uint32_t types[SINOTAYAM_INDEX];

static const char *words_of(uint8_t number)
{
    switch (number) {
    case SINOTAYAM_READ: return "read";
    case SINOTAYAM_NOT_ENOUGH_DATA: return "the data ends before the type does";
    case SINOTAYAM_INVALID_DATA: return "bad data";
    case SINOTAYAM_INVALID_TYPE: return "the root or a discriminator is of a wrong kind";
    case SINOTAYAM_NOT_PREPARED: return "the index holds no types";
    case SINOTAYAM_BAD_ROOT: return "the book has no such type";
    case SINOTAYAM_TOO_LONG: return "the message has more than 65,536 bytes";
    case SINOTAYAM_UNSUPPORTED: return "a type that is not supported was to be read";
    case SINOTAYAM_TOO_DEEP: return "more than 16 values, each in the other";
    case SINOTAYAM_NO_ROOM: return "the table, or the index, is too small";
    case SINOTAYAM_NO_DISCRIMINATOR: return "a union's discriminator is not in the message";
    case SINOTAYAM_NOT_TEXT: return "the row is no text inside the data";
    case SINOTAYAM_UNFIT: return "the type does not pass the check";
    case SINOTAYAM_BOOK_HEAD: return "the book's head";
    case SINOTAYAM_BOOK_RECORD_LENGTH: return "a record's length";
    case SINOTAYAM_BOOK_CODE_RANGE: return "a code out of range";
    case SINOTAYAM_BOOK_TYPE_LINK: return "a link to another type";
    case SINOTAYAM_BOOK_BOUND: return "a bound";
    case SINOTAYAM_BOOK_MEMBER_LIST: return "a list of members";
    case SINOTAYAM_BOOK_FIRST_MEMBER: return "a union's first member";
    default: return "a number that this program does not know";
    }
}

/* UTF-16 in the message's byte order, as UTF-8. The reading has judged that its units make pairs. */
static void show_utf16(const uint8_t *text, uint64_t units, int little)
{
    uint32_t high = 0;
    for (uint64_t i = 0; i < units; i++) {
        uint32_t c = little ? text[2 * i] | (uint32_t)text[2 * i + 1] << 8 : (uint32_t)text[2 * i] << 8 | text[2 * i + 1];
        if (c >= 0xD800 && c < 0xDC00) {
            high = c;
            continue;
        }
        if (c >= 0xDC00 && c < 0xE000)
            c = 0x10000 + ((high - 0xD800) << 10) + (c - 0xDC00);
        if (c < 0x80) {
            putchar((int)c);
        } else if (c < 0x800) {
            putchar((int)(0xC0 | c >> 6));
            putchar((int)(0x80 | (c & 0x3F)));
        } else if (c < 0x10000) {
            putchar((int)(0xE0 | c >> 12));
            putchar((int)(0x80 | (c >> 6 & 0x3F)));
            putchar((int)(0x80 | (c & 0x3F)));
        } else {
            putchar((int)(0xF0 | c >> 18));
            putchar((int)(0x80 | (c >> 12 & 0x3F)));
            putchar((int)(0x80 | (c >> 6 & 0x3F)));
            putchar((int)(0x80 | (c & 0x3F)));
        }
    }
}

static void show_value(const uint64_t *row)
{
    float f;
    double d;
    uint32_t bits = (uint32_t)row[2];
    switch (row[0]) {
    case SINOTAYAM_KIND_INT8:
    case SINOTAYAM_KIND_INT16:
    case SINOTAYAM_KIND_INT32:
    case SINOTAYAM_KIND_INT64: printf("%" PRId64, (int64_t)row[2]); break;
    case SINOTAYAM_KIND_FLOAT32:
        memcpy(&f, &bits, sizeof f);
        printf("%g", (double)f);
        break;
    case SINOTAYAM_KIND_FLOAT64:
        memcpy(&d, &row[2], sizeof d);
        printf("%g", d);
        break;
    case SINOTAYAM_KIND_FLOAT128: printf("0x%016" PRIx64 "%016" PRIx64, row[3], row[2]); break;
    case SINOTAYAM_KIND_ENUM: printf("an enum of type %" PRIu64, row[2]); break;
    case SINOTAYAM_KIND_STRUCTURE: printf("a structure of type %" PRIu64 ", %" PRIu64 " rows", row[2], row[3]); break;
    case SINOTAYAM_KIND_UNION: printf("a union of type %" PRIu64 ", %" PRIu64 " rows", row[2], row[3]); break;
    case SINOTAYAM_KIND_SEQUENCE: printf("a list of %" PRIu64, row[3]); break;
    default: printf("%" PRIu64, row[2]); break;
    }
}

static void show(uint64_t rows, const uint8_t *data, size_t size, int little)
{
    for (uint64_t i = 0; i < rows; i++) {
        const uint64_t *row = table + i * SINOTAYAM_ROW; /* kind, id, a, b, place */
        printf("at %" PRIu64 ", id %" PRIu64 ": ", row[4], row[1]);
        if (sinotayam_text(table, ROWS * SINOTAYAM_ROW, i, data, size) != 0)
            show_value(row);
        else if (row[0] == SINOTAYAM_KIND_STRING16)
            show_utf16(data + row[2], row[3], little);
        else
            printf("%.*s", (int)row[3], (const char *)data + row[2]);
        putchar('\n');
    }
}

static int refused(const char *call, uint8_t number)
{
    fprintf(stderr, "%s: %u, %s\n", call, number, words_of(number));
    return 1;
}

int main(void)
{
    uint64_t position, need;

    /* once for each book: its rules are judged, and its types found. Use the index only after 0. */
    uint8_t judged = sinotayam_prepare(book, sizeof book, types, SINOTAYAM_INDEX);
    if (judged != 0) {
        uint32_t fault = sinotayam_fault(book, sizeof book);
        if (fault != 0)
            fprintf(stderr, "the book is wrong in record %u (%u is its head)\n", (unsigned)(fault >> 8), SINOTAYAM_HEAD);
        return refused("prepare", judged);
    }

    /* once for each root that the app reads: 0 says that 3, 9, 11, 12 and 17 to 23 cannot come up in any message of it, and that no member
       is read by another's header */
    uint8_t fits = sinotayam_check(book, sizeof book, root, SINOTAYAM_ANY_ENCODING);
    if (fits != 0)
        return refused("check", fits);

    /* for each message */
    uint64_t answer = sinotayam_read_prepared(book, sizeof book, types, SINOTAYAM_INDEX, root, message, sizeof message,
                                              SINOTAYAM_STANDARD, table, ROWS * SINOTAYAM_ROW, &position, &need);
    uint8_t number = answer & 255;
    if (number == SINOTAYAM_NOT_ENOUGH_DATA)
        fprintf(stderr, "at byte %" PRIu64 " of the data %" PRIu64 " more were needed\n", position, need);
    if (number != 0)
        return refused("read", number);
    show(answer >> 8, message + 4, sizeof message - 4, message[1] % 2);
    return 0;
}
