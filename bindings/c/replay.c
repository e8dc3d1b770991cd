/* The stored list through the C interface, natively: what the program `replay` does, on the machine at hand. It reads a list from standard input and
   prints the answer and the rows of each entry. An entry is the mode, a byte, the number of rows of the table, u16, then the book, the root, u16, the
   message's length, u32, the message; numbers are big-endian. bindings/test holds what it prints to crates/replay/stdout. */
#include "sinotayam.h"

#include <inttypes.h>
#include <stdio.h>

#define LONGEST 131082
#define ROWS 2048

static uint8_t entry[LONGEST];
static uint64_t table[ROWS * SINOTAYAM_ROW];

static size_t number(const uint8_t *p, int bytes)
{
    size_t v = 0;
    while (bytes-- > 0)
        v = v << 8 | *p++;
    return v;
}

/* The next n bytes of the list, at entry + at. */
static int filled(size_t at, size_t n)
{
    return at <= LONGEST && n <= LONGEST - at && fread(entry + at, 1, n, stdin) == n;
}

/* 0 at the end of the list, -1 where what is there is no whole entry. */
static int next(void)
{
    if (!filled(0, 1))
        return 0;
    if (!filled(1, 6))
        return -1;
    size_t book = number(entry + 3, 4), rows = number(entry + 1, 2), at = 3 + book;
    if (book < 4 || rows > ROWS || !filled(7, book - 4) || !filled(at, 6))
        return -1;
    uint16_t root = (uint16_t)number(entry + at, 2);
    size_t length = number(entry + at + 2, 4);
    if (!filled(at + 6, length))
        return -1;
    uint64_t position, need;
    uint64_t answer = sinotayam_read(entry + 3, book, root, entry + at + 6, length, entry[0], table, rows * SINOTAYAM_ROW, &position, &need);
    printf("answer %u rows %" PRIu64 "\n", (unsigned)(answer & 255), answer >> 8);
    for (uint64_t i = 0; i < answer >> 8; i++) {
        const uint64_t *r = table + i * SINOTAYAM_ROW;
        printf("%" PRIu64 " %" PRIu64 " %" PRIu64 " %" PRIu64 " %" PRIu64 "\n", r[0], r[1], r[2], r[3], r[4]);
    }
    return 1;
}

int main(void)
{
    int more;
    while ((more = next()) > 0)
        ;
    if (more < 0)
        puts("input");
    return 0;
}
