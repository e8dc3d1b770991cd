// The port's side: reads cases from standard input, hands each to the C interface, writes the answers. No header is included: the functions are
// those of the archive, or under the same names those of an object that nothing proved (compare/build.sh).
//   in   1, length u32, book           the book of the messages that follow
//        2, root u16, standard u8, words u32, length u32, message
//   out  for each message: answer u64 (rows * 256 + number), what is told (position u64, need u64), marks u8, the book's fault u32 (record * 256 + number),
//        and the rows if the number is 0
//        marks: 1 the table is zero after the last row; 2 the prepared reading gives the same answer, tells the same and leaves the same table, or, where
//        the book is not right, preparing gives the book's number and the prepared reading 8; and the fault has that number
// All numbers little-endian.
typedef unsigned char u8;
typedef unsigned short u16;
typedef unsigned int u32;
typedef unsigned long u64;

long read(int, void *, u64);
long write(int, const void *, u64);
void exit(int);

u64 sinotayam_read(const u8 *, u64, u16, const u8 *, u64, u8, u64 *, u64, u64 *, u64 *);
u32 sinotayam_fault(const u8 *, u64);
u8 sinotayam_prepare(const u8 *, u64, u32 *, u64);
u64 sinotayam_read_prepared(const u8 *, u64, const u32 *, u64, u16, const u8 *, u64, u8, u64 *, u64, u64 *, u64 *);

#define ROW 5
#define WORDS (1 << 20)
#define BYTES (1 << 18)
static u8 in[1 << 20], out[1 << 20];
static u64 in_at, in_end, out_end;
static u8 book[BYTES], message[BYTES];
static u64 table[WORDS], again[WORDS];
static u32 index[65];

static int get(u8 *to, u64 n)
{
    for (u64 i = 0; i < n; i++) {
        if (in_at == in_end) {
            long got = read(0, in, sizeof in);
            if (got <= 0)
                return 0;
            in_at = 0;
            in_end = got;
        }
        to[i] = in[in_at++];
    }
    return 1;
}

static void flush(void)
{
    u64 done = 0;
    while (done < out_end) {
        long k = write(1, out + done, out_end - done);
        if (k <= 0)
            exit(2);
        done += k;
    }
    out_end = 0;
}

static void put(const void *from, u64 n)
{
    const u8 *p = from;
    for (u64 i = 0; i < n; i++) {
        if (out_end == sizeof out)
            flush();
        out[out_end++] = p[i];
    }
}

static u32 number(int n)
{
    u8 b[4] = { 0 };
    if (!get(b, n))
        exit(3);
    return b[0] | b[1] << 8 | b[2] << 16 | (u32)b[3] << 24;
}

static void one(u64 book_length)
{
    u16 root = number(2);
    u8 standard = number(1);
    u32 words = number(4), length = number(4);
    if (words > WORDS || length > BYTES || !get(message, length))
        exit(4);
    for (u32 i = 0; i < words; i++)
        table[i] = again[i] = 0x5a5a5a5a5a5a5a5a + i;
    u64 told[2] = { 7, 7 }, again_told[2] = { 8, 8 };
    u64 answer = sinotayam_read(book, book_length, root, message, length, standard, table, words, &told[0], &told[1]);
    u64 rows = answer >> 8;
    u8 marks = 1 | 2;
    for (u64 i = rows * ROW; i < words; i++)
        if (table[i])
            marks &= ~1;
    u8 prepared = sinotayam_prepare(book, book_length, index, 65);
    u64 second = sinotayam_read_prepared(book, book_length, index, 65, root, message, length, standard, again, words, &again_told[0], &again_told[1]);
    u32 fault = sinotayam_fault(book, book_length);
    if (again_told[0] != told[0] || again_told[1] != told[1])
        marks &= ~2;
    if (prepared != (fault & 255) || second != (prepared ? 8 : answer) || (prepared && answer != prepared))
        marks &= ~2;
    for (u64 i = 0; i < words; i++)
        if (table[i] != again[i])
            marks &= ~2;
    put(&answer, 8);
    put(told, 16);
    put(&marks, 1);
    put(&fault, 4);
    if ((answer & 255) == 0)
        put(table, rows * ROW <= (u64)words ? rows * ROW * 8 : 0);
}

int main(void)
{
    u8 tag;
    u64 book_length = 0;
    while (get(&tag, 1)) {
        if (tag == 1) {
            book_length = number(4);
            if (book_length > BYTES || !get(book, book_length))
                exit(4);
        } else {
            one(book_length);
        }
    }
    flush();
    return 0;
}
