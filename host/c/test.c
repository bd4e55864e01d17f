/* Runs the test vectors through the calls of route_record.h, and what no vector says. The arrays of
 * a vector stand in pages of their own, against a forbidden page behind them and then against one
 * before them, and what a call may only read cannot be written: a call that touches more than it
 * may ends the program. Prints a line for each failure and, last, 'N passed, M failed'. */

#define _DEFAULT_SOURCE

#include <setjmp.h>
#include <signal.h>
#include <stdio.h>
#include <stdlib.h>
#include <string.h>
#include <sys/mman.h>
#include <unistd.h>

#include "route_record.h"

/* A call with what it is given and what comes of it, as text: numbers in decimal digits, slices as
 * parts with commas between them, a part that comes again with '*' and how often behind it. */
typedef struct vector {
    const char *name, *call;
    const char *given[6];
    const char *after[3]; /* the lent arrays after an accepted call, in order, and NULL */
    route_answer answer;
} vector;

#include "vectors.h" /* the table: `vectors c` makes it from the files of vectors/ */

static unsigned passed, failed;

/* What the program is about, for a line about a failure. */
static const char *subject = "";

static void check(const char *expected, int holds)
{
    if (holds) {
        passed++;
    } else {
        failed++;
        printf("%s: not so: %s\n", subject, expected);
    }
}

#define CHECK(expected) check(#expected, expected)

static void ends(const char *why)
{
    printf("%s: %s\n", subject, why);
    exit(1);
}

/* Where a byte is touched on purpose, to see whether that is a fault. */
static sigjmp_buf tried;
static volatile sig_atomic_t is_tried;

static void on_fault(int signal)
{
    (void)signal;
    if (is_tried)
        siglongjmp(tried, 1);
    ends("memory was touched that no argument lends");
}

/* Whether a byte cannot be read, or cannot be written. */
static int faults(volatile uint8_t *byte, int is_written)
{
    is_tried = 1;
    if (sigsetjmp(tried, 1) == 0) {
        uint8_t content = *byte;
        if (is_written)
            *byte = content;
        is_tried = 0;
        return 0;
    }
    is_tried = 0;
    return 1;
}

static int equal(route_answer one, route_answer other)
{
    return one.number == other.number && one.place_kind == other.place_kind &&
           one.place == other.place && one.first == other.first && one.second == other.second;
}

static int refused(route_answer answer, uint64_t number, uint64_t place_kind, uint64_t place)
{
    return equal(answer, (route_answer){number, place_kind, place, 0, 0});
}

static int gives(route_answer answer, uint64_t first)
{
    return equal(answer, (route_answer){0, 0, 0, first, 0});
}

static int gives_two(route_answer answer, uint64_t first, uint64_t second)
{
    return equal(answer, (route_answer){0, 0, 0, first, second});
}

/* An argument of a call: a number, or an array. */
typedef struct argument {
    uint64_t number;
    void *array;
    size_t length;
} argument;

/* Each call by its name, with a letter for each argument: n a number, b, w and r an array of bytes,
 * of uint32 and of uint64, as capital letters if it is lent. */
#define CALLS(CALL)                                                                            \
    CALL(unpack_u32, "bn", ARRAY(0), NUMBER(1))                                                \
    CALL(unpack_u64, "bn", ARRAY(0), NUMBER(1))                                                \
    CALL(pack_u32, "nBn", (uint32_t)NUMBER(0), ARRAY(1), NUMBER(2))                            \
    CALL(pack_u64, "nBn", NUMBER(0), ARRAY(1), NUMBER(2))                                      \
    CALL(unpack_u32_seq, "bnW", ARRAY(0), NUMBER(1), ARRAY(2))                                 \
    CALL(unpack_u64_seq, "bnR", ARRAY(0), NUMBER(1), ARRAY(2))                                 \
    CALL(pack_u32_seq, "wBn", ARRAY(0), ARRAY(1), NUMBER(2))                                   \
    CALL(pack_u64_seq, "rBn", ARRAY(0), ARRAY(1), NUMBER(2))                                   \
    CALL(check_grammar, "w", ARRAY(0))                                                         \
    CALL(compute_size_of, "rnb", ARRAY(0), NUMBER(1), ARRAY(2))                                \
    CALL(locate_array, "rnbn", ARRAY(0), NUMBER(1), ARRAY(2), NUMBER(3))                       \
    CALL(signed_number, "rnbn", ARRAY(0), NUMBER(1), ARRAY(2), NUMBER(3))                      \
    CALL(parse_val, "wbnR", ARRAY(0), ARRAY(1), NUMBER(2), ARRAY(3))                           \
    CALL(demarshall, "wbR", ARRAY(0), ARRAY(1), ARRAY(2))                                      \
    CALL(check_val, "wbn", ARRAY(0), ARRAY(1), NUMBER(2))                                      \
    CALL(check_whole, "wb", ARRAY(0), ARRAY(1))                                                \
    CALL(check_val_with, "wbnn", ARRAY(0), ARRAY(1), NUMBER(2), NUMBER(3))                     \
    CALL(check_whole_with, "wbn", ARRAY(0), ARRAY(1), NUMBER(2))                               \
    CALL(marshall_val, "wrnbBn", ARRAY(0), ARRAY(1), NUMBER(2), ARRAY(3), ARRAY(4), NUMBER(5)) \
    CALL(marshall, "wrnbB", ARRAY(0), ARRAY(1), NUMBER(2), ARRAY(3), ARRAY(4))                 \
    CALL(preview, "wrnbbn", ARRAY(0), ARRAY(1), NUMBER(2), ARRAY(3), ARRAY(4), NUMBER(5))      \
    CALL(same_route, "wbb", ARRAY(0), ARRAY(1), ARRAY(2))                                      \
    CALL(choose_grammar, "wb", ARRAY(0), ARRAY(1))                                             \
    CALL(export_xdr, "wrnbBn", ARRAY(0), ARRAY(1), NUMBER(2), ARRAY(3), ARRAY(4), NUMBER(5))   \
    CALL(import_xdr, "wbRB", ARRAY(0), ARRAY(1), ARRAY(2), ARRAY(3))                           \
    CALL(accepts, "wb", ARRAY(0), ARRAY(1))

#define NUMBER(i) a[i].number
#define ARRAY(i) a[i].array, a[i].length

#define DEFINE(name, letters, ...)                     \
    static route_answer call_##name(const argument *a) \
    {                                                  \
        return route_##name(__VA_ARGS__);              \
    }
CALLS(DEFINE)

#define LIST(name, letters, ...) {#name, letters, call_##name, 0},
static struct call {
    const char *name, *letters;
    route_answer (*make)(const argument *);
    unsigned vectors;
} calls[] = {CALLS(LIST)};

enum { CALL_COUNT = sizeof calls / sizeof *calls, VECTOR_COUNT = sizeof vectors / sizeof *vectors };

static struct call *call_of(const char *name)
{
    for (size_t i = 0; i < CALL_COUNT; i++)
        if (strcmp(calls[i].name, name) == 0)
            return &calls[i];
    ends("there is no such call");
    return NULL;
}

/* The memory of the arrays: for each argument pages between two forbidden ones, which hold the
 * longest slice of the vectors. */
enum { PAGES_SIZE = 4 << 20, ARGUMENTS = 6 };
static uint8_t *pages[ARGUMENTS];

static void map_pages(void)
{
    size_t page = (size_t)sysconf(_SC_PAGESIZE);
    for (int i = 0; i < ARGUMENTS; i++) {
        uint8_t *memory =
            mmap(NULL, PAGES_SIZE + 2 * page, PROT_NONE, MAP_PRIVATE | MAP_ANONYMOUS, -1, 0);
        if (memory == MAP_FAILED)
            ends("there is no memory");
        pages[i] = memory + page;
    }
}

static void protect(int i, int protection)
{
    if (mprotect(pages[i], PAGES_SIZE, protection) != 0)
        ends("the memory cannot be protected");
}

/* Bytes of one element of an array with this letter. */
static size_t width_of(char letter)
{
    return strchr("bB", letter) ? 1 : strchr("wW", letter) ? 4 : 8;
}

/* Puts the element that text begins with behind the others; gives the text behind it. */
static const char *put_element(uint8_t *to, const char *text, size_t width)
{
    char *end, digits[3] = {text[0], text[1], 0};
    if (width == 1) {
        *to = (uint8_t)strtoul(digits, &end, 16);
        return text + 2;
    }
    uint64_t number = strtoull(text, &end, 10);
    uint32_t word = (uint32_t)number;
    memcpy(to, width == 4 ? (void *)&word : &number, width);
    return *end == ' ' ? end + 1 : end;
}

/* Puts the elements of a text there; gives how many bytes they have. */
static size_t put_elements(uint8_t *to, const char *text, size_t width)
{
    size_t size = 0;
    while (*text != 0) {
        size_t start = size;
        while (*text != 0 && *text != ',' && *text != '*') {
            text = put_element(to + size, text, width);
            size += width;
        }
        char *end = (char *)text;
        unsigned long times = *text == '*' ? strtoul(text + 1, &end, 10) : 1;
        size_t part = size - start;
        for (; times > 1; times--, size += part)
            memcpy(to + size, to + start, part);
        text = *end == ',' ? end + 1 : end;
    }
    return size;
}

/* Where the arrays of a call stand: before the forbidden page behind them, behind the one before
 * them, or before it with null pointers in the place of empty ones. */
enum side { BEFORE_A_PAGE, BEHIND_A_PAGE, WITH_NULL };

enum { MARGIN = 64, FILL = 0xa5 };

static uint8_t scratch[PAGES_SIZE];

/* Makes argument i of this letter from its text. Around an array there is a margin. */
static argument make_argument(int i, char letter, const char *text, enum side side)
{
    argument made = {0, NULL, 0};
    if (letter == 'n') {
        made.number = strtoull(text, NULL, 10);
        return made;
    }
    size_t width = width_of(letter), size = put_elements(scratch, text, width);
    size_t place = side == BEHIND_A_PAGE ? 0 : PAGES_SIZE - size;
    protect(i, PROT_READ | PROT_WRITE);
    memset(side == BEHIND_A_PAGE ? pages[i] + size : pages[i] + place - MARGIN, FILL, MARGIN);
    memcpy(pages[i] + place, scratch, size);
    if (strchr("bwr", letter))
        protect(i, PROT_READ);
    made.array = size == 0 && side == WITH_NULL ? NULL : pages[i] + place;
    made.length = size / width;
    return made;
}

/* Whether the lent array holds what the text says, and its margin what it did. */
static int holds(int i, char letter, const argument *lent, const char *text, enum side side)
{
    size_t size = put_elements(scratch, text, width_of(letter));
    const uint8_t *start = side == BEHIND_A_PAGE ? pages[i] : pages[i] + PAGES_SIZE - size;
    const uint8_t *margin = side == BEHIND_A_PAGE ? start + size : start - MARGIN;
    for (int k = 0; k < MARGIN; k++)
        if (margin[k] != FILL)
            return 0;
    return size == lent->length * width_of(letter) && memcmp(start, scratch, size) == 0;
}

/* Checks that the byte next to an array cannot be read, and that its own can be written only if it
 * is lent. */
static void check_pages(char letter, const argument *made, enum side side)
{
    size_t size = made->length * width_of(letter);
    uint8_t *start = made->array;
    CHECK(faults(side == BEHIND_A_PAGE ? start - 1 : start + size, 0));
    CHECK(size == 0 || faults(start, 1) == (strchr("bwr", letter) != NULL));
}

static int has_empty_array(const struct call *call, const vector *v)
{
    for (int i = 0; call->letters[i] != 0; i++)
        if (call->letters[i] != 'n' && v->given[i][0] == 0)
            return 1;
    return 0;
}

/* Makes the call of a vector with its arrays there, and checks all that comes of it. */
static void run(const struct call *call, const vector *v, enum side side)
{
    argument arguments[ARGUMENTS];
    for (int i = 0; call->letters[i] != 0; i++) {
        arguments[i] = make_argument(i, call->letters[i], v->given[i], side);
        if (arguments[i].array != NULL)
            check_pages(call->letters[i], &arguments[i], side);
    }
    CHECK(equal(call->make(arguments), v->answer));
    const char *const *after = v->after;
    for (int i = 0; call->letters[i] != 0; i++)
        if (strchr("BWR", call->letters[i])) {
            const char *text = *after != NULL ? *after++ : v->given[i];
            CHECK(holds(i, call->letters[i], &arguments[i], text, side));
        }
}

static void run_vectors(void)
{
    for (size_t i = 0; i < VECTOR_COUNT; i++) {
        subject = vectors[i].name;
        struct call *call = call_of(vectors[i].call);
        call->vectors++;
        run(call, &vectors[i], BEFORE_A_PAGE);
        run(call, &vectors[i], BEHIND_A_PAGE);
        if (has_empty_array(call, &vectors[i]))
            run(call, &vectors[i], WITH_NULL);
    }
    for (size_t i = 0; i < CALL_COUNT; i++) {
        subject = calls[i].name;
        CHECK(calls[i].vectors > 0);
    }
}

/* Lengths of arrays that no memory holds: the longest that the header allows, one whose bytes would
 * wrap to 0, and the greatest. Those above the first break the header's rule, to see that they too
 * are refused, where a refusal is due, before the array is touched. */
static void test_lengths(void)
{
    static const uint8_t bytes[8];
    static const uint32_t no_nodes[] = {0}, constant[] = {1, 0, 0, 0, 0};
    static const uint32_t no_grammars[] = {0}, list[] = {1, 5, 1, 0, 0, 0, 0};
    uint8_t *forbidden = pages[0] + PAGES_SIZE, out[8];
    uint32_t *u32 = (uint32_t *)(void *)forbidden;
    uint64_t *u64 = (uint64_t *)(void *)forbidden;
    const size_t of_u8[] = {SIZE_MAX / 2, SIZE_MAX};
    const size_t of_u32[] = {SIZE_MAX / 8, SIZE_MAX / 4 + 1, SIZE_MAX};
    const size_t of_u64[] = {SIZE_MAX / 16, SIZE_MAX / 8 + 1, SIZE_MAX};

    subject = "lengths";
    for (int i = 0; i < 3; i++) {
        CHECK(refused(route_unpack_u32_seq(bytes, 8, 1, u32, of_u32[i]), 9, 2, 1));
        CHECK(refused(route_unpack_u64_seq(bytes, 8, 1, u64, of_u64[i]), 9, 2, 1));
        CHECK(refused(route_unpack_u32_seq(bytes, 8, 9, u32, of_u32[i]), 7, 2, 9));
        CHECK(refused(route_unpack_u64_seq(bytes, 8, 9, u64, of_u64[i]), 7, 2, 9));
        CHECK(refused(route_pack_u32_seq(u32, of_u32[i], out, 8, 4), 17, 2, 8));
        CHECK(refused(route_pack_u64_seq(u64, of_u64[i], out, 8, 8), 17, 2, 8));
        CHECK(refused(route_check_grammar(no_nodes, of_u32[i]), 1, 1, 0));
        CHECK(refused(route_check_grammar(constant, of_u32[i]), 2, 1, 4));
        CHECK(refused(route_compute_size_of(u64, of_u64[i], 0, bytes, 8), 12, 3, 0));
        CHECK(
            refused(route_compute_size_of(u64, of_u64[i], ROUTE_MAX_ROWS + 1, bytes, 8), 12, 3, 0));
        CHECK(refused(route_check_whole(constant, of_u32[i], bytes, 8), 2, 1, 4));
        CHECK(refused(route_check_whole_with(constant, of_u32[i], bytes, 8, 0), 2, 1, 4));
        CHECK(refused(route_choose_grammar(no_grammars, of_u32[i], bytes, 8), 21, 1, 0));
        CHECK(refused(route_choose_grammar(list, of_u32[i], bytes, 8), 21, 1, 0));
        CHECK(refused(route_accepts(no_nodes, of_u32[i], bytes, 8), 1, 1, 0));
        CHECK(refused(route_accepts(constant, of_u32[i], bytes, 8), 2, 1, 4));
        CHECK(refused(
            route_import_xdr(constant, of_u32[i], bytes, 8, u64, ROUTE_ROW_WORDS, forbidden, 8), 2,
            1, 4));
        CHECK(refused(route_import_xdr(constant, 5, bytes, 8, u64, of_u64[i], forbidden, 8), 11, 2,
                      0));
    }
    for (int i = 0; i < 2; i++) {
        CHECK(refused(route_unpack_u32(forbidden, of_u8[i], of_u8[i]), 9, 2, of_u8[i]));
        CHECK(refused(route_unpack_u64(forbidden, of_u8[i], of_u8[i] - 7), 9, 2, of_u8[i] - 7));
        CHECK(refused(route_pack_u32(7, forbidden, of_u8[i], of_u8[i] - 3), 17, 2, of_u8[i]));
        CHECK(refused(route_pack_u64(7, forbidden, of_u8[i], of_u8[i]), 17, 2, of_u8[i]));
        CHECK(refused(route_check_val(constant, 5, forbidden, of_u8[i], 1), 6, 2, 0));
        CHECK(refused(route_check_val_with(constant, 5, forbidden, of_u8[i], 1, 0), 6, 2, 0));
        CHECK(refused(route_check_whole_with(constant, 5, forbidden, of_u8[i], 0), 6, 2, 0));
        CHECK(
            refused(route_compute_size_of(u64, ROUTE_ROW_WORDS, 1, forbidden, of_u8[i]), 6, 2, 0));
        CHECK(refused(route_demarshall(constant, 5, forbidden, of_u8[i], u64, of_u64[0]), 6, 2, 0));
        CHECK(equal(route_same_route(constant, 5, bytes, 0, forbidden, of_u8[i]),
                    (route_answer){6, 2, 0, 0, 2}));
        CHECK(refused(route_choose_grammar(list, 7, forbidden, of_u8[i]), 6, 2, 0));
        CHECK(gives_two(route_accepts(constant, 5, forbidden, of_u8[i]), 0, 0));
        CHECK(refused(
            route_import_xdr(constant, 5, forbidden, of_u8[i], u64, ROUTE_ROW_WORDS, out, 8), 6, 2,
            0));
        CHECK(refused(
            route_import_xdr(constant, 5, bytes, 0, u64, ROUTE_ROW_WORDS, forbidden, of_u8[i]), 6,
            2, 0));
        CHECK(gives(route_marshall(constant, 5, (const uint64_t[]){0, 1, 0, 0, 0}, of_u64[i], 1,
                                   NULL, 0, forbidden, of_u8[i]),
                    0));
    }
}

/* Lengths of outputs that no memory holds: a preview or an export that is refused, or of no bytes,
 * does not touch the output. */
static void test_output_lengths(void)
{
    static const uint32_t constant[] = {1, 0, 0, 0, 0}, number[] = {1, 1, 0, 0, 0};
    static const uint64_t constant_row[] = {0, 1, 0, 0, 0}, number_row[] = {1, 1, 7, 0, 4};
    uint8_t *forbidden = pages[0] + PAGES_SIZE;
    const size_t lengths[] = {SIZE_MAX / 2, SIZE_MAX};

    subject = "lengths of an output";
    for (int i = 0; i < 2; i++) {
        size_t length = lengths[i];
        CHECK(gives_two(route_preview(constant, 5, constant_row, ROUTE_ROW_WORDS, 1, NULL, 0,
                                      forbidden, length, length),
                        0, 0));
        CHECK(refused(route_preview(number, 5, number_row, ROUTE_ROW_WORDS, 1, NULL, 0, forbidden,
                                    length, length - 3),
                      17, 2, length));
        CHECK(gives(route_export_xdr(constant, 5, constant_row, ROUTE_ROW_WORDS, 1, NULL, 0,
                                     forbidden, length, length),
                    0));
        CHECK(refused(route_export_xdr(number, 5, number_row, ROUTE_ROW_WORDS, 1, NULL, 0,
                                       forbidden, length, length - 3),
                      17, 2, length));
    }
}

/* The longest record, of bytes that are not all the same, through every call that takes one. */
static void test_longest(void)
{
    enum { COUNT = ROUTE_MAX_BYTES - 8, OUT = ROUTE_MAX_BYTES + 14 };
    static const uint32_t grammar[] = {1, ROUTE_KIND_BYTE_ARRAY, 0, 0, 0};
    static const uint32_t list[] = {
        2, 5, 1, ROUTE_KIND_UINT64, 0, 0, 0, 5, 1, ROUTE_KIND_BYTE_ARRAY, 0, 0, 0};
    static uint8_t record[ROUTE_MAX_BYTES] = {0xf8, 0xff, 0x0f}, other[ROUTE_MAX_BYTES], out[OUT];
    uint64_t rows[ROUTE_ROW_WORDS], different = 8;

    subject = "the longest record";
    for (size_t i = 8; i < ROUTE_MAX_BYTES; i++) {
        record[i] = (uint8_t)(i % 251);
        different += record[i] != FILL;
    }
    CHECK(gives_two(route_demarshall(grammar, 5, record, ROUTE_MAX_BYTES, rows, ROUTE_ROW_WORDS), 1,
                    ROUTE_MAX_BYTES));
    CHECK(rows[0] == ROUTE_KIND_BYTE_ARRAY && rows[1] == 1 && rows[2] == COUNT && rows[3] == 8 &&
          rows[4] == ROUTE_MAX_BYTES);
    memset(out, FILL, OUT);
    CHECK(gives_two(
        route_preview(grammar, 5, rows, ROUTE_ROW_WORDS, 1, record, ROUTE_MAX_BYTES, out, OUT, 5),
        ROUTE_MAX_BYTES, different));
    CHECK(gives(route_marshall_val(grammar, 5, rows, ROUTE_ROW_WORDS, 1, record, ROUTE_MAX_BYTES,
                                   out, OUT, 5),
                ROUTE_MAX_BYTES));
    CHECK(memcmp(out + 5, record, ROUTE_MAX_BYTES) == 0);
    for (size_t i = 0; i < 5; i++)
        CHECK(out[i] == FILL && out[OUT - 1 - i] == FILL);
    CHECK(gives_two(
        route_preview(grammar, 5, rows, ROUTE_ROW_WORDS, 1, record, ROUTE_MAX_BYTES, out, OUT, 5),
        ROUTE_MAX_BYTES, 0));
    memcpy(other, record, ROUTE_MAX_BYTES);
    CHECK(gives(route_same_route(grammar, 5, record, ROUTE_MAX_BYTES, other, ROUTE_MAX_BYTES), 1));
    other[ROUTE_MAX_BYTES - 1] ^= 1;
    CHECK(gives(route_same_route(grammar, 5, record, ROUTE_MAX_BYTES, other, ROUTE_MAX_BYTES), 0));
    CHECK(gives_two(route_choose_grammar(list, 13, record, ROUTE_MAX_BYTES), 1, 2));
    CHECK(refused(route_choose_grammar(list, 13, record, ROUTE_MAX_BYTES - 1), 22, 2, 0));
    CHECK(gives_two(route_accepts(grammar, 5, record, ROUTE_MAX_BYTES), 1, 1));
    CHECK(gives_two(route_accepts(grammar, 5, record, ROUTE_MAX_BYTES - 1), 0, 1));
}

/* The longest XDR, of bytes that are not all the same, and a byte more. Its record is too long to
 * be written, since its count has 4 bytes more. */
static void test_longest_xdr(void)
{
    enum { COUNT = ROUTE_MAX_BYTES - 4, OUT = ROUTE_MAX_BYTES + 14 };
    static const uint32_t grammar[] = {1, ROUTE_KIND_BYTE_ARRAY, 0, 0, 0};
    static const uint64_t row[] = {ROUTE_KIND_BYTE_ARRAY, 1, COUNT, 0, 8 + COUNT};
    static const uint64_t longer[] = {ROUTE_KIND_BYTE_ARRAY, 1, COUNT + 1, 0, 8 + COUNT + 1};
    static uint8_t elements[ROUTE_MAX_BYTES], store[ROUTE_MAX_BYTES], out[OUT];
    uint64_t rows[ROUTE_ROW_WORDS];

    subject = "the longest XDR";
    for (size_t i = 0; i < ROUTE_MAX_BYTES; i++)
        elements[i] = (uint8_t)(i % 251);
    memset(out, FILL, OUT);
    memset(store, FILL, ROUTE_MAX_BYTES);
    CHECK(refused(route_export_xdr(grammar, 5, longer, ROUTE_ROW_WORDS, 1, elements,
                                   ROUTE_MAX_BYTES, out, OUT, 5),
                  16, 3, 0));
    CHECK(refused(route_marshall_val(grammar, 5, row, ROUTE_ROW_WORDS, 1, elements, ROUTE_MAX_BYTES,
                                     out, OUT, 5),
                  16, 3, 0));
    CHECK(gives(route_export_xdr(grammar, 5, row, ROUTE_ROW_WORDS, 1, elements, ROUTE_MAX_BYTES,
                                 out, OUT, 5),
                ROUTE_MAX_BYTES));
    CHECK(out[5] == 0 && out[6] == 0x0f && out[7] == 0xff && out[8] == 0xfc);
    CHECK(memcmp(out + 9, elements, COUNT) == 0);
    for (size_t i = 0; i < 5; i++)
        CHECK(out[i] == FILL && out[OUT - 1 - i] == FILL);
    CHECK(refused(route_import_xdr(grammar, 5, out + 5, ROUTE_MAX_BYTES, rows, ROUTE_ROW_WORDS,
                                   store, COUNT - 1),
                  17, 2, COUNT - 1));
    CHECK(refused(route_import_xdr(grammar, 5, out + 5, ROUTE_MAX_BYTES + 1, rows, ROUTE_ROW_WORDS,
                                   store, ROUTE_MAX_BYTES),
                  6, 2, 0));
    CHECK(gives_two(route_import_xdr(grammar, 5, out + 5, ROUTE_MAX_BYTES, rows, ROUTE_ROW_WORDS,
                                     store, ROUTE_MAX_BYTES),
                    1, COUNT));
    CHECK(memcmp(rows, row, sizeof row) == 0 && memcmp(store, elements, COUNT) == 0);
    for (size_t i = COUNT; i < ROUTE_MAX_BYTES; i++)
        CHECK(store[i] == FILL);
}

/* The numbers of rows that the header names are those of the calls: an array of constants that has
 * so many rows, its own among them, is accepted, and one that has a row more is not. */
static void test_rows(void)
{
    static const uint32_t grammar[] = {2, ROUTE_KIND_ARRAY, 0, 1, ROUTE_KIND_CONSTANT, 0, 0, 1, 1};
    static const uint32_t list[] = {1, 9, 2, ROUTE_KIND_ARRAY, 0, 1, ROUTE_KIND_CONSTANT, 0,
                                    0, 1, 1};
    const size_t capacities[] = {ROUTE_MAX_ROWS, ROUTE_MAX_ROWS + 1, SIZE_MAX};
    uint8_t most[8], more[8];

    subject = "the rows of a check";
    CHECK(gives(route_pack_u64(ROUTE_CHECK_ROWS - 1, most, 8, 0), 0));
    CHECK(gives(route_pack_u64(ROUTE_CHECK_ROWS, more, 8, 0), 0));
    CHECK(gives_two(route_check_val(grammar, 9, most, 8, 0), ROUTE_CHECK_ROWS, 8));
    CHECK(gives_two(route_check_whole(grammar, 9, most, 8), ROUTE_CHECK_ROWS, 8));
    CHECK(refused(route_check_val(grammar, 9, more, 8, 0), 8, 2, 0));
    CHECK(refused(route_check_whole(grammar, 9, more, 8), 8, 2, 0));

    subject = "the most rows";
    CHECK(gives(route_pack_u64(ROUTE_MAX_ROWS - 1, most, 8, 0), 0));
    CHECK(gives(route_pack_u64(ROUTE_MAX_ROWS, more, 8, 0), 0));
    for (int i = 0; i < 3; i++) {
        size_t capacity = capacities[i];
        CHECK(gives_two(route_check_val_with(grammar, 9, most, 8, 0, capacity), ROUTE_MAX_ROWS, 8));
        CHECK(gives_two(route_check_whole_with(grammar, 9, most, 8, capacity), ROUTE_MAX_ROWS, 8));
        CHECK(refused(route_check_val_with(grammar, 9, more, 8, 0, capacity), 8, 2, 0));
        CHECK(refused(route_check_whole_with(grammar, 9, more, 8, capacity), 8, 2, 0));
    }
    CHECK(gives(route_same_route(grammar, 9, most, 8, most, 8), 1));
    CHECK(equal(route_same_route(grammar, 9, most, 8, more, 8), (route_answer){8, 2, 0, 0, 2}));
    CHECK(gives_two(route_choose_grammar(list, 11, most, 8), 0, ROUTE_MAX_ROWS));
    CHECK(refused(route_choose_grammar(list, 11, more, 8), 22, 2, 0));
    CHECK(gives_two(route_accepts(grammar, 9, most, 8), 1, ROUTE_MAX_ROWS));
    CHECK(gives_two(route_accepts(grammar, 9, more, 8), 0, 1));

    static const uint8_t most_xdr[] = {0, 0, 0x0f, 0xff}, more_xdr[] = {0, 0, 0x10, 0};
    static uint64_t rows[ROUTE_ROW_WORDS * (ROUTE_MAX_ROWS + 1)];
    for (int i = 0; i < 2; i++) {
        size_t words = ROUTE_ROW_WORDS * capacities[i];
        CHECK(gives_two(route_import_xdr(grammar, 9, most_xdr, 4, rows, words, NULL, 0),
                        ROUTE_MAX_ROWS, 0));
        CHECK(refused(route_import_xdr(grammar, 9, more_xdr, 4, rows, words, NULL, 0), 8, 2, 0));
    }

    subject = "a word too few for the last row";
    size_t words = ROUTE_ROW_WORDS * ROUTE_MAX_ROWS - 1;
    CHECK(refused(route_demarshall(grammar, 9, most, 8, rows, words), 8, 2, 0));
    CHECK(gives_two(route_demarshall(grammar, 9, most, 8, rows, words + 1), ROUTE_MAX_ROWS, 8));
    CHECK(refused(route_compute_size_of(rows, words, ROUTE_MAX_ROWS, NULL, 0), 12, 3, 0));
    CHECK(gives(route_compute_size_of(rows, words + 1, ROUTE_MAX_ROWS, NULL, 0), 8));
}

/* Arrays that are only read may be the same one, or overlap. */
static void test_overlapping(void)
{
    static const uint32_t bytes[] = {1, ROUTE_KIND_BYTE_ARRAY, 0, 0, 0};
    static const uint8_t record[] = {2, 0, 0, 0, 0, 0, 0, 0, 0, 0, 0, 0, 0, 0, 0, 0};
    static const uint64_t row[] = {ROUTE_KIND_BYTE_ARRAY, 1, 2, 8, 10};
    static const uint32_t list[] = {1, 5, 1, ROUTE_KIND_UINT32, 0, 0, 0};

    subject = "records that overlap";
    CHECK(gives(route_same_route(bytes, 5, record, 10, record, 10), 1));
    CHECK(gives(route_same_route(bytes, 5, record, 10, record + 1, 8), 0));
    CHECK(gives(route_same_route(bytes, 5, record + 1, 8, record + 2, 8), 1));
    CHECK(
        equal(route_same_route(bytes, 5, record + 1, 8, record, 9), (route_answer){9, 2, 0, 0, 2}));

    subject = "a list and a record that overlap";
    CHECK(gives_two(route_choose_grammar(list, 7, (const uint8_t *)list, 4), 0, 1));
    CHECK(refused(route_choose_grammar(list, 7, (const uint8_t *)list, sizeof list), 22, 2, 0));

    subject = "a grammar and a record that overlap";
    CHECK(gives_two(route_accepts(list + 2, 5, (const uint8_t *)list, 4), 1, 1));
    CHECK(gives_two(route_accepts(list + 2, 5, (const uint8_t *)(list + 2), 3), 0, 0));

    subject = "a store and an output that overlap";
    CHECK(gives_two(route_preview(bytes, 5, row, ROUTE_ROW_WORDS, 1, record, 10, record, 10, 0), 10,
                    0));
    CHECK(gives_two(route_preview(bytes, 5, row, ROUTE_ROW_WORDS, 1, record, 10, record + 1, 10, 0),
                    10, 1));
    CHECK(gives_two(route_preview(bytes, 5, row, ROUTE_ROW_WORDS, 1, record + 1, 10, record, 16, 6),
                    10, 1));

    static const uint8_t of_the_row[] = {0, 0, 0, 2, 1, 0, 0, 0};
    uint8_t out[8];
    subject = "rows that are the store";
    CHECK(gives(route_export_xdr(bytes, 5, row, ROUTE_ROW_WORDS, 1, (const uint8_t *)row,
                                 sizeof row, out, 8, 0),
                8));
    CHECK(memcmp(out, of_the_row, 8) == 0);
}

/* A signed number by the casts of the header: its pattern in the row, and `first` of the answer. */
static void test_casts(void)
{
    enum { NUMBERS = 7 };
    static const int32_t of_32[NUMBERS] = {0, 1, INT32_MAX, INT32_MIN, INT32_MIN + 1, -3, -1};
    static const int64_t of_64[NUMBERS] = {0, 1, INT64_MAX, INT64_MIN, INT64_MIN + 1, -3, -1};

    subject = "casts";
    for (int i = 0; i < NUMBERS; i++) {
        const uint64_t row_32[] = {ROUTE_KIND_INT32, 1, (uint32_t)of_32[i], 0, 4};
        route_answer a = route_signed_number(row_32, ROUTE_ROW_WORDS, 1, NULL, 0, 0);
        CHECK(gives(a, (uint64_t)of_32[i]) && (int64_t)a.first == of_32[i]);
        const uint64_t row_64[] = {ROUTE_KIND_INT64, 1, (uint64_t)of_64[i], 0, 8};
        a = route_signed_number(row_64, ROUTE_ROW_WORDS, 1, NULL, 0, 0);
        CHECK(gives(a, (uint64_t)of_64[i]) && (int64_t)a.first == of_64[i]);
    }
}

static void test_meanings(void)
{
    subject = "meanings";
    for (uint64_t number = 1; number <= ROUTE_REFUSED_PADDING_NOT_ZERO; number++)
        CHECK(strcmp(route_refusal_meaning(number), route_refusal_meaning(0)) != 0);
    CHECK(strcmp(route_refusal_meaning(ROUTE_REFUSED_PADDING_NOT_ZERO + 1),
                 route_refusal_meaning(0)) == 0);
}

int main(void)
{
    signal(SIGSEGV, on_fault);
    signal(SIGBUS, on_fault);
    map_pages();
    run_vectors();
    test_lengths();
    test_output_lengths();
    test_longest();
    test_longest_xdr();
    test_rows();
    test_overlapping();
    test_casts();
    test_meanings();
    printf("%u passed, %u failed\n", passed, failed);
    return failed != 0 || passed == 0;
}
