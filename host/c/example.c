/* example.c: previews and writes a route as a record, reads it back with a trim below zero,
 * compares it with another box's records, previews a save over one of them, reads the record from a
 * link that drops its tail, sending for it again on refusal 9 alone, says which records are routes,
 * chooses the grammar of records of two kinds, and exports the route as XDR and imports it.
 *
 *     cc -std=c11 -Wall -Wextra -Werror -Ihost/c host/c/example.c crates/route_c/out/libroute_c.a */

#include <inttypes.h>
#include <stdio.h>
#include <string.h>

#include "route_record.h"

/* The route: a box's serial number, and the channels on the path, each with its offset trim and its
 * gain steps. */
static const uint32_t grammar[] = {
    6,                             /* six nodes: kind, first child word, count of children */
    ROUTE_KIND_TUPLE, 0, 2,        /* node 0, the root: a tuple of nodes 5 and 1 */
    ROUTE_KIND_ARRAY, 2, 1,        /* node 1: an array of node 2 */
    ROUTE_KIND_TUPLE, 3, 3,        /* node 2, a channel: a tuple of nodes 5, 3 and 4 */
    ROUTE_KIND_INT32, 0, 0,        /* node 3: an int32, the offset trim */
    ROUTE_KIND_UINT64_ARRAY, 0, 0, /* node 4: an array of uint64, the gain steps */
    ROUTE_KIND_UINT32, 0, 0,       /* node 5: a uint32, a serial number or a channel's */
    6,                             /* six child words; a child's number is above its node's */
    5, 1,                          /* of node 0 */
    2,                             /* of node 1 */
    5, 3, 4,                       /* of node 2 */
};

/* Another kind of record: a box's serial number alone, a uint32. */
static const uint32_t serial_grammar[] = {1, ROUTE_KIND_UINT32, 0, 0, 0};

/* The gain steps of both channels, packed: pack_steps fills it. */
static uint8_t store[24];

/* The value: serial number 7, channel 1 with trim -3 and two steps, channel 2 with trim 4 and one
 * step. A row is kind, span, word 2, for an array of numbers the offset in the store, and the size:
 * the bytes of the row's value in the record, its children's included. */
static const uint64_t rows[] = {
    ROUTE_KIND_TUPLE, 11, 2, 0, 68,          /* the tuple: 11 rows in all, 2 fields, 4 + 64 bytes */
    ROUTE_KIND_UINT32, 1, 7, 0, 4,           /* serial number 7 */
    ROUTE_KIND_ARRAY, 9, 2, 0, 64,           /* 2 channels: 8 bytes for the count, and 32 + 24 */
    ROUTE_KIND_TUPLE, 4, 3, 0, 32,           /* a channel: 3 fields, 4 + 4 + 24 bytes */
    ROUTE_KIND_UINT32, 1, 1, 0, 4,           /* its number */
    ROUTE_KIND_INT32, 1, (uint32_t)-3, 0, 4, /* its trim, as its pattern of 32 bits */
    ROUTE_KIND_UINT64_ARRAY, 1, 2, 0, 24,    /* 2 steps, from byte 0 of the store on */
    ROUTE_KIND_TUPLE, 4, 3, 0, 24,           /* the other channel */
    ROUTE_KIND_UINT32, 1, 2, 0, 4,           /* its number */
    ROUTE_KIND_INT32, 1, 4, 0, 4,            /* its trim */
    ROUTE_KIND_UINT64_ARRAY, 1, 1, 16, 16,   /* 1 step, from byte 16 on */
};

enum {
    GRAMMAR_WORDS = sizeof grammar / sizeof *grammar,
    SERIAL_GRAMMAR_WORDS = sizeof serial_grammar / sizeof *serial_grammar,
    LIST_WORDS = 1 + 1 + SERIAL_GRAMMAR_WORDS + 1 + GRAMMAR_WORDS, /* counts and both grammars */
    WORDS = sizeof rows / sizeof *rows,
    ROWS = WORDS / ROUTE_ROW_WORDS,
    TRIM_ROW = 5, /* the row of the first channel's trim */
    ATTEMPTS = 4  /* how often a record is sent for at most */
};

static void print_refusal(const char *call, route_answer answer)
{
    static const char *const places[] = {"", "word", "byte", "row"};
    printf("%s: refused %" PRIu64 " at %s %" PRIu64 ": %s\n", call, answer.number,
           places[answer.place_kind], answer.place, route_refusal_meaning(answer.number));
}

/* Puts the gain steps into the store. Gives whether that was accepted. */
static int pack_steps(void)
{
    const uint64_t steps[] = {3, 5, 8};
    route_answer answer = route_pack_u64_seq(steps, 3, store, sizeof store, 0);
    if (answer.number != 0) {
        print_refusal("pack", answer);
        return 0;
    }
    return 1;
}

/* Prints what saving the route over the bytes of out, which are named, would do, as a panel shows
 * it before a save. Gives whether writing would be accepted. */
static int print_preview(const char *what, const uint8_t *out, size_t out_len)
{
    route_answer answer = route_preview(grammar, GRAMMAR_WORDS, rows, WORDS, ROWS, store,
                                        sizeof store, out, out_len, 0);
    if (answer.number != 0) {
        print_refusal("preview", answer);
        return 0;
    }
    printf("a save over %s: %" PRIu64 " bytes, %" PRIu64 " would differ\n", what, answer.first,
           answer.second);
    return 1;
}

/* Writes the route to out and gives its length, 0 if the library refuses. */
static size_t write_route(uint8_t *out, size_t out_len)
{
    route_answer answer = route_marshall(grammar, GRAMMAR_WORDS, rows, WORDS, ROWS, store,
                                         sizeof store, out, out_len);
    if (answer.number != 0) {
        print_refusal("write", answer);
        return 0;
    }
    return (size_t)answer.first;
}

/* Reads a record and prints its rows and its first trim. Gives whether it was accepted. */
static int print_rows(const uint8_t *record, size_t length)
{
    uint64_t read[WORDS];
    route_answer answer = route_demarshall(grammar, GRAMMAR_WORDS, record, length, read, WORDS);
    if (answer.number != 0) {
        print_refusal("read", answer);
        return 0;
    }
    size_t n = (size_t)answer.first;
    printf("rows %zu\n", n);
    for (size_t row = 0; row < n; row++) {
        const uint64_t *words = read + ROUTE_ROW_WORDS * row;
        for (size_t i = 0; i < ROUTE_ROW_WORDS; i++)
            printf(i == 0 ? "%" PRIu64 : " %" PRIu64, words[i]);
        printf("\n");
    }
    answer = route_signed_number(read, WORDS, n, record, length, TRIM_ROW);
    if (answer.number != 0) {
        print_refusal("trim", answer);
        return 0;
    }
    printf("trim of the first channel: %" PRId64 "\n", (int64_t)answer.first);
    return 1;
}

/* Prints whether two records of one length, which differ in what is named, are of the same route.
 * Gives whether both were accepted. */
static int print_same(const char *what, const uint8_t *first, const uint8_t *second, size_t length)
{
    route_answer answer = route_same_route(grammar, GRAMMAR_WORDS, first, length, second, length);
    if (answer.number != 0) {
        print_refusal("same route", answer);
        return 0;
    }
    printf("same route, %s: %s\n", what, answer.first == 1 ? "yes" : "no");
    return 1;
}

/* Stands for a link that drops the tail of a record at the first two attempts. Gives how many of
 * the record's bytes arrive. */
static size_t receive(int attempt, size_t length)
{
    return attempt == 1 ? length / 2 : attempt == 2 ? length - 1 : length;
}

/* Reads a record from the link, in at most ATTEMPTS attempts, and sends for it again on 9 alone:
 * route_record.h says why, at "Cut records". Gives whether the record was accepted. */
static int read_from_link(const uint8_t *record, size_t length)
{
    uint64_t read[WORDS];
    route_answer answer;
    int attempt = 0;
    do {
        attempt++;
        size_t arrived = receive(attempt, length);
        printf("attempt %d: %zu bytes\n", attempt, arrived);
        answer = route_demarshall(grammar, GRAMMAR_WORDS, record, arrived, read, WORDS);
        if (answer.number != 0)
            print_refusal("read", answer);
    } while (answer.number == ROUTE_REFUSED_BYTES_MISSING && attempt < ATTEMPTS);
    if (answer.number == 0)
        printf("read: accepted, rows %" PRIu64 "\n", answer.first);
    return answer.number == 0;
}

/* Prints whether a record is a route. 0 values begun says that it was not even read: it is shorter
 * than every route. Gives whether the grammar was accepted. */
static int print_accepts(const uint8_t *record, size_t length)
{
    route_answer answer = route_accepts(grammar, GRAMMAR_WORDS, record, length);
    if (answer.number != 0) {
        print_refusal("accepts", answer);
        return 0;
    }
    printf("%zu bytes, a route: %s, values begun %" PRIu64 "\n", length,
           answer.first == 1 ? "yes" : "no", answer.second);
    return 1;
}

/* Puts a grammar behind a list of so many words, and gives how many they are then. */
static size_t put_grammar(uint32_t *list, size_t length, const uint32_t *words, size_t count)
{
    list[0]++;
    list[length] = (uint32_t)count;
    memcpy(list + length + 1, words, count * sizeof *words);
    return length + 1 + count;
}

/* Prints which kind a record is of, the serial number or the route. Gives whether it is of one. */
static int print_kind(const uint8_t *record, size_t length)
{
    uint32_t list[LIST_WORDS] = {0};
    size_t list_len = put_grammar(list, 1, serial_grammar, SERIAL_GRAMMAR_WORDS);
    list_len = put_grammar(list, list_len, grammar, GRAMMAR_WORDS);
    route_answer answer = route_choose_grammar(list, list_len, record, length);
    if (answer.number != 0) {
        print_refusal("choose", answer);
        return 0;
    }
    printf("%zu bytes: grammar %" PRIu64 ", values begun %" PRIu64 "\n", length, answer.first,
           answer.second);
    return 1;
}

/* Writes the route as XDR, as the rack controller reads it, and reads that into rows and a store of
 * its own. Prints the first four numbers, which are the serial number, the count of channels, the
 * first channel's number and its trim, and what the import gives. Gives whether the route came back
 * as it was. */
static int print_xdr(void)
{
    uint8_t xdr[128], arrays[sizeof store];
    uint64_t read[WORDS];
    route_answer answer = route_export_xdr(grammar, GRAMMAR_WORDS, rows, WORDS, ROWS, store,
                                           sizeof store, xdr, sizeof xdr, 0);
    if (answer.number != 0) {
        print_refusal("export", answer);
        return 0;
    }
    size_t length = (size_t)answer.first;
    printf("XDR of %zu bytes:", length);
    for (size_t i = 0; i < 16; i++)
        printf(i % 4 == 0 ? " %02x" : "%02x", xdr[i]);
    printf(" ..\n");
    answer =
        route_import_xdr(grammar, GRAMMAR_WORDS, xdr, length, read, WORDS, arrays, sizeof arrays);
    if (answer.number != 0) {
        print_refusal("import", answer);
        return 0;
    }
    printf("import: rows %" PRIu64 ", bytes of the store %" PRIu64 "\n", answer.first,
           answer.second);
    return memcmp(read, rows, sizeof rows) == 0 && memcmp(arrays, store, sizeof store) == 0;
}

int main(void)
{
    uint8_t record[128] = {0};
    if (!pack_steps() || !print_preview("zeros", record, sizeof record))
        return 1;
    size_t length = write_route(record, sizeof record);
    printf("record of %zu bytes\n", length);
    if (length == 0 || !print_rows(record, length))
        return 1;

    /* A box with another serial number, the root's first field, on the same route. */
    uint8_t other[128];
    write_route(other, sizeof other);
    other[0] = 8;
    if (!print_same("another serial number", record, other, length))
        return 1;

    /* That box on another route: the last gain step, the record's last 8 bytes, is 9. */
    other[length - 8] = 9;
    if (!print_same("another gain step", record, other, length) ||
        !print_preview("that box's record", other, length))
        return 1;

    if (!read_from_link(record, length))
        return 1;

    /* The record, all but its last byte, and its first four bytes. */
    if (!print_accepts(record, length) || !print_accepts(record, length - 1) ||
        !print_accepts(record, 4))
        return 1;

    /* The record's first four bytes, the serial number, and the whole record, as two records that
     * come over one port. */
    if (!print_kind(record, 4) || !print_kind(record, length))
        return 1;

    return print_xdr() ? 0 : 1;
}
